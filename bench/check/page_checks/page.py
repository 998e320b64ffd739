"""Pages as their readers have them: headings, links, tables, fenced blocks, and the rules for these
that need no program.
"""
import collections
import functools
import pathlib
import re
from collections import namedtuple

TOP = pathlib.Path(__file__).resolve().parents[3]
FRONT = 'README.md'
PAGES = [FRONT, 'CONTRIBUTING.md', 'CHANGELOG.md'] + sorted(
    str(path.relative_to(TOP)) for path in (TOP / 'docs').glob('**/*.md')
)
# pages whose links are tested, but whose blocks aren't run
OTHERS = ['yoke/README.md']
COMMANDS = re.compile(
    r'\s*(\.\.?/editor|yokeorange|yoke|curl|osmium|grep|python3|cd|cp|install|sed|rt) '
)
# the words of a fence whose block is a file, where a name stands after them
FILES = ('script', 'opl', 'python', 'answers', 'xml', 'json', 'csv', 'rules')
MOST_WORDS = 3_500  # of a page that is read at one sitting
FEWER_WORDS = {'docs/PROOF.md': 2_800}

Block = namedtuple('Block', 'line kind words text')
Heading = namedtuple('Heading', 'page line level text anchor')
Table = namedtuple('Table', 'page line heads rows')  # rows: lists of cells
Link = namedtuple(
    'Link', 'page line target anchor'
)  # target: a path from the top, without the anchor


class Wrong(Exception):
    """What a page says isn't so."""


# ---- lines ----


@functools.lru_cache(maxsize=None)
def lines_of(page):
    """The lines of a page."""
    return (TOP / page).read_text(encoding='utf-8').split('\n')


@functools.lru_cache(maxsize=None)
def told(page):
    """The lines of a page outside its blocks, with their numbers."""
    found, fence = [], None
    for number, line in enumerate(lines_of(page), 1):
        mark = re.match(r' *(```+)', line)
        if mark and fence is None:
            fence = mark[1]
        elif fence is not None:
            fence = None if line.strip() == fence else fence
        else:
            found.append((number, line))
    return found


def text_of(page):
    """What a page tells outside its blocks."""
    return '\n'.join(line for _, line in told(page))


def phrase(pattern):
    """What a pattern's group is, or all of it, in what the pages tell: the same wherever it stands."""
    found = {
        hit[hit.lastindex or 0]
        for page in PAGES
        for hit in re.finditer(pattern, text_of(page), re.M)
    }
    if len(found) != 1:
        raise Wrong('{} unlike places have {}'.format(len(found) or 'no', pattern))
    return found.pop()


# ---- blocks ----


def sections(page):
    """The sections of a page with fenced blocks: the heading's text and its blocks."""
    heading, blocks, found = page, [], []
    lines = lines_of(page)
    at, before = 0, ''
    while at < len(lines):
        line = lines[at]
        fence = re.match(r'( *)```(.*)$', line)
        if fence:
            end = next((i for i in range(at + 1, len(lines)) if lines[i].strip() == '```'), None)
            if end is None:
                raise Wrong(f'line {at + 1}: the fence is never closed')
            words = fence[2].split() or ['text']
            text = ''.join(inner[len(fence[1]) :] + '\n' for inner in lines[at + 1 : end])
            blocks.append(Block(at + 1, words[0], words[1:], text))
            shows_its_name(
                blocks[-1], next((line for line in lines[at - 1 :: -1] if line.strip()), '')
            )
            writes_whole(blocks[-1])
            at = end
        elif (
            line.startswith('    ')
            and before == ''
            and not lines[at - 2].lstrip().startswith(('-', '*', '1'))
        ):
            raise Wrong(f'line {at + 1}: an indented block, which nothing runs')
        elif line.startswith('#'):
            found.append((heading, blocks))
            heading, blocks = line.strip('# '), []
        before = lines[at]
        at += 1
    return [(heading, blocks) for heading, blocks in found + [(heading, blocks)] if blocks]


def shows_its_name(block, before):
    """A block that is a file has its name where a reader of the rendered page sees it: in its first
    line or in the line before.
    """
    if block.kind in FILES and block.words:
        name = block.words[0]
        if f'`{name}`' not in before and block.text.split('\n')[0] not in (
            '# ' + name,
            f'<!-- {name} -->',
        ):
            raise Wrong(
                'line {}: nobody who reads the rendered page sees that this block is the file {}'.format(
                    block.line, name
                )
            )


TO_A_FILE = re.compile(r'(?<![0-9&-])(?:1|&)?>>?\|?\s*(?!&|/dev/(?:null|stderr|stdout)\b)[^\s&|;]+')


def writes_whole(block):
    """No command writes to a file by `>`: texts in quotation marks and comments aside."""
    if block.kind == 'sh':
        text = re.sub(r"'[^']*'|\"[^\"]*\"|(?:^|(?<=\s))#.*", '_', block.text, flags=re.M)
        found = TO_A_FILE.search(text)
        if found:
            raise Wrong(
                'line {}: {} leaves a file that is empty or cut off where the command fails; see examples/python/whole.py'.format(
                    block.line, found[0]
                )
            )


def all_sections():
    """The sections of all pages with fenced blocks: page, heading, blocks."""
    return [(page, heading, blocks) for page in PAGES for heading, blocks in sections(page)]


def all_blocks():
    """The blocks of all pages."""
    return [block for _, _, blocks in all_sections() for block in blocks]


def blocks_with(text):
    """The texts of the blocks of commands, in whatever page, that have this text in them; one at
    least.
    """
    found = list(
        dict.fromkeys(
            block.text
            for block in all_blocks()
            if block.kind == 'sh' and block.words != ['elsewhere'] and text in block.text
        )
    )
    if not found:
        raise Wrong(f'no block of commands has {text}')
    return found


# ---- headings and links ----


@functools.lru_cache(maxsize=None)
def headings(page):
    """The headings of a page, with the names under which they are linked."""
    found, times = [], collections.Counter()
    for number, line in told(page):
        hit = re.match(r'(#+) (.*?)\s*#*$', line)
        if hit:
            text = re.sub(r'\[([^\]]*)\]\([^)]*\)', r'\1', hit[2])
            name = re.sub(r'[^\w\- ]', '', text.lower()).replace(' ', '-')
            found.append(
                Heading(
                    page,
                    number,
                    len(hit[1]),
                    text,
                    f'{name}-{times[name]}' if times[name] else name,
                )
            )
            times[name] += 1
    return found


def anchors(page):
    """The names under which places of a page are linked: its headings, and what it names itself."""
    return {heading.anchor for heading in headings(page)} | set(
        re.findall(r'<a (?:id|name)="([^"]+)">', text_of(page))
    )


LINK = re.compile(
    r'\]\(([^)\s]*)(?: "[^"]*")?\)|^\[[^\]]+\]: (\S+)|\b(?:src|srcset|href)="([^"]*)"'
)


def link_of(page, number, written):
    """A link of a page to a file or a place, or None where it leads elsewhere."""
    name, _, anchor = written.partition('#')
    if ':' in name:
        return None
    target = pathlib.PurePosixPath(page).parent / name if name else pathlib.PurePosixPath(page)
    parts = []
    for part in target.parts:
        parts = parts[:-1] if part == '..' and parts else parts + [part]
    return Link(page, number, '/'.join(parts), anchor)


@functools.lru_cache(maxsize=None)
def links(page):
    """The links of a page to files and places of this repository."""
    found = []
    for number, line in told(page):
        for hit in LINK.finditer(re.sub(r'`[^`]*`', '_', line)):
            link = link_of(page, number, hit[1] if hit[1] is not None else hit[2] or hit[3])
            if link:
                found.append(link)
    return found


def links_lead(page):
    """Each link of a page leads somewhere, to the place in the page that it names."""
    for link in links(page):
        if not (TOP / link.target).exists():
            raise Wrong(f'line {link.line}: there is no {link.target}')
        if link.anchor and (
            not link.target.endswith('.md') or link.anchor not in anchors(link.target)
        ):
            raise Wrong(f'line {link.line}: {link.target} has no place #{link.anchor}')


def words(page):
    """How many words a page has, those of its blocks too."""
    return len(' '.join(lines_of(page)).split())


# ---- tables ----


def cells_of(line):
    """The cells of a row."""
    return [cell.strip() for cell in re.split(r'(?<!\\)\|', line.strip().strip('|'))]


@functools.lru_cache(maxsize=None)
def tables(page):
    """The tables of a page."""
    found, rows = [], []
    for number, line in told(page) + [(0, '')]:
        if line.startswith('|'):
            rows.append((number, line))
        elif rows:
            if len(rows) > 1 and re.fullmatch(r'[|\-: ]+', rows[1][1]):
                found.append(
                    Table(
                        page,
                        rows[0][0],
                        cells_of(rows[0][1]),
                        [cells_of(row) for _, row in rows[2:]],
                    )
                )
            rows = []
    return found


def tables_with(*heads):
    """The tables of all pages whose first heads are these."""
    return [
        table
        for page in PAGES
        for table in tables(page)
        if tuple(table.heads[: len(heads)]) == heads
    ]


def table(*heads):
    """The one table of all pages whose first heads are these."""
    found = tables_with(*heads)
    if len(found) != 1:
        raise Wrong('{} tables have the heads {}'.format(len(found), ' | '.join(heads)))
    return found[0]
