"""The pages as a reader meets them: names of files, links, length, and how far it is to what
somebody looks for.
"""
import functools
import os
import pathlib
import re
import shutil
import subprocess
import sys
import tempfile

from bench.check import counted
from bench.check.page_checks.case import case, expect, finds_fault
from bench.check.page_checks.entries import HEADS, NEEDED, entries
from bench.check.page_checks.page import (
    FEWER_WORDS,
    FRONT,
    MOST_WORDS,
    OTHERS,
    PAGES,
    TOP,
    Block,
    Wrong,
    headings,
    lines_of,
    link_of,
    links,
    links_lead,
    shows_its_name,
    tables,
    text_of,
    told,
    words,
    writes_whole,
)
from bench.check.page_checks.room import Room
from launcher import main as launcher, manual

NAMELESS = Block(1, 'opl', ['part.opl'], 'n1 v1 x1 y1\n')
# what somebody looks for is at most so many links from the first page
FARTHEST = 2


# ---- blocks ----


@case(
    'a file in a page shows its name, in its first line or in the line before, and the check sees where it does not'
)
def names_shown(_):
    shows_its_name(NAMELESS, 'What `part.opl` has:')
    shows_its_name(NAMELESS._replace(text='# part.opl\nn1 v1 x1 y1\n'), 'It has:')
    for before in ('It has:', 'part.opl:', '`apart.opl`', ''):
        finds_fault(lambda: shows_its_name(NAMELESS, before))


OLD_RECIPES = [
    'python3 python/session.py day.script > day.saved\n',
    'yokeorange day.script>day.saved\n',
    'cat a >> b\n',
    '{ echo x; } > repair.script\n',
    'osmium cat a.osm -f opl 1> fresh.opl\n',
    "printf 'a' > b\n",
]
HARMLESS = [
    'echo lost >&2\n',
    'rm x 2> /dev/null\n',
    "awk '$1 > 2' f\n",
    '# a > b\ncat f\n',
    'grep x f | python3 python/whole.py -o g\n',
    'cat f > /dev/null 2>&1\n',
]


@case('no recipe writes to a file by `>`, and the check sees the old ones')
def no_redirections(_):
    for text in HARMLESS:
        writes_whole(Block(1, 'sh', [], text))
    for text in OLD_RECIPES:
        finds_fault(lambda: writes_whole(Block(1, 'sh', [], text)))


# ---- links ----


@case('each link of each page leads to a file that there is, and to a heading of it')
def all_links_lead(_):
    for page in PAGES + OTHERS:
        try:
            links_lead(page)
        except Wrong as wrong:
            raise Wrong(f'{page}, {wrong}')


@case('links are read as a browser reads them')
def links_read(_):
    expect(('docs/OPL.md', ''), link_of('README.md', 1, 'docs/OPL.md')[2:])
    expect(('docs/OPL.md', 'lines'), link_of('docs/HOWTO/send.md', 1, '../OPL.md#lines')[2:])
    expect(('docs/HOWTO/send.md', 'a'), link_of('docs/HOWTO/send.md', 1, '#a')[2:])
    expect(None, link_of('README.md', 1, 'https://osm.org/x#y'))


NAMED = re.compile(
    r'(?<![\w/.-])((?:bench|docs|examples|launcher|yoke)/[a-z0-9_./-]*[a-z0-9_])(?![\w/*-]|[.][a-z])'
)


@case('each file and program of the repository that a page names is there')
def all_named_are_there(_):
    expect(
        [],
        [
            f'{page}, line {number}: {name}'
            for page in PAGES + OTHERS
            for number, line in enumerate(lines_of(page), 1)
            for name in NAMED.findall(line)
            if not (TOP / name).exists()
        ],
    )


@functools.lru_cache(maxsize=None)
def distances():
    """How many links each page is from the first one."""
    found, front = {FRONT: 0}, [FRONT]
    while front:
        page = front.pop(0)
        for link in links(page) if page in PAGES + OTHERS else []:
            if link.target not in found:
                found[link.target] = found[page] + 1
                front.append(link.target)
    return found


@case('each page can be reached from the first one')
def all_reached(_):
    expect([], [page for page in PAGES if page not in distances()])


def placed(text):
    """The pages that mkdocs.yml places in the site, those of the how-tos by the page that links to
    them.
    """
    listed = re.findall(r'^ +- (\S+\.md)$', text, re.M)
    return listed + [
        page
        for page in PAGES
        if 'docs/HOWTO/README.md' in listed
        and page in {link.target for link in links('docs/HOWTO/README.md')}
        and page.startswith('docs/HOWTO/')
        and page not in listed
    ]


def place_faults(text):
    """The pages without a place in mkdocs.yml, and the places without a page or that stand there
    twice.
    """
    listed = placed(text)
    for page in sorted({*PAGES, *OTHERS, *listed}):
        if listed.count(page) != (page in PAGES + OTHERS):
            yield f'mkdocs.yml has {page} {listed.count(page)} times'


@case(
    'each page has one place in mkdocs.yml, the order of the site, and the check sees where one has none'
)
def all_placed(_):
    text = (TOP / 'mkdocs.yml').read_text(encoding='utf-8')
    expect([], list(place_faults(text)))
    for old in (
        text.replace('      - docs/TOUR.md\n', ''),
        text + '      - docs/GONE.md\n',
        text + '      - docs/TOUR.md\n',
    ):
        expect(1, len(list(place_faults(old))))


def nearest(pages):
    """How many links the nearest of these pages is from the first one."""
    return min((distances()[page] for page in pages if page in distances()), default=FARTHEST + 1)


@case(
    'each line of a script has one entry, two links from the first page at most, and its page a link to it'
)
def lines_near(_):
    expect(counted.verbs(), sorted(word for entry in entries() for word in entry.words))
    for entry in entries():
        if nearest([entry.page]) > FARTHEST:
            raise Wrong(f'{entry.words} is too far')
        if not any(
            (link.target, link.anchor) == (entry.page, entry.anchor) for link in links(entry.page)
        ):
            raise Wrong(f'{entry.page} has no link to {entry.anchor}')


@case('all entries have the same heads in the same order, and the forms are those of their words')
def heads_alike(_):
    for entry in entries():
        expect([head for head in HEADS if head in entry.heads], entry.heads)
        expect(HEADS[:NEEDED], entry.heads[:NEEDED])
        expect(entry.words, list(dict.fromkeys(re.findall(r'`([a-z]+)', entry.parts['Form']))))


@case(
    'the sheet of lines has a link for each word with which a line of a script begins, and no other'
)
def forms(_):
    links = [
        link
        for page in PAGES
        for table in tables(page)
        if table.heads[:2] == ['you want to', 'lines of a script']
        for row in table.rows
        for link in re.findall(r'\[((?:`[^`]*`|[^]`])*)\]\(COMMANDS', row[1])
    ]
    expect(
        counted.verbs(), sorted({word for link in links for word in re.findall(r'`([a-z]+)', link)})
    )


def ways_out():
    """The pages that have the way out of each refusal: a cell of its row, or words under its
    heading.
    """
    found = {number: set() for number in counted.refusals()}
    for page in PAGES:
        for table in tables(page):
            if table.heads[0] == 'number' and 'way out' in table.heads:
                for row in table.rows:
                    if row[table.heads.index('way out')]:
                        found.get(int(row[0]), set()).add(page)
        lines = lines_of(page)
        for heading, end in zip(
            headings(page), [other.line - 1 for other in headings(page)[1:]] + [len(lines)]
        ):
            number = re.fullmatch('Refusal ([0-9]+)', heading.text)
            if number and re.search('way out', '\n'.join(lines[heading.line : end]), re.I):
                found.get(int(number[1]), set()).add(page)
    return found


@case('the way out of each refusal is two links from the first page at most')
def ways_out_near(_):
    expect([], [number for number, pages in ways_out().items() if nearest(pages) > FARTHEST])


@case(
    'each picture of docs/pictures is named by a page, with a text in its place where it is shown'
)
def pictures_shown(_):
    shown = {link.target for page in PAGES for link in links(page)}
    expect(
        [],
        [
            str(path.relative_to(TOP))
            for path in sorted((TOP / 'docs' / 'pictures').glob('*'))
            if str(path.relative_to(TOP)) not in shown
        ],
    )
    expect(
        [],
        [
            f'{page}, line {number}'
            for page in PAGES
            for number, line in told(page)
            if '![](' in line
        ],
    )


@case('pages name each program of bench/')
def programs_named(_):
    text = '\n'.join(line for page in PAGES for line in lines_of(page))
    programs = [
        path
        for folder in ('bench', 'bench/check', 'bench/time', 'bench/model', 'bench/wrong')
        for path in sorted((TOP / folder).iterdir())
        if path.is_file() and os.access(path, os.X_OK) and path.suffix != '.py'
    ]
    expect(
        [],
        [
            str(path.relative_to(TOP))
            for path in programs
            if not re.search(
                fr'{re.escape(str(path.relative_to(TOP)))}\b|`{path.name}(?: [^`]*)?`',
                text,
            )
        ],
    )


def says_for_whom(lines):
    """The first line under the title of a page says for whom it is."""
    first = next((line for line in lines[1:] if line.strip()), '')
    if not re.match(r'For (?:who|mappers|everybody|people|import teams|authors)\b', first):
        raise Wrong(f'{lines[0]} doesn\'t say for whom it is: {first}')


@case(
    'each how-to says for whom it is in the first line under its title, and the check sees where one does not'
)
def for_whom(_):
    for page in PAGES:
        if page.startswith('docs/HOWTO/'):
            says_for_whom(lines_of(page))
    for lines in (
        ['# Send', '', 'To send edits.'],
        ['# Send', '', '## For mappers'],
        ['# Send', 'Before you send', 'For mappers.'],
        ['# Send', '', 'Forwho.'],
        ['# Send'],
    ):
        finds_fault(lambda: says_for_whom(lines))


# ---- length ----


@case(
    'no page has more than {:,} words, and PROOF no more than {:,}'.format(
        MOST_WORDS, FEWER_WORDS['docs/PROOF.md']
    )
)
def sittings(_):
    expect(
        [],
        [
            f'{page}: {words(page):,}'
            for page in PAGES
            if words(page) > FEWER_WORDS.get(page, MOST_WORDS)
        ],
    )


def words_of_manual(text):
    """How many words a manual page shows, within a hundredth: those of its source but the names of
    requests, and comments.
    """
    return len(re.sub(r'^\.(\\".*|\w+)', '', text, flags=re.M).split())


def shown_by_man(text):
    """What man makes of a manual page, with its warnings on the error stream."""
    return subprocess.run(
        ['man', '--warnings', '-l', '-'],
        input=text,
        stdout=subprocess.PIPE,
        stderr=subprocess.PIPE,
        text=True,
    )


@case(
    'no manual page has more than {:,} words either, and the check counts what man shows'.format(
        MOST_WORDS
    )
)
def manual_sittings(_):
    pages = manual.of(TOP, launcher.plain_version())
    expect(
        [],
        [
            f'{name}: {words_of_manual(text):,}'
            for name, text in pages.items()
            if words_of_manual(text) > MOST_WORDS
        ],
    )
    expect(4, words_of_manual('.\\" a comment\n.TH X 1\n.PP\n\\fBtwo\\fR words\n'))
    for name, text in pages.items() if shutil.which('man') else ():
        shown = shown_by_man(text).stdout
        if abs(len(shown.split()) - words_of_manual(text)) > words_of_manual(text) // 50 + 20:
            raise Wrong(
                '{}: man shows {:,} words, and {:,} are counted'.format(
                    name, len(shown.split()), words_of_manual(text)
                )
            )


@case('README.md has at most 120 lines')
def front_page(_):
    if len(lines_of(FRONT)) > 121:
        raise Wrong(f'{len(lines_of(FRONT)) - 1} lines')


# ---- what stands beside the pages ----


@case(
    './editor --man makes a manual page for each program, with what it has to have, and man reads each without a warning'
)
def manuals(_):
    with tempfile.TemporaryDirectory() as folder:
        done = subprocess.run(
            [str(TOP / 'editor'), '--man', folder],
            stdout=subprocess.PIPE,
            stderr=subprocess.PIPE,
            text=True,
        )
        expect(0, done.returncode)
        made = {
            path.name: path.read_text(encoding='utf-8') for path in pathlib.Path(folder).iterdir()
        }
    expect(made, manual.of(TOP, launcher.plain_version()))
    for name, text in (
        ('yokeorange.1', '.SH EXIT STATUS'),
        ('yokeorange-script.5', '.SH IDS OF NEW OBJECTS'),
        ('yokeorange-commands.5', '.SS undo, redo'),
        ('yokeorange-script.5', '.SS Useful queries'),
        ('yokeorange-refusals.7', 'refused 38 KEY'),
        ('yokeorange-refusals.7', '.SS Refusal 20, fault by fault'),
        ('yoke.1', '.SH VERBS'),
    ):
        if text not in made[name]:
            raise Wrong(f'{name} has no {text}')
    for text in made.values() if shutil.which('man') else ():
        done = shown_by_man(text)
        expect((0, ''), (done.returncode, done.stderr))


@case('the toolkit that TOOLKIT and docs/INSTALL.md name is the one that is here')
def toolkit(_):
    if not shutil.which('rt'):
        return
    line = subprocess.run(['rt', 'version'], stdout=subprocess.PIPE, text=True).stdout.strip()
    kit, logic = line.split(' ', 1)
    expect(line, (TOP / 'TOOLKIT').read_text(encoding='utf-8').strip())
    if f'`{logic}`' not in text_of('docs/INSTALL.md'):
        raise Wrong(f'rt version says {kit} {logic}')


@case('the driver in Python and the commands beside it do what their tests say')
def driver(program):
    with Room(program) as room:
        for python in filter(
            None, [sys.executable, shutil.which('python3.8')]
        ):  # the oldest that session.py names
            if room.run([python, '-c', ''])[0] == 0:
                for test in ('test_session.py', 'test_tools.py'):
                    status, said = room.run([python, 'python/' + test, 'yokeorange'], timeout=1800)
                    if status != 0:
                        raise Wrong(said[-2000:])
