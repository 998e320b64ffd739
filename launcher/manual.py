"""Makes the manual pages (`./editor --man FOLDER`) from the pages of docs/, so that they can't say
other things than these do.

A manual page is made of parts: a text that stands here, a section of a page by its heading, or one
table of it. A section that isn't there any more stops the making.
"""
from __future__ import annotations

import pathlib
import re
import textwrap

from launcher.messages import Stop

WIDTH = 78
FENCE = '```'
ANCHOR = re.compile(r'<a id="[^"]*"></a>')
MARK = re.compile(
    r'\*\*(.+?)\*\*|`([^`]+)`|\[((?:`[^`]*`|[^\]`])*)\]\([^)]*\)|(?<![*\w])\*([^*\s][^*]*)\*'
)
LABELLED = re.compile(r'\*\*([A-Z][a-z, ]+)\.\*\* ?(.*)', re.S)


# ---- the pages ----


def cells(line):
    """The cells of a table's row: a | that is written \\| or stands in a `word` isn't the end of
    one.
    """
    parts = re.split(r'((?:\\\||`[^`]*`|[^|`])*)\|', line.strip()[1:])
    return tuple(it.replace('\\|', '|').strip() for it in parts[1::2])


def section(page, heading):
    """The lines of a page under a heading, up to the next one of its level or above; those before
    the first for no heading.
    """
    found, level, fenced = [], None if heading else 0, False
    for line in page.splitlines():
        fenced ^= line.startswith(FENCE)
        marks, _, text = line.partition(' ')
        is_heading = not fenced and re.fullmatch('#+', marks)
        if level is None:
            level = len(marks) if is_heading and text == heading else None
        elif is_heading and (len(marks) <= level or not heading and len(marks) > 1):
            break
        elif not (is_heading and len(marks) == 1):
            found.append(line)
    if level is None:
        raise Stop(f'no section is headed "{heading}", from which a manual page is made')
    return found


def ends(line):
    """Whether a line ends the paragraph before it."""
    return not line.strip() or line.startswith((FENCE, '|', '#')) or re.match(r'(- |\d+\. )', line)


def blocks(lines):
    """The blocks of a page in their order: each a kind, and what it holds."""
    at = 0
    while at < len(lines):
        line, first = lines[at], at
        at += 1
        if line.startswith(FENCE):
            at = lines.index(FENCE, at) + 1
            yield 'code', lines[first + 1 : at - 1]
        elif line.startswith('|'):
            while at < len(lines) and lines[at].startswith('|'):
                at += 1
            yield 'table', [
                cells(row) for row in lines[first:at] if not re.fullmatch(r'[|\s:-]+', row)
            ]
        elif line.startswith('#'):
            yield 'heading', (line.count('#'), line.lstrip('# '))
        elif line.strip():
            while at < len(lines) and not ends(lines[at]):
                at += 1
            text = ' '.join(it.strip() for it in lines[first:at])
            item = re.match(r'(?:(-)|(\d+\.)) (.*)', text, re.S)
            yield ('item', (item[2] or '\\(bu', item[3])) if item else ('text', text)


# ---- roff ----


def plain(text):
    """Text as roff has it, with nothing in it that roff reads as its own."""
    text = (
        text.replace('\\', '\\e')
        .replace('-', '\\-')
        .replace("'", '\\(aq')
        .replace('^', '\\(ha')
        .replace('~', '\\(ti')
    )
    return ''.join(
        it if it < '\x7f' else f'\\[u{ord(it):04X}]' for it in text.replace('`', '\\(ga')
    )


def roff(text):
    """A text of a page in roff: `words` and **words** are bold, *words* are italic, links are their
    text, anchors nothing.
    """
    text = ANCHOR.sub('', text)
    found, at = '', 0
    for mark in MARK.finditer(text):
        bold, word, link, italic = mark.groups()
        found += plain(text[at : mark.start()])
        if link is not None:
            found += roff(link)
        elif italic is not None:
            found += f'\\fI{plain(italic)}\\fR'
        else:
            found += '\\fB{}\\fR'.format(
                plain(word) if word else roff(bold).replace('\\fR', '\\fB')
            )
        at = mark.end()
    return found + plain(text[at:])


def safe(line):
    """A line of text that roff doesn't take for a request."""
    return '\\&' + line if line.startswith(('.', "'")) else line


def filled(text):
    """A paragraph in lines of some width."""
    lines = textwrap.wrap(roff(text), WIDTH, break_long_words=False, break_on_hyphens=False)
    return ''.join(safe(line) + '\n' for line in lines)


def tagged(tag, text):
    """A tag, and what is said of it."""
    return f'.TP\n{safe(roff(tag))}\n{filled(text)}'


def row(heading, parts):
    """A row of a table: the first cell is a tag, and the cells after the second say what they are."""
    told = [
        text if at == 0 or name in ('it says', 'meaning') else f'{name}: {text}'
        for at, (name, text) in enumerate(zip(heading[1:], parts[1:]))
        if text
    ]
    text = '; '.join([*(it.removesuffix('.') for it in told[:-1]), *told[-1:]])
    return tagged(parts[0], text) if parts[0] else '.IP\n' + filled(text)


def written(block):
    """A block in roff."""
    kind, held = block
    if kind == 'heading':
        level, text = held
        return f'.SH {roff(text.upper())}\n' if level <= 2 else f'.SS {roff(text)}\n'
    if kind == 'code':
        return '.PP\n.RS 4\n.nf\n{}.fi\n.RE\n'.format(
            ''.join(safe(plain(line)) + '\n' for line in held)
        )
    if kind == 'table':
        return ''.join(row(held[0], it) for it in held[1:])
    if kind == 'item':
        mark, text = held
        return f'.IP {mark} 4\n{filled(text)}'
    label = LABELLED.fullmatch(held)
    return (
        tagged(f'**{label[1]}**', label[2])
        if label and label[2]
        else '.PP\n' + filled(label[1] + ':' if label else held)
    )


def body(found):
    """Blocks in roff: right after a heading a paragraph needs no sign."""
    text = ''.join(written(block) for block in found)
    return re.sub(r'^(\.S[HS] .*\n)\.PP\n(?!\.RS)', r'\1', text, flags=re.M)


# ---- the manual pages ----


class Part:
    """What a manual page takes from a section of a page, all of it or blocks of some kinds.

    Its title is that section's heading, or another one; with an empty one it goes on under the
    title before.
    """

    def __init__(self, page, heading, title=None, kinds=None):
        self.page, self.heading, self.title, self.kinds = page, heading, title, kinds

    def text(self, pages):
        """The part in roff."""
        title = [('heading', (2, self.title or self.heading))] if self.title != '' else []
        found = [
            it
            for it in blocks(section(pages[self.page], self.heading))
            if not self.kinds or it[0] in self.kinds
        ]
        return body(title + found)


NAMES = '''.SH NAME
{name} \\- {what}
'''
ALSO = '''.SH SEE ALSO
{others}
.PP
The repository's docs/ has these pages with links, a tour (TOUR.md), how\\-tos
(HOWTO/), and what is proved (PROOF.md).
'''
RUN = '''.SH SYNOPSIS
.B yokeorange
[\\fB\\-\\-max\\-objects\\fR \\fIN\\fR] [\\fB\\-\\-max\\-file\\fR \\fIN\\fR] \\fISCRIPT\\fR
.SH DESCRIPTION
.B yokeorange
runs one script over downloaded files in OPL, the text format of
.BR osmium (1),
and writes a reply for each step, and the data that the script asks for, to
standard output. It opens no connection and changes no file. A refused step
changes nothing, and the session goes on: the exit status 0 says that the
script ran to its end, and not that each step was done. Names of files are
relative to the folder in which it is started.
'''
EXAMPLE = '''.SH EXAMPLE
.RS 4
.nf
download town.opl
node x13.65 y0.05 Tamenity=bench
way Thighway=footway Nn2,n\\-1
tag w5 Tname=Main%20%Street
print
.fi
.RE
'''

COMPANION_RUN = '''.SH SYNOPSIS
.B yoke
\\fIVERB\\fR [\\fIWORD\\fR]...
.br
.B yoke
\\fIVERB\\fR \\fB\\-\\-help\\fR
.br
.B yoke
\\fB\\-\\-version\\fR
'''

COMMANDS, SCRIPTS, REFUSALS, SHEET, COMPANION = (
    'COMMANDS.md',
    'SCRIPTS.md',
    'REFUSALS.md',
    'CHEATSHEET.md',
    'COMPANION.md',
)
FAMILIES = (
    'Files',
    'New objects',
    'Changes of one object',
    'Deletions',
    'Ways cut, joined, reversed',
    'Some faults',
    'Steps',
    'Looks',
    'Settling conflicts',
    'Uploads',
    'Sessions',
    'Meetings',
)

# The name and section of each manual page, what it is about, and its parts.
MANUALS = {
    ('yokeorange', 1): (
        'edit OpenStreetMap data by a script, without a screen or a network',
        [
            RUN,
            Part(SCRIPTS, 'The command line', 'Options', ('table', 'item')),
            Part(SHEET, 'Lines of a script', kinds=('table',)),
            Part(SCRIPTS, 'The exit status', 'Exit status', ('text',)),
            Part(REFUSALS, 'Statuses', '', ('table',)),
            Part(SCRIPTS, 'Limits', kinds=('table',)),
            EXAMPLE,
        ],
    ),
    ('yokeorange-script', 5): (
        'scripts of yokeorange: lines, words, replies, groups, the ids of new objects, queries',
        [
            Part(SCRIPTS, it)
            for it in (
                'Lines',
                'Words',
                'Replies',
                'Steps and groups',
                'Ids of new objects',
                'Queries',
            )
        ],
    ),
    ('yokeorange-commands', 5): (
        'each line of a script of yokeorange',
        [Part(COMMANDS, '', 'Description'), *(Part(COMMANDS, it) for it in FAMILIES)],
    ),
    ('yokeorange-refusals', 7): (
        'refusals and statuses of yokeorange, bad files and bad lines, with ways out',
        [
            Part(REFUSALS, '', 'Description'),
            *(
                Part(REFUSALS, it)
                for it in ('Longer ways out', 'Statuses', 'Bad lines of a script')
            ),
        ],
    ),
    ('yoke', 1): (
        'keep a folder of OpenStreetMap edits, and send them to a server',
        [
            COMPANION_RUN,
            Part(COMPANION, '', 'Description', ('text',)),
            Part(COMPANION, 'The way of an edit', kinds=('text',)),
            Part(COMPANION, 'All verbs', 'Verbs'),
            Part(COMPANION, 'Exit codes', 'Exit status'),
            Part(COMPANION, 'The folder of a day'),
        ],
    ),
}


def file_name(name, number):
    """The file of a manual page."""
    return f'{name}.{number}'


def made(manual, pages, version):
    """A manual page, from the texts of the pages and the version."""
    name, number = manual
    what, parts = MANUALS[manual]
    others = [f'.BR {plain(other)} ({at})' for other, at in MANUALS if other != name] + [
        '.BR osmium (1)'
    ]
    return ''.join(
        [
            '.\\" Made from the pages of docs/ by ./editor \\-\\-man: change those.\n',
            '.TH {} {} "" "yokeorange {}" Yokeorange\n'.format(
                plain(name).upper(), number, plain(version)
            ),
            NAMES.format(name=plain(name), what=plain(what)),
            *(part if isinstance(part, str) else part.text(pages) for part in parts),
            ALSO.format(others=',\n'.join(others).replace('),', ') ,')),
        ]
    )


def of(home, version):
    """The manual pages of a checkout, by the names of their files."""
    names = (COMMANDS, SCRIPTS, REFUSALS, SHEET, COMPANION)
    pages = {name: pathlib.Path(home, 'docs', name).read_text(encoding='utf-8') for name in names}
    return {file_name(*manual): made(manual, pages, version) for manual in MANUALS}


def write(home: str, folder: str, version: str) -> list[str]:
    """Writes the manual pages of a checkout into a folder, which is made where it isn't there: the
    names of their files.
    """
    found = of(home, version)
    to = pathlib.Path(folder)
    to.mkdir(parents=True, exist_ok=True)
    for name, text in found.items():
        (to / name).write_text(text, encoding='utf-8')
    return list(found)
