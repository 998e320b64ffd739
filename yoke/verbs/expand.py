"""`yoke expand`: a script as the program editor takes it."""
import argparse
import re
from typing import Callable, Iterable, List, Optional

from yoke import files, opl, results, stored, table
from yoke.formats.suspicions import Accepted
from yoke.program import Answer, BadLine, Program
from yoke.progress import note
from yoke.scripts import bound, grammar, names, shorthand
from yoke.scripts import lint as findings
from yoke.session import Session
from yoke.trouble import Refused, Trouble, Usage
from yoke.verbs import lint

SUMMARY = 'write a script as the program editor takes it: names as keys, and lines that yoke has as lines of the program'
DETAILS = """node x13.65 y0.05 Tamenity=bench as bench
way Thighway=footway Nn2,bench as path
tag path Tsurface=gravel

`as NAME` gives a name to the object that a node, way or relation line makes; later lines name it so. From the first line
that makes an object to the last one with a name all lines become one group: where one is refused, nothing of it is done.

tag ( way and Thighway=* ) Tlit=yes       the objects that a query finds; so move, delete, erase and purge
tag-csv surfaces.csv columns=surface,lit  a row for each object, a column for each tag; a COLUMN after FILE names the objects
insert n7 w5                              a node into a way, where it lies nearest; or after n2, or after so many nodes
add-member w7@outer,w8@ r9                members at the end of a relation, or from the place after it on
mend-turns r3,r4                          turns whose ways don't meet; without keys all that can be mended

Each finds what is there at its place in the script. `yoke do` expands such scripts by itself, over the session of the day;
--session writes what it would do now. Without it what is written is for the program editor alone: such a line finds what the
script itself has read, and ids count from -1, or from where the session counts that a first line `resume FILE` names."""


def add_arguments(parser: argparse.ArgumentParser) -> None:
    parser.add_argument('script', metavar='SCRIPT', help='a file of lines; - is standard input')
    parser.add_argument(
        '--next',
        metavar='N',
        type=int,
        help='the number of the next new object: 7 stands for the id -7',
    )
    parser.add_argument(
        '--session',
        action='store_true',
        help='as `yoke do` would do it now, over the session of the day',
    )


def run(arguments: argparse.Namespace) -> int:
    if arguments.next and arguments.session:
        raise Usage('--next or --session, not both')
    try:
        lines = grammar.lines_of(files.data_of(arguments.script).decode('utf-8-sig'))
    except UnicodeDecodeError as error:
        raise Trouble(f'{arguments.script} isn\'t UTF-8, from byte {error.start} on') from None
    if arguments.session:
        session = Session.of(arguments)
        with session.day.locked():
            expanded = over_session(arguments.script, lines, session)
            last = session.day.last()
            head = bound.head(last, last.text())
    else:
        head = []
        expanded = expand(
            arguments.script,
            lines,
            arguments.next or first_number(lines),
            lambda steps: Program.of(arguments).run(steps),
        )
    for number, text in expanded.notes:
        note(f'{arguments.script}:{number}: {text}')
    for at, (_, why) in expanded.problems.items():
        raise Refused(
            ': '.join(
                filter(
                    None,
                    [
                        f'{arguments.script}:{expanded.numbers[at]}',
                        expanded.rows.get(at),
                        why,
                    ],
                )
            )
        )
    results.put(script=head + expanded.lines)
    print(''.join(line + '\n' for line in head + expanded.lines), end='')
    return 0


def over_session(
    name: str, lines: List[str], session: Session, accepted: Optional[Accepted] = None
) -> names.Expanded:
    """The lines of a script as the program takes them over the session as it is now; the folder of
    the day has to be locked.
    """
    with stored.opened(session.day.last().path) as kept:
        number = kept.next_new
    return expand(
        name, lines, number, lambda steps: session.ask(steps, allow_refused=True), accepted
    )


def expand(
    name: str,
    lines: List[str],
    number: int,
    look: Callable[[List[str]], Answer],
    accepted: Optional[Accepted] = None,
) -> names.Expanded:
    """The lines of a script as the program takes them; Refused, with the line, where a name can't
    be written out, BadLine where a line is none.

    `number` is that of the next new object. `look` answers to lines over what the script begins
    with. `accepted` is what the user takes although it looks wrong.
    """
    try:
        script = names.expand(lines, number, lint.count)
    except names.BadName as fault:
        raise Refused(f'{name}:{fault.line}: {fault}') from None
    if any(map(shorthand.is_short, script.lines)):
        for found in findings.findings(script.lines, short=True)[:1]:
            raise bad_line(name, script, found.line, findings.told(found))
    try:
        return shorthand.write_out(script, look, accepted)
    except BadLine as bad:
        raise BadLine(f'{name}:{bad.line}: {bad}', bad.line) from None


def bad_line(name: str, script: names.Expanded, line: int, why: str) -> BadLine:
    """What is raised for a line that is none, by its number among those without names."""
    number = script.numbers[line - 1]
    return BadLine(f'{name}:{number}: {why}', number)


def first_number(lines: Iterable[str]) -> int:
    """The number of the next new object at the begin of a script."""
    steps = (grammar.words_of(line) for line in lines if not grammar.is_skipped(line))
    verb, *rest = next(steps, [''])
    if verb != 'resume' or len(rest) != 1:
        return 1
    text = files.data_of(opl.unescape(rest[0])).decode('utf-8', 'replace')
    at = re.search('^session ', text, re.M)
    try:
        return table.next_new(text[at.start() :] if at else text)
    except Trouble as trouble:
        raise Trouble(f'{rest[0]}: {trouble}') from None
