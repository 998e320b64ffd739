"""`yoke lint`: every bad line of a script, with its cause."""
import argparse
from typing import List

from yoke import results
from yoke.files import data_of
from yoke.scripts import grammar, lint, names
from yoke.trouble import Trouble

SUMMARY = 'name every bad line of a script, with the cause and the right form'
DETAILS = """A script may give names to new objects, and have lines that yoke writes out (yoke expand --help): it is looked at as `yoke
do` would run it. Nothing is run. A line that is none ends with 1."""


def add_arguments(parser: argparse.ArgumentParser) -> None:
    parser.add_argument(
        'scripts', metavar='SCRIPT', nargs='+', help='a file of lines; - is standard input'
    )


def run(arguments: argparse.Namespace) -> int:
    count = 0
    for name in arguments.scripts:
        found = findings(data_of(name))
        results.add('bad_lines', *({'script': name, **vars(one)} for one in found))
        print(lint.report(name, found), end='')
        count += len(found)
    print('{} bad line{}'.format(count or 'no', '' if count == 1 else 's'))
    return 1 if count else 0


def findings(data: bytes) -> List[lint.Finding]:
    """What is wrong with a script, with the numbers of its own lines."""
    if len(data) > lint.LARGEST:
        return [
            lint.Finding(
                0,
                '',
                f'the script has {len(data)} bytes, and {lint.LARGEST} are the most',
                'put new objects into a file, and import it',
            )
        ]
    lines = grammar.lines_of(grammar.text_of(data))
    try:
        expanded = names.expand(lines, 1, count)
    except names.BadName as fault:
        return [
            lint.Finding(
                fault.line,
                lines[fault.line - 1],
                str(fault),
                'names are explained by yoke expand --help',
            )
        ]
    return [
        lint.Finding(
            expanded.numbers[found.line - 1],
            lines[expanded.numbers[found.line - 1] - 1],
            found.cause,
            found.right,
            found.is_mend,
        )
        for found in lint.findings(expanded.lines, short=True)
    ]


def count(word: str) -> int:
    """How many new objects the file of an `import` line has; ValueError where that can't be known."""
    try:
        return names.new_objects(
            data_of(grammar.check_text(word, 'the file')).decode('utf-8', 'replace')
        )
    except (Trouble, grammar.Bad) as why:
        raise ValueError(str(why)) from None
