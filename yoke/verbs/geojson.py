"""`yoke geojson`: edits and conflicts to look at on a map."""
import argparse

from yoke import results, table
from yoke.day import Day
from yoke.files import check_outputs, write_own
from yoke.formats import geojson_out

SUMMARY = 'write edits and conflicts as GeoJSON, to look at on any map'
DETAILS = """Each feature has the properties key, what (new, changed, deleted, conflict), parts, conflict, version, user, and the tags before,
after and theirs."""


def add_arguments(parser: argparse.ArgumentParser) -> None:
    parser.add_argument('file', metavar='FILE', help='the file to write, or - for standard output')
    parser.add_argument(
        '--force', action='store_true', help='also over a file that yoke didn\'t write'
    )


def run(arguments: argparse.Namespace) -> int:
    day = Day(arguments.day)
    check_outputs([arguments.file] if arguments.file != '-' else [], [], day.folder)
    found = table.read(day.last().text())
    write_own(arguments.file, geojson_out.document(found), b'"generator": "yoke"', arguments.force)
    results.put(file=arguments.file)
    if arguments.file != '-':
        edited = sum(known.edit is not None for known in found.things.values())
        print(
            'wrote {}: {} edited, {} in conflict'.format(
                arguments.file,
                edited,
                sum(known.conflict != 'none' for known in found.things.values()),
            )
        )
    return 0
