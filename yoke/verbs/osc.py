"""`yoke osc`: the changes of an osmChange file, as edits of the session."""
import argparse

from yoke.files import data_of
from yoke.formats import osm_xml
from yoke.session import Session
from yoke.trouble import Trouble
from yoke.verbs.josm import add_options, bring_in

SUMMARY = 'take in the changes of another tool, from an osmChange file'
DETAILS = """FILE has changes that were not sent: each names the version that it was made from, and what it makes has a negative id.
What is new in FILE and here already, with the same tags and at the same places, isn't made again, so the same file again
does nothing. What a server did, as a diff of planet.osm has it, comes in by `download` (osmium merge-changes makes OPL of it)."""


def add_arguments(parser: argparse.ArgumentParser) -> None:
    parser.add_argument('file', metavar='FILE', help='an .osc file, also .osc.gz')
    add_options(parser)


def run(arguments: argparse.Namespace) -> int:
    session = Session.of(arguments)
    with session.day.locked():
        try:
            told = osm_xml.read_osc(data_of(arguments.file))
        except ValueError as error:
            raise Trouble(f'{arguments.file}: {error}') from None
        return bring_in('osc', session, arguments, told)
