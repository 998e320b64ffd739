"""`yoke status`: where the day stands."""
import argparse
from typing import Mapping

from yoke import results
from yoke.day import Day
from yoke.sending import noted
from yoke.session import Session

SUMMARY = 'show where the day stands: what is edited, in conflict, sent, and what to do next'


def add_arguments(parser: argparse.ArgumentParser) -> None:
    pass


def run(arguments: argparse.Namespace) -> int:
    session = Session.of(arguments)
    day, last = session.day, session.day.last()
    counts, changeset = session.ask(['count']).counts(), noted(day)
    server = (day.read('server') or '').strip()
    results.put(
        session=results.of_state(last),
        counts=counts,
        server=server or None,
        pending=day.pending(),
        changeset=changeset.number if changeset else None,
        next=advice(day, counts),
    )
    print(f'session {last.number} by {last.verb}, in {day.folder}')
    print(
        '{nodes} nodes, {ways} ways, {relations} relations; {changed} edited, {conflicts} in conflict'.format(
            **counts
        )
    )
    if server:
        print(f'server {server}')
    if changeset:
        print(f'changeset {changeset.number} is open')
    print(advice(day, counts))
    return 0


def advice(day: Day, counts: Mapping[str, int]) -> str:
    """The next step."""
    if day.pending():
        return 'it isn\'t known what the server took of {}: yoke send looks, and goes on'.format(
            day.pending()
        )
    held = day.held()
    if held:
        return 'a send was stopped while {} edits were held back, which aren\'t counted here: the same yoke send goes on'.format(
            len(held.keys)
        )
    if counts['conflicts']:
        return 'yoke conflicts shows what clashes, and yoke resolve settles it'
    if counts['changed']:
        return 'yoke diff shows the edits, and yoke send sends them'
    return 'nothing is left to send'
