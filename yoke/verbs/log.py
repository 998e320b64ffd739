"""`yoke log`: what a day did: its sessions, what was sent in which changeset, what was reviewed,
and what is left.
"""

import argparse
import re
import time
from collections import Counter
from dataclasses import dataclass, field
from typing import Any, Dict, Iterator, List, Optional

from yoke import accounts, api, journal, opl, osc, printing, results, saved
from yoke.day import Day
from yoke.review import shown
from yoke.session import Session

SUMMARY = (
    'show what the day did: sessions, changesets with their links, what was reviewed, what is left'
)
DETAILS = """It reads the folder of the day alone, and asks no server. --kinds counts what was sent by the kind of edit, such as
`12 × wheelchair: (none) → yes`; where a session is no longer kept, by what was edited."""
VERBS = {'create': 'new', 'modify': 'changed', 'delete': 'deleted'}
MOST_KINDS = 30  # kinds that are shown of one changeset


@dataclass
class Sent:
    """A changeset of the day: its tags if they are known, the times of its first and last document,
    and what it took.
    """

    number: str
    tags: Dict[str, str] = field(default_factory=dict)
    times: List[float] = field(default_factory=list)
    documents: int = 0
    unknown: int = 0  # documents of which it isn't known whether the server took them
    counts: 'Counter[str]' = field(default_factory=Counter)
    kinds: 'Counter[str]' = field(default_factory=Counter)


def add_arguments(parser: argparse.ArgumentParser) -> None:
    """The words of the verb."""
    parser.add_argument(
        '--kinds', action='store_true', help='count what was sent by the kind of edit'
    )


def run(arguments: argparse.Namespace) -> int:
    """Prints the log."""
    session = Session.of(arguments)
    day = session.day
    last = day.last()
    entries = journal.read(day)
    server, account = (day.read('server') or '').strip(), accounts.noted(day)
    found = changesets(day, entries, arguments.kinds)
    counts = session.ask(['count']).counts()
    for state in day.states():
        print(f'{moment(state.path.stat().st_mtime)} {state.path.stem}')
    for one in found:
        print('\n'.join(told(one, server, account.name if account else '')))
    for entry in entries:
        if 'sent' in entry:
            print(ended(entry))
    total = sum(sum(one.counts.values()) for one in found)
    print(
        f'{total} changes sent in {len(found)} changesets; left: {counts["changed"]} edited, {counts["conflicts"]} in conflict'
    )
    results.put(
        session=results.of_state(last),
        server=server or None,
        account=account.name if account else None,
        changesets=[data(one, server) for one in found],
        sends=[entry for entry in entries if 'sent' in entry],
        counts=counts,
    )
    return 0


# ---- what was sent ----


def changesets(day: Day, entries: List[journal.Entry], has_kinds: bool) -> List[Sent]:
    """The changesets of a day by its documents, in the order of these."""
    tags = {
        str(entry['changeset']): entry.get('tags') or {}
        for entry in entries
        if 'changeset' in entry
    }
    sessions = {state.number: state for state in day.states()}
    found: Dict[str, Sent] = {}
    for path in sorted(day.folder.glob('*.osc')):
        if not re.fullmatch('[0-9]+', path.stem):
            continue
        text = path.read_text(encoding='utf-8')
        number = str(osc.changeset_of(text))
        one = found.setdefault(number, Sent(number, tags.get(number, {})))
        one.times.append(path.stat().st_mtime)
        if not path.with_suffix('.answers').exists():
            one.unknown += 1
            continue
        one.documents += 1
        changes = osc.changes(text)
        one.counts.update(VERBS[verb] for verb, _ in changes)
        if has_kinds:
            state = sessions.get(int(path.stem))
            known = saved.read(state.text()) if state else {}
            one.kinds.update(kind_of(verb, thing, known.get(thing.key)) for verb, thing in changes)
    return list(found.values())


def kind_of(verb: str, thing: opl.Object, known: Optional[saved.Known]) -> str:
    """What was done to an object, in a few words; less of it where the session is no longer kept."""
    if known is not None and known.edit is not None:
        return shown.kind_between(thing.key, known.edit, known.there, known.mine)
    kind = opl.KINDS[thing.key[0]]
    return f'{VERBS[verb]} {kind}' + (
        f': {shown.main_tag(sorted(thing.tags))}' if verb != 'delete' else ''
    )


def moment(seconds: float) -> str:
    """A time in UTC."""
    return time.strftime('%Y-%m-%d %H:%M:%SZ', time.gmtime(seconds))


def told(one: Sent, server: str, account: str) -> Iterator[str]:
    """The lines on a changeset."""
    yield f'changeset {one.number} {api.link(server, one.number)}'
    by = f' by {printing.line(account)}' if account else ''
    texts = [printing.line(one.tags[name]) for name in ('comment', 'source') if name in one.tags]
    yield f'    {moment(min(one.times))} to {moment(max(one.times))}{by}' + (
        f': {", ".join(texts)}' if texts else ''
    )
    parts = ', '.join(f'{one.counts[name]} {name}' for name in VERBS.values())
    yield f'    {sum(one.counts.values())} changes in {one.documents} documents: {parts}'
    if one.unknown:
        yield f'    {one.unknown} documents more of which nobody knows whether the server took them: yoke send looks'
    for kind, count in one.kinds.most_common(MOST_KINDS):
        yield f'    {count} × {printing.line(kind)}'
    if len(one.kinds) > MOST_KINDS:
        yield f'    and {len(one.kinds) - MOST_KINDS} kinds more'


def ended(entry: journal.Entry) -> str:
    """The line on a send that ended."""
    left = entry.get('left') or {}
    reviewed = entry.get('reviewed')
    parts = [f'{entry["at"].replace("T", " ")} send: {entry["sent"]} changes']
    parts += (
        [', '.join(f'{count} {how}' for how, count in reviewed.items()) + ' in the review']
        if reviewed
        else []
    )
    parts += [f'{count} left, {why}' for why, count in left.items()]
    parts += (
        [f'ended early: {printing.line(str(entry["trouble"]))}'] if entry.get('trouble') else []
    )
    return '; '.join(parts)


def data(one: Sent, server: str) -> Dict[str, Any]:
    """A changeset as `--json` has it."""
    return {
        'number': one.number,
        'link': api.link(server, one.number),
        'tags': one.tags,
        'documents': one.documents,
        'unknown': one.unknown,
        'counts': dict(one.counts),
        'kinds': dict(one.kinds),
        'first': moment(min(one.times)),
        'last': moment(max(one.times)),
    }
