"""`yoke send`: the edits go to a server."""
import argparse
import re
from dataclasses import dataclass
from decimal import Decimal
from typing import Any, Callable, Dict, Iterable, List, Mapping, Optional, Tuple

from yoke import (
    api,
    extent,
    fresh,
    journal,
    ledger,
    opl,
    osc,
    parts,
    results,
    sending,
    sides,
    table,
    words,
)
from yoke.parts import Parts, Wanted
from yoke.progress import note
from yoke.review import reviewing
from yoke.sending import Sending
from yoke.session import Session
from yoke.trouble import Clash, NoAnswer, Refused, Trouble, Usage
from yoke.verbs import refresh

SUMMARY = 'send the edits, chunk by chunk; goes on where it ended'
DETAILS = """It may end anywhere: the same command again goes on. Where an answer is lost it looks what the server took, and
sends nothing twice. OpenStreetMap asks for a comment that says what was done and why, and for the source; before many
edits of one kind read its rules for imports and automated edits."""
SHOWN = 20  # keys of what is left, before the rest is counted
OURS = {
    'comment': 'say it by -m',
    'created_by': 'it names the program that made the changeset',
}  # tags that --tag can't set
MOST = 20  # how often one command refreshes: somebody who edits the same objects all the time is to be talked to


def add_arguments(parser: argparse.ArgumentParser) -> None:
    """The words of the verb."""
    api.add_arguments(parser)
    parser.add_argument(
        '-m', '--comment', metavar='TEXT', help='what was done, for those who read the changeset'
    )
    parser.add_argument('--source', metavar='TEXT', help='where it is known from, such as survey')
    parser.add_argument(
        '--tag',
        metavar='KEY=VALUE',
        action='append',
        default=[],
        help='another tag of the changeset; may come again',
    )
    parser.add_argument(
        '--bot', action='store_true', help='tag the changeset bot=yes: a program made the edits'
    )
    parser.add_argument(
        '--import',
        dest='imports',
        action='store_true',
        help='tag the changeset import=yes: the edits are data of others',
    )
    parser.add_argument(
        '--review',
        action='store_true',
        help='tag the changeset review_requested=yes: others are asked to look at it',
    )
    parser.add_argument(
        '--as',
        dest='account',
        metavar='NAME',
        default='',
        help='the account that sends; with the token of another one nothing is sent',
    )
    parser.add_argument(
        '--max-extent',
        metavar='DEGREES',
        type=degrees,
        help='how much of the map a changeset may span: width plus height of its bounding box',
    )
    parser.add_argument(
        '--chunk',
        metavar='N',
        type=int,
        default=sending.CHUNK,
        help='changes in a document, 1 to 10,000 (%(default)s)',
    )
    parser.add_argument(
        '--refresh',
        action='store_true',
        help='where somebody was faster, refresh and go on, unless something is in conflict then',
    )
    parser.add_argument(
        '--skip-conflicts',
        action='store_true',
        help='leave what is in conflict, with all that hangs together with it, and send the rest; refreshes as --refresh does',
    )
    parser.add_argument(
        '--only',
        metavar='KEYS|BOX|QUERY',
        action='append',
        default=[],
        help='send these edits alone, with what hangs together with them: keys, WEST,SOUTH,EAST,NORTH or a query; may come again',
    )
    parser.add_argument(
        '--at-most', metavar='N', type=int, help='send so many changes at most, and leave the rest'
    )
    parser.add_argument(
        '--reviewed',
        action='store_true',
        help='send only what yoke review accepted; refused where something is not reviewed',
    )
    parser.add_argument(
        '--decisions',
        metavar='FILE',
        default='review.decisions',
        help='with --reviewed: where the decisions are (%(default)s)',
    )
    parser.add_argument(
        '--unseen',
        action='store_true',
        help='send new objects without a look at what stands there already',
    )
    parser.add_argument(
        '--dry', action='store_true', help='show what would be sent, and ask no server'
    )


def run(arguments: argparse.Namespace) -> int:
    """Sends; answers with the exit code."""
    check_sizes(arguments.chunk, arguments.at_most)
    reviewed = reviewing.ReviewedBy(arguments.decisions) if arguments.reviewed else None
    wanted = Wanted(tuple(arguments.only), arguments.at_most, arguments.skip_conflicts, reviewed)
    results.put(sent=0, changesets=[], left=[], candidates=[], changes=None)
    if arguments.dry:
        return show(Session.of(arguments), arguments.chunk, wanted)
    tags = tags_of(arguments)
    server = api.server_of(arguments, note, writes=True)
    one = Sending(
        Session.of(arguments),
        server,
        tags,
        arguments.chunk,
        note,
        account=arguments.account,
        max_extent=arguments.max_extent,
    )
    part = Parts(one, wanted, note)
    done = deliver(
        part,
        arguments.refresh or arguments.skip_conflicts,
        arguments.unseen,
        lambda news: refresh.show(news, server),
    )
    print(
        '{} changes sent{}'.format(
            done.count,
            ' in ' + ', '.join('changeset ' + number for number in done.changesets)
            if done.changesets
            else '',
        )
    )
    for number in done.changesets:
        print(server.link(number))
    show_left(done.left)
    return 0


def check_sizes(chunk: int, at_most: Optional[int]) -> None:
    """Usage where a number of changes is none that can be sent."""
    if not 1 <= chunk <= 10000:
        raise Usage('--chunk wants a number from 1 to 10,000')
    if at_most is not None and at_most < 1:
        raise Usage('--at-most wants a number from 1 on')


@dataclass(frozen=True)
class Sent:
    """What a send did: how many changes the server took, the numbers of the changesets, and the
    keys of the edits that are left, by the cause.
    """

    count: int
    changesets: Tuple[str, ...]
    left: Dict[str, List[str]]


def deliver(
    part: Parts, refreshes: bool, unseen: bool, brought: Callable[[refresh.News], object]
) -> Sent:
    """Sends what is wanted, looking first at what stands where new objects go, unless `unseen`.

    With `refreshes` it refreshes where somebody was faster, and `brought` is called with what came.
    Raises what `Parts.run` raises; what was taken before that is kept.
    """
    one, session = part.sending, part.session
    reviewed = part.wanted.reviewed
    with session.day.locked():
        try:
            if not unseen:
                check_place(session, one.server, part.wanted, one.note)
            send_through(part, MOST if refreshes else 0, brought)
            note_end(part, reviewed)
        except NoAnswer as silence:
            note_end(part, reviewed, silence)
            raise NoAnswer(f'{silence}; the same command again goes on from here') from None
        except Trouble as trouble:
            note_end(part, reviewed, trouble)
            raise
        finally:
            results.put(
                sent=one.sent,
                changesets=[
                    {'number': number, 'link': one.server.link(number)} for number in one.used
                ],
            )
            ledger.settle(session.day)
    return Sent(one.sent, tuple(one.used), part.left)


def look(
    session: Session, server: api.Server, wanted: Wanted, note: Callable[[str], object]
) -> fresh.Look:
    """What stands at the server already where new objects are to go. Where a send was stopped it
    was looked at before that.
    """
    if session.day.pending() or session.day.held():
        return fresh.Look()
    found = table.of_file(session.day.last().path)
    if not any(key[0] != 'r' for key in found.new()):
        return fresh.Look()
    sending.check_server(session.day, server)
    area = parts.look(session, found, wanted, server, note)
    for line in fresh.told(session.day, area):
        note(line)
    return area


def check_place(
    session: Session, server: api.Server, wanted: Wanted, note: Callable[[str], object]
) -> None:
    """Refused where something stands at the server already that may be one of the new objects."""
    area = look(session, server, wanted, note)
    results.put(
        candidates=[
            {'key': one.key, 'there': one.there.key, 'why': one.why, 'metres': round(one.metres, 1)}
            for one in area.candidates
        ]
    )
    details = []
    for one in area.candidates[:SHOWN]:
        by = f' by {sides.plain(one.there.user)}' if one.there.user else ''
        details.append(
            '{} may be {}: {}, {:.0f} m away; version {}{}'.format(
                one.key, sides.title(one.there), one.why, one.metres, one.there.version, by
            )
        )
    if len(area.candidates) > SHOWN:
        details.append(f'and {len(area.candidates) - SHOWN} more')
    if area.candidates:
        keys = ','.join(dict.fromkeys(one.key for one in area.candidates[:SHOWN]))
        raise Refused(
            'nothing is sent: {} of {} new objects may be there already; look at them, take out what is (echo purge {} | yoke do -), '
            'and send the rest by --unseen'.format(len(area.candidates), area.new, keys),
            details,
        )


def note_end(part: Parts, reviewed: Any, trouble: Optional[Trouble] = None) -> None:
    """Notes in the log of the day how a send ended: what went out, what is left and why, how it was
    reviewed.
    """
    if trouble is not None and not part.sending.sent:
        return
    entry = {
        'sent': part.sending.sent,
        'changesets': part.sending.used,
        'left': {why: len(keys) for why, keys in part.left.items()},
    }
    if reviewed is not None:
        entry['reviewed'] = reviewed.counts
    if trouble is not None:
        entry['trouble'] = str(trouble)
    journal.note(part.day, **entry)


def show_left(left: Mapping[str, Iterable[str]]) -> None:
    """Names the edits that stay here, by the cause."""
    results.put(
        left=[{'why': why, 'keys': sorted(keys, key=opl.rank)} for why, keys in left.items()]
    )
    for why, keys in left.items():
        keys = sorted(keys, key=opl.rank)
        more = f' and {len(keys) - SHOWN} more' if len(keys) > SHOWN else ''
        print('{} edits are left, {}: {}{}'.format(len(keys), why, ','.join(keys[:SHOWN]), more))
    if not left:
        print('nothing is left to send')


def send_through(part: Parts, refreshes: int, brought: Callable[[refresh.News], object]) -> None:
    """Sends; where somebody was faster it refreshes, so many times at most. Clash where something
    is in conflict, or nothing came that is newer.
    """
    while True:
        try:
            return part.run()
        except Clash as clash:
            if not refreshes:
                raise
            part.note(str(clash))
            news = refresh.bring(part.session, part.sending.server, clash.keys, part.note)
            brought(news)
            if news.left and not part.wanted.skip_conflicts:
                raise Clash(f'{len(news.left)} in conflict: yoke resolve, and send again') from None
            if not news.merged:
                raise
            refreshes -= 1


def tags_of(arguments: argparse.Namespace) -> Dict[str, str]:
    """The tags of a changeset that the words of a command line name."""
    marks = [
        key
        for wanted, key in (
            (arguments.bot, 'bot'),
            (arguments.imports, 'import'),
            (arguments.review, 'review_requested'),
        )
        if wanted
    ]
    return changeset_tags(arguments.comment, arguments.source, marks, arguments.tag)


def changeset_tags(
    comment: Optional[str],
    source: Optional[str] = None,
    marks: Iterable[str] = (),
    more: Iterable[str] = (),
) -> Dict[str, str]:
    """The tags of a changeset: `marks` are keys that become `yes`, and `more` has each other tag as
    KEY=VALUE.

    Usage where OpenStreetMap wouldn't take them, or where they would say something untrue.
    """
    if not (comment or '').strip():
        raise Usage('send wants a comment: -m \'what was done\'')
    tags = {'created_by': api.CREATED_BY, 'comment': comment or ''}
    if source:
        tags['source'] = source
    tags.update({key: 'yes' for key in marks})
    for pair in more:
        key, sign, value = pair.partition('=')
        if not key or not sign or not value.strip():
            raise Usage(f'--tag wants KEY=VALUE, and not {words.cut(pair)}')
        if key in OURS:
            raise Usage(f'--tag can\'t set {key}: {OURS[key]}')
        if tags.get(key, value) != value:
            raise Usage(
                f'--tag {key}={words.cut(value)} says something else than {key}={words.cut(tags[key])} before it'
            )
        tags[key] = value
    for key, value in tags.items():
        check_text(key, value)
    return tags


def check_text(key: str, value: str) -> None:
    """Usage where a tag of a changeset is too long, or has a character that the API doesn't take."""
    name = words.cut(key, 40)
    if max(len(key), len(value)) > opl.LONGEST:
        raise Usage(f'the {name} of a changeset has at most {opl.LONGEST} characters')
    found = osc.NOT_CARRIED.search(key + value)
    if found and '\ud800' <= found[0] <= '\udfff':
        raise Usage(
            f'the {name} of the changeset isn\'t text in UTF-8: look at the encoding of your terminal or script'
        )
    if found:
        raise Usage(
            f'the {name} of the changeset has U+{ord(found[0]):04X} in it, which the API doesn\'t take: leave it out'
        )


def degrees(text: str) -> int:
    """Degrees as units of 10^-7 degree, for --max-extent."""
    found = re.fullmatch('[0-9]{1,3}([.][0-9]{1,7})?', text)
    units = int(Decimal(text) * extent.UNITS) if found else 0
    if not units:
        raise argparse.ArgumentTypeError(f'wants degrees such as 0.5, and not {words.cut(text)}')
    return units


def show(session: Session, size: int, wanted: Wanted) -> int:
    """What would be sent, and what would be left."""
    answer, left = parts.preview(session, size, wanted)
    changes = answer.text('upload')[1:]
    for text in changes:
        if not text.startswith('chunk '):
            print(text)
    counts = {
        verb: sum(text.startswith(verb + ' ') for text in changes)
        for verb in ('create', 'modify', 'delete')
    }
    results.put(changes=counts)
    print(
        '{} changes would be sent: {create} new, {modify} changed, {delete} deleted'.format(
            answer.upload_size(), **counts
        )
    )
    if left:
        show_left(left)
    pending = session.day.pending()
    if pending:
        print(f'before that send looks what the server took of {session.day.path(pending)}')
    return 0
