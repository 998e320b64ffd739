"""`yoke do`: the lines of a script over the session."""
import argparse
import pathlib
import re
from dataclasses import dataclass
from typing import Callable, Dict, Iterable, List, Mapping, Optional, Sequence, Set

from yoke import choices, files, fresh, opl, results, words
from yoke.day import State
from yoke.formats.suspicions import Accepted
from yoke.program import Answer, BadLine, Reply
from yoke.progress import note, silent
from yoke.saved import Known
from yoke.scripts import bound, lint
from yoke.scripts.names import Expanded
from yoke.session import Session
from yoke.trouble import Refused, Trouble
from yoke.verbs import expand

SUMMARY = 'run a script over the session, and keep what it did if no step was refused'
DETAILS = """The script has the lines of docs/COMMANDS.md. Files that it names are seen from the folder where yoke runs.
What yoke does itself stands in no script: save, resume, confirm, serve. New objects may have names in it, and there are lines
over what a query finds, a table of tags, one node more, one member more: yoke expand --help.

A script that review, conflate, tag --to or expand --session wrote is for the session from which it was made, and refused over
any other, unless by --any-session."""

LONGEST = 1 << 26  # bytes of a script, unpacked
OURS = {
    'save': 'the session is kept by itself',
    'resume': 'the session is taken up by itself',
    'confirm': 'yoke send does that',
    'serve': 'a meeting runs by editor itself',
}


def add_arguments(parser: argparse.ArgumentParser) -> None:
    """The words of the verb."""
    parser.add_argument('script', metavar='SCRIPT', help='a file of lines; - is standard input')
    parser.add_argument(
        '--keep', action='store_true', help='keep what was done although steps were refused'
    )
    add_accept(parser)
    parser.add_argument(
        '--strict',
        action='store_true',
        help='end at the first refused step; with --keep what was done before it is kept',
    )
    parser.add_argument(
        bound.INSIST,
        action='store_true',
        help='run a script although it was made from another session',
    )


def add_accept(parser: argparse.ArgumentParser) -> None:
    """The option by which a user takes what looks wrong."""
    parser.add_argument(
        '--accept',
        metavar='NAMES',
        action='append',
        help='take what was named as suspicious, such as same-value:name; with commas between several',
    )


@dataclass(frozen=True)
class Done:
    """What a script did: its steps with their replies, whether they were kept, the keys of the
    relations that changed with them and aren't named in it, and the session after it.
    """

    name: str
    answer: Answer
    kept: bool
    changed_too: List[str]
    session: State

    @property
    def steps(self) -> List[Reply]:
        """The steps, each with its reply."""
        return self.answer.replies

    @property
    def refused(self) -> List[Reply]:
        """The steps that were refused."""
        return self.answer.refused()

    @property
    def made(self) -> List[str]:
        """The keys of the objects that the script made, if they were kept."""
        gone = given_up(self.answer)
        return [
            key
            for reply in self.steps
            if self.kept and reply.line not in gone
            for key in reply.made()
        ]


def run(arguments: argparse.Namespace) -> int:
    """Runs a script; answers with the exit code."""
    session, lines = Session.of(arguments), read(arguments.script)
    done = over(
        session,
        arguments.script,
        lines,
        keep=arguments.keep,
        strict=arguments.strict,
        accept=arguments.accept,
        any_session=arguments.any_session,
        note=note,
        tell=print,
    )
    show(done.name, done.answer, done.kept)
    results.put(changed_too=done.changed_too)
    if done.changed_too:
        print('changed with it: {}'.format(','.join(done.changed_too)))
    return end(session, done.answer, arguments.keep, arguments.strict)


def over(
    session: Session,
    name: str,
    lines: Sequence[str],
    *,
    keep: bool = False,
    strict: bool = False,
    accept: Optional[Iterable[str]] = None,
    any_session: bool = False,
    note: Callable[[str], object] = silent,
    tell: Callable[[str], object] = silent,
) -> Done:
    """Runs the lines of a script, which goes by this name, over the session. Nothing is kept if a
    step is refused, unless `keep`.

    `strict` ends at the first refused step, and `accept` has the suspicions that are accepted, as
    the option has them. `note` gets each warning, and `tell` each line about a step that was
    changed or left out.
    """
    lines = list(lines)
    check(name, lines, session.day.folder)
    with session.day.locked():
        session.check_settled()
        if not any_session:
            bound.check(name, lines, session.day.last())
        for text in fresh.old_downloads(session.day, lines):
            note(text)
        accepted = Accepted.of(accept)
        expanded = expand.over_session(name, lines, session, accepted)
        expanded = spared(session, expanded, accepted)
        for number, text in expanded.notes:
            tell(f'{name}:{number}: {text}')
        began = session.relations()
        answer = perform(session, 'do', name, expanded, keep, strict)
        kept = keep or not answer.refused()
        too = changed_too(began, session.relations(), expanded.lines) if kept else []
        return Done(name, answer, kept, too, session.day.last())


def spared(session: Session, expanded: Expanded, accepted: Accepted) -> Expanded:
    """A script without what would undo choices of `yoke resolve`; Refused where nothing is left of
    it.
    """
    found = choices.of_day(session.day)
    if not found:
        return expanded
    holding = choices.Choices(found, session.known(), accepted)
    done = holding.spare(expanded)
    if holding.left and not any(line and not line.startswith('#') for line in done.lines):
        raise Refused(
            'nothing is kept: all that it sets you chose otherwise', choices.lines_of(holding.left)
        )
    return done


def why_nothing(answer: Answer, strict: bool = False) -> str:
    """Why nothing is kept of steps of which some were refused."""
    refused = answer.refused()
    if strict:
        return f'nothing is kept: it ended at line {refused[0].line}'
    return 'nothing is kept: {} of {} steps {} refused'.format(
        len(refused), len(answer.replies), 'was' if len(refused) == 1 else 'were'
    )


def end(session: Session, answer: Answer, keep: bool, strict: bool = False) -> int:
    """The exit code of what was done; says what was kept. Refused where nothing is kept."""
    refused = answer.refused()
    if refused and not keep:
        raise Refused(why_nothing(answer, strict))
    results.put(session=results.of_state(session.day.last()))
    print(f'kept as {session.day.last().path}')
    return 1 if refused else 0


def perform(
    session: Session, verb: str, name: str, expanded: Expanded, keep: bool, strict: bool = False
) -> Answer:
    """The Answer to the steps, with the numbers of the script's own lines; with `strict` no further
    than the first refused one.

    What was done is kept as the work of a verb: where nothing was refused, or with `keep`.
    """
    try:
        answer = session.edit(
            verb, expanded.lines, allow_refused=True, keep_refused=keep and not strict
        )
    except BadLine as bad:
        raise expand.bad_line(name, expanded, bad.line, cause(expanded.lines, bad)) from None
    refused = answer.refused()
    if refused and strict:
        answer.replies = [reply for reply in answer.replies if reply.line <= refused[0].line]
        if keep:
            session.edit(verb, before(expanded.lines, refused[0].line))
    for reply in answer.replies:
        if reply.line <= len(expanded.lines):
            at = reply.line - 1
            reply.line, reply.row = expanded.numbers[at], expanded.rows.get(at, '')
            reply.step, reply.problem = expanded.problems.get(at, (reply.step, ''))
    return answer


def cause(lines: Sequence[str], bad: BadLine) -> str:
    """What is wrong with a bad line, and what is right."""
    found = next((one for one in lint.findings(list(lines)) if one.line == bad.line), None)
    return str(bad) if found is None else lint.told(found)


def before(lines: Sequence[str], number: int) -> List[str]:
    """The lines before the one with the number, but for those of a group in which it stands."""
    begun = None
    for at, line in enumerate(lines[: number - 1]):
        verb = re.split('[ \t]+', line)[0]
        begun = at if verb == 'begin' else None if verb == 'end' else begun
    return list(lines[: number - 1 if begun is None else begun])


def read(name: str) -> List[str]:
    """The lines of a script, without a byte order mark or carriage returns; Trouble where there is
    no such text.
    """
    try:
        if name != '-' and not pathlib.Path(name).exists():
            raise Trouble(f'there is no script {name}')
        lines = files.data_of(name, LONGEST).decode('utf-8-sig').split('\n')
    except UnicodeDecodeError as error:
        raise Trouble(f'{name} isn\'t UTF-8, from byte {error.start} on') from None
    return [
        line[:-1] if line.endswith('\r') else line
        for line in (lines[:-1] if lines[-1] == '' else lines)
    ]


def check(name: str, lines: Sequence[str], folder: pathlib.Path) -> None:
    """Refused where a line is one that yoke does itself, names a file of the day, or where a group
    has no end.
    """
    begun = None
    for number, line in enumerate(lines, 1):
        verb, *rest = re.split('[ \t]+', line)
        if verb in OURS:
            raise Refused(
                '{}:{}: {} stands in no script of yoke do: {}'.format(
                    name, number, verb, OURS[verb]
                )
            )
        if (
            verb in ('download', 'import')
            and rest
            and pathlib.Path(opl.unescape(rest[0])).resolve().parent == folder.resolve()
        ):
            raise Refused(f'{name}:{number}: {opl.unescape(rest[0])} is a file of the day itself')
        begun = number if verb == 'begin' and begun is None else None if verb == 'end' else begun
    if begun is not None:
        raise Refused(f'{name}:{begun}: the group has no end')


def refusal(name: str, reply: Reply) -> str:
    """The line about a step that was refused."""
    what = [reply.row, 'refused', words.cut(reply.step), reply.problem or words.refusal(reply.rest)]
    return '{}:{}: {}'.format(name, reply.line, ': '.join(filter(None, what)))


def show(name: str, answer: Answer, kept: bool) -> None:
    """What the steps wrote, what was refused, in words, and what was made, if it is kept."""
    gone = given_up(answer)
    results.add(
        'steps', *(of_reply(reply, kept and reply.line not in gone) for reply in answer.replies)
    )
    for reply in answer.replies:
        if reply.word == 'refused':
            print(refusal(name, reply))
        elif kept and reply.made() and reply.line not in gone:
            print('{}:{}: made {}'.format(name, reply.line, ','.join(reply.made())))
        for text in reply.text:
            print(text)


def of_reply(reply: Reply, kept: bool) -> Dict[str, object]:
    """A step and its reply as data."""
    return {
        'line': reply.line,
        'row': reply.row or None,
        'step': reply.step,
        'reply': reply.word,
        'refusal': int(reply.number) if reply.word == 'refused' else None,
        'why': reply.problem or words.refusal(reply.rest) if reply.word == 'refused' else None,
        'made': reply.made() if kept else [],
        'text': reply.text,
    }


def changed_too(
    before: Mapping[str, Known], after: Mapping[str, Known], lines: Iterable[str]
) -> List[str]:
    """The relations that lines changed without naming them, as the routes of a way that was split;
    by rank.

    What a download brought is none of it: its base is another one.
    """
    named = {key for line in lines for key in re.split('[ \t,]+', line)}
    return [
        key
        for key, known in after.items()
        if key[0] == 'r'
        and key in before
        and key not in named
        and before[key].base == known.base
        and before[key].mine != known.mine
    ]


def given_up(answer: Answer) -> Set[int]:
    """The numbers of the lines in groups that were taken back; the last group may have no end,
    where the replies end at a refusal.
    """
    groups: List[List[Reply]] = []
    group: Optional[List[Reply]] = None
    for reply in answer.replies:
        if reply.verb == 'begin':
            group = []
            groups.append(group)
        if group is not None:
            group.append(reply)
        if reply.verb == 'end':
            group = None
    return {
        one.line for group in groups if any(one.word == 'refused' for one in group) for one in group
    }
