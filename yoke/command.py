"""The command line: the words common to all verbs, the choice of a verb, and exit codes.

A verb raises `Trouble` for whatever it can't do; here that becomes one line on the error stream and
an exit code. The codes are those of `yoke/trouble.py`, with 0 for done, 130 where the user broke
off, 143 and 129 where the signals TERM and HUP did, and 70 for a fault of `yoke` itself.

While a verb runs, all that it prints goes through `printing.Guard`, and the token isn't in the
environment, so that no program that it starts can read it.
"""
from __future__ import annotations

import argparse
import contextlib
import os
import re
import signal
import sys
import threading
from collections.abc import Iterable, Iterator
from typing import Any, NoReturn

from yoke import VERSION, api, builds, damage, printing, results, saved, verbs
from yoke.day import Day
from yoke.login import profiles
from yoke.program import Program
from yoke.progress import note
from yoke.trouble import Refused, Trouble

MAP = """the way of an edit, each verb on the folder of --day:
  get an extract         get
  begin                  start, or revert to take changesets back
  edit                   do, tag, import, conflate, josm, osc, tiles
  look                   diff, review, status; undo takes the last verb back
  merge what is new      refresh, then conflicts and resolve
  send                   login once, then send
  see what was done      log, ledger

exit codes:
  0   done
  1   refused: nothing was kept
  2   the words of the command line are wrong
  3   a file, a folder or the program
  4   somebody was faster, or something is in conflict
  5   no answer of the server: run the same command again
  6   the server refuses
  7   another yoke works in the folder
  75  the server asks to wait for longer than --wait: come back later
  70  a fault of yoke itself

docs/COMPANION.md explains each verb, and what to do at each fault."""
BOXES = ('--bbox', '--within')  # options with a box of degrees


def parser() -> argparse.ArgumentParser:
    """The parser of all words: each verb adds its own."""
    top = argparse.ArgumentParser(
        prog='yoke',
        allow_abbrev=False,
        description='Edit OpenStreetMap data in a folder, merge what others did, and send it.',
        epilog=MAP,
        formatter_class=argparse.RawDescriptionHelpFormatter,
    )
    top.add_argument(
        '--version',
        action=Version,
        nargs=0,
        help='say which yoke this is, which program it drives, and whether that is proved',
    )
    chosen = top.add_subparsers(dest='verb', metavar='VERB', required=True)
    for name in verbs.NAMES:
        verb = verbs.load(name)
        one = chosen.add_parser(
            name,
            allow_abbrev=False,
            help=verb.SUMMARY,
            description=verb.SUMMARY[0].upper() + verb.SUMMARY[1:] + '.',
            epilog=getattr(verb, 'DETAILS', None),
            formatter_class=argparse.RawDescriptionHelpFormatter,
        )
        common(one)
        verb.add_arguments(one)
        one.set_defaults(run=verb.run, own_parser=one)
    return top


class Version(argparse.Action):
    """Prints the versions of yoke and its program, and ends."""

    def __call__(
        self,
        parser: argparse.ArgumentParser,
        namespace: argparse.Namespace,
        values: Any,
        option: str | None = None,
    ) -> NoReturn:
        print('yoke ' + VERSION)
        print(builds.described())
        parser.exit()


def common(one: argparse.ArgumentParser) -> None:
    """The options that each verb has."""
    group = one.add_argument_group('the day and the program')
    group.add_argument(
        '--day',
        metavar='FOLDER',
        default=os.environ.get('YOKE_DAY') or 'day',
        help='the folder of the day ($YOKE_DAY, else day)',
    )
    group.add_argument(
        '--program',
        metavar='PROGRAM',
        help='the program editor ($YOKE_EDITOR, else yokeorange on the path, else the package\'s own)',
    )
    group.add_argument(
        '--max-objects',
        metavar='N',
        type=int,
        help='as the option of editor: objects in the session',
    )
    group.add_argument(
        '--json',
        action='store_true',
        help='print one JSON document: exit code, error, notes, lines and the result as data',
    )


def with_boxes(words: Iterable[str]) -> list[str]:
    """The words, with a box that begins with a minus joined to its option: argparse would take it
    for an option of its own.
    """
    joined: list[str] = []
    for word in words:
        if joined and joined[-1] in BOXES and re.match('-[0-9.]', word):
            joined[-1] += '=' + word
        else:
            joined.append(word)
    return joined


def parsed(words: list[str]) -> argparse.Namespace:
    """The words, with those of the profile that they name in the place of words that aren't given."""
    top = parser()
    given = top.parse_args(words)
    name = getattr(given, 'profile', None)
    if name:
        try:
            options = profiles.read(name).options()
        except Trouble as trouble:
            complain(trouble)
            sys.exit(trouble.code)
        given.own_parser.set_defaults(
            **{key: value for key, value in options.items() if hasattr(given, key)}
        )
        given = top.parse_args(words)
    return given


def main(words: list[str] | None = None) -> int:
    """Runs a verb; answers with the exit code."""
    open_streams()
    with printing.guarded(), api.token_held(), broken_off_by(signal.SIGTERM, signal.SIGHUP):
        try:
            code = run(sys.argv[1:] if words is None else words)
            return code if drained() else code or 3
        except Ended as ended:  # before the verb began
            return 128 + ended.number


def run(words: list[str]) -> int:
    """The same, with all around it in order."""
    arguments = parsed(with_boxes(words))
    if not arguments.json:
        return attempt(arguments)[0]
    with results.collected() as (found, printed):
        code, fault = attempt(arguments)
    try:
        results.write(arguments.verb, code, found, printed.getvalue(), fault)
        sys.stdout.flush()
    except BrokenPipeError:
        return deaf()
    except OSError as error:
        complain(f'{error}; {further(arguments.verb)}')
        return 3
    return code


def attempt(arguments: argparse.Namespace) -> tuple[int, BaseException | None]:
    """Runs a verb, and says on the error stream why it ended early; answers with the exit code and
    what was raised, or None.
    """
    try:
        code: int = arguments.run(arguments)
        sys.stdout.flush()
        return code, None
    except Trouble as trouble:
        if isinstance(trouble, saved.NotWhole):
            trouble = broken_session(arguments) or trouble
        for line in trouble.details if isinstance(trouble, Refused) else ():
            print(line)
        complain(trouble)
        return trouble.code, trouble
    except BrokenPipeError as error:
        return deaf(), error
    except OSError as error:
        complain(f'{error}; {further(arguments.verb)}')
        return 3, error
    except KeyboardInterrupt as error:
        complain(f'broken off; {further(arguments.verb)}')
        return 128 + (error.number if isinstance(error, Ended) else signal.SIGINT), error
    except UnicodeError as error:
        broken = broken_session(arguments)
        if broken is not None:
            complain(broken)
            return broken.code, broken
        complain(
            'a word of the command line or a file isn\'t in the encoding that it should be in, which mostly is UTF-8: {}'.format(
                error
            )
        )
        return 3, error
    except RecursionError as error:
        complain(f'a file is nested too deeply; {further(arguments.verb)}')
        return 3, error
    except MemoryError as error:
        complain(f'memory ran out; {further(arguments.verb)}')
        return 3, error
    except Exception as fault:
        broken = broken_session(arguments)
        if broken is not None:
            complain(broken)
            return broken.code, broken
        if os.environ.get('YOKE_TRACE'):
            raise
        complain(
            'a fault of yoke itself, which you may report with what $YOKE_TRACE=1 shows: {}: {}'.format(
                type(fault).__name__, fault
            )
        )
        return 70, fault


def broken_session(arguments: argparse.Namespace) -> damage.Broken | None:
    """What is wrong with the sessions of the day on which a verb ended so; None where nothing is,
    or where that can't be told.
    """
    try:
        return damage.found(Day(arguments.day), Program.of(arguments))
    except (Trouble, OSError, ValueError):
        return None


class Ended(KeyboardInterrupt):
    """A signal ends the program as Ctrl-C does: what is begun is left in order, and temporary files
    go.
    """

    def __init__(self, number: int) -> None:
        super().__init__()
        self.number = number


@contextlib.contextmanager
def broken_off_by(*numbers: int) -> Iterator[None]:
    """Lets signals end what runs in the context by Ended. One that is ignored, as HUP is under
    nohup, stays so.
    """

    def end(number: int, frame: Any) -> NoReturn:
        raise Ended(number)

    if threading.current_thread() is not threading.main_thread():
        yield
        return
    before = {number: signal.getsignal(number) for number in numbers}
    for number in numbers:
        if before[number] is signal.SIG_DFL:
            signal.signal(number, end)
    try:
        yield
    finally:
        for number in numbers:
            if before[number] is signal.SIG_DFL:
                signal.signal(number, signal.SIG_DFL)


def open_streams() -> None:
    """Lets the places of closed standard streams be taken, so that no file that is opened gets one
    of their numbers.
    """
    for number in range(3):
        try:
            os.fstat(number)
        except OSError:
            os.open(os.devnull, os.O_RDWR)


def deaf() -> int:
    """The exit code where nobody reads standard output any more: nothing is flushed into it at the
    end.
    """
    os.dup2(os.open(os.devnull, os.O_WRONLY), sys.stdout.fileno())
    return 3


def drained() -> bool:
    """Whether standard output took all that was printed. What it couldn't take, as on a full disk,
    is dropped: Python would try it once more at the end, and end with 120.
    """
    try:
        sys.stdout.flush()
    except OSError:
        deaf()
        return False
    return True


def further(verb: str) -> str:
    """How one goes on where a verb was broken off: another than these two may have kept what it
    did, and would do it once more.
    """
    if verb in ('send', 'refresh', 'get'):
        return 'the same command again goes on from what is kept'
    return 'yoke status shows what is kept: look before the same command again'


def complain(text: object) -> None:
    """One line on the error stream, after what was written before."""
    drained()
    note(' '.join(str(text).split('\n')))
