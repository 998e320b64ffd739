"""`yoke undo`: back to the session that was kept before."""
import argparse
from typing import Tuple

from yoke import ledger, results
from yoke.day import Day, State

SUMMARY = 'take the last verb back: the session kept before is the session again'
DETAILS = 'What the server has taken can\'t be taken back so. The session that was taken back stays in the folder as N-VERB.undone; of\nthese the three with the highest numbers stay.'


def add_arguments(parser: argparse.ArgumentParser) -> None:
    """The words of the verb: none of its own."""


def take_back(day: Day) -> Tuple[State, State]:
    """Takes the last verb back; answers with the session that went, and the one that is the last
    again.
    """
    with day.locked():
        gone = day.take_back()
        last = day.last()
        ledger.settle(day)
        return gone, last


def run(arguments: argparse.Namespace) -> int:
    """Takes the last verb back; answers with the exit code."""
    gone, last = take_back(Day(arguments.day))
    results.put(taken_back=results.of_state(gone), session=results.of_state(last))
    print(
        'took back session {} by {}; session {} by {} is the last again'.format(
            gone.number, gone.verb, last.number, last.verb
        )
    )
    return 0
