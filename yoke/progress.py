"""What tells of progress and of faults: lines on the error stream, so that standard output has
results alone.
"""
import sys

from yoke import results


def silent(line: str) -> None:
    """Says nothing: in the place of `note` or `print`, where nobody reads lines."""


def note(line: str) -> None:
    """Writes a line, after all that standard output has so far."""
    results.note(line)
    sys.stdout.flush()
    print('yoke: ' + line, file=sys.stderr, flush=True)
