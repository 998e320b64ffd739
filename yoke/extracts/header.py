"""The first line of an extract that yoke wrote: of which moment the data is.

    # as of 2026-12-02T04:13:00Z, from https://HOST/api/0.6

A line of OPL that begins with `#` is a comment, which every reader of OPL skips. The moment is the
earliest one: every object in the file is as it was then, or newer.
"""
import datetime
import re
from typing import Optional

FORM = re.compile('# as of ([0-9]{4}-[0-9]{2}-[0-9]{2}T[0-9]{2}:[0-9]{2}:[0-9]{2}Z), from (.*)')
MOST = 4096  # bytes in which the line is looked for


def line(moment: Optional[str], source: str) -> str:
    """The first line of an extract, without its line feed; `moment` is None if nobody knows it."""
    source = ' '.join(source.split())
    return (
        f'# as of {moment}, from {source}' if moment else f'# of an unknown moment, from {source}'
    )


def moment_of(path: str) -> Optional[str]:
    """The moment of an extract, as `2026-12-02T04:13:00Z`; None if its first line has none."""
    with open(path, 'rb') as file:
        first = file.read(MOST).split(b'\n')[0]
    found = FORM.fullmatch(first.decode('utf-8', 'replace').rstrip('\r'))
    return found[1] if found else None


def stamp(seconds: float) -> str:
    """A time in seconds since 1970 as `2026-12-02T04:13:00Z`."""
    moment = datetime.datetime.fromtimestamp(int(seconds), datetime.timezone.utc)
    return moment.strftime('%Y-%m-%dT%H:%M:%SZ')


def is_stamp(text: Optional[str]) -> bool:
    """Whether a text is a moment in this form."""
    return bool(text) and bool(FORM.fullmatch(f'# as of {text}, from '))
