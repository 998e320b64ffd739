"""sessions PROGRAM SESSIONS MEETINGS: random sessions over a made-up town, by the program and by
the second editor (bench/model).

Both have to write the same text. Each session has 1,000 steps; bench/check/compare makes and
compares them.
"""
from __future__ import annotations

import pathlib
import subprocess
import sys
import tempfile

from tools.check.needs import TOP

# With fewer the town has no relation, and a session needs some of each kind.
OBJECTS = 1500


def main(words: list[str]) -> int:
    """Makes the town, and compares: the status."""
    if len(words) != 3:
        sys.exit(__doc__)
    program, sessions, meetings = words[0], int(words[1]), int(words[2])
    with tempfile.TemporaryDirectory() as holder:
        town = pathlib.Path(holder, 'town.opl')
        with open(town, 'wb') as out:
            subprocess.run(
                [sys.executable, str(TOP / 'bench/model/town'), str(OBJECTS)],
                stdout=out,
                check=True,
            )
        for count, more in ((sessions, ()), (meetings, ('--meetings',))):
            seeds = [str(it) for it in range(1, count + 1)]
            done = subprocess.run(
                [
                    sys.executable,
                    str(TOP / 'bench/check/compare'),
                    *more,
                    '--program',
                    program,
                    str(town),
                    *seeds,
                ]
            )
            if seeds and done.returncode:
                return 1
    return 0


if __name__ == '__main__':
    sys.exit(main(sys.argv[1:]))
