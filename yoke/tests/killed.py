"""killed.py K WORDS: `yoke WORDS`, killed by the signal KILL at its step K (`yoke/tests/stops.py`).
"""
import os
import signal
import sys

from yoke.command import main
from yoke.tests.stops import stop_at

if __name__ == '__main__':
    with stop_at(int(sys.argv[1]), lambda: os.kill(os.getpid(), signal.SIGKILL)):
        sys.exit(main(sys.argv[2:]))
