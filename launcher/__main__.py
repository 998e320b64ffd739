"""Starts the launcher: `python3 launcher` is `./editor`."""
import os
import sys

if sys.version_info < (3, 9):
    sys.exit('./editor: Python 3.9 or later is needed, and python3 is ' + sys.version.split()[0])
sys.path[0] = os.path.dirname(os.path.abspath(sys.path[0]))

from launcher.main import main  # noqa: E402 (the path comes first)

sys.exit(main(sys.argv[1:]))
