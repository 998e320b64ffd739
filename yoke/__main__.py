"""`python3 -m yoke` is the command `yoke`."""
import sys

from yoke.command import main

if __name__ == '__main__':
    sys.exit(main())
