"""Holds a built program to the example of the pages."""
from __future__ import annotations

import os
import subprocess

from launcher.messages import Stop

EXAMPLE = ('examples', 'edit.script', 'edit.expected')


def hold(home: str, program: str) -> None:
    """Ends a build where the program doesn't answer the example as its page has it, if there is
    one.
    """
    part, script, wanted = EXAMPLE
    folder = os.path.join(home, part)
    if not os.path.isfile(os.path.join(folder, wanted)):
        return
    done = subprocess.run(
        [program, script], cwd=folder, stdin=subprocess.DEVNULL, stdout=subprocess.PIPE
    )
    with open(os.path.join(folder, wanted), 'rb') as file:
        if done.returncode or done.stdout != file.read():
            raise Stop(
                f'the built program doesn\'t answer examples/{script} as examples/{wanted} has it '
                f'(status {done.returncode})'
            )
