"""What ends a verb before it is done: one line for the user, and the exit code that goes with it.

Whatever a user can meet is raised as one of these. Anything else that is raised is a fault of the
program `yoke` itself.
"""
from typing import Iterable


class Trouble(Exception):
    """Something here isn't as it has to be: a file, a folder, the program. Its text is one plain
    sentence or two.
    """

    code = 3


class Refused(Trouble):
    """The session refused a step, or what was asked for can't be done as things are. Nothing was
    kept of it.

    `details` are lines that name what was refused, or what looks wrong.
    """

    code = 1

    def __init__(self, message: str, details: Iterable[str] = ()) -> None:
        super().__init__(message)
        self.details = list(details)


class Usage(Trouble):
    """The words of the command line are wrong."""

    code = 2


class Clash(Trouble):
    """Somebody was faster, or a conflict isn't resolved yet: `yoke refresh`, `yoke conflicts`,
    `yoke resolve`.

    `keys` are objects that the session may not know, and that a refresh has to ask for.
    """

    code = 4

    def __init__(self, message: str, keys: Iterable[str] = ()) -> None:
        super().__init__(message)
        self.keys = list(keys)


class NoAnswer(Trouble):
    """No answer of the server came, or none that tells what it did. The same command again goes on
    from there.
    """

    code = 5


class ServerRefused(Trouble):
    """The server answered with a 4xx: it did nothing of what it was asked. `status` and `text` are
    its answer, and `wait` is how many seconds it asks to wait, or 0 where it doesn't say.
    """

    code = 6

    def __init__(self, message: str, status: int = 0, text: str = '', wait: int = 0) -> None:
        super().__init__(message)
        self.status, self.text, self.wait = status, text, wait


class Later(ServerRefused):
    """The server asks to wait for longer than the command may. `wait` is how many seconds, or 0
    where it doesn't say.
    """

    code = 75


class Redacted(ServerRefused):
    """A version of an object exists, and the server shows it to nobody."""


class Busy(Trouble):
    """Another `yoke` works in this folder."""

    code = 7
