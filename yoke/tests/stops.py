"""Stops a program at its K-th step, as a loss of power does: a step is what changes the disk, or a
call to the server.

    with stop_at(5): ...       # raises Stopped at the fifth step, and at each one after it

Before and after each of these is a step: a file appears under its name, gets another one, or is
removed; a call goes out. What comes after the first Stopped can change nothing any more, so an
`except` or a `finally` can't help.
"""
import contextlib
import os
import pathlib
from unittest import mock

from yoke import api


class Stopped(BaseException):
    """The program ends here."""


class Steps:
    """Counts steps, and stops at one of them."""

    def __init__(self, last, stop=None):
        self.count, self.last, self.names = 0, last, []
        self.stop = stop or self._raise

    @staticmethod
    def _raise():
        raise Stopped()

    def step(self, name):
        self.count += 1
        self.names.append(name)
        if self.last is not None and self.count >= self.last:
            self.stop()

    def around(self, function, name):
        """The function with a step before and after it. Of a call to a server the name has the
        method and the path.
        """

        def stepped(*given, **named):
            words = ' '.join(
                [name]
                + [pathlib.Path(one).name for one in given if isinstance(one, (str, os.PathLike))][
                    -2:
                ]
            )
            self.step('before ' + words)
            done = function(*given, **named)
            self.step('after ' + words)
            return done

        return stepped


@contextlib.contextmanager
def stop_at(last, stop=None):
    """Stops at this step; at none where it is None. Gives the Steps."""
    steps = Steps(last, stop)
    once = steps.around(api.Server._once, 'call')
    with mock.patch('os.replace', steps.around(os.replace, 'write')), mock.patch(
        'os.rename', steps.around(os.rename, 'rename')
    ), mock.patch.object(
        pathlib.Path, 'unlink', steps.around(pathlib.Path.unlink, 'remove')
    ), mock.patch.object(
        api.Server,
        '_once',
        lambda server, method, path, document=None: once(server, method, path, document),
    ):
        yield steps
