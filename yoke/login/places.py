"""Folders of the user by the XDG Base Directory Specification."""
import os
import pathlib


def config() -> pathlib.Path:
    """Where what the user writes lies: `~/.config/yoke`."""
    return _folder('XDG_CONFIG_HOME', '.config')


def state() -> pathlib.Path:
    """Where yoke keeps what belongs to this machine alone: `~/.local/state/yoke`."""
    return _folder('XDG_STATE_HOME', '.local/state')


def _folder(variable: str, usual: str) -> pathlib.Path:
    """A folder of yoke; by the specification a relative path in the environment doesn't count."""
    named = os.environ.get(variable, '')
    base = pathlib.Path(named) if os.path.isabs(named) else pathlib.Path.home() / usual
    return base / 'yoke'
