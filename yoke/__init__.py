"""Yoke: a mapper's working folder for OpenStreetMap edits, and what sends them. docs/PYTHON.md
shows the library by examples.

`Day` is a working folder, `connect` gives a `Server`, and `Trouble` is what goes wrong, each kind
with its exit code. These names are stable: one that goes is named in CHANGELOG a version before.
`yoke/README.md` names the modules behind them, which may change at any time.
"""
from __future__ import annotations

import importlib
from typing import TYPE_CHECKING, Any

VERSION = '0.2.0'

if TYPE_CHECKING:
    from yoke.api import Account, Server, connect
    from yoke.day import State
    from yoke.fresh import Candidate
    from yoke.library import Day, Planned, Status
    from yoke.opl import Object
    from yoke.program import BadLine, Reply
    from yoke.saved import Known
    from yoke.trouble import Busy, Clash, Later, NoAnswer, Refused, ServerRefused, Trouble, Usage
    from yoke.verbs.do import Done
    from yoke.verbs.import_ import Imported
    from yoke.verbs.refresh import News
    from yoke.verbs.send import Sent
    from yoke.verbs.start import Started

__all__ = [
    'VERSION',
    'Account',
    'BadLine',
    'Busy',
    'Candidate',
    'Clash',
    'Day',
    'Done',
    'Imported',
    'Known',
    'Later',
    'News',
    'NoAnswer',
    'Object',
    'Planned',
    'Refused',
    'Reply',
    'Sent',
    'Server',
    'ServerRefused',
    'Started',
    'State',
    'Status',
    'Trouble',
    'Usage',
    'connect',
]

# Where each name is. A module is loaded when one of its names is asked for, so that a part of yoke
# loads without the others.
_PLACES = {
    'api': ('Account', 'Server', 'connect'),
    'day': ('State',),
    'fresh': ('Candidate',),
    'library': ('Day', 'Planned', 'Status'),
    'opl': ('Object',),
    'program': ('BadLine', 'Reply'),
    'saved': ('Known',),
    'trouble': (
        'Busy',
        'Clash',
        'Later',
        'NoAnswer',
        'Refused',
        'ServerRefused',
        'Trouble',
        'Usage',
    ),
    'verbs.do': ('Done',),
    'verbs.import_': ('Imported',),
    'verbs.refresh': ('News',),
    'verbs.send': ('Sent',),
    'verbs.start': ('Started',),
}
_MODULES = {name: 'yoke.' + module for module, names in _PLACES.items() for name in names}


def __getattr__(name: str) -> Any:
    """One of the names above, from its module."""
    if name not in _MODULES:
        raise AttributeError(f'module {__name__!r} has no attribute {name!r}')
    return getattr(importlib.import_module(_MODULES[name]), name)


def __dir__() -> list[str]:
    """The names above."""
    return sorted(__all__)
