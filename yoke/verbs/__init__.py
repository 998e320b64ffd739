"""The verbs of `yoke`, one module each.

To add one write `yoke/verbs/NAME.py` with

    SUMMARY = 'one line for yoke --help, without a full stop'
    DETAILS = 'more text for yoke NAME --help'          # may be left out
    def add_arguments(parser): ...                      # its words and options, by argparse
    def run(arguments) -> int: ...                      # its exit code; raises Trouble

and put its name into NAMES. A name's `-` is `_` in the module, and a word that Python keeps for
itself has a `_` at its end there: `to-josm` is `to_josm.py`, `import` is `import_.py`.
"""
import importlib
import keyword
from types import ModuleType

NAMES = [
    'start',
    'do',
    'status',
    'diff',
    'undo',
    'send',
    'refresh',
    'conflicts',
    'resolve',
    'tag',
    'show',
    'insert',
    'add-member',
    'turns',
    'lint',
    'expand',
    'josm',
    'to-josm',
    'osc',
    'geojson',
    'import',
    'ledger',
    'revert',
    'practice',
    'tiles',
    'get',
    'review',
    'login',
    'whoami',
    'logout',
    'log',
    'conflate',
]


def load(name: str) -> ModuleType:
    """The module of a verb."""
    module = name.replace('-', '_')
    return importlib.import_module(
        'yoke.verbs.' + module + ('_' if keyword.iskeyword(module) else '')
    )
