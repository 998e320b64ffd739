"""The words by which rattle is called, and the verdicts that are taken for a proof.

They are the words of `rt ci` for its proofs: a library is built with its statements alone, so what
stands above it loads those and not its proofs. rattle writes nothing for a crate that isn't proved.
"""
import os
import re

LOGIC = 'rattle/logic/antt-project.json'
TARGET = 'x86_64-unknown-linux-gnu'
ARCHIVES = ('c/libos_c.a', 'c/liblibc_c.a')
# A verdict is demanded whole. Any other word in it says what a proof leaves out (as main= hides=
# bugs= partial= incremental= cache= crate-checked=), or is a later rattle's.
TRUSTED = 'native=nat,char,string logic-built=trusted libraries-built=trusted statements=trusted'
LIBRARY = 'logic=proved functions=[0-9]+ sum={} ' + TRUSTED
PROGRAM = (
    'logic=proved functions=[0-9]+ axioms=[0-9]+ target='
    + TARGET
    + ' cpu=x86-64-v2 sum={} '
    + TRUSTED
)


def of_crate(crate, names, kit, rlibs):
    """The words by which rattle finds a crate, the libraries below it and the logic. `names` are
    the repository's crates.
    """
    words = ['--crate-name', crate.name, 'src/main.rt' if crate.is_program else 'src/lib.rt']
    for it in ('std', *crate.libraries):
        folder = rlibs if it in names else os.path.join(kit, 'rlibs')
        words += ['--extern', f'{it}={os.path.join(folder, it)}.rlib']
    words += ['-L', 'dependency=' + os.path.join(kit, 'rlibs'), '-L', 'dependency=' + rlibs]
    return [*words, '--antt-project', os.path.join(kit, LOGIC), '--links', crate.name + '=']


def proof(crate, names, kit, rlibs, to):
    """The words of a crate's proof, but for its jobs: a library is built to `to`, a program only
    checked.
    """
    words = [
        *of_crate(crate, names, kit, rlibs),
        '--logic-built',
        os.path.join(kit, 'logic_built'),
        '-o',
        to,
    ]
    rattle = os.path.join(kit, 'bin', 'rattle')
    return (
        [rattle, 'check', *words] if crate.is_program else [rattle, 'build', *words, '--statements']
    )


def compiling(crate, names, kit, rlibs, checked, to):
    """The words that compile a program from what was proved, by LLVM."""
    words = [*of_crate(crate, names, kit, rlibs), '--crate-checked', checked]
    words += ['--toolchain', os.path.join(kit, 'toolchain'), '--backend', 'llvm', '-o', to]
    return [os.path.join(kit, 'bin', 'rattle'), 'build', *words]


def linking(kit, compiled, to):
    """The words that link a program."""
    words = ['--target', TARGET, '--toolchain', os.path.join(kit, 'toolchain'), '-o', to, compiled]
    return [
        os.path.join(kit, 'bin', 'rattle-link'),
        *words,
        *(os.path.join(kit, it) for it in ARCHIVES),
    ]


def is_verdict(is_program, line, logic):
    """Whether the last line of a crate's log says that all of it is proved, over the logic of this
    sum.
    """
    return bool(re.fullmatch((PROGRAM if is_program else LIBRARY).format(re.escape(logic)), line))
