"""Runs a script before any proof, by `rt try` (`--look`)."""
import os
import re
import shutil
import signal
import subprocess
import sys

from launcher import machine
from launcher.build import PROGRAM
from launcher.messages import Stop, gigabytes, say

# The verbs whose first word names a file.
READS = ('download', 'import', 'confirm', 'resume', 'serve')
# Names that rt try has for files of its own.
TAKEN = ('program', 'stdin', 'stdout', 'stderr')
ENDED = re.compile(r'run=ended status=(\d+) .*proved=no')
ESCAPE = re.compile(r'%([0-9a-fA-F]{1,8})%')
LARGEST = 16_777_216
# Bytes of memory that rt try takes to read and compile the program's sources.
MEMORY = 3e9
SAYS = {
    1: 'the toolkit refuses the program\'s sources',
    2: 'rt try itself failed',
    3: 'rt try met a limit of the toolkit',
    4: 'rt try found a fault in the program',
    5: 'the two runs of rt try differ',
    6: 'no answer: it took more than 60 seconds or gave more than 1 MiB of output',
}


def names_in(script):
    """The names of files that a script's lines have, escapes read as the program reads them."""
    found = []
    for line in script.splitlines():
        words = line.split()
        if len(words) > 1 and words[0] in READS:
            name = ESCAPE.sub(
                lambda it: chr(int(it[1], 16)) if int(it[1], 16) < 0x110000 else it[0], words[1]
            )
            if name not in found:
                found.append(name)
    return found


def can_be_given(name):
    """Whether rt try can give a file under this name: below the folder, with no step upwards, and
    no name of its own.
    """
    if not name or os.path.isabs(name) or '=' in name or os.path.normpath(name) != name:
        return False
    return name.split('/')[0] not in ('..', *TAKEN)


def given(names, folder):
    """The words that give rt try a copy of each file, by its name. A file that isn't there isn't
    given.
    """
    words = []
    for name in names:
        path = os.path.join(folder, name)
        if not os.path.isfile(path):
            continue
        if not can_be_given(name):
            raise Stop(
                '--look takes only files of this folder and below it, by their plain names, and the script names\n'
                '{}: ./editor runs it once the program is proved'.format(name),
                2,
            )
        words += ['--data', f'{name}={os.path.abspath(path)}']
    return words


def script_of(words):
    """The script among the program's words, which --look takes alone."""
    words = words[1:] if words[:1] == ['--'] else words
    if len(words) != 1:
        raise Stop(
            '--look takes one script, and no option of the program: ./editor --look SCRIPT', 2
        )
    return words[0]


def command(script, folder):
    """The words of the call of rt try."""
    if not os.path.isfile(os.path.join(folder, script)):
        raise Stop(f'--look takes a script that is a file, and {script} is none', 2)
    with open(os.path.join(folder, script), 'rb') as file:
        text = file.read(LARGEST).decode('utf-8', 'replace')
    name = script if can_be_given(script) else 'the.script'
    words = [
        'rt',
        'try',
        '--data',
        f'{name}={os.path.abspath(os.path.join(folder, script))}',
    ]
    return [*words, *given([it for it in names_in(text) if it != name], folder), '--', name]


def run(home, words):
    """Runs the script of `--look`: the status."""
    script = script_of(words)
    if not shutil.which('rt'):
        raise Stop(
            '--look needs the Rattle toolkit: there is no command rt on the path. {} says which it is'.format(
                os.path.join(home, 'docs', 'INSTALL.md')
            ),
            127,
        )
    call = command(script, os.getcwd())
    if machine.free_memory() + machine.free_swap() < MEMORY:
        say(
            'this may take {}, and {} are free'.format(
                gigabytes(MEMORY), gigabytes(machine.free_memory())
            )
        )
    say(
        'running {} unproved, by rt try: one to three minutes, and nothing is proved by it. Nothing is kept'.format(
            script
        )
    )
    sys.stdout.flush()
    # rt gets standard error through a pipe, since its last lines are for who writes Rattle, and are
    # put in plain words here.
    how = {'stdin': subprocess.DEVNULL, 'stderr': subprocess.PIPE}
    process = subprocess.Popen(call, cwd=os.path.join(home, 'crates', PROGRAM), **how)
    try:
        said = process.communicate()[1].decode('utf-8', 'replace')
    except BaseException:
        process.send_signal(signal.SIGTERM)
        process.wait()
        raise
    return told(process.returncode, said)


def told(status, said):
    """Says how a try ended: its status. The program's own words are passed on."""
    lines = said.splitlines()
    ended = ENDED.fullmatch(lines[-1]) if lines else None
    if ended and int(ended[1]) == status:
        for line in lines:
            if line.startswith('editor: '):
                print(line, file=sys.stderr)
        say(
            'that was the program as it is written, and nothing of it is proved. ./editor SCRIPT proves it first'
        )
        return status
    for line in lines[-12:]:
        print('    ' + line, file=sys.stderr)
    if 0 <= status <= 128:
        say(
            'no answer without a proof: {}'.format(
                SAYS.get(status, f'rt try ended with status {status}')
            )
        )
        return status or 1
    say(
        'no answer without a proof: rt try was stopped by signal {}'.format(
            -status if status < 0 else status - 128
        )
    )
    return 1
