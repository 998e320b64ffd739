"""The words of the launcher's command line, and what it answers to them."""
import os
import re
from dataclasses import dataclass, field

from launcher.messages import Stop

HELP = '''usage: ./editor [--max-objects N] [--max-file N] SCRIPT
       ./editor --prove
       ./editor --rust FOLDER [--crates stand-in|real|vendor=DIR]
       ./editor --man FOLDER
       ./editor --look SCRIPT

Runs a script over OPL files (docs/TOUR.md), and writes the replies and the data to standard output. It runs the first of these
that there is, and says on the error stream which one it is where that isn't the first:

  1. the program that --prove proved and built here from these sources
  2. a released program beside ./editor whose hash RELEASE names
  3. a plain Rust build of these sources. It is built where cargo is on the path: half a minute and 200 MB of memory, once.
     It gives the same answers. Nothing of it is proved
  4. where only the Rattle toolkit is there, the program as that compiles it before any proof: two to four minutes and 3 GB
     of memory, once

  --prove          proves and builds the program, and runs nothing. On this machine that takes {minutes}, as far as the
                   sources tell, up to {memory} of memory, and {disk} of disk until it is done. It may be interrupted,
                   and goes on later from what is proved. It says whether the bytes are those of the released program. Beside it:
                     --keep     keeps the proved libraries for the next build
                     --measure  writes to the log what memory each proof takes, with all of its processes
                     --anyway   begins although memory or disk seem too small
  --rust FOLDER    writes the program as a cargo workspace in plain Rust, to build it anywhere. --crates says which libraries
                   it uses: small stand-ins (the default; nothing is downloaded), the real ones of crates.io, or those in
                   a folder of vendored sources
  --man FOLDER     writes the manual pages, from the pages of docs/
  --look SCRIPT    runs the script by the toolkit's `rt try`, with its checks: at most 60 seconds and 1 MiB of output, and
                   nothing is kept
  -h, --help       this text
  --version        the version, the commit, the toolkit, and which programs are built

JOBS=N ./editor --prove    proves N crates at a time, with N jobs (as many as there are processors, where it isn't said)

A script whose name begins with - stands after --. The exit status is the program's own (docs/REFUSALS.md, "Statuses"); 1 where
it couldn't be proved or built, 127 where neither cargo nor the toolkit is there, 130 after Ctrl-C.
The log of a proof is {log}.
Read on: README.md, then docs/TOUR.md and docs/COMMANDS.md.
'''
BRIEF = '''usage: ./editor [--max-objects N] [--max-file N] SCRIPT
       ./editor --prove            proves the program and builds it
       ./editor --help             says more
'''
FLAGS = {'--anyway': 'anyway', '--keep': 'keeps', '--measure': 'measures'}
LIMITS = ('--max-objects', '--max-file')


@dataclass
class Words:
    """What the user asked for: `action` is run, help, brief, version, look, rust, man or prove;
    `rest` are the words that go with it.
    """

    action: str
    rest: list = field(default_factory=list)
    flags: dict = field(default_factory=dict)


def read(words):
    """Reads the words of the command line. What the launcher doesn't know is left to the program."""
    if not words:
        return Words('brief')
    if words[0] in ('-h', '--help'):
        return Words('help')
    if words[0] == '--version':
        return Words('version')
    if words[0] == '--look':
        return Words('look', words[1:])
    if words[0] == '--rust':
        return Words('rust', rust_words(words[1:]))
    if words[0] == '--man':
        if len(words) != 2 or words[1].startswith('-'):
            raise Stop('usage: ./editor --man FOLDER', 2)
        return Words('man', words[1:])
    if words[0] == '--prove' or words[0] in FLAGS:
        other = [it for it in words if it != '--prove' and it not in FLAGS]
        if other or '--prove' not in words:
            raise Stop(
                '{} goes with --prove and no script: ./editor --help says more'.format(
                    ' '.join(words)
                ),
                2,
            )
        return Words('prove', [], {FLAGS[it]: True for it in words if it in FLAGS})
    return Words('run', words)


def rust_words(words):
    """The folder for the export, and which libraries it takes."""
    if (
        words
        and (len(words) == 1 or len(words) == 3 and words[1] == '--crates')
        and not words[0].startswith('-')
    ):
        return [words[0], words[2] if len(words) == 3 else 'stand-in']
    raise Stop('usage: ./editor --rust FOLDER [--crates stand-in|real|vendor=DIR]', 2)


def script_in(words):
    """The script among the program's words, or `Stop` where they can't be words of the program. The
    program reads them again and has the last word: this keeps a slip from costing a build.
    """
    names, ended, at = [], False, 0
    while at < len(words):
        word = words[at]
        if not ended and word == '--':
            ended = True
        elif not ended and word in LIMITS:
            at += 1
        elif not ended and word.startswith('-') and word != '-':
            if word.partition('=')[0] not in LIMITS:
                raise Stop(
                    f'there is no option {word}: ./editor --help has those that there are',
                    2,
                )
        else:
            names.append(word)
        at += 1
    if len(names) != 1:
        raise Stop(
            'one script is wanted, and {} named: ./editor --help says more'.format(
                'none is' if not names else f'{len(names)} are'
            ),
            2,
        )
    return names[0]


def hold_to_script(words):
    """Raises `Stop` where the words name no script that can be read."""
    script = script_in(words)
    if not os.path.exists(script):
        raise Stop('there is no script {}'.format(script or 'of an empty name'), 3)
    if os.path.isdir(script) or not os.access(script, os.R_OK):
        raise Stop(f'the script {script} can\'t be read', 7)


def jobs_wanted():
    """How many jobs JOBS asks for, 0 where it doesn't say."""
    text = os.environ.get('JOBS', '')
    if not text:
        return 0
    if not re.fullmatch('[1-9][0-9]{0,2}', text):
        raise Stop(f'JOBS is {text!r}, and has to be a number from 1 to 999', 2)
    return int(text)
