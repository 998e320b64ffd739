"""What the second editor (bench/model) says of the examples, for the pictures to show."""
import pathlib
import subprocess
import sys
from collections import namedtuple

TOP = pathlib.Path(__file__).resolve().parents[2]
EXAMPLES = TOP / 'examples'
MODEL = TOP / 'bench' / 'model' / 'model'

Thing = namedtuple(
    'Thing', 'key version is_there tags place nodes members'
)  # place: (lon, lat) or None


def output(steps, folder=EXAMPLES):
    """What a session of these steps over the files of a folder writes."""
    script = '\n'.join(steps) + '\n'
    done = subprocess.run(
        [sys.executable, str(MODEL), '/dev/stdin'],
        cwd=folder,
        input=script,
        stdout=subprocess.PIPE,
        text=True,
        check=True,
    )
    return done.stdout


def plain(text):
    """A text of OPL without its escapes."""
    parts = text.split('%')
    return ''.join(
        part if number % 2 == 0 else chr(int(part, 16)) for number, part in enumerate(parts)
    )


def thing_of(line):
    """An object of a line of OPL."""
    words = line.split(' ')
    fields = {word[0]: word[1:] for word in words[1:]}
    tags = dict(pair.split('=') for pair in fields.get('T', '').split(',') if pair)
    place = (float(fields['x']), float(fields['y'])) if fields.get('x') else None
    return Thing(
        words[0],
        int(fields.get('v') or 0),
        fields.get('d', 'V') == 'V',
        {plain(key): plain(value) for key, value in tags.items()},
        place,
        [ref for ref in fields.get('N', '').split(',') if ref],
        [member.split('@') for member in fields.get('M', '').split(',') if member],
    )


def printed(text):
    """The objects that an output has, by their keys."""
    return {
        thing.key: thing
        for thing in (
            thing_of(line) for line in text.split('\n') if line[:1] in tuple('nwr') and ' v' in line
        )
    }
