"""What the launcher says, and how it ends where it can't go on."""
import sys

NAME = './editor'


class Stop(Exception):
    """What ends the launcher: words for whoever called it, and the exit status."""

    def __init__(self, text, status=1):
        super().__init__(text)
        self.status = status


def say(text):
    """Writes to the error stream, each line under the launcher's name."""
    for line in text.splitlines():
        print(f'{NAME}: {line}', file=sys.stderr, flush=True)


def count(number, word):
    """A number and its word: "1 minute", "2 minutes"."""
    return '{} {}{}'.format(number, word, '' if number == 1 else 's')


def minutes(seconds):
    """A time in whole minutes, as it is told: "less than a minute", "about 25 minutes"."""
    whole = round(seconds / 60)
    return 'about ' + count(whole, 'minute') if whole else 'less than a minute'


def gigabytes(size):
    """A size in bytes, as it is told: "4.1 GB", of 1,000,000,000 bytes each."""
    return f'{size / 1e9:.1f} GB'


def stopped_by(what, signal, jobs, free):
    """What is said where something, as "the proof of low", was stopped from outside. What was
    stopped hasn't failed.
    """
    text = f'{what} was stopped by signal {signal}'
    if signal != 9:
        return text + ': run ./editor again, and it goes on from what is proved'
    text += f': out of memory? {gigabytes(free)} were free when it began'
    if jobs > 1:
        return text + '. Close other programs, and run with fewer jobs: JOBS=1 ./editor'
    return (
        text
        + ', and nothing else ran beside it: close other programs, or take a machine with more memory'
    )


def end_of(path, lines=12):
    """The last lines of a log, indented."""
    try:
        with open(path, encoding='utf-8', errors='replace') as log:
            return ''.join('    ' + line + '\n' for line in log.read().splitlines()[-lines:])
    except OSError as error:
        return f'    (the log can\'t be read: {error.strerror})\n'
