"""Numbers that programs write into the pages."""
import pathlib

from bench.check import counted

TOP = pathlib.Path(__file__).resolve().parents[2]
# what changed stays as it was told then
LEFT_OUT = ['CHANGELOG.md']


def pages():
    """The pages into which something may be written, by name."""
    names = [path.name for path in TOP.glob('*.md')] + sorted(
        str(path.relative_to(TOP)) for path in (TOP / 'docs').glob('**/*.md')
    )
    return {
        name: (TOP / name).read_text(encoding='utf-8') for name in names if name not in LEFT_OUT
    }


class Written:
    """The pages as they are, and as a program makes them."""

    def __init__(self, texts=None):
        """Over the pages of this repository, or over texts by their names."""
        self.was = texts or pages()
        self.texts, self.faults = dict(self.was), []

    def put_numbers(self):
        """Puts the numbers that programs count."""
        counts = counted.numbers()
        self.texts = {page: counted.corrected(text, counts) for page, text in self.texts.items()}

    def write(self):
        """Writes the pages that are others than they were."""
        for page, text in self.texts.items():
            if text != self.was[page]:
                (TOP / page).write_text(text, encoding='utf-8')

    def differences(self, command):
        """What isn't so, a sentence each, and the command that mends it."""
        for page, text in self.texts.items():
            if text != self.was[page]:
                lines = self.was[page].split('\n')
                changed = next((line for line in text.split('\n') if line not in lines), '')
                yield f'{page} is not as `{command}` makes it: {changed[:160]}'
