"""The edits of examples/edit.script on a map, as `yoke diff --svg` draws them."""

from dataclasses import dataclass
from typing import List

from bench.drawing.data import EXAMPLES, output
from yoke import table
from yoke.review import picture
from yoke.review.items import USERS, collect


@dataclass
class Drawn:
    """A picture that yoke drew."""

    text: str

    def svg(self) -> str:
        """The picture."""
        return self.text

    def faults(self) -> List[str]:
        """What is wrong with it: nothing is drawn of the edits."""
        return [] if '<g><title>' in self.text else ['no edit is drawn']


def edits() -> Drawn:
    """The town of the examples with the edits of edit.script."""
    lines = (EXAMPLES / 'edit.script').read_text(encoding='utf-8').splitlines()
    steps = [
        line
        for line in lines
        if line.split(' ')[0] not in ('print', 'count', 'tag', 'undo', 'redo') or 'w5' in line
    ]
    written = output([*steps, USERS, 'save']).splitlines()
    begin = next(at for at, line in enumerate(written) if line.startswith('session 1 '))
    users = [line for line in written[:begin] if line.startswith('w') and line[1:].isdigit()]
    found = collect(table.read('\n'.join(written[begin:]) + '\n'), users)
    return Drawn(picture.document(found, f'{len(found.items)} edits'))
