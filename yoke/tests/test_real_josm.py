"""Files that JOSM's own classes read, edit and save, without a screen: what `to-josm` writes goes
through them and comes back.

They need Debian's `josm` and `java`; without either they are skipped.
"""
from __future__ import annotations

import pathlib
import random
import shutil
import subprocess
import tempfile
import unittest

from yoke import table
from yoke.formats import foreign, osm_xml
from yoke.tests import sessions
from yoke.tests.josm import Layer
from yoke.tests.support import ServerTest
from yoke.tests.test_foreign import contents, some_steps
from yoke.tests.test_josm import AREA, of_layer

JAR = pathlib.Path('/usr/share/josm/josm.jar')
PROGRAM = pathlib.Path(__file__).with_name('JosmScribble.java')
FILES = 40


def josm(*jobs: tuple[pathlib.Path, pathlib.Path, int, int]) -> None:
    """Has JOSM open each file, edit it so many times by a seed, and save it under another name."""
    words = [str(word) for job in jobs for word in job]
    done = subprocess.run(
        ['java', '-cp', str(JAR), str(PROGRAM), *words], capture_output=True, text=True
    )
    if done.returncode != 0:
        raise AssertionError(done.stderr)


@unittest.skipUnless(
    JAR.exists() and shutil.which('java'),
    'josm or java isn\'t installed (Debian: apt-get install josm)',
)
class RealJosm(ServerTest):
    town = AREA

    def setUp(self) -> None:
        super().setUp()
        holder = tempfile.TemporaryDirectory(prefix='yoke-josm-')
        self.addCleanup(holder.cleanup)
        self.files = pathlib.Path(holder.name)

    def test_what_is_saved_untouched_changes_nothing(self) -> None:
        self.begin(
            'node x9.5009 y47.1409 Tamenity=bench',
            'tag w10 Tsurface=asphalt',
            'delete n4',
            town=AREA,
        )
        self.done('to-josm', 'day.osm')
        josm((self.folder / 'day.osm', self.folder / 'saved.osm', 1, 0))
        self.assertEqual('saved.osm changes nothing here\n', self.done('josm', 'saved.osm'))

    def test_a_drawing_is_sent_as_it_was_drawn(self) -> None:
        self.begin(town=AREA)
        self.done('to-josm', 'day.osm')
        josm((self.folder / 'day.osm', self.folder / 'saved.osm', 5, 12))
        drawn = Layer((self.folder / 'saved.osm').read_bytes())
        self.assertTrue(any(one.modified for one in drawn.things.values()))
        self.done('josm', 'saved.osm')
        self.assertEqual(0, self.send('--unseen'), self.err)  # places are drawn all over the world
        there = {key for key, element in self.theirs().items() if element.visible}
        self.assertEqual(len(drawn.living()), len(there))

    def test_random_drawings(self) -> None:
        """Whatever JOSM saves, the session has just that then, and the same file again changes
        nothing.
        """
        dice, jobs, texts = random.Random(11), [], []
        for number in range(FILES):
            text = sessions.ran(
                ['download area.opl'] + list(some_steps(dice, 8)) + ['save'], area_opl=AREA
            ).saved()
            written, saved = self.files / f'{number}.osm', self.files / f'{number}-saved.osm'
            written.write_text(
                '\n'.join(osm_xml.josm_lines(table.read(text), '1-0a1b')), encoding='utf-8'
            )
            jobs.append((written, saved, number, dice.randint(1, 12)))
            texts.append(text)
        josm(*jobs)
        changed = 0
        for text, (_, saved, number, _) in zip(texts, jobs):
            data = saved.read_bytes()
            plan = foreign.plan(osm_xml.read_josm(data).told, table.read(text), table.read(text))
            self.assertEqual([], plan.problems, number)
            changed += bool(plan.lines)
            later = table.read(sessions.goes_on(text, plan.lines).saved())
            lives = {key: content for key, content in contents(later).items() if content}
            self.assertEqual(lives, of_layer(as_saved(data), plan.made), number)
            again = foreign.plan(osm_xml.read_josm(data).told, later, table.read(text))
            self.assertEqual(([], []), (again.problems, again.lines), number)
        self.assertGreater(changed, FILES // 2)


def as_saved(data: bytes) -> Layer:
    """The layer of a file, with the ids that the file has."""

    class Same(Layer):
        def _number(self, number: int) -> int:
            return number

    return Same(data)


if __name__ == '__main__':
    unittest.main()
