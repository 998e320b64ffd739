"""A saved session that is broken is told with its line and the way out, whichever verb meets it."""
from __future__ import annotations

import pathlib
import random
import unittest

from yoke.tests.support import FolderTest
from yoke.trouble import Trouble

VERBS = (
    ('show', 'n1'),
    ('show', 'w-2'),
    ('diff',),
    ('conflicts',),
    ('status',),
    ('geojson', 'a.geojson'),
    ('log',),
    ('do', 'steps.script'),
    ('tag', 'name=x', '--find', 'Tamenity=bench'),
    ('to-josm', 'a.osm'),
    ('add-member', 'n1', 'r9'),
    ('insert', 'n1', 'w5'),
    ('send', '--dry'),
    ('send', '--dry', '--only', 'n1'),
    ('import', 'bench.geojson', '--columns', 'amenity', '--anywhere'),
)
BENCH = '{"type": "Feature", "properties": {"amenity": "bench"}, "geometry": {"type": "Point", "coordinates": [13.1, 52]}}'
EDITS = ('node x13.004 y52 Tmark=a', 'way Tmark=b Nn1,n-1', 'tag w5 Tname=c', 'delete r9')


class Damage(FolderTest):
    def break_last(self, data: bytes) -> pathlib.Path:
        """Lets the last session be these bytes."""
        path: pathlib.Path = self.day.last().path
        path.write_bytes(data)
        return path

    def test_the_line_and_the_way_out_are_told(self) -> None:
        self.begin(*EDITS)
        text = self.day.last().text()
        bad = text.replace('known w5 live own none', 'known w5 live own')
        number = bad.split('\n').index('known w5 live own') + 1
        path = self.break_last(bad.encode())
        for words in (('show', 'w5'), ('diff',), ('do', 'steps.script')):
            self.assertEqual(Trouble.code, self.yoke(*words), self.err)
            self.assertIn(
                f'{path.name} is broken: line {number} is none of a saved session: known w5 live own;',
                self.err,
            )
            self.assertIn('yoke undo goes back to session 1 by start', self.err)
        self.done('undo')
        self.done('do', 'steps.script')

    def test_the_first_session_has_none_before_it(self) -> None:
        self.begin()
        self.break_last(b'session 1 1\nknown n1 live same none\n')
        for words in (('show', 'n1'), ('conflicts',), ('send', '--dry')):
            self.assertEqual(Trouble.code, self.yoke(*words), self.err)
            self.assertRegex(
                self.err, 'is broken: line [0-9]+ is none .* begin another day by yoke start'
            )

    def test_no_damage_is_told_as_a_fault_of_yoke(self) -> None:
        self.write('bench.geojson', BENCH)
        self.begin(*EDITS)
        whole = self.day.last().text().encode()
        states = {state.path: state.path.read_bytes() for state in self.day.states()}
        chance = random.Random(7)
        for number in range(120):
            for path in self.day.folder.iterdir():
                path.unlink()
            for path, data in states.items():
                path.write_bytes(data)
            self.break_last(damaged(whole, chance))
            words = chance.choice(VERBS)
            self.assertIn(self.yoke(*words), (0, 1, 2, 3, 4), (number, words, self.err))


def damaged(data: bytes, chance: random.Random) -> bytes:
    """A file that was cut off, or of which some bytes, words or lines went, came or changed places."""
    lines, at = data.split(b'\n'), chance.randrange(len(data))
    one, other = chance.randrange(len(lines)), chance.randrange(len(lines))
    kind = chance.randrange(7)
    if kind == 0:
        return data[:at]
    if kind == 1:
        return data[:at] + bytes([chance.choice(b'\n \0\xffa0-,=@')]) + data[at + 1 :]
    if kind == 2:
        return data[:at] + data[at + chance.randrange(1, 20) :]
    if kind == 3:
        lines.insert(one, lines[other])
    elif kind == 4:
        lines[one], lines[other] = lines[other], lines[one]
    elif kind == 5:
        words = lines[one].split(b' ')
        del words[chance.randrange(len(words))]
        lines[one] = b' '.join(words)
    else:
        del lines[one]
    return b'\n'.join(lines)


if __name__ == '__main__':
    unittest.main()
