"""Tests of clauses.py: `python3 -m unittest bench.check.test_clauses`."""
import pathlib
import tempfile
import unittest
from typing import Dict, List

from bench.check import clauses

ROOT = '''//! A crate.
pub use counts::{Counts, law};
'''
CODE = '''/// Counts.
impl Counts {
    /// One more.
    pub fn more(&mut self, by: u8) -> u8
        requires { by < 4 }
        // what it is for
        ensures value { result ≡ self.old + by }
        ensures { result ≤ 8 }
    {
        self.n += by;
        self.n
    }

    fn hidden(&self) -> u8
        ensures { result ≡ 0 }
    {
        0
    }
}

pub fn law()
    ensures { (n : ℕ) → n ≤ n }
{}
'''
SPECS = '''-- Words.
use Rattle.std.specs.Prelude.{ℕ}

-- how many
abbrev pub count : ℕ → ℕ
count n = n

-- what holds
pub record IsRight (n : ℕ) : Type 0 where
  -- it is small
  pub small : n ≤ 4
  pub even : IsEven n
      → IsEven (n + 2)

abbrev pub last : ℕ
last = 9
'''


def made(folder: str, texts: Dict[str, str]) -> clauses.Folder:
    """A checkout with these files below crates/low."""
    for name, text in texts.items():
        path = pathlib.Path(folder) / 'crates' / 'low' / name
        path.parent.mkdir(parents=True, exist_ok=True)
        path.write_text(text, encoding='utf-8')
    return clauses.Folder(pathlib.Path(folder))


def found(code: str, specs: str, everything: bool = False) -> List[str]:
    """The differences from the texts above to these."""
    with tempfile.TemporaryDirectory() as old, tempfile.TemporaryDirectory() as new:
        before = made(old, {'src/lib.rt': ROOT, 'src/counts.rt': CODE, 'specs/Words.antt': SPECS})
        after = made(new, {'src/lib.rt': ROOT, 'src/counts.rt': code, 'specs/Words.antt': specs})
        told = clauses.differences(clauses.said_in(before), clauses.said_in(after), everything)
    return [f'{it.kind} {it.name}: {it.text}' for it in told]


class Differences(unittest.TestCase):
    """What is told, and what isn't."""

    def test_same(self) -> None:
        """Layout and comments are no difference."""
        self.assertEqual([], found(CODE, SPECS))
        said = CODE.replace('// what it is for', '// else')
        self.assertEqual([], found(said, SPECS.replace('-- it is small', '-- small')))
        self.assertEqual(
            [], found(CODE, SPECS.replace('IsEven n\n      → IsEven', 'IsEven n → IsEven'))
        )

    def test_clauses(self) -> None:
        """A promise that is gone or another, and a demand that is new."""
        less = CODE.replace('        ensures { result ≤ 8 }\n', '')
        self.assertEqual(['ensures Counts::more 2: gone'], found(less, SPECS))
        other = CODE.replace('n ≤ n', 'n ≡ n')
        self.assertEqual(['ensures law 0: reads otherwise'], found(other, SPECS))
        more = CODE.replace('        // what', '        requires new { 1 ≤ by }\n        // what')
        self.assertIn('requires Counts::more new: new', found(more, SPECS))

    def test_private(self) -> None:
        """What a crate lends to nobody promises nothing."""
        self.assertEqual([], found(CODE.replace('result ≡ 0', 'result ≤ 9'), SPECS))

    def test_calls(self) -> None:
        """A call that is gone."""
        less = CODE[: CODE.index('pub fn law')]
        self.assertEqual(['call law: gone', 'ensures law 0: gone'], found(less, SPECS))

    def test_definitions(self) -> None:
        """Fields of records, and other definitions."""
        other = SPECS.replace('n ≤ 4', 'n ≤ 5')
        self.assertEqual(['field IsRight small: reads otherwise'], found(CODE, other))
        less = SPECS.replace('  pub even : IsEven n\n      → IsEven (n + 2)\n', '')
        self.assertEqual(['field IsRight even: gone'], found(CODE, less))
        other = SPECS.replace('count n = n', 'count n = 0')
        self.assertEqual(['definition count: reads otherwise'], found(CODE, other))
        less = SPECS[: SPECS.index('abbrev pub last')]
        self.assertEqual(['definition last: gone'], found(CODE, less))

    def test_new(self) -> None:
        """What is only added is told where it is asked for."""
        more = SPECS.replace('  pub even', '  pub odd : IsOdd n\n  pub even')
        self.assertEqual([], found(CODE, more))
        self.assertEqual(['field IsRight odd: new'], found(CODE, more, True))

    def test_explanations(self) -> None:
        """One explains by its name, and by a pattern."""
        listed = clauses.explanations('# why\nlow IsRight *: said by another field\n')
        one = clauses.Said('low', 'field', 'IsRight small', 'gone')
        self.assertEqual('low IsRight *', clauses.explained_by(one, listed))
        other = clauses.Said('low', 'call', 'law', 'gone')
        self.assertIsNone(clauses.explained_by(other, listed))
        with self.assertRaises(ValueError):
            clauses.explanations('low IsRight small\n')

    def test_compared(self) -> None:
        """Each difference has its line, and each line its difference."""
        old = {('low', 'field', 'IsRight small'): 'n ≤ 4', ('low', 'call', 'law'): ''}
        new = {('low', 'field', 'IsRight small'): 'n ≤ 3', ('low', 'call', 'law'): ''}
        told, wrong = clauses.compare(old, new, {'low IsRight small': 'a smaller number'})
        self.assertEqual(['field low IsRight small: reads otherwise (a smaller number)'], told)
        self.assertEqual([], wrong)
        _, wrong = clauses.compare(old, new, {})
        self.assertEqual(['nothing explains: field low IsRight small: reads otherwise'], wrong)
        _, wrong = clauses.compare(old, old, {'low IsRight small': 'a smaller number'})
        self.assertEqual(['there is no such difference: low IsRight small'], wrong)

    def test_released(self) -> None:
        """The release is the commit that RELEASE names."""
        self.assertEqual('a' * 40, clauses.released('version: 1\ncommit: ' + 'a' * 40 + '\n'))
        with self.assertRaises(ValueError):
            clauses.released('version: 1\n')

    def test_as_it_stands(self) -> None:
        """Each line of the file is an explanation."""
        self.assertTrue(clauses.explanations(clauses.EXPLAINED.read_text(encoding='utf-8')))


if __name__ == '__main__':
    unittest.main()
