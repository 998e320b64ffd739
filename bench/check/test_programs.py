"""Tests of what reads definitions (definitions.py), logs of a proof (axioms) and pages
(english.py).

Run `python3 -m unittest bench.check.test_programs`.
"""
import importlib.machinery
import importlib.util
import pathlib
import tempfile
import unittest

from bench.check import definitions, english

HERE = pathlib.Path(__file__).resolve().parent


def loaded(name):
    """A program of this folder, as a module."""
    loader = importlib.machinery.SourceFileLoader(name, str(HERE / name))
    module = importlib.util.module_from_spec(importlib.util.spec_from_loader(name, loader))
    loader.exec_module(module)
    return module


axioms = loaded('axioms')
VERDICT = 'logic=proved functions=8 axioms={} target=x86_64-unknown-linux-gnu cpu=x86-64-v2 sum=0 native=nat,char,string\n'


def log_of(names):
    """What a check with --list-axioms prints of a program that reaches these calls."""
    return (
        ''.join(f'  {name}   reached\n' for name in sorted(names))
        + '  libc::access\n'
        + VERDICT.format(len(names))
    )


class Logs(unittest.TestCase):
    known = axioms.names(axioms.MET) | axioms.names(axioms.UNMET)

    def test_all_calls(self):
        self.assertEqual([], list(axioms.log_faults(log_of(self.known))))

    def test_one_more(self):
        self.assertIn(
            "the tables haven't libc::system",
            list(axioms.log_faults(log_of(self.known | {'libc::system'}))),
        )

    def test_one_less(self):
        self.assertIn(
            "the program doesn't reach libc::read",
            list(axioms.log_faults(log_of(self.known - {'libc::read'}))),
        )

    def test_short_log(self):
        short = 'axioms libc: libc::chdir, libc::chmod, libc::chown, ... (29 of the 128 declared)\n'
        self.assertEqual([], list(axioms.log_faults(short + VERDICT.format(len(self.known)))))
        self.assertEqual(
            ['it has libc::system'],
            list(
                axioms.log_faults(
                    short.replace('chmod', 'system') + VERDICT.format(len(self.known))
                )
            ),
        )

    def test_unproved(self):
        self.assertEqual(
            ['it has no verdict on a program'], list(axioms.log_faults('fn main: open\n'))
        )


SPECS = '''use Rattle.std.specs.Prelude.{◌≡◌, List as Row}
use Rattle.std.specs.FinMap as fin
-- a remark
abbrev pub first : Row → ℕ
first [] = 0

pub record Pair : Type 0 where
  -- of a field
  pub left : ℕ
'''
KIT_SPECS = '''pub use Rattle.core.specs.Option.{is_some}
module _ {K : Type 0} where
  pub get : K → ℕ
  get k = 0

pub record Bag (K : Type 0) : Type 0 where
  list : List K
pub plain : Bag → ℕ
plain b = 1
'''


class Files(unittest.TestCase):
    def file_of(self, text, make):
        with tempfile.TemporaryDirectory() as folder:
            path = pathlib.Path(folder) / 'Some.antt'
            path.write_text(text)
            return make(path, pathlib.Path(folder))

    def test_definitions_of_the_repository(self):
        path = definitions.CRATES / 'osm_base' / 'specs' / 'Rank.antt'
        rank = definitions.Specs(path).own['rank_cmp']
        self.assertEqual(('osm_base', 'crates/osm_base/specs/Rank.antt'), (rank.crate, rank.file))
        self.assertTrue(all(not line.lstrip().startswith('--') for line in rank.text.split('\n')))

    def test_what_a_file_takes(self):
        file = self.file_of(SPECS, lambda path, home: definitions.File(path, home, 'some'))
        self.assertEqual(('std.specs.Prelude', 'List'), file.names['Row'])
        self.assertEqual('std.specs.FinMap', file.aliases['fin'])
        self.assertIn('≡', file.names)

    def test_a_definition_ends_at_the_next_head_or_at_what_ends_it(self):
        text = SPECS + 'pub mod Inner\nloose = 1\nunfoldable last : ℕ\n-- of it\n\nlast = 2\n'
        file = self.file_of(text, lambda path, home: definitions.File(path, home, 'some'))
        file.define_all(definitions.HEAD.match, lambda head: head[1])
        self.assertEqual(
            [
                ('first', 4, ['abbrev pub first : Row → ℕ', 'first [] = 0']),
                ('Pair', 7, ['pub record Pair : Type 0 where', '  pub left : ℕ']),
                ('last', 12, ['unfoldable last : ℕ', 'last = 2']),
            ],
            [(made.name, made.line, made.text.split('\n')) for made in file.own.values()],
        )

    def test_definitions_of_the_toolkit(self):
        file = self.file_of(KIT_SPECS, lambda path, home: definitions.KitSpecs(path, home, 'core'))
        self.assertEqual(
            {'get': 2, 'Bag': 2, 'plain': 2}, {name: made.lines for name, made in file.own.items()}
        )
        self.assertEqual(('core.specs.Option', 'is_some'), file.names['is_some'])

    def test_what_a_law_says(self):
        self.assertEqual(
            'Said n answer',
            definitions.said_of(
                'made', '{ (n : ℕ) (answer : List (A × B)) → (made n ≡ answer) ↔ Said n answer }'
            ),
        )
        for law in (
            '{ (n : ℕ) (answer : ℕ) → (made n ≡ 1) ↔ Said n answer }',
            '{ (n : ℕ) (answer : ℕ) → made n ≡ answer → Said n answer }',
            '{ (answer : ℕ) → (made 1 ≡ answer) ↔ Said answer }',
            '{ (n : ℕ) (answer : ℕ) → Fits n → (made n ≡ answer) ↔ Said n answer }',
        ):
            self.assertIsNone(definitions.said_of('made', law))

    def test_a_definition_that_a_law_settles(self):
        tree = definitions.Tree()
        tree.check_laws()
        tree.follow(tree.specs['saved_session.specs.Resumed'], 'saved_table')
        reached = {it.name for it in tree.reached.values()}
        self.assertLessEqual({'saved_table_is_told', 'IsTold', 'lines_are_told'}, reached)
        self.assertFalse({'saved_table', 'saved_lines', 'session_from', 'least_unsound'} & reached)
        tree.forget()
        tree.follow(tree.specs['edit_script.specs.Script'], 'act_of')
        reached = {it.name for it in tree.reached.values()}
        self.assertLessEqual({'act_of', 'all_lines', 'read_as_spelled'}, reached)
        self.assertFalse({'form_word', 'query_of_words', 'same_text'} & reached)


class Words(unittest.TestCase):
    def test_layout_is_no_word(self):
        self.assertEqual(
            4, english.count_words('| `a` | 7 |\n|---|---|\n| → | é |\n```sh\n```\n...\n')
        )


if __name__ == '__main__':
    unittest.main()
