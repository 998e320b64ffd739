#!/usr/bin/env python3
"""Tests of bench/wrong/run that need no toolkit: how functions are found, what a check's words come
to, and which libraries each kit takes.
"""
import contextlib
import importlib.machinery
import importlib.util
import io
import os
import pathlib
import sys
import tempfile
import threading
import types
import unittest
from unittest import mock

LOADER = importlib.machinery.SourceFileLoader(
    'run', str(pathlib.Path(__file__).resolve().parent / 'run')
)
RUN = importlib.util.module_from_spec(importlib.util.spec_from_loader('run', LOADER))
sys.modules['run'] = RUN
LOADER.exec_module(RUN)
from bench.wrong import kits  # noqa: E402
from launcher import crates as crates_txt, keys  # noqa: E402
from launcher.store import Store  # noqa: E402
from launcher.toolkit import Toolkit  # noqa: E402

SOURCE = '''//! A module.
pub trait Rule {
    /// Of what is told.
    fn told(&self, n: u8) -> Result<u8, AllocError>
        ensures { IfOk result (λ m. m ≡ n) };
}

impl<'a> Rule for ByKey<'a> {
    fn told(&self, n: u8) -> Result<u8, AllocError> {
        Ok(n)
    }
}

impl Keys {
    /// How many.
    pub fn len(&self) -> usize
        ensures { result ≡ length self.now }
    {
        match self {
            Keys::None => {
                0
            }
            Keys::Many(keys) => keys.len(),
        }
    }
}

const MOST: u32 = 4;

// a comment
#[cycle(walk)]
fn even(n: u8) -> bool
    requires { n ≤ 4 }
    ensures { result ≡ is_even n }
{
    n == 0 || odd(n - 1)
}

#[cycle(walk)]
fn odd(n: u8) -> bool {
    n > 0 && even(n - 1)
}
'''

# as rattle-kit-13f writes it
OUT = '''note: src/a.rt:17:5: it is not proved that what the function ensures holds when it returns (`returns`); the facts known there
fn low::a::Keys::len: no proof: expected answers in ./proofs/a/Keys/len/Answers.antt; `search` did not prove `returns`
fn low::a::even: no proof: it calls `low::a::odd`, which is not proved
fn low::a::named: not proved
./proofs/a/named/Answers.antt:7:3: error: `other` is not in scope
fn low::a::answered: not proved; it calls `low::a::odd`, which is not proved
./proofs/a/answered/Answers.antt:9:3: error: the types differ
fn low::a::lenient: proved
logic=not-proved
'''


def function(name, head=17, last=27, path='src/a.rt'):
    return RUN.Function(name, name, path, head, head + 1, last)


class Functions(unittest.TestCase):
    def test_names_and_bodies(self):
        found = {it.name: it for it in RUN.functions_of('src/a.rt', SOURCE)}
        self.assertEqual(['a::ByKeyRule::told', 'a::Keys::len', 'a::even', 'a::odd'], list(found))
        lines = SOURCE.split('\n')
        for it in found.values():
            self.assertIn('fn ' + it.name.split('::')[-1], lines[it.head - 1])
            self.assertTrue(lines[it.opens - 1].endswith('{'))
            self.assertEqual('}', lines[it.last - 1].strip())
        self.assertEqual(found['a::even'].proof, found['a::odd'].proof)

    def test_modules(self):
        self.assertEqual([], RUN.module_of('src/lib.rt'))
        self.assertEqual(['a', 'b'], RUN.module_of('src/a/b.rt'))
        self.assertEqual(['a'], RUN.module_of('src/a/mod.rt'))

    def test_heads_of_impls(self):
        self.assertEqual('HostSinkSink', RUN.owner_of('impl<W: Write> Sink for HostSink<W> {'))
        self.assertEqual(
            'WriteErrorFrom', RUN.owner_of('impl<T: Drop> From<AllocFailed<T>> for WriteError {')
        )
        self.assertEqual('Keys', RUN.owner_of('impl Keys {'))

    def test_each_edit_can_be_applied(self):
        for path in RUN.HERE.glob('*/*.edit'):
            folder, source, pairs = RUN.TOP / 'crates' / path.parent.name, None, 0
            for line in path.read_text().split('\n'):
                if line.startswith('file: '):
                    source = (folder / line[len('file: ') :]).read_text()
                elif line.startswith('old: '):
                    self.assertEqual(1, source.count(line[len('old: ') :]), path)
                    pairs += 1
            self.assertGreater(pairs, 0, path)

    def test_edits_stand_in_their_functions(self):
        with_body = {
            path.stem: RUN.turned(path, RUN.TOP / 'crates' / path.parent.name)
            for path in RUN.HERE.glob('closure/*.edit')
        }
        self.assertTrue(with_body and all(with_body.values()))


class Verdicts(unittest.TestCase):
    def test_a_goal_of_its_own(self):
        self.assertEqual(RUN.REFUSED, RUN.verdict(function('a::Keys::len'), OUT)[0])
        self.assertEqual(RUN.REFUSED, RUN.verdict(function('a::answered', 60, 70), OUT)[0])

    def test_only_what_it_calls(self):
        self.assertIsNone(RUN.verdict(function('a::even', 33, 38), OUT))
        self.assertTrue(RUN.waits(function('a::even', 33, 38), OUT))

    def test_names_alone_say_nothing(self):
        self.assertEqual(RUN.BAD, RUN.verdict(function('a::named', 80, 90), OUT)[0])

    def test_a_function_that_is_proved(self):
        self.assertIsNone(RUN.verdict(function('a::lenient', 100, 110), OUT))
        self.assertFalse(RUN.waits(function('a::lenient', 100, 110), OUT))

    def test_another_function_of_a_like_name(self):
        self.assertIsNone(RUN.verdict(function('a::Keys::le', 100, 110), OUT))


class Lanes(unittest.TestCase):
    def test_all_are_run_within_memory(self):
        lock, now, seen, most = threading.Lock(), [], [], []

        def task(name, more):
            def call():
                with lock:
                    now.append(name)
                    most.append(len(now))
                with lock:
                    now.remove(name)
                    seen.append(name)
                return [task(name + '+', 0)] if more else []

            return RUN.Task(5, call)

        RUN.in_lanes(4, [task(str(n), n % 2) for n in range(6)], 11)
        self.assertEqual(9, len(seen))
        self.assertLessEqual(max(most), 2)

    def test_one_that_is_too_large_runs_alone(self):
        seen = []
        RUN.in_lanes(2, [RUN.Task(100, lambda: seen.append(1) or [])], 10)
        self.assertEqual([1], seen)


# the crates that were checked as they stand
BEGUN = []


class Rounds(RUN.Rounds):
    """Rounds over words that are given, in place of rattle's."""

    def __init__(self, says):
        self.says, self.told, self.number, self.crate, self.kept, self.needs = (
            says,
            {},
            0,
            'low',
            '/nowhere/kept',
            0,
        )
        self.report = self.bench = self
        self.room, self.alone_ones = None, []

    def copied(self, crate, room):
        pass

    def applied(self, edits, room):
        return edits, []

    def checked(self, edits, room):
        return RUN.Checked(1, self.says(edits), 0)

    def tell(self, edit, result, words):
        self.told[edit.path.name] = result

    def alone(self, edit):
        self.alone_ones.append(edit.path.name)
        return RUN.Task(0, lambda: [])

    kit = types.SimpleNamespace(begin=lambda crate: BEGUN.append(crate))


def edit(name, of):
    return RUN.Edit('low', pathlib.Path(name), function(of, 0, 0))


class TheRounds(unittest.TestCase):
    def run_all(self, edits, says):
        rounds = Rounds(says)
        RUN.in_lanes(1, rounds.tasks(edits), 0)
        return rounds

    def test_edits_of_one_function_go_apart(self):
        seen = []

        def says(edits):
            seen.append([it.path.name for it in edits])
            return ''.join(
                f'fn low::{it.function.name}: no proof: `search` did not prove `returns`\n'
                for it in edits
            )

        rounds = self.run_all([edit('one', 'f'), edit('two', 'f'), edit('three', 'g')], says)
        self.assertEqual([['one', 'three'], ['two']], seen)
        self.assertEqual(dict.fromkeys(['one', 'two', 'three'], RUN.REFUSED), rounds.told)

    def test_a_caller_is_tried_once_more(self):
        def says(edits):
            if len(edits) == 2:
                return 'fn low::f: no proof: `search` did not prove `returns`\nfn low::g: no proof: it calls `low::f`, which is not proved\n'
            return 'fn low::g: no proof: `search` did not prove `returns`\n'

        self.assertEqual(
            {'one': RUN.REFUSED, 'two': RUN.REFUSED},
            self.run_all([edit('one', 'f'), edit('two', 'g')], says).told,
        )

    def test_the_one_that_does_not_compile_is_found(self):
        def says(edits):
            names = [it.path.name for it in edits]
            return (
                'src/a.rt:1:1: error[E0308]: types\n'
                if 'two' in names
                else ''.join(
                    'fn low::{}: no proof: `search` did not prove `returns`\n'.format(
                        it.function.name
                    )
                    for it in edits
                )
            )

        told = self.run_all([edit('one', 'f'), edit('two', 'g'), edit('three', 'h')], says).told
        self.assertEqual({'one': RUN.REFUSED, 'two': RUN.BAD, 'three': RUN.REFUSED}, told)

    def test_one_that_is_proved_is_tried_alone(self):
        rounds = self.run_all([edit('one', 'f')], lambda edits: 'fn low::f: proved\n')
        self.assertEqual(['one'], rounds.alone_ones)

    def test_a_crate_with_many_in_no_body_is_checked_as_it_stands(self):
        for names, begun in [(['one', 'two'], []), (['one', 'two', 'three'], ['low'])]:
            BEGUN.clear()
            with contextlib.redirect_stdout(io.StringIO()):
                rounds = self.run_all(
                    [RUN.Edit('low', pathlib.Path(name), None) for name in names], lambda edits: ''
                )
            self.assertEqual((names, begun), (rounds.alone_ones, BEGUN))

    def test_a_check_that_was_killed_says_nothing(self):
        self.assertEqual(
            {'one': RUN.UNSURE}, self.run_all([edit('one', 'f')], lambda edits: '').told
        )


# ---- kits ----

LOGIC = 'dac8208d650f15bf'
PROVED = 'logic=proved functions=3 sum={} native=nat,char,string logic-built=trusted libraries-built=trusted statements=trusted'.format(
    LOGIC
)
CHAIN = {'low': [], 'middle': ['low'], 'high': ['middle']}


class StandInCrate:
    """A crate of a stand-in for rt: its library is a folder with one file, and it notes which were
    built.
    """

    built, stamps = [], 0
    allowed, cuts_libraries = (), False

    def __init__(self, root, name, deps):
        self.name, self.deps, self.folder = name, deps, f'{root}/crates/{name}'
        self.rlib = f'{self.folder}/out/rlib/{name}.rlib'

    def below(self):
        return [it for dep in self.deps for it in [*dep.below(), dep]]

    def stamp(self):
        StandInCrate.stamps += 1
        return repr([self.name, [dep.stamp() for dep in self.deps]])

    def build_rlib(self, flags, anew):
        StandInCrate.built.append(self.name)
        pathlib.Path(self.rlib).mkdir(parents=True)
        pathlib.Path(self.rlib, 'format').write_text('built')
        return 0


def stand_in(**more):
    """The names of an rt that keeps nothing."""

    def crates_of(root, aside):
        found = {}
        for name, below in CHAIN.items():
            found[name] = StandInCrate(root, name, [found[it] for it in below])
        return list(found.values())

    rtlib = types.SimpleNamespace(guarded=lambda: [], Crate=StandInCrate)
    return types.SimpleNamespace(
        Crate=StandInCrate,
        crates_of=crates_of,
        free=lambda: 0,
        handles_of=lambda root: (),
        need=lambda crate: 0,
        must_fail=lambda crate, edit, flags: (True, 'must-fail low/x.edit: refused, as it must be'),
        processors=lambda: 1,
        read_edit=None,
        rtlib=rtlib,
        **more,
    )


class OverACheckout(unittest.TestCase):
    """A small checkout, with a launcher's folder of its own."""

    def setUp(self):
        holder = tempfile.TemporaryDirectory(prefix='kits-')
        self.addCleanup(holder.cleanup)
        self.addCleanup(os.chdir, os.getcwd())
        self.addCleanup(setattr, StandInCrate, 'stamp', StandInCrate.stamp)
        self.room, StandInCrate.built, StandInCrate.stamps = pathlib.Path(holder.name), [], 0
        self.top = self.room / 'top'
        for name in CHAIN:
            (self.top / 'crates' / name / 'src').mkdir(parents=True)
            (self.top / 'crates' / name / 'src' / 'lib.rt').write_text(f'// {name}\n')
        (self.top / 'crates.txt').write_text(
            ''.join('{}: {}\n'.format(name, ' '.join(below)) for name, below in CHAIN.items())
        )
        for patch in (
            mock.patch.dict(os.environ, {'XDG_CACHE_HOME': str(self.room / 'cache')}),
            mock.patch.object(
                kits.toolkit,
                'find',
                lambda store: Toolkit('/kit', 'a kit logic ' + LOGIC, 'this kit'),
            ),
        ):
            patch.start()
            self.addCleanup(patch.stop)
        self.store = Store(str(self.room / 'cache' / 'yokeorange'))

    def keep(self, *names, verdict=PROVED):
        """The launcher keeps the libraries of these crates."""
        self.store.make(str(self.top))
        listed = crates_txt.read(str(self.top), list(CHAIN))
        all_keys = keys.of_crates(listed, keys.of_texts(str(self.top), listed), 'this kit')
        for name in names:
            pathlib.Path(self.store.part(name)).mkdir()
            pathlib.Path(self.store.part(name), 'format').write_text('kept')
            self.store.keep(name, all_keys[name], verdict)


class KitsThatKeepNothing(OverACheckout):
    """Libraries of a kit as `rattle-kit-13b`."""

    def laid(self, *names):
        """What the libraries below these crates come from, and which were built."""
        (self.room / 'try').mkdir()
        kit = kits.kit_of(
            stand_in(), self.top, str(self.room / 'try' / 'repo'), str(self.room / 'try')
        )
        with contextlib.redirect_stdout(io.StringIO()):
            kit.lay(names, 1)
        libraries = {name: pathlib.Path(crate.rlib, 'format') for name, crate in kit.crates.items()}
        return {
            name: path.read_text() for name, path in libraries.items() if path.exists()
        }, StandInCrate.built

    def test_what_it_lacks_is_built_below_what_is_tried(self):
        self.assertEqual(
            ({'low': 'built', 'middle': 'built'}, ['low', 'middle']), self.laid('high')
        )

    def test_nothing_is_built_below_the_lowest(self):
        self.assertEqual(({}, []), self.laid('low'))

    def test_what_the_launcher_kept_is_taken(self):
        self.keep('low', 'middle')
        self.assertEqual(({'low': 'kept', 'middle': 'kept'}, []), self.laid('high'))

    def test_a_library_of_another_text_is_not_taken(self):
        self.keep('low', 'middle')
        (self.top / 'crates' / 'middle' / 'src' / 'lib.rt').write_text('// another\n')
        self.assertEqual(({'low': 'kept', 'middle': 'built'}, ['middle']), self.laid('high'))

    def test_a_library_over_one_that_was_built_is_not_taken(self):
        self.keep('middle')
        self.assertEqual(
            ({'low': 'built', 'middle': 'built'}, ['low', 'middle']), self.laid('high')
        )

    def test_a_library_whose_bytes_changed_is_not_taken(self):
        self.keep('low')
        pathlib.Path(self.store.rlib('low'), 'format').write_text('another')
        self.assertEqual(({'low': 'built'}, ['low']), self.laid('middle'))

    def test_a_verdict_that_leaves_something_out_is_not_taken(self):
        self.keep('low', verdict=PROVED + ' incremental=trusted')
        self.assertEqual(({'low': 'built'}, ['low']), self.laid('middle'))

    def test_a_library_of_another_toolkit_is_not_taken(self):
        self.keep('low')
        with mock.patch.object(
            kits.toolkit,
            'find',
            lambda store: Toolkit('/kit', 'a kit logic ' + LOGIC, 'another kit'),
        ):
            self.assertEqual(({'low': 'built'}, ['low']), self.laid('middle'))

    def test_what_is_kept_stays_as_it_was(self):
        self.keep('low')
        self.laid('middle')
        self.assertEqual('kept', pathlib.Path(self.store.rlib('low'), 'format').read_text())

    def test_a_sum_is_reckoned_once(self):
        kit = kits.kit_of(stand_in(), self.top, str(self.room / 'repo'), str(self.room))
        self.assertEqual(
            3, len({kit.stamp(name) for name in CHAIN} | {kit.stamp(name) for name in CHAIN})
        )
        self.assertEqual(3, StandInCrate.stamps)

    def test_what_rt_says_of_an_edit_that_is_tried_alone(self):
        rt = stand_in()
        kit = kits.kit_of(rt, self.top, str(self.room / 'repo'), str(self.room))
        for well, said, result in [
            (True, 'refused, as it must be: src/a.rt:1:1: error', kits.REFUSED),
            (False, 'NOT REFUSED: the crate is still proved with this edit', kits.MISSED),
            (False, 'BAD EDIT: an old text is in src/a.rt 2 times, and not once', kits.BAD),
            (
                False,
                'BAD EDIT: it did not reach the prover; the first lines of what it said:\nsrc/a.rt:1:1: error[E0308]: types',
                kits.BAD,
            ),
            (
                False,
                'BAD EDIT: it did not reach the prover; the first lines of what it said:\n',
                kits.UNSURE,
            ),
        ]:
            rt.must_fail = lambda crate, edit, flags: (well, 'must-fail low/x.edit: ' + said)
            self.assertEqual(result, kit.must_fail('low', 'x.edit')[0], said)


class StandInKept:
    """What a kit as `rattle-kit-13f` keeps beside itself: the libraries of these names."""

    names, told = (), []

    def __init__(self, crates):
        self.crates = crates

    def key(self, crate):
        return 'key of ' + crate.name

    def give(self, crate, tests, key):
        StandInKept.told.append((crate.name, key))
        return crate.name in StandInKept.names

    def is_built(self, crate):
        StandInKept.told.append((crate.name, 'is built'))


class AKitThatKeeps(OverACheckout):
    """Libraries of a kit as `rattle-kit-13f`."""

    def kit(self):
        """The kit over the chain of crates."""
        StandInKept.told = []
        rt = stand_in(
            Kept=StandInKept,
            copy_crates=lambda top, root: os.mkdir(root),
            stamp_of=lambda crate, stamps: 'sum of ' + crate.name,
            REFUSED='refused',
            AT_LIMIT='at its limit',
            BAD='bad',
            MISSED='missed',
            checked=None,
        )
        rt.crates_of = lambda root, of_all=rt.crates_of: of_all(root, None)
        (self.room / 'try').mkdir()
        return rt, kits.kit_of(
            rt, self.top, str(self.room / 'try' / 'repo'), str(self.room / 'try')
        )

    def test_what_is_kept_is_given_and_the_rest_built(self):
        StandInKept.names = ('low',)
        _, kit = self.kit()
        with contextlib.redirect_stdout(io.StringIO()) as said:
            kit.lay(['high'], 1)
        self.assertEqual(['middle'], StandInCrate.built)
        self.assertEqual(
            [
                ('low', 'key of low'),
                ('low', 'is built'),
                ('middle', 'key of middle'),
                ('middle', 'is built'),
            ],
            StandInKept.told,
        )
        self.assertIn(
            'middle: neither rt ci nor ./editor --prove --keep left a proof of it', said.getvalue()
        )
        self.assertEqual('sum of low', kit.stamp('low'))

    def test_what_the_launcher_kept_is_taken_where_the_gate_kept_none(self):
        StandInKept.names = ()
        self.keep('low', 'middle')
        _, kit = self.kit()
        kit.lay(['high'], 1)
        self.assertEqual([], StandInCrate.built)
        self.assertEqual('kept', pathlib.Path(kit.crates['middle'].rlib, 'format').read_text())
        self.assertEqual(
            [
                ('low', 'key of low'),
                ('low', 'is built'),
                ('middle', 'key of middle'),
                ('middle', 'is built'),
            ],
            StandInKept.told,
        )

    def test_what_the_launcher_kept_is_not_taken_over_what_the_gate_kept(self):
        StandInKept.names = ('low',)
        self.keep('low', 'middle')
        _, kit = self.kit()
        with contextlib.redirect_stdout(io.StringIO()):
            kit.lay(['high'], 1)
        self.assertEqual(['middle'], StandInCrate.built)

    def test_what_rt_says_of_an_edit_that_is_tried_alone(self):
        rt, kit = self.kit()
        for kind, result in [
            ('refused', kits.REFUSED),
            ('at its limit', kits.REFUSED),
            ('bad', kits.BAD),
            ('missed', kits.MISSED),
            ('?', kits.UNSURE),
        ]:
            rt.must_fail = lambda crate, edit, flags: (kind, 'must-fail low/x.edit: said')
            self.assertEqual((result, 'must-fail low/x.edit: said'), kit.must_fail('low', 'x.edit'))

    def test_what_is_not_refused_over_a_seed_is_tried_from_nothing(self):
        rt, kit = self.kit()
        rt.checked = lambda crate, texts, flags, kept: pathlib.Path(kept, 'a.oantt').write_text(
            'proved'
        ) and types.SimpleNamespace(returncode=0)
        kit.begin('low')
        for over, wanted in [
            ('refused', ['over a seed']),
            ('missed', ['over a seed', 'from nothing']),
            ('?', ['over a seed', 'from nothing']),
        ]:
            seen = []

            def must_fail(crate, edit, flags, kept=None, over=over, seen=seen):
                seen.append('over a seed' if kept else 'from nothing')
                if kept:
                    self.assertEqual('proved', pathlib.Path(kept, 'a.oantt').read_text())
                    pathlib.Path(kept, 'a.oantt').write_text('with the edit')
                return (over if kept else 'refused'), 'said'

            rt.must_fail = must_fail
            self.assertEqual((kits.REFUSED, 'said'), kit.must_fail('low', 'x.edit'))
            self.assertEqual(wanted, seen)

    def test_no_seed_where_the_crate_is_not_proved(self):
        rt, kit = self.kit()
        rt.checked = lambda crate, texts, flags, kept: types.SimpleNamespace(returncode=1)
        kit.begin('low')
        rt.must_fail = lambda crate, edit, flags: ('refused', 'said')
        self.assertEqual((kits.REFUSED, 'said'), kit.must_fail('low', 'x.edit'))


class WhichKit(unittest.TestCase):
    def test_one_that_lacks_a_name_is_refused(self):
        rt = stand_in()
        del rt.crates_of
        with self.assertRaises(SystemExit) as why:
            kits.kit_of(rt, '/top', '/root', '/room')
        self.assertIn('crates_of', str(why.exception))

    def test_one_that_keeps_is_known_by_its_names(self):
        for more, wanted in [({}, 'Building'), (dict.fromkeys(kits.READ_OF_KEEPING), 'Keeping')]:
            with mock.patch.object(kits, wanted) as kit:
                kits.kit_of(stand_in(**more), '/top', '/root', '/room')
            kit.assert_called_once()


if __name__ == '__main__':
    unittest.main()
