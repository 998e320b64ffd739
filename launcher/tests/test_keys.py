"""What a key covers, and which verdicts are taken."""
import os
import pathlib
import tempfile
import unittest

from launcher import calls, crates, keys
from launcher.messages import Stop

LOGIC = 'dac8208d650f15bf'
TRUSTED = 'native=nat,char,string logic-built=trusted libraries-built=trusted statements=trusted'
LIBRARY = f'logic=proved functions=137 sum={LOGIC} {TRUSTED}'
PROGRAM = 'logic=proved functions=7 axioms=8 target=x86_64-unknown-linux-gnu cpu=x86-64-v2 sum={} {}'.format(
    LOGIC, TRUSTED
)


class Checkout(unittest.TestCase):
    """A checkout of three crates: low, middle over it, and the program editor over that."""

    def setUp(self):
        holder = tempfile.TemporaryDirectory()
        self.addCleanup(holder.cleanup)
        self.home = pathlib.Path(holder.name)
        self.write(
            'crates.txt',
            '# comment\n\nlow: itoa\nmiddle: low\neditor: middle low # both\nother: low\n',
        )
        for name in ('low', 'middle', 'other'):
            self.write(f'crates/{name}/src/lib.rt', f'// {name}\n')
        self.write('crates/editor/src/main.rt', '// a program\n')
        self.write('crates/low/specs/Lib.antt', 'one')

    def write(self, name, text):
        path = self.home / name
        path.parent.mkdir(parents=True, exist_ok=True)
        path.write_text(text)

    def keys(self, toolkit='a kit'):
        found = crates.read(str(self.home), ['editor'])
        return keys.of_crates(found, keys.of_texts(str(self.home), found), toolkit)

    def changed(self, change, toolkit='a kit'):
        """The crates whose keys a change changes."""
        before = self.keys()
        change()
        after = self.keys(toolkit)
        return sorted(name for name in after if before.get(name) != after[name])


class Crates(Checkout):
    def test_read(self):
        found = crates.read(str(self.home), ['editor'])
        self.assertEqual(['low', 'middle', 'editor'], list(found))
        self.assertEqual(
            (('middle', 'low'), True), (found['editor'].below, found['editor'].is_program)
        )
        low = found['low']
        self.assertEqual(
            (('itoa',), (), False, 1), (low.libraries, low.below, low.is_program, low.lines)
        )

    def refused(self, text, names=('editor',)):
        self.write('crates.txt', text)
        with self.assertRaises(Stop) as why:
            crates.read(str(self.home), list(names))
        return str(why.exception)

    def test_faults(self):
        self.assertIn('doesn\'t list editor', self.refused('low:\n'))
        self.assertIn('lists low twice', self.refused('low:\nlow:\n'))
        self.assertIn(
            'low on middle on low stands on itself',
            self.refused('low: middle\nmiddle: low\n', ['low']),
        )
        self.assertIn('neither src/lib.rt nor src/main.rt', self.refused('editor: none\nnone:\n'))

    def test_what_only_rt_knows(self):
        for line in ('low staticlib: itoa', 'low may_abort=2: itoa', 'low'):
            with self.assertRaises(Stop):
                crates.listed(line + '\n')


class Keys(Checkout):
    def test_nothing_changes(self):
        self.assertEqual([], self.changed(lambda: None))
        self.assertEqual(
            [], self.changed(lambda: os.utime(self.home / 'crates/low/src/lib.rt', (1, 1)))
        )
        self.assertEqual([], self.changed(lambda: self.write('crates/low/out/rlib/x', 'x')))
        self.assertEqual([], self.changed(lambda: self.write('crates/low/must-fail/x.edit', 'x')))
        self.assertEqual([], self.changed(lambda: self.write('crates/other/src/lib.rt', 'x')))

    def test_a_file_changes_its_crate_and_those_above_it(self):
        self.assertEqual(
            ['editor', 'low', 'middle'],
            self.changed(lambda: self.write('crates/low/src/lib.rt', 'x')),
        )
        self.assertEqual(
            ['editor', 'low', 'middle'],
            self.changed(lambda: self.write('crates/low/specs/Lib.antt', 'x')),
        )
        self.assertEqual(
            ['editor', 'middle'],
            self.changed(lambda: self.write('crates/middle/proofs/f/Proof.antt', 'x')),
        )
        self.assertEqual(
            ['editor'], self.changed(lambda: self.write('crates/editor/src/main.rt', 'x'))
        )

    def test_a_name_counts_too(self):
        folder = self.home / 'crates/low/specs'
        self.assertEqual(
            ['editor', 'low', 'middle'],
            self.changed(lambda: (folder / 'Lib.antt').rename(folder / 'Other.antt')),
        )

    def test_a_line_of_the_list_counts(self):
        text = (self.home / 'crates.txt').read_text()
        other = text.replace('middle: low', 'middle: low memchr')
        self.assertEqual(
            ['editor', 'middle'], self.changed(lambda: self.write('crates.txt', other))
        )
        self.write('crates.txt', text)
        self.assertEqual([], self.changed(lambda: self.write('crates.txt', text + '# more\n')))

    def test_another_toolkit(self):
        self.assertEqual(['editor', 'low', 'middle'], self.changed(lambda: None, 'another kit'))

    def test_texts_do_not_run_into_one_another(self):
        self.assertNotEqual(keys.of('ab', 'c'), keys.of('a', 'bc'))
        self.assertNotEqual(keys.of(['a'], 'b'), keys.of(['a', 'b']))

    def test_links_are_refused(self):
        os.symlink('/etc/hostname', self.home / 'crates/low/src/linked.rt')
        with self.assertRaises(Stop):
            self.keys()

    def test_sources_tell_texts_apart(self):
        found = crates.read(str(self.home), ['editor'])
        texts = keys.of_texts(str(self.home), found)
        self.assertNotEqual(keys.of_sources(texts), keys.of_sources(dict(texts, low='0')))


class Words(Checkout):
    def test_a_library(self):
        found = crates.read(str(self.home), ['editor'])
        self.assertEqual(
            '/kit/bin/rattle build --crate-name middle src/lib.rt --extern std=/kit/rlibs/std.rlib --extern low=/room/low.rlib '
            '-L dependency=/kit/rlibs -L dependency=/room --antt-project /kit/rattle/logic/antt-project.json --links middle= '
            '--logic-built /kit/logic_built -o /part/middle.rlib --statements',
            ' '.join(calls.proof(found['middle'], found, '/kit', '/room', '/part/middle.rlib')),
        )
        self.assertIn(
            'itoa=/kit/rlibs/itoa.rlib', calls.proof(found['low'], found, '/kit', '/room', 'to')
        )

    def test_a_program_is_checked_and_then_compiled_with_the_same_words(self):
        found = crates.read(str(self.home), ['editor'])
        check = calls.proof(found['editor'], found, '/kit', '/room', '/checked')
        self.assertEqual(['/kit/bin/rattle', 'check'], check[:2])
        self.assertNotIn('--statements', check)
        built = calls.compiling(found['editor'], found, '/kit', '/room', '/checked', '/editor.o')
        own = calls.of_crate(found['editor'], found, '/kit', '/room')
        self.assertEqual(own, check[2 : 2 + len(own)])
        self.assertEqual(own, built[2 : 2 + len(own)])
        for word in ('--logic-built', '--jobs'):
            self.assertNotIn(word, built)


class Verdicts(unittest.TestCase):
    def test_taken(self):
        self.assertTrue(calls.is_verdict(False, LIBRARY, LOGIC))
        self.assertTrue(calls.is_verdict(True, PROGRAM, LOGIC))

    def test_one_for_the_other(self):
        self.assertFalse(calls.is_verdict(True, LIBRARY, LOGIC))
        self.assertFalse(calls.is_verdict(False, PROGRAM, LOGIC))

    def test_more_less_or_other_words(self):
        for line, is_program in ((LIBRARY, False), (PROGRAM, True)):
            self.assertFalse(calls.is_verdict(is_program, line, '0' * 16))
            self.assertFalse(
                calls.is_verdict(is_program, line.replace('proved', 'not-proved'), LOGIC)
            )
            self.assertFalse(calls.is_verdict(is_program, line + '\n', LOGIC))
            self.assertFalse(calls.is_verdict(is_program, ' ' + line, LOGIC))
            words = line.split(' ')
            for at in range(len(words)):
                self.assertFalse(
                    calls.is_verdict(is_program, ' '.join(words[:at] + words[at + 1 :]), LOGIC)
                )
                for more in (
                    'hides=1',
                    'main=Wait',
                    'bugs=1',
                    'partial=1',
                    'incremental=trusted',
                    'cache=trusted',
                    words[at],
                ):
                    self.assertFalse(
                        calls.is_verdict(
                            is_program, ' '.join([*words[:at], more, *words[at:]]), LOGIC
                        )
                    )
            for more in ('crate-checked=trusted', 'batches=trusted', 'pinned=no'):
                self.assertFalse(calls.is_verdict(is_program, line + ' ' + more, LOGIC))


if __name__ == '__main__':
    unittest.main()
