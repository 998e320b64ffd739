"""The exported workspace: all crates of the repository, what is written again, and what is refused.
"""
import json
import pathlib
import re
import shutil
import subprocess
import tempfile
import unittest
from unittest import mock

from launcher.messages import Stop
from plain import known, reader, workspace
from plain.tokens import Refused

TOP = pathlib.Path(__file__).resolve().parents[2]
SMALL = {
    'crates.txt': 'low:\nhigh: low memchr\neditor: high\nsession_cases: low\n',
    'LICENSE': 'MIT\n',
    'crates/low/src/lib.rt': '#![tactic(auto)]\n\nmod deep;\n\npub use deep::one;\n',
    'crates/low/src/deep.rt': '/// One.\npub fn one() -> u64\n    ensures { result ≡ 1 }\n{\n    1\n}\n',
    'crates/high/src/lib.rt': 'use low::one;\nuse memchr::memchr;\n\npub fn two(a: &[u8]) -> bool {\n    memchr(b\'a\', a).is_none_or(|it| it > 3) && one() == 1\n}\n',
    'crates/editor/src/main.rt': 'use std::process::ExitCode;\n\nfn main(rt: HostRuntime) -> ExitCode {\n'
    '    let _ = rt.stderr().writeln(format_args!("{}", high::two(b"bab")));\n    ExitCode::from(3)\n}\n',
    'crates/session_cases/src/main.rt': 'fn main(rt: HostRuntime) -> std::io::Result<()> {\n    println!(rt; "{}", low::one())\n}\n',
    'crates/session_cases/data/bundles': '',
    'crates/session_cases/stdout': '1\n',
}


class Small(unittest.TestCase):
    def setUp(self) -> None:
        holder = tempfile.TemporaryDirectory()
        self.addCleanup(holder.cleanup)
        self.top, self.to = pathlib.Path(holder.name, 'top'), pathlib.Path(holder.name, 'to')
        for name, text in SMALL.items():
            self.put(name, text)

    def put(self, name: str, text: str) -> None:
        path = self.top / name
        path.parent.mkdir(parents=True, exist_ok=True)
        path.write_text(text, encoding='utf-8')

    def write(self) -> workspace.Export:
        return workspace.write(self.top, self.to, version='1.2.3')

    def test_what_it_holds(self) -> None:
        made = self.write()
        self.assertEqual(['low', 'high', 'editor', 'session_cases'], made.crates)
        found = {it.relative_to(self.to).as_posix() for it in self.to.rglob('*') if it.is_file()}
        for name in (
            'Cargo.toml',
            'Cargo.lock',
            'LICENSE',
            'README.md',
            'crates/low/src/deep.rs',
            'crates/editor/Cargo.toml',
            'crates/session_cases/expected',
            'crates/session_cases/tests/session_cases.rs',
            'rattle_std/src/memchr.rs',
        ):
            self.assertIn(name, found)
        self.assertFalse([it for it in found if it.endswith(('.rt', '.part'))])
        self.assertIn(
            'rust-version = "' + workspace.RUST, (self.to / 'crates/editor/Cargo.toml').read_text()
        )
        for root in self.to.glob('crates/*/src/*.rs'):
            if root.stem in ('lib', 'main'):
                self.assertIn('#![forbid(unsafe_code)]', root.read_text())
        self.assertIn('#![forbid(unsafe_code)]', (self.to / 'rattle_std/src/lib.rs').read_text())

    def test_again_only_what_changed_is_read_and_written(self) -> None:
        self.write()
        before = {
            it: it.stat().st_mtime_ns
            for it in self.to.rglob('*')
            if it.is_file() and it.name != workspace.RECORD
        }
        self.assertEqual(0, self.write().read)
        self.put(
            'crates/low/src/deep.rt', SMALL['crates/low/src/deep.rt'].replace('One.', 'The one.')
        )
        made = self.write()
        self.assertEqual(1, made.read)
        after = {it: it.stat().st_mtime_ns for it in before}
        self.assertEqual(['deep.rs'], [it.name for it in before if before[it] != after[it]])

    def test_a_new_function_is_known_in_files_that_stay(self) -> None:
        self.put(
            'crates/high/src/lib.rt', 'pub fn two(a: &low::A) -> u64 {\n    a.newly_made()\n}\n'
        )
        with self.assertRaises(Refused):
            self.write()
        self.put(
            'crates/low/src/lib.rt',
            'pub struct A;\n\nimpl A {\n    pub fn newly_made(&self) -> u64 {\n        1\n    }\n}\n',
        )
        self.write()
        self.put('crates/low/src/lib.rt', 'pub struct A;\n')
        with self.assertRaises(Refused):
            self.write()

    def test_a_file_that_is_gone(self) -> None:
        self.write()
        self.put('crates/low/src/lib.rt', 'pub fn one() -> u64 {\n    1\n}\n')
        (self.top / 'crates/low/src/deep.rt').unlink()
        self.write()
        self.assertFalse((self.to / 'crates/low/src/deep.rs').exists())

    def test_nothing_is_written_where_a_form_is_refused(self) -> None:
        self.put('crates/high/src/lib.rt', 'fn f() {\n    unsafe {}\n}\n')
        with self.assertRaises(Refused) as why:
            self.write()
        self.assertEqual(
            'crates/high/src/lib.rt:2: `unsafe` within a type or a body', str(why.exception)
        )
        self.assertFalse(self.to.exists())

    def test_a_folder_that_holds_something_else(self) -> None:
        self.to.mkdir()
        (self.to / 'mine').write_text('')
        with self.assertRaises(Stop) as why:
            self.write()
        self.assertIn('isn\'t empty', str(why.exception))
        self.assertEqual(['mine'], [it.name for it in self.to.iterdir()])

    def test_a_file_that_was_changed(self) -> None:
        self.write()
        path = self.to / 'crates/low/src/lib.rs'
        path.write_text('mine')
        with self.assertRaises(Stop) as why:
            self.write()
        self.assertIn(f'{path} was changed', str(why.exception))
        self.assertEqual('mine', path.read_text())

    def test_bytes_that_are_no_text(self) -> None:
        (self.top / 'crates/low/src/deep.rt').write_bytes(b'// a\n// \xff\n')
        with self.assertRaises(Refused) as why:
            self.write()
        self.assertIn('crates/low/src/deep.rt:2:', str(why.exception))

    @unittest.skipUnless(shutil.which('cargo'), 'there is no cargo')
    def test_cargo_takes_manifests_and_lock_as_they_are(self) -> None:
        self.write()
        done = subprocess.run(
            ['cargo', 'run', '--locked', '--offline', '-q', '-p', 'editor'],
            cwd=self.to,
            capture_output=True,
            text=True,
        )
        self.assertEqual((3, 'false\n'), (done.returncode, done.stderr))
        done = subprocess.run(
            ['cargo', 'test', '--locked', '--offline', '-q'],
            cwd=self.to,
            capture_output=True,
            text=True,
        )
        self.assertEqual(0, done.returncode, done.stdout + done.stderr)
        (self.to / 'crates/session_cases/expected').write_text('2\n')
        done = subprocess.run(
            ['cargo', 'test', '--locked', '--offline', '-q'],
            cwd=self.to,
            capture_output=True,
            text=True,
        )
        self.assertNotEqual(0, done.returncode)


class Choices(unittest.TestCase):
    def test_words(self) -> None:
        self.assertEqual(frozenset(), workspace.choice_of('stand-in').real)
        self.assertEqual(frozenset(known.KIT_CRATES), workspace.choice_of('real').real)
        for word in ('', 'other', 'vendor=', 'vendor=/nowhere/at/all'):
            with self.assertRaises(Stop):
                workspace.choice_of(word)

    def test_a_folder_of_sources(self) -> None:
        with tempfile.TemporaryDirectory() as holder:
            for name in ('clap-4.0.32', 'itoa', 'clap_lex-0.3.0', 'serde-1.0.0'):
                (pathlib.Path(holder) / name).mkdir()
                (pathlib.Path(holder) / name / 'Cargo.toml').write_text('')
            (pathlib.Path(holder) / 'memchr').mkdir()
            choice = workspace.choice_of('vendor=' + holder)
            self.assertEqual({'clap', 'itoa'}, choice.real)
            self.assertEqual(holder, choice.vendor)

    def test_each_library_of_the_toolkit_stands_twice(self) -> None:
        for name in set(known.KIT_CRATES) - {'thiserror'}:
            for kind in ('real', 'stand_in'):
                self.assertTrue(
                    (workspace.HERE / 'library' / kind / (name + '.rs')).is_file(), (kind, name)
                )


class Whole(unittest.TestCase):
    """The crates of this repository."""

    def test_every_file_is_read_and_nothing_is_known_in_vain(self) -> None:
        paths, methods, macros = set(), set(), set()
        real = (reader.Reader.hold_to_path, reader.Reader.method, reader.Reader.macro)

        def hold_to_path(self: reader.Reader, path: str, at: int) -> None:
            paths.add(path)
            real[0](self, path, at)

        def method(self: reader.Reader, at: int) -> None:
            methods.add(self.text(at))
            real[1](self, at)

        def macro(self: reader.Reader, at: int) -> int:
            macros.add(self.text(at))
            return real[2](self, at)

        with tempfile.TemporaryDirectory() as holder, mock.patch.multiple(
            reader.Reader, hold_to_path=hold_to_path, method=method, macro=macro
        ):
            to = pathlib.Path(holder, 'to')
            made = workspace.write(TOP, to, version='0.1.0')
            sources = list(TOP.glob('crates/*/src/**/*.rt'))
            self.assertEqual(len(sources), made.read)
            self.assertEqual(len(sources), len(list(to.glob('crates/*/src/**/*.rs'))))
            for path in to.glob('crates/*/src/**/*.rs'):
                code = re.sub(r'//[^\n]*|"(?:[^"\\]|\\.)*"', '', path.read_text())
                self.assertNotRegex(
                    code,
                    r'\bghost\b|\bensures\b|\brequires\b|\btactic\b|[^\x00-\x7f]|(?<![\w:])std::|\bunsafe\b(?!_code)',
                    path,
                )
            record = json.loads((to / workspace.RECORD).read_text())
            self.assertEqual(
                {it.relative_to(to).as_posix() for it in to.rglob('*') if it.is_file()}
                - {workspace.RECORD},
                set(record['files']),
            )
        self.assertEqual(set(), (known.STD | known.KIT | known.MODULES) - paths)
        self.assertEqual(set(), known.METHODS - methods)
        self.assertEqual(set(), set(known.MACROS) - macros)


if __name__ == '__main__':
    unittest.main()
