"""Packages: what is in them, that the same sources give the same bytes, and what is refused."""

from __future__ import annotations

import os
import pathlib
import shutil
import subprocess
import sys
import tarfile
import tempfile
import unittest
from unittest import mock

from launcher import keys, programs
from launcher.messages import Stop
from tools.check import needs
from tools.release import __main__ as command
from tools.release import bundle, commit, completion, debian, packages, proved, record
from tools.release import programs as built
from tools.release import try_package, wheel
from yoke import builds

TOP = commit.TOP
OF = commit.Commit('0123456789abcdef' * 2 + '01234567', 1_700_000_000)
PROGRAM = '#!/bin/sh\necho "ran: $*"\n'


class FolderTest(unittest.TestCase):
    def setUp(self) -> None:
        holder = tempfile.TemporaryDirectory(prefix='release-test-')
        self.addCleanup(holder.cleanup)
        self.folder = pathlib.Path(holder.name)
        self.program = self.put('yokeorange', PROGRAM)
        self.program.chmod(0o755)
        self.made = built.Programs(self.program, self.program, 'rustc 1.70.0', 'a' * 64)

    def put(self, name: str, text: str) -> pathlib.Path:
        path = self.folder / name
        path.parent.mkdir(parents=True, exist_ok=True)
        path.write_text(text, encoding='utf-8')
        return path

    def new(self, name: str) -> pathlib.Path:
        path = self.folder / name
        path.mkdir(parents=True)
        return path


class Completion(unittest.TestCase):
    def completed(self, program: str, *words: str) -> list[str]:
        """What bash offers where the last of some words is begun."""
        line = ' '.join(f"'{it}'" for it in (program, *words))
        text = f'COMP_WORDS=({line}); COMP_CWORD={len(words)}; _{program}; '
        text += 'printf "%s\\n" "${COMPREPLY[@]}"'
        done = subprocess.run(
            ['bash', '-euc', completion.of()[program] + text],
            cwd=TOP / 'examples',
            capture_output=True,
            text=True,
        )
        self.assertEqual('', done.stderr)
        return done.stdout.split()

    def test_verbs_options_and_files(self) -> None:
        self.assertEqual(['send'], self.completed('yoke', 'se'))
        self.assertIn('--at-most', self.completed('yoke', 'send', '--at'))
        self.assertNotIn('--at-most', self.completed('yoke', 'status', '--'))
        self.assertEqual(['first.script'], self.completed('yoke', 'do', 'first.s'))
        self.assertEqual(['first.script'], self.completed('yokeorange', 'first.s'))
        self.assertEqual(['--max-objects'], self.completed('yokeorange', '--max-o'))

    def test_each_verb_has_its_options(self) -> None:
        for name, verb in completion.verbs().items():
            self.assertIn('--day', completion.options_of(verb), name)


class Bundle(FolderTest):
    def test_two_have_the_same_bytes_and_all_that_is_wanted(self) -> None:
        tars = []
        for at, name in enumerate(('one', 'another/folder')):
            inside = self.folder / name / 'yokeorange-0'
            os.umask(0o022 if at else 0o077)
            self.addCleanup(os.umask, 0o022)
            bundle.write(TOP, inside, self.program, {'build.json': self.made.record(self.program)})
            tars.append(self.folder / f'{at}.tar.gz')
            bundle.tar(inside, tars[-1], OF.time)
        self.assertEqual(tars[0].read_bytes(), tars[1].read_bytes())
        with tarfile.open(tars[0]) as archive:
            entries = archive.getmembers()
        self.assertEqual({OF.time}, {it.mtime for it in entries})
        self.assertEqual({'root'}, {it.uname for it in entries})
        names = {it.name.partition('/')[2] for it in entries}
        self.assertLessEqual({'yokeorange', 'yoke', 'yoke.1', 'yoke.bash', 'LICENSE'}, names)

    def test_installed(self) -> None:
        inside = self.folder / 'yokeorange-0'
        bundle.write(TOP, inside, self.program, {'build.json': self.made.record(self.program)})
        prefix = self.folder / 'prefix'
        subprocess.run(
            ['sh', 'install.sh', str(prefix)], cwd=inside, check=True, capture_output=True
        )
        environment = {**os.environ, 'PATH': f'{prefix}/bin:{os.environ["PATH"]}'}
        environment.pop('YOKE_EDITOR', None)
        done = subprocess.run(
            [sys.executable, str(prefix / 'bin/yoke'), '--version'],
            env=environment,
            capture_output=True,
            text=True,
        )
        self.assertIn('a plain build, not proved', done.stdout, done.stderr)
        (inside / 'yokeorange').write_text('other', encoding='utf-8')
        done = subprocess.run(
            ['sh', 'install.sh', str(self.folder / 'b')], cwd=inside, capture_output=True, text=True
        )
        self.assertNotEqual(0, done.returncode)
        self.assertFalse((self.folder / 'b').exists())


class Debian(FolderTest):
    def test_what_is_in_it(self) -> None:
        found = debian.files(TOP, self.made, OF)
        for name in ('usr/bin/yokeorange', 'usr/share/man/man1/yoke.1.gz'):
            self.assertIn(name, found)
        record = found['usr/share/yokeorange/build.json'].decode()
        build = builds.read(record)
        assert build is not None
        self.assertEqual(('plain', keys.of_file(self.program)), (build.kind, build.sha256))
        root = self.new('root')
        debian.copy_folders(TOP, root)
        inside = root / debian.PACKAGES / 'yoke'
        self.assertTrue((inside / 'command.py').is_file())
        self.assertFalse((inside / 'tests').exists())
        self.assertEqual([], list(root.rglob('__pycache__')))

    def test_copyright_has_the_licence(self) -> None:
        text = debian.copyright_of('MIT License\n\nCopyright (c) 2026 Some People\n\nPermission\n')
        self.assertIn('Copyright: 2026 Some People\n', text)
        self.assertIn('\n .\n Permission\n', text)

    @unittest.skipUnless(shutil.which('dpkg'), 'dpkg isn\'t there')
    def test_what_is_not_released_comes_before_it(self) -> None:
        with mock.patch.object(commit, 'is_released', lambda: False):
            early = debian.version(OF)
        with mock.patch.object(commit, 'is_released', lambda: True):
            late = debian.version(OF)
        self.assertIn(OF.short, early)
        done = subprocess.run(['dpkg', '--compare-versions', early, 'lt', late])
        self.assertEqual(0, done.returncode)

    def test_sizes_and_sums(self) -> None:
        root = self.new('root')
        for name, size in (('usr/a', 1), ('usr/b', 1024), ('usr/c', 1025)):
            debian.put(root / name, b'x' * size)
        debian.put(root / 'DEBIAN' / 'control', b'')
        self.assertEqual(2 + 1 + 1 + 2, debian.size_of(root))
        lines = debian.sums(root).splitlines()
        self.assertEqual(['usr/a', 'usr/b', 'usr/c'], [it.split('  ')[1] for it in lines])


class Wheel(FolderTest):
    def test_two_have_the_same_bytes_and_carry_the_program(self) -> None:
        try:
            wheel.python()
        except Stop as why:
            self.skipTest(str(why))
        found = [
            wheel.make(TOP, self.new(f'{name}/work'), self.new(f'{name}/to'), self.made, OF)
            for name in ('one', 'another')
        ]
        self.assertEqual(found[0].read_bytes(), found[1].read_bytes())
        self.assertRegex(found[0].name, r'^yokeorange_yoke-[\d.]+-py3-none-linux_\w+\.whl$')
        to = self.folder / 'installed'
        install = [
            '-m',
            'pip',
            'install',
            '--quiet',
            '--no-deps',
            '--no-index',
            '--target',
            str(to),
        ]
        subprocess.run([wheel.python(), *install, str(found[0])], check=True, capture_output=True)
        environment = {**os.environ, 'PYTHONPATH': str(to), 'PATH': '/usr/bin:/bin'}
        environment.pop('YOKE_EDITOR', None)
        done = subprocess.run(
            [needs.python(), '-m', 'yoke', '--version'],
            cwd=self.folder,
            env=environment,
            capture_output=True,
            text=True,
        )
        self.assertIn(f'{to}/yoke/bin/yokeorange, yokeorange', done.stdout, done.stderr)
        self.assertIn('a plain build, not proved', done.stdout)


class Releases(FolderTest):
    def test_what_is_written_is_read_back(self) -> None:
        before = programs.Release(version='0.1.0', sha256='b' * 64)
        plain = packages.plain_lines(self.made, OF)
        text = record.of_packages(before, plain, [self.program])
        release = programs.read_release(text)
        assert release is not None
        self.assertEqual('b' * 64, release.sha256)
        self.assertTrue(release.is_plain(keys.of_file(self.program)))
        self.assertEqual(['proved', 'plain', 'plain'], [it.kind for it in builds.of_release(text)])
        self.assertIn(f'package yokeorange: {keys.of_file(self.program)}\n', text)
        alone = programs.read_release(record.of_packages(None, plain, []))
        assert alone is not None
        self.assertEqual(('', OF.hash), (alone.sha256, alone.plain_commit))

    def test_two_builds_are_said_and_the_sums_hold(self) -> None:
        made = self.new('made')
        shutil.copy(self.program, made)
        (made / record.RELEASE).write_text('version: 1\nplain-rust: x\npackage a: b\n')
        listed = [made / 'yokeorange', made / record.RELEASE]
        (made / record.SUMS).write_text(record.sums(listed))
        record.say_twice(made)
        lines = (made / record.RELEASE).read_text().splitlines()
        self.assertEqual(
            ['plain-rust: x', f'plain-builds: {record.AGREE}', 'package a: b'], lines[1:]
        )
        subprocess.run(['sha256sum', '-c', record.SUMS], cwd=made, check=True, capture_output=True)


class Refusals(FolderTest):
    def test_folders_that_differ(self) -> None:
        one, two = self.new('1'), self.new('2')
        for it in (one, two):
            (it / 'a').write_text('a')
        command.hold_to_same(one, two)
        (two / 'a').write_text('b')
        with self.assertRaisesRegex(Stop, 'differ in a'):
            command.hold_to_same(one, two)
        (two / 'b').write_text('b')
        with self.assertRaisesRegex(Stop, 'other files'):
            command.hold_to_same(one, two)

    def test_words(self) -> None:
        with mock.patch('sys.stderr'):
            for words in ([], ['--to', 'a', '--check']):
                with self.assertRaises(SystemExit):
                    command.main(words)

    @unittest.skipUnless(shutil.which('readelf'), 'readelf isn\'t there')
    def test_a_program_that_is_not_static(self) -> None:
        with self.assertRaisesRegex(Stop, 'isn\'t static'):
            built.hold_to_static(pathlib.Path(os.path.realpath(sys.executable)))

    def test_the_gates_line(self) -> None:
        log = self.put('log', 'much\n3 passed, 0 failed\n')
        self.assertEqual('3 passed, 0 failed', proved.gate_line(str(log)))
        for text in ('0 passed, 0 failed', '3 passed, 1 failed', ''):
            with self.assertRaises(Stop):
                proved.gate_line(text)


class Trials(FolderTest):
    def test_blocks_of_the_front_page(self) -> None:
        page = (TOP / 'README.md').read_text(encoding='utf-8')
        self.assertTrue(any('yokeorange' in it for it in try_package.blocks(page, 'First run')))
        self.assertIn('yoke send', try_package.blocks(page, 'A day with yoke')[0])
        self.assertIn('../editor', try_package.blocks_elsewhere(page))
        self.assertEqual([], try_package.blocks(page, 'No such heading'))

    def test_what_is_left_or_gone_is_found(self) -> None:
        inside = try_package.Debian(self.folder)
        before = inside.files()
        self.assertIn('/yokeorange', before)
        try_package.hold_to_same(before, inside.files())
        left = self.put('usr/lib/left', '')
        with self.assertRaisesRegex(Stop, 'left behind: .*/usr/lib/left'):
            try_package.hold_to_same(before, inside.files())
        self.put('var/log/apt', '')
        self.assertNotIn('/var/log/apt', inside.files())
        left.unlink()
        self.program.unlink()
        with self.assertRaisesRegex(Stop, 'gone: /yokeorange'):
            try_package.hold_to_same(before, before - {'/yokeorange'})

    def test_memory_of_processes(self) -> None:
        code = 'import time; held = b"x" * 50_000_000; print(1, flush=True); time.sleep(60)'
        with subprocess.Popen(
            ['sh', '-c', '"$0" -c "$1"; true', sys.executable, code], stdout=subprocess.PIPE
        ) as process:
            assert process.stdout is not None
            process.stdout.readline()
            found = try_package.descendants(process.pid)
            largest, own = try_package.memory_of(process.pid)
            for it in reversed(found):
                os.kill(it, 9)
        self.assertEqual(2, len(found))
        self.assertGreater(own, 50_000_000)
        self.assertGreater(largest, own)
        self.assertLess(largest, 150_000_000)


if __name__ == '__main__':
    unittest.main()
