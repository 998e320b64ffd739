"""Which program is driven, and of which build it is."""
import hashlib
import os
import pathlib
import tempfile
import unittest
from unittest import mock

from yoke import builds

BYTES = b'#!/bin/sh\nexit 0\n'
SUM = hashlib.sha256(BYTES).hexdigest()
OTHER = '0' * 64


class BuildsTest(unittest.TestCase):
    def setUp(self) -> None:
        holder = tempfile.TemporaryDirectory(prefix='yoke-test-')
        self.addCleanup(holder.cleanup)
        self.folder = pathlib.Path(holder.name)
        self.program = self.folder / 'prefix' / 'bin' / builds.NAME
        self.put(self.program, BYTES.decode()).chmod(0o755)
        self.checkout = self.folder / 'checkout'
        environment = mock.patch.dict(
            os.environ, {'YOKE_EDITOR': '', 'PATH': str(self.folder / 'empty')}
        )
        environment.start()
        self.addCleanup(environment.stop)

    def put(self, path: pathlib.Path, text: str) -> pathlib.Path:
        path.parent.mkdir(parents=True, exist_ok=True)
        path.write_text(text, encoding='utf-8')
        return path

    def record(self, text: str) -> None:
        self.put(self.program.parent.parent / builds.RECORD, text)

    def build(self) -> builds.Build | None:
        return builds.of(str(self.program), self.checkout)

    def test_the_order_in_which_the_program_is_looked_for(self) -> None:
        on_path = self.put(self.folder / 'path' / builds.NAME, '')
        on_path.chmod(0o755)
        own = self.folder / 'prefix'
        with mock.patch('yoke.builds.HERE', own):
            self.assertEqual(str(self.program), builds.find(None))
            with mock.patch.dict(os.environ, {'PATH': str(on_path.parent)}):
                self.assertEqual(str(on_path), builds.find(None))
                with mock.patch.dict(os.environ, {'YOKE_EDITOR': '/bin/sh'}):
                    self.assertEqual('/bin/sh', builds.find(None))
                    self.assertEqual('/bin/ls', builds.find('/bin/ls'))

    def test_a_named_program_that_is_missing_is_not_replaced(self) -> None:
        with mock.patch('yoke.builds.HERE', self.folder / 'prefix'):
            self.assertIsNone(builds.find('missing'))
            with mock.patch.dict(os.environ, {'YOKE_EDITOR': 'missing'}):
                self.assertIsNone(builds.find(None))
                self.assertIn('missing', builds.described())

    def test_a_record_counts_for_its_own_bytes_alone(self) -> None:
        for kind in builds.KINDS:
            build = builds.Build(kind, '0.2.0', SUM, OTHER)
            self.record(build.text())
            self.assertEqual(build, self.build())
        self.record(builds.Build('proved', '0.2.0', OTHER).text())
        self.assertIsNone(self.build())

    def test_a_record_is_found_through_a_link(self) -> None:
        self.record(builds.Build('plain', '0.2.0', SUM).text())
        link = self.folder / 'link'
        link.symlink_to(self.program)
        found = builds.of(str(link), self.checkout)
        assert found is not None
        self.assertEqual('plain', found.kind)

    def test_spoiled_records_are_of_unknown_build(self) -> None:
        whole = builds.Build('proved', '0.2.0', SUM).text()
        for text in (
            '',
            '{',
            '[]',
            '7',
            '{}',
            whole[:-9],
            whole.replace('proved', 'sound'),
            whole.replace('"0.2.0"', '7'),
            whole.replace(SUM, SUM.upper()),
        ):
            self.record(text)
            self.assertIsNone(self.build(), text)

    def test_release_of_a_checkout(self) -> None:
        release = f'version: 0.2.0\nsha256: {OTHER}\nplain-sha256: {SUM}\nplain-sources: {OTHER}\n'
        self.put(self.checkout / 'RELEASE', release)
        self.assertIsNone(self.build(), 'it is no checkout without launcher/')
        (self.checkout / 'launcher').mkdir()
        self.assertEqual(builds.Build('plain', '0.2.0', SUM, OTHER), self.build())
        self.put(self.checkout / 'RELEASE', release.replace('plain-sha256', 'plain-static-sha256'))
        self.assertEqual(builds.Build('plain', '0.2.0', SUM, OTHER), self.build())
        self.put(self.checkout / 'RELEASE', f'version: 0.1.0\nsha256: {SUM}\n')
        self.assertEqual(builds.Build('proved', '0.1.0', SUM), self.build())

    def test_the_one_of_a_clone(self) -> None:
        program = pathlib.Path(builds.HERE.parent, 'bin', 'yokeorange')
        self.assertTrue(builds.is_of_clone(str(program)))
        self.assertFalse(builds.is_of_clone('/bin/sh'))
        self.assertIn('./editor of this clone', builds.described(str(program)))

    def test_what_is_said(self) -> None:
        with mock.patch('yoke.builds.HERE', self.folder / 'prefix'):
            self.assertIn('of unknown build', builds.described())
            self.record(builds.Build('plain', '0.2.0', SUM).text())
            self.assertIn(
                f'{self.program}, yokeorange 0.2.0, a plain build, not proved\nsha256: {SUM}',
                builds.described(),
            )
            self.record(builds.Build('proved', '0.2.0', SUM).text())
            self.assertIn('0.2.0, the proved build', builds.described())


if __name__ == '__main__':
    unittest.main()
