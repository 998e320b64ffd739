#!/usr/bin/env python3
"""test_tools.py [PROGRAM]: tries the commands beside the driver, as a shell runs them. Run it in
the folder examples/; bench/check/pages does.
"""
import os
import pathlib
import shutil
import subprocess
import sys
import tempfile
import unittest

PROGRAM = sys.argv.pop() if len(sys.argv) > 1 else 'yokeorange'
TOOLS = pathlib.Path(__file__).resolve().parent

HIGH = '''n1 v1 x13.001 y52
n2 v1 x13.002 y52
n3 v1 x13.003 y52
n8 v2 x13.002 y52.001 Tamenity=bench
w5 v3 Thighway=residential,name=High%20%Street Nn1,n2,n3
w6 v1 Thighway=path Nn1,n3
'''


class Commands(unittest.TestCase):
    def setUp(self):
        holder = tempfile.TemporaryDirectory()
        self.addCleanup(holder.cleanup)
        self.folder = pathlib.Path(holder.name)
        bin = self.folder / 'bin'
        bin.mkdir()
        (bin / 'yokeorange').symlink_to(os.path.abspath(shutil.which(PROGRAM)))
        self.environment = dict(
            os.environ, PATH='{}:{}'.format(bin, os.environ['PATH']), PYTHONDONTWRITEBYTECODE='1'
        )
        self.write('high.opl', HIGH)

    def write(self, name, text):
        (self.folder / name).write_bytes(text.encode('utf-8'))

    def read(self, name):
        path = self.folder / name
        return path.read_text(encoding='utf-8') if path.exists() else None

    def command(self, *words, text=None):
        """Status, output and error stream of one of the commands."""
        done = subprocess.run(
            [sys.executable, str(TOOLS / words[0]), *words[1:]],
            cwd=self.folder,
            env=self.environment,
            input=text,
            stdout=subprocess.PIPE,
            stderr=subprocess.PIPE,
            text=True,
        )
        self.assertNotIn('Traceback', done.stderr)
        return done.returncode, done.stdout, done.stderr

    def session(self, name, *lines):
        """Runs a script of these lines, and keeps its output in a file."""
        self.write('case.script', ''.join(line + '\n' for line in lines))
        self.assertEqual(
            self.command('session.py', '--allow-refused', 'case.script', '-o', name), (0, '', '')
        )

    def refuses(self, words, said, *command):
        """The command ends with 1, says these words, writes nothing, and leaves its file as it was."""
        for before in (None, 'before'):
            path = self.folder / said
            path.unlink() if path.exists() else None
            if before:
                self.write(said, before)
            status, output, error = self.command(*command, '-o', said)
            self.assertEqual((status, output, self.read(said)), (1, '', before))
            self.assertRegex(error, words)
            self.assertEqual(len(error.splitlines()), 1)
            self.assertLess(len(error), 400)


class Running(Commands):
    def test_an_output_is_whole_or_not_there(self):
        self.write('good.script', 'download high.opl\nprint\n')
        self.write('refused.script', 'download high.opl\ntag n9 Tref=7\n')
        self.write('bad.script', 'download high.opl\nprint n1\n')
        self.write('empty.opl', '')
        self.write('empty.script', 'download empty.opl\n')
        self.assertEqual(self.command('session.py', 'good.script', '-o', 'out.txt'), (0, '', ''))
        self.assertEqual(self.read('out.txt').splitlines()[:2], ['1 ok', '2 ok'])
        self.refuses(
            'line 2: refused 1 n9: tag n9 Tref=7', 'out.txt', 'session.py', 'refused.script'
        )
        self.refuses('download empty.opl: nothing comes', 'out.txt', 'session.py', 'empty.script')
        self.refuses('No such file', 'out.txt', 'session.py', 'missing.script')
        self.assertEqual(
            self.command('session.py', 'bad.script', '-o', 'out.txt'),
            (4, '', 'session.py: status 4: editor: bad script line 2: print n1\n'),
        )
        self.assertEqual(
            self.command('session.py', '--allow-refused', 'refused.script', '-o', 'out.txt')[0], 0
        )
        self.assertEqual(self.read('out.txt'), '1 ok\n2 refused 1 n9\n')
        self.assertEqual(self.command('session.py', 'good.script')[0], 2)

    def test_standard_input_comes_whole_or_not_at_all(self):
        self.assertEqual(self.command('whole.py', '-o', 'some.txt', text='a\nb\n'), (0, '', ''))
        self.assertEqual(self.read('some.txt'), 'a\nb\n')
        self.assertEqual(
            self.command('whole.py', '-o', 'some.txt', text=''),
            (1, '', 'whole.py: nothing came, and some.txt is as it was\n'),
        )
        self.assertEqual(self.read('some.txt'), 'a\nb\n')
        for words in ([], ['-o'], ['some.txt'], ['-o', 'a', 'b']):
            self.assertEqual(self.command('whole.py', *words, text='x')[0], 1)


if __name__ == '__main__':
    unittest.main()
