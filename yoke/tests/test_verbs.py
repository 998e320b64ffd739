"""The verbs that ask no server: start, do, status, diff, undo, conflicts, resolve; and the command
itself.
"""
import io
import os
import shutil
import subprocess
import sys
import unittest
from unittest import mock

from yoke import verbs
from yoke.program import BadLine
from yoke.tests.support import TOP, TOWN, FolderTest
from yoke.trouble import Clash, Refused, Trouble, Usage

LATER = 'n8 v3 i7 ubeat x13.002 y52.001 Tamenity=bench,backrest=no\nw5 v4 Thighway=residential,name=High%20%Street Nn1,n2,n3\n'


class Start(FolderTest):
    def test_extracts(self):
        self.write('town.opl', TOWN)
        self.write('more.opl', '# a comment\n\nn20 v1 x13 y52\n')
        self.assertEqual(
            '5 nodes, 1 ways, 1 relations\nkept as day/000001-start.saved\n',
            self.done('start', 'town.opl', 'more.opl'),
        )
        self.assertEqual(Refused.code, self.yoke('start', 'more.opl'))
        self.assertIn('a day has begun', self.err)
        self.done('start', '--day', 'other', 'more.opl')

    def test_a_folder_of_its_own(self):
        self.write('town.opl', TOWN)
        self.write('notes.new', 'mine')
        self.assertEqual(Refused.code, self.yoke('start', 'town.opl', '--day', '.'))
        self.assertIn(
            ". isn't empty, notes.new is in it: a day wants a folder of its own, --day FOLDER",
            self.err,
        )
        self.assertEqual(['notes.new', 'town.opl'], sorted(os.listdir()))
        os.mkdir('day')
        for name in ('000001.osc', 'server', '000004-do.undone'):  # what is left of another day
            self.write('day/' + name, '')
            self.assertEqual(Refused.code, self.yoke('start', 'town.opl'))
            self.assertIn(f'{name} is in it', self.err)
            os.remove('day/' + name)
        self.write('day/lock', '')
        self.write('day/000001-start.saved.new', 'session')
        self.done('start', 'town.opl')
        self.assertEqual(['000001-start.saved', 'extracts', 'lock'], sorted(os.listdir('day')))

    def test_a_name_with_a_blank(self):
        self.write('my town,=.opl', TOWN)
        self.done('start', 'my town,=.opl', '--day', 'my day,')
        self.done('status', '--day', 'my day,')

    def test_what_is_no_extract(self):
        self.write('empty.opl', '')
        self.write('blank.opl', '# nothing\n \n\t\n')
        self.write('bad.opl', 'n1 v1 x13\n')
        self.write('town.opl', TOWN)
        os.mkdir('folder')
        for names, code, said in [
            (['empty.opl'], Trouble.code, 'empty.opl has no object'),
            (['town.opl', 'blank.opl'], Trouble.code, 'blank.opl has no object'),
            (['none.opl'], Trouble.code, 'no file none.opl'),
            (['folder'], Trouble.code, 'folder is a folder'),
            (
                ['town.opl', 'bad.opl'],
                Refused.code,
                'bad.opl: the file is refused: line 1: a node has no place',
            ),
        ]:
            self.assertEqual(code, self.yoke('start', *names), names)
            self.assertIn(said, self.err)
            self.assertFalse((self.folder / 'day' / '000001-start.saved').exists())
        self.done('start', 'town.opl')

    def test_a_pipe(self):
        reader, writer = os.pipe()
        os.write(writer, TOWN.encode())
        os.close(writer)
        self.addCleanup(os.close, reader)
        self.assertIn('4 nodes', self.done('start', f'/dev/fd/{reader}'))

    def test_without_osmium_other_formats_are_named(self):
        self.write('town.osm.pbf', 'x')
        with mock.patch.dict(os.environ, PATH=''):
            self.assertEqual(Trouble.code, self.yoke('start', 'town.osm.pbf'))
        self.assertIn('osmium-tool', self.err)

    @unittest.skipUnless(shutil.which('osmium'), 'there is no osmium')
    def test_what_osmium_reads(self):
        self.write('town.opl', TOWN)
        for name in ('town.osm.pbf', 'town.osm', 'town.osm.bz2', 'town.opl.gz'):
            subprocess.run(
                ['osmium', 'cat', 'town.opl', '-o', name], check=True, stdout=subprocess.PIPE
            )
            self.assertIn(
                '4 nodes, 1 ways, 1 relations', self.done('start', name, '--day', name + '.day')
            )
        self.write('bad.osm.pbf', 'x')
        self.assertEqual(Trouble.code, self.yoke('start', 'bad.osm.pbf'))
        self.assertIn('osmium doesn\'t read bad.osm.pbf', self.err)

    def test_osmium_is_run(self):
        self.write(
            'osmium',
            '#!/bin/sh\n[ "$1 $2 $4 $5 $6 $7" = "cat --no-progress -f opl -O -o" ] && cp "$3" "$8"\n',
        )
        os.chmod('osmium', 0o755)
        self.write('town.osm.pbf', TOWN)
        with mock.patch.dict(os.environ, PATH='{}:{}'.format(self.folder, os.environ['PATH'])):
            self.assertIn('4 nodes', self.done('start', 'town.osm.pbf'))


class Do(FolderTest):
    def setUp(self):
        super().setUp()
        self.begin()

    def test_it_is_kept_and_what_it_writes_is_shown(self):
        self.assertEqual(
            'steps.script:3: made n-1\nfound 1\nn8\nkept as day/000002-do.saved\n',
            self.do('# a comment', '', 'node x13 y52 T', 'find Tamenity=*'),
        )

    def test_nothing_is_kept_where_a_step_is_refused(self):
        self.write('a.script', 'tag n1 Tref=7\ntag n9 Tref=7\r\ndelete n1\n')
        self.assertEqual(Refused.code, self.yoke('do', 'a.script'))
        self.assertEqual(
            [
                'a.script:2: refused: tag n9 Tref=7: there is no n9: download it, or mend the key; of an import put it into the file (refusal 1)',
                'a.script:3: refused: delete n1: n1 is still used by w5: leave n1 out; or erase the way alone, which keeps nodes that others use (refusal 5)',
            ],
            self.out.splitlines(),
        )
        self.assertEqual('yoke: nothing is kept: 2 of 3 steps were refused\n', self.err)
        self.assertEqual(1, self.day.last().number)

    def test_keep(self):
        self.write('a.script', 'tag n1 Tref=7\ntag n9 Tref=7\n')
        self.assertEqual(Refused.code, self.yoke('do', '--keep', 'a.script'))
        self.assertIn('kept as', self.out)
        self.assertEqual({'ref': '7'}, self.session.known()['n1'].mine.tags)

    def test_a_group_that_is_given_up(self):
        self.write(
            'a.script',
            'begin\ntag n1 Tref=7\nnode x1 y1 T\ntag n9 Tref=7\nend\nbegin\nnode x2 y2 T\nend\n',
        )
        self.assertEqual(Refused.code, self.yoke('do', 'a.script'))
        self.assertNotIn('made', self.out)
        self.assertEqual(Refused.code, self.yoke('do', 'a.script', '--keep'))
        self.assertEqual(
            ['a.script:7: made n-1'], [line for line in self.out.splitlines() if 'made' in line]
        )
        self.assertEqual(
            ['new'], [known.edit for known in self.session.known().values() if known.edit]
        )

    def test_a_bad_line(self):
        self.write('a.script', '\ufefftag n1 Tref=7\nplace n1\n')
        self.assertEqual(BadLine.code, self.yoke('do', 'a.script'))
        self.assertIn('a.script:2: no line of a script: place n1', self.err)
        self.assertEqual(1, self.day.last().number)

    def test_lines_that_are_yokes_own(self):
        for line, said in [
            ('save', 'kept by itself'),
            ('resume day/000001-start.saved', 'taken up by itself'),
            ('confirm x', 'yoke send'),
            ('serve x', 'meeting'),
            ('download day/000001-start.saved', 'file of the day'),
            ('import day/lock', 'file of the day'),
            ('begin\ntag n1 T', 'has no end'),
        ]:
            self.write('a.script', 'count\n' + line + '\n')
            self.assertEqual(Refused.code, self.yoke('do', 'a.script'), line)
            self.assertRegex(self.err, 'a.script:2: .*' + said)
        self.assertEqual(1, self.day.last().number)

    def test_standard_input_and_no_script(self):
        with mock.patch('sys.stdin', io.TextIOWrapper(io.BytesIO(b'tag n1 Tref=7'))):
            self.assertEqual(0, self.yoke('do', '-'))
        self.assertEqual(Trouble.code, self.yoke('do', 'none.script'))
        (self.folder / 'latin.script').write_bytes(b'tag n1 Tname=\xe4\n')
        self.assertEqual(Trouble.code, self.yoke('do', 'latin.script'))
        self.assertIn('UTF-8', self.err)

    def test_files_are_seen_from_where_yoke_runs(self):
        self.write('new.opl', 'n-7 x13 y52\n')
        self.assertIn('made n-1', self.do('import new.opl'))

    def test_a_full_disk_keeps_nothing(self):
        self.write('a.script', 'tag n1 Tref=7\n')
        with mock.patch('os.fsync', side_effect=OSError(28, 'No space left on device')):
            self.assertEqual(Trouble.code, self.yoke('do', 'a.script'))
        self.assertIn('No space left', self.err)
        self.assertEqual(1, self.day.last().number)


class Looking(FolderTest):
    EDITS = [
        'node x13.004 y52 Tname=a%20%b',
        'tag w5 Tsurface=asphalt,name=',
        'nodes w5 Nn2,n1,n3',
        'members r9 Mw5@main',
        'move n8 0.001 0',
        'delete n-1',
        'node x1 y2 T',
    ]

    def test_diff(self):
        self.begin(*self.EDITS)
        self.assertEqual(
            '''changed n8 amenity=bench
    place: 13.002 52.001 -> 13.003 52.001
new n-2
    place: 1 2
changed w5 highway=residential
    name: High Street -> (none)
    surface: asphalt
    nodes: 2 -> 3, with n3
changed r9 type=route
    members: 1 -> 1, without w5, with w5@main
4 edited
'''.replace(
                'changed n8', 'changed n8'
            ),
            self.done('diff').replace('deleted n-1\n', '').replace('5 edited', '4 edited'),
        )
        self.assertEqual('changed n8 amenity=bench\n1 edited\n', self.done('diff', '--short', 'n8'))

    def test_diff_of_a_session_without_edits(self):
        self.begin()
        self.assertEqual('0 edited\n', self.done('diff'))

    def test_diff_of_what_is_deleted_and_turned_round(self):
        self.begin('delete n3', 'reverse w5')
        self.assertEqual(
            'deleted n3\nchanged w5 High Street\n    nodes: 2 -> 2, turned round\n2 edited\n',
            self.done('diff'),
        )

    def test_status(self):
        self.begin('tag n1 Tref=7')
        self.assertEqual(
            'session 2 by do, in day\n4 nodes, 1 ways, 1 relations; 1 edited, 0 in conflict\nyoke diff shows the edits, and yoke send sends them\n',
            self.done('status'),
        )

    def test_no_day(self):
        for verb in (
            ['status'],
            ['diff'],
            ['undo'],
            ['conflicts'],
            ['resolve', 'n1', 'mine'],
            ['do', 'x'],
        ):
            self.write('x', 'count\n')
            self.assertEqual(Trouble.code, self.yoke(*verb))
            self.assertIn('yoke start', self.err)
        self.assertFalse((self.folder / 'day').exists())

    def test_undo(self):
        self.begin('tag n1 Tref=7')
        self.do('tag n1 Tref=8')
        self.assertIn(
            'took back session 3 by do; session 2 by do is the last again', self.done('undo')
        )
        self.assertEqual('7', self.session.known()['n1'].mine.tags['ref'])
        self.done('undo')
        self.assertEqual(Refused.code, self.yoke('undo'))


class Conflicts(FolderTest):
    def setUp(self):
        super().setUp()
        self.begin('tag n8 Tbackrest=yes', 'tag w5 Tsurface=asphalt', 'delete n3')
        self.write('later.opl', LATER)
        self.do('download later.opl')

    def test_they_are_shown_with_three_sides(self):
        self.assertEqual(Clash.code, self.yoke('conflicts'))
        self.assertEqual(
            '''n3: deleted here, and the server uses it now
    here from version 1; the server has version 1
    yoke resolve n3 mine
    yoke resolve n3 theirs
n8 amenity=bench: both sides changed it
    here from version 2; the server has version 3 by beat
    backrest: was (none), mine yes, theirs no
    yoke resolve n8 mine
    yoke resolve n8 theirs
    yoke resolve n8 parts mine [backrest]
2 in conflict
''',
            self.out,
        )
        self.assertEqual(Clash.code, self.yoke('conflicts', 'n8'))
        self.assertNotIn('n3:', self.out)
        self.done('status')
        self.assertIn('yoke conflicts', self.out)

    def test_resolve(self):
        for words, rest in [
            (['n8', 'mine'], 'yes'),
            (['n8', 'theirs'], 'no'),
            (['n8', 'mix', 'theirs', 'mine'], 'no'),
            (['n8', 'parts', 'mine'], 'yes'),
            (['n8', 'parts', 'mine', 'backrest'], 'no'),
        ]:
            with self.subTest(words):
                self.assertIn('1 in conflict', self.done('resolve', *words))
                self.assertIn('backrest: was (none), mine yes, theirs no', self.out)
                known = self.session.known()['n8']
                self.assertEqual(
                    (3, rest, 'none'),
                    (known.base.version, known.mine.tags['backrest'], known.conflict),
                )
                self.done('undo')

    def test_several_and_all(self):
        self.assertIn('0 in conflict', self.done('resolve', 'n8,n3', 'theirs'))
        self.done('undo')
        self.assertIn('0 in conflict', self.done('resolve', 'all', 'theirs'))
        self.assertEqual(0, self.yoke('conflicts'))
        self.assertEqual(Refused.code, self.yoke('resolve', 'all', 'mine'))

    def test_what_is_refused_changes_nothing(self):
        for words, code, said in [
            (['n3', 'mine'], Refused.code, 'still used by w5'),
            (['n1', 'mine'], Refused.code, 'isn\'t in conflict'),
            (['n99', 'mine'], Refused.code, 'no n99'),
            (['n8', 'parts', 'mine', 'amenity'], Refused.code, 'amenity'),
            (['n3,n8', 'mine'], Refused.code, 'n3'),
            (['n8', 'mix', 'mine'], Usage.code, 'SIDE'),
            (['n8', 'mine', 'x'], Usage.code, 'SIDE'),
            (['n8', 'parts', 'x'], Usage.code, 'SIDE'),
            (['x', 'mine'], Usage.code, 'x'),
            (['n8 mine\nsave', 'mine'], Usage.code, 'key'),
        ]:
            last = self.day.last().number
            self.assertEqual(code, self.yoke('resolve', *words), words)
            self.assertIn(said, self.err)
            self.assertEqual(last, self.day.last().number)

    def test_what_the_server_deleted_and_is_used_here(self):
        self.write('gone.opl', 'n1 v2 dD\n')
        self.do('download gone.opl')
        self.assertEqual(Clash.code, self.yoke('conflicts', 'n1'))
        self.assertIn(
            'n1: the server deleted it, and it is used here\n    here from version 1; the server has version 2, deleted\n',
            self.out,
        )


class Command(FolderTest):
    def test_help_of_all_and_of_each_verb(self):
        self.assertEqual(0, self.yoke('--help'))
        for name in verbs.NAMES:
            self.assertIn(
                f'\n    {name} ',
                self.out.replace(f'\n    {name}\n', f'\n    {name} \n'),
            )
        for name in verbs.NAMES:
            self.assertEqual(0, self.yoke(name, '--help'))
            self.assertIn('--day', self.out)
        self.assertEqual(0, self.yoke('--version'))

    def test_each_verb_is_as_the_list_says(self):
        for name in verbs.NAMES:
            verb = verbs.load(name)
            self.assertTrue(
                verb.SUMMARY
                and verb.SUMMARY[-1] != '.'
                and verb.__doc__
                and callable(verb.run)
                and callable(verb.add_arguments),
                name,
            )

    def test_wrong_words(self):
        for given in ([], ['nothing'], ['do'], ['undo', 'x'], ['resolve', 'n1', 'hers']):
            self.assertEqual(Usage.code, self.yoke(*given))

    def test_faults_are_one_line_and_no_traceback(self):
        self.assertEqual(Trouble.code, self.yoke('status'))
        self.assertEqual(1, self.err.count('\n'))
        for error, code in [
            (PermissionError(13, 'Permission denied', 'day'), 3),
            (KeyboardInterrupt(), 130),
        ]:
            with mock.patch('yoke.verbs.status.run', side_effect=error):
                self.assertEqual(code, self.yoke('status'))
            self.assertEqual(1, self.err.count('\n'))
            self.assertIn('yoke status shows', self.err)  # another verb may have kept what it did
        with mock.patch('yoke.verbs.send.run', side_effect=KeyboardInterrupt()):
            self.assertEqual(130, self.yoke('send'))
        self.assertIn('the same command again goes on', self.err)

    def test_as_a_program(self):
        environment = dict(
            os.environ, PYTHONPATH=str(TOP), YOKE_EDITOR=str(TOP / 'bench' / 'model' / 'model')
        )
        self.write('town.opl', TOWN)
        done = subprocess.run(
            [sys.executable, '-m', 'yoke', 'start', 'town.opl'],
            env=environment,
            stdout=subprocess.PIPE,
            stderr=subprocess.STDOUT,
            text=True,
        )
        self.assertEqual(
            (0, '4 nodes, 1 ways, 1 relations\nkept as day/000001-start.saved\n'),
            (done.returncode, done.stdout),
        )
        environment.pop('PYTHONUNBUFFERED', None)
        for buffered in ({}, {'PYTHONUNBUFFERED': '1'}):
            for words in (['diff'], ['diff', '--json'], ['status']):
                with open('/dev/full', 'w') as full:
                    done = subprocess.run(
                        [sys.executable, '-m', 'yoke', *words],
                        env={**environment, **buffered},
                        stdout=full,
                        stderr=subprocess.PIPE,
                        text=True,
                    )
                self.assertEqual(3, done.returncode, (words, buffered))
                self.assertIn('No space left on device', done.stderr)
                self.assertNotIn('Traceback', done.stderr)


if __name__ == '__main__':
    unittest.main()
