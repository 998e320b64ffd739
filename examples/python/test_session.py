#!/usr/bin/env python3
"""test_session.py [PROGRAM]: tries the driver on the example town. Run it in the folder examples/;
bench/check/pages does.
"""
import os
import pathlib
import re
import shutil
import sys
import tempfile
import unittest
from decimal import Decimal

import session
import whole
from session import (
    Answer,
    Drawing,
    Nothing,
    Refused,
    Script,
    Stopped,
    degrees,
    parse_object,
    quote,
    read_objects,
    run,
    tags,
    unquote,
    upload_lines,
)

PROGRAM = sys.argv.pop() if len(sys.argv) > 1 else 'yokeorange'


class Texts(unittest.TestCase):
    def test_quotes_what_the_format_uses(self):
        self.assertEqual(quote('a b,c=d@e%'), 'a%20%b%2c%c%3d%d%40%e%25%')

    def test_reads_back(self):
        for text in ('', 'Straße', '中山路', 'tab\tline\nfeed', '\u2028\u0085', '😀'):
            self.assertEqual(unquote(quote(text)), text)

    def test_refuses_long_texts(self):
        quote('é' * 255)
        self.assertRaises(ValueError, quote, 'é' * 256)

    def test_a_name_of_a_file_is_no_text_of_the_map(self):
        name = 'a folder/' * 40 + 'town.opl'
        script = Script()
        for call in (script.download, script.import_file, script.confirm, script.resume):
            call(name)
        self.assertEqual([unquote(line.split(' ', 1)[1]) for line in script.lines], [name] * 4)

    def test_degrees(self):
        self.assertEqual(
            [degrees(n) for n in (13.65, -0.00000001, 1e-7, Decimal('180'), -5)],
            ['13.65', '0', '0.0000001', '180', '-5'],
        )

    def test_an_error_shows_one_line_of_bounded_length(self):
        script = Script()
        script.tag(['n1'], {f'key{number}': 'value' for number in range(10000)})
        step = script.lines[0]
        for error in (
            Refused(session.Reply(1, 'refused', '7 n1', []), step, None),
            Stopped(4, 'editor: bad script line 1', step),
        ):
            self.assertIn(step[:60], str(error))
            self.assertLess(len(str(error)), 200)
            self.assertEqual(error.step, step)
        for text in ('a\nb' * 100, 'x' * 300):
            with self.assertRaises(ValueError) as seen:
                quote(text)
            self.assertLess(len(str(seen.exception)), 150)
            self.assertNotIn('\n', str(seen.exception))

    def test_values_of_a_tag(self):
        self.assertEqual(
            tags(
                {
                    'a': 'b',
                    'levels': 2,
                    'height': 2.5,
                    'width': 3.0,
                    'lit': True,
                    'oneway': False,
                    'd': Decimal('1.10'),
                }
            ),
            'a=b,levels=2,height=2.5,width=3,lit=yes,oneway=no,d=1.10',
        )
        for value in (None, [], {}, float('nan'), float('inf'), b'x'):
            self.assertRaisesRegex(
                ValueError, "tag 'levels': .* is no value", tags, {'levels': value}
            )
        for key in ('', 7, None):
            self.assertRaisesRegex(ValueError, 'tag .*: a key is a text', tags, {key: 'x'})
        self.assertRaisesRegex(ValueError, "tag 'note': 256 characters", tags, {'note': 'x' * 256})

    def test_a_key_that_is_not_known_is_an_error_of_its_own(self):
        script = Script()
        script.resume('1.saved')
        bench = script.node(13, 52, {})
        for step in (
            lambda: script.way(['n2', bench], {}),
            lambda: script.relation([(bench, '')], {}),
            lambda: script.tag([bench], {}),
            lambda: script.place(bench, 1, 1),
            lambda: script.members('r1', [(bench, '')]),
        ):
            self.assertRaisesRegex(ValueError, 'put it into a Drawing', step)


class Sessions(unittest.TestCase):
    def script(self):
        script = Script()
        script.download('town.opl')
        return script

    def run_script(self, script, **options):
        return run(script, PROGRAM, **options)

    def test_replies_and_objects(self):
        script = self.script()
        script.begin()
        bench = script.node(13.65, 0.05, {'amenity': 'bench', 'note': 'a, b = c'})
        path = script.way(['n2', bench], {'highway': 'footway'})
        script.relation([(path, ''), (bench, 'a role')], {'type': 'site'})
        script.move(['n3'], 0, -0.05)
        script.end()
        script.print()
        script.count()
        answer = self.run_script(script)
        self.assertEqual([reply.word for reply in answer.replies], ['ok'] * 9)
        self.assertEqual(
            [answer.replies[2].rest, answer.replies[3].rest, answer.replies[4].rest],
            [bench, path, 'r-3'],
        )
        things = {thing.key: thing for thing in answer.objects()}
        self.assertEqual(things[bench].tags, {'amenity': 'bench', 'note': 'a, b = c'})
        self.assertEqual(
            (things[bench].lon, things[bench].lat), (Decimal('13.65'), Decimal('0.05'))
        )
        self.assertEqual(things[path].nodes, ['n2', bench])
        self.assertEqual(things['r-3'].members, [(path, ''), (bench, 'a role')])
        self.assertEqual(things['n1'].user, 'A B')
        self.assertEqual(answer.counts()['changed'], 4)

    def test_stops_at_the_first_refusal(self):
        script = self.script()
        script.tag(['n9'], {'name': 'nowhere'})
        script.delete(['n1'])
        with self.assertRaises(Refused) as seen:
            self.run_script(script)
        self.assertEqual(
            (seen.exception.number, seen.exception.reply.line, seen.exception.step),
            (1, 2, 'tag n9 Tname=nowhere'),
        )
        self.assertEqual(
            [reply.word for reply in seen.exception.answer.replies], ['ok', 'refused', 'refused']
        )
        answer = self.run_script(script, allow_refused=True)
        self.assertEqual([reply.word for reply in answer.replies], ['ok', 'refused', 'refused'])

    def test_says_why_nothing_ran(self):
        script = self.script()
        script.step('tga n1')
        with self.assertRaises(Stopped) as seen:
            self.run_script(script)
        self.assertEqual((seen.exception.status, seen.exception.step), (4, 'tga n1'))
        self.assertEqual(str(seen.exception), 'status 4: editor: bad script line 2: tga n1')

    def test_the_program_is_named_from_where_python_runs(self):
        with tempfile.TemporaryDirectory() as place:
            named = pathlib.Path(place, 'named')
            named.symlink_to(shutil.which(PROGRAM))
            script = Script()
            script.count()
            self.assertEqual(run(script, os.path.relpath(named), place).counts()['nodes'], 0)
            self.assertRaisesRegex(
                FileNotFoundError, 'there is no program', run, script, 'named', place
            )

    def test_each_call_is_a_line_of_the_grammar(self):
        script = self.script()
        script.tag(['n1'], {'ref': '7', 'name': ''})
        script.place('n1', 13.5, 0)
        script.nodes('w5', ['n1', 'n2', 'n3'])
        script.members('r9', [('w5', ''), ('n4', 'stop')])
        script.split('w5', ['n2'])
        script.combine(['w-1', 'w5'])
        script.reverse('w5')
        script.purge(['n4', 'r9'])
        script.erase(['n1'])
        script.delete(['w5'])
        script.conflicts()
        script.resolve('n1', 'mine')
        script.resolve('n1', 'theirs')
        script.resolve_mix('n1', 'mine', 'theirs')
        script.resolve_parts('n1', 'theirs', [])
        script.resolve_parts('n1', 'mine', ['ref', 'a b,=%'])
        script.upload(10000)
        script.confirm('a name, with = and %')
        script.rehearse()
        script.find('( node or T' + tags({'a name': '*'}) + ' ) and not child way')
        script.check()
        script.squeeze(['w5', 'w6'])
        script.fuse(['n1', 'n2'])
        script.save()
        script.resume('a name, with = and %')
        script.download('a name', (-180, -90, 180, 90.0), {'highway': '*', 'name': 'a b,=%'})
        script.download('a name', box=(13, 52, 13.0000001, 52.5))
        script.download('a name', wanted={'name': ''})
        script.generate(1)
        script.import_file('a name')
        self.run_script(script, allow_refused=True)

    def test_what_is_found_is_mended(self):
        script = self.script()
        gate = script.node(13.6, 0, {'barrier': 'gate', 'name': 'a, b'})
        script.nodes('w5', ['n1', gate, 'n2', 'n2', 'n3'])
        script.check()
        script.find('T' + tags({'name': 'a, b'}) + ' or parent new')
        script.squeeze(['w5'])
        script.fuse(['n2', gate])
        script.print()
        answer = self.run_script(script)
        self.assertEqual(answer.findings(), [['doubled', 'n-1', 'n2'], ['repeated', 'w5']])
        self.assertEqual(answer.found(), ['n-1', 'w5'])
        self.assertEqual(
            [thing.nodes for thing in answer.objects() if thing.key == 'w5'], [['n1', 'n2', 'n3']]
        )

    def test_a_session_is_taken_up(self):
        script = self.script()
        bench = script.node(13.65, 0.05, {'amenity': 'bench'})
        script.save()
        with tempfile.TemporaryDirectory() as place:
            self.run_script(script).keep(place + '/day.saved')
            again = Script()
            again.resume(place + '/day.saved')
            self.assertIsNone(again.node(13.6, 1, {}))
            again.tag([bench], {'backrest': 'yes'})
            again.save()
            answer = self.run_script(again)
        self.assertEqual([reply.rest for reply in answer.replies], ['', 'n-2', '', ''])
        self.assertEqual(answer.saved().split('\n')[0], 'session 1 3')

    def test_keeps_a_session_whole_or_not_at_all(self):
        with tempfile.TemporaryDirectory() as place:
            kept = pathlib.Path(place, 'day.saved')
            script = self.script()
            script.save()
            self.run_script(script).keep(kept)
            before = kept.read_bytes()
            self.assertEqual(before.decode(), self.run_script(script).saved())
            skipped, nothing = self.script(), Script()
            for step in ('begin', 'tag n9 Tref=7', 'save', 'end'):
                skipped.step(step)
            nothing.resume(place + '/there-is-none')
            nothing.save()
            for other, words in [
                (self.script(), 'nothing was saved'),
                (skipped, 'nothing was saved'),
                (nothing, 'line 1: refused 19: resume '),
            ]:
                with self.assertRaisesRegex(ValueError, words):
                    self.run_script(other, allow_refused=True).keep(kept)
                self.assertEqual(kept.read_bytes(), before)
            self.assertEqual([path.name for path in pathlib.Path(place).iterdir()], ['day.saved'])

    def test_what_a_session_reads_it_never_writes(self):
        with tempfile.TemporaryDirectory() as place:
            folder = pathlib.Path(place)
            for name in ('town.opl', 'monday.opl'):
                shutil.copy(name, place)
            saving = Script()
            saving.download('town.opl')
            saving.save()
            run(saving, PROGRAM, place, keep=folder / 'day.saved', output=folder / 'day.txt')
            self.assertEqual((folder / 'day.txt').read_text()[:10], '1 ok\n2 ok\n')
            os.link(folder / 'town.opl', folder / 'linked.opl')
            (folder / 'a b.opl').symlink_to('town.opl')
            before = {path.name: path.read_bytes() for path in folder.iterdir()}
            for step, name in [
                ('download town.opl', 'town.opl'),
                ('download town.opl', 'linked.opl'),
                ('download a%20%b.opl', 'town.opl'),
                ('import monday.opl', 'monday.opl'),
                ('resume day.saved', 'day.saved'),
                ('confirm day.txt', 'day.txt'),
            ]:
                for into in ('output', 'keep'):
                    script = Script()
                    script.step(step)
                    script.save()
                    self.assertRaisesRegex(
                        ValueError,
                        'is read',
                        run,
                        script,
                        '/bin/false',
                        place,
                        **{into: folder / name},
                    )
            again = Script()
            again.resume('day.saved')
            again.save()
            self.assertRaisesRegex(
                ValueError, 'is read', run(again, PROGRAM, place).keep, folder / 'day.saved'
            )
            self.assertEqual({path.name: path.read_bytes() for path in folder.iterdir()}, before)

    def test_a_file_is_written_whole_or_not_at_all(self):
        with tempfile.TemporaryDirectory() as place:
            kept = pathlib.Path(place, 'out.txt')
            kept.write_text('before')
            script = self.script()
            script.tag(['n9'], {'ref': '7'})
            self.assertRaises(Refused, self.run_script, script, output=kept)
            script.step('tga')
            self.assertRaises(Stopped, self.run_script, script, output=kept)
            self.assertEqual(kept.read_text(), 'before')
            self.run_script(self.script(), output=kept)
            self.assertEqual(kept.read_text(), '1 ok\n')
            link = pathlib.Path(place, 'link')
            link.symlink_to('out.txt')
            whole.write_whole(link, 'after')
            self.assertEqual((link.is_symlink(), kept.read_text()), (True, 'after'))
            self.assertRaisesRegex(ValueError, 'is no file', whole.write_whole, '/dev/null', 'x')
            self.assertEqual(sorted(os.listdir(place)), ['link', 'out.txt'])

    def test_a_download_of_nothing_is_told_before_anything_runs(self):
        bare = 'w9 v1 Thighway=track N\n# x20 y20\nn7 v1 Ta%20%b=c x5 y5\nn1 v1 x1 y1\nw5 v1 Thighway=path Nn1\nr9 v1 Ttype=route Mw5@\n'
        rows = [
            ('', 'download f', False),
            ('# a note\n\nc1 k2\n', 'download f', False),
            ('', 'serve f', False),
            (bare, 'serve f', True),
            (bare, 'download f', True),
            (bare, 'download f B0,0,1,1', True),
            (bare, 'download f B2,2,3,3', False),
            (bare, 'download f Ftype=route', False),
            (bare, 'download f Fhighway=*', True),
            (bare, 'download f Fhighway=pat', False),
            (bare, 'download f Fa%20%b=c', True),
            (bare, 'download f B0,0,1,1 Fhighway=path', True),
            (bare, 'download f B5,5,6,6 Fhighway=*', False),
            ('w5 v1 Ta=b Nn1\nn1 v1 x1 y1\n', 'download f B0,0,1,1 Fa=b', True),
            ('n1 v2 dD\n', 'download f B2,2,3,3', True),
            (bare, 'import f', False),
            ('n-1 v1 dD\n', 'import f', False),
            ('n1 v1 x1 y1\nn-1 x1 y1\n', 'import f', True),
            ('<osm/>', 'download f', True),
            ('<osm/>', 'import f', True),
        ]
        with tempfile.TemporaryDirectory() as place:
            file = pathlib.Path(place, 'f')
            for text, step, comes in rows:
                file.write_text(text)
                self.assertEqual(session.brings_something(step, file), comes, (text, step))
                script = Script()
                script.step(step)
                if not comes:
                    self.assertRaisesRegex(
                        Nothing,
                        re.escape(step) + ': nothing comes',
                        run,
                        script,
                        '/bin/false',
                        place,
                    )
                    self.assertEqual(
                        run(script, PROGRAM, place, allow_empty=True).replies[0].word, 'ok'
                    )
            for step in (
                'download f B1,2',
                'download f Fhighway',
                'download %ffffff%',
                'download f%0%',
                'download f x',
                'download',
            ):
                script = Script()
                script.step(step)
                self.assertRaises(Stopped, run, script, PROGRAM, place)
            file.write_text('')
            script = Script()
            script.resume('f')
            self.assertRaisesRegex(Refused, '30 1', run, script, PROGRAM, place)

    def test_a_part_of_a_file(self):
        script = Script()
        script.download('town.opl', (13.55, 0, 13.65, 1))
        script.download('town.opl', wanted={'name': '*', 'highway': 'residential'})
        script.count()
        counts = self.run_script(script).counts()
        self.assertEqual(
            [counts[kind] for kind in ('nodes', 'ways', 'relations', 'incomplete')], [3, 1, 1, 1]
        )

    def test_limits(self):
        script = self.script()
        self.run_script(script, max_objects=6, max_file=500)
        for limit, refusal in [({'max_objects': 5}, '18'), ({'max_file': 50}, '20 toolong')]:
            with self.assertRaises(Refused) as seen:
                self.run_script(script, **limit)
            self.assertEqual(seen.exception.reply.rest, refusal)
        with self.assertRaises(Stopped) as seen:
            self.run_script(script, max_objects=0)
        self.assertEqual(seen.exception.status, 2)

    def test_a_drawing_comes_in_by_import(self):
        drawing = Drawing()
        bench = drawing.node(13.65, 0.05, {'amenity': 'bench', 'note': 'a, b = c'})
        path = drawing.way(['n2', bench], {'highway': 'footway'})
        drawing.relation([(path, 'a role'), ('w5', '')], {'type': 'site'})
        script = self.script()
        script.node(13.6, 1, {})
        with tempfile.TemporaryDirectory() as place:
            drawing.write(place + '/new.opl')
            script.import_file(place + '/new.opl')
            self.assertIsNone(script.node(13.6, 2, {}))
            script.print()
            answer = self.run_script(script)
        self.assertEqual(
            [reply.rest for reply in answer.replies], ['', 'n-1', 'n-2,w-3,r-4', 'n-5', '']
        )
        names = drawing.named(answer.replies[2])
        things = {thing.key: thing for thing in answer.objects()}
        self.assertEqual(things[names[bench]].tags, {'amenity': 'bench', 'note': 'a, b = c'})
        self.assertEqual(things[names[path]].nodes, ['n2', names[bench]])
        self.assertEqual(things['r-4'].members, [(names[path], 'a role'), ('w5', '')])
        for reply in (
            answer.replies[1],
            answer.replies[2]._replace(word='refused', rest='7 n-2'),
            answer.replies[2]._replace(word='skipped', rest=''),
        ):
            self.assertRaisesRegex(ValueError, 'no import of these 3 objects', drawing.named, reply)

    def test_a_feature_of_a_drawing_is_whole_or_not_there(self):
        drawing = Drawing()
        shared = drawing.node(13, 52, {}, shared=True)
        lines = list(drawing.lines)
        with self.assertRaisesRegex(ValueError, "tag 'building': 300 characters"):
            with drawing.feature():
                corners = [drawing.node(13 + x, 52, {}, shared=True) for x in range(4)]
                drawing.way(corners, {'building': 'x' * 300})
        self.assertEqual((drawing.lines, drawing.corners), (lines, {('T', 'x13', 'y52'): shared}))
        with drawing.feature():
            corners = [drawing.node(13 + x, 52, {}, shared=True) for x in range(2)]
        self.assertEqual(corners, ['n-1', 'n-2'])

    def test_corners_are_shared_where_they_are_alike(self):
        drawing = Drawing()
        first = drawing.node(13.00000001, 52, {}, shared=True)
        self.assertEqual(drawing.node(13, 52, {}, shared=True), first)
        self.assertNotEqual(drawing.node(13, 52, {}), first)
        self.assertNotEqual(drawing.node(13, 52, {'barrier': 'gate'}, shared=True), first)
        houses = Drawing()
        for x in range(3):
            ring = [
                houses.node(13 + (x + a) / 1000, 52 + b / 1000, {}, shared=True)
                for a, b in [(0, 0), (1, 0), (1, 1), (0, 1)]
            ]
            houses.way(ring + ring[:1], {'building': 'house'})
        self.assertEqual(sum(key[0] == 'n' for key in houses.keys), 8)
        with tempfile.TemporaryDirectory() as place:
            houses.write(place + '/new.opl')
            script = Script()
            script.import_file(place + '/new.opl')
            script.check()
            self.assertEqual(self.run_script(script).findings(), [])

    def test_a_drawing_tests_what_it_is_given(self):
        drawing = Drawing(within=(9, 47, 10, 48))
        self.assertRaisesRegex(
            ValueError,
            'longitude 47.2 and latitude 9.5, outside 9,47,10,48: are the two exchanged',
            drawing.node,
            47.2,
            9.5,
            {},
        )
        for place in ((181, 0), (0, 91), (float('nan'), 0)):
            self.assertRaisesRegex(ValueError, 'outside', Drawing().node, *place, {})
        self.assertRaisesRegex(ValueError, "'9.5' is no number", drawing.node, '9.5', 47.2, {})
        for value, words in [
            ('a\x01', r'U\+0001'),
            ('a\0', r'U\+0000'),
            (' Neubrandenburg', 'blanks round'),
            ('a\u00a0', 'blanks round'),
            ('x' * 256, '256 characters'),
            ([], 'no value'),
            (float('nan'), 'no value'),
        ]:
            self.assertRaisesRegex(
                ValueError,
                "tag 'addr:city': .*" + words,
                drawing.node,
                9.5,
                47.2,
                {'addr:city': value},
            )
            self.assertRaisesRegex(
                ValueError, "tag 'addr:city': .*" + words, drawing.way, ['n1'], {'addr:city': value}
            )
        self.assertRaisesRegex(
            ValueError, 'role of n1: blanks', drawing.relation, [('n1', ' stop')], {}
        )
        self.assertRaisesRegex(ValueError, 'put it into a Drawing', drawing.way, ['n1', None], {})
        self.assertEqual(drawing.keys, [])
        drawing.node(9.5, 47.2, {'levels': 2, 'height': 2.5, 'name': None, 'ref': '', 'lit': True})
        self.assertEqual(drawing.lines, ['n-1 Tlevels=2,height=2.5,lit=yes x9.5 y47.2'])

    def test_foretells_no_key_that_it_cannot_know(self):
        script = self.script()
        self.assertEqual(script.node(13, 1, {}), 'n-1')
        script.split('w5', ['n2'])
        self.assertIsNone(script.node(13, 1, {}))
        answer = self.run_script(script)
        self.assertEqual([reply.rest for reply in answer.replies], ['', 'n-1', 'w-2', 'n-3'])


class Uploads(unittest.TestCase):
    def tuesday(self):
        """Monday's edits with Tuesday's conflicts in them."""
        script = Script()
        script.download('monday.opl')
        script.tag(['w5'], {'surface': 'asphalt'})
        script.tag(['n8'], {'backrest': 'yes'})
        script.delete(['n3'])
        script.download('tuesday.opl')
        script.conflicts()
        return script

    def settled(self):
        script = self.tuesday()
        script.resolve('n3', 'theirs')
        script.resolve_parts('n8', 'mine', ['backrest'])
        script.tag(['n8'], {'name': 'a & "b"\n'})
        script.delete(['w5'])
        corner = script.node(13.004, 52, {})
        script.way(['n3', corner], {'highway': 'footway'})
        return script

    def kept(self, script):
        """The output of a script as a file keeps it."""
        kept = tempfile.NamedTemporaryFile('w', encoding='utf-8', newline='\n')
        self.addCleanup(kept.close)
        for reply in run(script, PROGRAM, allow_refused=True).replies:
            kept.write(
                ' '.join([str(reply.line), reply.word] + [reply.rest] * bool(reply.rest)) + '\n'
            )
            kept.writelines(line + '\n' for line in reply.text)
        kept.flush()
        return kept.name

    def test_conflicts_have_three_sides(self):
        first, second = run(self.tuesday(), PROGRAM).conflicts()
        self.assertEqual((first.key, first.why), ('n3', 'withdrawn'))
        self.assertEqual((first.base, first.mine), (first.theirs, first.theirs))
        self.assertEqual(
            (second.key, second.why, second.base.version, second.theirs.version),
            ('n8', 'changed', 2, 3),
        )
        self.assertEqual([side.tags.get('backrest') for side in second[2:]], [None, 'yes', 'no'])

    def test_nothing_of_an_earlier_look_is_told(self):
        script = self.tuesday()
        script.upload(10)
        script.print()
        script.resolve('n3', 'theirs')
        script.resolve('n8', 'theirs')
        script.conflicts()
        script.upload(10)
        script.rehearse()
        answer = run(script, PROGRAM, allow_refused=True)
        self.assertEqual(
            [reply.rest for reply in answer.replies if reply.word == 'refused'], ['23 2 n3']
        )
        self.assertEqual(answer.conflicts(), [])
        self.assertEqual(len(answer.chunks()), 1)
        self.assertEqual(len(answer.objects()), 5)
        self.assertEqual(upload_lines(self.kept(script))[0], 'upload changes 1 chunks 1')
        script.step('undo 1')
        script.upload(10)
        answer = run(script, PROGRAM, allow_refused=True)
        self.assertEqual(answer.chunks(), [])
        self.assertEqual(upload_lines(self.kept(script)), [])

    def test_chunks_have_what_was_edited(self):
        script = self.settled()
        script.upload(3)
        script.rehearse()
        chunks = run(script, PROGRAM).chunks()
        self.assertEqual(
            [[(verb, thing.key, thing.version) for verb, thing in chunk] for chunk in chunks],
            [
                [('create', 'n-1', 0), ('create', 'w-2', 0), ('modify', 'n8', 3)],
                [('delete', 'w5', 4)],
            ],
        )
        self.assertEqual(chunks[0][1][1].nodes, ['n3', 'n-1'])
        self.assertEqual(
            chunks[0][2][1].tags, {'amenity': 'bench', 'backrest': 'no', 'name': 'a & "b"\n'}
        )
        self.assertTrue(chunks[1][0][1].deleted)

    def test_reads_the_objects_of_a_kept_output(self):
        script = self.settled()
        script.print()
        script.rehearse()
        script.upload(10)
        self.assertEqual(
            list(read_objects(self.kept(script)).values()), run(script, PROGRAM).objects()
        )


class Objects(unittest.TestCase):
    def test_fields_in_any_order(self):
        thing = parse_object(
            'n1 v3 dV c7 t2024-02-29T12:00:00Z i5 uA%20%B Tname=x%20%y y-0.0000001 x13.5000000'
        )
        self.assertEqual(
            (thing.version, thing.changeset, thing.uid, thing.user, thing.tags, thing.lon),
            (3, 7, 5, 'A B', {'name': 'x y'}, Decimal('13.5')),
        )

    def test_deleted(self):
        self.assertTrue(parse_object('w5 v1 dD c0 t i0 u T N').deleted)

    def test_text_behind_replies(self):
        answer = Answer(
            '1 ok\nn1 v1 dV c0 t i0 u T x1 y1\n2 refused 5 n1 w5\n3 skipped\n',
            'print\ndelete n1\nend\n',
        )
        self.assertEqual(
            [(reply.line, reply.word, reply.rest, len(reply.text)) for reply in answer.replies],
            [(1, 'ok', '', 1), (2, 'refused', '5 n1 w5', 0), (3, 'skipped', '', 0)],
        )


if __name__ == '__main__':
    unittest.main()
