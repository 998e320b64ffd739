"""`--json`: one document for each verb, with the fields that docs/JSON.md names."""
from __future__ import annotations

import json
import pathlib
import re
from typing import Any

from yoke import results, verbs
from yoke.tests.support import TOP, ServerTest
from yoke.trouble import Clash, Refused

# verbs whose documents have no data of their own: they serve, or ask a person
WITHOUT = {'practice'}


def documented() -> dict[str, set[str]]:
    """The fields of each verb's result, by docs/JSON.md."""
    text = pathlib.Path(TOP, 'docs', 'JSON.md').read_text(encoding='utf-8')
    found = {}
    for names, fields in re.findall(
        r'^\| (`[a-z-]+`(?:, `[a-z-]+`)*) \| (`[a-z_]+`(?:, `[a-z_]+`)*) \|$', text, re.M
    ):
        for name in re.findall('`(.+?)`', names):
            found[name] = set(re.findall('`(.+?)`', fields))
    return found


class Documents(ServerTest):
    def json(self, *words: str, code: int = 0) -> dict[str, Any]:
        """The document of a verb that ends with this code; its result has just the fields of the
        page where it is done.
        """
        self.assertEqual(code, self.yoke(*words, '--json'), self.out + self.err)
        self.assertEqual(1, self.out.count('\n'))
        found: dict[str, Any] = json.loads(self.out)
        self.assertEqual(
            ['schema', 'yoke', 'verb', 'exit', 'error', 'notes', 'lines', 'result'], list(found)
        )
        self.assertEqual(
            (results.SCHEMA, words[0], code), (found['schema'], found['verb'], found['exit'])
        )
        if found['error'] is None:
            self.assertEqual(documented()[words[0]], set(found['result']), words)
        return found

    def test_a_day(self) -> None:
        self.write('town.opl', self.town)
        started = self.json('start', 'town.opl')
        self.assertEqual(
            {'nodes': 4, 'ways': 1, 'relations': 1},
            {name: started['result']['counts'][name] for name in ('nodes', 'ways', 'relations')},
        )
        self.assertEqual(
            ['4 nodes, 1 ways, 1 relations', 'kept as day/000001-start.saved'], started['lines']
        )
        self.write('fix.script', 'tag w5 Tsurface=asphalt\nnode x13 y52 Tnatural=tree\n')
        done = self.json('do', 'fix.script')
        self.assertEqual([[], ['n-1']], [step['made'] for step in done['result']['steps']])
        self.assertEqual(
            {'number': 2, 'verb': 'do', 'path': 'day/000002-do.saved'}, done['result']['session']
        )
        diff = self.json('diff')['result']['objects']
        self.assertEqual(
            [('n-1', 'new'), ('w5', 'changed')], [(one['key'], one['edit']) for one in diff]
        )
        self.assertEqual({'natural': 'tree'}, diff[0]['mine']['tags'])
        self.assertEqual((13.0, 52.0), (diff[0]['mine']['lon'], diff[0]['mine']['lat']))
        self.assertEqual(['n1', 'n2'], diff[1]['base']['nodes'])
        status = self.json('status')['result']
        self.assertEqual((2, None), (status['counts']['changed'], status['server']))
        undone = self.json('undo')['result']
        self.assertEqual((2, 1), (undone['taken_back']['number'], undone['session']['number']))

    def test_a_conflict(self) -> None:
        self.begin('tag n8 Tbackrest=yes')
        self.server.edit('modify', 'n8', tags={'amenity': 'bench', 'backrest': 'no'})
        fresh = self.json('refresh', '--api', self.server.api, code=Clash.code)
        self.assertEqual(
            (1, ['n8']),
            (fresh['result']['merged'], [one['key'] for one in fresh['result']['conflicts']]),
        )
        found = self.json('conflicts', code=Clash.code)['result']['conflicts'][0]
        self.assertEqual(
            ('changed', 'yes', 'no'),
            (
                found['conflict'],
                found['mine']['tags']['backrest'],
                found['theirs']['tags']['backrest'],
            ),
        )
        resolved = self.json('resolve', 'n8', 'mine')['result']
        self.assertEqual(([], ['n8']), (resolved['left'], list(resolved['resolved'])))

    def test_other_verbs(self) -> None:
        self.begin()
        self.json('insert', 'n8', 'w5')
        self.json('add-member', 'n8', 'r9', 'stop')
        self.json('turns')
        self.write('bad.script', 'tga w5 Ta=b\n')
        bad = self.json('lint', 'bad.script', code=1)['result']['bad_lines'][0]
        self.assertEqual(('bad.script', 1), (bad['script'], bad['line']))
        self.write('names.script', 'node x1 y1 T as here\n')
        self.assertEqual(
            ['begin', 'node x1 y1 T', 'end'],
            self.json('expand', 'names.script')['result']['script'],
        )
        self.json('to-josm', 'day.osm')
        self.assertEqual([], self.json('josm', 'day.osm')['result']['steps'])
        self.write(
            'a.osc',
            '<osmChange version="0.6"><modify><node id="8" version="2" lat="52.001" lon="13.002"><tag k="a" v="b"/></node></modify></osmChange>',
        )
        self.json('osc', 'a.osc')
        self.json('geojson', 'day.geojson')

    def test_tags(self) -> None:
        self.begin()
        tagged = self.json('tag', 'surface=asphalt', '--keys', 'w5')['result']
        self.assertEqual(
            (['w5'], None, [], 2),
            (tagged['keys'], tagged['rows'], tagged['listed'], tagged['session']['number']),
        )
        self.assertEqual(
            [], self.json('tag', 'surface=', '--find', 'Tsurface=gravel')['result']['keys']
        )
        script = self.json('tag', 'lit=yes', '--keys', 'w5', '--to', 'lit.script')['result']
        self.assertEqual(('lit.script', None), (script['file'], script['session']))
        self.write('rows.csv', 'key,lit\nw5,yes\nn8,no\n')
        self.assertEqual(
            ['tag w5 Tlit=yes', 'tag n8 Tlit=no'],
            [
                step['step']
                for step in self.json('tag', '--csv', 'rows.csv', '--columns', 'lit')['result'][
                    'steps'
                ]
            ],
        )

    def test_rows_of_a_table(self) -> None:
        self.begin()
        self.write('kinds.csv', 'kind,backrest\nbench,yes\nshelter,no\n')
        found = self.json(
            'tag', '--csv', 'kinds.csv', '--where', 'amenity={kind}', '--columns', 'backrest'
        )['result']
        self.assertEqual(
            {'read': 2, 'taken': 1, 'refused': 0, 'one': 1, 'none': 1, 'several': 0, 'changed': 0},
            found['rows'],
        )
        self.assertEqual(
            (['n8'], [('none', 3)]),
            (found['keys'], [(row['list'], row['line']) for row in found['listed']]),
        )

    def test_an_import(self) -> None:
        self.begin()
        self.write('trees.csv', 'lon,lat,natural\n13.0011,52.0002,tree\n52.0002,13.0011,tree\n')
        found = self.json('import', 'trees.csv', '--columns', 'natural')['result']
        self.assertEqual(
            {'read': 2, 'taken': 1, 'nodes': 1, 'ways': 0, 'relations': 0}, found['counts']
        )
        self.assertEqual(
            (['line 3'], None, 'import'),
            (
                [one['feature'] for one in found['left_out']],
                found['file'],
                found['session']['verb'],
            ),
        )
        self.write('more.csv', 'lon,lat,natural\n13.0013,52.0002,tree\n')
        self.assertEqual(
            'more.opl',
            self.json('import', 'more.csv', '--columns', 'natural', '--to', 'more.opl')['result'][
                'file'
            ],
        )
        self.assertEqual(1, len(self.json('ledger', 'trees.csv')['result']['features']))

    def test_a_send(self) -> None:
        self.begin('tag n8 Tbackrest=yes')
        dry = self.json('send', '--dry')['result']
        self.assertEqual(
            (0, [], {'create': 0, 'modify': 1, 'delete': 0}),
            (dry['sent'], dry['changesets'], dry['changes']),
        )
        sent = self.json('send', '--api', self.server.api, '-m', 'a test')['result']
        number = sent['changesets'][0]['number']
        self.assertEqual((1, [], None), (sent['sent'], sent['left'], sent['changes']))
        self.assertTrue(sent['changesets'][0]['link'].endswith('/changeset/' + number))
        self.assertEqual(
            [number], [one['number'] for one in self.json('log')['result']['changesets']]
        )

    def test_a_part_of_a_send(self) -> None:
        self.begin('tag n8 Tbackrest=yes', 'tag w5 Tsurface=asphalt')
        sent = self.json('send', '--api', self.server.api, '-m', 'a test', '--only', 'n8')['result']
        self.assertEqual((1, [['w5']]), (sent['sent'], [one['keys'] for one in sent['left']]))

    def test_a_send_that_is_refused_says_what_went_out(self) -> None:
        self.begin('tag n8 Tbackrest=yes')
        self.server.edit('modify', 'n8', tags={'amenity': 'bench', 'backrest': 'no'})
        found = self.json('send', '--api', self.server.api, '-m', 'a test', code=Clash.code)
        self.assertEqual((0, 'Clash'), (found['result']['sent'], found['error']['kind']))

    def test_objects(self) -> None:
        self.begin('tag w5 Tsurface=asphalt')
        found = {one['key']: one for one in self.json('show', 'w5', 'n1')['result']['objects']}
        self.assertEqual(
            ('changed', 'asphalt'), (found['w5']['edit'], found['w5']['mine']['tags']['surface'])
        )
        self.assertEqual((None, ['w5']), (found['n1']['edit'], found['n1']['used_by']))
        self.json('diff', '--svg', 'edits.svg')
        self.json('review', '--list')

    def test_a_match(self) -> None:
        self.begin()
        self.write('benches.csv', 'lon,lat,amenity,backrest\n13.002,52.001,bench,yes\n')
        self.write(
            'benches.rules', 'against Tamenity=bench\nwithin 30\nsame amenity\ntake backrest\n'
        )
        found = self.json(
            'conflate',
            'benches.csv',
            '--rules',
            'benches.rules',
            '--columns',
            'amenity,backrest',
            '--to',
            'matched',
        )['result']
        self.assertIn('matched.script', found['files'])

    def test_an_account(self) -> None:
        self.assertEqual(
            'mapper', self.json('whoami', '--api', self.server.api)['result']['account']
        )

    def test_a_revert(self) -> None:
        number = self.server.edit(
            'modify', 'n8', tags={'amenity': 'bench', 'material': 'wood'}
        ) and max(self.server.database.changesets)
        self.json('revert', str(number), '--api', self.server.api)

    def test_a_download(self) -> None:
        found = self.json(
            'get', '--api', self.server.api, '--bbox', '13,51.9,13.1,52.1', '--to', 'area.opl'
        )['result']
        self.assertEqual(
            ({'nodes': 4, 'ways': 1, 'relations': 1}, 0, 'area.opl'),
            (found['counts'], found['missing'], found['file']),
        )

    def test_an_error(self) -> None:
        self.begin()
        self.write('bad.script', 'delete n1\n')
        found = self.json('do', 'bad.script', code=Refused.code)
        self.assertEqual('Refused', found['error']['kind'])
        self.assertIn('nothing is kept', found['error']['message'])
        self.assertEqual(
            ('refused', 5),
            (found['result']['steps'][0]['reply'], found['result']['steps'][0]['refusal']),
        )

    def test_nothing_is_collected_without_it(self) -> None:
        self.begin('tag n8 Ta=b')
        self.assertFalse(results.wanted())
        self.done('diff')

    def test_the_page_has_each_verb(self) -> None:
        self.assertEqual(set(), set(verbs.NAMES) - set(documented()) - WITHOUT)
