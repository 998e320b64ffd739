"""Tests of the ledger: what it lets pass, and each fault that it has to find.

    python3 -m unittest yoke.testing.test_ledger
"""
import unittest

from yoke.testing.elements import lines_of_opl
from yoke.testing.ledger import Failed, Ledger, Wish, Wishes, difference, parts, read_session
from yoke.testing.server import MAPPER, StrictServer

TOWN = [
    'n1 v1 dV Tname=a x1.0000000 y2.0000000',
    'n2 v1 dV T x1.1000000 y2.0000000',
    'n3 v1 dV T x1.2000000 y2.0000000',
    'w5 v3 dV Thighway=path Nn1,n2',
]
BASE = {line.split(' ')[0]: line for line in TOWN}


def same(key):
    return f'known {key} live same none\nbase {BASE[key]}\n'


def own(key, mine, base=None, conflict='none', theirs=''):
    """An object that is another one here; with a conflict it has the other side too."""
    return 'known {0} live own {1}\nbase {2}\nmine {0} {3}\n'.format(
        key, conflict, base or BASE[key], mine
    ) + (f'theirs {theirs}\n' if theirs else '')


def gone(key):
    return f'known {key} live none none\nbase {BASE[key]}\n'


def new(key, mine):
    return 'known {0} new own none\nmine {0} {1}\n'.format(key, mine)


def session(*known):
    """A session with these objects, and the rest of the town as it is."""
    told = {text.split(' ')[1]: text for text in known}
    rest = {key: same(key) for key in BASE if key not in told}
    return read_session(
        'session 1 9\n' + ''.join([*rest.values(), *told.values()]) + 'session end\n'
    )


NAMED = 'v1 dV Tname=mine x1.0000000 y2.0000000'
BENCH = 'v0 dV Tamenity=bench x1.3000000 y2.0000000'


class LedgerTest(unittest.TestCase):
    def setUp(self):
        self.server = StrictServer(lines_of_opl(TOWN), first_id=100)
        self.ledger = Ledger(self.server)

    def upload(self, blocks):
        """An upload of the mapper, in which C stands for the attribute of the changeset."""
        number = self.server.database.create_changeset(MAPPER, b'<osm><changeset/></osm>')
        text = '<osmChange>{}</osmChange>'.format(blocks.replace('C', f'changeset="{number}"'))
        self.server.database.upload(number, MAPPER, text.encode())
        self.ledger.look()

    def named(self, version, name='mine', more=''):
        self.upload(
            '<modify><node id="1" C version="{}" lat="2" lon="1"><tag k="name" v="{}"/>{}</node></modify>'.format(
                version, name, more
            )
        )

    def edited(self, *known):
        """The mapper edits the town."""
        self.ledger.edited(session(), session(*known))
        self.ledger.kept(session(*known))

    def assert_fails(self, text, call, *words):
        with self.assertRaises(Failed) as failed:
            call(*words)
        self.assertIn(text, str(failed.exception))


class Edits(LedgerTest):
    def test_one_that_comes_to_the_server(self):
        self.edited(own('n1', NAMED))
        self.assertEqual(self.ledger.wishes, {('n1', 'tag name'): Wish('mine', 1)})
        self.named(1)
        self.assertEqual((self.ledger.wishes, self.ledger.landed), ({}, 1))

    def test_one_that_the_session_loses(self):
        self.edited(own('n1', NAMED))
        self.assert_fails('lost an edit: n1 tag name', self.ledger.kept, session())
        self.assert_fails(
            'lost an edit: n1 tag name',
            self.ledger.kept,
            session(own('n1', NAMED.replace('mine', 'other'))),
        )

    def test_one_that_is_taken_back(self):
        self.edited(own('n1', NAMED))
        self.ledger.edited(session(own('n1', NAMED)), session())
        self.assertEqual(self.ledger.wishes, {})

    def test_new_objects_with_the_names_that_they_get(self):
        self.edited(
            new('n-1', BENCH),
            new('w-2', 'v0 dV Thighway=steps Nn3,n-1'),
            own('w5', 'v1 dV Thighway=path Nn1,n2,n-1'),
        )
        self.upload(
            '<create><node id="-1" C lat="2" lon="1.3"><tag k="amenity" v="bench"/></node></create>'
        )
        self.assertEqual(self.ledger.names, {'n-1': 'n100'})
        self.ledger.kept(
            session(
                'known n100 live same none\nbase n100 v1 dV Tamenity=bench x1.3000000 y2.0000000\n',
                new('w-2', 'v0 dV Thighway=steps Nn3,n100'),
                own('w5', 'v1 dV Thighway=path Nn1,n2,n100'),
            )
        )
        self.upload(
            '<create><way id="-2" C><nd ref="3"/><nd ref="100"/><tag k="highway" v="steps"/></way></create>'
            '<modify><way id="5" C version="3"><nd ref="1"/><nd ref="2"/><nd ref="100"/><tag k="highway" v="path"/></way></modify>'
        )
        self.assertEqual(self.ledger.wishes, {})

    def test_a_new_object_that_goes_again(self):
        self.edited(new('n-1', BENCH))
        self.ledger.edited(session(new('n-1', BENCH)), session())
        self.assertEqual(self.ledger.wishes, {})

    def test_a_deletion(self):
        self.edited(own('w5', 'v1 dV Thighway=track Nn1,n2'))
        self.ledger.edited(session(own('w5', 'v1 dV Thighway=track Nn1,n2')), session(gone('w5')))
        self.assertEqual(self.ledger.wishes, {('w5', 'there'): Wish(None, 3)})
        self.ledger.kept(session(gone('w5')))
        self.assert_fails('lost an edit: w5 there', self.ledger.kept, session())
        self.upload('<delete><way id="5" C version="3"/></delete>')
        self.assertEqual(self.ledger.wishes, {})


class Uploads(LedgerTest):
    def test_what_nobody_edited(self):
        self.assert_fails('tag name is mine now, and was to be None', self.named, 1)

    def test_more_than_was_edited(self):
        self.edited(own('n1', NAMED))
        self.assert_fails('tag ref is 7 now', self.named, 1, 'mine', '<tag k="ref" v="7"/>')

    def test_something_else_than_was_edited(self):
        self.edited(own('n1', NAMED))
        self.assert_fails('tag name is other now', self.named, 1, 'other')

    def test_nothing(self):
        self.assert_fails('changes nothing', self.named, 1, 'a')

    def test_a_new_object_twice(self):
        bench = (
            '<create><node id="-1" C lat="2" lon="1.3"><tag k="amenity" v="bench"/></node></create>'
        )
        self.edited(new('n-1', BENCH))
        self.upload(bench)
        self.assert_fails('n-1 was created twice: as n100 and as n101', self.upload, bench)

    def test_a_new_object_without_a_part(self):
        self.edited(new('n-1', BENCH))
        self.assert_fails(
            'n-1 was created as',
            self.upload,
            '<create><node id="-1" C lat="2" lon="1.3"/></create>',
        )

    def test_over_the_same_part_by_others(self):
        self.edited(own('n1', NAMED))
        self.server.edit('modify', 'n1', tags={'name': 'theirs'})
        self.assert_fails('n1 v3 overwrites the tag name of others', self.named, 2)

    def test_beside_another_part_by_others(self):
        self.edited(own('n1', NAMED))
        self.server.edit('modify', 'n1', tags={'name': 'a', 'ref': '7'})
        self.named(2, 'mine', '<tag k="ref" v="7"/>')
        self.assertEqual(self.ledger.wishes, {})

    def test_another_part_of_others_taken_away(self):
        self.edited(own('n1', NAMED))
        self.server.edit('modify', 'n1', tags={'name': 'a', 'ref': '7'})
        self.assert_fails('tag ref is None now', self.named, 2)

    def test_a_deletion_of_what_others_changed(self):
        self.edited(gone('w5'))
        self.server.edit('modify', 'w5', tags={'highway': 'track'})
        self.assert_fails(
            'w5 v5 overwrites the there of others',
            self.upload,
            '<delete><way id="5" C version="4"/></delete>',
        )


class Resolved(LedgerTest):
    theirs = 'n1 v2 dV Tname=theirs x1.0000000 y2.0000000'

    def setUp(self):
        super().setUp()
        self.edited(own('n1', NAMED))
        self.server.edit('modify', 'n1', tags={'name': 'theirs'})
        self.before = session(own('n1', NAMED, conflict='changed', theirs=self.theirs))
        self.ledger.refreshed(self.before)

    def test_mine(self):
        self.ledger.resolved(
            ['n1'], 'mine', self.before, session(own('n1', NAMED, base=self.theirs))
        )
        self.named(2)
        self.assertEqual(self.ledger.wishes, {})

    def test_theirs(self):
        self.ledger.resolved(
            ['n1'],
            'theirs',
            self.before,
            session(f'known n1 live same none\nbase {self.theirs}\n'),
        )
        self.assertEqual(self.ledger.wishes, {})

    def test_one_that_does_not_as_it_says(self):
        theirs, mine = session(f'known n1 live same none\nbase {self.theirs}\n'), session(
            own('n1', NAMED, base=self.theirs)
        )
        other = session(own('n1', NAMED.replace('mine', 'other'), base=self.theirs))
        self.assert_fails(
            'resolve n1 mine is', self.ledger.resolved, ['n1'], 'mine', self.before, theirs
        )
        self.assert_fails(
            'resolve n1 theirs is', self.ledger.resolved, ['n1'], 'theirs', self.before, mine
        )
        self.assert_fails(
            'which is of neither side', self.ledger.resolved, ['n1'], 'parts', self.before, other
        )

    def test_one_that_changes_another_object(self):
        after = session(own('n1', NAMED, base=self.theirs), gone('w5'))
        self.assert_fails(
            'resolve of [\'n1\'] changed w5',
            self.ledger.resolved,
            ['n1'],
            'mine',
            self.before,
            after,
        )

    def test_mine_over_more_than_was_seen(self):
        self.ledger.resolved(
            ['n1'], 'mine', self.before, session(own('n1', NAMED, base=self.theirs))
        )
        self.server.edit('modify', 'n1', tags={'name': 'later'})
        self.assert_fails(
            'overwrites the tag name of others, who changed it after v2', self.named, 3
        )


class Refreshed(LedgerTest):
    def test_what_others_did_alike_is_done(self):
        self.edited(own('n1', NAMED))
        self.ledger.refreshed(
            session('known n1 live same none\nbase n1 v2 dV Tname=mine x1.0000000 y2.0000000\n')
        )
        self.assertEqual(self.ledger.wishes, {})

    def test_what_others_did_is_no_edit(self):
        self.assert_fails(
            'the session has edits of n1 that nobody made: [\'tag name\']',
            self.ledger.refreshed,
            session(own('n1', NAMED)),
        )

    def test_what_is_taken_and_not_answered_is_an_edit_still(self):
        edited = session(own('n1', NAMED))
        self.ledger.refreshed(edited, edited)
        self.assert_fails(
            'the session has edits of n1 that nobody made: [\'tag name\']',
            self.ledger.refreshed,
            edited,
            session(gone('n3')),
        )

    def test_a_withdrawn_deletion_waits_for_its_resolve(self):
        self.edited(gone('n3'))
        self.ledger.kept(
            session('known n3 live same withdrawn\nbase {0}\ntheirs {0}\n'.format(BASE['n3']))
        )
        held = 'known n3 live same held\nbase {}\ntheirs n3 v2 dD\n'.format(BASE['n3'])
        self.ledger.kept(session(held))
        self.assert_fails('lost an edit: n3', self.ledger.kept, session())

    def test_a_tag_that_was_taken_from_a_held_object_stays_away(self):
        bare = 'v1 dV T x1.0000000 y2.0000000'
        self.edited(own('n1', bare))
        self.ledger.kept(session(own('n1', bare, conflict='held', theirs='n1 v2 dD')))
        self.assert_fails(
            'lost an edit: n1 tag name',
            self.ledger.kept,
            session('known n1 live same held\nbase {}\ntheirs n1 v2 dD\n'.format(BASE['n1'])),
        )


class Compared(LedgerTest):
    def printed(self, *lines):
        return list(
            lines_of_opl(
                [*(line for line in TOWN if line[:2] not in [one[:2] for one in lines]), *lines]
            )
        )

    def test_a_session_that_is_the_server(self):
        self.ledger.compare(self.printed(), may_be_older=False)

    def test_one_that_has_another_content_or_more(self):
        for line in (
            'n1 v1 dV Tname=b x1.0000000 y2.0000000',
            'n1 v1 dD',
            'n9 v1 dV T x1.0000000 y2.0000000',
            'w5 v4 dV Thighway=path Nn1,n2',
        ):
            self.assert_fails(
                'the session has ' + line[:2], self.ledger.compare, self.printed(line), True
            )

    def test_one_that_is_older(self):
        self.server.edit('modify', 'n1', tags={'name': 'theirs'})
        self.ledger.compare(self.printed(), may_be_older=True)
        self.assert_fails('the session has n1', self.ledger.compare, self.printed(), False)

    def test_one_that_is_older_than_what_the_mapper_sent(self):
        self.edited(own('n1', NAMED))
        self.named(1)
        self.assert_fails('and the mapper sent n1', self.ledger.compare, self.printed(), True)


class OfOneKey(unittest.TestCase):
    def test_wishes_that_come_and_go(self):
        wishes = Wishes({('n1', 'there'): 1, ('n1', 'place'): 2, ('n2', 'there'): 3})
        wishes['n1', 'place'] = 4
        self.assertEqual(wishes.of('n1'), {'there': 1, 'place': 4})
        copy = Wishes(wishes)
        self.assertEqual(wishes.pop(('n1', 'there')), 1)
        self.assertIsNone(wishes.pop(('n1', 'there'), None))
        del wishes['n1', 'place']
        self.assertEqual((wishes.of('n1'), wishes.of('n9'), wishes), ({}, {}, {('n2', 'there'): 3}))
        self.assertEqual(copy.of('n1'), {'there': 1, 'place': 4})


class Parts(unittest.TestCase):
    def test_those_of_each_kind(self):
        node, way, relation, deleted = lines_of_opl(
            ['n1 v1 dV Ta=b x1 y2', 'w1 v1 dV T Nn1,n-2', 'r1 v1 dV T Mw1@a,n2@', 'n9 v2 dD']
        )
        self.assertEqual(
            parts(node), {'there': True, 'tag a': 'b', 'place': (10**7, 2 * 10**7)}
        )
        self.assertEqual(parts(way), {'there': True, 'nodes': ('n1', 'n-2')})
        self.assertEqual(parts(relation), {'there': True, 'members': (('w1', 'a'), ('n2', ''))})
        self.assertEqual((parts(deleted), parts(None)), ({}, {}))

    def test_differences(self):
        self.assertEqual(
            difference(
                {'there': True, 'tag a': 'b', 'tag c': 'd'},
                {'there': True, 'tag a': 'x', 'tag e': 'f'},
            ),
            {'tag a': 'x', 'tag c': None, 'tag e': 'f'},
        )
        self.assertEqual(difference({'there': True, 'tag a': 'b'}, {}), {'there': None})
        self.assertEqual(
            difference({}, {'there': True, 'tag a': 'b'}), {'there': True, 'tag a': 'b'}
        )


if __name__ == '__main__':
    unittest.main()
