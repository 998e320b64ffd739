"""Which edits hang together, and sessions without some of them: by hand, and over random sessions.
"""
import random
import unittest
from typing import Dict, List, Optional, Set, Tuple

from yoke import groups, opl, table
from yoke.program import Answer
from yoke.tests.sessions import goes_on, opened, ran, session

TOWN = '''n1 v1 x13.001 y52
n2 v1 x13.002 y52
n3 v1 x13.003 y52
n4 v1 x13.004 y52
n8 v2 x13.002 y52.001 Tamenity=bench
w5 v3 Thighway=residential,name=High%20%Street Nn1,n2,n3
w6 v1 Thighway=residential,name=High%20%Street Nn3,n4
r9 v1 Ttype=route Mw5@forward,w6@,n77@
'''


def divided(*lines: str, **files: str) -> List[Tuple[str, ...]]:
    return groups.divide(opened(['download town.opl', *lines], town_opl=TOWN, **files))


class Divide(unittest.TestCase):
    def test_edits_that_depend_on_nothing_are_groups_of_their_own(self) -> None:
        self.assertEqual(
            [('n8',), ('w5',), ('r9',)], divided('tag n8 Ta=b', 'tag w5 Ta=b', 'tag r9 Ta=b')
        )

    def test_new_objects_with_their_users(self) -> None:
        self.assertEqual(
            [('n-1', 'n-2', 'w-3', 'r-4'), ('n-5',)],
            divided(
                'node x13 y52 T',
                'node x13.1 y52 T',
                'way T Nn-1,n-2',
                'relation Ttype=site Mw-3@',
                'node x13.2 y52 Ta=b',
            ),
        )
        self.assertEqual([('n-1', 'w6')], divided('node x13 y52 T', 'nodes w6 Nn3,n-1,n4'))

    def test_a_deletion_with_those_that_used_it(self) -> None:
        self.assertEqual([('n4', 'w6')], divided('nodes w6 Nn3,n1', 'delete n4'))
        self.assertEqual([('n4', 'w6', 'r9')], divided('erase w6'))

    def test_pieces_of_a_split_and_its_relation(self) -> None:
        self.assertEqual([('w5', 'w-1', 'r9')], divided('split w5 n2'))
        # of a split whose new piece the relation doesn't get
        self.assertEqual(
            [('w5', 'w-1')],
            divided('members r9 Mn77@', 'split w5 n2', 'members r9 Mw5@forward,w6@,n77@'),
        )

    def test_a_way_that_is_reversed_and_its_role(self) -> None:
        self.assertEqual([('w5', 'r9')], divided('reverse w5', 'members r9 Mw5@backward,w6@,n77@'))

    def test_what_the_server_deleted_and_its_new_user(self) -> None:
        self.assertEqual(
            [('n8', 'w-1')],
            divided(
                'tag n8 Ta=b',
                'download later.opl',
                'resolve n8 mine',
                'way T Nn1,n8',
                later_opl='n8 v3 dD\n',
            ),
        )

    def test_a_conflict_with_a_deletion_and_its_new_user(self) -> None:
        self.assertEqual(
            [('n8', 'w-1')], divided('way T Nn1,n8', 'download later.opl', later_opl='n8 v3 dD\n')
        )

    def test_keys_with_their_groups(self) -> None:
        found = [('n1', 'w2'), ('n3',), ('n4', 'w5')]
        self.assertEqual({'n1', 'w2', 'n3'}, groups.with_groups(found, ['w2', 'n3', 'n9']))


class Pack(unittest.TestCase):
    def test_neighbours_come_side_by_side(self) -> None:
        found = opened(
            ['download town.opl']
            + [f'node x{x} y{y} Ta=b' for x in (13, 14) for y in (52, 53, 52.0001, 53.0001)]
            + ['tag r9 Ta=b'],
            town_opl=TOWN,
        )
        order = groups.by_place(found, groups.divide(found))
        places = [groups.place_of(found, group[0]) for group in order]
        for lon in (13.0, 14.0):
            for lat in (52, 53):
                at = [
                    number
                    for number, place in enumerate(places)
                    if place is not None and place[0] == lon and int(place[1]) == lat
                ]
                self.assertEqual(1, at[1] - at[0], places)

    def test_as_many_as_fit(self) -> None:
        found: List[Tuple[str, ...]] = [('n1', 'n2'), ('n3',), ('n4', 'n5', 'n6', 'n7'), ('n8',)]
        self.assertEqual(
            [[('n1', 'n2'), ('n3',)], [('n4', 'n5', 'n6', 'n7')], [('n8',)]],
            list(groups.packed(found, 3)),
        )


def sides(text: str) -> Dict[str, tuple]:
    """What a saved session has of each object, but for the objects themselves that aren't there."""
    return {
        key: (known.base, known.mine, known.theirs, known.conflict)
        for key, known in table.read(text).things.items()
    }


class RandomSession:
    """A town, and a script of random edits over it; with news of the server in the middle where
    `news` is set.
    """

    def __init__(self, seed: int, news: bool):
        self.pick = random.Random(seed)
        grid = [[1 + 6 * y + x for x in range(6)] for y in range(4)]
        lines = [f'n{1 + 6 * y + x} v1 x13.00{x} y52.00{y}' for y in range(4) for x in range(6)]
        self.ways: Dict[int, List[int]] = {}
        for row in grid:
            self.ways[100 + len(self.ways)] = row[:4]
            self.ways[100 + len(self.ways)] = row[3:]
        for x in range(6):
            self.ways[100 + len(self.ways)] = [row[x] for row in grid]
        self.nodes = [node for row in grid for node in row]
        lines += [
            f'w{way} v2 Thighway=path N' + ','.join(f'n{node}' for node in nodes)
            for way, nodes in self.ways.items()
        ]
        lines += [
            f'r{number} v1 Ttype=route M'
            + ','.join(f'w{way}@forward' for way in self.pick.sample(sorted(self.ways), 3))
            for number in (200, 201)
        ]
        lines.append('r202 v1 Ttype=site Mr200@,n999@,n7@')
        self.town = '\n'.join(lines) + '\n'
        self.news = '\n'.join(self._news()) + '\n' if news else ''
        self.lines = [line for _ in range(self.pick.randint(3, 20)) for line in self._edit()]
        if news:
            self.lines += ['download news.opl'] + [line for _ in range(3) for line in self._edit()]

    def _news(self) -> List[str]:
        found = {}
        for node in self.pick.sample(self.nodes, 3):
            found[f'n{node}'] = f'n{node} v2 x13.5 y52.5 Tname=theirs'
        for node in self.pick.sample(self.nodes, 2):
            found[f'n{node}'] = f'n{node} v2 dD'
        for way in self.pick.sample(sorted(self.ways), 3):
            found[f'w{way}'] = f'w{way} v3 Thighway=track N' + ','.join(
                f'n{node}' for node in self.ways[way][1:]
            )
        found['r201'] = 'r201 v2 dD'
        return list(found.values())

    def _edit(self) -> List[str]:
        pick, node, way = (
            self.pick,
            self.pick.choice(self.nodes),
            self.pick.choice(sorted(self.ways)),
        )
        refs, place = (
            self.ways[way],
            f'x{13 + self.pick.random() / 10:.7f} y{52 + self.pick.random() / 10:.7f}',
        )
        return pick.choice(
            [
                [f'tag n{node} Tname=a{pick.random()}'],
                [f'tag w{way} Tname=b,highway='],
                [f'place n{node} {place}'],
                [f'move w{way} 0.0001 0'],
                [f'erase w{way}'],
                [f'erase n{node}'],
                [f'delete n{node}'],
                [f'delete w{way}'],
                ['delete r202'],
                [f'split w{way} n{refs[1]}'],
                [f'combine w{way},w{way + 1}'],
                [f'reverse w{way}'],
                [f'node {place} T'],
                [f'node {place} Tshop=x'],
                [f'way Thighway=path Nn-1,n{node}'],
                [f'way T Nn-{pick.randint(1, 5)},n{node}'],
                [f'relation Ttype=site Mw{way}@,n{node}@,r200@'],
                [f'relation Ttype=site Mw-{pick.randint(1, 9)}@'],
                [f'nodes w{way} Nn{refs[0]},n{node},n-1'],
                [f'members r201 Mw{way}@,n{node}@x,n998@'],
                [f'fuse n{refs[0]},n{node}'],
                [f'resolve n{node} mine'],
                [f'resolve w{way} mine'],
                ['resolve r201 mine'],
            ]
        )

    def run(self) -> str:
        """The saved session: refused steps did nothing."""
        return ran(
            ['download town.opl', *self.lines, 'save'], town_opl=self.town, news_opl=self.news
        ).saved()

    def some(self, found: table.Table) -> Set[str]:
        """The keys of some of the session's groups."""
        divided = groups.divide(found)
        return {
            key
            for group in self.pick.sample(divided, self.pick.randint(0, len(divided)))
            for key in group
        }


def accepted(test: unittest.TestCase, answer: Answer) -> str:
    test.assertEqual([], [(reply.step, reply.rest) for reply in answer.refused()])
    return answer.saved()


class Random(unittest.TestCase):
    """Over random sessions. They are run with the program of the tests, which reads each text that
    comes of it.
    """

    count = 60

    def test_taken_back_by_a_script(self) -> None:
        met = 0
        for seed in range(self.count):
            one = RandomSession(seed, news=False)
            text = one.run()
            found = table.read(text)
            back = one.some(found)
            lines, bases = groups.script(found, back, 'bases.opl')
            answer = ran(
                ['resume s.saved', *lines, 'save', 'upload 10000', 'rehearse'],
                s_saved=text,
                bases_opl='\n'.join(bases) + '\n',
            )
            with self.subTest(seed):
                after = table.read(accepted(self, answer))
                for key, known in found.things.items():
                    self.is_as(found.base(key) if key in back else known.mine, after.mine(key), key)
                met += bool(back)
        self.assertGreater(met, self.count // 2)

    def test_taken_back_with_conflicts_by_a_script(self) -> None:
        met = 0
        for seed in range(self.count):
            one = RandomSession(seed, news=True)
            text = one.run()
            found = table.read(text)
            back = one.some(found)
            for first in ('purge', 'resolve'):
                lines, bases = groups.script(found, back, 'bases.opl', first)
                answer = goes_on(text, lines[1:-1], bases_opl='\n'.join(bases) + '\n')
                if not answer.refused():
                    break
            else:
                continue  # the server deleted what is still used here: refused cleanly
            with self.subTest(seed):
                after = table.read(answer.saved())
                for key, known in found.things.items():
                    if key not in back:
                        self.is_as(known.mine, after.mine(key), key)
                met += bool(back)
        self.assertGreater(met, self.count // 6)

    def test_taken_back_and_taken_up(self) -> None:
        met = {'conflict': 0, 'sent': 0, 'held': 0}
        for seed in range(self.count):
            for news in (False, True):
                one = RandomSession(seed, news)
                text = one.run()
                with self.subTest(seed, news=news):
                    self.round_trip(one, text, met)
        self.assertGreater(min(met.values()), self.count // 6, met)

    def round_trip(self, one: RandomSession, text: str, met: Dict[str, int]) -> None:
        found = table.read(text)
        held = one.some(found) | {
            key for key, known in groups.edits(found).items() if known.conflict != 'none'
        }
        held = groups.with_groups(groups.divide(found), held)
        part = groups.taken_back(text, held)
        answer = ran(['resume s.saved', 'save', 'upload 10000'], s_saved=part)
        self.assertEqual(part, accepted(self, answer))
        left = groups.edits(table.read(part))
        self.assertEqual(set(groups.edits(found)) - held, set(left))
        self.assertEqual(
            {key: sides(text)[key] for key in left}, {key: sides(part)[key] for key in left}
        )
        self.assertEqual(part and sides(groups.taken_up(text, part, held)), sides(text))
        self.assertEqual(text, groups.taken_up(text, part, held))
        some = one.some(found) & held
        partly = groups.taken_up(text, part, some)
        self.assertEqual(set(left) | some, set(groups.edits(table.read(partly))))
        self.assertEqual(partly, accepted(self, ran(['resume s.saved', 'save'], s_saved=partly)))
        chunk = answer.first_chunk()
        taken = chunk[: one.pick.randint(0, len(chunk))]
        answers = [
            f'{verb} {thing.key} {thing.key[0]}{5000 + at} v1'
            if verb == 'create'
            else f'{verb} {thing.key} v{thing.version + 1}'
            for at, (verb, thing) in enumerate(taken)
        ]
        after = accepted(
            self,
            ran(
                ['resume s.saved', 'confirm a.answers', 'save'],
                s_saved=part,
                a_answers=''.join(line + '\n' for line in answers),
            ),
        )
        whole = groups.taken_up(text, after, held)
        self.assertEqual(whole, accepted(self, ran(['resume s.saved', 'save'], s_saved=whole)))
        now = sides(whole)
        for key in held:
            self.assertEqual(sides(text)[key], now[key], key)
        for key, known in sides(after).items():
            if key not in held:
                self.assertEqual(known, now[key], key)
        met['held'] += bool(held)
        met['sent'] += bool(taken)
        met['conflict'] += any(known.conflict != 'none' for known in found.things.values())

    def is_as(self, wanted: Optional[opl.Object], there: Optional[opl.Object], key: str) -> None:
        self.assertEqual(wanted and wanted.content, there and there.content, key)


class TakenUp(unittest.TestCase):
    def test_what_is_only_referred_to_by_a_held_edit(self) -> None:
        text = session(
            ['download town.opl', 'members r9 Mw5@', 'purge n77', 'tag n8 Ta=b'], town_opl=TOWN
        )
        part = groups.taken_back(text, ['r9'])
        self.assertIn('incomplete n77\n', part)
        self.assertEqual(part, ran(['resume s.saved', 'save'], s_saved=part).saved())

    def test_what_the_server_deleted_and_an_object_still_uses(self) -> None:
        text = session(
            ['download town.opl', 'download later.opl', 'resolve n4 mine', 'tag n8 Ta=b'],
            town_opl=TOWN,
            later_opl='n4 v2 dD\n',
        )
        part = groups.taken_back(text, ['n4'])
        self.assertIn('incomplete n4\n', part)
        self.assertEqual(part, ran(['resume s.saved', 'save'], s_saved=part).saved())
        self.assertEqual(text, groups.taken_up(text, part, ['n4']))

    def test_what_comes_back_from_a_deletion_stays_back_while_others_are_taken_up(self) -> None:
        text = session(
            ['download town.opl', 'download later.opl', 'resolve n4 mine', 'tag n8 Ta=b'],
            town_opl=TOWN,
            later_opl='n4 v2 dD\n',
        )
        part = groups.taken_up(text, groups.taken_back(text, ['n4', 'n8']), ['n8'])
        self.assertEqual(['n8'], list(groups.edits(table.read(part))))
        self.assertEqual(part, ran(['resume s.saved', 'save'], s_saved=part).saved())
        self.assertEqual(text, groups.taken_up(text, part, ['n4']))


if __name__ == '__main__':
    unittest.main()
