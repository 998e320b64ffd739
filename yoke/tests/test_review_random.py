"""Random sessions, random decisions: what is rejected is as its base, all else is as it was, and
the upload goes.
"""

from __future__ import annotations

import os
import random

from yoke import opl
from yoke.review.items import Edits
from yoke.review.reviewing import Impossible, Review, tags_of
from yoke.saved import Known
from yoke.tests.support import FolderTest

RUNS = int(os.environ.get('YOKE_REVIEWS', '15'))
SIDE = 5  # nodes in a row of the grid


def town() -> list[str]:
    """A grid of streets with a building in each square, shops, and routes."""
    lines, number = [], SIDE * SIDE
    for at in range(SIDE * SIDE):
        lines.append(f'n{at + 1} v{1 + at % 3} x13.0{at % SIDE}0 y52.0{at // SIDE}0')
    ways = [
        f'w{row + 1} v2 Thighway=residential,name=Row%20%{row} N'
        + ','.join(f'n{row * SIDE + at + 1}' for at in range(SIDE))
        for row in range(SIDE)
    ]
    ways += [
        f'w{SIDE + row + 1} v1 Thighway=footway N'
        + ','.join(f'n{row + at * SIDE + 1}' for at in range(SIDE))
        for row in range(SIDE)
    ]
    for at in range(6):
        corners = [f'n{number + part}' for part in range(1, 5)]
        for part, (x, y) in enumerate(((2, 2), (6, 2), (6, 6), (2, 6))):
            lines.append(f'{corners[part]} v1 x13.0{at % 4}{x} y52.0{at // 4}{y}')
        number += 4
        ways.append(f'w{2 * SIDE + at + 1} v1 Tbuilding=yes N' + ','.join(corners + corners[:1]))
    lines += [
        f'n{number + at} v1 Tshop=kiosk,name=Shop%20%{at} x13.0{at}5 y52.045' for at in range(1, 5)
    ]
    relations = [
        'r1 v1 Ttype=route Mw1@forward,w6@,w2@',
        'r2 v1 Ttype=multipolygon Mw11@outer,w12@inner',
        'r3 v1 Ttype=site Mr1@,n1@entrance',
    ]
    return lines + ways + relations


class Edit:
    """Random lines over the town."""

    def __init__(self, picks: random.Random):
        self.picks, self.nodes, self.ways = picks, SIDE * SIDE + 28, 2 * SIDE + 6

    def node(self) -> str:
        return f'n{self.picks.randint(1, self.nodes)}'

    def way(self) -> str:
        return f'w{self.picks.randint(1, self.ways)}'

    def place(self) -> str:
        return f'x13.0{self.picks.randint(10, 49)} y52.0{self.picks.randint(10, 49)}'

    def lines(self) -> list[str]:
        """Lines of a script, of which some are refused."""
        picks, node, way, place = self.picks, self.node, self.way, self.place
        kinds = [
            lambda: f'tag {node()} Ta={picks.randint(1, 9)},b=c',
            lambda: f'tag {way()} Ta=b,name=,highway=path',
            lambda: f'place {node()} {place()}',
            lambda: f'move {way()} 0.001 0',
            lambda: f'erase {way()}',
            lambda: f'erase {node()}',
            lambda: f'delete r{picks.randint(1, 3)}',
            lambda: f'split {way()} n{picks.randint(2, SIDE * SIDE)}',
            lambda: f'combine w{picks.randint(1, 4)},w{picks.randint(6, 10)}',
            lambda: f'reverse {way()}',
            lambda: f'node {place()} T',
            lambda: f'node {place()} Tshop=x,name=y',
            lambda: f'way Thighway=path Nn-{picks.randint(1, 4)},{node()}',
            lambda: f'relation Ttype=site M{way()}@,{node()}@a,r{picks.randint(1, 3)}@',
            lambda: f'relation Ttype=site Mw-{picks.randint(1, 9)}@',
            lambda: f'nodes {way()} N{node()},{node()},n-1',
            lambda: f'members r{picks.randint(1, 3)} M{way()}@,{node()}@x',
        ]
        return [picks.choice(kinds)() for _ in range(picks.randint(3, 25))]

    def newer(self) -> list[str]:
        """What others did meanwhile."""
        found = {}
        for _ in range(self.picks.randint(1, 8)):
            key = self.picks.choice([self.node, self.way])()
            base = next(line for line in town() if line.startswith(key + ' ')).split(' ')
            if self.picks.random() < 0.3:
                found[key] = f'{key} v9 dD'
            else:
                fields = (
                    [field for field in base[2:] if field[0] != 'T']
                    if key[0] == 'n'
                    else [base[-1]]
                )
                found[key] = f'{key} v9 Ta=theirs,highway=road ' + ' '.join(fields)
        return list(found.values())


def content(thing: opl.Object | None) -> object:
    """What an object has; None where it isn't there."""
    return None if thing is None or thing.deleted else thing.content


class Random(FolderTest):
    def decide(self, one: Review, picks: random.Random) -> None:
        """Decides on all items at random."""
        share = picks.choice([0.1, 0.3, 0.7])
        for key in one.found.items:
            known = one.found.known(key)
            how = 'rejected' if picks.random() < share else 'accepted'
            if known.conflict != 'none':
                how = picks.choice(['mine', 'theirs'])
            elif picks.random() < 0.2 and known.mine:
                before = known.there.tags if known.there else {}
                names = [
                    name
                    for name in sorted({*before, *known.mine.tags})
                    if before.get(name) != known.mine.tags.get(name)
                ]
                some = picks.sample(names, picks.randint(0, len(names)))
                how = 'without K' + ','.join(map(opl.quote, some)) if some else how
            one.decide([(key, how)])

    def wanted(self, one: Review, found: Edits, key: str, known: Known) -> object:
        """What an object has to be after the script."""
        if key in one.because:
            return content(known.base)
        how = one.decisions.how.get(key, '')
        if known.conflict != 'none':
            return (
                content(known.theirs)
                if how == 'theirs'
                else None
                if known.conflict == 'withdrawn'
                else content(known.mine)
            )
        names = tags_of(how)
        if not names or known.mine is None:
            return content(known.mine)
        before = known.there.tags if known.there else {}
        tags = {name: value for name, value in known.mine.tags.items() if name not in names}
        tags.update({name: before[name] for name in names if name in before})
        return (tags, *known.mine.content[1:])

    def one_run(self, seed: int, has_conflicts: bool) -> str:
        """One session, one review; gives `done`, `refused` or `nothing`."""
        picks = random.Random(seed)
        edit = Edit(picks)
        for path in list(self.folder.glob('day/*')) + list(self.folder.glob('review.*')):
            path.unlink()
        self.begin(town=''.join(line + '\n' for line in town()))
        self.write('steps.script', ''.join(line + '\n' for line in edit.lines()))
        self.yoke('do', '--keep', 'steps.script')
        if has_conflicts:
            self.write('newer.opl', ''.join(line + '\n' for line in edit.newer()))
            self.do('download newer.opl')
        one = Review(self.session, 'review.decisions')
        if not one.found.items:
            return 'nothing'
        one.decisions.open()
        self.decide(one, picks)
        before = dict(one.found.table.things)
        try:
            one.finish()
        except Impossible as fault:
            self.assertTrue(
                any(known.conflict != 'none' for known in before.values()), (seed, str(fault))
            )
            return 'refused'
        finally:
            one.decisions.close()
        self.done('do', 'review.script')
        after = self.session.known()
        for key, known in before.items():
            mine = after[key].mine if key in after else None
            self.assertEqual(self.wanted(one, one.found, key, known), content(mine), (seed, key))
        answer = self.session.ask(['count', 'upload 10000', 'rehearse'])
        self.assertEqual(0, answer.counts()['conflicts'], seed)
        again = Review(self.session, 'review.decisions')
        self.assertEqual(set(), again.undecided(), seed)
        return 'done'

    def test_without_conflicts(self) -> None:
        found = [self.one_run(seed, False) for seed in range(RUNS)]
        self.assertGreater(found.count('done'), RUNS * 0.8)

    def test_with_conflicts(self) -> None:
        found = [self.one_run(seed, True) for seed in range(1000, 1000 + RUNS)]
        self.assertGreater(found.count('done'), RUNS * 0.3, found)
