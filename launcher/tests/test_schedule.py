"""Which proof is next, how many jobs it gets, and what time is reckoned."""
import os
import unittest

from launcher import build
from launcher.crates import Crate, all_below
from launcher.schedule import CLOSE, FAVOURED, MOST_JOBS, RATES, Running, Schedule, Start

TOP = os.path.dirname(os.path.dirname(os.path.dirname(os.path.abspath(__file__))))
# Seconds of one job that the proofs took on processors of 2.5 GHz with other proofs beside them.
# Those of editor_laws, job_laws, edit_session and editor are reckoned. A crate that isn't here has
# the seconds that the schedule reckons.
KNOWN = {
    'osm_base': 207,
    'osm_outside': 60,
    'command_line': 51,
    'ref_index': 80,
    'renamed_content': 45,
    'opl_text': 93,
    'closure': 40,
    'osm_table': 230,
    'merge_cases': 75,
    'dataset': 290,
    'opl_line': 265,
    'sample_city': 153,
    'tool_api': 210,
    'map_search': 230,
    'opl_file': 150,
    'upload_order': 236,
    'relation_upkeep': 130,
    'merge_tool': 270,
    'placeholder': 186,
    'server_world': 205,
    'edit_history': 155,
    'way_split': 140,
    'download': 176,
    'edit_script': 330,
    'saved_session': 370,
    'map_checks': 310,
    'many_editors': 405,
    'conflict': 255,
    'chunking': 85,
    'import_tool': 145,
    'answer_file': 105,
    'tools_basic': 167,
    'way_combine': 230,
    'tools_delete': 329,
    'edit_steps': 520,
    'edit_session': 380,
    'editor': 75,
    'editor_laws': 220,
    'job_laws': 90,
}

PLENTY = 1e12


def crates(**lines_and_below):
    """Crates by name: their lines and what they stand on. Each stands after those below it."""
    return {
        name: Crate(name, '', tuple(below), tuple(below), False, lines)
        for name, (lines, *below) in lines_and_below.items()
    }


def tower(height, lines=1000):
    """Crates that stand on one another, and as many beside them that nothing stands on but the
    lowest.
    """
    found = {'t0': (lines,)}
    found.update({f't{i}': (lines, f't{i - 1}') for i in range(1, height)})
    found.update({f's{i}': (lines // 2, 't0') for i in range(height)})
    return crates(**found)


def played(schedule):
    """The proofs in the order in which they begin, by playing the schedule through; each with what
    was proved then.
    """
    waiting, proved, running, found = list(schedule.crates), set(), [], []
    while waiting or running:
        start = schedule.next(waiting, proved, running)
        if start:
            waiting.remove(start.name)
            running.append(Running(start, schedule.seconds[start.name]))
            found.append((start, set(proved), len(running)))
            continue
        ended = min(running, key=lambda it: it.left)
        running.remove(ended)
        proved.add(ended.start.name)
    return found


def timed(schedule, seconds):
    """When each proof begins and ends, by playing the schedule through where a proof takes other
    seconds than are reckoned.
    """
    waiting, proved, running, clock = list(schedule.crates), set(), [], 0.0
    begun, ended = {}, {}
    while waiting or running:
        start = schedule.next(
            waiting,
            proved,
            [
                Running(it.start, left_of(schedule, it.start, clock - begun[it.start.name]))
                for it in running
            ],
        )
        if start:
            waiting.remove(start.name)
            running.append(Running(start, seconds.get(start.name, schedule.seconds[start.name])))
            begun[start.name] = clock
            continue
        rates = schedule.rates(running)
        step = min(it.left / rate for it, rate in zip(running, rates))
        clock += step
        for it, rate in zip(running, rates):
            it.left -= step * rate
        for it in [it for it in running if it.left < 1e-6]:
            running.remove(it)
            proved.add(it.start.name)
            ended[it.start.name] = clock
    return begun, ended


def left_of(schedule, start, seconds):
    """What the launcher takes to be left of a proof that has run so long, as
    `Build.left_of_running` reckons it.
    """
    done = RATES[start.jobs] * seconds
    return max(10.0, build.MORE * done, schedule.seconds[start.name] - done)


class Known(unittest.TestCase):
    """This repository's crates, with the seconds that their proofs took."""

    def times(self, processors, memory=build.MOST_MEMORY):
        """Minutes at which each proof begins and ends."""
        found = timed(Schedule(build.needed(TOP), processors, memory), KNOWN)
        return [{name: at / 60 for name, at in it.items()} for it in found]

    def test_what_the_top_stands_on_ends_in_time_on_four_processors(self):
        begun, ended = self.times(4)
        last = max(
            ended[it] for it in build.needed(TOP)['edit_session'].below if it != 'edit_steps'
        )
        self.assertLess(last, ended['edit_steps'] + 0.5)
        self.assertLess(begun['edit_session'], ended['edit_steps'] + 0.5)
        self.assertLess(ended['editor'], 39.0)

    def test_it_ends_in_time_on_other_machines(self):
        for processors, minutes in ((2, 68.0), (3, 49.5), (8, 33.0)):
            self.assertLess(self.times(processors)[1]['editor'], minutes)
        self.assertLess(self.times(2, 0.85 * 6.5e9)[1]['editor'], 68.0)


class Order(unittest.TestCase):
    def test_each_crate_once_and_after_those_below_it(self):
        for processors in (1, 2, 3, 4, 8):
            given = tower(6)
            order = played(Schedule(given, processors, PLENTY))
            self.assertEqual(sorted(given), sorted(start.name for start, _, _ in order))
            for start, proved, _ in order:
                self.assertLessEqual(set(given[start.name].below), proved)

    def test_the_longest_chain_begins(self):
        schedule = Schedule(crates(short=(100,), long=(100,), top=(5000, 'long')), 1, PLENTY)
        self.assertEqual('long', schedule.next(['short', 'long', 'top'], set(), []).name)

    def test_of_like_chains_what_most_wait_for(self):
        schedule = Schedule(crates(a=(100,), b=(100,), c=(10, 'a', 'b'), d=(10, 'b')), 1, PLENTY)
        self.assertEqual('b', schedule.next(['a', 'b', 'c', 'd'], set(), []).name)

    def test_nothing_is_ready(self):
        schedule = Schedule(crates(a=(100,), b=(100, 'a')), 4, PLENTY)
        running = [Running(Start('a', 1, 0, 1e9, 0.0), 10.0)]
        self.assertIsNone(schedule.next(['b'], set(), running))


class Jobs(unittest.TestCase):
    def test_what_is_ready_alone_has_all_jobs_that_help(self):
        schedule = Schedule(tower(6), 4, PLENTY)
        self.assertEqual(MOST_JOBS, schedule.next(list(schedule.crates), set(), []).jobs)

    def test_the_longest_chain_is_favoured_where_the_end_hangs_on_it(self):
        schedule = Schedule(
            crates(low=(100,), a=(100,), b=(100,), c=(100,), d=(100,), top=(9000, 'low')), 4, PLENTY
        )
        waiting, running = list(schedule.crates), []
        for _ in range(3):
            start = schedule.next(waiting, set(), running)
            waiting.remove(start.name)
            running.append(Running(start, schedule.seconds[start.name]))
        self.assertEqual(
            [('low', FAVOURED)] + [(it, 1) for it in 'ab'],
            [(it.start.name, it.start.jobs) for it in running],
        )
        self.assertIsNone(schedule.next(waiting, set(), running))

    def test_jobs_that_run_count_as_processors(self):
        schedule = Schedule(crates(**{f'c{at}': (1000 + at,) for at in range(40)}), 4, PLENTY)
        waiting, running = list(schedule.crates)[2:], [
            Running(Start(it, 2, 0, 1e9, 500.0), 90.0) for it in ('c0', 'c1')
        ]
        self.assertIsNone(schedule.next(waiting, set(), running))

    def test_nobody_is_favoured_where_work_is_plenty(self):
        schedule = Schedule(crates(**{f'c{at}': (1000 + at,) for at in range(40)}), 4, PLENTY)
        self.assertEqual(1, schedule.next(list(schedule.crates), set(), []).jobs)

    def test_one_processor_one_job(self):
        for start, _, beside in played(Schedule(tower(4), 1, PLENTY)):
            self.assertEqual((1, 1), (start.jobs, beside))

    def test_nobody_is_favoured_on_two_processors(self):
        schedule = Schedule(crates(a=(1000,), b=(900,), c=(1000, 'a')), 2, PLENTY)
        first = schedule.next(['a', 'b', 'c'], set(), [])
        self.assertEqual(('a', 1), (first.name, first.jobs))

    def test_what_is_favoured_waits_for_no_processor(self):
        given = crates(a=(100,), b=(100,), c=(100,), d=(100,), long=(100,), top=(9000, 'long'))
        schedule = Schedule(given, 4, PLENTY)
        running = [Running(Start(it, 1, 5, 1e9, 500.0), 10.0) for it in ('a', 'b', 'c', 'd')]
        start = schedule.next(['long', 'top'], set(), running)
        self.assertEqual(('long', FAVOURED, 0), (start.name, start.jobs, start.nice))

    def test_others_wait_for_a_processor(self):
        schedule = Schedule(crates(a=(100,), b=(100,), c=(9000,), d=(9000,), e=(10,)), 4, PLENTY)
        running = [Running(Start(it, 2, 0, 1e9, 0.0), 900.0) for it in ('a', 'b', 'c', 'd')]
        self.assertIsNone(schedule.next(['e'], set(), running))

    def test_what_has_time_to_spare_yields(self):
        schedule = Schedule(crates(long=(9000,), short=(10,)), 4, PLENTY)
        running = [Running(schedule.next(['long', 'short'], set(), []), schedule.seconds['long'])]
        start = schedule.next(['short'], set(), running)
        self.assertGreater(start.nice, 0)
        self.assertGreater(start.spare, CLOSE)


class Memory(unittest.TestCase):
    def test_fewer_jobs_where_memory_is_short(self):
        given = crates(a=(1000,))
        schedule = Schedule(given, 4, 0)
        schedule.memory = schedule.need('a', 2)
        self.assertEqual(2, schedule.next(['a'], set(), []).jobs)

    def test_what_others_have_no_room_to_use_is_given_to_one(self):
        schedule = Schedule(crates(a=(1000,), b=(1000,), c=(1000,)), 3, 0)
        schedule.memory = schedule.need('a', 2) + schedule.need('b')
        first = schedule.next(['a', 'b', 'c'], set(), [])
        self.assertEqual(2, first.jobs)
        second = schedule.next(['b', 'c'], set(), [Running(first, 100.0)])
        self.assertEqual(('b', 1), (second.name, second.jobs))

    def test_a_proof_that_does_not_fit_waits_for_others_and_then_begins(self):
        schedule = Schedule(crates(a=(1000,), b=(1000,)), 4, 0)
        schedule.memory = schedule.need('b') * 1.1
        running = [Running(Start('a', 1, 0, schedule.need('a'), 0.0), 10.0)]
        self.assertIsNone(schedule.next(['b'], set(), running))
        self.assertEqual(1, schedule.next(['b'], set(), []).jobs)

    def test_proofs_side_by_side_stay_within_memory(self):
        schedule = Schedule(tower(8), 8, 9e9)
        waiting, proved, running = list(schedule.crates), {'t0'}, []
        waiting.remove('t0')
        while True:
            start = schedule.next(waiting, proved, running)
            if not start:
                break
            waiting.remove(start.name)
            running.append(Running(start, 100.0))
        self.assertGreater(len(running), 1)
        self.assertLessEqual(sum(it.start.memory for it in running), 9e9)

    def test_larger_crates_need_more(self):
        schedule = Schedule(crates(a=(10,), b=(5000,), c=(10, 'a', 'b')), 4, PLENTY)
        self.assertLess(schedule.need('a'), schedule.need('c'))
        self.assertLess(schedule.need('c'), schedule.need('b'))
        self.assertLess(schedule.need('b'), schedule.need('b', 4))


class Alone(unittest.TestCase):
    def test_it_waits_until_nothing_runs_and_nothing_begins_beside_it(self):
        schedule = Schedule(crates(a=(100,), b=(100,), c=(100,)), 4, PLENTY)
        other = [Running(Start('b', 1, 0, 1e9, 0.0), 10.0)]
        self.assertIsNone(schedule.next(['a', 'c'], set(), other, {'a'}))
        start = schedule.next(['a', 'c'], set(), [], {'a'})
        self.assertEqual(('a', 1), (start.name, start.jobs))
        self.assertIsNone(schedule.next(['c'], set(), [Running(start, 10.0)], {'a'}))


class Time(unittest.TestCase):
    def test_what_stands_on_more_lines_is_reckoned_to_take_longer(self):
        schedule = Schedule(crates(a=(5000,), b=(100,), c=(100, 'a')), 4, PLENTY)
        self.assertLess(schedule.seconds['b'], schedule.seconds['c'])
        self.assertLess(schedule.seconds['c'], schedule.seconds['a'])

    def test_nothing_left(self):
        schedule = Schedule(tower(3), 4, PLENTY)
        self.assertEqual(0.0, schedule.seconds_left([], set(schedule.crates), []))

    def test_one_processor_takes_the_sum(self):
        schedule = Schedule(tower(4), 1, PLENTY)
        self.assertAlmostEqual(
            sum(schedule.seconds.values()),
            schedule.seconds_left(list(schedule.crates), set(), []),
            3,
        )

    def test_more_processors_take_no_longer_and_no_less_than_the_bounds(self):
        schedule = Schedule(tower(7), 1, PLENTY)
        total = sum(schedule.seconds.values())
        before = total
        for processors in (2, 3, 4, 8):
            schedule = Schedule(tower(7), processors, PLENTY)
            left = schedule.seconds_left(list(schedule.crates), set(), [])
            self.assertLessEqual(left, before * 1.02)
            self.assertGreaterEqual(left, total / processors)
            before = left

    def test_what_runs_and_what_is_proved_counts(self):
        schedule = Schedule(tower(3), 4, PLENTY)
        whole = schedule.seconds_left(list(schedule.crates), set(), [])
        rest = [it for it in schedule.crates if it != 't0']
        self.assertLess(schedule.seconds_left(rest, {'t0'}, []), whole)
        running = [Running(schedule.next(list(schedule.crates), set(), []), 1.0)]
        self.assertLess(schedule.seconds_left(rest, set(), running), whole)

    def test_asking_changes_nothing(self):
        schedule = Schedule(tower(3), 4, PLENTY)
        waiting, proved = list(schedule.crates)[1:], set()
        running = [Running(Start('t0', 1, 0, 1e9, 0.0), 50.0)]
        schedule.seconds_left(waiting, proved, running)
        self.assertEqual(
            (list(schedule.crates)[1:], set(), 50.0), (waiting, proved, running[0].left)
        )


class Below(unittest.TestCase):
    def test_all_below(self):
        self.assertEqual(
            {'a': set(), 'b': {'a'}, 'c': {'a', 'b'}},
            all_below(crates(a=(1,), b=(1, 'a'), c=(1, 'b'))),
        )


if __name__ == '__main__':
    unittest.main()
