"""The table of checks, how they are run and counted, and the gate's file."""
import io
import pathlib
import re
import sys
import tempfile
import time
import unittest
from unittest import mock

from tools.check import __main__ as command
from tools.check import calls, needs, runner, steps
from tools.check.steps import BUILD, FULL, PROGRAM, QUICK, Step

TOP = needs.TOP


def python(code: str) -> tuple[str, ...]:
    return (sys.executable, '-c', code)


class Runs(unittest.TestCase):
    def run_all(self, *every: Step, at_once: int = 4) -> tuple[runner.Counts, str]:
        out = io.StringIO()
        return runner.Runner(every, at_once, out).run(), out.getvalue()

    def test_counts(self) -> None:
        counts, said = self.run_all(
            Step('good', python('print(1)')),
            Step('bad', python('print("why"); raise SystemExit(3)')),
            Step('missing', python(''), ('command no-such-command',)),
        )
        self.assertEqual('1 passed, 1 failed, 1 skipped', counts.line())
        self.assertIn('ok      good', said)
        self.assertRegex(said, r'FAILED  bad \(status 3, .*\n    why\n')
        self.assertIn('skipped missing: there is no command no-such-command\n', said)

    def test_the_program_is_handed_on(self) -> None:
        made = Step(BUILD, python('print("said"); print("/the/program")'))
        counts, said = self.run_all(
            Step(
                'uses',
                (*python('import sys; sys.exit(sys.argv[1] != "/the/program")'), PROGRAM),
                ('program',),
            ),
            made,
        )
        self.assertEqual('2 passed, 0 failed, 0 skipped', counts.line(), said)
        self.assertLess(said.index(BUILD), said.index('uses'))

    def test_without_the_program(self) -> None:
        uses = Step('uses', (*python(''), PROGRAM), ('program',))
        for made in (
            Step(BUILD, python('raise SystemExit(1)')),
            Step(BUILD, python(''), ('command no-such-command',)),
        ):
            said = self.run_all(made, uses)[1]
            self.assertIn('skipped uses: it needs the program', said)

    def test_side_by_side_and_no_more_than_asked(self) -> None:
        every = [Step(str(at), python('import time; time.sleep(0.4)')) for at in range(4)]
        begun = time.monotonic()
        self.run_all(*every, at_once=4)
        quick = time.monotonic() - begun
        begun = time.monotonic()
        self.run_all(*every, at_once=1)
        self.assertGreater(time.monotonic() - begun, max(1.6, quick))

    def test_what_takes_too_long_is_stopped_with_all_that_it_started(self) -> None:
        with tempfile.TemporaryDirectory() as holder:
            mark = pathlib.Path(holder, 'mark')
            code = f'import subprocess, sys; subprocess.run([sys.executable, "-c", "import time; time.sleep(3); open({str(mark)!r}, \'w\')"])'
            counts, said = self.run_all(Step('long', python(code), limit=0.5))
            self.assertEqual('0 passed, 1 failed, 0 skipped', counts.line())
            self.assertIn('FAILED  long (stopped after', said)
            time.sleep(3.5)
            self.assertFalse(mark.exists())

    def test_a_variable_that_is_taken_away(self) -> None:
        step = Step(
            'env',
            python('import os, sys; sys.exit("YOKE_EDITOR" in os.environ)'),
            environment={'YOKE_EDITOR': ''},
        )
        with mock.patch.dict('os.environ', {'YOKE_EDITOR': 'x'}):
            self.assertEqual('1 passed, 0 failed, 0 skipped', self.run_all(step)[0].line())


class Command(unittest.TestCase):
    def status(self, *every: Step, quick: bool = False) -> tuple[int, list[str]]:
        with mock.patch('sys.stdout', io.StringIO()) as out:
            left = [Step('left out', (), when=FULL)] if quick else []
            status = command.run(list(every), left, False, quick, 2)
        return status, out.getvalue().splitlines()

    def test_the_last_line_and_the_status(self) -> None:
        good, bad = Step('good', python('')), Step('bad', python('raise SystemExit(1)'))
        self.assertEqual(
            (0, '1 passed, 0 failed, 0 skipped'), (lambda it: (it[0], it[1][-1]))(self.status(good))
        )
        self.assertEqual(
            (1, '1 passed, 1 failed, 0 skipped'),
            (lambda it: (it[0], it[1][-1]))(self.status(good, bad)),
        )

    def test_quick_says_what_it_left_out(self) -> None:
        lines = self.status(Step('good', python('')), quick=True)[1]
        self.assertIn('not done by --quick: rt ci; left out', lines)

    def test_the_proof_counts(self) -> None:
        for code, wanted in ((0, (1, 0, 0)), (1, (0, 1, 0))):
            with mock.patch.object(needs, 'lacks', return_value=''), mock.patch(
                'subprocess.run'
            ) as run, mock.patch('builtins.print'):
                run.return_value.returncode = code
                counts = command.prove()
            self.assertEqual((['rt', 'ci'],), run.call_args.args)
            self.assertEqual(wanted, (counts.passed, counts.failed, counts.skipped))
        with mock.patch.object(needs, 'lacks', return_value='there is no command rt'), mock.patch(
            'builtins.print'
        ):
            self.assertEqual(1, command.prove().skipped)


class Table(unittest.TestCase):
    def test_names_are_distinct_and_needs_are_known(self) -> None:
        every = steps.all_steps()
        self.assertEqual(len(every), len({it.name for it in every}))
        for it in every:
            self.assertIn(it.when, (QUICK, FULL))
            for need in it.needs:
                needs.lacks(need)
            for word in it.command:
                if word.startswith('bench/'):
                    self.assertTrue((TOP / word).is_file(), word)
            self.assertEqual(PROGRAM in it.command, it.wants_program and PROGRAM in it.command)

    def test_unknown_need(self) -> None:
        with self.assertRaises(ValueError):
            needs.lacks('luck')

    def test_every_python_test_is_found(self) -> None:
        found = steps.test_files()
        self.assertIn('tools/check/tests/test_check.py', found)
        self.assertIn('launcher/tests/test_store.py', found)
        self.assertTrue([it for it in found if it.startswith('yoke/tests/')])
        self.assertFalse([it for it in found if '/out/' in it])

    def test_by_pytest_or_by_unittest(self) -> None:
        path = 'launcher/tests/test_store.py'
        with mock.patch.object(needs, 'lacks', lambda need: ''):
            self.assertIn('pytest', steps.test_step(path).command)
        with mock.patch.object(
            needs, 'lacks', lambda need: 'not there' if need == 'module pytest' else ''
        ):
            step = steps.test_step(path)
            self.assertEqual(('-m', 'unittest', path), step.command[1:])
            self.assertEqual((), step.needs)
            for other, wanted in (
                ('test_ledger_batches', True),
                ('test_table_reader', True),
                ('test_get', True),
                ('test_tiles', False),
            ):
                step = steps.test_step(f'yoke/tests/{other}.py')
                self.assertEqual(wanted, 'module hypothesis' in step.needs, other)

    def test_the_gates_file(self) -> None:
        text = (TOP / '.ci' / 'run').read_text()
        self.assertRegex(text.splitlines()[1], r'(^|exec |&& )rt ci( *$| *&&| *\|\|)')
        self.assertTrue(text.splitlines()[-1].endswith('check" --quick'))


class Calls(unittest.TestCase):
    def test_each_status_is_met_but_for_what_no_call_can_have(self) -> None:
        text = (
            (TOP / 'docs' / 'REFUSALS.md').read_text(encoding='utf-8').partition('## Statuses')[2]
        )
        told = {
            int(number): words.partition(' N')[0]
            for number, words in re.findall(r'^\| (\d) \|(?: `editor: ([^`]*)`)? \|', text, re.M)
        }
        self.assertEqual(set(told) - {6}, set(calls.ERRORS))
        for number, words in calls.ERRORS.items():
            self.assertTrue(words.startswith(told[number].strip()), (number, words, told[number]))
        met = {status for _, status in calls.CALLS} | {8, 9}
        self.assertEqual(set(calls.ERRORS), met)

    def test_a_program_that_answers_otherwise_is_found(self) -> None:
        with tempfile.TemporaryDirectory() as holder:
            folder, program = pathlib.Path(holder, 'room'), pathlib.Path(holder, 'program')
            folder.mkdir()
            calls.room(folder)
            program.write_text('#!/bin/sh\necho "editor: bad words" >&2\nexit 2\n')
            program.chmod(0o755)
            found = calls.faults(str(program), '', folder)
        self.assertEqual(sum(status != 2 for _, status in calls.CALLS) + 3, len(found))


if __name__ == '__main__':
    unittest.main()
