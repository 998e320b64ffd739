"""Numbers and tables in pages that a program can know are what it says."""
import subprocess

from bench.check import counted
from bench.check.page_checks.case import case, finds_fault
from bench.check.page_checks.page import PAGES, TOP, Wrong, text_of


def told_right(text):
    """No number of a text is another one than programs count."""
    for difference in counted.differences(text, counted.numbers()):
        raise Wrong(difference)


@case('the numbers of pages are those that programs count')
def numbers(_):
    for page in PAGES:
        try:
            told_right(text_of(page))
        except Wrong as wrong:
            raise Wrong(f'{page}: {wrong}')


@case('a number that was right once, or that nothing counts, is seen')
def old_numbers(_):
    counts = counted.numbers()
    for text in (
        'tries the {} wrong bodies'.format(counts['edits'] + 1),
        'The thirty-two faults that a line can have',
        'some 77 crates',
        '`7 passed, 0 failed`',
        '{} runs of 12 whole sessions'.format(counts['runs']),
    ):
        finds_fault(lambda: told_right(text))
    told_right(
        '{} wrong bodies, `{} passed, 0 failed`, two refusals'.format(
            counts['edits'], counts['passes']
        )
    )


@case('the page on installing has the last line of the gate')
def last_line(_):
    if '`{passes} passed, 0 failed`'.format(**counted.numbers()) not in text_of('docs/INSTALL.md'):
        raise Wrong(
            'docs/INSTALL.md has no `{passes} passed, 0 failed`'.format(**counted.numbers())
        )


def agrees(program, *words):
    """A program of bench/check finds the pages, or the files of which they tell, as they should be."""
    done = subprocess.run(
        [TOP / 'bench' / 'check' / program, *words],
        stdout=subprocess.PIPE,
        stderr=subprocess.STDOUT,
        text=True,
    )
    if done.returncode != 0:
        raise Wrong(done.stdout[-4000:])


@case(
    'the numbers of definitions are those of `bench/check/believe`, and pages on proofs name only what there is'
)
def definitions(_):
    agrees('believe', '--page')


@case(
    'each wrong body of the gate has a promise and each promise one, and pages have readers try only what there is'
)
def promises(_):
    agrees('promises', '--page')


@case('each crate has its line in crates.txt, in its layer, with the libraries that it names')
def layers(_):
    agrees('layers')


@case(
    'each crate has its row, as `bench/check/crates` makes it, and a promise with names that there are'
)
def entries(_):
    agrees('crates', '--page')


@case(
    'the number of calls that are assumed of the system is that of `bench/check/axioms`, and the crates name no other'
)
def assumed(_):
    agrees('axioms', '--page')


@case('each picture of docs/pictures is as `bench/pictures` makes it, and can be read')
def pictures(_):
    done = subprocess.run(
        [TOP / 'bench' / 'pictures'], stdout=subprocess.PIPE, stderr=subprocess.STDOUT, text=True
    )
    if done.returncode != 0:
        raise Wrong(done.stdout[-4000:])
