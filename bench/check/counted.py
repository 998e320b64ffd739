"""What programs count of this repository, and the sentences of pages that tell such a number.

A number stands in a page in digits or as a word, as `160` or `fifteen`. `SENTENCES` has the
patterns by which it is known of what it is: `differences` tells the numbers of a text that aren't
so, and those of which nobody can say what they count; `corrected` gives the text with the right
ones.
"""
import pathlib
import re

from bench.check import crate_map

TOP = pathlib.Path(__file__).resolve().parents[2]
CRATES = TOP / 'crates'
BUNDLES = CRATES / 'session_cases' / 'data'
GIVEN = re.compile(r'^number_of \(?(\w+)[^=]*= (\d+)$', re.M)

# more wrong bodies than these are too many for the gate: of two that tell the same one goes to
# bench/wrong
MOST_EDITS = 110


# ---- what definitions number ----


def statuses():
    """The words of each status, by its number."""
    text = (CRATES / 'edit_session' / 'src' / 'status.rt').read_text()
    numbers = dict(re.findall(r'Status::(\w+)[^=\n]*=> (\d+),', text))
    words = dict(re.findall(r'Status::(\w+)[^=\n]*=> write!\(f, "([^"{]*?) ?(?:\{.*)?"', text))
    return {int(number): words[name] for name, number in numbers.items()}


def refusals():
    """The name of each refusal, by its number."""
    text = (CRATES / 'edit_script' / 'specs' / 'Reply.antt').read_text()
    return {
        int(number): name
        for name, number in re.findall(
            r'^(?:job_)?refused \(?(\w+)[^=]*= codes "(\d+)"', text, re.M
        )
    }


def line_faults():
    """The name of each fault of a line of a file, by its number."""
    return {
        int(number): name
        for name, number in GIVEN.findall(
            (CRATES / 'opl_line' / 'specs' / 'Fault.antt').read_text()
        )
    }


def file_faults():
    """The name of each fault of a whole file, by the word that a refusal 20 carries."""
    text = (CRATES / 'edit_script' / 'specs' / 'Reply.antt').read_text()
    found = re.findall(r'^fault_text \(?(\w+)[^=]*= codes " (\w+) ?"', text, re.M)
    return {word: name for name, word in found if word != 'line'}


def verbs():
    """The words with which a line of a script begins: those of the table of forms."""
    table = (
        (CRATES / 'edit_script' / 'src' / 'forms.rt')
        .read_text()
        .partition('const FORMS')[2]
        .partition('];')[0]
    )
    return sorted(re.findall(r'\(b"([a-z]+)", Form::', table))


# ---- numbers ----


def numbers():
    """What there is of each thing, by the name that `SENTENCES` uses."""
    crates, _ = crate_map.read()
    edits = len(list(CRATES.glob('*/must-fail/*.edit')))
    bundles = ''.join(path.read_text() for path in sorted(BUNDLES.glob('*.txt')))
    return {
        'edits': edits,
        'others': len(list((TOP / 'bench' / 'wrong').glob('*/*.edit'))),
        'most edits': MOST_EDITS,
        'passes': edits + len(crates),
        'crates': len(crates),
        'chain': len(crate_map.longest_chain(crates)),
        'sessions': len(re.findall('^= case ', bundles, re.M)),
        'runs': len(re.findall('^= (?:expect|shelf|sink) ', bundles, re.M)),
        'runs that fail': len(re.findall('^= (?:shelf|sink) ', bundles, re.M)),
        'cut files': len(re.findall('^= case ', (BUNDLES / 'cut_files.txt').read_text(), re.M)),
        'statuses': len(statuses()),
        'refusals': len(refusals()),
        'faults': len(line_faults()),
        'verbs': len(verbs()),
    }


# ---- sentences ----

N = r'\b([0-9]+(?:,[0-9]{3})*|[a-z]+(?:-[a-z]+)?)'
SENTENCES = [
    (re.compile(pattern.replace('N', N)), names.split(', '))
    for pattern, names in [
        ('N wrong bodies', 'edits'),
        ('`N passed, 0 failed`', 'passes'),
        ('N others of `bench/wrong`', 'others'),
        ('N more are tried at a release', 'others'),
        ('gate has room for N', 'most edits'),
        ('longest chain(?: is|,) N', 'chain'),
        ('N crates(?= in layers|, the lowest| of this repository| and [0-9]+ wrong)', 'crates'),
        ('N runs of N whole sessions', 'runs, sessions'),
        (r'\(N runs\)', 'runs that fail'),
        (r'\(N cases\)', 'cut files'),
        ('N statuses', 'statuses'),
        ('N refusals', 'refusals'),
        ('N (?:lines|commands|verbs) of a script', 'verbs'),
        ('N faults(?= of a line| that a line)', 'faults'),
        ('^#+ The N faults$', 'faults'),
    ]
]
# what is called so in a sentence, and a number before it has to be one of those above
COUNTED = re.compile(N + r' (?:more )?(?:wrong bodies|crates|statuses|refusals|whole sessions)\b')
# numbers of these things that no program counts: what a single call goes through, and what pages
# reckon
UNCOUNTED = re.compile(r'goes through {0}(?: of the)? crates|stands {0} crates down'.format(N))
# smaller ones are told of some of them, as in "two refusals that .."
LEAST = 5

WORDS = (
    'no one two three four five six seven eight nine ten eleven twelve thirteen fourteen fifteen sixteen seventeen eighteen nineteen'
).split()
TENS = ('', '', 'twenty', 'thirty', 'forty', 'fifty', 'sixty', 'seventy', 'eighty', 'ninety')


def word_of(number):
    """A number below a hundred as a word."""
    if number < 20:
        return WORDS[number]
    return TENS[number // 10] + ('-' + WORDS[number % 10] if number % 10 else '')


BY_WORD = {word_of(number): number for number in range(100)}


def value_of(written):
    """The number that is written so, or None."""
    digits = written.replace(',', '')
    return int(digits) if digits.isdigit() else BY_WORD.get(written.lower())


def written_as(number, before):
    """A number as the one before was written: as a word, or in digits."""
    if before[0].isdigit() or number >= 100:
        return f'{number:,}'
    return word_of(number).capitalize() if before[0].isupper() else word_of(number)


def places(text):
    """The numbers of a text whose sentence is known: where each begins and ends, and its name."""
    for pattern, names in SENTENCES:
        for hit in re.finditer(pattern.pattern, text, re.M | re.I):
            for group, name in enumerate(names, 1):
                if (value_of(hit[group]) or 0) >= LEAST:
                    yield hit.start(group), hit.end(group), name


def corrected(text, counts):
    """A text with its numbers as they are."""
    for begin, end, name in sorted(set(places(text)), reverse=True):
        if value_of(text[begin:end]) != counts[name]:
            text = text[:begin] + written_as(counts[name], text[begin:end]) + text[end:]
    return text


def differences(text, counts):
    """What of a text isn't so, or can't be known, a sentence each."""
    known = set()
    for begin, end, name in places(text):
        known.add(begin)
        if value_of(text[begin:end]) != counts[name]:
            yield '{} {}, and it says {}'.format(
                counts[name], name, ' '.join(text[max(0, begin - 30) : end + 30].split())
            )
    passed = {
        hit.start(group) for hit in UNCOUNTED.finditer(text) for group in (1, 2) if hit[group]
    }
    for hit in COUNTED.finditer(text):
        if hit.start(1) not in known | passed and (value_of(hit[1]) or 0) >= LEAST:
            yield 'no program counts this: {}'.format(
                ' '.join(text[max(0, hit.start() - 30) : hit.end() + 30].split())
            )
