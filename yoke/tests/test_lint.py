"""The grammar of scripts agrees with the program and its definitions on every line; bad lines are
mended as docs/REFUSALS.md has it.
"""
import os
import pathlib
import random
import re
import subprocess
import tempfile
import unittest

from yoke.scripts import grammar, lint
from yoke.tests import definitions, sessions, support

GOOD = """\
download town.opl
download my%20%area.opl B13,52,13.1,52.05
download a Fhighway=*,oneway=yes
download B B-180,-90,180,90 Fname=High%20%Street
generate 1
generate 0000100
import new.opl
node x13.65 y0.05 Tamenity=bench
node x-0 y-0.0000001 T
node x180 y90.0 Ta=,b=@
node x001.5 y1 T%61%=%1f600%
way Thighway=footway Nn2,n-1
way T N
relation Ttype=route Mw5@,n4@stop,r-2@a@b
relation T M
tag n1,w5,r-3 Tname=,ref=7
tag n001 T
move n1,w2 0.1 -0.0000001
move n1 999 0
place n1 x13.55 y0
nodes w5 Nn1,n2,n3
nodes n1 N
members r9 Mw5@outer,n4@
delete n1
erase w1000000000000000000,r-1000000000000000000
purge n4,r9
split w5 n2,n3
combine w1,w2
reverse w5
reverse n1
squeeze w5
fuse n1,n2,n3
begin
undo 1
redo 1000000
print
count
find node
find Tname=* and not ( way or relation )
find child parent not changed or new and Ta=b
find ( ( ( conflict ) ) )
check
conflicts
resolve n1 mine
resolve n1 theirs
resolve w2 mix mine theirs
resolve n8 parts theirs K
resolve n8 parts mine Kname,addr%20%x
upload 10000
confirm answers-1
rehearse
save
resume day.saved
node\t x1  y2\tT
# a comment
   \t
serve town.opl
""".split(
    '\n'
)[
    :-1
]
MEETING = [
    'editor 1',
    'editor 4',
    'fetch 0',
    'fetch 9999999 B1,2,3,4 Fa=*',
    'send 1',
    'answer',
    'lost',
    'find new',
    'begin',
    'print',
]

TABLE = [  # written, right: docs/REFUSALS.md, "Bad lines of a script", and others of that sort
    ('tag n1 ref=7', 'tag n1 Tref=7'),
    ('node x1 y1', 'node x1 y1 T'),
    ('node 1 1 T', 'node x1 y1 T'),
    ('place n1 x13.12345678 y1', 'place n1 x13.1234568 y1'),
    ('move n1 1e-5 0', 'move n1 0.00001 0'),
    ('tag n1 Tname=High Street', 'tag n1 Tname=High%20%Street'),
    ('tag n1 Turl=http://x?a=b', 'tag n1 Turl=http://x?a%3d%b'),
    ('tag n1 Ta=1,a=2', 'tag n1 Ta=1'),
    ('print ', 'print'),
    (' print', 'print'),
    ('undo', 'undo 1'),
    ('tag n1, n2 Tref=7', 'tag n1,n2 Tref=7'),
    ('tag n1 Tref=7 # seen', 'tag n1 Tref=7'),
    ('save day.saved', 'save'),
    ('combine w1 w2', 'combine w1,w2'),
    ('find (way)', 'find ( way )'),
    ('find highway=path', 'find Thighway=path'),
    ('find way Ta=1', 'find way and Ta=1'),
    ('find Ta=1,b=2', 'find Ta=1 and Tb=2'),
    ('move n1 1', 'move n1 1 0'),
    ('way T Nn1x13y52,n2', 'way T Nn1,n2'),
    ('resolve n1 parts mine', 'resolve n1 parts mine K'),
    ('download a,b.opl', 'download a%2c%b.opl'),
    ('download a.opl B13,52,12,53', 'download a.opl B12,52,13,53'),
    ('download a.opl Fhighway', 'download a.opl Fhighway=*'),
    ('download a.opl F', 'download a.opl'),
    ('download a.opl Fhighway=* B12,52,13,53', 'download a.opl B12,52,13,53 Fhighway=*'),
    ('print n1', 'print'),
    ('Print', 'print'),
    ('\ufeffprint', 'print'),
    ('dowload town.opl', 'download town.opl'),
    ('download "my area.opl"', 'download my%20%area.opl'),
    ('tag n1 Tname=50% off', 'tag n1 Tname=50%25%%20%off'),
    ('tag n1 Tname=Müller, Söhne', 'tag n1 Tname=Müller%2c%%20%Söhne'),
    ('way Thighway=path n1,n2', 'way Thighway=path Nn1,n2'),
    ('way Nn1,n2 Thighway=path', 'way Thighway=path Nn1,n2'),
    ('relation Ttype=route w5,n4@stop', 'relation Ttype=route Mw5@,n4@stop'),
    ('delete n1 w5', 'delete n1,w5'),
    ('upload 1000;', 'upload 1000'),
    ('node y1 x2 T', 'node x2 y1 T'),
    ('find way AND Ta=1', 'find way and Ta=1'),
    ('node x13,65 y0,05 T', 'node x13.65 y0.05 T'),
]
FORM = [  # what can't be guessed
    ('place n1 x181 y0', 'place KEY x13.65 y0.05'),
    ('combine w1', 'combine KEYS'),
    ('fuse n1', 'fuse KEYS'),
    ('tag Tref=7', 'tag KEYS Tkey=value'),
    ('reverse', 'reverse KEY'),
    ('resolve n1', grammar.FORMS['resolve']),
    ('delete', 'delete KEYS'),
    ('upload 10001', 'upload SIZE'),
    ('generate', 'generate N'),
]
PIECES = [
    '',
    ' ',
    '  ',
    '\t',
    ',',
    '=',
    '@',
    '%',
    '%20%',
    '%0%',
    '%d800%',
    '%110000%',
    '-',
    '.',
    'x',
    'y',
    'T',
    'N',
    'M',
    'B',
    'F',
    'K',
    'n1',
    'w2',
    'r-3',
    'n0',
    '0',
    '1',
    '7',
    '19999999',
    '#',
    '(',
    ')',
    'and',
    'or',
    'not',
    'way',
    'mine',
    'parts',
    '\r',
    '\x00',
    '\x7f',
    'é',
    '\u00a0',
    '\ud800',
    '\udcff',
    'begin',
    'end',
    'print',
]


def mutations(dice, number):
    """Lines that are good ones with a slip or two: a piece put in, taken out, doubled or exchanged."""
    lines = [line for line in GOOD + MEETING if line.strip()]
    for _ in range(number):
        line = dice.choice(lines)
        for _ in range(dice.choice([1, 1, 2])):
            at = dice.randrange(len(line) + 1)
            words = re.split('([ \t,=@]+)', line)
            kind = dice.randrange(6)
            if kind == 0:
                line = line[:at] + dice.choice(PIECES) + line[at:]
            elif kind == 1:
                line = line[:at] + line[at + dice.randint(1, 3) :]
            elif kind == 2:
                words[dice.randrange(len(words))] = dice.choice(PIECES)
                line = ''.join(words)
            elif kind == 3:
                words.insert(dice.randrange(len(words)), dice.choice(words))
                line = ''.join(words)
            elif kind == 4:
                del words[dice.randrange(len(words))]
                line = ''.join(words)
            else:
                other = re.split('([ \t,=@]+)', dice.choice(lines))
                line = ''.join(
                    words[: dice.randrange(len(words) + 1)] + other[dice.randrange(len(other)) :]
                )
        yield line.replace('\n', '')


class Program:
    """Asks the program itself which line of a script is the first bad one; 0 where none is."""

    def __init__(self, case):
        self.folder = tempfile.TemporaryDirectory(prefix='yoke-test-')
        case.addCleanup(self.folder.cleanup)

    def first_bad(self, data):
        path = pathlib.Path(self.folder.name, 'a.script')
        path.write_bytes(data)
        done = subprocess.run(
            [support.program().path, '--max-objects', '20', path.name],
            cwd=self.folder.name,
            stdout=subprocess.DEVNULL,
            stderr=subprocess.PIPE,
        )
        found = re.fullmatch(b'editor: bad script line ([0-9]+)\n', done.stderr)
        if (done.returncode == 4) != bool(found) or done.returncode not in (0, 4, 7):
            raise AssertionError((done.returncode, done.stderr, data))
        return int(found[1]) if found else 0


def bytes_of(text):
    """A script as bytes; lone surrogates stand for bytes that aren't UTF-8, or for none."""
    return b''.join(
        bytes([ord(c) - 0xDC00])
        if '\udc80' <= c <= '\udcff'
        else c.encode('utf-8', 'surrogatepass')
        for c in text
    )


def first_bad(data):
    found = lint.findings(grammar.lines_of(grammar.text_of(data)))
    return found[0].line if found else 0


class Grammar(unittest.TestCase):
    def test_good_lines_are_lines(self):
        for line in GOOD[:-1] + MEETING:
            self.assertTrue(
                grammar.is_skipped(line) or grammar.check_line(line) in grammar.FORMS, line
            )

    def line_by_line(self, want, number):
        """Good lines and mutations of them, each alone and some in a meeting: the first bad line is
        the one that is wanted.
        """
        bad = 0
        for line in GOOD + list(mutations(random.Random(20), number)):
            for before in ['', 'serve a\n']:
                data = bytes_of(before + line)
                expected = want(data)
                self.assertEqual((first_bad(data), data), (expected, data))
                bad += expected > 0
        self.assertGreater(bad, number // 3)

    def where_they_stand(self, want, number):
        """Scripts of good lines, some of which may not stand where they do."""
        dice, bad = random.Random(21), 0
        lines = (
            [line for line in GOOD if not line.startswith('find')]
            + MEETING * 2
            + ['begin', 'end', 'begin', 'end'] * 3
        )
        for _ in range(number):
            script = ['serve a'] * dice.randrange(2) + [
                dice.choice(lines) for _ in range(dice.randint(1, 7))
            ]
            data = bytes_of(dice.choice(['\n', '\r\n']).join(script) + dice.choice(['', '\n']))
            expected = want(data)
            self.assertEqual((first_bad(data), data), (expected, data))
            bad += expected > 0
        self.assertGreater(bad, number // 4)

    def test_agrees_with_the_definitions(self):
        self.line_by_line(definitions.first_bad, 2500)
        self.where_they_stand(definitions.first_bad, 500)

    @unittest.skipUnless(sessions.has_program(), 'the program itself isn\'t there')
    def test_agrees_with_the_program(self):
        program = Program(self)
        self.line_by_line(program.first_bad, int(os.environ.get('YOKE_LINES', '1200')))
        self.where_they_stand(program.first_bad, 400)

    def test_queries_of_many_words(self):
        for words, is_good in [
            (['not'] * 64 + ['way'], True),
            (['not'] * 65 + ['way'], False),
            (['('] * 64 + ['way'] + [')'] * 64, True),
            (['way', 'and'] * 499 + ['way'], True),
            (['way', 'and'] * 500 + ['way'], False),
            (['not', 'way', 'and'] * 100 + ['way'], True),
        ]:
            data = ('find ' + ' '.join(words)).encode()
            self.assertEqual(
                (first_bad(data) == 0, definitions.first_bad(data) == 0), (is_good, is_good)
            )
            if sessions.has_program():
                self.assertEqual(Program(self).first_bad(data) == 0, is_good)


class Mends(unittest.TestCase):
    def test_what_is_written_and_what_is_right(self):
        for written, right in TABLE:
            (found,) = lint.findings([written])
            self.assertEqual((found.right, found.is_mend), (right, True), written)

    def test_what_cant_be_guessed_has_its_form(self):
        for written, right in FORM:
            (found,) = lint.findings([written])
            self.assertEqual((found.right, found.is_mend), (right, False), written)

    def test_a_mend_is_a_line(self):
        dice, program, mended = random.Random(22), Program(self), 0
        for line in mutations(dice, 1500):
            for found in lint.findings([line]):
                if found.is_mend:
                    mended += 1
                    self.assertIn(grammar.check_line(found.right), grammar.FORMS)
                    if (
                        sessions.has_program()
                        and mended % 4 == 0
                        and found.right.split(' ')[0] not in grammar.IN_A_MEETING | {'end'}
                    ):
                        self.assertEqual(program.first_bad(bytes_of(found.right)), 0, found.right)
        self.assertGreater(mended, 300)

    def test_all_bad_lines_are_named_with_their_causes(self):
        script = 'download town.opl\ntag n1 ref=7\n# a comment\nbegin\nundo 1\nprnt\nbegin\nend\nend\nnode x181 y0 T\nserve a\nsend 1\n'
        self.assertEqual(
            [(found.line, found.cause) for found in lint.findings(grammar.lines_of(script))],
            [
                (2, 'ref=7 has no T before it: tags are Tkey=value, or T alone'),
                (5, 'in a group stands no undo'),
                (6, 'there is no line prnt'),
                (7, 'in a group stands no begin: the one before has no end'),
                (9, 'there is no group to end'),
                (10, '181 is off the map: a longitude is from -180 to 180'),
                (11, 'serve is the first step of a script, or none'),
                (12, 'send stands only in a script that begins with serve'),
            ],
        )
        self.assertEqual(
            lint.report('a.script', lint.findings(['tag n1 ref=7'])),
            'a.script:1: ref=7 has no T before it: tags are Tkey=value, or T alone\n'
            '    written  tag n1 ref=7\n    right    tag n1 Tref=7\n',
        )

    def test_causes(self):
        for line, cause in [
            ('node x1 y1 T a', 'a is too much'),
            ('node x1', 'y.. T.. is missing'),
            ('tag n1 Tname=a b', 'b is too much'),
            ('tag n1 T=b', 'the tag =b has no key'),
            ('tag n1 Ta', 'a is no tag: a = is missing, or a comma in a value is written %2c%'),
            ('tag n1 Ta=%', 'the value % has a % that is no escape: it is written %25%'),
            ('tag n1 Ta=%0%', 'the value %0% has an escape of no character'),
            ('tag n1 Ta=b=c', 'the tag a=b=c has two =: in a key or a value it is written %3d%'),
            ('tag q1 T', 'q1 is no key: n, w or r and an id, as n1 and w-2'),
            ('tag n1,n0 T', 'n0 is no key: n, w or r and an id, as n1 and w-2'),
            ('way T Nw1', 'w1 is no node in Nw1'),
            ('relation T Mn1', 'the member n1 has no @ after its key'),
            ('upload 0', '0 is no number from 1 to 10000'),
            ('find way and', 'the query ends where a word like way or Thighway=* is wanted'),
            ('find ( way', "a bracket isn't closed"),
            ('find way )', 'there is no bracket to close'),
            ('find way node', 'before node an and, an or or a ) is wanted'),
            ('find highway=path', 'highway=path is no word of a query where it stands'),
            ('download', 'FILE is missing'),
            ('download a B1,2,3', 'B1,2,3 is no box: it has west, south, east and north'),
            ('resolve n1 ours', 'ours is no choice: mine, theirs, mix or parts'),
            ('tag n1 Tname=\udcff', "the value ? has bytes that aren't UTF-8"),
            ('print x', 'nothing stands after print, and here is x'),
        ]:
            (found,) = lint.findings([line])
            self.assertEqual(found.cause, cause)


if __name__ == '__main__':
    unittest.main()
