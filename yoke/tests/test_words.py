"""Refusals, statuses and answers in words."""
import re
import unittest

from yoke import words
from yoke.tests.support import TOP


def page():
    return (TOP / 'docs' / 'REFUSALS.md').read_text(encoding='utf-8')


class Numbers(unittest.TestCase):
    def test_each_refusal_of_the_page_has_words_and_no_other(self):
        self.assertEqual(
            sorted(
                {int(number) for number in re.findall(r'^\| ([0-9]+) \| `refused ', page(), re.M)}
            ),
            sorted(words.REFUSALS),
        )

    def test_each_place_is_one_that_the_refusal_carries(self):
        for number, carried in re.findall(r'^\| ([0-9]+) \| `refused [0-9]+([^`]*)`', page(), re.M):
            places = {
                int(place)
                for text in words.REFUSALS[int(number)]
                for place in re.findall(r'\{([0-9])\}', text)
            }
            if number != '20':
                self.assertEqual(places, set(range(len(carried.split()))), number)

    def test_each_fault_and_each_status_of_the_pages(self):
        opl = (TOP / 'docs' / 'OPL.md').read_text(encoding='utf-8')
        self.assertEqual(
            {int(number) for number in re.findall(r'^\| ([0-9]+) \| [A-Z]\w+ \|', opl, re.M)},
            set(words.FAULTS),
        )
        self.assertEqual(
            {int(number) for number in re.findall(r'^\| ([0-9]+) \| `editor: ', page(), re.M)},
            set(words.STATUSES),
        )


class Texts(unittest.TestCase):
    def test_a_refusal(self):
        self.assertEqual(
            'n1 is still used by w5: leave n1 out; or erase the way alone, which keeps nodes that others use (refusal 5)',
            words.refusal('5 n1 w5'),
        )
        self.assertTrue(words.refusal('18').startswith('there would be too many objects: '))
        self.assertTrue(
            words.refusal('24 r-1 n2').startswith('r-1 would be sent and refers to n2, ')
        )

    def test_a_bad_file(self):
        for rest, said in [
            ('20 line 7 fault 9', 'line 7: a node has no place (fault 9)'),
            ('20 twice 4', 'line 4 has an object that an earlier line has'),
            ('20 longline 4', 'line 4 is too long'),
            ('20 toolong', 'it is too large'),
        ]:
            self.assertIn(said, words.refusal(rest))

    def test_one_that_is_not_known_yet(self):
        self.assertIn('refusal 99', words.refusal('99 n1'))

    def test_no_message_is_longer_than_a_line(self):
        self.assertLess(len(words.bad_line('tag n1 T' + 'x' * 100000)), 300)
        self.assertLess(len(words.answer(400, 'x' * 100000)), 500)
        self.assertNotIn('\x1b', words.cut('a\x1b[31mb'))

    def test_a_server(self):
        self.assertIn(
            'yoke refresh',
            words.answer(409, 'Version mismatch: Provided 1, server had: 2 of Node 3'),
        )
        self.assertNotIn(
            'yoke refresh',
            words.answer(409, 'The changeset 7 was closed at 2024-01-01 00:00:00 UTC'),
        )
        self.assertIn('418', words.answer(418, 'I am a teapot'))

    def test_a_status(self):
        self.assertIn('bad words', words.status(2, 'editor: bad words'))
        self.assertIn('memory', words.status(-9, ''))


if __name__ == '__main__':
    unittest.main()
