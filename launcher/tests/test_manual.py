"""Manual pages out of pages: sections, blocks, tables and texts in roff."""
import unittest

from launcher import manual
from launcher.messages import Stop

PAGE = '''# A page

What it is.

| line | what it does |
|---|---|
| [`tag`](#tag) | sets `a|b` |

## One

### tag

**Form.** `tag KEYS T..`

**Does.** Sets tags, *all* of them, of an
[object](OTHER.md#x); see [9](REFUSALS.md#refusal-9).

- an item
  in two lines
1. a number

```script
.print
# not a heading
```

## Two

Last.
'''


class Pages(unittest.TestCase):
    def test_a_section_ends_at_the_next_heading_of_its_level(self):
        self.assertEqual(['', 'Last.'], manual.section(PAGE, 'Two'))
        self.assertIn('# not a heading', manual.section(PAGE, 'One'))
        self.assertNotIn('Last.', manual.section(PAGE, 'tag'))
        self.assertEqual(['', 'What it is.', ''], manual.section(PAGE, '')[:3])
        self.assertNotIn('### tag', manual.section(PAGE, ''))

    def test_a_section_that_is_gone_stops_the_making(self):
        with self.assertRaises(Stop):
            manual.section(PAGE, 'Three')

    def test_blocks_come_in_their_order(self):
        kinds = [kind for kind, _ in manual.blocks(manual.section(PAGE, 'One'))]
        self.assertEqual(['heading', 'text', 'text', 'item', 'item', 'code'], kinds)
        self.assertEqual(
            [('table', [('line', 'what it does'), ('[`tag`](#tag)', 'sets `a|b`')])],
            [it for it in manual.blocks(manual.section(PAGE, '')) if it[0] == 'table'],
        )


class Roff(unittest.TestCase):
    def test_texts(self):
        self.assertEqual(
            '\\fBa\\-b\\fR and \\fBc\\fR and \\fId\\fR and e',
            manual.roff('`a-b` and **c** and *d* and [e](F.md#g)'),
        )
        self.assertEqual(
            '\\fBFhighway=*\\fR, \\fBoneway=*\\fR', manual.roff('`Fhighway=*`, `oneway=*`')
        )
        self.assertEqual(
            'it\\(aqs \\e, \\(ha, \\(ti, \\(ga, \\[u00E9]', manual.plain('it\'s \\, ^, ~, `, é')
        )

    def test_no_line_of_text_is_a_request(self):
        for text in ('.SH x', "'x"):
            self.assertTrue(manual.filled(text).startswith(('\\&.', '\\(aq')))

    def test_a_section(self):
        made = manual.body(manual.blocks(['## One'] + manual.section(PAGE, 'One')))
        for lines in (
            '.SH ONE\n',
            '.SS tag\n',
            '.TP\n\\fBForm\\fR\n\\fBtag KEYS T..\\fR\n',
            'object; see 9.\n',
            '.IP \\(bu 4\nan item in two lines\n',
            '.IP 1. 4\na number\n',
            '.nf\n\\&.print\n# not a heading\n.fi\n',
        ):
            self.assertIn(lines, made)

    def test_a_row_names_its_later_columns(self):
        self.assertEqual(
            '.TP\n\\fBa\\fR\nb; N: 1 to 4\n',
            manual.row(('option', 'what', 'N', 'without'), ('`a`', 'b', '1 to 4', '')),
        )


if __name__ == '__main__':
    unittest.main()
