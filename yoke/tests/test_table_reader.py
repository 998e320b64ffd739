"""The reader of tables over random tables: whatever the encoding, the sign between fields and the
quotes, the same rows come.
"""
import csv
import io
import unittest

from yoke.formats import encodings, features

try:
    from hypothesis import assume, given, settings, strategies as st
except ImportError:  # Debian: apt-get install python3-hypothesis
    raise unittest.SkipTest(
        'hypothesis isn\'t there (Debian: apt-get install python3-hypothesis)'
    ) from None

LETTERS = st.characters(blacklist_categories=['Cs'], blacklist_characters='\0\ufeff')
FIELD = st.text(LETTERS, max_size=12)
TABLE = st.integers(1, 4).flatmap(
    lambda width: st.tuples(
        st.lists(
            st.text(st.sampled_from('abcXYZ äß,;\t|"\n'), min_size=1, max_size=8),
            min_size=width,
            max_size=width,
            unique_by=str.strip,
        ),
        st.lists(st.lists(FIELD, min_size=width, max_size=width), max_size=5),
    )
)
WESTERN = 'aäöüßéÉ€ '


def written(names, rows, sign, quoting, end):
    """A table as a program writes it."""
    out = io.StringIO()
    writer = csv.writer(out, delimiter=sign, quoting=quoting, lineterminator=end)
    writer.writerows([names, *rows])
    return out.getvalue()


class Reader(unittest.TestCase):
    @settings(max_examples=300, deadline=None)
    @given(
        TABLE,
        st.sampled_from(features.SIGNS),
        st.sampled_from([csv.QUOTE_ALL, csv.QUOTE_MINIMAL]),
        st.sampled_from(['\n', '\r\n']),
        st.sampled_from(['utf-8', 'utf-8-sig', 'utf-16', 'utf-32']),
        st.booleans(),
    )
    def test_the_same_rows_come(self, table, sign, quoting, end, encoding, is_named):
        names, rows = table
        assume(all(name.strip() for name in names) and (len(names) > 1 or quoting == csv.QUOTE_ALL))
        assume(
            quoting == csv.QUOTE_ALL or '\r' not in ''.join(map(''.join, rows))
        )  # Python's writer doesn't quote it
        others = set(features.SIGNS) - {sign}
        assume(
            quoting == csv.QUOTE_ALL or is_named or not others.intersection(''.join(names))
        )  # unquoted, nobody could tell
        text = (f'sep={sign}{end}' if is_named or len(names) == 1 else '') + written(
            names, rows, sign, quoting, end
        )
        found, numbered, found_sign = features.read_rows(text.encode(encoding))
        self.assertEqual((found, found_sign), ([name.strip() for name in names], sign))
        self.assertEqual([row for _, row in numbered], [row for row in rows if any(row)])

    @settings(max_examples=200, deadline=None)
    @given(
        st.lists(st.text(st.sampled_from(WESTERN), max_size=6), min_size=1, max_size=6),
        st.sampled_from(['cp1252', 'cp850', 'utf-16-le', 'utf-16-be']),
    )
    def test_a_named_encoding(self, lines, encoding):
        text = '\n'.join(lines)
        assume(encoding != 'cp850' or '€' not in text)
        self.assertEqual(text, encodings.text_of(text.encode(encoding), encoding))

    @settings(max_examples=200, deadline=None)
    @given(
        st.lists(
            st.tuples(st.text(st.sampled_from(WESTERN), max_size=6), st.booleans()),
            min_size=1,
            max_size=6,
        )
    )
    def test_mixed_lines(self, lines):
        data = b'\n'.join(text.encode('cp1252' if is_old else 'utf-8') for text, is_old in lines)
        strange = [
            at
            for at, (text, is_old) in enumerate(lines, 1)
            if is_old and not _is_utf8(text.encode('cp1252'))
        ]
        try:
            got = encodings.text_of(data)
        except ValueError as error:
            self.assertTrue(strange)
            self.assertIn(str(strange[0]), str(error))
        else:
            self.assertEqual(([], data.decode('utf-8')), (strange, got))
        self.assertEqual(
            [
                text
                if not is_old or _is_utf8(text.encode('cp1252')) is False
                else text.encode('cp1252').decode('utf-8')
                for text, is_old in lines
            ],
            encodings.text_of(data, encodings.MIXED).split('\n'),
        )

    @settings(max_examples=300, deadline=None)
    @given(st.binary(max_size=60))
    def test_any_bytes_are_a_text_or_a_plain_word(self, data):
        for encoding in (None, 'cp1252', 'utf-16', encodings.MIXED):
            try:
                self.assertIsInstance(encodings.text_of(data, encoding), str)
            except ValueError as error:
                self.assertRegex(str(error), '[a-z]')
                self.assertNotIn('\n', str(error))


def _is_utf8(data: bytes) -> bool:
    try:
        data.decode('utf-8')
        return True
    except UnicodeDecodeError:
        return False


if __name__ == '__main__':
    unittest.main()
