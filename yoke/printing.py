"""Lines for a terminal, in which nothing can move the cursor, hide other text or turn the direction
of reading.

Tags, cells of a table and a server's answers come from others. `shown` and `line` make what is
invisible in them visible, and `Guard` stands in front of standard output and the error stream, so
that each `print` goes through `shown`.
"""
import contextlib
import re
import sys
from typing import Any, Iterator, Optional, TextIO

# Control characters, marks of direction, separators of lines, what has no width, tag characters and
# lone surrogates.
_MARKS = '\x7f-\x9f\xad\u061c\u180e\u200b\u200e\u200f\u2028-\u202e\u2060-\u206f\ufeff\ufff9-\ufffb\ud800-\udfff\U000e0000-\U000e007f'
HIDDEN = re.compile('[\x00-\x08\x0b-\x1f' + _MARKS + ']')
HIDDEN_IN_LINE = re.compile('[\x00-\x1f' + _MARKS + ']')


def shown(text: str) -> str:
    """A text of one or more lines with each invisible character as OPL writes it, such as `%1b%`."""
    return HIDDEN.sub(_escape, text)


def line(text: str) -> str:
    """The same of a text that has to stay within one line: line feeds and tabs are escaped too."""
    return HIDDEN_IN_LINE.sub(_escape, text)


def _escape(found: 're.Match[str]') -> str:
    return f'%{ord(found[0]):x}%'


class Guard:
    """A text stream that shows what is invisible in each text that is written to it.

    A character that the stream's encoding lacks is written so too, and a line of OPL stays one.
    Everything else is the stream's own, and `data` has the stream itself, for a document that is
    written byte by byte as it is.
    """

    def __init__(self, data: TextIO) -> None:
        self.data = data

    def write(self, text: str) -> int:
        """Writes a text; answers with its length."""
        safe = shown(text)
        encoding = getattr(self.data, 'encoding', None)
        if encoding and not safe.isascii():
            safe = _in_encoding(safe, encoding)
        self.data.write(safe)
        return len(text)

    def __getattr__(self, name: str) -> Any:
        return getattr(self.data, name)


def _in_encoding(text: str, encoding: str) -> str:
    """A text without the characters that an encoding lacks: each as OPL writes it."""
    try:
        text.encode(encoding)
        return text
    except UnicodeEncodeError as error:
        found, rest = text[error.start : error.end], text[error.end :]
        return text[: error.start] + re.sub('(?s).', _escape, found) + _in_encoding(rest, encoding)


class Nowhere:
    """What takes the place of a stream that was closed before the program began: what is written to
    it is dropped.
    """

    encoding = 'utf-8'

    def write(self, text: str) -> int:
        """Drops a text; answers with its length."""
        return len(text)

    def flush(self) -> None:
        """Does nothing."""

    def fileno(self) -> int:
        """There is no file: OSError, as of a closed one."""
        raise OSError('the stream is closed')


@contextlib.contextmanager
def guarded() -> Iterator[None]:
    """Lets standard output and the error stream go through a Guard while the context lasts."""
    out, err = sys.stdout, sys.stderr
    sys.stdout, sys.stderr = _guard(out), _guard(err)
    try:
        yield
    finally:
        sys.stdout, sys.stderr = out, err


def _guard(stream: Optional[TextIO]) -> Any:
    return stream if isinstance(stream, Guard) else Guard(Nowhere() if stream is None else stream)  # type: ignore[arg-type]


def document(text: str) -> None:
    """Writes a document to standard output as it is, in UTF-8 whatever the encoding of the
    terminal.
    """
    stream = sys.stdout.data if isinstance(sys.stdout, Guard) else sys.stdout
    binary = getattr(stream, 'buffer', None)
    if binary is None:
        stream.write(text)
    else:
        stream.flush()
        binary.write(text.encode('utf-8'))
        binary.flush()
