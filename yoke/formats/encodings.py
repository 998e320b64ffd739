"""The text of a file that a user names, or a plain word on why its bytes are none.

UTF-8 is read with and without a byte order mark, and UTF-16 and UTF-32 with one. Everything else
has to be named, since two 8-bit encodings look alike to a program: the message shows how the
first strange line reads in each, so that a person can choose. `MIXED` reads each line that isn't
UTF-8 as cp1252.
"""
import codecs
import difflib
import io
import re
import zipfile
from typing import List, Optional, Tuple

MIXED = 'mixed'
MARKS = (
    (codecs.BOM_UTF8, 'utf-8-sig'),
    (codecs.BOM_UTF32_LE, 'utf-32'),
    (codecs.BOM_UTF32_BE, 'utf-32'),
    (codecs.BOM_UTF16_LE, 'utf-16'),
    (codecs.BOM_UTF16_BE, 'utf-16'),
)
CANDIDATES = (
    'cp1252',
    'cp850',
    'mac-roman',
    'cp1250',
    'cp1251',
)  # 8-bit encodings, the common ones first
SHOWN = 5  # line numbers in a message
SAMPLE = 30  # characters of a line in a message
RAW = 2000  # bytes that are looked at for zeros
COMMON = (
    'utf-8',
    'utf-16',
    'utf-16-le',
    'utf-16-be',
    'cp1252',
    'iso-8859-1',
    'iso-8859-15',
    'cp850',
    'cp1250',
    'cp1251',
    'mac-roman',
    MIXED,
)


def text_of(data: bytes, encoding: Optional[str] = None) -> str:
    """The text of a file, without a byte order mark; ValueError if it is none, with the way out.

    `encoding` is what the user named, else None.
    """
    kind = other_kind(data)
    if kind:
        raise ValueError(kind)
    marked = next((name for mark, name in MARKS if data.startswith(mark)), None)
    if encoding == MIXED:
        return _mixed(data)
    if encoding is not None:
        return _named(data, encoding, marked)
    if marked is None and b'\0' in data[:RAW]:
        raise ValueError(_with_zeros(data))
    try:
        return data.decode(marked or 'utf-8')
    except UnicodeDecodeError as error:
        raise ValueError(
            f'it begins as {marked} and isn\'t, from byte {error.start} on: get the file once more'
            if marked and marked != 'utf-8-sig'
            else _advice(data)
        ) from None


def check_encoding(name: str) -> None:
    """ValueError if there is no text encoding of this name."""
    try:
        known = name == MIXED or not isinstance('x'.encode(name), str)
    except (LookupError, ValueError, UnicodeError):
        known = False
    if not known:
        near = difflib.get_close_matches(name.lower(), COMMON, 1, 0.5)
        raise ValueError(
            f'there is no encoding {name}: '
            + (f'did you mean {near[0]}?' if near else ', '.join(COMMON))
        )


# ---- files that are no text ----


def other_kind(data: bytes) -> str:
    """What a file is that is no text of any encoding, with the way out; empty if it may be text."""
    if data.startswith(b'PK\x03\x04'):
        return _archive(data)
    for mark, text in (
        (
            b'\x1f\x8b',
            'it is compressed by gzip: give it a name that ends in .gz, or unpack it by gunzip',
        ),
        (
            b'BZh',
            'it is compressed by bzip2: give it a name that ends in .bz2, or unpack it by bunzip2',
        ),
        (
            b'\xfd7zXZ\0',
            'it is compressed by xz: give it a name that ends in .xz, or unpack it by unxz',
        ),
        (
            b'\xd0\xcf\x11\xe0',
            'it is an Excel file of the old form (.xls): save the sheet as "CSV UTF-8"',
        ),
        (
            b'SQLite format 3\0',
            'it is a database, such as a GeoPackage: ogr2ogr -f GeoJSON -t_srs EPSG:4326 '
            'out.geojson FILE makes GeoJSON',
        ),
        (b'%PDF', 'it is a PDF: ask its author for the table'),
        (
            b'\x00\x00\x27\x0a',
            'it is a Shapefile: ogr2ogr -f GeoJSON -t_srs EPSG:4326 out.geojson FILE makes '
            'GeoJSON',
        ),
    ):
        if data.startswith(mark):
            return text
    start = data[:200].lstrip(b'\xef\xbb\xbf \t\r\n').lower()
    if start.startswith((b'<!doctype html', b'<html')):
        return 'it is a web page: download the file itself, not the page that shows it'
    if start.startswith(b'<?xml'):
        return 'it is XML, such as KML or GML: ogr2ogr -f GeoJSON -t_srs EPSG:4326 out.geojson FILE makes GeoJSON'
    return ''


def _archive(data: bytes) -> str:
    """What a zip archive has in it."""
    try:
        with zipfile.ZipFile(io.BytesIO(data)) as archive:
            names = archive.namelist()
    except (zipfile.BadZipFile, OSError, ValueError):
        return 'it is a zip archive that was cut off: get the file once more'
    if any(name.startswith('xl/') for name in names):
        return 'it is an Excel workbook (.xlsx): save the sheet as "CSV UTF-8"'
    if 'content.xml' in names:
        return 'it is an OpenDocument file (.ods): save the sheet as CSV, in UTF-8'
    if any(name.lower().endswith('.shp') for name in names):
        return (
            'it is a zip archive with a Shapefile: unzip it, and ogr2ogr -f GeoJSON -t_srs EPSG:4326 out.geojson '
            'FILE.shp makes GeoJSON'
        )
    shown = ', '.join(names[:3]) + (', ..' if len(names) > 3 else '')
    return f'it is a zip archive of {shown or "nothing"}: unzip it'


# ---- texts ----


def _named(data: bytes, encoding: str, marked: Optional[str]) -> str:
    """The text in the encoding that the user named."""
    check_encoding(encoding)
    family = (marked or '').replace('-sig', '')
    if marked and not codecs.lookup(encoding).name.startswith(family):
        raise ValueError(f'it begins with the byte order mark of {family}: leave --encoding out')
    try:
        return data.decode(marked or encoding)
    except UnicodeError as error:
        at = getattr(error, 'start', 0)
        raise ValueError(
            f'it isn\'t {encoding}: line {data.count(bytes([10]), 0, at) + 1} isn\'t (byte {at})'
        ) from None


def _mixed(data: bytes) -> str:
    """The text whose lines are UTF-8, or else cp1252."""
    lines = []
    for number, line in enumerate(data.split(b'\n'), 1):
        try:
            lines.append(line.decode('utf-8'))
        except UnicodeDecodeError:
            try:
                lines.append(line.decode('cp1252'))
            except UnicodeDecodeError:
                raise ValueError(f'line {number} is neither UTF-8 nor cp1252') from None
    return '\n'.join(lines).lstrip('\ufeff')


def _with_zeros(data: bytes) -> str:
    """What to do with a file that has zero bytes and no byte order mark."""
    even, odd = data[:RAW:2].count(0), data[1:RAW:2].count(0)
    many = len(data[:RAW]) // 4 + 1
    for count, other, name in ((odd, even, 'utf-16-le'), (even, odd, 'utf-16-be')):
        if count > many and not other:
            return f'it looks like UTF-16 without a byte order mark: pass --encoding {name}'
    return f'it is no text: byte {data.index(bytes(1))} is zero'


def _advice(data: bytes) -> str:
    """What to do with a file that isn't UTF-8: name the lines, and show how the first one reads."""
    strange, plain = _lines(data)
    where = f'line{"" if len(strange) == 1 else "s"} ' + numbers([number for number, _ in strange])
    if plain:
        return (
            f'it is mixed: {where} {"isn" if len(strange) == 1 else "aren"}\'t UTF-8, and '
            f'{"line" if len(plain) == 1 else "lines"} {numbers(plain)} {"is" if len(plain) == 1 else "are"}. '
            f'Mend them, or pass --encoding {MIXED}, which reads these lines as cp1252: '
            f'{strange[0][1].decode("cp1252", "replace").strip()[:SAMPLE]!r}'
        )
    readings = _readings(b'\n'.join(line for _, line in strange[:50]))
    if not readings:
        return f'it isn\'t UTF-8, first in line {strange[0][0]}: ask its author for UTF-8'
    shown = ', '.join(f'as {name} {text!r}' for name, text in readings[:3])
    return (
        f'it isn\'t UTF-8, first in line {strange[0][0]}, which reads {shown}: pass the one that is right, such as '
        f'--encoding {readings[0][0]}'
    )


def _lines(data: bytes) -> Tuple[List[Tuple[int, bytes]], List[int]]:
    """The lines that aren't UTF-8, with their numbers, and the numbers of those that are and aren't
    ASCII.
    """
    strange, plain = [], []
    for number, line in enumerate(data.split(b'\n'), 1):
        if not line.isascii():
            try:
                line.decode('utf-8')
                plain.append(number)
            except UnicodeDecodeError:
                strange.append((number, line))
    return strange, plain


def _readings(data: bytes) -> List[Tuple[str, str]]:
    """Encodings in which bytes may be written, each with the first strange word as it reads, the
    likeliest first.

    Likely is one in which what isn't ASCII are letters in the case of the letters beside them.
    """
    found = []
    for name in CANDIDATES:
        try:
            text = data.decode(name)
        except UnicodeDecodeError:
            continue
        score = sum(
            1 if char.isalpha() and (char.islower() or not text[at - 1 : at].islower()) else -1
            for at, char in enumerate(text)
            if not char.isascii()
        )
        words = [word for word in re.split('[,;\t|\r\n"]+', text) if not word.isascii()]
        found.append((-score, name, words[0].strip()[:SAMPLE]))
    found.sort(key=lambda one: one[0])
    return [(name, text) for _, name, text in found]


def numbers(found: List[int], shown: int = SHOWN) -> str:
    """The first of some numbers, and how many more there are."""
    more = len(found) - shown
    return ', '.join(map(str, found[:shown])) + (f' and {more} more' if more > 0 else '')
