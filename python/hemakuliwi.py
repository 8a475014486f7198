r"""Tables in CSVJ, TDIF and CSV+, read, written and converted by the proved library.

This file and the shared library, `libhemakuliwi.so`, are all that is needed, with Python 3.9 or later. The library is the file that the
environment variable HEMAKULIWI_LIBRARY names or, if there is none, one beside this file, the one that `make` builds in the repository, or
what the system's loader finds.

>>> import hemakuliwi
>>> hemakuliwi.convert("tdif", "csvj", b'"stop","fare"\n"Old ""Mint"" stop",\\N\n')
b'"stop","fare"\n"Old \\"Mint\\" stop",null\n'

What can't be carried is refused, with the place:

>>> hemakuliwi.convert("csvj", "csv+", b'"stop","fare"\n"Harbour",2.40\n')  # doctest: +NORMALIZE_WHITESPACE
Traceback (most recent call last):
    ...
hemakuliwi.Refused: refused (9): column 2 of record 2 can't be written in the target dialect, which lacks such a cell or character or
takes the name for an earlier one; the record begins at byte 14

A dialect is a `Dialect`, its name in any case, or its number. Bytes are anything that has a buffer of them: bytes, a bytearray, a
memoryview. What a file is in each dialect, and what is refused, is told by docs/RULES.md.
"""

from __future__ import annotations

import ctypes
import enum
import io
import operator
import os
import threading
from collections.abc import Mapping, Reversible, Set
from ctypes import POINTER, c_char_p, c_size_t, c_uint8, c_uint32
from decimal import Decimal
from pathlib import Path
from typing import Any, BinaryIO, Iterable, Iterator, List, NamedTuple, Optional, SupportsIndex, Tuple, Type, Union

__all__ = [
    "COLUMNS",
    "FALSE",
    "FILE_BYTES",
    "NULL",
    "RECORD_BYTES",
    "TRUE",
    "Cell",
    "Converter",
    "Dialect",
    "Fault",
    "Kind",
    "Refused",
    "Report",
    "Table",
    "convert",
    "convert_stream",
    "decode",
    "number",
    "read",
    "text",
    "write",
]

__version__ = "0.1.0"
"""The version of the library that these declarations fit: HK_VERSION of hemakuliwi.h."""

FILE_BYTES = 16_777_215
"""A file has at most so many bytes, and so has any text that is written."""
RECORD_BYTES = 4_096
"""A record has at most so many bytes, its ending not counted."""
COLUMNS = 64
"""A record has at most so many cells."""

_PIECE_BYTES = 4_096
_PIECE_ROOM = 49_152


class Dialect(enum.IntEnum):
    """The dialects, by their numbers."""

    CSVJ = 1
    TDIF = 2
    CSV_PLUS = 3


class Kind(enum.IntEnum):
    """The kinds of a cell. CSVJ has all of them, TDIF text and null, CSV+ text alone."""

    TEXT = 1
    NUMBER = 2
    TRUE = 3
    FALSE = 4
    NULL = 5


# Kind(number) takes ten times as long as a place in here.
_KINDS = (None, *Kind)


class Fault(enum.IntEnum):
    """The number of a report; docs/RULES.md, section 6, says when each is given."""

    NO_RECORD = 1
    ENCODING = 2
    SYNTAX = 3
    CUT_SHORT = 4
    CELL_COUNT = 5
    REPEATED_NAME = 6
    HEADER_KIND = 7
    LIMIT = 8
    NOT_CARRIED = 9
    ROOM = 10
    WRONG_CALL = 11
    NO_TABLE = 12


# For a file they are the sentences of the proved program. What stands behind a semicolon is left out where there is no file.
_SENTENCES = {
    Fault.NO_RECORD: "the file ends at byte {offset} before record {record}, the header, begins",
    Fault.ENCODING: "at record {record}, byte {offset} is not UTF-8 text",
    Fault.SYNTAX: "at record {record}, byte {offset} can't stand there in a file of the source dialect",
    Fault.CUT_SHORT: "the file ends at byte {offset} before record {record} is complete",
    Fault.CELL_COUNT: "record {record} has another number of cells than the header; it begins at byte {offset}",
    Fault.REPEATED_NAME: "record {record}, the header, has in column {column} the name of an earlier column; it begins at byte {offset}",
    Fault.HEADER_KIND: "record {record}, the header, has no name in column {column}, where the cell is not text; "
    "it begins at byte {offset}",
    Fault.LIMIT: "at record {record}, a limit is passed (16,777,215 bytes in a file, 4,096 bytes or 64 columns in a record); "
    "byte {offset} is the first too many or, for columns, the record's first",
    Fault.NOT_CARRIED: "column {column} of record {record} can't be written in the target dialect, which lacks such a cell or character "
    "or takes the name for an earlier one; the record begins at byte {offset}",
    Fault.ROOM: "what was lent is too short, or a piece too long",
    Fault.WRONG_CALL: "there is no such dialect, or the file was ended before",
    Fault.NO_TABLE: "what is to be written is no table: it has no header, a number is not spelt as one, or a text is not UTF-8",
}
_NOT_CARRIED_AS_A_WHOLE = (
    "record {record} can't be written in the target dialect, which asks for a column or in which the record or the file gets too long; "
    "it begins at byte {offset}"
)
_SENTENCES_OF_A_CELL = {
    Fault.ENCODING: "byte {offset} of the cell is not UTF-8 text",
    Fault.SYNTAX: "byte {offset} of the cell can't stand there in this dialect",
    Fault.CUT_SHORT: "the cell ends at byte {offset} before it is complete",
}

AnyDialect = Union[Dialect, str, int]
Bytes = Union[bytes, bytearray, memoryview]


class Report(NamedTuple):
    """Which fault, and where. Records and columns count from 1, the header being record 1, and 0 names none; offsets count from 0."""

    number: int
    record: int
    column: int
    offset: int


class Refused(ValueError):
    r"""What the library refuses, with its report, and what a converter had written before the fault.

    >>> try:
    ...     read("csv+", b"stop,fare\nHarbour\n")
    ... except Refused as refused:
    ...     print(refused.report)
    ...     print(refused)
    Report(number=5, record=2, column=0, offset=10)
    refused (5): record 2 has another number of cells than the header; it begins at byte 10
    """

    report: Report
    written: bytes
    """The records that a call of a `Converter` completed before the fault: they are sound, and the call gives them nowhere else."""

    def __init__(self, report: Report, written: bytes = b"", has_offset: bool = True) -> None:
        super().__init__(report, written, has_offset)
        self.report = report
        self.written = written
        self._has_offset = has_offset

    @property
    def number(self) -> Fault:
        """Which fault it is."""
        return Fault(self.report.number)

    @property
    def record(self) -> int:
        """The record that has the fault, counted from 1, the header; 0 if none is named."""
        return self.report.record

    @property
    def column(self) -> int:
        """The column that has the fault, counted from 1; 0 if none is named."""
        return self.report.column

    @property
    def offset(self) -> int:
        """Where the fault is, in bytes from the start of the file or, when decoding, of the cell."""
        return self.report.offset

    def __str__(self) -> str:
        number, sentence = self.number, _SENTENCES[self.number]
        if number == Fault.NOT_CARRIED and self.column == 0:
            sentence = _NOT_CARRIED_AS_A_WHOLE
        if self.record == 0:
            sentence = _SENTENCES_OF_A_CELL.get(number, sentence)
        if not self._has_offset:
            sentence = sentence.partition("; ")[0]
        return f"refused ({int(number)}): " + sentence.format(**self.report._asdict())


class Cell(NamedTuple):
    """A cell: its kind, and its content as bytes. True, false and null have none; a number's content is its spelling.

    >>> Cell(Kind.TEXT, b"Old Mint").text
    'Old Mint'
    """

    kind: Kind
    content: bytes = b""

    @property
    def text(self) -> str:
        r"""The content as characters. A lone surrogate, which CSVJ can escape, is one here too.

        >>> decode("csvj", rb'"\ud83d"').text
        '\ud83d'
        """
        return self.content.decode("utf-8", "surrogatepass")


TRUE = Cell(Kind.TRUE)
FALSE = Cell(Kind.FALSE)
NULL = Cell(Kind.NULL)


def text(characters: str) -> Cell:
    """A cell that is a text.

    >>> text("Old Mint").content
    b'Old Mint'
    """
    if not isinstance(characters, str):
        raise TypeError(f"a text is a str, and no {type(characters).__name__}")
    return Cell(Kind.TEXT, characters.encode("utf-8", "surrogatepass"))


def number(spelling: Union[str, SupportsIndex, Decimal]) -> Cell:
    """A cell that is a number: a str that spells it as JSON does, which is kept, an integer of any type, or a Decimal.

    A float is refused, here and by `write`: 2.4 and 2.40 are the same float, and a number stays as it is spelt. A Decimal that is not
    finite is a ValueError.

    >>> number("2.40").content
    b'2.40'
    """
    cell = _number_of(spelling)
    if cell is None:
        raise TypeError(f"a number is a str that spells it, an int or a Decimal, and no {type(spelling).__name__}: {_advice_on(spelling)}")
    return cell


AnyCell = Union[Cell, str, bytes, bytearray, memoryview, bool, SupportsIndex, Decimal, None]
AnyRow = Union[Iterable[AnyCell], Mapping[str, AnyCell]]


class Table(NamedTuple):
    """What was read: the names of the columns, and the data records."""

    names: List[str]
    rows: List[List[Cell]]

    @property
    def columns(self) -> int:
        """The number of columns, which each row has."""
        return len(self.names)


def read(dialect: AnyDialect, data: Bytes) -> Table:
    r"""The table that a whole file has.

    >>> table = read("csvj", b'"stop","fare"\n"Harbour",2.40\n')
    >>> table.names
    ['stop', 'fare']
    >>> [(cell.kind.name, cell.text) for cell in table.rows[0]]
    [('TEXT', 'Harbour'), ('NUMBER', '2.40')]
    """
    source, file = _dialect_number(dialect), _bytes_of(data)
    answer, starts, ends, kinds = _stretches(source, file)
    columns = answer.columns
    cells = _contents(source, file, zip(starts[: answer.cells], ends[: answer.cells], kinds[: answer.cells]))
    records = [[next(cells) for _ in range(columns)] for _ in range(answer.records + 1)]
    return Table([cell.text for cell in records[0]], records[1:])


def decode(dialect: AnyDialect, raw: Bytes) -> Cell:
    r"""The cell that is spelt so: the kind and the content.

    >>> decode("tdif", b'"Old ""Mint"" stop"')
    Cell(kind=<Kind.TEXT: 1>, content=b'Old "Mint" stop')
    """
    source, spelling = _dialect_number(dialect), _bytes_of(raw)
    # A content is never longer than its spelling.
    return _decoded(source, spelling, ctypes.create_string_buffer(len(spelling)))


def convert(source: AnyDialect, target: AnyDialect, data: Bytes) -> bytes:
    r"""A whole file to its canonical text in the dialect `target`.

    >>> convert("csv+", "csvj", b"stop,fare\nHarbour,2.40")
    b'"stop","fare"\n"Harbour","2.40"\n'
    """
    numbers, file = (_dialect_number(source), _dialect_number(target)), _bytes_of(data)
    # Enough for any text: six bytes for each byte of the file, and six for a last record without an ending.
    room = ctypes.create_string_buffer(min(6 * (len(file) + 1), FILE_BYTES))
    answer = _library.hk_convert(*numbers, file, len(file), room, len(room))
    return _accepted(answer, room)


def write(dialect: AnyDialect, rows: Union[Table, Iterable[AnyRow]]) -> bytes:
    r"""The canonical text of a table: of one that was read, or of rows, of which the first is the header.

    A row is a sequence or another iterable of cells. After the header it may be a mapping too, as csv.DictWriter takes it: it has to have
    each of the header's names and no other, in any order. The first row is never a mapping: the names are given first. A str, bytes and a
    set, which has no order, are no rows.

    A text is a str, or its content as bytes; null is None, true and false are a bool, a number is an integer of any type or a Decimal,
    and any cell may be a `Cell`. A float is none: `number` takes the spelling that is meant. What is no cell is a TypeError or a
    ValueError with its row and column, and so is what is no row, has more or fewer cells than the first, or other names; all else that
    is no table is refused.

    >>> write("csvj", [["stop", "fare", "zone"], ["Harbour", number("2.40"), 1], ["Old Mint", None, True]])
    b'"stop","fare","zone"\n"Harbour",2.40,1\n"Old Mint",null,true\n'
    >>> write("csvj", [["stop", "zone"], {"zone": 1, "stop": "Harbour"}])
    b'"stop","zone"\n"Harbour",1\n'
    """
    target = _dialect_number(dialect)
    records = _records_of([rows.names, *rows.rows] if isinstance(rows, Table) else rows)
    columns = len(records[0]) if records else 0
    cells = [cell for record in records for cell in record]
    content = b"".join(cell.content for cell in cells)
    starts, ends, kinds = (c_size_t * len(cells))(), (c_size_t * len(cells))(), (c_uint8 * len(cells))()
    end = 0
    for i, cell in enumerate(cells):
        starts[i], end = end, end + len(cell.content)
        ends[i], kinds[i] = end, cell.kind
    # Enough for any text: six bytes for each byte of a content, six for each cell, one for each record.
    room = ctypes.create_string_buffer(min(6 * (len(content) + len(cells)) + len(records), FILE_BYTES))
    lists = (starts, len(cells), ends, len(cells), kinds, len(cells))
    answer = _library.hk_write(target, content, len(content), *lists, columns, len(records), room, len(room))
    return _accepted(answer, room, has_offset=False)


class Converter:
    r"""Converts a file that comes in pieces of any size, and gives each record as it completes.

    >>> converter = Converter("csv+", "csvj")
    >>> converter.feed(b"stop,fare\nHar")
    b'"stop","fare"\n'
    >>> converter.feed(b"bour,2.40")
    b''
    >>> converter.end()
    b'"Harbour","2.40"\n'

    The pieces' outputs joined are what `convert` gives for the whole file. A fault is raised as `Refused` where its byte is fed, or at the
    end; `written` then has the records that the same call completed before it. After that every call raises the same report again, and
    after an accepted end fault 11. A converter may be copied and pickled between calls, to go on from there once more.

    It is no context manager: what `end` gives would be lost.
    """

    def __init__(self, source: AnyDialect, target: AnyDialect) -> None:
        self._state = _library.hk_converter_new(_dialect_number(source), _dialect_number(target))
        self._prepare()

    def _prepare(self) -> None:
        self._out = ctypes.create_string_buffer(_PIECE_ROOM)
        # The library runs without Python's global lock, and two calls may not share what they are lent.
        self._lock = threading.Lock()

    def feed(self, data: Bytes) -> bytes:
        """Takes the next bytes of the file, and gives the text of the records that they complete."""
        piece = _bytes_of(data)
        with self._lock:
            texts: List[bytes] = []
            # An empty piece is handed on too: an earlier fault is reported again.
            for start in range(0, max(len(piece), 1), _PIECE_BYTES):
                part = piece[start : start + _PIECE_BYTES]
                self._call(_library.hk_piece_lent, texts, part, len(part))
            return b"".join(texts)

    def end(self) -> bytes:
        """Takes the end of the file, and gives the text of a last record that it completes."""
        with self._lock:
            texts: List[bytes] = []
            self._call(_library.hk_end_lent, texts)
            return b"".join(texts)

    def _call(self, function: Any, texts: List[bytes], *piece: Any) -> None:
        answer = function(*self._state.fields(), *piece, self._out, _PIECE_ROOM)
        texts.append(self._out[: answer.length])
        if answer.report.number != 0:
            raise Refused(answer.report.as_tuple(), b"".join(texts))

    @property
    def records(self) -> int:
        """How many records are complete, the header too, but not one that only the end completes."""
        return self._state.records

    @property
    def names(self) -> Optional[List[str]]:
        r"""The names of the columns once the header is complete, after a fault too; None before.

        >>> converter = Converter("csvj", "csv+")
        >>> try:
        ...     converter.feed(b'"stop","fare"\n"Harbour",2.40\n')
        ... except Refused as refused:
        ...     print(refused.column, converter.names[refused.column - 1])
        2 fare
        """
        with self._lock:
            if self.records == 0:
                return None
            source = self._state.source
            raw_names = [self._state.name(k) for k in range(self._state.columns)]
        return [decode(source, raw).text for raw in raw_names]

    def __getstate__(self) -> bytes:
        with self._lock:
            return bytes(self._state)

    def __setstate__(self, state: bytes) -> None:
        if len(state) != ctypes.sizeof(_Converter):
            raise ValueError("these bytes are no state of a converter")
        self._state = _Converter.from_buffer_copy(state)
        self._prepare()


def convert_stream(source: AnyDialect, target: AnyDialect, reader: BinaryIO, writer: BinaryIO) -> int:
    r"""Converts what `reader` gives until its end, into `writer`, in constant memory; how many bytes were written.

    Each record is written as soon as the bytes that complete it were read. So when this raises, because the file is refused or the reader
    fails, the writer has every record that was completed before, and `Refused.written` is empty. Neither is flushed or closed.

    >>> out = io.BytesIO()
    >>> convert_stream("csv+", "tdif", io.BytesIO(b"stop,fare\nHarbour,2.40\n"), out)
    31
    >>> out.getvalue()
    b'"stop","fare"\n"Harbour","2.40"\n'
    """
    for file, method in ((reader, "read"), (writer, "write")):
        if not hasattr(file, method):
            raise TypeError(
                "convert_stream(source, target, reader, writer) takes the dialects first, then the files, "
                f"and no {type(file).__name__}, which can't {method}"
            )
    converter = Converter(source, target)
    # A buffered reader's `read` would wait for all of the bytes that it is asked for, and hold a complete record back.
    next_bytes = getattr(reader, "read1", None) or reader.read
    count = 0
    is_ended = False
    while not is_ended:
        piece = next_bytes(_PIECE_BYTES)
        if piece is None:
            raise BlockingIOError("the reader has no bytes now; feed a Converter when it has")
        is_ended = len(piece) == 0
        try:
            converted = converter.end() if is_ended else converter.feed(piece)
        except Refused as refused:
            _deliver(writer, refused.written)
            refused.written = b""
            raise
        _deliver(writer, converted)
        count += len(converted)
    return count


def _deliver(writer: BinaryIO, converted: bytes) -> None:
    """Writes all of it; a raw file may take less at a time."""
    while converted:
        taken = writer.write(converted)
        if taken is None and isinstance(writer, io.RawIOBase):
            raise BlockingIOError("the writer takes no bytes now")
        converted = converted[taken:] if taken is not None else b""


def _dialect_number(dialect: AnyDialect) -> int:
    """The number, of which the library says whether it is a dialect's."""
    if isinstance(dialect, str):
        named = {"csvj": Dialect.CSVJ, "tdif": Dialect.TDIF, "csv+": Dialect.CSV_PLUS}.get(dialect.lower())
        if named is None:
            raise ValueError(f"{dialect!r} is no dialect: there are csvj, tdif and csv+")
        return named
    if isinstance(dialect, bool) or not isinstance(dialect, int):
        raise TypeError(f"a dialect is a Dialect, a name or a number, and no {type(dialect).__name__}")
    # What no uint32_t holds is as unknown as 0, and may not become a dialect's number on its way.
    return dialect if 0 <= dialect < 2**32 else 0


def _bytes_of(data: Bytes) -> bytes:
    """Bytes that stay as they are while the library reads them: a buffer that can change is copied."""
    if isinstance(data, bytes):
        return data
    try:
        return memoryview(data).tobytes()
    except TypeError:
        raise TypeError(f"bytes are needed, or another buffer of them, and no {type(data).__name__}") from None


def _records_of(rows: Iterable[AnyRow]) -> List[List[Cell]]:
    """The rows' cells, as many in each as in the first, the header."""
    if isinstance(rows, Mapping) or not _is_ordered(rows):
        raise TypeError(f"a table is an iterable of rows, the first of them the header, and no {type(rows).__name__}")
    records: List[List[Cell]] = []
    names: Optional[List[str]] = None
    for place, row in enumerate(rows, 1):
        if isinstance(row, Mapping):
            if not records:
                raise TypeError(f"row 1 is the header, and no {type(row).__name__}: write the names first, [list(rows[0]), *rows]")
            if names is None:
                names = _names_of(records[0])
            row = _in_order(place, row, names)
        elif not _is_ordered(row):
            raise TypeError(f"row {place}: a row is a sequence of cells, or a mapping from the header's names, and no {type(row).__name__}")
        records.append(_cells_of(place, row))
        if len(records[-1]) != len(records[0]):
            raise ValueError(f"row {place} has {len(records[-1])} cells, and the first has {len(records[0])}")
    return records


def _is_ordered(row: Any) -> bool:
    """Whether it can be a row: what gives its cells in an order. Texts give characters or numbers, and are never meant as a row."""
    if isinstance(row, (str, bytes, bytearray, memoryview, Cell)):
        return False
    # The keys of a dict are a set too, but have an order, and can be given the other way round.
    if isinstance(row, Set) and not isinstance(row, Reversible):
        return False
    try:
        iter(row)
    except TypeError:
        return False
    return True


def _names_of(header: List[Cell]) -> List[str]:
    names: List[str] = []
    for cell in header:
        try:
            names.append(cell.text)
        except UnicodeDecodeError as failure:
            raise ValueError(f"row 1, column {len(names) + 1}: {failure}") from None
    return names


def _in_order(place: int, row: Mapping[str, AnyCell], names: List[str]) -> List[AnyCell]:
    """What a mapping has for each name of the header, in the header's order. It has to have no other name."""
    missing = [name for name in names if name not in row]
    if not missing and len(row) == len(set(names)):
        return [row[name] for name in names]
    unknown = [key for key in row if key not in names]
    lists = [f"{what}: {', '.join(map(repr, keys))}" for what, keys in (("missing", missing), ("unknown", unknown)) if keys]
    raise ValueError(f"row {place} has other names than the header ({'; '.join(lists) or 'a name is there twice'})")


def _cells_of(place: int, row: Iterable[AnyCell]) -> List[Cell]:
    """The cells of the row that is at this place, counted from 1."""
    cells: List[Cell] = []
    for cell in row:
        try:
            cells.append(_cell_of(cell))
        except (TypeError, ValueError) as failure:
            error = TypeError if isinstance(failure, TypeError) else ValueError
            raise error(f"row {place}, column {len(cells) + 1}: {failure}") from None
    return cells


def _cell_of(cell: AnyCell) -> Cell:
    if isinstance(cell, Cell):
        return Cell(Kind(cell.kind), _bytes_of(cell.content))
    if isinstance(cell, str):
        return text(cell)
    if cell is None:
        return NULL
    if isinstance(cell, bool):
        return TRUE if cell else FALSE
    if isinstance(cell, (bytes, bytearray, memoryview)):
        return Cell(Kind.TEXT, _bytes_of(cell))
    found = _number_of(cell)
    if found is None:
        kinds = "a str, bytes, an int, a Decimal, a bool, None or a Cell"
        raise TypeError(f"a cell is {kinds}, and no {type(cell).__name__}: {_advice_on(cell)}")
    return found


def _number_of(spelling: Any) -> Optional[Cell]:
    """The number that is spelt so, or that this is; None for what is no number of one spelling. A bool is an int, but no number."""
    if isinstance(spelling, str):
        return Cell(Kind.NUMBER, spelling.encode("utf-8", "surrogatepass"))
    if isinstance(spelling, Decimal):
        if not spelling.is_finite():
            raise ValueError(f"{spelling} is no number that a table can have")
        return Cell(Kind.NUMBER, str(spelling).encode())
    if isinstance(spelling, bool):
        return None
    try:
        # An integer of another library has this, and may not be an int.
        whole = operator.index(spelling)
    except TypeError:
        return None
    return Cell(Kind.NUMBER, str(int(whole)).encode())


def _advice_on(value: Any) -> str:
    """What to write in place of a value that is no cell."""
    if isinstance(value, float):
        return "2.4 and 2.40 are the same float, so write number('2.40') or a Decimal"
    if isinstance(value, bool):
        return "write it as a cell without number()"
    if hasattr(value, "isoformat"):
        return "write its text, such as isoformat() gives"
    return "write what it means, by str(), bool(), int() or number()"


def _stretches(source: int, file: bytes) -> Tuple[Any, Any, Any, Any]:
    """The answer of the reader with its starts, ends and kinds, in lists that are doubled until the cells have room."""
    places = 64 + len(file) // 16
    while True:
        starts, ends, kinds = (c_size_t * places)(), (c_size_t * places)(), (c_uint8 * places)()
        answer = _library.hk_read(source, file, len(file), starts, places, ends, places, kinds, places)
        if answer.report.number == 0:
            return answer, starts, ends, kinds
        if answer.report.number != Fault.ROOM:
            raise Refused(answer.report.as_tuple())
        places *= 2


def _contents(source: int, file: bytes, stretches: Iterable[Tuple[int, int, int]]) -> Iterator[Cell]:
    """The cells at these stretches of an accepted file. Cells without content are known by their kinds."""
    room = ctypes.create_string_buffer(RECORD_BYTES)
    words = {int(cell.kind): cell for cell in (TRUE, FALSE, NULL)}
    for start, end, kind in stretches:
        yield words.get(kind) or _decoded(source, file[start:end], room)


def _decoded(source: int, spelling: bytes, room: Any) -> Cell:
    answer = _library.hk_decode(source, spelling, len(spelling), room, len(room))
    kind = answer.kind
    if kind == 0:
        raise Refused(answer.report.as_tuple())
    return Cell(_KINDS[kind], room[: answer.length])


def _accepted(answer: Any, room: Any, has_offset: bool = True) -> bytes:
    if answer.report.number != 0:
        raise Refused(answer.report.as_tuple(), has_offset=has_offset)
    return room[: answer.length]


# The declarations of hemakuliwi.h.


class _Report(ctypes.Structure):
    _fields_ = [("number", c_size_t), ("record_number", c_size_t), ("column", c_size_t), ("offset", c_size_t)]

    def as_tuple(self) -> Report:
        return Report(self.number, self.record_number, self.column, self.offset)


class _ReadAnswer(ctypes.Structure):
    _fields_ = [("report", _Report), ("columns", c_size_t), ("records", c_size_t), ("cells", c_size_t)]


class _DecodeAnswer(ctypes.Structure):
    _fields_ = [("report", _Report), ("length", c_size_t), ("kind", c_size_t)]


class _TextAnswer(ctypes.Structure):
    _fields_ = [("report", _Report), ("length", c_size_t)]


_AT_COLUMNS = 6
_AT_RECORDS = 7


class _Converter(ctypes.Structure):
    _fields_ = [
        ("source", c_uint32),
        ("target", c_uint32),
        ("numbers", c_size_t * 14),
        ("ends", c_size_t * COLUMNS),
        ("name_ends", c_size_t * COLUMNS),
        ("bytes", c_uint8 * RECORD_BYTES),
        ("names", c_uint8 * RECORD_BYTES),
    ]

    def fields(self) -> Tuple[Any, ...]:
        return (self.source, self.target, self.numbers, self.ends, self.name_ends, self.bytes, self.names)

    @property
    def records(self) -> int:
        """As hk_converter_records."""
        return self.numbers[_AT_RECORDS]

    @property
    def columns(self) -> int:
        """As hk_converter_columns."""
        return min(self.numbers[_AT_COLUMNS], COLUMNS) if self.records > 0 else 0

    def name(self, k: int) -> bytes:
        """The bytes of hk_converter_name: none where there is no such name."""
        if k >= self.columns:
            return b""
        start, end = self.name_ends[k - 1] if k > 0 else 0, self.name_ends[k]
        return bytes(self.names[start:end]) if start <= end <= RECORD_BYTES else b""


_FILE = (c_char_p, c_size_t)
_ROOM = (ctypes.c_void_p, c_size_t)
_LISTS = (POINTER(c_size_t), c_size_t, POINTER(c_size_t), c_size_t, POINTER(c_uint8), c_size_t)
_STATE = (c_uint32, c_uint32, *[POINTER(c_size_t)] * 3, *[POINTER(c_uint8)] * 2)

_DECLARATIONS: dict[str, Tuple[Type[ctypes.Structure], Tuple[Any, ...]]] = {
    "hk_read": (_ReadAnswer, (c_uint32, *_FILE, *_LISTS)),
    "hk_decode": (_DecodeAnswer, (c_uint32, *_FILE, *_ROOM)),
    "hk_convert": (_TextAnswer, (c_uint32, c_uint32, *_FILE, *_ROOM)),
    "hk_write": (_TextAnswer, (c_uint32, *_FILE, *_LISTS, c_size_t, c_size_t, *_ROOM)),
    "hk_converter_new": (_Converter, (c_uint32, c_uint32)),
    "hk_piece_lent": (_TextAnswer, (*_STATE, *_FILE, *_ROOM)),
    "hk_end_lent": (_TextAnswer, (*_STATE, *_ROOM)),
}

_FILE_NAME = "libhemakuliwi.so.0"
_NOT_FOUND = """Hemakuliwi's shared library can't be loaded. Build it with `make` in the repository, or install it with `make install` and
run `ldconfig`, or set HEMAKULIWI_LIBRARY to the path of the file. This was tried:
"""


def _candidates() -> List[str]:
    """Where the library may be, in the order in which it is looked for. A name without a folder is the loader's to find."""
    named = os.environ.get("HEMAKULIWI_LIBRARY")
    if named:
        return [os.path.abspath(named)]
    folder = Path(__file__).resolve().parent
    files = [folder / _FILE_NAME, folder / "libhemakuliwi.so", folder.parent / "target" / "staticlib" / _FILE_NAME]
    return [*[str(file) for file in files if file.exists()], _FILE_NAME]


def _load() -> ctypes.CDLL:
    failures = []
    for candidate in _candidates():
        try:
            library = ctypes.CDLL(candidate)
            for name, (answer, arguments) in _DECLARATIONS.items():
                function = getattr(library, name)
                function.restype, function.argtypes = answer, arguments
            return library
        except (OSError, AttributeError) as failure:
            failures.append(f"  {candidate}: {failure}")
    raise ImportError(_NOT_FOUND + "\n".join(failures))


_library = _load()
