"""The tests of hemakuliwi.py: python3 -m unittest discover python"""

import collections
import contextlib
import copy
import datetime
import doctest
import io
import json
import os
import pickle
import re
import shutil
import subprocess
import sys
import tempfile
import threading
import unittest
from array import array
from decimal import Decimal
from fractions import Fraction
from pathlib import Path
from types import MappingProxyType

import hemakuliwi
from hemakuliwi import FALSE, NULL, TRUE, Cell, Converter, Dialect, Fault, Kind, Refused, Report, number, text

REPOSITORY = Path(__file__).resolve().parent.parent
VECTORS = REPOSITORY / "vectors"
RUNS = REPOSITORY / "rust" / "harness" / "tests" / "program_runs" / "runs"
DIALECTS = (1, 2, 3)
PAIRS = [(source, target) for source in DIALECTS for target in DIALECTS]


def load_tests(_loader, tests, _pattern):
    """The examples of the module are tests too."""
    tests.addTests(doctest.DocTestSuite(hemakuliwi))
    return tests


def answer_of(call, *arguments):
    """What a call gives, or its report with what was written before the fault."""
    try:
        return call(*arguments)
    except Refused as refused:
        return refused.report, refused.written


def in_pieces(source, target, pieces):
    """The text that pieces and the end come to, and the report, which is None for acceptance."""
    converter = Converter(source, target)
    converted = b""
    try:
        for piece in pieces:
            converted += converter.feed(piece)
        return converted + converter.end(), None
    except Refused as refused:
        return converted + refused.written, refused.report


def whole(source, target, file):
    try:
        return hemakuliwi.convert(source, target, file), None
    except Refused as refused:
        return None, refused.report


# ---- the vectors of the repository, whose answers are written by hand from the rules


ITEM = re.compile(r"'((?:[^'\\]|\\.)*)'(?:\*(\d+))?")
BYTES = rf"(?:{ITEM.pattern}\s*)+"
FAULT = re.compile(r"fault (\d+)(?: record (\d+))?(?: column (\d+))?(?: offset (\d+))?")


def unescaped(spelling):
    named = {"n": b"\n", "r": b"\r", "t": b"\t"}

    def character(match):
        escape = match.group(1)
        if escape is None:
            return match.group(0).encode()
        return bytes.fromhex(escape[1:]) if escape[0] == "x" else named.get(escape, escape.encode())

    return b"".join(character(match) for match in re.finditer(r"\\(x..|.)|[^\\]", spelling))


def bytes_in(spelling):
    return b"".join(unescaped(item) * int(times or 1) for item, times in ITEM.findall(spelling))


def report_in(answer):
    return Report(*[int(part or 0) for part in FAULT.match(answer).groups()])


def cases():
    """The lines of each case after its name, those of a long call or answer joined."""
    for file in sorted(VECTORS.glob("*.txt")):
        lines = []
        for line in file.read_text(encoding="utf-8").splitlines():
            if line.startswith(" "):
                lines[-1] += line
            elif line.strip() and not line.startswith("#"):
                lines.append(line)
        starts = [i for i, line in enumerate(lines) if line.startswith("case ")]
        for start, end in zip(starts, [*starts[1:], len(lines)]):
            yield lines[start], lines[start + 1 : end]


def cases_of(call):
    """The cases of a call, without those about rooms and long pieces, which this module sees to itself."""
    for name, lines in cases():
        if lines[0].startswith(f"{call} ") and not re.search(r"' room \d|end room|kinds[ \d]* room|fault 10", "\n".join(lines)):
            yield name, lines


def cases_of_one_call(call):
    """The arguments of each case, its bytes and its answer. Files of megabytes are left out: they are about limits, and take minutes."""
    for name, (line, answer) in cases_of(call):
        data = bytes_in(line)
        if len(data) < 1_000_000:
            yield name, line, data, answer[len("=> ") :]


class Vectors(unittest.TestCase):
    def test_files_are_read(self):
        count = 0
        for name, line, data, answer in cases_of_one_call("read"):
            dialect = int(line.split()[1])
            count += 1
            if answer.startswith("fault"):
                self.assertEqual(answer_of(hemakuliwi.read, dialect, data), (report_in(answer), b""), name)
                continue
            table = hemakuliwi.read(dialect, data)
            columns, records = map(int, re.match(r"accepted columns (\d+) records (\d+)", answer).groups())
            self.assertEqual((table.columns, len(table.rows)), (columns, records), name)
            read = [text(column) for column in table.names] + [cell for row in table.rows for cell in row]
            self.assertEqual(len(read), columns * (records + 1), name)
            if "cells" in answer:
                stretches = [tuple(map(int, found)) for found in re.findall(r"(\d+)-(\d+):(\d)", answer)]
                self.assertEqual([cell.kind for cell in read], [kind for _, _, kind in stretches], name)
                self.assertEqual(read, [hemakuliwi.decode(dialect, data[start:end]) for start, end, _ in stretches], name)
        self.assertGreater(count, 900)

    def test_cells_are_decoded(self):
        count = 0
        for name, line, data, answer in cases_of_one_call("decode"):
            count += 1
            if answer.startswith("fault"):
                expected = report_in(answer), b""
            else:
                expected = Cell(Kind(int(answer.split()[1])), bytes_in(answer))
            self.assertEqual(answer_of(hemakuliwi.decode, int(line.split()[1]), data), expected, name)
        self.assertGreater(count, 100)

    def test_files_are_converted_whole_and_in_pieces(self):
        count = 0
        for name, line, data, answer in cases_of_one_call("convert"):
            count += 1
            source, target = map(int, line.split()[1:3])
            if answer.startswith("fault"):
                report = report_in(answer)
                self.assertEqual(whole(source, target, data), (None, report), name)
                self.assertEqual(in_pieces(source, target, [data])[1], report, name)
            else:
                self.assertEqual(whole(source, target, data), (bytes_in(answer), None), name)
                self.assertEqual(in_pieces(source, target, [data]), (bytes_in(answer), None), name)
        self.assertGreater(count, 200)

    def test_lists_of_calls_are_answered(self):
        count = 0
        for name, (first, *calls) in cases_of("pieces"):
            count += 1
            converter = Converter(*map(int, first.split()[1:]))
            for line in calls:
                call, answer = line.split(" => ")
                converted = bytes_in(answer)
                expected = (report_in(answer), converted) if answer.startswith("fault") else converted
                told = answer_of(converter.end) if call == "end" else answer_of(converter.feed, bytes_in(call))
                self.assertEqual(told, expected, f"{name}: {line}")
        self.assertGreater(count, 130)

    def test_tables_are_written(self):
        count = 0
        for name, line, data, answer in cases_of_one_call("write"):
            columns, records = map(int, re.search(r"columns (\d+) records (\d+)", line).groups())
            lists = re.search(r" starts([ \d]*) ends([ \d]*) kinds([ \d]*)$", line).groups()
            starts, ends, kinds = [list(map(int, numbers.split())) for numbers in lists]
            are_cells = all(start <= end <= len(data) for start, end in zip(starts, ends)) and set(kinds) <= set(Kind)
            if not are_cells or not len(starts) == len(ends) == len(kinds) == columns * records:
                # Rows of cells can't say that.
                self.assertEqual(report_in(answer).number % Fault.WRONG_CALL, answer.startswith("fault 12"), name)
                continue
            count += 1
            cells = iter([Cell(Kind(kind), data[start:end]) for start, end, kind in zip(starts, ends, kinds)])
            rows = [[next(cells) for _ in range(columns)] for _ in range(records)]
            expected = (report_in(answer), b"") if answer.startswith("fault") else bytes_in(answer)
            self.assertEqual(answer_of(hemakuliwi.write, int(line.split()[1]), rows), expected, name)
        self.assertGreater(count, 80)


# ---- faults


class Faults(unittest.TestCase):
    def test_each_number_has_its_place_and_its_sentence(self):
        read, decode, convert, write = hemakuliwi.read, hemakuliwi.decode, hemakuliwi.convert, hemakuliwi.write
        finished = Converter(3, 3)
        finished.feed(b"a\n")
        finished.end()
        limit = "at record 1, a limit is passed (16,777,215 bytes in a file, 4,096 bytes or 64 columns in a record)"
        unwritable = "can't be written in the target dialect"
        lacking = f"{unwritable}, which lacks such a cell or character or takes the name for an earlier one"
        too_long = f"{unwritable}, which asks for a column or in which the record or the file gets too long"
        for call, arguments, report, sentence in [
            (read, ("csvj", b""), (1, 1, 0, 0), "the file ends at byte 0 before record 1, the header, begins"),
            (read, ("csv+", b"a\n\xff\n"), (2, 2, 0, 2), "at record 2, byte 2 is not UTF-8 text"),
            (
                read, ("tdif", b'"a" \n'), (3, 1, 0, 3),
                "at record 1, byte 3 can't stand there in a file of the source dialect",
            ),
            (read, ("csvj", b'"a'), (4, 1, 0, 2), "the file ends at byte 2 before record 1 is complete"),
            (
                read, ("csv+", b"a,b\n1\n"), (5, 2, 0, 4),
                "record 2 has another number of cells than the header; it begins at byte 4",
            ),
            (
                read, ("csvj", b'"a","\\u0061"\n'), (6, 1, 2, 0),
                "record 1, the header, has in column 2 the name of an earlier column; it begins at byte 0",
            ),
            (
                write, ("csvj", [["a", "a"]]), (6, 1, 2, 0),
                "record 1, the header, has in column 2 the name of an earlier column",
            ),
            (
                read, ("tdif", b"\\N\n"), (7, 1, 1, 0),
                "record 1, the header, has no name in column 1, where the cell is not text; it begins at byte 0",
            ),
            (
                read, ("csv+", b"a" * 4_097), (8, 1, 0, 4_096),
                f"{limit}; byte 4096 is the first too many or, for columns, the record's first",
            ),
            (write, ("csvj", [["a"] * 65]), (8, 1, 0, 0), limit),
            (convert, ("csvj", "tdif", b'"a"\n1\n'), (9, 2, 1, 4), f"column 1 of record 2 {lacking}; the record begins at byte 4"),
            (write, ("csv+", [["a"], [1]]), (9, 2, 1, 0), f"column 1 of record 2 {lacking}"),
            (convert, ("csvj", "tdif", b"\n\n"), (9, 1, 0, 0), f"record 1 {too_long}; it begins at byte 0"),
            (decode, ("csvj", b'"\xff'), (2, 0, 0, 1), "byte 1 of the cell is not UTF-8 text"),
            (decode, ("csvj", b"tru "), (3, 0, 0, 3), "byte 3 of the cell can't stand there in this dialect"),
            (decode, ("csvj", b"tru"), (4, 0, 0, 3), "the cell ends at byte 3 before it is complete"),
            (read, (4, b"a\n"), (11, 0, 0, 0), "there is no such dialect, or the file was ended before"),
            (finished.end, (), (11, 0, 0, 0), "there is no such dialect, or the file was ended before"),
            (
                write, ("csvj", []), (12, 0, 0, 0),
                "what is to be written is no table: it has no header, a number is not spelt as one, or a text is not UTF-8",
            ),
        ]:
            with self.assertRaises(Refused, msg=arguments) as caught:
                call(*arguments)
            self.assertEqual(caught.exception.report, report)
            self.assertEqual(str(caught.exception), f"refused ({report[0]}): {sentence}")
            self.assertEqual(caught.exception.written, b"")

    def test_a_stored_run_of_the_proved_program_has_the_same_text_and_sentence(self):
        count = 0
        for arguments in sorted(RUNS.glob("*.args")):
            said = arguments.with_suffix(".err").read_text()
            if said.startswith("usage: "):
                continue
            converted, sentence = io.BytesIO(), ""
            dialects = [int(word) if word.isdigit() else word for word in arguments.read_text().split()]
            try:
                hemakuliwi.convert_stream(*dialects, io.BytesIO(arguments.with_suffix(".in").read_bytes()), converted)
            except Refused as refused:
                sentence = f"{refused}\n"
            self.assertEqual(sentence, said, arguments)
            self.assertEqual(converted.getvalue(), arguments.with_suffix(".out").read_bytes(), arguments)
            count += 1
        self.assertGreaterEqual(count, 19)

    def test_a_refusal_has_the_parts_of_its_report(self):
        refused = Refused(Report(9, 3, 2, 36), b"written")
        self.assertIs(refused.number, Fault.NOT_CARRIED)
        self.assertEqual((refused.record, refused.column, refused.offset), (3, 2, 36))
        again = pickle.loads(pickle.dumps(refused))
        self.assertEqual((again.report, again.written, str(again)), (refused.report, b"written", str(refused)))

    def test_room_is_never_short(self):
        # Fault 10 is the one that no call here can give: texts at six bytes for each byte, and more cells than any guess.
        controls = b'"' + b"\\u0001" * 600 + b'"'
        self.assertEqual(hemakuliwi.convert(1, 1, controls + b"\n"), controls + b"\n")
        self.assertEqual(hemakuliwi.write(1, [["\x01" * 682]]), b'"' + b"\\u0001" * 682 + b'"\n')
        self.assertEqual(hemakuliwi.convert(3, 2, b"\x01"), b'"\x01"\n')
        self.assertEqual(hemakuliwi.convert(3, 1, b"\x01"), b'"\\u0001"\n')
        table = hemakuliwi.read(3, b"a,b\n" + b",\n" * 50_000)
        self.assertEqual((table.columns, len(table.rows), table.rows[-1]), (2, 50_000, [text(""), text("")]))
        self.assertEqual(hemakuliwi.write(3, [["a"], *[[""]] * 5]), b"a\r\n" + b'""\r\n' * 5)


# ---- converting


STOPS = [["stop", "note"], ["Harbour", "open, and\r\nlit"], ["Old \"Mint\"", "\U0001f600\t\\"]]
STOPS_IN = {
    1: '"stop","note"\n"Harbour","open, and\\r\\nlit"\n"Old \\"Mint\\"","\U0001f600\\t\\\\"\n'.encode(),
    2: '"stop","note"\n"Harbour","open, and\r\nlit"\n"Old ""Mint""","\U0001f600\t\\"\n'.encode(),
    3: 'stop,note\r\nHarbour,"open, and\r\nlit"\r\n"Old ""Mint""",\U0001f600\t\\\r\n'.encode(),
}


class Converting(unittest.TestCase):
    def test_all_nine_pairs(self):
        for source, target in PAIRS:
            self.assertEqual(hemakuliwi.convert(source, target, STOPS_IN[source]), STOPS_IN[target], (source, target))
        for target in DIALECTS:
            self.assertEqual(hemakuliwi.write(target, STOPS), STOPS_IN[target])

    def test_a_dialect_has_a_name_a_number_and_a_member(self):
        for dialects in [("CSVJ", "Csv+"), (1, 3), (Dialect.CSVJ, Dialect.CSV_PLUS)]:
            self.assertEqual(hemakuliwi.convert(*dialects, b'"a"\n'), b"a\r\n")

    def test_every_cut_comes_to_the_whole(self):
        files = {
            1: [STOPS_IN[1], b'\xef\xbb\xbf "a" ,"\\ud83d\\ude00"\r\n-1.5e+3,\tnull\n"\\ud83d",true\n', b'"a"\n01\n'],
            2: [STOPS_IN[2], b'# fares\r\n"a"\r"b"\r\n#\n\\N\n"\xc3\xa9"', b'"a"\n\n', b'"a","A"\n'],
            3: [STOPS_IN[3], b'a,b\n"x ""y""",\n,"', b"\n\r\n\"\"\r\nlast", b"\xef\xbb\xbfa\n", b"a,b\n1,2\n3\nlost\n"],
        }
        for source, target in PAIRS:
            for file in files[source]:
                expected, report = whole(source, target, file)
                bytewise = in_pieces(source, target, [file[i : i + 1] for i in range(len(file))])
                self.assertEqual(bytewise[1], report, file)
                if report is None:
                    self.assertEqual(bytewise[0], expected, file)
                else:
                    sound = file[: report.offset]
                    self.assertEqual(bytewise[0], self.completed(source, target, sound), file)
                for cut in range(len(file) + 1):
                    self.assertEqual(in_pieces(source, target, [file[:cut], b"", file[cut:]]), bytewise, (file, cut))

    def completed(self, source, target, file):
        """The text of the complete records of bytes that a fault stands after, found by another way than a converter."""
        for end in range(len(file), 0, -1):
            converted, report = whole(source, target, file[:end])
            # CSV+ takes a record without an ending for its last, but its ending was to come.
            if report is None and (source != 3 or file[end - 1 : end] == b"\n"):
                return converted
        return b""

    def test_pieces_may_be_long(self):
        rows = [[str(i), f"stop {i}"] for i in range(20_000)]
        file = hemakuliwi.write("csv+", [["number", "name"], *rows])
        converted = hemakuliwi.write("csvj", [["number", "name"], *rows])
        self.assertGreater(len(file), 50 * 4_096)
        for size in (4_095, 4_096, 4_097, 100_000, len(file)):
            pieces = [file[i : i + size] for i in range(0, len(file), size)]
            self.assertEqual(in_pieces(3, 1, pieces), (converted, None), size)

    def test_a_long_piece_with_a_fault_loses_no_record(self):
        sound = b"name\n" + b"Harbour\n" * 2_000
        converter = Converter("csv+", "tdif")
        with self.assertRaises(Refused) as caught:
            converter.feed(sound + b'Old "Mint"\n' + b"Harbour\n" * 2_000)
        self.assertEqual(caught.exception.report, (3, 2_002, 0, len(sound) + 4))
        self.assertEqual(caught.exception.written, hemakuliwi.convert("csv+", "tdif", sound))
        self.assertEqual(converter.records, 2_001)
        for call in (lambda: converter.feed(b""), lambda: converter.feed(b"a\n"), converter.end):
            self.assertEqual(answer_of(call), (caught.exception.report, b""))

    def test_cells_and_files_at_the_limits(self):
        cell = b"x" * 4_096
        self.assertEqual(hemakuliwi.read("csv+", cell).names, [cell.decode()])
        self.assertEqual(hemakuliwi.convert("csv+", "csv+", cell), cell + b"\r\n")
        self.assertEqual(answer_of(hemakuliwi.convert, "csv+", "tdif", cell), (Report(9, 1, 0, 0), b""))
        names = [f"n{i}" for i in range(65)]
        self.assertEqual(hemakuliwi.read("csvj", hemakuliwi.write("csvj", [names[:64]])).names, names[:64])
        self.assertEqual(answer_of(hemakuliwi.write, "csvj", [names]), (Report(8, 1, 0, 0), b""))
        file = (b"x" * 4_095 + b"\n") * 4_096
        self.assertEqual(hemakuliwi.convert("csv+", "csvj", file[:2]), b'"xx"\n')
        self.assertEqual(len(hemakuliwi.read("csv+", file[:-1]).rows), 4_095)
        self.assertEqual(answer_of(hemakuliwi.read, "csv+", file), (Report(8, 4_096, 0, hemakuliwi.FILE_BYTES), b""))
        self.assertEqual(hemakuliwi.decode("csv+", b"y" * 100_000), Cell(Kind.TEXT, b"y" * 100_000))

    def test_an_empty_input(self):
        for source, target in PAIRS:
            self.assertEqual(whole(source, target, b""), (None, (1, 1, 0, 0)))
            self.assertEqual(in_pieces(source, target, []), (b"", (1, 1, 0, 0)))
            self.assertEqual(in_pieces(source, target, [b""]), (b"", (1, 1, 0, 0)))

    def test_a_table_without_columns(self):
        self.assertEqual(hemakuliwi.read("csvj", b"\n\n\n"), ([], [[], []]))
        self.assertEqual(hemakuliwi.write("csvj", [[], [], []]), b"\n\n\n")

    def test_a_converter_knows_its_records_and_names(self):
        converter = Converter("csvj", "csvj")
        converter.feed(b'"\\u0061","')
        self.assertEqual((converter.records, converter.names), (0, None))
        converter.feed(b'b"\n1,2\n')
        self.assertEqual((converter.records, converter.names), (2, ["a", "b"]))
        with self.assertRaises(Refused):
            converter.feed(b"3\n")
        self.assertEqual((converter.records, converter.names), (2, ["a", "b"]))

    def test_a_copy_goes_on_alone(self):
        converter = Converter("csv+", "csvj")
        converter.feed(b"name\nHar")
        for again in (copy.copy(converter), copy.deepcopy(converter), pickle.loads(pickle.dumps(converter))):
            self.assertEqual(again.feed(b"bour\n"), b'"Harbour"\n')
            self.assertEqual(again.end(), b"")
        self.assertEqual(converter.feed(b"d\n"), b'"Hard"\n')
        with self.assertRaises(ValueError):
            converter.__setstate__(b"short")

    def test_a_state_that_no_calls_made_is_survived(self):
        for byte in (0x01, 0x7F, 0xFF):
            converter = Converter(1, 3)
            converter.__setstate__(bytes([byte]) * len(converter.__getstate__()))
            for call in (lambda: converter.feed(b'"a"\n'), converter.end, lambda: converter.names):
                with contextlib.suppress(Refused):
                    call()

    def test_what_is_read_of_a_state_stays_inside_it(self):
        def state_of(converter):
            return hemakuliwi._Converter.from_buffer_copy(converter.__getstate__())

        converter = Converter("csv+", "csvj")
        converter.feed(b'stop,"a')
        state = state_of(converter)
        self.assertEqual((state.records, state.columns, state.name(0)), (0, 0, b""))
        converter.feed(b'b"\n')
        state = state_of(converter)
        self.assertEqual((state.records, state.columns), (1, 2))
        self.assertEqual([state.name(k) for k in (0, 1, 2, 2**64)], [b"stop", b'"ab"', b"", b""])
        ones = hemakuliwi._Converter.from_buffer_copy(b"\xff" * len(converter.__getstate__()))
        self.assertEqual((ones.records, ones.columns), (2**64 - 1, hemakuliwi.COLUMNS))
        self.assertEqual([ones.name(k) for k in (0, 1, 63, 64, 2**64)], [b""] * 5)
        ones.name_ends[0], ones.name_ends[1], ones.name_ends[2] = 4_096, 4_095, 4_097
        self.assertEqual([len(ones.name(k)) for k in range(4)], [4_096, 0, 0, 0])

    def test_threads_may_call_at_the_same_time(self):
        shared, outputs = Converter("csv+", "csvj"), []
        shared.feed(b"name\n")

        def work():
            for _ in range(200):
                outputs.append(shared.feed(b"Harbour\n" * 600))
                self.assertEqual(hemakuliwi.convert("csvj", "tdif", STOPS_IN[1]), STOPS_IN[2])

        threads = [threading.Thread(target=work) for _ in range(4)]
        for thread in threads:
            thread.start()
        for thread in threads:
            thread.join()
        self.assertEqual(outputs, [b'"Harbour"\n' * 600] * 800)
        self.assertEqual(shared.records, 1 + 800 * 600)


# ---- cells


class Cells(unittest.TestCase):
    def test_what_was_written_is_read(self):
        rows = [["a", "b"], [None, True], [False, 17], [number("1E+05"), Decimal("-0.50")], [b"bytes", Kind.NULL], [text("é"), NULL]]
        table = hemakuliwi.read("csvj", hemakuliwi.write("csvj", rows))
        self.assertEqual(table.names, ["a", "b"])
        self.assertEqual(
            table.rows,
            [[NULL, TRUE], [FALSE, number(17)], [number("1E+05"), number("-0.50")], [text("bytes"), number(5)], [text("é"), NULL]],
        )
        self.assertEqual(hemakuliwi.write("csvj", [table.names, *table.rows]), hemakuliwi.write("csvj", rows))
        self.assertEqual(hemakuliwi.write("csvj", table), hemakuliwi.write("csvj", rows))

    def test_a_lone_surrogate_is_kept(self):
        file = b'"a"\n"\\ud83d"\n"\\ude00\\ud83d"\n"\\ud83d\\ude00"\n'
        table = hemakuliwi.read("csvj", file)
        self.assertEqual([row[0].text for row in table.rows], ["\ud83d", "\ude00\ud83d", "\U0001f600"])
        self.assertEqual(table.rows[0][0].content, b"\xed\xa0\xbd")
        written = hemakuliwi.write("csvj", [table.names, *[[row[0].text] for row in table.rows]])
        self.assertEqual(written, b'"a"\n"\\ud83d"\n"\\ude00\\ud83d"\n"\xf0\x9f\x98\x80"\n')
        self.assertEqual(answer_of(hemakuliwi.convert, "csvj", "tdif", file), (Report(9, 2, 1, 4), b""))
        # Two halves of a pair are no text: together they are one code point.
        self.assertEqual(answer_of(hemakuliwi.write, "csvj", [["\ud83d\ude00"]]), (Report(12, 0, 0, 0), b""))

    def test_what_is_no_table_is_refused(self):
        no_table = (Report(12, 0, 0, 0), b"")
        self.assertEqual(answer_of(hemakuliwi.write, "csvj", []), no_table)
        for cell in [Cell(Kind.TEXT, b"\xff"), Cell(Kind.NULL, b"null"), number("01"), number("é"), number("NaN")]:
            self.assertEqual(answer_of(hemakuliwi.write, "csvj", [["a"], [cell]]), no_table, cell)
        self.assertEqual(answer_of(hemakuliwi.write, "csvj", [["a", None]]), (Report(7, 1, 2, 0), b""))
        self.assertEqual(answer_of(hemakuliwi.write, "tdif", [["a", "A"]]), (Report(6, 1, 2, 0), b""))
        # Four cells are two columns times two records, and yet no table.
        with self.assertRaisesRegex(ValueError, "^row 2 has 1 cells, and the first has 2$"):
            hemakuliwi.write("csvj", [["a", "b"], ["c"], ["d"]])

    def test_an_integer_of_any_type_is_a_number(self):
        class Int64:
            """As the integers of numpy: no int."""

            def __index__(self):
                return -(2**63)

        for integer, spelling in [(Int64(), b"-9223372036854775808"), (Kind.NULL, b"5"), (0, b"0"), (10**400, b"1" + b"0" * 400)]:
            self.assertEqual(number(integer).content, spelling)
            self.assertEqual(hemakuliwi.write("csvj", [["a"], [integer]]), b'"a"\n' + spelling + b"\n")
        self.assertEqual(hemakuliwi.write("csvj", [["a"], [True], [False]]), b'"a"\ntrue\nfalse\n')

    def test_a_buffer_of_bytes_is_a_text(self):
        for cell in [b"a", bytearray(b"a"), memoryview(b"a"), memoryview(b"abc")[::-2][1:]]:
            self.assertEqual(hemakuliwi.write("csvj", [[cell]]), b'"a"\n')

    def test_what_is_no_cell_is_named_with_its_place_and_with_advice(self):
        class Truth:
            """As the booleans of numpy: neither a bool nor an integer."""

            def __bool__(self):
                return True

        class Vector:
            """As the arrays of numpy: an integer only if there is one."""

            def __index__(self):
                raise TypeError("only integer scalar arrays can be converted to a scalar index")

        what_it_means = "write what it means, by str(), bool(), int() or number()"
        no_float = "2.4 and 2.40 are the same float, so write number('2.40') or a Decimal"
        for wrong, name, advice in [
            (2.40, "float", no_float),
            (3.0, "float", no_float),
            (float("nan"), "float", no_float),
            (datetime.date(2026, 11, 17), "date", "write its text, such as isoformat() gives"),
            (datetime.datetime(2026, 11, 17), "datetime", "write its text, such as isoformat() gives"),
            (Truth(), "Truth", what_it_means),
            (Vector(), "Vector", what_it_means),
            (Fraction(12, 5), "Fraction", what_it_means),
            (2j, "complex", what_it_means),
            (["a"], "list", what_it_means),
            ({"a": 1}, "dict", what_it_means),
            (array("B", b"a"), "array", what_it_means),
        ]:
            with self.assertRaises(TypeError, msg=name) as caught:
                hemakuliwi.write(1, [["a", "b"], [1, 2], [1, wrong]])
            kinds = "a str, bytes, an int, a Decimal, a bool, None or a Cell"
            self.assertEqual(str(caught.exception), f"row 3, column 2: a cell is {kinds}, and no {name}: {advice}")
            # What is no number for `write` is none for `number`.
            with self.assertRaises(TypeError, msg=name) as caught:
                number(wrong)
            self.assertEqual(str(caught.exception), f"a number is a str that spells it, an int or a Decimal, and no {name}: {advice}")
        for wrong in [True, None, b"2.40", text("2.40")]:
            with self.assertRaisesRegex(TypeError, f"^a number is a str .* and no {type(wrong).__name__}: "):
                number(wrong)
        for wrong in [5, None, b"a"]:
            with self.assertRaisesRegex(TypeError, f"^a text is a str, and no {type(wrong).__name__}$"):
                text(wrong)
        with self.assertRaisesRegex(ValueError, "^row 2, column 1: 9 is not a valid Kind$"):
            hemakuliwi.write(1, [["a"], [Cell(9)]])
        with self.assertRaisesRegex(TypeError, "^row 2, column 1: bytes are needed, or another buffer of them, and no str$"):
            hemakuliwi.write(1, [["a"], [Cell(Kind.TEXT, "a")]])

    def test_a_decimal_that_is_not_finite_is_refused_with_its_place(self):
        for spelling in ["NaN", "-NaN", "sNaN", "NaN12", "Infinity", "-Infinity"]:
            with self.assertRaisesRegex(ValueError, f"^row 2, column 3: {spelling} is no number that a table can have$"):
                hemakuliwi.write("csvj", [["a", "b", "c"], [1, 2, Decimal(spelling)]])
            with self.assertRaisesRegex(ValueError, f"^{spelling} is no number that a table can have$"):
                number(Decimal(spelling))

    def test_a_decimal_is_spelt_as_json_spells_it(self):
        spellings = ["1E+2", "-1E+2", "1.50E+30", "1E-7", "0E-10", "0E+3", "-0", "-0.00", ".5", "5.", "1e999999", "1E-999999", "007", "2.40"]
        decimals = [Decimal(spelling) for spelling in spellings]
        read = hemakuliwi.read("csvj", hemakuliwi.write("csvj", [["a"], *[[decimal] for decimal in decimals]]))
        for decimal, [cell] in zip(decimals, read.rows):
            self.assertIs(cell.kind, Kind.NUMBER)
            self.assertEqual(Decimal(cell.text).as_tuple(), decimal.as_tuple())
            self.assertEqual(json.loads(cell.text, parse_float=Decimal, parse_int=Decimal).as_tuple(), decimal.as_tuple())

    def test_rows_may_be_any_iterable(self):
        written = b'"a","a2"\n"b","b2"\n'
        self.assertEqual(hemakuliwi.write(1, ((name, name + "2") for name in "ab")), written)
        self.assertEqual(hemakuliwi.write(1, [iter([name, name + "2"]) for name in "ab"]), written)
        row = {"a": "b", "a2": "b2"}
        self.assertEqual(hemakuliwi.write(1, [row.keys(), row.values()]), written)
        self.assertEqual(hemakuliwi.write(1, row.items()), b'"a","b"\n"a2","b2"\n')

    def test_a_mapping_is_a_row_by_the_names_of_the_header(self):
        written = b'"a","b"\n1,2\n3,null\n4,5\n'
        for header in (["a", "b"], ("a", "b"), iter(["a", "b"]), [b"a", text("b")], {"a": 0, "b": 0}.keys()):
            rows = [header, {"b": 2, "a": 1}, MappingProxyType({"a": 3, "b": None}), [4, 5]]
            self.assertEqual(hemakuliwi.write("csvj", rows), written)
        self.assertEqual(hemakuliwi.write("csvj", hemakuliwi.Table(["a", "b"], [{"b": 2, "a": 1}])), b'"a","b"\n1,2\n')
        self.assertEqual(hemakuliwi.write("csvj", [[], {}]), b"\n\n")
        # A name that is there by default is not there, and looking for it does not make it.
        row = collections.defaultdict(int, {"a": 1})
        with self.assertRaises(ValueError):
            hemakuliwi.write("csvj", [["a", "b"], row])
        self.assertEqual(row, {"a": 1})

    def test_a_mapping_loses_no_value(self):
        for row, what in [
            ({"a": 1}, "missing: 'b'"),
            ({}, "missing: 'a', 'b'"),
            ({"a": 1, "b": 2, "c": 3}, "unknown: 'c'"),
            # What csv.DictReader makes of a row that is too long.
            ({"a": 1, "b": 2, None: ["3"]}, "unknown: None"),
            ({"a": 1, "b": 2, 2.5: 3, (1, 2): 4}, "unknown: 2.5, (1, 2)"),
            ({"A": 1, "b": 2}, "missing: 'a'; unknown: 'A'"),
            ({b"a": 1, "b": 2}, "missing: 'a'; unknown: b'a'"),
        ]:
            with self.assertRaises(ValueError) as caught:
                hemakuliwi.write("csvj", [["a", "b"], {"a": 1, "b": 2}, row])
            self.assertEqual(str(caught.exception), f"row 3 has other names than the header ({what})")

        class Twice(dict):
            """As the headers of a mail: a name may be there more than once."""

            def __len__(self):
                return 2

        with self.assertRaisesRegex(ValueError, r"^row 2 has other names than the header \(a name is there twice\)$"):
            hemakuliwi.write("csvj", [["a"], Twice(a=1)])
        with self.assertRaisesRegex(TypeError, "^row 2, column 2: a cell is .*, and no float: "):
            hemakuliwi.write("csvj", [["a", "b"], {"b": 2.5, "a": 1}])
        for rows in ([{"a": 1}], [{"a": 1}, {"a": 2}], [{}]):
            with self.assertRaisesRegex(TypeError, r"^row 1 is the header, and no dict: write the names first, \[list\(rows\[0\]\), \*rows\]$"):
                hemakuliwi.write("csvj", rows)
        with self.assertRaisesRegex(TypeError, "^a table is an iterable of rows, the first of them the header, and no dict$"):
            hemakuliwi.write("csvj", {("a", "b"): (1, 2)})
        # Two columns of a name are refused, whatever a mapping has for it.
        self.assertEqual(answer_of(hemakuliwi.write, "csvj", [["a", "a"], {"a": 1}]), (Report(6, 1, 2, 0), b""))
        self.assertEqual(answer_of(hemakuliwi.write, "csvj", [["a", 1], {"a": 1, "1": 2}]), (Report(7, 1, 2, 0), b""))
        with self.assertRaisesRegex(ValueError, "^row 1, column 2: 'utf-8' codec can't decode byte 0xff"):
            hemakuliwi.write("csvj", [["a", b"\xff"], {"a": 1, "b": 2}])
        self.assertEqual(hemakuliwi.write("csvj", [["\ud83d"], {"\ud83d": 1}]), b'"\\ud83d"\n1\n')


# ---- arguments


class Arguments(unittest.TestCase):
    def test_any_buffer_of_bytes_will_do(self):
        file = b'"a","b"\n1,null\n'
        padded = memoryview(bytearray(b"".join(bytes([byte, 0]) for byte in file)))[::2]
        for data in [file, bytearray(file), memoryview(file), memoryview(bytearray(file)).toreadonly(), array("B", file), padded]:
            self.assertEqual(hemakuliwi.convert(1, 1, data), file)
            self.assertEqual(hemakuliwi.read(1, data).names, ["a", "b"])
            self.assertEqual(in_pieces(1, 1, [data]), (file, None))
            self.assertEqual(bytes(data), file)
        self.assertEqual(hemakuliwi.decode(1, bytearray(b'"a"')), text("a"))
        self.assertEqual(hemakuliwi.write(1, [[Cell(Kind.TEXT, bytearray(b"a"))]]), b'"a"\n')

    def test_a_buffer_can_change_afterwards(self):
        data = bytearray(b"a\n")
        hemakuliwi.read(3, data)
        data += b"b\n"
        self.assertEqual(len(hemakuliwi.read(3, data).rows), 1)

    def test_wrong_types_are_type_errors(self):
        converter = Converter(1, 1)
        for wrong in ['"a"\n', 5, None, [1, 2], object()]:
            for call in [
                lambda: hemakuliwi.read(1, wrong),
                lambda: hemakuliwi.decode(1, wrong),
                lambda: hemakuliwi.convert(1, 1, wrong),
                lambda: converter.feed(wrong),
            ]:
                with self.assertRaisesRegex(TypeError, "^bytes are needed"):
                    call()
        for wrong in [None, 1.0, b"csvj", True, ("csvj",)]:
            for call in [
                lambda: hemakuliwi.read(wrong, b""),
                lambda: hemakuliwi.convert(1, wrong, b""),
                lambda: hemakuliwi.write(wrong, [["a"]]),
                lambda: Converter(wrong, 1),
            ]:
                with self.assertRaisesRegex(TypeError, "^a dialect is a Dialect, a name or a number"):
                    call()
        for wrong in ["ab", b"ab", bytearray(b"ab"), memoryview(b"ab"), text("ab"), {"a", "b"}, frozenset("ab"), 5, None]:
            name = type(wrong).__name__
            for place, rows in [(1, [wrong]), (2, [["a", "b"], wrong])]:
                with self.assertRaisesRegex(TypeError, f"^row {place}: a row is a sequence of cells, or a mapping .*, and no {name}$"):
                    hemakuliwi.write(1, rows)
            with self.assertRaisesRegex(TypeError, f"^a table is an iterable of rows, the first of them the header, and no {name}$"):
                hemakuliwi.write(1, wrong)
        self.assertEqual(converter.feed(b'"a"\n'), b'"a"\n')

    def test_unknown_dialects(self):
        for name in ["", "csv", "1", "json"]:
            with self.assertRaisesRegex(ValueError, "is no dialect: there are csvj, tdif and csv\\+$"):
                hemakuliwi.read(name, b"a\n")
        for unknown in [0, 4, 257, -1, 2**32 - 1, 2**32 + 1, 2**64 + 1]:
            self.assertEqual(answer_of(hemakuliwi.read, unknown, b"a\n"), (Report(11, 0, 0, 0), b""))
            self.assertEqual(answer_of(hemakuliwi.convert, 3, unknown, b"a\n"), (Report(11, 0, 0, 0), b""))
            self.assertEqual(answer_of(hemakuliwi.write, unknown, [["a"]]), (Report(11, 0, 0, 0), b""))
            self.assertEqual(answer_of(Converter(unknown, 3).feed, b"a\n"), (Report(11, 0, 0, 0), b""))


# ---- streams


class Drip(io.RawIOBase):
    """A raw file that gives and takes three bytes at a time, and fails once it has no more to give."""

    def __init__(self, data=b"", failure=None):
        self.data, self.failure, self.taken = data, failure, b""

    def read(self, size=-1):
        given, self.data = self.data[: min(size, 3)], self.data[min(size, 3) :]
        if not given and self.failure:
            raise self.failure
        return given

    def write(self, data):
        self.taken += bytes(data[:3])
        return min(len(data), 3)


class Blocked(io.RawIOBase):
    """A raw file that has nothing to give and takes nothing, for now."""

    def read(self, _size=-1):
        return None

    def write(self, _data):
        return None


class Streams(unittest.TestCase):
    def test_a_file_goes_through(self):
        for source, target in PAIRS:
            for reader, writer in [(io.BytesIO(STOPS_IN[source]), io.BytesIO()), (Drip(STOPS_IN[source]), Drip())]:
                count = hemakuliwi.convert_stream(source, target, reader, writer)
                self.assertEqual(writer.taken if isinstance(writer, Drip) else writer.getvalue(), STOPS_IN[target])
                self.assertEqual(count, len(STOPS_IN[target]))

    def test_real_files_go_through(self):
        file = b"name\n" + b"Harbour\n" * 30_000
        with tempfile.TemporaryDirectory() as folder:
            source, target = Path(folder, "source"), Path(folder, "target")
            source.write_bytes(file)
            for buffering in (-1, 0):
                with open(source, "rb", buffering) as reader, open(target, "wb", buffering) as writer:
                    hemakuliwi.convert_stream("csv+", "csvj", reader, writer)
                self.assertEqual(target.read_bytes(), hemakuliwi.convert("csv+", "csvj", file))

    def test_completed_records_are_written_before_a_fault(self):
        file = b"stop,fare\nHarbour,2.40\nOld Mint\nlost,1\n"
        for reader in (io.BytesIO(file), Drip(file)):
            writer = io.BytesIO()
            with self.assertRaises(Refused) as caught:
                hemakuliwi.convert_stream("csv+", "tdif", reader, writer)
            self.assertEqual(writer.getvalue(), b'"stop","fare"\n"Harbour","2.40"\n')
            self.assertEqual((caught.exception.report, caught.exception.written), ((5, 3, 0, 23), b""))

    def test_completed_records_are_written_before_the_reader_fails(self):
        writer = io.BytesIO()
        with self.assertRaisesRegex(OSError, "the line went dead"):
            hemakuliwi.convert_stream("csv+", "tdif", Drip(b"name\nHarbour\nOld M", OSError("the line went dead")), writer)
        self.assertEqual(writer.getvalue(), b'"name"\n"Harbour"\n')

    def test_a_record_is_written_as_it_completes(self):
        from_pipe, to_pipe = os.pipe()
        written = threading.Event()

        class Writer(io.BytesIO):
            def write(self, data):
                count = super().write(data)
                written.set()
                return count

        writer = Writer()
        with open(from_pipe, "rb") as reader, open(to_pipe, "wb", 0) as feeder:
            convert = threading.Thread(target=hemakuliwi.convert_stream, args=("csv+", "csvj", reader, writer))
            convert.start()
            feeder.write(b"name\nHar")
            self.assertTrue(written.wait(20), "the header is held back until the pipe ends")
            self.assertEqual(writer.getvalue(), b'"name"\n')
            feeder.write(b"bour")
            feeder.close()
            convert.join()
        self.assertEqual(writer.getvalue(), b'"name"\n"Harbour"\n')

    def test_a_file_that_would_block_is_told(self):
        with self.assertRaises(BlockingIOError):
            hemakuliwi.convert_stream(1, 1, Blocked(), io.BytesIO())
        with self.assertRaises(BlockingIOError):
            hemakuliwi.convert_stream(1, 1, io.BytesIO(b'"a"\n'), Blocked())

    def test_characters_are_no_bytes(self):
        with self.assertRaisesRegex(TypeError, "^bytes are needed"):
            hemakuliwi.convert_stream(3, 1, io.StringIO("a\n"), io.BytesIO())

    def test_files_before_the_dialects_are_a_type_error(self):
        reader, writer = io.BytesIO(b"name\nHarbour\n"), io.BytesIO()
        for wrong in [(reader, writer, "csv+", "csvj"), (reader, writer, 3, 1), ("csv+", "csvj", "in", "out"), ("csv+", "csvj", reader, "out")]:
            with self.assertRaisesRegex(TypeError, r"^convert_stream\(source, target, reader, writer\) takes the dialects first"):
                hemakuliwi.convert_stream(*wrong)
        self.assertEqual((reader.tell(), writer.getvalue()), (0, b""))
        self.assertEqual(hemakuliwi.convert_stream(writer=writer, reader=reader, target="csvj", source="csv+"), len(writer.getvalue()))


# ---- the library


class Library(unittest.TestCase):
    """How the module finds the library, in a Python of its own."""

    def setUp(self):
        folder = tempfile.TemporaryDirectory()
        self.addCleanup(folder.cleanup)
        self.folder = Path(folder.name).resolve()
        self.module = self.folder / "python" / "hemakuliwi.py"
        self.module.parent.mkdir()
        shutil.copy(hemakuliwi.__file__, self.module)
        self.library = Path(hemakuliwi._library._name).resolve()

    def imported(self, **environment):
        """What a program says that prints the library's place."""
        program = "import hemakuliwi; print(hemakuliwi._library._name)"
        inherited = {name: value for name, value in os.environ.items() if name not in ("HEMAKULIWI_LIBRARY", "LD_LIBRARY_PATH")}
        return subprocess.run(
            [sys.executable, "-B", "-c", program],
            cwd=self.module.parent,
            env={**inherited, **environment},
            capture_output=True,
            text=True,
        )

    def test_the_variable_names_the_file(self):
        self.assertEqual(self.imported(HEMAKULIWI_LIBRARY=str(self.library)).stdout.strip(), str(self.library))

    def test_beside_the_module_then_in_the_repository_then_by_the_loader(self):
        named = self.folder / "libraries"
        named.mkdir()
        shutil.copy(self.library, named / "libhemakuliwi.so.0")
        self.assertEqual(self.imported(LD_LIBRARY_PATH=str(named)).stdout.strip(), "libhemakuliwi.so.0")
        built = self.folder / "target" / "staticlib" / "libhemakuliwi.so.0"
        built.parent.mkdir(parents=True)
        shutil.copy(self.library, built)
        self.assertEqual(self.imported(LD_LIBRARY_PATH=str(named)).stdout.strip(), str(built))
        beside = self.module.parent / "libhemakuliwi.so"
        shutil.copy(self.library, beside)
        self.assertEqual(self.imported(LD_LIBRARY_PATH=str(named)).stdout.strip(), str(beside))

    def test_a_library_that_is_missing_is_told(self):
        missing = self.imported(HEMAKULIWI_LIBRARY=str(self.folder / "none.so"))
        self.assertNotEqual(missing.returncode, 0)
        self.assertIn("ImportError: Hemakuliwi's shared library can't be loaded. Build it with `make`", missing.stderr)
        self.assertIn(str(self.folder / "none.so"), missing.stderr)

    def test_the_version_is_that_of_the_header(self):
        header = (REPOSITORY / "include" / "hemakuliwi.h").read_text(encoding="utf-8")
        self.assertEqual(re.findall(r'^#define HK_VERSION "(.*)"$', header, re.MULTILINE), [hemakuliwi.__version__])

    def test_another_library_is_no_library(self):
        other = self.imported(HEMAKULIWI_LIBRARY=shutil.which("true"))
        self.assertIn("ImportError: Hemakuliwi's shared library can't be loaded.", other.stderr)


if __name__ == "__main__":
    unittest.main()
