"""The tables of the trials, and how they are compared."""

import json


class Number(str):
    """A number of CSVJ, as it is spelt."""


class Refused(Exception):
    """A program has refused a table, with what it said."""


class NotCarried(Exception):
    """The dialect lacks such a cell, so that there is nothing to try."""


MARK = "\ufeff"


def pair(value):
    """A table of two columns, in which the value stands second."""
    return [["id", "value"], ["1", value], ["2", "last"]]


CASES = {
    "plain text": pair("abc"),
    "quote": pair('a"b'),
    "comma": pair("a,b"),
    "LF inside": pair("a\nb"),
    "CR inside": pair("a\rb"),
    "CRLF inside": pair("a\r\nb"),
    "spaces at both ends": pair(" a "),
    "tab": pair("a\tb"),
    "backslash": pair("a\\b\\n"),
    "non-ASCII": pair("é€😀"),
    "empty text": pair(""),
    "null": pair(None),
    "the text \\N": pair("\\N"),
    "the text NULL": pair("NULL"),
    "NUL": pair("a\0b"),
    "leading zeros": pair("007"),
    "20 digits": pair("12345678901234567890"),
    "date": pair("2026-11-16"),
    "formula": pair("=1+1"),
    "apostrophe first": pair("'a"),
    "# first in a line": [["id", "value"], ["#1", "a"], ["2", "last"]],
    "one column, empty text": [["value"], [""], ["last"]],
    "one column, \\. alone": [["value"], ["\\."], ["last"]],
    "sep=x alone in the header": [["sep=x"], ["1x2"], ["last"]],
    "mark in the first name": [[MARK + "id", "value"], ["1", "a"], ["2", "last"]],
    "mark in a later name": [["id", MARK + "value"], ["1", "a"], ["2", "last"]],
    "header alone": [["id", "value"]],
    "number 2.40": pair(Number("2.40")),
    "number of 20 digits": pair(Number("12345678901234567890")),
    "number 1E400": pair(Number("1E400")),
    "true": pair(True),
    "lone surrogate": pair("\ud83d"),
}


def is_text(table):
    return all(type(cell) is str for record in table for cell in record)


def has_surrogate(table):
    return any("\ud800" <= character <= "\udfff" for record in table for cell in record if isinstance(cell, str) for character in cell)


def to_csvj(table):
    def value(cell):
        return str(cell) if isinstance(cell, Number) else json.dumps(cell)

    return "".join(",".join(map(value, record)) + "\n" for record in table).encode()


def parse_json(text):
    """Some programs write control characters as they are, which is not what is tried here."""
    return json.loads(text, parse_int=Number, parse_float=Number, strict=False)


def from_csvj(file):
    """The records of canonical CSVJ, in which every line is one."""
    lines = file.decode("utf-8", "surrogatepass").split("\n")[:-1]
    return [parse_json(f"[{line}]") for line in lines]


def from_objects(objects):
    """The records of a list of JSON objects, which have the names of the header."""
    if not objects:
        return []
    return [list(objects[0])] + [list(one.values()) for one in objects]


def shown(cell):
    if isinstance(cell, Number):
        return f"number {cell}"
    return ascii(cell) if isinstance(cell, str) and not cell.isprintable() else json.dumps(cell, ensure_ascii=has_surrogate([[cell]]))


def difference(wanted, found):
    """What became of a table, in a few words, or nothing."""
    if len(found) != len(wanted):
        return f"{len(found)} records, not {len(wanted)}"
    for record, (want, have) in enumerate(zip(wanted, found), 1):
        if len(want) != len(have):
            return f"record {record} has {len(have)} cells"
        for one, other in zip(want, have):
            if one != other or type(one) is not type(other):
                return f"{shown(one)} becomes {shown(other)}"
    return None
