"""The cells of CSVJ and CSV+ texts, as Python's own json and csv modules read them.

Standard input has, for each text, a line with its dialect number and its length, and then its bytes. Standard output has a line for
each: every record in brackets, every cell as its kind number, a colon and its content in hexadecimal. Or it says what was wrong.
"""

import csv
import io
import json
import sys

CSVJ, CSV_PLUS = 1, 3


class Number(str):
    """A number as it is spelt."""


def refused(word):
    raise ValueError(f"{word} is no JSON")


def csvj_records(text):
    lines = text.decode("utf-8").split("\n")
    if lines.pop() != "":
        raise ValueError("the last line has no ending")
    for line in lines:
        yield json.loads(f"[{line}]", parse_float=Number, parse_int=Number, parse_constant=refused)


def csv_plus_records(text):
    # A mark that begins the text is passed over, as many programs do.
    return csv.reader(io.StringIO(text.decode("utf-8-sig"), newline=""), strict=True)


def cell(value):
    match value:
        case None:
            return "5:"
        case True:
            return "3:"
        case False:
            return "4:"
        case Number():
            return f"2:{value.encode('ascii').hex()}"
        case str():
            # JSON's escapes can name a lone surrogate.
            return f"1:{value.encode('utf-8', 'surrogatepass').hex()}"
    raise ValueError(f"{value!r} is no cell")


def main():
    read = {CSVJ: csvj_records, CSV_PLUS: csv_plus_records}
    told = []
    while line := sys.stdin.buffer.readline():
        dialect, length = map(int, line.split())
        text = sys.stdin.buffer.read(length)
        try:
            records = read[dialect](text)
            told.append("".join(f"[{','.join(map(cell, record))}]" for record in records))
        except (ValueError, csv.Error) as error:
            told.append(f"{type(error).__name__}: {error}".replace("\n", " "))
    print("\n".join(told))


main()
