"""Writes first inputs for the fuzzer: `seeds.py FOLDER`. Each file of the conformance set and of the program's runs is read, converted and
cut into pieces, in several pairs of dialects; beside these a few cells, tables and converters."""

import pathlib
import sys

READ, DECODE, CONVERT, WRITE, PIECES, MADE_UP = range(6)
EXACT = 64  # a length that is just enough
ROOT = pathlib.Path(__file__).resolve().parent.parent


def seed(call, source, target, body, steps=b"", lengths=(EXACT, EXACT, EXACT), sides=(0, 0), stretched=0, times=0):
    dialects = (source - 1) + 16 * (target - 1)
    choices = [call, dialects, *sides, *lengths, stretched % 256, stretched // 256, times, len(steps)]
    return bytes(choices) + steps + body


def files():
    runs = ROOT / "rust/harness/tests/program_runs/runs"
    conformance = ROOT / "vectors/csvj-conformance"
    paths = sorted(runs.glob("*.in")) + sorted(conformance.glob("*/*.csvj"))
    return [content for content in (path.read_bytes() for path in paths) if len(content) < 2000]


def two(number):
    return number.to_bytes(2, "little")


def tables():
    """The counts, five bytes to a cell, and the content."""
    for kinds in (b"\x01\x01\x01\x02", b"\x01\x01\x05\x03", b"\x01\x01\x04\x01"):
        stretches = [(0, 1), (1, 2), (0, 2), (2, 4)]
        cells = b"".join(
            two(0 if kind > 2 else start) + two(0 if kind > 2 else end) + bytes([kind])
            for kind, (start, end) in zip(kinds, stretches)
        )
        yield two(2) + two(2) + cells + b"ab12"


def seeds():
    for content in files():
        for source in (1, 2, 3):
            yield seed(READ, source, 1, content, sides=(255, 255))
            yield seed(READ, source, 1, content, lengths=(EXACT, EXACT - 1, EXACT + 1))
            yield seed(CONVERT, source, 1 + source % 3, content)
            yield seed(PIECES, source, 1 + (source + 1) % 3, content, steps=bytes([4, 6, 36, 10, 2, 148, 7]))
            yield seed(MADE_UP, source, source, b"\x00\x01\x02" + content, steps=b"\x80\xff", lengths=(1, 1, 80))
    for raw in (b'"a\\ud83d\\ude00"', b'"a""b"', b"\\N", b"-1.5e+7", b"true", b"plain"):
        for source in (1, 2, 3):
            yield seed(DECODE, source, 1, raw)
    for table in tables():
        for target in (1, 2, 3):
            yield seed(WRITE, 1, target, table, lengths=(0, 0, 0))
    for times in (63, 64 + 43, 128 + 56, 192 + 48):
        for source, cell in ((1, b'"a"\n"x\\u0001"\n'), (2, b'"a"\n"x"\n'), (3, b"a\nx,\n")):
            for call in (READ, CONVERT, PIECES):
                yield seed(call, source, 1, cell, steps=b"\xb0\xb0", stretched=len(cell) - 3, times=times)


def main():
    folder = pathlib.Path(sys.argv[1])
    folder.mkdir(parents=True, exist_ok=True)
    count = 0
    for count, data in enumerate(seeds(), 1):
        (folder / f"seed-{count:05}").write_bytes(data)
    print(f"{count} seeds")


main()
