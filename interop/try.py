"""Tries other programs on our files, and our program on theirs, with whatever of them is installed: `python3 interop/try.py [NAME..]`.

For each program and each table: what it reads in our canonical text of the table, and what we read in the file that it writes. `=` is the
same table, `-` that the dialect or the program has no such cell. Below, the versions, and what each difference is."""

import pathlib
import subprocess
import sys
import tempfile

from cases import CASES, NotCarried, Refused, difference, from_csvj, to_csvj
from programs import PROGRAMS

ROOT = pathlib.Path(__file__).resolve().parent.parent
OURS = ROOT / "target/bin/program"


def convert(source, target, file):
    """Our program reports a refusal on standard error, after it has written the records before it."""
    done = subprocess.run([OURS, source, target], input=file, capture_output=True)
    if done.stderr:
        raise Refused("ours: " + done.stderr.decode().strip())
    return done.stdout


def they_read(program, table):
    try:
        file = convert("csvj", program.dialect, to_csvj(table))
    except Refused:
        raise NotCarried from None
    return difference(table, program.read(file, table[0]))


def we_read(program, table):
    return difference(table, from_csvj(convert(program.dialect, "csvj", program.write(table))))


def outcome(trial, program, table):
    """A sign for the table, and what is to be printed below it."""
    try:
        found = trial(program, table)
        return ("=", None) if found is None else ("*", found)
    except NotCarried:
        return "-", None
    except Refused as refused:
        return "x", f"refused: {refused}"
    except Exception as error:  # the other program's library has refused by an exception of its own
        return "x", f"refused: {type(error).__name__}: {str(error).splitlines()[0] if str(error) else ''}"


def installed(names):
    for program in PROGRAMS:
        if names and program.name not in names:
            continue
        if not program.is_installed():
            print(f"{program.name}: not installed")
            continue
        yield program


def print_table(title, rows, columns):
    print(f"\n{title}\n")
    width = max(map(len, CASES)) + 1
    for index, name in enumerate(columns):
        print(" " * width + "| " * index + name)
    for case, signs in rows.items():
        print(f"{case:<{width}}" + " ".join(signs))


def main():
    if not OURS.exists():
        sys.exit("try: there is no target/bin/program: run make program")
    with tempfile.TemporaryDirectory() as name:
        folder = pathlib.Path(name)
        folder.chmod(0o755)
        programs, said = [], []
        try:
            for made in installed(sys.argv[1:]):
                programs.append(made(folder))
            for title, trial, asked in (("They read ours", they_read, "read"), ("Ours reads theirs", we_read, "write")):
                tried = [program for program in programs if getattr(program, asked) is not None]
                rows = {case: [] for case in CASES}
                for program in tried:
                    for case, table in CASES.items():
                        sign, found = outcome(trial, program, table)
                        rows[case].append(sign)
                        if found is not None:
                            said.append(f"{title}: {program.name}: {case}: {found}")
                print_table(title, rows, [program.name for program in tried])
            print("\n" + "\n".join(f"{program.name}: {program.version()}" for program in programs) + "\n")
            print("\n".join(said))
        finally:
            for program in programs:
                program.close()


main()
