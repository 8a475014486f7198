"""The other programs: how each reads a file of ours, and how each writes one for us. A reader takes the bytes of a file and gives records,
a writer takes records and gives the bytes of a file; either may refuse. A reader is given the header, as some have to know it before."""

import csv
import io
import json
import os
import pathlib
import shutil
import sqlite3
import subprocess
import xml.etree.ElementTree as xml
from xml.sax.saxutils import escape

from cases import NotCarried, Number, Refused, from_objects, has_surrogate, is_text, parse_json, to_csvj


def run(words, data=b"", **options):
    """What a command writes; it has refused if it fails."""
    done = subprocess.run(words, input=data, capture_output=True, timeout=120, **options)
    said = done.stderr.decode(errors="replace").strip().split("\n")[0]
    if done.returncode != 0:
        raise Refused(said or f"exit status {done.returncode}")
    return done.stdout


def first_line(words):
    return run(words).decode().strip().split("\n")[0]


def needs_text(table):
    """CSV has texts, and each program its own way to write a null."""
    if has_surrogate(table) or not is_text([[cell for cell in record if cell is not None] for record in table]):
        raise NotCarried


def quoted(name):
    """As SQL quotes a name, and TDIF a text."""
    return '"%s"' % name.replace('"', '""')


class Program:
    """`dialect` is what it reads and writes, `command` what has to be installed. A writer of CSV is asked to quote all cells, if it can."""

    quotes_all = True

    def __init__(self, folder):
        self.folder = folder

    @classmethod
    def is_installed(cls):
        return shutil.which(cls.command) is not None

    def close(self):
        pass


class PythonCsv(Program):
    name, dialect, command = "Python csv", "csv+", "python3"

    def version(self):
        return first_line(["python3", "--version"])

    def read(self, file, header):
        return list(csv.reader(io.StringIO(file.decode(), newline=""), strict=True))

    def write(self, table):
        needs_text(table)
        out = io.StringIO(newline="")
        csv.writer(out, quoting=csv.QUOTE_ALL if self.quotes_all else csv.QUOTE_MINIMAL).writerows(table)
        return out.getvalue().encode()


class PythonJson(Program):
    name, dialect, command = "Python json", "csvj", "python3"
    version = PythonCsv.version

    def read(self, file, header):
        records = [json.loads(f"[{line}]") for line in file.decode().split("\n")[:-1]]
        return [[Number(repr(cell)) if type(cell) in (int, float) else cell for cell in record] for record in records]

    def write(self, table):
        values = [[json.loads(cell) if isinstance(cell, Number) else cell for cell in record] for record in table]
        return "".join(json.dumps(record)[1:-1] + "\n" for record in values).encode()


class JqLines(Program):
    name, dialect, command = "jq, CSVJ", "csvj", "jq"

    def version(self):
        return first_line(["jq", "--version"])

    def read(self, file, header):
        lines = run(["jq", "-R", "-c", '"[" + . + "]" | fromjson'], file).decode("utf-8", "surrogatepass")
        return [parse_json(line) for line in lines.split("\n")[:-1]]

    def write(self, table):
        arrays = b"[" + b",".join(b"[%s]" % line for line in to_csvj(table).split(b"\n")[:-1]) + b"]"
        return run(["jq", "-r", ".[] | tojson | .[1:-1]"], arrays)


class JqCsv(JqLines):
    name, dialect = "jq @csv", "csv+"
    read = None

    def write(self, table):
        needs_text(table)
        return run(["jq", "-r", ".[] | @csv"], json.dumps(table).encode())


class Miller(Program):
    name, dialect, command = "Miller", "csv+", "mlr"

    def version(self):
        return first_line(["mlr", "--version"])

    def read(self, file, header):
        return from_objects(parse_json(run(["mlr", "-S", "--icsv", "--ojson", "cat"], file)))

    def write(self, table):
        needs_text(table)
        records = [dict(zip(table[0], record)) for record in table[1:]]
        words = ["mlr", "--ijson", "--ocsv", *(["--quote-all"] if self.quotes_all else []), "cat"]
        return run(words, json.dumps(records, ensure_ascii=False).encode())


class Csvkit(Program):
    name, dialect, command = "csvkit", "csv+", "csvjson"

    def version(self):
        return first_line(["csvjson", "--version"])

    def read(self, file, header):
        return from_objects(parse_json(run(["csvjson", "--no-inference", "--blanks", "--snifflimit", "0"], file)))

    def write(self, table):
        needs_text(table)
        records = [dict(zip(table[0], record)) for record in table[1:]]
        file = run(["in2csv", "--no-inference", "--blanks", "--format", "json"], json.dumps(records).encode())
        return run(["csvformat", "--out-quoting", "1"], file) if self.quotes_all else file


class Sqlite(Program):
    name, dialect, command = "sqlite3", "csv+", "sqlite3"

    def version(self):
        return "sqlite3 " + first_line(["sqlite3", "--version"]).split()[0]

    def file(self, name):
        path = self.folder / name
        path.unlink(missing_ok=True)
        return path

    def read(self, file, header):
        path, database = self.file("ours.csv"), self.file("ours.db")
        path.write_bytes(file)
        said = subprocess.run(["sqlite3", database, f".import --csv {path} given"], capture_output=True)
        if said.stderr:
            raise Refused(said.stderr.decode().strip().split("\n")[0])
        rows = sqlite3.connect(database).execute("SELECT * FROM given")
        return [[column[0] for column in rows.description]] + [list(row) for row in rows]

    def write(self, table):
        needs_text(table)
        database = self.file("theirs.db")
        names = ", ".join(map(quoted, table[0]))
        with sqlite3.connect(database) as connection:
            connection.execute(f"CREATE TABLE given ({names})")
            places = ", ".join("?" * len(table[0]))
            connection.executemany(f"INSERT INTO given VALUES ({places})", table[1:])
        return run(["sqlite3", "-csv", "-header", database, "SELECT * FROM given"])


class TextCsv(Program):
    name, dialect, command = "Text::CSV_XS", "csv+", "perl"

    READ = r"""use Text::CSV_XS; use JSON::PP; my $csv = Text::CSV_XS->new({binary => 1, strict => 1, auto_diag => 2});
    open my $in, "<:encoding(UTF-8)", "/dev/stdin"; my @rows; while (my $row = $csv->getline($in)) { push @rows, $row }
    print encode_json(\@rows);"""
    WRITE = r"""use Text::CSV_XS; use JSON::PP; local $/; my $rows = decode_json(<STDIN>);
    my $csv = Text::CSV_XS->new({binary => 1, eol => "\r\n", $ARGV[0] ? (always_quote => 1, escape_null => 0) : ()});
    binmode STDOUT, ":encoding(UTF-8)"; $csv->print(*STDOUT, $_) for @$rows;"""

    @classmethod
    def is_installed(cls):
        return super().is_installed() and subprocess.run(["perl", "-MText::CSV_XS", "-e1"], capture_output=True).returncode == 0

    def version(self):
        return "Text::CSV_XS " + first_line(["perl", "-MText::CSV_XS", "-e", "print $Text::CSV_XS::VERSION"])

    def read(self, file, header):
        return parse_json(run(["perl", "-e", self.READ], file))

    def write(self, table):
        needs_text(table)
        return run(["perl", "-e", self.WRITE, str(int(self.quotes_all))], json.dumps(table).encode())


class Postgres(Program):
    """A server of its own on a socket in the folder."""

    name, dialect, command = "PostgreSQL, CSV+", "csv+", "psql"
    READ = "FORMAT csv, HEADER MATCH"
    WRITE = "FORMAT csv, HEADER, FORCE_QUOTE *"

    def __init__(self, folder):
        super().__init__(folder)
        self.at = folder / "postgres"
        self.bin = self.folder_of_server()
        if not self.at.exists():
            self.at.mkdir()
            if os.getuid() == 0:
                shutil.chown(self.at, "postgres")
            data, words = self.at / "data", f"-k {self.at} -c listen_addresses= -c fsync=off"
            self.server([self.bin / "initdb", "-A", "trust", "-E", "UTF8", "--locale=C", "-D", data])
            self.server([self.bin / "pg_ctl", "-D", data, "-o", words, "-l", self.at / "log", "-w", "start"])

    @classmethod
    def folder_of_server(cls):
        """Debian keeps the server's programs out of the path."""
        folders = [os.environ["PATH"], *map(str, pathlib.Path("/usr/lib/postgresql").glob("*/bin"))]
        found = shutil.which("initdb", path=os.pathsep.join(folders))
        return found and pathlib.Path(found).parent

    @classmethod
    def is_installed(cls):
        return super().is_installed() and cls.folder_of_server() is not None

    def server(self, words):
        """The server refuses to be root."""
        who = ["runuser", "-u", "postgres", "--"] if os.getuid() == 0 else []
        subprocess.run([*who, *words], check=True, capture_output=True, cwd=self.at)

    def close(self):
        if (self.at / "data/postmaster.pid").exists():
            self.server([self.bin / "pg_ctl", "-D", self.at / "data", "-m", "immediate", "stop"])

    def version(self):
        return first_line(["psql", "--version"])

    def sql(self, *commands, data=b""):
        words = [word for command in commands for word in ("-c", command)]
        user = "postgres" if os.getuid() == 0 else os.environ["USER"]
        return run(["psql", "-X", "-q", "-A", "-t", "-v", "ON_ERROR_STOP=1", "-h", self.at, "-U", user, "postgres", *words], data)

    def make(self, header):
        self.names = [quoted(name) for name in header]
        columns = ", ".join(f"{name} text" for name in self.names)
        self.sql(f"DROP TABLE IF EXISTS given; CREATE TABLE given ({columns})")

    def read(self, file, header):
        self.make(header)
        self.sql(f"COPY given FROM STDIN WITH ({self.READ})", data=file)
        columns = ", ".join(f"encode(convert_to({name}, 'UTF8'), 'hex')" for name in self.names)
        rows = parse_json(self.sql(f"SELECT coalesce(json_agg(json_build_array({columns})), '[]') FROM given"))
        decoded = [[None if cell is None else bytes.fromhex(cell).decode() for cell in row] for row in rows]
        return [header] + decoded

    def write(self, table):
        needs_text(table)
        self.make(table[0])

        def value(cell):
            return "NULL" if cell is None else f"convert_from('\\x{cell.encode().hex()}', 'UTF8')"

        rows = ", ".join("(" + ", ".join(map(value, row)) + ")" for row in table[1:])
        if rows:
            self.sql(f"INSERT INTO given VALUES {rows}")
        return self.sql(f"COPY given TO STDOUT WITH ({self.WRITE})")


class PostgresTdif(Postgres):
    """FORCE_QUOTE does not hold for the header, so that it is written without COPY."""

    name, dialect = "PostgreSQL, TDIF", "tdif"
    READ = "FORMAT csv, HEADER MATCH, NULL '\\N'"
    WRITE = "FORMAT csv, FORCE_QUOTE *, NULL '\\N'"

    def write(self, table):
        return (",".join(map(quoted, table[0])) + "\n").encode() + super().write(table)


OFFICE = "urn:oasis:names:tc:opendocument:xmlns:office:1.0"
TABLE = "urn:oasis:names:tc:opendocument:xmlns:table:1.0"
TEXT = "urn:oasis:names:tc:opendocument:xmlns:text:1.0"


class LibreOffice(Program):
    """Through a flat document, in which a cell is what the spreadsheet holds."""

    name, dialect, command = "LibreOffice", "csv+", "soffice"
    # Comma, quote, UTF-8, from line 1, all columns as text; the last ones: quoted cells are text, no detection of numbers.
    IMPORT = "CSV:44,34,76,1,1/2/2/2,0,true,false"
    EXPORT = "csv:Text - txt - csv (StarCalc):44,34,76,1,,0,{quotes},true,false"

    def version(self):
        return " ".join(first_line(["soffice", "--version"]).split()[:2])

    def convert(self, path, to, *words):
        profile = f"-env:UserInstallation=file://{self.folder}/profile"
        run(["soffice", profile, "--headless", *words, "--convert-to", to, "--outdir", self.folder / "office", path])
        found = self.folder / "office" / f"{path.stem}.{to.split(':')[0]}"
        if not found.exists():
            raise Refused("it wrote no file")
        content = found.read_bytes()
        found.unlink()
        return content

    def read(self, file, header):
        path = self.folder / "ours.csv"
        path.write_bytes(file)
        tree = xml.fromstring(self.convert(path, "fods", f"--infilter={self.IMPORT}"))
        rows = [cells_of(row) for row in tree.iter(f"{{{TABLE}}}table-row")]
        while rows and not rows[-1]:
            rows.pop()
        return [row + [""] * (len(rows[0]) - len(row)) for row in rows]

    def write(self, table):
        needs_text(table)
        path = self.folder / "theirs.fods"
        path.write_bytes(flat_document(table))
        return self.convert(path, self.EXPORT.format(quotes=str(self.quotes_all).lower()))


def cells_of(row):
    """The texts of a row, without the empty cells that fill it up."""
    cells = []
    for cell in row.iter(f"{{{TABLE}}}table-cell"):
        text = "\n".join("".join(parts_of(paragraph)) for paragraph in cell.iter(f"{{{TEXT}}}p"))
        cells += [text] * min(2, int(cell.get(f"{{{TABLE}}}number-columns-repeated", "1")))
    while cells and cells[-1] == "":
        cells.pop()
    return cells


def parts_of(paragraph):
    """Spaces and tabs may be elements."""
    yield paragraph.text or ""
    for part in paragraph:
        name = part.tag.removeprefix(f"{{{TEXT}}}")
        if name == "s":
            yield " " * int(part.get(f"{{{TEXT}}}c", "1"))
        elif name in ("tab", "line-break"):
            yield {"tab": "\t", "line-break": "\n"}[name]
        else:
            yield from parts_of(part)
        yield part.tail or ""


def flat_document(table):
    def cell(value):
        if any(character < " " and character not in "\t\n" for character in value):
            raise NotCarried
        paragraphs = "".join(f"<text:p>{escape(line)}</text:p>" for line in value.split("\n"))
        return f'<table:table-cell office:value-type="string">{paragraphs}</table:table-cell>'

    if not is_text(table):
        raise NotCarried
    rows = "".join("<table:table-row>" + "".join(map(cell, record)) + "</table:table-row>" for record in table)
    return f"""<?xml version="1.0" encoding="UTF-8"?>
<office:document xmlns:office="{OFFICE}" xmlns:table="{TABLE}" xmlns:text="{TEXT}" office:version="1.3"
 office:mimetype="application/vnd.oasis.opendocument.spreadsheet"><office:body><office:spreadsheet><table:table table:name="given">
{rows}</table:table></office:spreadsheet></office:body></office:document>""".encode()


def as_it_comes(program):
    """The writer with its own choice of what it quotes."""
    return type(program.__name__, (program,), {"name": program.name + " by default", "read": None, "quotes_all": False})


PROGRAMS = [PythonCsv, PythonJson, JqLines, JqCsv, Miller, Csvkit, Sqlite, TextCsv, Postgres, PostgresTdif, LibreOffice]
PROGRAMS += [as_it_comes(program) for program in (PythonCsv, Miller, Csvkit, TextCsv, LibreOffice)]
