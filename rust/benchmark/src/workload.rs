//! The tables that are read and converted: four of the benchmark's own making in each dialect, or those of a folder.
//!
//! *fares* has short unquoted cells and numbers, *settlements* quoted cells with doubled quotes, line breaks and text beyond
//! ASCII, *notes* long quoted ASCII text. *scripts* has words in other scripts, with nearly no ASCII inside the cells, of which
//! every other one is quoted; it is read only. Each is the same at every run. One that is read is as long as a file may be, one
//! that is converted half as long, so that its text is not longer than that.

use crate::thresholds::{Scope, Task};
use harness::rng::Rng;
use harness::DIALECTS;
use reference::limits::FILE_BYTES;
use reference::Dialect;
use std::fs;
use std::path::{Path, PathBuf};

/// A table as a file of a dialect.
pub struct Table {
    /// The table's name.
    pub name: String,
    /// The number of the file's dialect.
    pub number: u32,
    /// The file's dialect.
    pub dialect: Dialect,
    /// The file.
    pub file: Vec<u8>,
}

/// A dialect's name.
pub fn name_of(dialect: Dialect) -> &'static str {
    match dialect {
        Dialect::Csvj => "CSVJ",
        Dialect::Tdif => "TDIF",
        Dialect::CsvPlus => "CSV+",
    }
}

impl Table {
    /// The table's name and its dialect's.
    pub fn title(&self) -> String {
        format!("{} in {}", self.name, name_of(self.dialect))
    }
}

/// The files of a folder whose endings name a dialect.
pub fn files(folder: &Path) -> Result<Vec<PathBuf>, String> {
    let in_folder = |error| format!("{}: {error}", folder.display());
    let entries = fs::read_dir(folder).map_err(in_folder)?;
    let mut paths = entries
        .map(|entry| entry.map(|entry| entry.path()))
        .collect::<Result<Vec<_>, _>>()
        .map_err(in_folder)?;
    paths.retain(|path| dialect_of(path).is_some());
    paths.sort();
    if paths.is_empty() {
        return Err(format!(
            "{}: no .csvj, .tdif or .csv files",
            folder.display()
        ));
    }
    Ok(paths)
}

/// The dialect that a file's ending names, with its number.
fn dialect_of(path: &Path) -> Option<(u32, Dialect)> {
    let [csvj, tdif, csv_plus] = DIALECTS;
    match path.extension()?.to_str()? {
        "csvj" => Some(csvj),
        "tdif" => Some(tdif),
        "csv" => Some(csv_plus),
        _ => None,
    }
}

/// The table in a file.
pub fn load(path: &Path) -> Result<Table, String> {
    let in_file = |error: String| format!("{}: {error}", path.display());
    let dialect = dialect_of(path).ok_or_else(|| in_file("of no dialect".to_string()))?;
    let name = path.file_stem().unwrap_or_default();
    Ok(Table {
        name: name.to_string_lossy().into_owned(),
        number: dialect.0,
        dialect: dialect.1,
        file: fs::read(path).map_err(|error| in_file(error.to_string()))?,
    })
}

const READ: [&Shape; 4] = [&FARES, &SETTLEMENTS, &NOTES, &SCRIPTS];
const CONVERTED: [&Shape; 3] = [&FARES, &SETTLEMENTS, &NOTES];

/// The tables to be read that the scope has, in the three dialects, each made when it is needed.
pub fn tables(scope: Scope) -> impl Iterator<Item = Table> {
    let tables = READ
        .into_iter()
        .flat_map(|shape| DIALECTS.map(|dialect| (shape, dialect)));
    tables
        .filter(move |(shape, (_, dialect))| scope.has(Task::Read(*dialect), shape.name))
        .map(|(shape, (number, dialect))| shape.table(number, dialect, FILE_BYTES, false))
}

/// The tables to be converted that the scope has, for each pair of dialects, with the target. All cells are texts unless the pair
/// is CSVJ and CSVJ: what every target can represent, and csv can write.
pub fn conversions(scope: Scope) -> impl Iterator<Item = (Table, (u32, Dialect))> {
    let tables = CONVERTED.into_iter().flat_map(|shape| {
        let pairs = DIALECTS.map(|from| DIALECTS.map(|to| (shape, from, to)));
        pairs.concat()
    });
    tables
        .filter(move |(shape, from, to)| scope.has(Task::Convert(from.1, to.1), shape.name))
        .map(|(shape, (number, dialect), target)| {
            let texts_only = (dialect, target.1) != (Dialect::Csvj, Dialect::Csvj);
            let table = shape.table(number, dialect, FILE_BYTES / 2, texts_only);
            (table, target)
        })
}

/// A cell before it is encoded.
enum Value {
    Text(String),
    Number(String),
    Truth(bool),
    Null,
}

/// Which CSV+ cells have quotes, besides those that need them.
enum Quotes {
    None,
    /// Those of every other column.
    Half,
    All,
}

/// A kind of table.
pub struct Shape {
    /// The table's name.
    pub name: &'static str,
    columns: &'static [&'static str],
    /// The cells of a data record, given its number.
    record: fn(&mut Rng, usize) -> Vec<Value>,
    quotes: Quotes,
    /// The ending of a CSV+ record.
    ending: &'static str,
}

/// Short unquoted cells and numbers.
pub const FARES: Shape = Shape {
    name: "fares",
    columns: &[
        "trip_id",
        "route",
        "from_zone",
        "to_zone",
        "price",
        "currency",
        "seats",
        "active",
    ],
    record: fare,
    quotes: Quotes::None,
    ending: "\n",
};

/// Quoted cells with doubled quotes, line breaks and text beyond ASCII.
pub const SETTLEMENTS: Shape = Shape {
    name: "settlements",
    columns: &["ref", "payer", "payee", "city", "memo", "amount", "status"],
    record: settlement,
    quotes: Quotes::All,
    ending: "\r\n",
};

/// Long quoted ASCII text.
pub const NOTES: Shape = Shape {
    name: "notes",
    columns: &["id", "title", "body"],
    record: note,
    quotes: Quotes::All,
    ending: "\n",
};

/// Words in other scripts, every other cell quoted.
pub const SCRIPTS: Shape = Shape {
    name: "scripts",
    columns: &["στάση", "город", "駅名", "où", "σημείωση", "заметка"],
    record: words_in_scripts,
    quotes: Quotes::Half,
    ending: "\r\n",
};

/// The first sixteen are short.
const WORDS: [&str; 27] = [
    "tram", "bus", "ferry", "zone", "adult", "child", "return", "single", "monthly", "permit",
    "depot", "north", "south", "east", "west", "night", "harbour", "market", "bridge", "station",
    "valley", "transfer", "refund", "pending", "ledger", "batch", "clerk",
];
const CITIES: [&str; 11] = [
    "Zürich",
    "São Paulo",
    "Łódź",
    "Kraków",
    "Malmö",
    "Αθήνα",
    "Київ",
    "東京",
    "北京",
    "🚋 line",
    "Québec",
];
/// In Greek, Cyrillic, and the scripts of Japan, China and Korea, and a few with accents, which have some ASCII.
const WORDS_IN_SCRIPTS: [&str; 32] = [
    "σταθμός",
    "λεωφορείο",
    "εισιτήριο",
    "γέφυρα",
    "λιμάνι",
    "νύχτα",
    "αγορά",
    "Αθήνα",
    "трамвай",
    "автобус",
    "станция",
    "мост",
    "рынок",
    "долина",
    "Київ",
    "перевезення",
    "東京",
    "切符",
    "地下鉄",
    "のりば",
    "ターミナル",
    "北京",
    "车站",
    "渡轮",
    "夜间",
    "市场",
    "서울",
    "정류장",
    "été",
    "çà",
    "žár",
    "őrség",
];
const CURRENCIES: [&str; 4] = ["EUR", "CHF", "SEK", "GBP"];

fn short_word(rng: &mut Rng) -> &'static str {
    rng.pick(&WORDS[..16])
}

fn fare(rng: &mut Rng, number: usize) -> Vec<Value> {
    let price = rng.below(16_384) as f64 / 100.0;
    vec![
        Value::Number((100_000 + 5 * number).to_string()),
        Value::Text(format!("R{}", rng.below(512))),
        Value::Text(short_word(rng).to_string()),
        Value::Text(short_word(rng).to_string()),
        Value::Number(format!("{price:?}")),
        Value::Text(rng.pick(&CURRENCIES).to_string()),
        match rng.below(32) {
            0 => Value::Null,
            _ => Value::Number(rng.below(64).to_string()),
        },
        Value::Truth(rng.percent(50)),
    ]
}

fn settlement(rng: &mut Rng, number: usize) -> Vec<Value> {
    let count = rng.between(2, 9);
    let words: Vec<&str> = (0..count).map(|_| rng.pick(&WORDS)).collect();
    let memo = match (rng.below(8), words.join(" ")) {
        (0, memo) => memo.replacen(' ', "\n", 1),
        (1, memo) => format!("the \"{}\" case, {memo}", short_word(rng)),
        (_, memo) => memo,
    };
    let company = if rng.below(16) == 0 { " \"co\"" } else { "" };
    let city = match rng.below(4) {
        0 => rng.pick(&CITIES).to_string(),
        _ => {
            let (first, rest) = short_word(rng).split_at(1);
            first.to_uppercase() + rest
        }
    };
    vec![
        Value::Text(format!("S-{number:07}")),
        Value::Text(format!("{} ltd", short_word(rng))),
        Value::Text(format!("{}{company}", short_word(rng))),
        Value::Text(city),
        Value::Text(memo),
        Value::Text(format!("{}.{:02}", rng.below(65_536), rng.below(100))),
        match rng.below(16) {
            0 => Value::Null,
            _ => Value::Text(rng.pick(&["open", "paid"]).to_string()),
        },
    ]
}

fn note(rng: &mut Rng, number: usize) -> Vec<Value> {
    let length = rng.between(200, 2_000);
    let mut body = String::new();
    while body.len() < length {
        let mark = match rng.below(64) {
            0 => ",",
            1 => ".",
            _ => "",
        };
        let quote = if rng.below(512) == 0 { "\"" } else { "" };
        let word = rng.pick(&WORDS);
        body += &format!("{quote}{word}{mark}{quote} ");
    }
    body.truncate(length);
    vec![
        Value::Text(format!("N{number:06}")),
        Value::Text(format!("{} note", short_word(rng))),
        Value::Text(body),
    ]
}

/// Up to five words in a cell, with a space between them that is not ASCII.
fn words_in_scripts(rng: &mut Rng, _: usize) -> Vec<Value> {
    let columns = SCRIPTS.columns.iter();
    columns
        .map(|_| {
            let count = rng.between(1, 5);
            let words: Vec<&str> = (0..count).map(|_| rng.pick(&WORDS_IN_SCRIPTS)).collect();
            Value::Text(words.join("\u{a0}"))
        })
        .collect()
}

impl Value {
    /// The text with this content.
    fn into_text(self) -> Self {
        Self::Text(match self {
            Self::Text(content) | Self::Number(content) => content,
            Self::Truth(truth) => truth.to_string(),
            Self::Null => String::new(),
        })
    }
}

impl Shape {
    /// As many records as this many bytes can hold, with all cells as texts if need be.
    fn table(&self, number: u32, dialect: Dialect, most: usize, texts_only: bool) -> Table {
        let mut rng = Rng::new(1);
        let names = self.columns.iter();
        let header = names.map(|name| Value::Text(name.to_string())).collect();
        let mut file = Vec::with_capacity(most);
        let mut line = self.line(dialect, header);
        let mut record = 0;
        while file.len() + line.len() <= most {
            file.extend(line.bytes());
            record += 1;
            let mut cells = (self.record)(&mut rng, record);
            if texts_only {
                cells = cells.into_iter().map(Value::into_text).collect();
            }
            line = self.line(dialect, cells);
        }
        Table {
            name: self.name.to_string(),
            number,
            dialect,
            file,
        }
    }

    fn line(&self, dialect: Dialect, record: Vec<Value>) -> String {
        let cells = (0..).zip(record);
        let cells = cells.map(|(column, value)| self.cell(dialect, column, value));
        let ending = match dialect {
            Dialect::Csvj | Dialect::Tdif => "\n",
            Dialect::CsvPlus => self.ending,
        };
        cells.collect::<Vec<_>>().join(",") + ending
    }

    fn cell(&self, dialect: Dialect, column: usize, value: Value) -> String {
        let is_quoted = match self.quotes {
            Quotes::None => false,
            Quotes::Half => column % 2 == 1,
            Quotes::All => true,
        };
        let (is_text, content) = match value {
            Value::Text(text) => (true, text),
            Value::Number(spelling) => (false, spelling),
            Value::Truth(truth) => (false, truth.to_string()),
            Value::Null => {
                let null = match dialect {
                    Dialect::Csvj => "null",
                    Dialect::Tdif => "\\N",
                    Dialect::CsvPlus if is_quoted => "\"\"",
                    Dialect::CsvPlus => "",
                };
                return null.to_string();
            }
        };
        match dialect {
            Dialect::Csvj if is_text => {
                let escaped = content.replace('"', "\\\"").replace('\n', "\\n");
                format!("\"{escaped}\"")
            }
            Dialect::Csvj => content,
            Dialect::CsvPlus if !is_quoted && !content.contains(['"', ',', '\r', '\n']) => content,
            Dialect::Tdif | Dialect::CsvPlus => format!("\"{}\"", content.replace('"', "\"\"")),
        }
    }
}
