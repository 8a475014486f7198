//! Files made at random, sound and broken ones.

use hemakuliwi::Dialect;

/// A small generator (xorshift64*), so that every run is the same.
pub struct Rng(u64);

impl Rng {
    /// A generator whose numbers depend on the seed alone, which is not 0.
    pub fn new(seed: u64) -> Self {
        assert_ne!(seed, 0);
        Self(seed)
    }

    /// A number below the bound, which is not 0.
    pub fn below(&mut self, bound: usize) -> usize {
        self.0 ^= self.0 >> 12;
        self.0 ^= self.0 << 25;
        self.0 ^= self.0 >> 27;
        (self.0.wrapping_mul(0x2545_F491_4F6C_DD1D) >> 33) as usize % bound
    }

    pub fn percent(&mut self, chance: usize) -> bool {
        self.below(100) < chance
    }

    pub fn pick<T: Copy>(&mut self, items: &[T]) -> T {
        items[self.below(items.len())]
    }
}

const CSVJ_NAMES: [&str; 6] = [
    r#""stop""#,
    r#""f\u0061re""#,
    r#""Stop""#,
    r#""""#,
    r#""\ud83d""#,
    "\"Süd\"",
];
const CSVJ_CELLS: [&str; 10] = [
    r#""Harbour""#,
    r#""Old \"Mint\"""#,
    r#""\ud83d\ude00""#,
    r#""\udc00x""#,
    "\"\u{1F68B},\"",
    "2.40",
    "-0e+7",
    "true",
    "false",
    "null",
];
const TDIF_NAMES: [&str; 5] = ["\"stop\"", "\"fare\"", "\"STOP\"", "\"\"", "\"Süd\r\n\""];
const TDIF_CELLS: [&str; 5] = [
    "\"Harbour\"",
    "\"Old \"\"Mint\"\"\"",
    "\\N",
    "\"\"",
    "\"a,\nb\"",
];
const CSV_PLUS_NAMES: [&str; 5] = ["stop", "\"fare\"", "Stop", "\"a \"\"b\"\"\"", "Süd"];
const CSV_PLUS_CELLS: [&str; 6] = [
    "Harbour",
    "\"Old \"\"Mint\"\"\"",
    "",
    "\"\"",
    "\"a,\r\nb\"",
    " \u{1F68B}",
];

/// What a file of a dialect is put together from: names, cells and endings.
type Parts = (
    &'static [&'static str],
    &'static [&'static str],
    &'static [&'static str],
);

fn parts(dialect: Dialect) -> Parts {
    match dialect {
        Dialect::Csvj => (&CSVJ_NAMES, &CSVJ_CELLS, &["\n", "\r\n", " \n"]),
        Dialect::Tdif => (&TDIF_NAMES, &TDIF_CELLS, &["\n", "\r", "\r\n", "\n#,\"\r"]),
        Dialect::CsvPlus => (&CSV_PLUS_NAMES, &CSV_PLUS_CELLS, &["\n", "\r\n"]),
    }
}

/// A file of a few records, of which about half are sound.
pub fn file(rng: &mut Rng, dialect: Dialect) -> Vec<u8> {
    let (names, cells, endings) = parts(dialect);
    let columns = rng.below(4);
    let mut file = String::new();
    for record in 0..1 + rng.below(5) {
        for column in 0..columns {
            let between = if column > 0 { "," } else { "" };
            let cell = match record {
                0 => names[(column + rng.pick(&[0, 0, 0, 1])) % names.len()],
                _ => rng.pick(cells),
            };
            file.push_str(between);
            file.push_str(cell);
        }
        file.push_str(rng.pick(endings));
    }
    let mut file = file.into_bytes();
    if rng.percent(40) {
        break_file(rng, &mut file);
    }
    file
}

/// Cuts the file short, or puts in, takes out or changes a byte.
fn break_file(rng: &mut Rng, file: &mut Vec<u8>) {
    let at = rng.below(file.len() + 1);
    let byte = rng.pick(b"\"\\,\r\n #N0a-\x00\x1F\x80\xC3\xEF\xFF");
    match rng.below(4) {
        0 => file.truncate(at),
        1 => file.insert(at, byte),
        2 if at < file.len() => drop(file.remove(at)),
        _ if at < file.len() => file[at] = byte,
        _ => file.push(byte),
    }
}

/// The nine pairs of dialects.
pub fn pairs() -> impl Iterator<Item = (Dialect, Dialect)> {
    Dialect::ALL
        .into_iter()
        .flat_map(|from| Dialect::ALL.map(|to| (from, to)))
}
