//! The lent lists of a read call, filled so that every write shows.

use reference::ReadAnswer;

/// A reader of whole files, given the dialect number, the file and the lists of starts, ends and kinds.
pub type Reader = fn(u32, &[u8], &mut [usize], &mut [usize], &mut [u8]) -> ReadAnswer;

/// Longer files take long, so that fewer lengths of the lent buffers are tried.
pub const SHORT_FILE: usize = 20_000;

/// The lists after a call.
#[derive(Clone, Debug, PartialEq, Eq)]
pub struct Lists {
    starts: Vec<usize>,
    ends: Vec<usize>,
    kinds: Vec<u8>,
}

/// What is in a place of the starts or the ends before a call: no offset, and in each place another.
fn unused_offset(index: usize) -> usize {
    usize::MAX - index
}

/// What is in a place of the kinds before a call: no kind, and seldom that of a place near it.
fn unused_kind(index: usize) -> u8 {
    0x80 | index as u8
}

impl Lists {
    /// Reads into fresh lists of these lengths.
    pub fn read(
        reader: Reader,
        dialect: u32,
        file: &[u8],
        lengths: [usize; 3],
    ) -> (Self, ReadAnswer) {
        let mut lists = Self {
            starts: (0..lengths[0]).map(unused_offset).collect(),
            ends: (0..lengths[1]).map(unused_offset).collect(),
            kinds: (0..lengths[2]).map(unused_kind).collect(),
        };
        let answer = reader(
            dialect,
            file,
            &mut lists.starts,
            &mut lists.ends,
            &mut lists.kinds,
        );
        (lists, answer)
    }

    /// Whether all places from this one on are as they were before the call.
    pub fn untouched_from(&self, count: usize) -> bool {
        let unused = |list: &[usize]| (count..list.len()).all(|at| list[at] == unused_offset(at));
        unused(&self.starts)
            && unused(&self.ends)
            && (count..self.kinds.len()).all(|at| self.kinds[at] == unused_kind(at))
    }

    /// The start, end and kind number of this many cells.
    pub fn cells(&self, count: usize) -> Vec<(usize, usize, u8)> {
        let cell = |index| (self.starts[index], self.ends[index], self.kinds[index]);
        (0..count).map(cell).collect()
    }

    /// The first place of each list where another's lists of the same lengths differ.
    pub fn differences(&self, other: &Self) -> Vec<String> {
        [
            first_difference("starts", &self.starts, &other.starts),
            first_difference("ends", &self.ends, &other.ends),
            first_difference("kinds", &self.kinds, &other.kinds),
        ]
        .into_iter()
        .flatten()
        .collect()
    }
}

fn first_difference<T: PartialEq + std::fmt::Debug>(
    name: &str,
    one: &[T],
    other: &[T],
) -> Option<String> {
    let at = one
        .iter()
        .zip(other)
        .position(|(one, other)| one != other)?;
    Some(format!(
        "{name}[{at}] {:?} and not {:?}",
        one[at], other[at]
    ))
}

/// Lengths for the three lists, of which each is the shortest once.
pub fn lengths(shortest: usize, file: &[u8]) -> Vec<[usize; 3]> {
    let longer = shortest + 2;
    let mut lengths = vec![
        [shortest, longer, longer],
        [longer, shortest, longer],
        [longer, longer, shortest],
        [shortest; 3],
    ];
    if file.len() > SHORT_FILE {
        lengths.truncate(1);
    }
    lengths
}
