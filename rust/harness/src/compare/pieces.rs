//! The piece converter, over a state that is lent and by value. Each comparison takes the converters that are compared with the
//! reference implementation, so that wrong ones can be tried too.

use super::{converted, hex};
use crate::calls::{file_for_calls, header_length, random_calls};
use crate::counts::Counts;
use crate::ledger::{Answer, Call, Ledger};
use crate::rng::Rng;
use crate::rooms::Output;
use crate::whole::read_whole;
use crate::{DIALECTS, UNKNOWN};
use hemakuliwi::raw::{Converter, AT_COLUMNS};
use reference::limits::{PIECE_BYTES, PIECE_ROOM};
use reference::{Converted, Dialect, Report};
use std::collections::BTreeSet;

/// Makes a call of a piece converter over its state, with this output.
pub type PieceConverter = fn(&mut Converter, &Call, &mut [u8]) -> Converted;

/// A proved converter before its first call.
pub fn proved_start(source: u32, target: u32) -> Converter {
    Converter::new(source, target)
}

/// The proved calls in both forms.
pub const PROVED_PIECES: [PieceConverter; 2] = [proved_lent, proved_by_value];

/// The proved calls over a state that is lent, answering in the reference's terms.
pub fn proved_lent(state: &mut Converter, call: &Call, out: &mut [u8]) -> Converted {
    converted(match *call {
        Call::Piece(piece, _) => state.piece(piece, out),
        Call::End(_) => state.end(out),
    })
}

/// The proved calls with the state by value, answering in the reference's terms.
pub fn proved_by_value(state: &mut Converter, call: &Call, out: &mut [u8]) -> Converted {
    let given = state.clone();
    let done = match *call {
        Call::Piece(piece, _) => given.piece_by_value(piece, out),
        Call::End(_) => given.end_by_value(out),
    };
    *state = done.next;
    converted(done.answer)
}

/// How many bytes lie on either side of a state, which belong to nobody.
const BESIDE: usize = 64;
const UNUSED: [u8; BESIDE] = [0xA5; BESIDE];

/// A state, with what lies on either side of it.
#[repr(C)]
struct Guarded {
    before: [u8; BESIDE],
    state: Converter,
    after: [u8; BESIDE],
}

/// The longest output that is lent.
const MOST_ROOM: usize = 65_536;

/// How much output a call is lent.
pub(super) fn room_of(call: &Call) -> usize {
    match *call {
        Call::Piece(_, room) | Call::End(room) => room,
    }
}

/// A converter with its state.
pub struct Trial {
    converter: PieceConverter,
    lent: Box<Guarded>,
}

/// An output in which stray writes show, for trials that share it.
pub fn output() -> Output {
    Output::new(MOST_ROOM)
}

impl Trial {
    /// Before the first call.
    pub fn new(converter: PieceConverter, source: u32, target: u32) -> Self {
        Self {
            converter,
            lent: Box::new(Guarded {
                before: UNUSED,
                state: Converter::new(source, target),
                after: UNUSED,
            }),
        }
    }

    /// The state between two calls.
    pub fn state(&self) -> &Converter {
        &self.lent.state
    }

    /// Begins anew from this state.
    pub(super) fn restart(&mut self, state: &Converter) {
        self.lent.state.clone_from(state);
    }

    fn call(&mut self, call: &Call, output: &mut Output) -> Result<Converted, String> {
        let (converter, state) = (self.converter, &mut self.lent.state);
        let made = output.lend(room_of(call), |out| converter(state, call, out));
        match self.lent.before == UNUSED && self.lent.after == UNUSED {
            true => Ok(made),
            false => Err("it wrote beside the state".to_string()),
        }
    }

    /// Makes a call; it may write nothing but its text.
    pub fn make(&mut self, call: &Call, output: &mut Output) -> Result<Answer, String> {
        let made = self.call(call, output)?;
        let text = output.take(room_of(call), made.written)?;
        let report = made.report;
        Ok(Answer { report, text })
    }

    /// Makes a call of which nothing is known but that it stays inside what it was lent.
    pub(super) fn make_any(
        &mut self,
        call: &Call,
        output: &mut Output,
    ) -> Result<(Converted, Vec<u8>), String> {
        let made = self.call(call, output)?;
        Ok((made, output.take_all(room_of(call))?))
    }
}

/// The calls so far: what they consumed and wrote, and whether an end was accepted or a fault met.
struct Past {
    source: u32,
    target: u32,
    consumed: Vec<u8>,
    text: Vec<u8>,
    /// How many bytes of the text pieces have written, and not an end.
    by_pieces: usize,
    closed: bool,
}

impl Past {
    fn new(source: u32, target: u32) -> Self {
        Self {
            source,
            target,
            consumed: Vec::new(),
            text: Vec::new(),
            by_pieces: 0,
            closed: false,
        }
    }

    fn is_open(&self) -> bool {
        let mut numbers = [self.source, self.target].into_iter();
        !self.closed && numbers.all(|number| Dialect::from_number(number).is_some())
    }

    /// Whether one of the four checks answers the call.
    fn refuses(&self, call: &Call) -> bool {
        let is_long = matches!(*call, Call::Piece(piece, _) if piece.len() > PIECE_BYTES);
        !self.is_open() || is_long || room_of(call) < PIECE_ROOM
    }

    /// Adds a call that was not refused so.
    fn add(&mut self, call: &Call, answer: &Answer) {
        self.text.extend(&answer.text);
        if let Call::Piece(piece, _) = call {
            self.consumed.extend(*piece);
            self.by_pieces = self.text.len();
        }
        let is_end = matches!(call, Call::End(_));
        self.closed = is_end || !answer.report.is_accepted();
    }

    /// The file's first fault, or its whole text, has to be that of the proved whole converter.
    fn is_whole(&self, report: Report) -> Result<(), String> {
        let mut room = vec![0; hemakuliwi::raw::convert_room(self.consumed.len())];
        let whole = hemakuliwi::raw::convert(self.source, self.target, &self.consumed, &mut room);
        let whole = converted(whole);
        if whole.report != report {
            return Err(format!("the whole converter {:?}", whole.report));
        }
        if whole.report.is_accepted() && room[..whole.written] != self.text {
            return Err("the whole converter wrote another text".to_string());
        }
        Ok(())
    }
}

/// What a program may read in a state.
struct Shown {
    records: usize,
    columns: usize,
    /// The names as they are encoded in the file.
    names: Vec<Vec<u8>>,
}

impl Shown {
    /// By the reference implementation: the names from what was consumed, the number of records from what pieces have written.
    fn of(past: &Past) -> Result<Self, String> {
        let text = &past.text[..past.by_pieces];
        if text.is_empty() {
            return Ok(Self {
                records: 0,
                columns: 0,
                names: Vec::new(),
            });
        }
        let written = read_whole(past.target, text).map_err(|report| report.sentence())?;
        let length = header_length(past.source, &past.consumed).ok_or("no header")?;
        let header = &past.consumed[..length];
        let names = read_whole(past.source, header).map_err(|report| report.sentence())?;
        let stretches = names.starts.iter().zip(&names.ends);
        Ok(Self {
            records: written.records + 1,
            columns: names.columns,
            names: stretches
                .map(|(&start, &end)| header[start..end].to_vec())
                .collect(),
        })
    }

    fn is_in(&self, state: &Converter) -> Result<(), String> {
        let (records, columns) = (state.records(), state.columns());
        let is_shown = (records, columns) == (self.records, self.columns)
            && state.numbers[AT_COLUMNS] == self.columns
            && state.name(self.columns).is_none()
            && (0..self.columns).all(|index| state.name(index) == Some(&self.names[index]));
        match is_shown {
            true => Ok(()),
            false => Err(format!(
                "the state shows {records} records of {columns} columns, with other names or numbers than {} of {}",
                self.records, self.columns
            )),
        }
    }
}

/// Longer files are not compared with the whole converter at each call, which takes long.
const LEDGER_BYTES: usize = 150;

/// Several piece converters, the reference implementation's and the ledger, compared call by call.
pub struct PieceComparison {
    trials: Vec<Trial>,
    output: Output,
    reference: Option<reference::Converter>,
    room: Vec<u8>,
    ledger: Option<Ledger>,
    past: Past,
    /// Whether the outcome is compared with the proved whole converter.
    with_whole: bool,
}

impl PieceComparison {
    /// With these converters, before any calls.
    pub fn new(converters: &[PieceConverter]) -> Self {
        let trials = converters.iter();
        Self {
            trials: trials
                .map(|converter| Trial::new(*converter, 0, 0))
                .collect(),
            output: output(),
            reference: None,
            room: vec![0; MOST_ROOM],
            ledger: None,
            past: Past::new(0, 0),
            with_whole: true,
        }
    }

    /// Begins anew between these dialects.
    fn restart(&mut self, source: u32, target: u32) {
        let state = Converter::new(source, target);
        for trial in &mut self.trials {
            trial.restart(&state);
        }
        self.reference = Some(reference::Converter::new(source, target));
        self.past = Past::new(source, target);
    }

    /// What the reference implementation answers.
    fn expected(&mut self, call: &Call) -> Result<Answer, String> {
        let out = &mut self.room[..room_of(call)];
        let converter = self.reference.take().ok_or("the converter was lost")?;
        let (next, answer) = match *call {
            Call::Piece(piece, _) => converter.piece(piece, out),
            Call::End(_) => converter.end(out),
        };
        self.reference = Some(next);
        let expected = Answer {
            report: answer.report,
            text: out[..answer.written].to_vec(),
        };
        match self.ledger.as_mut().map(|ledger| ledger.answer(call)) {
            Some(told) if told != expected => Err(format!("the ledger says {told:?}")),
            _ => Ok(expected),
        }
    }

    fn make(&mut self, call: &Call) -> Result<Answer, String> {
        let expected = self.expected(call)?;
        let is_refused = self.past.refuses(call);
        for trial in &mut self.trials {
            let before = is_refused.then(|| trial.state().clone());
            let made = trial.make(call, &mut self.output)?;
            if made != expected {
                return Err(format!(
                    "it answered {made:?}, but the reference {expected:?}"
                ));
            }
            if before.is_some_and(|before| before != *trial.state()) {
                return Err("a call that was refused has changed the state".to_string());
            }
            let (source, target) = (trial.state().source, trial.state().target);
            if (source, target) != (self.past.source, self.past.target) {
                return Err("the state has other dialects".to_string());
            }
        }
        self.same_states()?;
        if !is_refused {
            self.past.add(call, &expected);
            if self.past.closed && self.with_whole {
                self.past.is_whole(expected.report)?;
            }
        }
        Ok(expected)
    }

    fn same_states(&self) -> Result<(), String> {
        let mut pairs = self.trials.windows(2);
        match pairs.all(|pair| pair[0].state() == pair[1].state()) {
            true => Ok(()),
            false => Err("the states of two forms differ".to_string()),
        }
    }

    /// What a program may read in the states.
    fn shows(&self, shown: &Shown) -> Result<(), String> {
        for trial in &self.trials {
            let offset = trial.state().offset();
            if offset != self.past.consumed.len() && !self.past.closed {
                return Err(format!("the state shows {offset} bytes consumed"));
            }
            shown.is_in(trial.state())?;
        }
        Ok(())
    }
}

/// A list of calls as a person reads it.
pub(super) fn show(source: u32, target: u32, calls: &[Call]) -> String {
    let mut shown = format!("a converter from {source} to {target}");
    for call in calls {
        shown += &match *call {
            Call::Piece(piece, room) => format!("\npiece {} room {room}", hex(piece)),
            Call::End(room) => format!("\nend room {room}"),
        };
    }
    shown
}

impl PieceComparison {
    /// Makes the calls with all converters and compares each answer, the outputs and the states.
    pub fn calls_agree(
        &mut self,
        source: u32,
        target: u32,
        calls: &[Call],
    ) -> Result<Vec<Answer>, String> {
        let taken = calls.iter().map(|call| match *call {
            Call::Piece(piece, _) if piece.len() <= PIECE_BYTES => piece.len(),
            _ => 0,
        });
        let is_told = taken.sum::<usize>() <= LEDGER_BYTES;
        self.restart(source, target);
        self.ledger = is_told.then(|| Ledger::new(source, target));
        self.with_whole = true;
        let mut answers = Vec::new();
        for (index, call) in calls.iter().enumerate() {
            let answer = self.make_and_look(call).map_err(|difference| {
                let calls = show(source, target, &calls[..=index]);
                format!("{calls}\ncall {}: {difference}", index + 1)
            })?;
            answers.push(answer);
        }
        let left = self.output.is_left();
        left.map_err(|difference| format!("{}\n{difference}", show(source, target, calls)))?;
        Ok(answers)
    }

    /// Makes a call, with a look at what the states show: before an end and after it, and after a fault.
    fn make_and_look(&mut self, call: &Call) -> Result<Answer, String> {
        let was_open = self.past.is_open();
        if matches!(call, Call::End(_)) && was_open {
            self.shows(&Shown::of(&self.past)?)?;
        }
        let answer = self.make(call)?;
        if was_open && self.past.closed {
            self.shows(&Shown::of(&self.past)?)?;
        }
        Ok(answer)
    }

    /// Hands a file to the converters in two pieces, cut at these places, each of them further cut where it is too long. How many cuts
    /// were made.
    pub fn cuts_agree(
        &mut self,
        source: u32,
        target: u32,
        file: &[u8],
        cuts: impl Iterator<Item = usize>,
    ) -> Result<usize, String> {
        let in_file = |difference| format!("{source} to {target}: {}\n{difference}", hex(file));
        let mut shown = None;
        let mut count = 0;
        for cut in cuts {
            // Once is enough for one file.
            self.with_whole = count == 0;
            count += 1;
            self.restart(source, target);
            self.ledger = None;
            self.cut_agrees(file.split_at(cut), &mut shown)
                .map_err(|difference| in_file(format!("cut at {cut}: {difference}")))?;
        }
        self.output.is_left().map_err(in_file)?;
        Ok(count)
    }

    /// The states show the same at the end of the file, wherever it was cut.
    fn cut_agrees(
        &mut self,
        (first, second): (&[u8], &[u8]),
        shown: &mut Option<Shown>,
    ) -> Result<(), String> {
        for piece in first.chunks(PIECE_BYTES).chain(second.chunks(PIECE_BYTES)) {
            self.make(&Call::Piece(piece, PIECE_ROOM))?;
        }
        if self.past.is_open() {
            let expected = match shown.take() {
                Some(expected) => expected,
                None => Shown::of(&self.past)?,
            };
            self.shows(&expected)?;
            *shown = Some(expected);
        }
        self.make(&Call::End(PIECE_ROOM))?;
        Ok(())
    }
}

/// Compares the converters on this many random lists of calls. Now and then a number is no dialect's.
///
/// The reports; one that later calls repeat counts once.
pub fn pieces_random(
    converters: &[PieceConverter],
    seed: u64,
    count: usize,
) -> Result<Counts, String> {
    let mut rng = Rng::new(seed);
    let mut counts = Counts::default();
    let mut comparison = PieceComparison::new(converters);
    for _ in 0..count {
        let (made_in, dialect) = rng.pick(&DIALECTS);
        let file = file_for_calls(&mut rng, made_in, dialect);
        let (source, target) = match rng.below(100) {
            0 => (rng.pick(&UNKNOWN), rng.pick(&[1, 2, 3])),
            1 => (made_in, rng.pick(&UNKNOWN)),
            2..=4 => (rng.pick(&[1, 2, 3]), rng.pick(&[1, 2, 3])),
            _ => (made_in, rng.pick(&[1, 2, 3])),
        };
        let calls = random_calls(&mut rng, &file);
        let answers = comparison.calls_agree(source, target, &calls)?;
        let numbers: BTreeSet<usize> = answers.iter().map(|answer| answer.report.number).collect();
        for number in numbers {
            counts.add(made_in, number);
        }
    }
    Ok(counts)
}
