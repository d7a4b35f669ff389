//! The calls of the C interface on a text, on a timestamp's run and on a
//! mistyped duration's, each with what it has to leave behind: its number, its
//! answer, all of its buffers.

use std::fmt;

use crate::ffi::{self, Buffers};
use crate::notation::{escaped, joined};
use crate::records::{self, numbers, stepped};
use crate::records::{Lent, Mode, Reading, Refusal, FIRST, RECORD};
use crate::suggestion::{self, Entry, ENTRY, NUMBERS_A_BYTE};
use crate::timestamp;
use crate::token::Position;

#[derive(Debug, Clone, Copy)]
pub struct Setting {
    /// 0 strict, 1 tolerant; any other number is read as strict.
    pub mode: u8,
    pub limit: u64,
}

impl Setting {
    fn mode(self) -> Mode {
        match self.mode {
            1 => Mode::Tolerant,
            _ => Mode::Strict,
        }
    }
}

/// What a call is given beside the text and the buffers.
#[derive(Debug, Clone, Copy)]
pub enum Call {
    Text(Setting),
    Token(Position, Setting),
    Place(usize),
    /// The text is a timestamp's run.
    Timestamp,
}

/// Which calls are made on a text.
#[derive(Debug, Clone, Copy)]
pub enum Depth {
    /// The whole reading.
    Whole,
    /// Besides, one token and the place of every offset and beyond, one token
    /// from untrue places, and the text as a timestamp's run.
    Everywhere,
}

/// What an accepted call gives and writes.
struct Accepted {
    answer: [i64; 6],
    reading: Reading,
}

impl Accepted {
    /// Of a call that is lent no buffers and gives three numbers.
    fn without_buffers([first, second, third]: [i64; 3]) -> Accepted {
        Accepted {
            answer: [first, second, third, 0, 0, 0],
            reading: Reading::default(),
        }
    }
}

/// All that a call leaves behind.
#[derive(PartialEq, Eq)]
struct Outcome {
    number: u8,
    answer: [i64; 6],
    buffers: Buffers,
}

/// A call whose outcome is not the expected one.
pub struct Difference {
    call: Call,
    lent: Lent,
    given: Outcome,
    expected: Outcome,
}

/// Makes all calls of a depth, each with several lengths of buffers. Gives how
/// many there were, or the first that differs.
pub fn compare(text: &[u8], setting: Setting, depth: Depth) -> Result<u64, Box<Difference>> {
    let mut compared = compare_call(text, Call::Text(setting))?;
    if let Depth::Everywhere = depth {
        for call in calls_everywhere(text, setting) {
            compared += compare_call(text, call)?;
        }
    }
    Ok(compared)
}

pub fn compare_call(text: &[u8], call: Call) -> Result<u64, Box<Difference>> {
    let from_rust = call.ask_rust(text);
    let rooms = call.rooms(text, &from_rust);
    for &lent in &rooms {
        let given = call.make(text, lent);
        let expected = expected(&from_rust, lent);
        if given != expected {
            return Err(Box::new(Difference {
                call,
                lent,
                given,
                expected,
            }));
        }
    }
    Ok(rooms.len() as u64)
}

/// All that the call for suggestions leaves behind.
#[derive(PartialEq, Eq)]
struct Suggested {
    number: u8,
    answer: [i64; 6],
    list: Vec<i64>,
}

/// Such a call whose outcome is not the expected one.
pub struct SuggestedDifference {
    given: Suggested,
    expected: Suggested,
}

/// Makes the call for suggestions with several lengths of the list slice.
/// Gives how many there were, or the first that differs.
pub fn compare_suggestions(run: &[u8]) -> Result<u64, Box<SuggestedDifference>> {
    let from_rust = suggestion::list(run);
    let rooms = list_rooms(run, &from_rust);
    for &room in &rooms {
        let (number, count, list) = suggestion::laid(&from_rust, room, Buffers::UNTOUCHED);
        let expected = Suggested {
            number,
            answer: [count as i64, 0, 0, 0, 0, 0],
            list,
        };
        let given = suggested(run, room);
        if given != expected {
            return Err(Box::new(SuggestedDifference { given, expected }));
        }
    }
    Ok(rooms.len() as u64)
}

/// The lengths of list slices to try: exact, longer, none, one short; and that
/// which suffices for any run of the length, so that nothing is counted first,
/// and one less.
fn list_rooms(run: &[u8], from_rust: &Result<Vec<Entry>, u8>) -> Vec<usize> {
    let mut rooms = vec![0, 4];
    if let Ok(entries) = from_rust {
        let exact = ENTRY * entries.len();
        let any = NUMBERS_A_BYTE * run.len();
        rooms.extend([exact.saturating_sub(1), exact, exact + 4, any - 1, any]);
    }
    rooms.sort();
    rooms.dedup();
    rooms
}

/// Calls the proved library.
fn suggested(run: &[u8], room: usize) -> Suggested {
    let mut list = vec![Buffers::UNTOUCHED; room];
    let mut answer = [Buffers::UNTOUCHED; 6];
    let number = ffi::suggest_durations(run, &mut list, &mut answer);
    Suggested {
        number,
        answer,
        list,
    }
}

/// A number with this added is untrue, and true again where it is cut to 32
/// bits.
const WRAP: usize = 1 << 32;

fn calls_everywhere(text: &[u8], setting: Setting) -> Vec<Call> {
    let mut calls = vec![Call::Timestamp];
    let mut place = FIRST;
    for offset in 0..text.len() + 3 {
        let Position { line, column, .. } = place;
        for offset in [offset, offset + WRAP] {
            calls.push(Call::Place(offset));
            let place = Position::with_offset(line, column, offset);
            calls.push(Call::Token(place, setting));
        }
        let wrong = |number: usize| [number - 1, number + 1, number + WRAP, usize::MAX];
        let lines = wrong(line).map(|line| Position { line, ..place });
        let columns = wrong(column).map(|column| Position { column, ..place });
        for untrue in lines.into_iter().chain(columns) {
            calls.push(Call::Token(untrue, setting));
        }
        // Beyond the end it goes on as if over blanks.
        place = stepped(place, text.get(offset).copied().unwrap_or(b' '));
    }
    for far in [1 << 31, i64::MAX as usize, 1 << 63, usize::MAX] {
        calls.push(Call::Place(far));
        calls.push(Call::Token(Position::with_offset(1, 1, far), setting));
    }
    calls
}

/// Longer texts are not lent buffers that suffice for any text.
const LONGEST_FOR_ANY: usize = 1000;

/// The lengths with one taken from those whose bits are set, if there is one.
fn one_short(lent: Lent, short: usize) -> Option<Lent> {
    Some(Lent {
        tokens: lent.tokens.checked_sub(short & 1)?,
        strings: lent.strings.checked_sub(short >> 1 & 1)?,
        reports: lent.reports.checked_sub(short >> 2 & 1)?,
    })
}

impl Call {
    /// What document 01 has, taken from the Rust, with ample buffers.
    fn ask_rust(self, text: &[u8]) -> Result<Accepted, Refusal> {
        let (rest, reading) = match self {
            Call::Text(setting) => {
                let (mode, limit) = (setting.mode(), setting.limit);
                let reading = records::read_text(text, mode, limit, Lent::AMPLE)?;
                ([0; 3], reading)
            }
            Call::Token(place, setting) => {
                let (mode, limit) = (setting.mode(), setting.limit);
                let (reading, end) = records::read_token(text, place, mode, limit, Lent::AMPLE)?;
                (numbers(end), reading)
            }
            Call::Place(offset) => {
                let [offset, line, column] = numbers(records::place_of(text, offset)?);
                return Ok(Accepted::without_buffers([offset, line, column]));
            }
            Call::Timestamp => {
                let date = timestamp::parse(text);
                let numbers =
                    date.map(|(seconds, nanoseconds)| [1, seconds, i64::from(nanoseconds)]);
                return Ok(Accepted::without_buffers(numbers.unwrap_or_default()));
            }
        };
        let counts = [
            reading.records.len(),
            reading.strings.len(),
            reading.reports.len(),
        ];
        let [tokens, strings, reports] = counts.map(|count| count as i64);
        let [offset, line, column] = rest;
        Ok(Accepted {
            answer: [tokens, strings, reports, offset, line, column],
            reading,
        })
    }

    /// The lengths of buffers to try: exact, generous, none, each and several
    /// of them one short; and those that suffice for any text of the length,
    /// each of them one short too, since with these a text is not measured.
    fn rooms(self, text: &[u8], from_rust: &Result<Accepted, Refusal>) -> Vec<Lent> {
        if let Call::Place(_) | Call::Timestamp = self {
            return vec![Lent::NONE];
        }
        let exact = from_rust
            .as_ref()
            .map_or(Lent::NONE, |accepted| accepted.reading.exact());
        let generous = Lent {
            tokens: exact.tokens + RECORD + 1,
            strings: exact.strings + 3,
            reports: exact.reports + 6,
        };
        let mut rooms = vec![exact, generous];
        if exact.tokens > 0 {
            rooms.push(Lent::NONE);
        }
        rooms.extend((1..8).filter_map(|short| one_short(exact, short)));
        if let (Call::Text(setting), 0..=LONGEST_FOR_ANY) = (self, text.len()) {
            let any = Lent::for_any(text.len(), setting.mode());
            rooms.extend(
                [0, 1, 2, 4]
                    .into_iter()
                    .filter_map(|short| one_short(any, short)),
            );
        }
        rooms
    }

    /// Calls the proved library.
    fn make(self, text: &[u8], lent: Lent) -> Outcome {
        let mut buffers = Buffers::untouched(lent);
        let mut answer = [Buffers::UNTOUCHED; 6];
        let number = match self {
            Call::Text(Setting { mode, limit }) => {
                ffi::read_text(text, mode, limit, &mut buffers, &mut answer)
            }
            Call::Token(place, Setting { mode, limit }) => {
                ffi::read_token(text, place, mode, limit, &mut buffers, &mut answer)
            }
            Call::Place(offset) => ffi::place_of(text, offset, &mut answer),
            Call::Timestamp => ffi::timestamp(text, &mut answer),
        };
        Outcome {
            number,
            answer,
            buffers,
        }
    }
}

/// The outcome with buffers of these lengths: a result that fits is at their
/// beginning, and nothing else is touched.
fn expected(from_rust: &Result<Accepted, Refusal>, lent: Lent) -> Outcome {
    let mut buffers = Buffers::untouched(lent);
    let fitting = match from_rust {
        Ok(accepted) => accepted.reading.fits(lent).map(|()| accepted),
        Err(refusal) => Err(*refusal),
    };
    let (number, answer) = match fitting {
        Ok(Accepted { answer, reading }) => {
            let exact = reading.exact();
            buffers.tokens[..exact.tokens].copy_from_slice(reading.records.as_flattened());
            buffers.strings[..exact.strings].copy_from_slice(&reading.strings);
            buffers.reports[..exact.reports].copy_from_slice(reading.reports.as_flattened());
            (0, *answer)
        }
        Err(Refusal { number, offset }) => (number, [offset as i64, 0, 0, 0, 0, 0]),
    };
    Outcome {
        number,
        answer,
        buffers,
    }
}

impl fmt::Display for Difference {
    fn fmt(&self, f: &mut fmt::Formatter<'_>) -> fmt::Result {
        let Lent {
            tokens,
            strings,
            reports,
        } = self.lent;
        writeln!(f, "  {:?}", self.call)?;
        writeln!(
            f,
            "  lent: {tokens} numbers, {strings} bytes, {reports} numbers"
        )?;
        write!(f, "  proved: {}", self.given)?;
        write!(f, "  expected: {}", self.expected)
    }
}

impl fmt::Display for Outcome {
    fn fmt(&self, f: &mut fmt::Formatter<'_>) -> fmt::Result {
        writeln!(f, "{}, answer {}", self.number, shown(&self.answer))?;
        for token in self.buffers.tokens.chunks(RECORD) {
            writeln!(f, "    token {}", shown(token))?;
        }
        writeln!(f, "    strings {}", escaped(&self.buffers.strings))?;
        for report in self.buffers.reports.chunks(5) {
            writeln!(f, "    report {}", shown(report))?;
        }
        Ok(())
    }
}

impl fmt::Display for SuggestedDifference {
    fn fmt(&self, f: &mut fmt::Formatter<'_>) -> fmt::Result {
        writeln!(f, "  Suggestions")?;
        writeln!(f, "  lent: {} numbers", self.expected.list.len())?;
        write!(f, "  proved: {}", self.given)?;
        write!(f, "  expected: {}", self.expected)
    }
}

/// A slice may be long: the entries that were not touched at all are left out.
impl fmt::Display for Suggested {
    fn fmt(&self, f: &mut fmt::Formatter<'_>) -> fmt::Result {
        writeln!(f, "{}, answer {}", self.number, shown(&self.answer))?;
        let is_touched = |entry: &&[i64]| entry.iter().any(|&number| number != Buffers::UNTOUCHED);
        for entry in self.list.chunks(ENTRY).filter(is_touched) {
            writeln!(f, "    entry {}", shown(entry))?;
        }
        Ok(())
    }
}

/// Numbers, with `_` for each that was not touched.
fn shown(numbers: &[i64]) -> String {
    let words: Vec<String> = numbers
        .iter()
        .map(|&number| match number {
            Buffers::UNTOUCHED => "_".to_string(),
            _ => number.to_string(),
        })
        .collect();
    joined(&words)
}
