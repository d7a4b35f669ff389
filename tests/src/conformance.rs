//! The conformance list: texts with what document 01 expects of their whole
//! reading, of one token from a place, or of the place of an offset, and
//! timestamps' runs with their instants, taken from the Rust, for whoever
//! builds another reader.
//!
//! Of the refusals of a text, 2 to 6 are in it. Number 1 is not: the smallest
//! text that it refuses has 67,108,865 bytes, and `compare` tries that one.

mod table;

use std::fmt;

use crate::cases::{DEFAULT_LIMIT, FURTHER, MINIATURE};
use crate::duration::{LARGEST, UNITS};
use crate::grammar::grown_text;
use crate::notation::{escaped, joined};
use crate::random::Random;
use crate::records::{place_of, read_text, read_token, stepped};
use crate::records::{Lent, Mode, Reading, Refusal, FIRST};
use crate::timestamp;
use crate::token::Position;

/// How many cases there are.
pub const COUNT: usize = 3_748;
/// No text is longer, in bytes.
pub const LONGEST_TEXT: usize = 400;
/// No buffer is longer where its length is stated: the program that replays
/// the list has buffers of these lengths.
pub const LONGEST_ROOM: Lent = Lent {
    tokens: 6_156,
    strings: 512,
    reports: 2_560,
};

/// A text and what is asked of it; printed with what it gives.
#[derive(Debug, PartialEq, Eq)]
pub struct Case {
    pub name: String,
    pub text: Vec<u8>,
    pub mode: Mode,
    pub limit: u64,
    pub asked: Asked,
    /// The lengths of the buffers; without it, they are long enough.
    pub room: Option<Lent>,
}

/// Which call is made on the text.
#[derive(Debug, Clone, Copy, PartialEq, Eq)]
pub enum Asked {
    /// The whole reading.
    Whole,
    /// One token, from this place.
    OneToken(Position),
    /// The place of this offset.
    PlaceOf(usize),
    /// The instant that it names, the text being a timestamp's run: any bytes.
    Instant,
}

/// What an accepted case gives.
#[derive(Debug, Default, PartialEq, Eq)]
pub struct Answer {
    /// Where tokens are asked for: what is written.
    pub reading: Option<Reading>,
    /// The place at the one token's end, or of the offset.
    pub place: Option<Position>,
    /// Where an instant is asked for: it, or that there is none.
    pub instant: Option<Instant>,
}

/// The seconds and the nanoseconds, or `None` for no date.
pub type Instant = Option<(i64, i32)>;

/// The whole list, as it is stored.
pub fn list() -> String {
    cases().iter().map(Case::to_string).collect()
}

/// The questions alone: what a program is given that is to answer them.
pub fn questions() -> String {
    let asked = |case: &Case| Question(case).to_string();
    cases().iter().map(asked).collect()
}

/// The same at each call: first those written by hand, then those that try
/// a rule with one thing after the other, then those that ask for one token, a
/// place or an instant or lend short buffers, then grown texts.
pub fn cases() -> Vec<Case> {
    let mut list = List(Vec::new());
    list.miniature();
    list.written();
    list.bytes_limits();
    list.characters();
    list.name_bytes();
    list.utf8_leads();
    list.escapes();
    list.hex_digits();
    list.octal_digits();
    list.indents();
    list.durations();
    list.duration_formula();
    list.duration_letters();
    list.timestamps();
    list.month_lengths();
    list.one_token();
    list.refused_texts();
    list.refused_places();
    list.places_of();
    list.instants();
    list.rooms();
    list.order_of_checks();
    list.grown();
    list.0
}

struct List(Vec<Case>);

impl List {
    fn add(&mut self, name: String, text: &[u8], mode: Mode, limit: u64) {
        self.0.push(whole_reading(name, text, mode, limit));
    }

    fn add_both(&mut self, name: String, text: &[u8], limit: u64) {
        for mode in [Mode::Strict, Mode::Tolerant] {
            self.add(name.clone(), text, mode, limit);
        }
    }

    /// One token, or buffers of stated lengths, or both; or a place or an
    /// instant.
    fn add_call(
        &mut self,
        name: String,
        text: &[u8],
        mode: Mode,
        asked: Asked,
        room: Option<Lent>,
    ) {
        self.0.push(Case {
            asked,
            room,
            ..whole_reading(name, text, mode, DEFAULT_LIMIT)
        });
    }

    fn add_place_of(&mut self, name: String, text: &[u8], offset: usize) {
        self.add_call(name, text, Mode::Strict, Asked::PlaceOf(offset), None);
    }

    fn add_instant(&mut self, variant: &str, run: &[u8]) {
        let name = format!("instant-{variant}");
        self.add_call(name, run, Mode::Strict, Asked::Instant, None);
    }

    fn miniature(&mut self) {
        for (index, case) in MINIATURE.iter().chain(FURTHER).enumerate() {
            let name = format!("miniature-{}", index + 1);
            self.add(name, case.text.as_bytes(), case.mode, case.limit);
        }
    }

    fn written(&mut self) {
        for (rule, texts) in table::RULES {
            for (variant, text) in *texts {
                let name = format!("{rule}-{variant}");
                self.add_both(name, text.as_bytes(), DEFAULT_LIMIT);
            }
        }
        for (variant, text) in table::UTF8 {
            self.add_both(format!("utf8-{variant}"), text, DEFAULT_LIMIT);
        }
        for (variant, limits, text) in table::LIMITED {
            for limit in *limits {
                let name = format!("bytes-limit-{limit}-{variant}");
                self.add_both(name, text.as_bytes(), *limit);
            }
        }
    }

    /// Bytes literals of so many bytes, at and beside the limit.
    fn bytes_limits(&mut self) {
        for length in 0..=13 {
            let text = format!("b\"{}\"", "A".repeat(length));
            for limit in [0, 2, 3, 5, 6, 8, 9] {
                let name = format!("bytes-limit-{limit}-length-{length}");
                self.add(name, text.as_bytes(), Mode::Strict, limit);
            }
        }
    }

    /// Each ASCII character alone, and after a digit.
    fn characters(&mut self) {
        for byte in 0..=127 {
            let name = format!("character-{byte:02x}-alone");
            self.add(name, &[byte], Mode::Strict, DEFAULT_LIMIT);
            let name = format!("character-{byte:02x}-after-digit");
            self.add(name, &[b'1', byte, b'a'], Mode::Tolerant, DEFAULT_LIMIT);
        }
    }

    /// Each ASCII character inside a name, with `@` and without; and each of
    /// those that a name has, alone after `@`.
    fn name_bytes(&mut self) {
        for byte in 0..=127 {
            let name = format!("name-byte-{byte:02x}-inside");
            self.add(name, &[b'q', byte, b'q'], Mode::Strict, DEFAULT_LIMIT);
            let name = format!("directive-byte-{byte:02x}-inside");
            self.add(name, &[b'@', b'q', byte, b'q'], Mode::Strict, DEFAULT_LIMIT);
            if byte.is_ascii_alphanumeric() || b"_.".contains(&byte) {
                let name = format!("directive-byte-{byte:02x}-alone");
                self.add(name, &[b'@', byte], Mode::Strict, DEFAULT_LIMIT);
            }
        }
    }

    /// Each lead byte there is, with the least and the greatest second byte
    /// that it allows, and with those beside them.
    fn utf8_leads(&mut self) {
        for lead in 0xC2..=0xF4 {
            let (least, greatest) = second_bytes(lead);
            let rest = match lead {
                ..0xE0 => 0,
                0xE0..0xF0 => 1,
                0xF0.. => 2,
            };
            let sequence = |second, last| [vec![lead, second], vec![last; rest]].concat();
            let bounds = [sequence(least, 0x80), sequence(greatest, 0xBF)].concat();
            for (variant, text) in [
                ("bounds", bounds),
                ("second-below", sequence(least - 1, 0x80)),
                ("second-above", sequence(greatest + 1, 0xBF)),
            ] {
                let name = format!("utf8-lead-{lead:02x}-{variant}");
                self.add(name, &text, Mode::Strict, DEFAULT_LIMIT);
            }
        }
    }

    /// Each printable ASCII character after a backslash.
    fn escapes(&mut self) {
        for byte in b' '..=b'~' {
            let text = [b"\"\\", &[byte][..], b"00041x\""].concat();
            self.add_both(format!("escape-{byte:02x}"), &text, DEFAULT_LIMIT);
        }
    }

    /// An escape with this digit; what is none gives another token in each mode.
    fn add_digit(&mut self, name: String, text: &str, is_digit: bool) {
        match is_digit {
            true => self.add(name, text.as_bytes(), Mode::Strict, DEFAULT_LIMIT),
            false => self.add_both(name, text.as_bytes(), DEFAULT_LIMIT),
        }
    }

    /// Each hexadecimal digit, and those beside them, in the escapes that take
    /// such digits.
    fn hex_digits(&mut self) {
        for byte in *b"0123456789ABCDEFabcdef/:@G`g" {
            let c = char::from(byte);
            for (variant, text) in [
                ("x-first", format!(r#""\x{c}1""#)),
                ("x-second", format!(r#""\x4{c}""#)),
                ("u-second", format!(r#""\u0{c}41""#)),
                ("capital-u-fifth", format!(r#""\U0000{c}041""#)),
            ] {
                let name = format!("hex-digit-{variant}-{byte:02x}");
                self.add_digit(name, &text, c.is_ascii_hexdigit());
            }
        }
    }

    /// The same for the second and the third octal digit.
    fn octal_digits(&mut self) {
        for byte in *b"01234567/8" {
            let c = char::from(byte);
            for (variant, text) in [
                ("second", format!(r#""\0{c}1""#)),
                ("third", format!(r#""\10{c}""#)),
            ] {
                let name = format!("octal-digit-{variant}-{byte:02x}");
                self.add_digit(name, &text, matches!(c, '0'..='7'));
            }
        }
    }

    /// An indent of each White_Space character, and of others that are none.
    fn indents(&mut self) {
        for (class, characters) in [
            ("white-space", &table::WHITE_SPACE[..]),
            ("no-white-space", &table::NO_WHITE_SPACE[..]),
        ] {
            for &c in characters {
                let name = format!("dedent-{class}-u{:04x}", u32::from(c));
                let text = format!("\"\"\"\n{c}a\n{c}{c}b\nc\n{c}\"\"\"");
                self.add(name, text.as_bytes(), Mode::Strict, DEFAULT_LIMIT);
            }
        }
    }

    /// The largest whole number of each unit, and fractions.
    fn durations(&mut self) {
        for (unit, nanoseconds) in UNITS {
            let word = match unit {
                "\u{b5}s" => "micro-sign",
                "\u{3bc}s" => "greek-mu",
                _ => unit,
            };
            let largest = (LARGEST - 1) / nanoseconds;
            let beyond = largest + 1;
            for (variant, text) in [
                ("largest", format!("{largest}{unit}")),
                ("too-large", format!("{beyond}{unit}")),
                ("least", format!("-{largest}{unit}")),
                ("too-small", format!("-{beyond}{unit}")),
                ("fraction", format!("0.123456789{unit}")),
                ("fraction-nines", format!("0.{}{unit}", "9".repeat(25))),
                ("fraction-zeros", format!("1.{}1{unit}", "0".repeat(25))),
                ("fraction-over", format!("{largest}.999999999{unit}")),
            ] {
                let name = format!("duration-{word}-{variant}");
                self.add(name, text.as_bytes(), Mode::Strict, DEFAULT_LIMIT);
            }
        }
    }

    fn duration_formula(&mut self) {
        for (variant, text) in table::DURATION_FORMULA {
            let name = format!("duration-formula-{variant}");
            self.add(name, text.as_bytes(), Mode::Strict, DEFAULT_LIMIT);
        }
    }

    /// Each letter that may go on with a run, after a unit and as one.
    fn duration_letters(&mut self) {
        for letter in 'a'..='z' {
            for (variant, text) in [
                ("after-unit", format!("5s{letter}")),
                ("as-later-unit", format!("2m5{letter}")),
            ] {
                let name = format!("duration-letter-{letter}-{variant}");
                self.add(name, text.as_bytes(), Mode::Strict, DEFAULT_LIMIT);
            }
        }
    }

    /// Dates alone; runs that are none also where they are followed by one of
    /// the bytes that end them.
    fn timestamps(&mut self) {
        for (variant, run) in table::DATES {
            let name = format!("timestamp-{variant}");
            self.add_both(name, run.as_bytes(), DEFAULT_LIMIT);
        }
        for (variant, run) in table::NO_DATES {
            for (place, text) in [
                ("", run.to_string()),
                ("-in-list", format!("[{run}]")),
                ("-before-comma", format!("{run},a")),
                ("-before-hash", format!("{run}#a")),
                ("-before-slashes", format!("{run}//a")),
            ] {
                let name = format!("timestamp-{variant}{place}");
                self.add_both(name, text.as_bytes(), DEFAULT_LIMIT);
            }
        }
    }

    /// The last day of each month of a common year, and the day after it.
    fn month_lengths(&mut self) {
        for (variant, run) in month_ends(2023, 28) {
            let name = format!("timestamp-{variant}");
            self.add(name, run.as_bytes(), Mode::Strict, DEFAULT_LIMIT);
        }
    }

    /// One token from each offset; those inside a character are refused.
    fn one_token(&mut self) {
        for (variant, text) in table::ONE_TOKEN {
            for place in places(text.as_bytes()) {
                for mode in [Mode::Strict, Mode::Tolerant] {
                    let name = format!("one-token-{variant}-at-{}", place.offset);
                    self.add_call(name, text.as_bytes(), mode, Asked::OneToken(place), None);
                }
            }
        }
    }

    /// The whole text is checked, though one token is asked for.
    fn refused_texts(&mut self) {
        for (variant, text, offset) in table::NO_TEXT {
            let place = places(text)[*offset];
            let name = format!("refused-2-{variant}");
            self.add_call(name, text, Mode::Strict, Asked::OneToken(place), None);
        }
    }

    fn refused_places(&mut self) {
        for (variant, text, [offset, line, column]) in table::UNTRUE {
            let asked = Asked::OneToken(Position::with_offset(*line, *column, *offset));
            let name = format!("refused-3-{variant}");
            self.add_call(name, text.as_bytes(), Mode::Strict, asked, None);
        }
    }

    /// The place of each offset; then of offsets that have none, and in bytes
    /// that are no text.
    fn places_of(&mut self) {
        for (variant, text) in table::PLACES_OF {
            for offset in 0..=text.len() {
                let group = match text.is_char_boundary(offset) {
                    true => "place-of",
                    false => "refused-3-place-of",
                };
                let name = format!("{group}-{variant}-at-{offset}");
                self.add_place_of(name, text.as_bytes(), offset);
            }
        }
        for (variant, text, offset) in table::NO_PLACE {
            let name = format!("refused-3-place-of-{variant}");
            self.add_place_of(name, text.as_bytes(), *offset);
        }
        for (variant, text, offset) in table::NO_TEXT_NO_PLACE {
            let name = format!("refused-2-place-of-{variant}");
            self.add_place_of(name, text, *offset);
        }
    }

    /// The runs above, asked for their instants; runs that no text has, and
    /// others that only the instant tells apart; and the ends of all months.
    fn instants(&mut self) {
        for (variant, run) in table::DATES.iter().chain(table::NO_DATES) {
            self.add_instant(variant, run.as_bytes());
        }
        for (variant, run) in table::INSTANTS {
            self.add_instant(variant, run);
        }
        let nines = format!("2024-01-02T03:04:05.{}Z", "9".repeat(300));
        self.add_instant("fraction-300-nines", nines.as_bytes());
        for (kind, year, february) in [("common-year", 2023, 28), ("leap-year", 2024, 29)] {
            for (variant, run) in month_ends(year, february) {
                self.add_instant(&format!("{kind}-{variant}"), run.as_bytes());
            }
        }
    }

    /// Buffers that are exact, longer, and each alone one short and empty.
    fn rooms(&mut self) {
        for (variant, text, mode, offset) in table::ROOMS {
            let text = text.as_bytes();
            let asked = offset.map_or(Asked::Whole, |offset| {
                Asked::OneToken(place_of(text, offset).expect("a true offset"))
            });
            let exact = exact(text, *mode, asked);
            for (group, room) in accepted_rooms(exact).into_iter().chain(short_rooms(exact)) {
                let name = format!("{group}-{variant}");
                self.add_call(name, text, *mode, asked, Some(room));
            }
        }
    }

    /// Calls with several faults; each is refused for the first of them.
    fn order_of_checks(&mut self) {
        let text: &[u8] = b"\"a\\q\"";
        let no_text: &[u8] = b"\"a\\q\xFF";
        let untrue = Asked::OneToken(Position::with_offset(1, 2, 0));
        for (variant, text, asked) in [
            ("2-before-3-one-token", no_text, untrue),
            ("2-before-4-whole", no_text, Asked::Whole),
            ("3-before-4-one-token", text, untrue),
        ] {
            let name = format!("order-{variant}");
            self.add_call(name, text, Mode::Tolerant, asked, Some(Lent::NONE));
        }
        for (variant, text, offset) in [
            ("place-of", &b"a\xFF"[..], 3),
            ("place-of-inside-character", b"\xC3\xA9\xFF", 1),
        ] {
            let name = format!("order-2-before-3-{variant}");
            self.add_place_of(name, text, offset);
        }
        let first = Asked::OneToken(FIRST);
        for (word, asked) in [("one-token", first), ("whole", Asked::Whole)] {
            let exact = exact(text, Mode::Tolerant, asked);
            let (mut no_reports, mut tokens_only) = (exact, Lent::NONE);
            no_reports.reports = 0;
            tokens_only.tokens = exact.tokens;
            for (variant, room) in [
                ("4-before-5", Lent::NONE),
                ("5-before-6", tokens_only),
                ("6-last", no_reports),
            ] {
                let name = format!("order-{variant}-{word}");
                self.add_call(name, text, Mode::Tolerant, asked, Some(room));
            }
        }
    }

    /// As many as are still missing.
    fn grown(&mut self) {
        let mut random = Random::new(1);
        let missing = COUNT - self.0.len();
        for number in 1..=missing {
            let mut text = grown_text(&mut random);
            while text.len() > LONGEST_TEXT {
                text = grown_text(&mut random);
            }
            let mode = random.pick(&[Mode::Strict, Mode::Tolerant]);
            let limit = random.pick(&[0, 3, 6, 9, DEFAULT_LIMIT, u64::MAX]);
            self.add(format!("grown-{number}"), text.as_bytes(), mode, limit);
        }
    }
}

/// The whole reading of a text into buffers that are long enough.
fn whole_reading(name: String, text: &[u8], mode: Mode, limit: u64) -> Case {
    Case {
        name: format!("{name}-{}", word(mode)),
        text: text.to_vec(),
        mode,
        limit,
        asked: Asked::Whole,
        room: None,
    }
}

/// The last day of each month of a year, and the day after it, with the length
/// of its February.
fn month_ends(year: u32, february: u32) -> Vec<(String, String)> {
    let lengths = [31, february, 31, 30, 31, 30, 31, 31, 30, 31, 30, 31];
    let mut runs = Vec::new();
    for (month, length) in (1..).zip(lengths) {
        for (variant, day) in [("last-day", length), ("day-too-many", length + 1)] {
            let run = format!("{year}-{month:02}-{day}T00:00:00Z");
            runs.push((format!("month-{month:02}-{variant}"), run));
        }
    }
    runs
}

/// The least and the greatest second byte of a character, by RFC 3629: no
/// overlong forms, no surrogates, nothing above 0x10FFFF.
fn second_bytes(lead: u8) -> (u8, u8) {
    match lead {
        0xE0 => (0xA0, 0xBF),
        0xED => (0x80, 0x9F),
        0xF0 => (0x90, 0xBF),
        0xF4 => (0x80, 0x8F),
        _ => (0x80, 0xBF),
    }
}

/// The places of all offsets, those inside characters too.
fn places(text: &[u8]) -> Vec<Position> {
    let mut places = vec![FIRST];
    for (offset, &byte) in text.iter().enumerate() {
        places.push(stepped(places[offset], byte));
    }
    places
}

/// The lengths of buffers that hold what is asked for and no more.
fn exact(text: &[u8], mode: Mode, asked: Asked) -> Lent {
    let case = Case {
        asked,
        ..whole_reading(String::new(), text, mode, DEFAULT_LIMIT)
    };
    let answer = case.answer().expect("a text, a true place, ample buffers");
    answer.reading.expect("tokens are asked for").exact()
}

fn accepted_rooms(exact: Lent) -> [(&'static str, Lent); 2] {
    let longer = Lent {
        tokens: exact.tokens + 1,
        strings: exact.strings + 1,
        reports: exact.reports + 1,
    };
    [("room-exact", exact), ("room-longer", longer)]
}

/// Named for their refusals. A buffer that nothing goes into is never short;
/// at least one token goes into the first.
fn short_rooms(exact: Lent) -> Vec<(&'static str, Lent)> {
    let tokens = |tokens| Lent { tokens, ..exact };
    let strings = |strings| Lent { strings, ..exact };
    let reports = |reports| Lent { reports, ..exact };
    let mut rooms = vec![
        ("refused-4-one-short", tokens(exact.tokens - 1)),
        ("refused-4-empty", tokens(0)),
    ];
    if exact.strings > 0 {
        rooms.push(("refused-5-one-short", strings(exact.strings - 1)));
        rooms.push(("refused-5-empty", strings(0)));
    }
    if exact.reports > 0 {
        rooms.push(("refused-6-one-short", reports(exact.reports - 1)));
        rooms.push(("refused-6-empty", reports(0)));
    }
    rooms
}

fn word(mode: Mode) -> &'static str {
    match mode {
        Mode::Strict => "strict",
        Mode::Tolerant => "tolerant",
    }
}

/// Offset, line and column; unlike a record's they may be any numbers.
fn place_words(place: Position) -> String {
    joined(&[place.offset, place.line, place.column])
}

impl Case {
    /// What the Rust gives.
    pub fn answer(&self) -> Result<Answer, Refusal> {
        let (text, mode, limit) = (&self.text, self.mode, self.limit);
        let lent = self.room.unwrap_or(Lent::AMPLE);
        let mut answer = Answer::default();
        match self.asked {
            Asked::Whole => answer.reading = Some(read_text(text, mode, limit, lent)?),
            Asked::OneToken(from) => {
                let (reading, end) = read_token(text, from, mode, limit, lent)?;
                (answer.reading, answer.place) = (Some(reading), Some(end));
            }
            Asked::PlaceOf(offset) => answer.place = Some(place_of(text, offset)?),
            Asked::Instant => answer.instant = Some(timestamp::parse(text)),
        }
        Ok(answer)
    }
}

/// What a case asks, as the list has it: one thing a line, its word first.
struct Question<'a>(&'a Case);

impl fmt::Display for Question<'_> {
    fn fmt(&self, f: &mut fmt::Formatter<'_>) -> fmt::Result {
        let Question(case) = self;
        writeln!(f, "case {}", case.name)?;
        writeln!(f, "mode {}", word(case.mode))?;
        writeln!(f, "limit {}", case.limit)?;
        match case.asked {
            Asked::Whole => {}
            Asked::OneToken(from) => writeln!(f, "from {}", place_words(from))?,
            Asked::PlaceOf(offset) => writeln!(f, "at {offset}")?,
            Asked::Instant => writeln!(f, "instant")?,
        }
        if let Some(room) = case.room {
            let lengths = [room.tokens, room.strings, room.reports];
            writeln!(f, "room {}", joined(&lengths))?;
        }
        writeln!(f, "text {}", escaped(&case.text))
    }
}

/// A case as the list has it: the question, then the answer likewise.
impl fmt::Display for Case {
    fn fmt(&self, f: &mut fmt::Formatter<'_>) -> fmt::Result {
        write!(f, "{}", Question(self))?;
        match self.answer() {
            Ok(Answer {
                reading,
                place,
                instant,
            }) => {
                if let Some(reading) = reading {
                    for record in &reading.records {
                        writeln!(f, "token {}", joined(record))?;
                    }
                    writeln!(f, "strings {}", escaped(&reading.strings))?;
                    for report in &reading.reports {
                        writeln!(f, "report {}", joined(report))?;
                    }
                }
                if let Some(place) = place {
                    writeln!(f, "place {}", place_words(place))?;
                }
                match instant {
                    Some(Some((seconds, nanos))) => writeln!(f, "date {seconds} {nanos}")?,
                    Some(None) => writeln!(f, "no date")?,
                    None => {}
                }
            }
            Err(refusal) => writeln!(f, "refused {} {}", refusal.number, refusal.offset)?,
        }
        writeln!(f, "end")
    }
}
