//! The texts that are read: files as yards write them, and texts that are as
//! bad for a reader as they can be.

use std::fmt::Write;
use std::process::exit;

use oracle::random::Random;
use oracle::records::Mode;

pub struct Text {
    pub name: &'static str,
    pub mode: Mode,
    /// How many times as fast as the Rust the proved library is to be.
    pub goal: f64,
    /// A text of at most so many bytes, and nearly as many.
    pub make: fn(usize) -> Vec<u8>,
}

pub const TEXTS: [Text; 23] = [
    yard("boats", 3.0, |size| filled(size, boat)),
    yard("rows", 3.0, rows),
    yard("strings", 3.0, |size| filled(size, string)),
    yard("comments", 1.0, |size| filled(size, comment)),
    bad("one name", |size| around("", "a", "", size)),
    bad("one string", |size| around("\"", "a", "\"", size)),
    bad("one open string", |size| around("\"", "a", "", size)),
    bad("one triple string of lines", |size| {
        around("\"\"\"\n", "  a\n", "  \"\"\"", size)
    }),
    bad("one open triple string", |size| {
        around("\"\"\"", "\"\"a", "", size)
    }),
    bad("one bytes literal", |size| around("b\"", "A", "\"", size)),
    bad("one number", |size| around("", "7", "", size)),
    bad("one number with a unit", |size| around("", "7", "s", size)),
    bad("one fraction with a unit", |size| {
        around("0.", "0", "1s", size)
    }),
    bad("timestamps", |size| {
        around("", "2024-05-18T09:30:00.25Z\n", "", size)
    }),
    bad("one timestamp", |size| {
        around("2024-05-18T09:30:00.", "7", "Z", size)
    }),
    bad("one open comment", |size| around("/*", "*a", "", size)),
    bad("blanks", |size| around("", " ", "", size)),
    bad("tokens of one byte", |size| {
        around("", "{}[]()=:,\n", "", size)
    }),
    bad("characters that begin nothing", |size| {
        around("", "😀;", "", size)
    }),
    bad("quotes", |size| around("", "\"", "", size)),
    bad("triple quotes", |size| {
        around("", "\"\"\"a\"\"\"", "", size)
    }),
    bad("backslashes", |size| around("\"", "\\\\", "\"", size)),
    Text {
        mode: Mode::Tolerant,
        ..bad("bad escapes, tolerant", |size| {
            around("\"", "\\q", "\"", size)
        })
    },
];

/// The text of a name. Where there is none, the program ends with status 2.
pub fn named(name: &str) -> &'static Text {
    let text = TEXTS.iter().find(|text| text.name == name);
    text.unwrap_or_else(|| {
        let names = TEXTS.map(|text| text.name);
        eprintln!("no text is named {name:?}; there are {names:?}");
        exit(2)
    })
}

const fn yard(name: &'static str, goal: f64, make: fn(usize) -> Vec<u8>) -> Text {
    Text {
        name,
        mode: Mode::Strict,
        goal,
        make,
    }
}

const fn bad(name: &'static str, make: fn(usize) -> Vec<u8>) -> Text {
    yard(name, 1.0, make)
}

/// One thing over and over, with something before and after it.
fn around(before: &str, inside: &str, after: &str, size: usize) -> Vec<u8> {
    let times = (size - before.len() - after.len()) / inside.len();
    format!("{before}{}{after}", inside.repeat(times)).into_bytes()
}

/// As many entries as fit.
fn filled(size: usize, entry: fn(&mut Random) -> String) -> Vec<u8> {
    filled_after("", size, entry)
}

fn filled_after(head: &str, size: usize, entry: fn(&mut Random) -> String) -> Vec<u8> {
    let mut random = Random::new(1);
    let mut text = head.to_string();
    let mut next = entry(&mut random);
    while text.len() + next.len() <= size {
        text += &next;
        next = entry(&mut random);
    }
    text.into_bytes()
}

#[rustfmt::skip]
const WORDS: [&str; 24] = [
    "keel", "stem", "strake", "frame", "thwart", "mast", "larch", "pine", "oak", "tar", "rivet",
    "copper", "oar", "sail", "rudder", "tiller", "slip", "yard", "hull", "plank", "Havørn", "Ærfugl",
    "fore", "aft",
];

fn words(random: &mut Random, most: usize) -> String {
    let words: Vec<&str> = (0..=random.below(most))
        .map(|_| random.pick(&WORDS))
        .collect();
    words.join(" ")
}

/// A length in metres.
fn metres(random: &mut Random) -> String {
    format!("{}.{:03}", random.below(12), random.below(1000))
}

fn boat(random: &mut Random) -> String {
    let mut boat = String::new();
    let day = format!("{:02}-{:02}", random.below(12) + 1, random.below(28) + 1);
    let hull = random.below(5000);
    let mut line = |line: String| writeln!(boat, "{line}").expect("a String takes all");
    line(format!("# Hull {hull}: {}", words(random, 8)));
    line(format!("boat {{\n  name = \"{}\"", words(random, 3)));
    line(format!(
        "  hull_number = {hull}\n  length = {}",
        metres(random)
    ));
    line(format!(
        "  yard.slip = {}\n  afloat = true",
        random.below(9)
    ));
    line(format!(
        "  launched = 2024-{day}T10:{:02}:00Z",
        random.below(60)
    ));
    line(format!(
        "  steamed = {}h{}m",
        random.below(9),
        random.below(60)
    ));
    line(format!(
        "  cured = {}.5s // {}",
        random.below(999),
        words(random, 4)
    ));
    line(format!(
        "  owner = null\n  draught = 0.{}p24",
        random.below(99)
    ));
    for strake in 1..=random.below(6) + 1 {
        let (wood, width) = (words(random, 1), metres(random));
        line(format!(
            "  strake {{ number: {strake}, wood: \"{wood}\", width: {width} }}"
        ));
    }
    line(format!(
        "  frames = [{}, {}, {}]",
        metres(random),
        metres(random),
        metres(random)
    ));
    line(format!(
        "  note = \"\"\"\n    {}\n      {}\n    \"\"\"",
        words(random, 9),
        words(random, 9)
    ));
    line("  mark = b\"SGF2w7hybg==\" /* burnt in */\n}\n".to_string());
    boat
}

fn rows(size: usize) -> Vec<u8> {
    let head = "@type yard.Offsets\n@dataset yard.Row(station, waterline, half, height)\n";
    filled_after(head, size, |random| {
        let (station, waterline) = (random.below(40), metres(random));
        format!(
            "({station}, {waterline}, {}, -0.{})\n",
            metres(random),
            random.below(1000)
        )
    })
}

fn string(random: &mut Random) -> String {
    let (some, more) = (words(random, 20), words(random, 20));
    let between = random.pick(&[", ", "\\n", " \\\"", "\\u00e5", "\\t"]);
    format!("note = \"{some}{between}{more}\"\n")
}

fn comment(random: &mut Random) -> String {
    let inside = words(random, 20);
    match random.below(3) {
        0 => format!("# {inside}\n"),
        1 => format!("// {inside}\n"),
        _ => format!("/* {inside}\n * {} */\n", words(random, 20)),
    }
}
