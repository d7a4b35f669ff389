//! Holds the oracle itself to what document 01 says of every reading, on random
//! texts in both modes.

use std::collections::BTreeSet;

use oracle::cases::DEFAULT_LIMIT;
use oracle::grammar::{grown_text, grown_timestamps};
use oracle::random::Random;
use oracle::records::{self, read_text, read_token, Lent, Mode, Reading, Refusal};
use oracle::texts::random_text;
use oracle::token::Position;
use oracle::token_file;

const TEXTS: usize = 100_000;

#[test]
fn readings_of_random_texts() {
    let mut random = Random::new(1);
    let (mut kinds, mut reasons) = (BTreeSet::new(), BTreeSet::new());
    for _ in 0..TEXTS {
        let text = match random.below(5) {
            0 | 1 => random_text(&mut random, 14),
            2 | 3 => grown_text(&mut random),
            _ => grown_timestamps(&mut random),
        };
        let limit = random.pick(&[DEFAULT_LIMIT, 0, 2, 3, 6]);
        for mode in [Mode::Strict, Mode::Tolerant] {
            let reading = read_text(text.as_bytes(), mode, limit, Lent::AMPLE);
            let reading = reading.expect("a short text in UTF-8 with ample buffers");
            tiles(&text, &reading);
            lays_strings_in_order(&text, &reading);
            reads_one_by_one(&text, mode, limit, &reading);
            refuses_short_buffers(&text, mode, limit, &reading);
            goes_through_a_file(&reading);
            kinds.extend(reading.records.iter().map(|record| record[0]));
            reasons.extend(reading.records.iter().map(|record| record[1]));
            reasons.extend(reading.reports.iter().map(|report| report[0]));
        }
    }
    // The texts have shown everything.
    assert!(kinds.into_iter().eq(0..=25));
    assert!(reasons.into_iter().eq(0..=21));
}

/// The texts that timestamps are compared on show each verdict often.
#[test]
fn grown_timestamps_are_good_and_bad() {
    let mut random = Random::new(1);
    let (mut good, mut bad) = (0, 0);
    for _ in 0..10_000 {
        let text = grown_timestamps(&mut random);
        let reading = read_text(text.as_bytes(), Mode::Strict, DEFAULT_LIMIT, Lent::AMPLE);
        for record in reading.unwrap().records {
            match record[..2] {
                [11, 0] => good += 1,
                [1, 21] => bad += 1,
                _ => {}
            }
        }
    }
    assert!(good > 5_000 && bad > 5_000, "{good} good, {bad} bad");
}

/// Tokens and gaps are the whole text, gaps are blank, the last token is the
/// one Eof, and all begins and ends between characters, at its true place.
fn tiles(text: &str, reading: &Reading) {
    let mut previous_end = 0;
    for (index, record) in reading.records.iter().enumerate() {
        let [kind, _, _, start, end, line, column, ..] = *record;
        let (start, end) = (start as usize, end as usize);
        let is_last = index + 1 == reading.records.len();
        assert_eq!(kind == 0, is_last, "{text:?}");
        assert_eq!(start == end, is_last, "{text:?}");
        let gap = &text.as_bytes()[previous_end..start];
        assert!(gap.iter().all(|&byte| records::is_blank(byte)), "{text:?}");
        assert!(text.is_char_boundary(end), "{text:?}");
        let place = records::place_of(text.as_bytes(), start).unwrap();
        assert_eq!([place.line as i64, place.column as i64], [line, column]);
        previous_end = end;
    }
    assert_eq!(previous_end, text.len(), "{text:?}");
}

fn lays_strings_in_order(text: &str, reading: &Reading) {
    let mut laid = 0;
    for record in reading.records.iter().filter(|record| record[0] == 5) {
        assert_eq!(record[7], laid, "{text:?}");
        laid += record[8];
    }
    assert_eq!(laid, reading.strings.len() as i64, "{text:?}");
    // "A string buffer as long as the text always suffices."
    assert!(reading.strings.len() <= text.len(), "{text:?}");
}

/// Each token read on its own, from where the one before ends, is the same;
/// only a String's value lies elsewhere.
fn reads_one_by_one(text: &str, mode: Mode, limit: u64, reading: &Reading) {
    let mut place = Position::with_offset(1, 1, 0);
    let mut joined = Reading::default();
    for _ in &reading.records {
        let (one, end) = read_token(text.as_bytes(), place, mode, limit, Lent::AMPLE).unwrap();
        let mut record = one.records[0];
        if record[0] == 5 {
            record[7] += joined.strings.len() as i64;
        }
        assert_eq!(record[4], end.offset as i64, "{text:?}");
        joined.records.push(record);
        joined.strings.extend(one.strings);
        joined.reports.extend(one.reports);
        place = end;
    }
    assert_eq!(&joined, reading, "{text:?}");
}

fn refuses_short_buffers(text: &str, mode: Mode, limit: u64, reading: &Reading) {
    let exact = reading.exact();
    let number = |lent| read_text(text.as_bytes(), mode, limit, lent).map_err(|e| e.number);
    assert_eq!(number(exact).as_ref(), Ok(reading));
    let tokens = exact.tokens - 1;
    assert_eq!(number(Lent { tokens, ..exact }), Err(4));
    if let Some(strings) = exact.strings.checked_sub(1) {
        assert_eq!(number(Lent { strings, ..exact }), Err(5));
    }
    if let Some(reports) = exact.reports.checked_sub(1) {
        assert_eq!(number(Lent { reports, ..exact }), Err(6));
    }
}

/// Every reading follows the record rules, and a file keeps six numbers of it.
fn goes_through_a_file(reading: &Reading) {
    let records = reading.records.as_flattened();
    let count = reading.records.len() as u64;
    let file = token_file::write(records, count, usize::MAX).unwrap();
    let kept = token_file::read(&file, usize::MAX).unwrap();
    for (kept, record) in kept.chunks_exact(12).zip(&reading.records) {
        let [kind, reason, _, start, end, line, column, ..] = *record;
        assert_eq!(
            kept,
            [kind, reason, 0, start, end, line, column, 0, 0, 0, 0, 0]
        );
    }
}

#[test]
fn refusals_of_texts_and_places() {
    let refused = |number, offset| Some(Refusal { number, offset });
    let read = |text: &[u8]| read_text(text, Mode::Strict, DEFAULT_LIMIT, Lent::AMPLE);
    assert_eq!(read(&vec![0xFF; 67_108_865]).err(), refused(1, 0));
    assert_eq!(read(b"a\xC3\xA9\xE2\x82z").err(), refused(2, 3));

    let text = "é\nb".as_bytes();
    let place = |offset| records::place_of(text, offset);
    assert_eq!(place(2), Ok(Position::with_offset(1, 3, 2)));
    assert_eq!(place(4), Ok(Position::with_offset(2, 2, 4)));
    assert_eq!(place(1).err(), refused(3, 0));
    assert_eq!(place(5).err(), refused(3, 0));
    for untrue in [(1, 5, 4), (2, 1, 4), (1, 1, 1), (2, 2, 5)] {
        let place = Position::with_offset(untrue.0, untrue.1, untrue.2);
        let read = read_token(text, place, Mode::Strict, DEFAULT_LIMIT, Lent::AMPLE);
        assert_eq!(read.err(), refused(3, 0));
    }
}

#[test]
fn files_of_the_smallest_text() {
    let eof = [0, 0, 0, 0, 0, 1, 1, 0, 0, 0, 0, 0];
    let file = b"OFT\x01\0\x01\0\0\0\0\0\0\0\0\0\0\0\0\0\x01\0\0\0\x01\0";
    assert_eq!(token_file::write(&eof, 1, 25), Ok(file.to_vec()));
    assert_eq!(token_file::write(&eof, 1, 24), Err(10));
    assert_eq!(token_file::write(&eof, 0, 25), Err(8));
    assert_eq!(token_file::write(&eof, u64::MAX / 12 + 2, 25), Err(8));
    let mut wide = eof;
    wide[6] = 65_536;
    assert_eq!(token_file::write(&wide, 1, 0), Err(9));
    assert_eq!(token_file::read(file, 12), Ok(eof.to_vec()));
    assert_eq!(token_file::read(file, 11), Err(4));
    assert_eq!(token_file::read(&file[..24], 12), Err(7));
    assert_eq!(token_file::read(b"OFT\x01\0\0\0\0\0", 0), Err(8));
}
