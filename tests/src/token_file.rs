//! Token files, written in plain Rust from document 01 alone: "A token file is
//! ours: mark `OFT`, 16-bit version 1, 32-bit count, then per token kind and
//! reason (8 bits each), start, end, line (32) and column (16), little-endian."
//! Change request #101 adds reason 21 to those that they allow.

use crate::records::{Record, RECORD};

const HEAD: [u8; 5] = *b"OFT\x01\x00";
const HEAD_BYTES: usize = 9;
const TOKEN_BYTES: usize = 16;
const LARGEST_OFFSET: i64 = 67_108_864;
const LARGEST_PLACE: i64 = 67_108_865;

/// The numbers of a record that a file keeps.
struct Kept {
    kind: i64,
    reason: i64,
    start: i64,
    end: i64,
    line: i64,
    column: i64,
}

impl Kept {
    fn from_record(record: &[i64]) -> Kept {
        Kept {
            kind: record[0],
            reason: record[1],
            start: record[3],
            end: record[4],
            line: record[5],
            column: record[6],
        }
    }

    /// "Reading fills the other six numbers with 0."
    fn to_record(&self) -> Record {
        let mut record = [0; RECORD];
        (record[0], record[1]) = (self.kind, self.reason);
        (record[3], record[4]) = (self.start, self.end);
        (record[5], record[6]) = (self.line, self.column);
        record
    }

    fn from_bytes(bytes: &[u8]) -> Kept {
        let number = |from: usize, to: usize| {
            let places = bytes[from..to].iter().rev();
            places.fold(0, |number, &byte| number * 256 + i64::from(byte))
        };
        Kept {
            kind: number(0, 1),
            reason: number(1, 2),
            start: number(2, 6),
            end: number(6, 10),
            line: number(10, 14),
            column: number(14, 16),
        }
    }

    fn to_bytes(&self) -> Vec<u8> {
        let four = |number: i64| (number as u32).to_le_bytes();
        let mut bytes = vec![self.kind as u8, self.reason as u8];
        bytes.extend([self.start, self.end, self.line].map(four).concat());
        bytes.extend((self.column as u16).to_le_bytes());
        bytes
    }

    /// The record rules for one token after one that ends at `previous_end`.
    fn follows(&self, previous_end: i64, last: bool) -> bool {
        // Reasons 19 and 20 are those of reports.
        let allows_reason = match self.kind {
            1 => matches!(self.reason, 1..=18 | 21),
            _ => self.reason == 0,
        };
        let places = 1..=LARGEST_PLACE;
        (0..=25).contains(&self.kind)
            && allows_reason
            && (self.kind == 0) == last
            && self.start <= self.end
            && (self.start == self.end) == last
            && self.start >= previous_end
            && self.end <= LARGEST_OFFSET
            && places.contains(&self.line)
            && places.contains(&self.column)
    }
}

fn follow_rules(tokens: &[Kept]) -> bool {
    let mut previous_end = 0;
    let mut follows = !tokens.is_empty();
    for (index, token) in tokens.iter().enumerate() {
        follows &= token.follows(previous_end, index + 1 == tokens.len());
        previous_end = token.end;
    }
    follows
}

/// The file of the first `count` records, for a buffer of `out_len` bytes, or
/// the refusal: 8, 9, 10 in this order.
pub fn write(records: &[i64], count: u64, out_len: usize) -> Result<Vec<u8>, u8> {
    // Compared by division: a large count times 12 would overflow.
    if count > (records.len() / RECORD) as u64 {
        return Err(8);
    }
    let records = records.chunks_exact(RECORD).take(count as usize);
    let tokens: Vec<Kept> = records.map(Kept::from_record).collect();
    if !follow_rules(&tokens) {
        return Err(8);
    }
    if tokens.iter().any(|token| token.column > 65_535) {
        return Err(9);
    }
    if out_len < HEAD_BYTES + TOKEN_BYTES * tokens.len() {
        return Err(10);
    }
    let mut file = HEAD.to_vec();
    file.extend((count as u32).to_le_bytes());
    file.extend(tokens.iter().flat_map(Kept::to_bytes));
    Ok(file)
}

/// The records of a file, for a slice of `tokens_len` numbers, or the refusal:
/// 7, 8, 4 in this order.
pub fn read(file: &[u8], tokens_len: usize) -> Result<Vec<i64>, u8> {
    if file.len() < HEAD_BYTES || !file.starts_with(&HEAD) {
        return Err(7);
    }
    let (head, body) = file.split_at(HEAD_BYTES);
    let count = u32::from_le_bytes(head[HEAD.len()..].try_into().unwrap());
    if body.len() as u64 != u64::from(count) * TOKEN_BYTES as u64 {
        return Err(7);
    }
    let tokens: Vec<Kept> = body
        .chunks_exact(TOKEN_BYTES)
        .map(Kept::from_bytes)
        .collect();
    if !follow_rules(&tokens) {
        return Err(8);
    }
    if tokens_len < RECORD * tokens.len() {
        return Err(4);
    }
    Ok(tokens.iter().flat_map(Kept::to_record).collect())
}
