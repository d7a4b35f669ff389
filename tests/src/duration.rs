//! `go_duration::parse` written anew from document 01, over bytes: the Rust
//! takes UTF-8 alone, and the proved reader any bytes. On UTF-8 it is held to
//! the Rust's verdict and value; on other bytes it stands in for the Rust.

pub const LARGEST: i128 = 1 << 63;

/// Each unit and its nanoseconds.
pub const UNITS: [(&str, i128); 8] = [
    ("ns", 1),
    ("us", 1_000),
    ("\u{b5}s", 1_000),
    ("\u{3bc}s", 1_000),
    ("ms", 1_000_000),
    ("s", 1_000_000_000),
    ("m", 60_000_000_000),
    ("h", 3_600_000_000_000),
];

/// The nanoseconds of a run, or `None` where it is refused.
pub fn parse(run: &[u8]) -> Option<i64> {
    let (negative, mut rest) = match run {
        [b'-', rest @ ..] => (true, rest),
        [b'+', rest @ ..] => (false, rest),
        _ => (false, run),
    };
    if rest == b"0" {
        return Some(0);
    }
    if rest.is_empty() {
        return None;
    }
    let mut sum = 0;
    while !rest.is_empty() {
        let (part, after) = part(rest)?;
        sum += part;
        if sum > LARGEST {
            return None;
        }
        rest = after;
    }
    // -2^63 fits, 2^63 does not.
    i64::try_from(if negative { -sum } else { sum }).ok()
}

/// The nanoseconds of the first part, and what comes after it.
fn part(run: &[u8]) -> Option<(i128, &[u8])> {
    let (whole, rest) = split_while(run, |byte| byte.is_ascii_digit());
    let (fraction, rest) = match rest {
        [b'.', rest @ ..] => split_while(rest, |byte| byte.is_ascii_digit()),
        _ => (&[][..], rest),
    };
    if whole.is_empty() && fraction.is_empty() {
        return None;
    }
    let (name, rest) = split_while(rest, |byte| byte != b'.' && !byte.is_ascii_digit());
    let unit = unit(name)?;
    // The whole number stops growing once it is too large for every unit.
    let whole = whole.iter().fold(0, |number: i128, digit| {
        (number * 10 + i128::from(digit - b'0')).min(LARGEST + 1)
    });
    let nanoseconds = whole * unit + fraction_of(fraction, unit);
    (nanoseconds <= LARGEST).then_some((nanoseconds, rest))
}

/// "f as the nearest f64 is multiplied by the unit divided by the scale, each
/// step rounded once, the quotient first, and the result truncated; the scale
/// is 1.0 multiplied k times by 10.0."
fn fraction_of(digits: &[u8], unit: i128) -> i128 {
    let (mut f, mut scale) = (0, 1.0);
    for digit in digits {
        // The `leading_fraction` rule: the first digit that does not fit ends
        // the kept ones.
        let longer = f * 10 + i128::from(digit - b'0');
        if f > (LARGEST - 1) / 10 || longer > LARGEST {
            break;
        }
        f = longer;
        scale *= 10.0;
    }
    if f == 0 {
        return 0;
    }
    (f as f64 * (unit as f64 / scale)) as i128
}

fn unit(name: &[u8]) -> Option<i128> {
    let mut units = UNITS.iter();
    let unit = units.find(|(known, _)| known.as_bytes() == name);
    unit.map(|&(_, nanoseconds)| nanoseconds)
}

fn split_while(bytes: &[u8], keep: impl Fn(u8) -> bool) -> (&[u8], &[u8]) {
    let end = bytes.iter().position(|&byte| !keep(byte));
    bytes.split_at(end.unwrap_or(bytes.len()))
}
