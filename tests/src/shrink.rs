//! The smallest input that still shows a difference.

/// Drops bytes while `difference` still finds something, many at once at
/// first, then makes them `a`. Gives what it finds in the text that is left, or
/// `None` where it finds nothing in the whole one.
pub fn shrink<D>(text: &[u8], difference: impl Fn(&[u8]) -> Option<D>) -> Option<(Vec<u8>, D)> {
    // A character is up to four bytes, which are tried together.
    const LONGEST_CHARACTER: usize = 4;
    let mut smallest = text.to_vec();
    let mut found = difference(text)?;
    let mut dropped = text.len();
    while dropped > 0 {
        let mut at = 0;
        let before = smallest.len();
        while at + dropped <= smallest.len() {
            let mut shorter = smallest.clone();
            shorter.drain(at..at + dropped);
            match difference(&shorter) {
                Some(difference) => (smallest, found) = (shorter, difference),
                None => at += dropped.div_ceil(LONGEST_CHARACTER),
            }
        }
        dropped = match dropped {
            ..=LONGEST_CHARACTER if smallest.len() < before => LONGEST_CHARACTER,
            ..=LONGEST_CHARACTER => dropped - 1,
            _ => dropped / 2,
        };
    }
    for at in 0..smallest.len() {
        let mut plainer = smallest.clone();
        plainer[at] = b'a';
        if let Some(difference) = difference(&plainer) {
            (smallest, found) = (plainer, difference);
        }
    }
    Some((smallest, found))
}
