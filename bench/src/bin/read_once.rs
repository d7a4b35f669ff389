//! One call of the proved library, for `bench/instructions` to count what it
//! takes: `read_once NAME` reads a text of 256 KiB into buffers that suffice
//! for any text of the length, and prints the length.

use bench::reading::Reading;
use bench::texts;

const SIZE: usize = 256 << 10;

fn main() {
    let name = std::env::args().nth(1).unwrap_or_default();
    let mut reading = Reading::new(texts::named(&name), SIZE);
    reading.lend_enough();
    reading.proved();
    println!("{}", reading.text.len());
}
