//! Numbers that look random and follow from a seed (splitmix64).

pub struct Random(u64);

impl Random {
    pub fn new(seed: u64) -> Random {
        Random(seed)
    }

    /// The seed that the program's first argument gives, or else the usual
    /// one, so that a run can be repeated.
    pub fn from_arguments() -> Random {
        let seed = match std::env::args().nth(1) {
            Some(argument) => argument.parse().expect("the seed is a number"),
            None => 1,
        };
        println!("seed {seed}");
        Random::new(seed)
    }

    pub fn number(&mut self) -> u64 {
        self.0 = self.0.wrapping_add(0x9E37_79B9_7F4A_7C15);
        let mut z = self.0;
        z = (z ^ (z >> 30)).wrapping_mul(0xBF58_476D_1CE4_E5B9);
        z = (z ^ (z >> 27)).wrapping_mul(0x94D0_49BB_1331_11EB);
        z ^ (z >> 31)
    }

    /// A number below `bound`, which is above 0.
    pub fn below(&mut self, bound: usize) -> usize {
        (self.number() % bound as u64) as usize
    }

    pub fn one_in(&mut self, chances: usize) -> bool {
        self.below(chances) == 0
    }

    pub fn pick<T: Copy>(&mut self, choices: &[T]) -> T {
        choices[self.below(choices.len())]
    }

    pub fn byte(&mut self) -> u8 {
        self.number() as u8
    }

    /// So many decimal digits.
    pub fn digits(&mut self, length: usize) -> String {
        (0..length)
            .map(|_| self.pick(&b"0123456789".map(char::from)))
            .collect()
    }
}
