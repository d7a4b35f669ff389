//! The count of comparisons, as every program here ends with it.

use std::process::ExitCode;

#[derive(Default)]
pub struct Tally {
    passed: u64,
    failed: u64,
}

impl Tally {
    /// Only so many failures are described.
    const DESCRIBED: u64 = 20;

    pub fn check(&mut self, holds: bool, describe: impl FnOnce() -> String) {
        if holds {
            self.passed += 1;
            return;
        }
        self.failed += 1;
        if self.failed <= Self::DESCRIBED {
            println!("FAILED {}", describe());
        }
    }

    pub fn pass(&mut self, count: u64) {
        self.passed += count;
    }

    /// A failure that is described elsewhere.
    pub fn fail(&mut self) {
        self.failed += 1;
    }

    /// Takes over what another has counted.
    pub fn add(&mut self, other: Tally) {
        self.passed += other.passed;
        self.failed += other.failed;
    }

    pub fn passed(&self) -> u64 {
        self.passed
    }

    /// Prints the count; the status is bad where a comparison failed.
    pub fn finish(self) -> ExitCode {
        println!("{} passed, {} failed", self.passed, self.failed);
        ExitCode::from(u8::from(self.failed > 0))
    }
}
