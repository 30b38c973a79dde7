//! A line for each test, and the sum as the last line.

use std::panic::{catch_unwind, AssertUnwindSafe};
use std::process::ExitCode;

#[derive(Default)]
pub struct Report {
    passed: u32,
    failed: u32,
}

impl Report {
    /// Runs a test, which says what it did or what is wrong; a panic is wrong too.
    pub fn test(&mut self, name: &str, test: impl FnOnce() -> Result<String, String>) {
        match catch_unwind(AssertUnwindSafe(test)) {
            Ok(Ok(said)) => {
                self.passed += 1;
                println!("ok      {name}: {said}");
            }
            Ok(Err(wrong)) => self.fail(name, &wrong),
            Err(_) => self.fail(name, "panicked"),
        }
    }

    fn fail(&mut self, name: &str, wrong: &str) {
        self.failed += 1;
        println!("FAILED  {name}: {wrong}");
    }

    /// Prints the last line; success only if nothing failed.
    pub fn finish(self) -> ExitCode {
        println!("{} passed, {} failed", self.passed, self.failed);
        ExitCode::from((self.failed != 0) as u8)
    }
}
