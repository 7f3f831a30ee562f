//! Named checks, counted.
use std::fmt::Debug;

#[derive(Default)]
pub struct Checks {
    pub passed: usize,
    pub failed: usize,
    /// Only failures are printed.
    pub quiet: bool,
}

impl Checks {
    /// `found` must be `expected`.
    pub fn same<T: PartialEq + Debug>(&mut self, name: &str, found: T, expected: T) {
        if found == expected {
            self.passed += 1;
            if !self.quiet {
                println!("ok      {name}");
            }
        } else {
            self.failed += 1;
            println!("FAILED  {name}\n        found    {found:?}\n        expected {expected:?}");
        }
    }
    /// The last line of a command.
    fn finish(&self, what: &str) -> bool {
        println!("{what}: {} passed, {} failed", self.passed, self.failed);
        self.failed == 0
    }
}

/// Runs a set of checks, with a line for each and one of counts.
pub fn run(what: &str, check: fn(&mut Checks)) -> bool {
    let mut checks = Checks::default();
    check(&mut checks);
    checks.finish(what)
}

/// Lines of text as owned strings, to compare with what was told.
pub fn lines(text: &[&str]) -> Vec<String> {
    text.iter().map(|line| line.to_string()).collect()
}
