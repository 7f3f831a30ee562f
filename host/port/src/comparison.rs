//! What is compared beside the calls of document 01.
use std::collections::BTreeMap;

/// A comparison on every boundary that it was given.
pub trait Comparison {
    /// What isn't generated; where that takes long, only some of it unless
    /// `all`.
    fn swept(&mut self, _all: bool) -> Result<(), String> {
        Ok(())
    }
    /// The next generated case.
    fn next(&mut self) -> Result<(), String>;
    /// Everything came up that must.
    fn reached(&self) -> Result<(), String>;
    /// What came up.
    fn said(&self) -> String;
}

/// How often each number was given, and the calls of the library.
#[derive(Default)]
pub struct Tally {
    pub numbers: BTreeMap<u32, usize>,
    pub calls: usize,
}

impl Tally {
    /// A call of the library, and its number.
    pub fn called(&mut self, number: u32) {
        self.calls += 1;
        self.given(number);
    }
    pub fn given(&mut self, number: u32) {
        *self.numbers.entry(number).or_default() += 1;
    }
    /// All of `numbers` came up.
    pub fn reached(&self, what: &str, numbers: &[u32]) -> Result<(), String> {
        match numbers.iter().find(|n| !self.numbers.contains_key(n)) {
            None => Ok(()),
            Some(number) => Err(format!("no {what} gave {number}")),
        }
    }
}
