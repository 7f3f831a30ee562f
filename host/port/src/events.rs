//! Events written by the library: each on every boundary, against the
//! oracle's writer.
use crate::comparison::{Comparison, Tally};
use crate::messages::Boundary;
use oracle::events::{against, swept};
use oracle::generate::events::{EventCase, Events, damages};
use std::collections::BTreeSet;

/// The numbers, which must all be reached.
const NUMBERS: [u32; 3] = [0, 200, 201];

/// Events that are compared on all boundaries.
pub struct Written {
    boundaries: Vec<Box<dyn Boundary>>,
    events: Events,
    tally: Tally,
    /// The ways of damage that came up.
    damages: BTreeSet<&'static str>,
}

impl Written {
    pub fn new(boundaries: Vec<Box<dyn Boundary>>, seed: u64) -> Self {
        Self {
            boundaries,
            events: Events::new(seed),
            tally: Tally::default(),
            damages: BTreeSet::new(),
        }
    }

    fn one(&mut self, case: &EventCase) -> Result<(), String> {
        self.damages.extend(&case.damage);
        for boundary in &mut self.boundaries {
            let reply = against(&mut **boundary, case)?;
            self.tally.called(reply.number);
        }
        Ok(())
    }
}

impl Comparison for Written {
    /// Each word at the ends of its range, and each length.
    fn swept(&mut self, _all: bool) -> Result<(), String> {
        swept().iter().try_for_each(|case| self.one(case))
    }
    fn next(&mut self) -> Result<(), String> {
        let case = self.events.next_case();
        self.one(&case)
    }
    /// All numbers and all ways of damage.
    fn reached(&self) -> Result<(), String> {
        self.tally.reached("event", &NUMBERS)?;
        match damages().find(|(name, _)| !self.damages.contains(name)) {
            None => Ok(()),
            Some((name, _)) => Err(format!("no event was damaged by {name}")),
        }
    }
    fn said(&self) -> String {
        let Tally { numbers, calls } = &self.tally;
        format!("events written {numbers:?}; {calls} calls of the library")
    }
}
