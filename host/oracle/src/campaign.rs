//! Ports held against the model: all that is written by hand, then
//! generated cases, then pairs of runs. This is what a port behind the C
//! ABI is handed to.
use crate::call::{KINDS, NAMES};
use crate::checks::Checks;
use crate::compare::{Case, Cut, Difference, against, compare, expected};
use crate::generate::cases::{Cases, USUAL};
use crate::pairs;
use crate::port::{Port, Words};
use crate::rng::Rng;
use crate::words::{self, STATE_WORDS};
use crate::{examples, facts, json, linux, rfc, script, tables, well_formed};
use std::collections::BTreeMap;

/// How much to compare.
#[derive(Clone, Copy, Debug)]
pub struct Amount {
    pub cases: usize,
    pub pairs: usize,
    pub seed: u64,
}

/// What was compared.
#[derive(Clone, Debug, Default)]
pub struct Summary {
    pub by_hand: usize,
    pub cases: usize,
    /// Pairs of runs that came out alike, counted for each port.
    pub pairs: usize,
    /// Pairs left out, since a call was refused for want of space.
    pub no_space: usize,
    /// Calls made on all ports together, those of pairs too.
    pub calls: usize,
    /// How often each call gave each number.
    pub answers: BTreeMap<(&'static str, u32), usize>,
}

/// The kinds of call that are compared, by their codes less one.
pub type Kinds = [bool; KINDS];

/// Ports that are compared on the same cases, for some kinds of call. The
/// cases and the pairs come from the seed alone.
pub struct Campaign<'a> {
    ports: Vec<&'a mut dyn Port>,
    kinds: Kinds,
    seed: u64,
    cases: Cases,
    pairs: Rng,
    pairs_drawn: usize,
    pub summary: Summary,
}

impl<'a> Campaign<'a> {
    pub fn new(seed: u64, kinds: Kinds) -> Self {
        Self {
            ports: Vec::new(),
            kinds,
            seed,
            cases: Cases::new(seed, USUAL),
            pairs: Rng::new(seed),
            pairs_drawn: 0,
            summary: Summary::default(),
        }
    }

    /// Compares `port` too.
    pub fn with(mut self, port: &'a mut dyn Port) -> Self {
        self.ports.push(port);
        self
    }

    /// All calls that are written by hand.
    pub fn by_hand(&mut self) -> Result<(), String> {
        for case in by_hand() {
            self.summary.by_hand += usize::from(self.one(&case)?);
        }
        Ok(())
    }

    /// The next `count` generated cases.
    pub fn cases(&mut self, count: usize) -> Result<(), String> {
        for _ in 0..count {
            let (origin, case) = self.cases.next_case();
            let compared = self
                .one(&case)
                .map_err(|what| format!("{what}\n(of {origin:?}, seed {})", self.seed))?;
            self.summary.cases += usize::from(compared);
        }
        Ok(())
    }

    /// The next `count` pairs of runs; none where only some kinds of call
    /// are compared, since a run has all of them.
    pub fn pairs(&mut self, count: usize) -> Result<(), String> {
        if self.kinds != [true; KINDS] {
            return Ok(());
        }
        for _ in 0..count {
            let pair = pairs::pair(&mut self.pairs);
            let i = self.pairs_drawn;
            self.pairs_drawn += 1;
            for port in &mut self.ports {
                match pairs::try_pair(&mut Words(&mut **port), &pair) {
                    pairs::Result::Alike { .. } => self.summary.pairs += 1,
                    pairs::Result::NoSpace => self.summary.no_space += 1,
                    pairs::Result::Apart(what) => {
                        let name = port.name();
                        return Err(format!(
                            "{name}: pair {i} of seed {} parts: {what}",
                            self.seed
                        ));
                    }
                }
                self.summary.calls += pair.lists[0].len() + pair.lists[1].len();
            }
        }
        Ok(())
    }

    /// One case on every port. Whether it was of a kind that is compared.
    fn one(&mut self, case: &Case) -> Result<bool, String> {
        let kind = case.call.code() as usize - 1;
        if !self.kinds[kind] {
            return Ok(false);
        }
        let expected = expected(case);
        for port in &mut self.ports {
            against(*port, case, &expected).map_err(|found| smallest(*port, case, found))?;
            self.summary.calls += 1;
        }
        let answer = (NAMES[kind], expected.reply.number);
        *self.summary.answers.entry(answer).or_default() += 1;
        Ok(true)
    }
}

/// The calls of all examples and differences, with their states.
pub fn by_hand() -> Vec<Case> {
    script::collect(|| {
        let mut checks = Checks {
            quiet: true,
            ..Checks::default()
        };
        for check in [
            examples::check,
            linux::check,
            rfc::check,
            facts::check,
            tables::check,
        ] {
            check(&mut checks);
        }
        assert_eq!(checks.failed, 0, "the Rust gives the examples");
    })
}

/// Compares `port` with the model. Gives the first difference with the
/// smallest case found for it, as text.
pub fn run(port: &mut dyn Port, amount: Amount) -> Result<Summary, String> {
    let mut campaign = Campaign::new(amount.seed, [true; KINDS]).with(port);
    campaign.by_hand()?;
    campaign.cases(amount.cases)?;
    campaign.pairs(amount.pairs)?;
    Ok(campaign.summary)
}

/// A difference with the smallest case found for it.
fn smallest(port: &mut dyn Port, case: &Case, difference: Difference) -> String {
    let (small, difference) = shrink(port, case.clone(), difference);
    let cut = match small.cut {
        cut if cut == Cut::default() => String::new(),
        cut => format!(" with bytes cut off: {cut:?}"),
    };
    format!("{difference}{cut}\n{}", json::line(&small))
}

/// The case on the smallest state found on which the port and the model
/// still part.
pub fn shrink(port: &mut dyn Port, mut case: Case, mut found: Difference) -> (Case, Difference) {
    let state = std::mem::take(&mut case.state);
    case.state = smallest_state(state, |state| {
        let state = state.to_vec();
        let candidate = Case {
            state,
            ..case.clone()
        };
        compare(port, &candidate)
            .map_err(|other| found = other)
            .is_err()
    });
    (case, found)
}

/// A well-formed state without its change count, and without each row and table,
/// as far as they `part` without it.
pub fn smallest_state(mut state: Vec<u32>, mut part: impl FnMut(&[u32]) -> bool) -> Vec<u32> {
    if state.len() != STATE_WORDS || !well_formed::state(&state) {
        return state;
    }
    let mut candidate = state.clone();
    words::set_change_count(&mut candidate, 0);
    if part(&candidate) {
        state.copy_from_slice(&candidate);
    }
    for which in 0..3 {
        let mut at = 0;
        while at < state[which] as usize {
            let mut fewer = words::decode(&state);
            match which {
                0 => drop(fewer.addresses.remove(at)),
                1 => drop(fewer.routes.remove(at)),
                _ => drop(fewer.tables.remove(at)),
            }
            candidate.copy_from_slice(&state);
            words::encode_into(&fewer, &mut candidate);
            if part(&candidate) {
                state.copy_from_slice(&candidate);
            } else {
                at += 1;
            }
        }
    }
    state
}
