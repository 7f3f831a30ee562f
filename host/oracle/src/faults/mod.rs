//! Planted faults: ports that go wrong in one way each. The comparison
//! must find every one of them.
mod answers;
pub mod counts;
mod effects;
pub mod events;
pub mod many;
mod marks;
pub mod masks;
pub mod messages;
pub mod parts;
pub mod recordings;
mod refusals;
pub mod row_counts;

use crate::call::{Call, Reply};
use crate::campaign::shrink;
use crate::campaign::{self, Amount, Summary};
use crate::compare::{Case, Cut, compare};
use crate::generate::cases::{Cases, USUAL};
use crate::model::model;
use crate::pairs;
use crate::port::{Bytes, Model, WordPort};
use crate::rng::Rng;

/// A port that does `run` in place of the model.
#[derive(Clone, Copy)]
pub struct Fault {
    pub name: &'static str,
    pub run: Run,
    part_words: bool,
}
pub type Run = fn(&Call, &mut [u32], &mut [u32]) -> Reply;

impl Fault {
    const fn new(name: &'static str, run: Run) -> Self {
        Self {
            name,
            run,
            part_words: false,
        }
    }
    /// Goes wrong only where a slice isn't whole words.
    const fn part_words(name: &'static str) -> Self {
        Self {
            part_words: true,
            ..Self::new(name, model)
        }
    }
}

impl Fault {
    /// A small case on which the port and the model part.
    pub fn case(self, seed: u64) -> Option<Case> {
        let mut cases = Cases::new(seed, USUAL);
        let mut port = Bytes(self);
        (1..=CASES).find_map(|_| {
            let (_, case) = cases.next_case();
            if case.cut != Cut::default() {
                return None;
            }
            let other = compare(&mut port, &case).err()?;
            Some(shrink(&mut port, case, other).0)
        })
    }
}

/// The faults that a port over words can have.
pub fn on_words() -> impl Iterator<Item = Fault> {
    all().into_iter().filter(|fault| !fault.part_words)
}

fn all() -> Vec<Fault> {
    [
        answers::FAULTS,
        effects::FAULTS,
        refusals::FAULTS,
        counts::FAULTS,
        row_counts::FAULTS,
        marks::FAULTS,
    ]
    .concat()
}

impl WordPort for Fault {
    fn name(&self) -> String {
        self.name.to_string()
    }
    fn call(&mut self, call: &Call, state: &mut [u32], buffer: &mut [u32]) -> Reply {
        (self.run)(call, state, buffer)
    }
    fn overlooks_part_words(&self) -> bool {
        self.part_words
    }
}

/// How many cases, and how many pairs, a fault may go unfound.
const CASES: usize = 20_000;
const PAIRS: usize = 2_000;
/// How many cases a port without a fault is compared on.
const SOUND: usize = 5_000;

/// Runs every fault through the comparison, and those that break the claim
/// about two runs through the pairs.
pub fn selftest(seed: u64) -> bool {
    let all = all();
    let mut found = 0;
    for fault in &all {
        match cases_to_find(*fault, seed) {
            Some((cases, what)) => {
                found += 1;
                println!("found   {} (case {cases}: {what})", fault.name);
            }
            None => println!("MISSED  {} in {CASES} cases", fault.name),
        }
    }
    let parting = answers::PARTING;
    let mut parted = 0;
    for fault in parting {
        match pairs_to_find(*fault, seed) {
            Some(pair) => {
                parted += 1;
                println!("found   {} (pair {pair} parts)", fault.name);
            }
            None => println!("MISSED  {} in {PAIRS} pairs", fault.name),
        }
    }
    let sound = sound(seed);
    println!(
        "selftest: {found} of {} faults found by the comparison, {parted} of {} by the pairs; \
         without a fault {}",
        all.len(),
        parting.len(),
        sound.as_ref().map_or_else(String::clone, said)
    );
    found == all.len() && parted == parting.len() && sound.is_ok()
}

/// Faults of another kind, which must each be found within `count` of the
/// cases; those begin anew for each.
pub fn all_found<F, C, I: Iterator<Item = C>>(
    what: &str,
    count: usize,
    faults: &[F],
    name: fn(&F) -> &'static str,
    cases: impl Fn() -> I,
    against: impl Fn(&F, &C) -> Result<Reply, String>,
) -> bool {
    let mut missed = 0;
    for fault in faults {
        let found = (1..=count).zip(cases()).find_map(|(i, case)| {
            let what = against(fault, &case).err()?;
            Some((i, what.lines().next().unwrap_or_default().to_string()))
        });
        match found {
            Some((i, what)) => println!("found   {what} (case {i})"),
            None => {
                missed += 1;
                println!("MISSED  {} in {count} cases", name(fault));
            }
        }
    }
    let found = faults.len() - missed;
    println!("{what}: {found} of {} faults found", faults.len());
    missed == 0
}

/// The model met through bytes: nothing may be found.
fn sound(seed: u64) -> Result<Summary, String> {
    let amount = Amount {
        cases: SOUND,
        pairs: SOUND / 50,
        seed,
    };
    campaign::run(&mut Bytes(Model), amount)
}

fn said(summary: &Summary) -> String {
    format!(
        "{} calls by hand, {} cases and {} pairs alike ({} pairs left out for want of space)",
        summary.by_hand, summary.cases, summary.pairs, summary.no_space
    )
}

fn cases_to_find(fault: Fault, seed: u64) -> Option<(usize, String)> {
    let mut cases = Cases::new(seed, USUAL);
    let mut port = Bytes(fault);
    (1..=CASES).find_map(|i| {
        let (_, case) = cases.next_case();
        let other = compare(&mut port, &case).err()?;
        // counts that aren't well-formed may be any
        let rows = |state: &[u32]| state.iter().take(3).map(|&n| u64::from(n)).sum::<u64>();
        let before = rows(&case.state);
        let (small, other) = shrink(&mut port, case, other);
        let after = rows(&small.state);
        let what = format!("{}: {}", other.call.name(), other.what);
        Some((i, format!("{before} rows cut to {after}: {what}")))
    })
}

fn pairs_to_find(mut fault: Fault, seed: u64) -> Option<usize> {
    let mut rng = Rng::new(seed);
    (1..=PAIRS).find(|_| {
        let pair = pairs::pair(&mut rng);
        matches!(pairs::try_pair(&mut fault, &pair), pairs::Result::Apart(_))
    })
}
