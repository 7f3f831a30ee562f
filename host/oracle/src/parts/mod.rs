//! Listings taken in parts (document 02, Paper 6) by hand, the paper's
//! sentences on runs, what these reach, and planted faults.
pub mod list;

use crate::call::Reply;
use crate::checks;
use crate::faults::{Fault, counts, parts as faults};
use crate::generate::parts::{Runs, Step};
use crate::part::{
    Ask, Lister, MARK, MOST, Model, NUMBERS, PartCase, PartEffect, Take, differs, dump4, expected,
};
use crate::port::{self, Bytes};
use crate::script::{Script, route, started};
use crate::words::{ROUTE_WORDS, change_count, whole};
use std::collections::BTreeMap;

/// What a listing has seen since its start, to hold the paper's sentences by.
#[derive(Clone, Debug)]
pub struct Listing {
    /// What `dump4` gave at its start, and the count then.
    all: Vec<u32>,
    start: u64,
    /// The calls since then that changed an address, a row or a table.
    pub changes: usize,
    /// The rows of its parts, and whether one had the mark.
    rows: Vec<u32>,
    pub marked: bool,
}

impl Listing {
    pub fn begun(all: Vec<u32>, start: u64) -> Self {
        Self {
            all,
            start,
            changes: 0,
            rows: Vec::new(),
            marked: false,
        }
    }

    /// Its next part gave `reply` and `rows`. The count isn't looked at: that
    /// it was kept is what the sentences need.
    pub fn part(&mut self, reply: Reply, rows: &[u32]) -> Result<(), String> {
        if reply.number != 0 {
            return Err(format!("a part is refused with {}", reply.number));
        }
        let mark = self.changes > 0 || self.start == u64::MAX;
        if reply.present != if mark { MARK } else { 0 } {
            return Err(format!(
                "marked {:#x} after {} changes from {}",
                reply.present, self.changes, self.start
            ));
        }
        self.marked |= mark;
        self.rows.extend(rows);
        // "A listing that saw no change gives what `dump4` gave at its start."
        let sofar = self.rows == self.all[..self.rows.len().min(self.all.len())];
        let end = reply.second == 1;
        if self.changes == 0 && !(sofar && (self.rows.len() == self.all.len()) == end) {
            return Err(format!(
                "{} words of {} without a change, and its end is {end}",
                self.rows.len(),
                self.all.len()
            ));
        }
        Ok(())
    }
}

/// How many steps are made, and how many a planted fault may go unfound.
pub const STEPS: usize = 20_000;
const FAULT_STEPS: usize = 10_000;
/// What came up in the steps of runs.
#[derive(Default)]
struct Seen {
    numbers: BTreeMap<u32, usize>,
    kinds: BTreeMap<&'static str, usize>,
}

impl Seen {
    fn part(&mut self, case: &PartCase, effect: &PartEffect) {
        let reply = effect.reply;
        *self.numbers.entry(reply.number).or_default() += 1;
        if reply.number == 0 {
            for kind in kinds(case, reply) {
                *self.kinds.entry(kind).or_default() += 1;
            }
        }
    }
    fn missing(&self) -> Vec<String> {
        let numbers = NUMBERS.iter().filter(|n| !self.numbers.contains_key(n));
        let unseen = |kind: &&&str| self.kinds.get(**kind).is_none_or(|&times| times == 0);
        let kinds = KINDS.iter().filter(unseen).map(ToString::to_string);
        numbers.map(ToString::to_string).chain(kinds).collect()
    }
}

/// Of what there is to see, what a part that isn't refused shows.
fn kinds(case: &PartCase, reply: Reply) -> impl Iterator<Item = &'static str> {
    let (count, next) = (change_count(&case.state), case.ask.take == Take::Next);
    let place = if next { case.cursor[0] as usize } else { 0 };
    let all = dump4(&case.state).len() / ROUTE_WORDS;
    let start = whole(case.cursor[1], case.cursor[2]);
    let shown = [
        reply.present == 0 && reply.second == 0,
        reply.present == MARK && reply.second == 0,
        reply.present == 0 && reply.second == 1,
        count == u64::MAX && !next,
        count == u64::MAX && next && start == count,
        next && start as u32 == count as u32 && start != count,
        next && start >> 32 == count >> 32 && start != count,
        next && start > count,
        reply.value == case.ask.rows && place + reply.value as usize == all,
        reply.value > 0 && reply.value < case.ask.rows,
        next && place == all && all > 0,
        next && place > all,
        all == 0,
        reply.value == MOST,
    ];
    let all = KINDS.into_iter().zip(shown);
    all.filter_map(|(kind, shown)| shown.then_some(kind))
}

const KINDS: [&str; 14] = [
    "a part that goes on",
    "an interrupted part that goes on",
    "a whole listing's end",
    "begun with the count at its largest",
    "gone on with the count at its largest, as at the start",
    "another count with the start's low word",
    "another count with the start's high word",
    "a start after the count",
    "a last part that is full",
    "a last part that isn't full",
    "a place at the end",
    "a place past the end",
    "nothing to list",
    "256 rows in one part",
];

/// Steps of runs on the model: the paper's sentences, all that must come up,
/// and planted faults.
pub fn run(count: usize, seed: u64) -> bool {
    let mut by_hand = checks::Checks::default();
    check(&mut by_hand);
    let mut runs = Runs::new(seed);
    let (mut seen, mut parts, mut calls) = (Seen::default(), 0, 0);
    for i in 0..count {
        match runs.next_step() {
            Err(what) => {
                println!("FAILED  step {i} of seed {seed}: {what}");
                return false;
            }
            Ok(Step::Call(_)) => calls += 1,
            Ok(Step::Part(case)) => {
                seen.part(&case, &expected(&case));
                parts += 1;
            }
        }
    }
    let listings = runs.ended;
    for (kind, times) in &seen.kinds {
        println!("{kind:56} {times:6}");
    }
    let missing = seen.missing();
    for what in &missing {
        println!("MISSING {what}");
    }
    let (found, missed) = planted(seed);
    println!(
        "parts: {} by hand passed, {} failed; {parts} parts, numbers {:?}, and {calls} calls between \
         them; {} listings ended without a change, {} with one; {} not seen; {found} planted faults \
         found, {missed} not",
        by_hand.passed,
        by_hand.failed,
        seen.numbers,
        listings.0,
        listings.1,
        missing.len()
    );
    by_hand.failed == 0 && missing.is_empty() && missed == 0 && listings.0 > 0 && listings.1 > 0
}

/// Every fault in parts by the comparison; and those that break a sentence of
/// the paper, in parts or in the count, by that sentence.
fn planted(seed: u64) -> (usize, usize) {
    let (mut found, mut missed) = (0, 0);
    let mut say = |name: &str, how: Option<String>| match how {
        Some(how) => {
            found += 1;
            println!("found   {name} ({how})");
        }
        None => {
            missed += 1;
            println!("MISSED  {name}");
        }
    };
    for fault in faults::FAULTS {
        say(fault.name, compared(*fault, seed));
        if fault.breaks_sentence {
            let runs = Runs::on(seed, Box::new(port::Model), Box::new(*fault));
            say(fault.name, broken(runs));
        }
    }
    // what a run of few calls shows of the count
    let counted = |fault: &&Fault| fault.name.contains("counted:");
    for fault in counts::FAULTS.iter().filter(counted) {
        let runs = Runs::on(seed, Box::new(*fault), Box::new(Model));
        say(fault.name, broken(runs));
    }
    (found, missed)
}

/// Where the comparison finds it.
fn compared(fault: faults::PartFault, seed: u64) -> Option<String> {
    let mut runs = Runs::new(seed);
    (1..=FAULT_STEPS).find_map(|i| match runs.next_step() {
        Ok(Step::Part(case)) => {
            let what = differs(&mut Bytes(fault), &case, &expected(&case))?;
            Some(format!("step {i}: {what}"))
        }
        _ => None,
    })
}

/// Where a sentence of the paper finds it.
fn broken(mut runs: Runs) -> Option<String> {
    (1..=FAULT_STEPS).find_map(|i| {
        let what = runs.next_step().err()?;
        Some(format!("by the paper's sentence, step {i}: {what}"))
    })
}

/// A listing by hand: three rows after `up`, in parts of two.
fn check(checks: &mut checks::Checks) {
    let part = |s: &Script, take, cursor: &mut [u32], rows: u32| {
        let mut listing = vec![0; ROUTE_WORDS * rows as usize];
        let reply = Model.part(Ask { take, rows }, &s.state, &mut listing, cursor);
        (
            [reply.number, reply.value, reply.present, reply.second],
            listing,
        )
    };
    let mut s = started();
    let whole = dump4(&s.state);
    let mut cursor = [7, 8, 9];
    let (first, mut rows) = part(&s, Take::Begin, &mut cursor, 2);
    checks.same("two of three rows", first, [0, 2, 0, 0]);
    checks.same("the place behind them, and the count", cursor, [2, 1, 0]);
    let mut idle = s.up(5).reply;
    idle.value = 0;
    checks.same("up again changes nothing", idle, Reply::default());
    let mut ahead = cursor;
    let (last, rest) = part(&s, Take::Next, &mut ahead, 2);
    checks.same("the last of them", last, [0, 1, 0, 1]);
    rows.extend(&rest[..ROUTE_WORDS]);
    checks.same("are what dump4 gave", rows == whole, true);
    checks.same(
        "a place past the end",
        part(&s, Take::Next, &mut ahead, 1).0,
        [0, 0, 0, 1],
    );
    let refused = route("10.2.0.0/24").up();
    let mut wrong = refused;
    wrong.table = 77;
    wrong.len = 33;
    checks.same("P15 a refused request", s.add_route(wrong).reply.number, 22);
    checks.same("P15 lists its table, which counts", cursor, [2, 1, 0]);
    let (marked, _) = part(&s, Take::Next, &mut cursor, 2);
    checks.same("P15 and the rest has the mark", marked, [0, 1, 0x10, 1]);
    checks.same("P15 the start's count stays", cursor, [3, 1, 0]);
    for (rows, room, number) in [(0, 0, 202), (257, 256, 202), (257, 255, 200), (2, 1, 200)] {
        let mut listing = vec![0; ROUTE_WORDS * room];
        let take = Take::Begin;
        let reply = Model.part(Ask { take, rows }, &s.state, &mut listing, &mut cursor);
        checks.same(
            &format!("{rows} rows with room for {room}"),
            (reply, cursor),
            (Reply::refused(number), [3, 1, 0]),
        );
    }
}
