//! Destinations to look up together, on states of every kind.
use super::states::{self, Sizes};
use super::{calls, damage, limits, pools};
use crate::compare::{Cut, filled};
use crate::many::{ANSWER_WORDS, MOST, ManyCase, SECOND};
use crate::rng::Rng;
use crate::words::{self, BASE_WORDS, ROUTE_LIMIT, STATE_WORDS, TABLE_LIMIT};
use reference::Lists;

/// An endless stream of cases. A state serves some in turn.
pub struct Manies {
    rng: Rng,
    lists: Lists,
    state: Vec<u32>,
    left: usize,
}

impl Manies {
    pub fn new(seed: u64) -> Self {
        Self {
            rng: Rng::new(seed ^ 0x10),
            lists: Lists::default(),
            state: words::empty(),
            left: 0,
        }
    }

    pub fn next_case(&mut self) -> ManyCase {
        if self.left == 0 {
            self.fresh();
        }
        self.left -= 1;
        let destinations = self.destinations();
        let room = ANSWER_WORDS * destinations.len();
        let mut case = ManyCase {
            state: self.state.clone(),
            destinations,
            answers: filled(room),
            cut: Cut::default(),
        };
        if self.rng.one_in(8) {
            case.answers = filled(room + 1 + self.rng.below(80));
        }
        if self.rng.one_in(3) {
            self.damage(&mut case);
        }
        case
    }

    /// A state of its own, often with 253 listed, and rows that lead on.
    fn fresh(&mut self) {
        let rng = &mut self.rng;
        self.left = 1 + rng.below(12);
        let mut lists = match rng.below(8) {
            0 => Lists::default(),
            1 | 2 => {
                let calls = 5 + rng.below(40);
                words::decode(&states::reached(rng, calls).0)
            }
            3 => limits::full(rng).0,
            4 | 5 => {
                let sizes = Sizes::any(rng);
                states::direct(rng, sizes)
            }
            _ => {
                let sizes = Sizes::small(rng);
                states::direct(rng, sizes)
            }
        };
        for _ in 0..rng.below(12) {
            lead_on(rng, &mut lists);
        }
        states::arrange(&mut lists.routes);
        if rng.one_in(2) && lists.tables.len() < TABLE_LIMIT && !lists.tables.contains(&SECOND) {
            lists.tables.push(SECOND);
        }
        self.state = states::encoded(&lists);
        words::set_change_count(&mut self.state, pools::change_count(rng));
        self.lists = lists;
    }

    /// Rising ones, mostly near the rows; at times many, or equal ones.
    fn destinations(&mut self) -> Vec<u32> {
        let rng = &mut self.rng;
        let few = 1 + rng.below(6);
        let some = rng.below(40);
        let count = rng.pick(&[0, 1, 1, 2, few, few, few, some, some, MOST - 1, MOST]);
        let mut all: Vec<u32> = (0..count).map(|_| near(rng, &self.lists)).collect();
        if rng.one_in(4) && count > 1 {
            for _ in 0..1 + rng.below(count) {
                all[rng.below(count)] = all[0];
            }
        }
        all.sort_unstable();
        all
    }

    /// What is refused.
    fn damage(&mut self, case: &mut ManyCase) {
        let rng = &mut self.rng;
        // 210 and 211, at times both, with room and without
        if rng.one_in(3) {
            let count = MOST + rng.pick(&[1, 1, 2, 40]);
            let more = || near(rng, &self.lists);
            let missing = count.saturating_sub(case.destinations.len());
            case.destinations
                .extend(std::iter::repeat_with(more).take(missing));
            case.destinations.sort_unstable();
            let room = rng.pick(&[count, count, count, count - 1, MOST]);
            case.answers = filled(ANSWER_WORDS * room);
        }
        if rng.one_in(2) && case.destinations.len() > 1 {
            fall(rng, &mut case.destinations);
        }
        if rng.one_in(4) {
            let clause = rng.below(damage::CLAUSES);
            case.state = damage::state(rng, clause).1;
        }
        match rng.below(14) {
            0 => {
                let short = case.answers.len().saturating_sub(1 + rng.below(40));
                case.answers.truncate(short);
            }
            1 => case
                .state
                .truncate(rng.pick(&[0, BASE_WORDS, STATE_WORDS - 1])),
            2 => case.state.push(0),
            3 => case.cut.state = 1 + rng.below(3),
            4 => {
                case.cut.lent = 1 + rng.below(3);
                if rng.one_in(2) {
                    case.destinations.push(u32::MAX);
                }
            }
            5 => case.cut.buffer = 1 + rng.below(3),
            6 => case.answers.clear(),
            _ => {}
        }
    }
}

/// A destination that a row has to do with, or just below one.
fn near(rng: &mut Rng, lists: &Lists) -> u32 {
    let ip = calls::destination(rng, lists);
    match rng.below(8) {
        0 => ip.wrapping_sub(1),
        1 => ip.wrapping_add(1),
        _ => ip,
    }
}

/// Two that stand side by side, or far apart, in the wrong order.
fn fall(rng: &mut Rng, destinations: &mut [u32]) {
    let last = destinations.len() - 1;
    let at = rng.pick(&[0, last - 1, rng.clone().below(last)]);
    let other = rng.pick(&[at + 1, at + 1, last]);
    destinations.swap(at, other);
    if destinations.is_sorted() && destinations[at] > 0 {
        destinations[other] = destinations[at] - 1;
    }
}

/// A throw of the first set, or a row of 253 below one, or a row that another
/// hides: of another table, with a tos, or of another kind.
fn lead_on(rng: &mut Rng, lists: &mut Lists) {
    if lists.routes.len() >= ROUTE_LIMIT {
        return;
    }
    let mut row = states::route(rng);
    match calls::some_route(rng, lists).filter(|_| rng.one_in(2)) {
        Some(other) => row[1..3].copy_from_slice(&other[1..3]),
        None => {
            row[2] = rng.pick(&[8, 16, 24, 32]);
            row[1] = rng.pick(&pools::ADDRESSES) & pools::mask(row[2]);
        }
    }
    row[0] = rng.pick(&[254, 254, 255, SECOND, SECOND, 100]);
    row[3] = rng.pick(&[0, 0, 0, 8]);
    row[5] = rng.pick(&[9, 9, 9, 1, 1, 6, 7, 8]);
    lists.routes.push(row);
}
