//! Whole cases: sequences from empty, states made directly, the limits,
//! damage and wrong lengths, in turn.
use super::calls::{self, Host};
use super::runs::Run;
use super::states::{self, Sizes};
use super::{damage, limits, pools};
use crate::call::{Buffer, Call};
use crate::compare::Case;
use crate::rng::Rng;
use crate::words::{self, BASE_WORDS, ROW_COUNTS_AT, STATE_WORDS};

/// Where a case came from.
#[derive(Clone, Copy, Debug, PartialEq, Eq)]
pub enum Origin {
    Sequence,
    Direct,
    Large,
    Limit,
    UnfitState,
    UnfitRequest,
    WrongLength,
}

pub const ORIGINS: [Origin; 7] = [
    Origin::Sequence,
    Origin::Direct,
    Origin::Large,
    Origin::Limit,
    Origin::UnfitState,
    Origin::UnfitRequest,
    Origin::WrongLength,
];

/// How often each origin is drawn, in the order of [`ORIGINS`].
pub type Weights = [usize; 7];
pub const USUAL: Weights = [50, 24, 4, 9, 5, 5, 3];

/// An endless stream of cases.
pub struct Cases {
    rng: Rng,
    /// Change counts, and the calls that mostly change nothing.
    aside: Rng,
    weights: Weights,
    run: Run,
    /// Clauses and request kinds come in turn, so that all come up.
    turn: usize,
}

impl Cases {
    pub fn new(seed: u64, weights: Weights) -> Self {
        Self {
            rng: Rng::new(seed),
            aside: Rng::new(seed ^ 0x10),
            weights,
            run: Run::default(),
            turn: 0,
        }
    }

    pub fn next_case(&mut self) -> (Origin, Case) {
        let mut left = self.rng.below(self.weights.iter().sum());
        let mut origin = Origin::Sequence;
        for (candidate, weight) in ORIGINS.into_iter().zip(self.weights) {
            if left < weight {
                origin = candidate;
                break;
            }
            left -= weight;
        }
        let mut case = match origin {
            Origin::Sequence => self.step(),
            Origin::Direct => {
                let sizes = Sizes::small(&mut self.rng);
                self.direct(sizes)
            }
            Origin::Large => {
                let sizes = Sizes::any(&mut self.rng);
                self.direct(sizes)
            }
            Origin::Limit => {
                let (state, call) = limits::near(&mut self.rng);
                Case::new(call, state)
            }
            Origin::UnfitState => self.unfit_state(),
            Origin::UnfitRequest => self.unfit_request(),
            Origin::WrongLength => self.wrong_length(),
        };
        if origin != Origin::Sequence && case.state.len() == STATE_WORDS {
            words::set_change_count(&mut case.state, pools::change_count(&mut self.aside));
        }
        (origin, case)
    }

    /// The next call of a sequence from empty.
    fn step(&mut self) -> Case {
        if self.run.step(&mut self.rng) {
            words::set_change_count(&mut self.run.state, pools::change_count(&mut self.aside));
        }
        let lists = self.run.lists();
        let call = if lists.tables.is_empty() && self.rng.one_in(2) {
            self.run.draw(&mut self.rng, 1)
        } else if self.aside.one_in(12) {
            calls::idle(&mut self.aside, &lists, &mut self.run.host)
        } else {
            calls::any(&mut self.rng, &lists, &mut self.run.host)
        };
        let case = Case::new(call, self.run.state.clone());
        let case = self.longer_at_times(case);
        self.run.make(&case.call);
        case
    }

    /// A buffer may be longer than it must.
    fn longer_at_times(&mut self, case: Case) -> Case {
        if !self.rng.one_in(12) || case.call.buffer() == Buffer::None {
            return case;
        }
        let length = case.buffer.len() + 1 + self.rng.below(80);
        let mut longer = case.with_buffer(length);
        longer.cut.buffer = self.rng.below(4);
        longer
    }

    fn direct(&mut self, sizes: Sizes) -> Case {
        let rng = &mut self.rng;
        let lists = states::direct(rng, sizes);
        let mut host = Host {
            now: rng.draw() % (1 << 34),
            up: !rng.one_in(4),
        };
        let call = calls::any(rng, &lists, &mut host);
        Case::new(call, states::encoded(&lists))
    }

    fn unfit_state(&mut self) -> Case {
        self.turn += 1;
        let mut case = {
            let sizes = Sizes::small(&mut self.rng);
            self.direct(sizes)
        };
        if damage::handed_row(&mut self.rng, &mut case.call) {
            return case;
        }
        let (_, state) = damage::state(&mut self.rng, self.turn % damage::CLAUSES);
        case.state = state;
        // 201 comes before 202
        if self.rng.one_in(4) {
            damage::request(&mut self.rng, &mut case.call);
        }
        case
    }

    fn unfit_request(&mut self) -> Case {
        loop {
            let sizes = Sizes::small(&mut self.rng);
            let mut case = self.direct(sizes);
            if damage::request(&mut self.rng, &mut case.call) {
                return case;
            }
        }
    }

    fn wrong_length(&mut self) -> Case {
        let sizes = Sizes::small(&mut self.rng);
        let mut case = self.direct(sizes);
        let rng = &mut self.rng;
        // 200 comes before 201 and 202
        if rng.one_in(4) {
            let clause = rng.below(damage::CLAUSES);
            case.state = damage::state(rng, clause).1;
        }
        if rng.one_in(4) {
            damage::request(rng, &mut case.call);
        }
        let buffer = case.buffer.len();
        match rng.below(6) {
            0 => {
                let lengths = [0, 1, BASE_WORDS, ROW_COUNTS_AT, STATE_WORDS - 1];
                case.state.truncate(rng.pick(&lengths));
            }
            1 => case.state.push(rng.pick(&[0, 1])),
            2 if case.call.lent().is_some() => length_of_lent(rng, &mut case.call),
            3 if case.call.lent().is_some() => {
                case.cut.lent = 1 + rng.below(3);
                if let Some(lent) = case.call.lent_mut().filter(|_| rng.one_in(2)) {
                    // a few bytes too many
                    lent.push(rng.pick(&[0, 1]));
                }
            }
            4 if buffer > 0 => case.cut.buffer = 1 + rng.below(3),
            5 if buffer > 0 => case.buffer.truncate(rng.pick(&[0, 1, buffer - 1])),
            _ => {
                case.cut.state = 1 + rng.below(3);
                if rng.one_in(2) {
                    case.state.push(rng.pick(&[0, 1]));
                }
            }
        }
        case
    }
}

fn length_of_lent(rng: &mut Rng, call: &mut Call) {
    if let Some(lent) = call.lent_mut() {
        if rng.one_in(2) {
            lent.push(0);
        } else {
            let shorter = rng.pick(&[0, 1, lent.len() - 1]);
            lent.truncate(shorter);
        }
    }
}
