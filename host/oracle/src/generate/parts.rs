//! Runs in which listings are taken in parts, with other calls between them.
use super::calls::{self, Host};
use super::pools;
use super::states::{self, Sizes};
use super::{damage, limits};
use crate::call::Call;
use crate::compare::{Case, Cut, filled};
use crate::part::{self, Ask, CURSOR_WORDS, Lister, MOST, PartCase, Take};
use crate::parts::Listing;
use crate::port::{Model, WordPort};
use crate::rng::Rng;
use crate::words::{self, BASE_WORDS, ROUTE_WORDS, ROW_COUNTS_AT, STATE_WORDS, TABLE_LIMIT};
use reference::Lists;

/// A step of a run, with the state before it.
pub enum Step {
    Call(Case),
    Part(PartCase),
}

/// An endless stream of steps, one run after the other.
pub struct Runs {
    rng: Rng,
    port: Box<dyn WordPort>,
    lister: Box<dyn Lister<u32>>,
    state: Vec<u32>,
    host: Host,
    left: usize,
    /// The listing that is going on, and its cursor.
    open: Option<(Listing, Vec<u32>)>,
    /// Listings that reached their end without a change, and with one.
    pub ended: (usize, usize),
}

impl Runs {
    pub fn new(seed: u64) -> Self {
        Self::on(seed, Box::new(Model), Box::new(part::Model))
    }

    /// Runs on what may go wrong.
    pub fn on(seed: u64, port: Box<dyn WordPort>, lister: Box<dyn Lister<u32>>) -> Self {
        Self {
            rng: Rng::new(seed ^ 0x6),
            port,
            lister,
            state: words::empty(),
            host: Host::default(),
            left: 0,
            open: None,
            ended: (0, 0),
        }
    }

    /// The next step, made; refused with the sentence of the paper that it
    /// broke.
    pub fn next_step(&mut self) -> Result<Step, String> {
        if self.left == 0 {
            self.fresh();
        }
        self.left -= 1;
        if self.open.is_none() && !self.rng.one_in(6) {
            return self.begin();
        }
        let call = match self.rng.below(20) {
            0..8 if self.open.is_some() => return self.next(),
            0..9 => return self.begin(),
            9..12 => return Ok(Step::Part(self.damaged())),
            12..15 => {
                let lists = words::decode(&self.state);
                calls::idle(&mut self.rng, &lists, &mut self.host)
            }
            15 => {
                let mut call = self.any();
                damage::request(&mut self.rng, &mut call);
                call
            }
            _ => self.any(),
        };
        Ok(Step::Call(self.call(call)))
    }

    fn any(&mut self) -> Call {
        calls::any(&mut self.rng, &words::decode(&self.state), &mut self.host)
    }

    /// A run from a state of its own.
    fn fresh(&mut self) {
        let rng = &mut self.rng;
        self.open = None;
        self.left = 5 + rng.below(60);
        let (mut lists, host) = match rng.below(8) {
            0 => (Lists::default(), Host::default()),
            1..3 => {
                let calls = 5 + rng.below(40);
                let (state, host) = states::reached(rng, calls);
                (words::decode(&state), host)
            }
            3..5 => limits::full(rng),
            5..7 => {
                let sizes = Sizes::any(rng);
                (states::direct(rng, sizes), Host::default())
            }
            _ => {
                let sizes = Sizes::small(rng);
                (states::direct(rng, sizes), Host::default())
            }
        };
        if !rng.one_in(4) {
            listed(&mut lists);
        }
        self.host = host;
        self.state = states::encoded(&lists);
        words::set_change_count(&mut self.state, pools::change_count(rng));
    }

    fn call(&mut self, call: Call) -> Case {
        let case = Case::new(call, self.state.clone());
        let mut buffer = case.buffer.clone();
        self.port.call(&case.call, &mut self.state, &mut buffer);
        let changed = self.state[..BASE_WORDS] != case.state[..BASE_WORDS];
        if let Some((listing, _)) = &mut self.open {
            listing.changes += usize::from(changed);
        }
        case
    }

    fn begin(&mut self) -> Result<Step, String> {
        let count = words::change_count(&self.state);
        let listing = Listing::begun(part::dump4(&self.state), count);
        // nothing in it is looked at
        let cursor = self.cursor();
        self.open = Some((listing, cursor));
        self.part(Take::Begin)
    }

    fn next(&mut self) -> Result<Step, String> {
        self.part(Take::Next)
    }

    /// A part of the listing that is going on.
    fn part(&mut self, take: Take) -> Result<Step, String> {
        let (mut listing, mut cursor) = self.open.take().expect("a listing goes on");
        let rows = self.rows();
        let mut room = ROUTE_WORDS * rows as usize;
        if self.rng.one_in(8) {
            room += 1 + self.rng.below(80);
        }
        let case = PartCase {
            ask: Ask { take, rows },
            state: self.state.clone(),
            listing: filled(room),
            cursor: cursor.clone(),
            cut: Cut::default(),
        };
        let mut rows_given = case.listing.clone();
        let lister = &mut self.lister;
        let reply = lister.part(case.ask, &self.state, &mut rows_given, &mut cursor);
        let given = (ROUTE_WORDS * reply.value as usize).min(rows_given.len());
        listing
            .part(reply, &rows_given[..given])
            .map_err(|what| format!("{case}: {what}"))?;
        if reply.second == 1 {
            let ended = if listing.changes == 0 {
                &mut self.ended.0
            } else {
                &mut self.ended.1
            };
            *ended += 1;
        }
        // at times it goes on past its end
        if reply.second == 0 || self.rng.one_in(4) {
            self.open = Some((listing, cursor));
        }
        Ok(Step::Part(case))
    }

    /// How many rows are asked for, 1 to 256.
    fn rows(&mut self) -> u32 {
        let any = 1 + self.rng.below(MOST as usize) as u32;
        self.rng.pick(&[1, 1, 1, 2, 2, 3, 5, 16, 64, MOST, any])
    }

    /// A part that doesn't belong to the listing: a cursor of any words, and
    /// what is refused.
    fn damaged(&mut self) -> PartCase {
        let rows = self.rows();
        let held = self.open.as_ref().map(|(_, cursor)| cursor.clone());
        let cursor = match held {
            Some(cursor) if self.rng.one_in(2) => cursor,
            _ => self.cursor(),
        };
        let rng = &mut self.rng;
        let mut case = PartCase {
            ask: Ask {
                take: rng.pick(&[Take::Begin, Take::Next, Take::Next]),
                rows,
            },
            state: self.state.clone(),
            listing: Vec::new(),
            cursor,
            cut: Cut::default(),
        };
        if rng.one_in(3) {
            case.ask.rows = rng.pick(&[0, 0, 257, 257, 258, 1 << 27, u32::MAX]);
        }
        let room = ROUTE_WORDS * case.ask.rows.min(MOST) as usize;
        case.listing = filled(match rng.below(8) {
            0 => room.saturating_sub(1 + rng.below(40)),
            1 => ROUTE_WORDS * (MOST as usize - 1),
            2 => room + rng.below(80),
            _ => room,
        });
        if rng.one_in(4) {
            let clause = rng.below(damage::CLAUSES);
            case.state = damage::state(rng, clause).1;
        }
        match rng.below(16) {
            0 => {
                let lengths = [0, BASE_WORDS, ROW_COUNTS_AT, STATE_WORDS - 1];
                case.state.truncate(rng.pick(&lengths));
            }
            1 => case.state.push(0),
            2 => case.cursor.truncate(rng.below(CURSOR_WORDS)),
            3 => case.cursor.push(rng.pick(&[0, 1])),
            4 => case.cut.state = 1 + rng.below(3),
            5 => {
                case.cut.lent = 1 + rng.below(3);
                if rng.one_in(2) {
                    case.cursor.push(0);
                }
            }
            6 => case.cut.buffer = 1 + rng.below(3),
            _ => {}
        }
        case
    }

    /// A cursor near the count, near the end, or of any words.
    fn cursor(&mut self) -> Vec<u32> {
        let count = words::change_count(&self.state);
        let all = (part::dump4(&self.state).len() / ROUTE_WORDS) as u32;
        let rng = &mut self.rng;
        let any = rng.word();
        let within = rng.below(all as usize + 1) as u32;
        let places = [0, within, within, all, all + 1, any, u32::MAX];
        let start = rng.pick(&[
            count,
            count,
            count.wrapping_add(1),
            count.wrapping_sub(1),
            count ^ (1 << 32),
            count ^ 1,
            0,
            u64::MAX,
        ]);
        let mut cursor = vec![rng.pick(&places)];
        cursor.extend(words::halves(start));
        cursor
    }
}

/// Lists the tables of rows, as far as there is room.
fn listed(lists: &mut Lists) {
    for row in &lists.routes {
        if lists.tables.len() < TABLE_LIMIT && !lists.tables.contains(&row[0]) {
            lists.tables.push(row[0]);
        }
    }
}
