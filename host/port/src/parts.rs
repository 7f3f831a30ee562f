//! Listings taken in parts, with other calls between them, on every
//! boundary, against the model of parts.
use crate::comparison::{Comparison, Tally};
use crate::guarded::Guard;
use crate::guarded::Lent::{Read, Write};
use crate::library::{BYTE, WORD, named, reply};
use crate::messages::Boundary;
use crate::records::route_words;
use naskrefim::{Addresses, Cursor, Part, bytes, words};
use oracle::call::Reply;
use oracle::campaign::smallest_state;
use oracle::compare::{self, Case};
use oracle::generate::parts::{Runs, Step};
use oracle::json;
use oracle::part::{self, Ask, CURSOR_WORDS, Lister, MARK, MOST, NUMBERS, PartCase, Take};
use oracle::port::Bytes;
use oracle::words::{ROUTE_WORDS, STATE_WORDS, change_count, halves};

pub struct InParts {
    boundaries: Vec<Box<dyn Boundary>>,
    listers: Vec<Box<dyn Lister<u8>>>,
    runs: Runs,
    tally: Tally,
    /// Parts with the mark, and the calls between parts.
    marked: usize,
    between: usize,
}

impl InParts {
    pub fn new(
        boundaries: Vec<Box<dyn Boundary>>,
        listers: Vec<Box<dyn Lister<u8>>>,
        seed: u64,
    ) -> Self {
        Self {
            boundaries,
            listers,
            runs: Runs::new(seed),
            tally: Tally::default(),
            marked: 0,
            between: 0,
        }
    }

    fn call(&mut self, case: &Case) -> Result<(), String> {
        self.between += 1;
        let expected = compare::expected(case);
        for boundary in &mut self.boundaries {
            self.tally.calls += 1;
            compare::against(&mut **boundary, case, &expected)
                .map_err(|other| format!("{other}\n(between parts)"))?;
        }
        Ok(())
    }

    fn part(&mut self, case: &PartCase) -> Result<(), String> {
        let expected = part::expected(case);
        self.tally.given(expected.reply.number);
        self.marked += usize::from(expected.reply.present == MARK);
        for lister in &mut self.listers {
            self.tally.calls += 1;
            part::against(&mut **lister, case, &expected)
                .map_err(|what| format!("{what}\n{}", smallest(&mut **lister, case)))?;
        }
        Ok(())
    }
}

impl Comparison for InParts {
    /// The next step of a run.
    fn next(&mut self) -> Result<(), String> {
        match self.runs.next_step()? {
            Step::Call(case) => self.call(&case),
            Step::Part(case) => self.part(&case),
        }
    }
    fn reached(&self) -> Result<(), String> {
        self.tally.reached("part of a listing", &NUMBERS)
    }
    fn said(&self) -> String {
        let Tally { numbers, calls } = &self.tally;
        format!(
            "parts of listings {numbers:?}, {} with the mark, and {} calls between them; {calls} calls \
             of the library",
            self.marked, self.between
        )
    }
}

/// A difference on the smallest state found for it, as a JSON line.
fn smallest(lister: &mut dyn Lister<u8>, case: &PartCase) -> String {
    let with = |state: &[u32]| PartCase {
        state: state.to_vec(),
        ..case.clone()
    };
    let state = smallest_state(case.state.clone(), |state| {
        let case = with(state);
        part::differs(lister, &case, &part::expected(&case)).is_some()
    });
    json::part_line(&with(&state))
}

/// The library on bytes, on words and through `Addresses`.
pub fn listers() -> [Box<dyn Lister<u8>>; 3] {
    [
        Box::new(OnBytes::default()),
        Box::new(Bytes(OnWords::default())),
        Box::new(Bytes(Typed::default())),
    ]
}

#[derive(Default)]
struct OnBytes(Guard);

impl Lister<u8> for OnBytes {
    fn name(&self) -> String {
        named("the library on bytes", self.0.amiss)
    }
    fn part(&mut self, ask: Ask, state: &[u8], listing: &mut [u8], cursor: &mut [u8]) -> Reply {
        let lent = [Read(state), Write(listing), Write(cursor)];
        reply(self.0.lend(BYTE, lent, |[s, l, c]| match ask.take {
            Take::Begin => bytes::dump4_begin(s, l, c, ask.rows),
            Take::Next => bytes::dump4_next(s, l, c, ask.rows),
        }))
    }
}

#[derive(Default)]
struct OnWords(Guard);

impl Lister<u32> for OnWords {
    fn name(&self) -> String {
        named("the library on words", self.0.amiss)
    }
    fn part(&mut self, ask: Ask, state: &[u32], listing: &mut [u32], cursor: &mut [u32]) -> Reply {
        let lent = [Read(state), Write(listing), Write(cursor)];
        reply(self.0.lend(WORD, lent, |[s, l, c]| match ask.take {
            Take::Begin => words::dump4_begin(s, l, c, ask.rows),
            Take::Next => words::dump4_next(s, l, c, ask.rows),
        }))
    }
}

/// Lengths that `Addresses` can't say go by the words.
#[derive(Default)]
struct Typed(OnWords);

impl Lister<u32> for Typed {
    fn name(&self) -> String {
        "the library through Addresses".to_string()
    }
    fn part(&mut self, ask: Ask, state: &[u32], listing: &mut [u32], cursor: &mut [u32]) -> Reply {
        let Ask { take, rows } = ask;
        let room = ROUTE_WORDS * rows.min(MOST) as usize;
        if state.len() != STATE_WORDS || cursor.len() != CURSOR_WORDS || listing.len() < room {
            return self.0.part(ask, state, listing, cursor);
        }
        let lo = match Addresses::from_words(state) {
            Ok(lo) => lo,
            Err(refused) => return Reply::refused(refused.number()),
        };
        if lo.changes() != change_count(state) {
            // no call replies so: the comparison stops there
            return Reply::refused(u32::MAX);
        }
        let held = Cursor::from([0, 1, 2].map(|i| cursor[i]));
        let taken = match take {
            Take::Begin => lo.dump4_begin(rows as usize),
            Take::Next => lo.dump4_next(held, rows as usize),
        };
        match taken {
            Err(refused) => Reply::refused(refused.number()),
            Ok(part) => {
                if take == Take::Begin {
                    cursor[0] = 0;
                    cursor[1..].copy_from_slice(&halves(lo.changes()));
                }
                written(&part, listing, cursor)
            }
        }
    }
}

/// A part as words. At its end it has no cursor, and the one before is moved.
fn written(part: &Part, listing: &mut [u32], cursor: &mut [u32]) -> Reply {
    for (words, route) in listing.chunks_mut(ROUTE_WORDS).zip(&part.routes) {
        words.copy_from_slice(&route_words(route));
    }
    let count = part.routes.len() as u32;
    match part.next {
        Some(next) => cursor.copy_from_slice(&<[u32; CURSOR_WORDS]>::from(next)),
        None => cursor[0] = cursor[0].wrapping_add(count),
    }
    Reply {
        number: 0,
        present: if part.interrupted { MARK } else { 0 },
        value: count,
        second: u32::from(part.next.is_none()),
    }
}
