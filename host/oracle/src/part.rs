//! Listings taken in parts (document 02, Paper 6). Written from the paper's
//! words alone; a line in quotation marks is the paper's.
use crate::call::{Call, Reply};
use crate::compare::{Cut, first_other, shortened};
use crate::model::{UNFIT_BUFFER, UNFIT_REQUEST, UNFIT_STATE, model as base};
use crate::port::{Bytes, exact, words as words_of, write_back};
use crate::well_formed;
use crate::words::{
    LISTING_BUFFER, ROUTE_LIMIT, ROUTE_WORDS, STATE_WORDS, change_count, halves, whole,
};
use std::fmt;

/// The cursor: the next place, and the start's change count as its low and
/// its high word.
pub const CURSOR_WORDS: usize = 3;
/// "netlink's mark for an interrupted dump, 0x10".
pub const MARK: u32 = 0x10;
/// The most rows of a part.
pub const MOST: u32 = ROUTE_LIMIT as u32;

/// The numbers of a part, in the order in which they are looked for.
pub const NUMBERS: [u32; 4] = [0, UNFIT_BUFFER, UNFIT_STATE, UNFIT_REQUEST];

/// Which part of a listing is taken.
#[derive(Clone, Copy, Debug, PartialEq, Eq)]
pub enum Take {
    Begin,
    Next,
}

/// A part that is asked for, of so many rows.
#[derive(Clone, Copy, Debug, PartialEq, Eq)]
pub struct Ask {
    pub take: Take,
    pub rows: u32,
}

/// What is met as `interface4_dump4_begin` and `interface4_dump4_next`, on
/// bytes, or as `interface4w_*`, on words.
pub trait Lister<E> {
    fn name(&self) -> String;
    fn part(&mut self, ask: Ask, state: &[E], listing: &mut [E], cursor: &mut [E]) -> Reply;
}

/// One on words met through bytes.
impl<W: Lister<u32>> Lister<u8> for Bytes<W> {
    fn name(&self) -> String {
        self.0.name()
    }
    fn part(&mut self, ask: Ask, state: &[u8], listing: &mut [u8], cursor: &mut [u8]) -> Reply {
        let (mut rows, mut next) = (words_of(listing), exact(cursor));
        let reply = self.0.part(ask, &exact(state), &mut rows, &mut next);
        write_back(&rows, listing);
        write_back(&next, cursor);
        reply
    }
}

/// The model, over the Rust's `dump4`.
#[derive(Clone, Copy)]
pub struct Model;

impl Lister<u32> for Model {
    fn name(&self) -> String {
        "the model of parts".to_string()
    }
    fn part(&mut self, ask: Ask, state: &[u32], listing: &mut [u32], cursor: &mut [u32]) -> Reply {
        let Ask { take, rows } = ask;
        if let Err(number) = refusal(state, listing.len(), cursor.len(), rows) {
            return Reply::refused(number);
        }
        let (place, start) = match take {
            Take::Begin => (0, change_count(state)),
            Take::Next => (cursor[0], whole(cursor[1], cursor[2])),
        };
        let all = dump4(state);
        // "A place past the end gives no row and finishes it."
        let rest = all.chunks(ROUTE_WORDS).skip(place as usize);
        let given: Vec<&[u32]> = rest.take(rows as usize).collect();
        let (count, words) = (given.len() as u32, given.concat());
        listing[..words.len()].copy_from_slice(&words);
        // "the next place (place plus rows) and the start's change count"
        cursor[0] = place + count;
        cursor[1..].copy_from_slice(&halves(start));
        let end = (all.len() / ROUTE_WORDS) as u32;
        Reply {
            number: 0,
            present: mark(start, change_count(state)),
            value: count,
            second: u32::from(cursor[0] >= end),
        }
    }
}

/// "exactly if the count is not the start's or is at its largest".
pub fn mark(start: u64, count: u64) -> u32 {
    if count != start || count == u64::MAX {
        MARK
    } else {
        0
    }
}

/// The number that refuses a part, in their order.
pub fn refusal(state: &[u32], listing: usize, cursor: usize, rows: u32) -> Result<(), u32> {
    let room = ROUTE_WORDS * rows.min(MOST) as usize;
    if state.len() != STATE_WORDS || cursor != CURSOR_WORDS || listing < room {
        Err(UNFIT_BUFFER)
    } else if !well_formed::state(state) {
        Err(UNFIT_STATE)
    } else if !(1..=MOST).contains(&rows) {
        Err(UNFIT_REQUEST)
    } else {
        Ok(())
    }
}

/// The rows of `dump4` on a well-formed state, by the Rust.
pub fn dump4(state: &[u32]) -> Vec<u32> {
    let mut listing = vec![0; LISTING_BUFFER];
    let reply = base(&Call::Dump4, &mut state.to_vec(), &mut listing);
    assert_eq!(reply.number, 0, "a well-formed state is listed");
    listing.truncate(ROUTE_WORDS * reply.value as usize);
    listing
}

/// A part taken, with the words lent to it.
#[derive(Clone, Debug)]
pub struct PartCase {
    pub ask: Ask,
    pub state: Vec<u32>,
    pub listing: Vec<u32>,
    pub cursor: Vec<u32>,
    /// `lent` is cut off the cursor, `buffer` off the listing.
    pub cut: Cut,
}

impl fmt::Display for PartCase {
    fn fmt(&self, f: &mut fmt::Formatter) -> fmt::Result {
        let name = match self.ask.take {
            Take::Begin => "dump4_begin",
            Take::Next => "dump4_next",
        };
        let words = [&self.state, &self.listing].map(|lent| lent.len());
        write!(f, "{name} {} rows, cursor {:?}", self.ask.rows, self.cursor)?;
        write!(f, ", state and listing of {words:?} words")?;
        if self.cut != Cut::default() {
            write!(f, " but for the last bytes, {:?}", self.cut)?;
        }
        Ok(())
    }
}

/// What it did; the state is lent for reading.
#[derive(Clone, Debug, PartialEq, Eq)]
pub struct PartEffect {
    pub reply: Reply,
    pub listing: Vec<u8>,
    pub cursor: Vec<u8>,
}

/// The effect of the case on `lister`.
pub fn effect(lister: &mut dyn Lister<u8>, case: &PartCase) -> PartEffect {
    let state = shortened(&case.state, case.cut.state);
    let mut listing = shortened(&case.listing, case.cut.buffer);
    let mut cursor = shortened(&case.cursor, case.cut.lent);
    let reply = lister.part(case.ask, &state, &mut listing, &mut cursor);
    PartEffect {
        reply,
        listing,
        cursor,
    }
}

/// The model's.
pub fn expected(case: &PartCase) -> PartEffect {
    effect(&mut Bytes(Model), case)
}

/// What of the case's effect on `lister` isn't as expected.
pub fn differs(
    lister: &mut dyn Lister<u8>,
    case: &PartCase,
    expected: &PartEffect,
) -> Option<String> {
    let found = effect(lister, case);
    if found.reply != expected.reply {
        let (found, expected) = (found.reply, expected.reply);
        return Some(format!("replies {found:?} in place of {expected:?}"));
    }
    first_other("listing", &found.listing, &expected.listing)
        .or_else(|| first_other("cursor", &found.cursor, &expected.cursor))
}

/// The case on `lister`, whose effect must be the one expected.
pub fn against(
    lister: &mut dyn Lister<u8>,
    case: &PartCase,
    expected: &PartEffect,
) -> Result<(), String> {
    match differs(lister, case, expected) {
        None => Ok(()),
        Some(what) => Err(format!("{}: {case}: {what}", lister.name())),
    }
}
