//! Recordings of events (document 02, Paper 9): the route rows that one
//! rebuilds, and whether two rebuild the same. Written from the paper's words
//! alone; a line in quotation marks is the paper's.
use crate::call::Reply;
use crate::model::UNFIT_BUFFER;
use crate::port::{Bytes, exact, words as words_of, write_back};
use crate::well_formed;
use crate::words::{ADDRESS_WORDS, EVENT_WORDS, LISTING_BUFFER, ROUTE_LIMIT};
use reference::{EventRow, RouteRow};
use std::cmp::Reverse;

/// "208 an unknown event kind".
pub const UNKNOWN_EVENT: u32 = 208;
/// "209 an unfit address or route row, ..".
pub const UNFIT_EVENT: u32 = 209;
/// "event 5 on every `down`", "event 6 when the last address goes".
pub const LINK_DOWN: u32 = 5;
pub const IP_DISABLED: u32 = 6;

/// "flag 0x100 replaces", "else 0x800 adds after the alike rows".
pub const REPLACES: u32 = 0x100;
pub const APPENDS: u32 = 0x800;

/// The numbers of a recording.
pub const NUMBERS: [u32; 4] = [0, UNFIT_BUFFER, UNKNOWN_EVENT, UNFIT_EVENT];

/// Rows, or the number that refuses the recording.
pub type Rebuilt = Result<Vec<RouteRow>, u32>;

/// What one event does to the rows so far.
pub type Step = fn(&mut Vec<RouteRow>, &EventRow) -> Result<(), u32>;

/// The mark of a kind: "both with zeros after their number".
pub fn mark(kind: u32) -> EventRow {
    let mut row = [0; EVENT_WORDS];
    row[0] = kind;
    row
}

/// The rows of a recording of whole events.
pub fn rebuild(events: &[EventRow]) -> Rebuilt {
    rebuild_by(step, events)
}

/// "the earliest event decides".
pub fn rebuild_by(step: Step, events: &[EventRow]) -> Rebuilt {
    let mut rows = Vec::new();
    for event in events {
        step(&mut rows, event)?;
    }
    Ok(rows)
}

pub fn step(rows: &mut Vec<RouteRow>, event: &EventRow) -> Result<(), u32> {
    let [kind, flags, words @ ..] = event;
    match kind {
        1 | 2 => address(*flags, words),
        3 => added(rows, *flags, words),
        4 => deleted(rows, *flags, words),
        // "device rows with scope other than 254 are gone"
        &LINK_DOWN => gone(rows, event, |row| row[12] == 1 && row[7] != 254),
        // "all device rows are gone"
        &IP_DISABLED => gone(rows, event, |row| row[12] == 1),
        _ => Err(UNKNOWN_EVENT),
    }
}

/// 209 unless it holds.
pub fn fit(holds: bool) -> Result<(), u32> {
    if holds { Ok(()) } else { Err(UNFIT_EVENT) }
}

/// An address rebuilds nothing. Its flags are 0, and so is what is behind.
fn address(flags: u32, words: &RouteRow) -> Result<(), u32> {
    let (row, behind) = words.split_at(ADDRESS_WORDS);
    let row = row.try_into().expect("an address is shorter");
    fit(flags == 0 && well_formed::address(row) && behind.iter().all(|word| *word == 0))
}

fn added(rows: &mut Vec<RouteRow>, flags: u32, row: &RouteRow) -> Result<(), u32> {
    // "flags over 65,535", "an addition of or replacement by a row already
    // there"
    fit(flags <= 65_535 && well_formed::route(row) && !rows.contains(row))?;
    if flags & REPLACES != 0 {
        // "a replacement with no alike row"
        let first = rows.iter_mut().find(|other| alike(other, row));
        *first.ok_or(UNFIT_EVENT)? = *row;
        return Ok(());
    }
    // "or a 257th row"
    fit(rows.len() < ROUTE_LIMIT)?;
    let before = |other: &&RouteRow| {
        place(other) < place(row) || (flags & APPENDS != 0 && alike(other, row))
    };
    let at = rows.iter().take_while(before).count();
    rows.insert(at, *row);
    Ok(())
}

fn deleted(rows: &mut Vec<RouteRow>, flags: u32, row: &RouteRow) -> Result<(), u32> {
    fit(flags == 0 && well_formed::route(row))?;
    // "a deletion of a row not there"
    let at = rows.iter().position(|other| other == row);
    rows.remove(at.ok_or(UNFIT_EVENT)?);
    Ok(())
}

fn gone(
    rows: &mut Vec<RouteRow>,
    event: &EventRow,
    goes: fn(&RouteRow) -> bool,
) -> Result<(), u32> {
    fit(event[1..].iter().all(|word| *word == 0))?;
    rows.retain(|row| !goes(row));
    Ok(())
}

/// "alike in dst, len, table, tos and priority".
pub fn alike(a: &RouteRow, b: &RouteRow) -> bool {
    place(a) == place(b)
}

/// The order of a state's routes: "dst rising, len falling, table falling,
/// tos falling, priority rising".
pub fn place(r: &RouteRow) -> (u32, Reverse<u32>, Reverse<u32>, Reverse<u32>, u32) {
    (r[1], Reverse(r[2]), Reverse(r[0]), Reverse(r[3]), r[4])
}

/// "A recording that isn't whole event rows is met by 200."
pub fn events(recording: &[u32]) -> Result<&[EventRow], u32> {
    match recording.as_chunks() {
        (events, []) => Ok(events),
        _ => Err(UNFIT_BUFFER),
    }
}

/// What is met as `interface4_rebuild` and `interface4_same`, on bytes, or as
/// `interface4w_*`, on words.
pub trait Rebuilder<E> {
    fn name(&self) -> String;
    fn rebuild(&mut self, recording: &[E], rows: &mut [E]) -> Reply;
    fn same(&mut self, first: &[E], second: &[E]) -> Reply;
}

/// The words of a recording in bytes: one word too many for one that isn't
/// whole words, so that it isn't whole events either.
fn recorded(bytes: &[u8]) -> Vec<u32> {
    match bytes.len() % 4 {
        0 => exact(bytes),
        _ => vec![0; EVENT_WORDS + 1],
    }
}

/// One on words met through bytes.
impl<W: Rebuilder<u32>> Rebuilder<u8> for Bytes<W> {
    fn name(&self) -> String {
        self.0.name()
    }
    fn rebuild(&mut self, recording: &[u8], rows: &mut [u8]) -> Reply {
        let mut words = words_of(rows);
        let reply = self.0.rebuild(&recorded(recording), &mut words);
        write_back(&words, rows);
        reply
    }
    fn same(&mut self, first: &[u8], second: &[u8]) -> Reply {
        self.0.same(&recorded(first), &recorded(second))
    }
}

/// The rules above, on lent words.
#[derive(Clone, Copy)]
pub struct Model;

impl Rebuilder<u32> for Model {
    fn name(&self) -> String {
        "the model of recordings".to_string()
    }
    fn rebuild(&mut self, recording: &[u32], rows: &mut [u32]) -> Reply {
        lent(rebuild, recording, rows)
    }
    fn same(&mut self, first: &[u32], second: &[u32]) -> Reply {
        compared(rebuild, first, second)
    }
}

/// Rebuilding, with the rows written from the start of what is lent.
pub fn lent(by: impl Fn(&[EventRow]) -> Rebuilt, recording: &[u32], rows: &mut [u32]) -> Reply {
    let room = fit_room(rows.len());
    let rebuilt = events(recording).and_then(|events| room.and_then(|()| by(events)));
    match rebuilt {
        Err(number) => Reply::refused(number),
        Ok(rebuilt) => {
            let words = rebuilt.as_flattened();
            rows[..words.len()].copy_from_slice(words);
            Reply::value(rebuilt.len() as u32)
        }
    }
}

fn fit_room(words: usize) -> Result<(), u32> {
    if words < LISTING_BUFFER {
        Err(UNFIT_BUFFER)
    } else {
        Ok(())
    }
}

/// "of two recordings the first, after 200 for either".
pub fn compared(by: impl Fn(&[EventRow]) -> Rebuilt, first: &[u32], second: &[u32]) -> Reply {
    let both = || {
        let [first, second] = [events(first)?, events(second)?];
        let [first, second] = [by(first)?, by(second)?];
        // "the same rows in the same order"
        Ok(first == second)
    };
    match both() {
        Err(number) => Reply::refused(number),
        Ok(same) => Reply::value(same.into()),
    }
}

/// A recording with the words lent beside it, or two of them.
#[derive(Clone, Debug)]
pub struct RecordingCase {
    /// In bytes, whole words or not.
    pub first: Vec<u8>,
    pub beside: Beside,
    /// What was done to it, and to the second.
    pub damage: [Vec<&'static str>; 2],
}

#[derive(Clone, Debug)]
pub enum Beside {
    /// Rebuilt into rows that hold this.
    Rows(Vec<u8>),
    /// Compared with this recording.
    Second(Vec<u8>),
}

/// What it gave.
#[derive(Clone, Debug, PartialEq, Eq)]
pub struct RecordingEffect {
    pub reply: Reply,
    pub rows: Vec<u8>,
}

/// The effect of the case on a rebuilder.
pub fn effect(rebuilder: &mut dyn Rebuilder<u8>, case: &RecordingCase) -> RecordingEffect {
    match &case.beside {
        Beside::Rows(held) => {
            let mut rows = held.clone();
            let reply = rebuilder.rebuild(&case.first, &mut rows);
            RecordingEffect { reply, rows }
        }
        Beside::Second(second) => RecordingEffect {
            reply: rebuilder.same(&case.first, second),
            rows: Vec::new(),
        },
    }
}

/// The case on a rebuilder and on the model: the reply and every byte of the
/// rows must come out alike.
pub fn against(rebuilder: &mut dyn Rebuilder<u8>, case: &RecordingCase) -> Result<Reply, String> {
    let expected = effect(&mut Bytes(Model), case);
    let found = effect(rebuilder, case);
    let what = if found.reply != expected.reply {
        let (found, expected) = (found.reply, expected.reply);
        format!("replies {found:?} in place of {expected:?}")
    } else if let Some(what) = crate::compare::first_other("rows", &found.rows, &expected.rows) {
        what
    } else {
        return Ok(expected.reply);
    };
    let name = match &case.beside {
        Beside::Rows(rows) => format!("rebuild with {} bytes for rows", rows.len()),
        Beside::Second(second) => format!("same as a recording of {} bytes", second.len()),
    };
    let (rebuilder, length, damage) = (rebuilder.name(), case.first.len(), &case.damage);
    Err(format!(
        "{rebuilder}: {name}: {what}\n(a recording of {length} bytes, {damage:?})"
    ))
}
