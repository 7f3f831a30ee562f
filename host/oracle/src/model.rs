//! The model: what each call does to lent words. 200, 201, 202, lifetimes
//! that Linux turns down (22) and 203 in that order, then the Rust on the
//! decoded lists, then back to words with their row counts, the change count,
//! and the events that the port tells beside the Rust.
use crate::call::{Buffer, Call, Reply};
use crate::recording::{IP_DISABLED, LINK_DOWN, mark};
use crate::words::{
    BASE_WORDS, LIMITS, STATE_WORDS, change_count, decode, encode_into, set_change_count,
};
use crate::{fit, well_formed};
use reference::{Answer, EventRow, Lists, Outcome};

/// Linux's EINVAL.
pub const INVALID: u32 = 22;
pub const UNFIT_BUFFER: u32 = 200;
pub const UNFIT_STATE: u32 = 201;
pub const UNFIT_REQUEST: u32 = 202;
pub const NO_SPACE: u32 = 203;

/// Runs `call` on the lent words. Calls without a buffer leave `buffer`
/// alone, and `left` leaves `state` alone.
pub fn model(call: &Call, state: &mut [u32], buffer: &mut [u32]) -> Reply {
    match outcome(call, state, buffer.len()) {
        Err(number) => Reply::refused(number),
        Ok(outcome) if passes(outcome.peaks) => Reply::refused(NO_SPACE),
        Ok(outcome) => settle(call, &outcome, state, buffer),
    }
}

/// What the Rust makes of the call, or 200, 201, 202 or the 22 of lifetimes.
pub fn outcome(call: &Call, state: &[u32], buffer: usize) -> Result<Outcome, u32> {
    lengths(call, state, buffer)?;
    standing(call, state)?;
    let request = fit::request(call)?;
    let lists = if matches!(call, Call::Left { .. }) {
        Lists::default()
    } else {
        decode(state)
    };
    Ok(reference::run(&lists, &request))
}

/// Writes the answer into the words, and gives the reply.
pub fn settle(call: &Call, outcome: &Outcome, state: &mut [u32], buffer: &mut [u32]) -> Reply {
    let mark = told_beside(call, &outcome.lists, state);
    if !matches!(call, Call::Left { .. }) {
        leave(&outcome.lists, state);
    }
    match &outcome.answer {
        Answer::Refused(number) => Reply::refused(*number),
        Answer::Events(told) => {
            let rows: Vec<EventRow> = told.iter().copied().chain(mark).collect();
            write(buffer, rows.as_flattened());
            Reply::value(rows.len() as u32)
        }
        Answer::Rows(rows) => {
            write(buffer, rows.as_flattened());
            Reply::value(rows.len() as u32)
        }
        Answer::Row(row) => {
            write(buffer, row);
            Reply::default()
        }
        Answer::Yes(yes) => Reply::value(u32::from(*yes)),
        Answer::Address(source) => Reply {
            // `source` always has one, and its reply has no mark for it
            present: u32::from(source.is_some() && !matches!(call, Call::Source { .. })),
            value: source.unwrap_or(0),
            ..Reply::default()
        },
        Answer::Left { preferred, valid } => Reply {
            value: *preferred,
            second: *valid,
            ..Reply::default()
        },
    }
}

/// What the port tells beside the Rust (document 02, Paper 9), behind all
/// else: "event 5 on every `down`", "event 6 when the last address goes". The
/// deletions that it adds where main rows fall in silence have no place: none
/// does (the command `recordings` looks for one).
fn told_beside(call: &Call, after: &Lists, before: &[u32]) -> Option<EventRow> {
    match call {
        Call::Down => Some(mark(LINK_DOWN)),
        _ if call.buffer() != Buffer::Events => None,
        _ => (before[0] > 0 && after.addresses.is_empty()).then(|| mark(IP_DISABLED)),
    }
}

/// What a call leaves: the words of `lists` with their row counts, and a
/// change count that "goes up by one for each call, refused or not, that
/// changes an address, a row or a table, and stops at its largest value"
/// (document 02, Paper 6). It compares the lists alone.
pub fn leave(lists: &Lists, state: &mut [u32]) {
    let before = state[..BASE_WORDS].to_vec();
    encode_into(lists, state);
    if state[..BASE_WORDS] != before {
        set_change_count(state, change_count(state).saturating_add(1));
    }
}

/// A list passed its limit at some moment of the call.
pub fn passes(peaks: [usize; 3]) -> bool {
    peaks.iter().zip(LIMITS).any(|(&peak, limit)| peak > limit)
}

/// 200: the lengths of the state, the request and the buffer.
pub(crate) fn lengths(call: &Call, state: &[u32], buffer: usize) -> Result<(), u32> {
    let state = matches!(call, Call::Left { .. }) || state.len() == STATE_WORDS;
    if state && call.request_whole() && buffer >= call.buffer().least() {
        Ok(())
    } else {
        Err(UNFIT_BUFFER)
    }
}

/// 201: the state, and a row handed in.
pub(crate) fn standing(call: &Call, state: &[u32]) -> Result<(), u32> {
    let row = match call {
        Call::Source4 { row, .. } => row[..].try_into().is_ok_and(well_formed::route),
        Call::Left { row, .. } => row[..].try_into().is_ok_and(well_formed::address),
        _ => true,
    };
    if row && (matches!(call, Call::Left { .. }) || well_formed::state(state)) {
        Ok(())
    } else {
        Err(UNFIT_STATE)
    }
}

fn write(buffer: &mut [u32], words: &[u32]) {
    assert!(
        words.len() <= buffer.len(),
        "the buffer is too short: {} words in {}",
        words.len(),
        buffer.len()
    );
    buffer[..words.len()].copy_from_slice(words);
}
