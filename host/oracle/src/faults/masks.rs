//! Faults in the calls with a netmask.
use super::Fault;
use crate::call::{Call, Reply};
use crate::compare::{against, effect};
use crate::fit;
use crate::generate::masks::Masks;
use crate::model::{self, INVALID, UNFIT_REQUEST};
use crate::netmask::{self, BAD_MASK, Masked, mask, masked, with_word};
use crate::port::Bytes;

pub const FAULTS: &[Fault] = &[
    Fault::new("202 before 207", fields_first),
    Fault::new("22 before 207", lifetimes_first),
    Fault::new("201 behind 207", mask_before_state),
    Fault::new("the mask's word taken for the prefix", model::model),
    Fault::new("a 207 that changes a word of the state", state_changed),
    Fault::new("a 207 that writes into the buffer", buffer_changed),
    Fault::new("a gap taken by its leading ones", leading_ones),
];

/// How many cases a fault may go unfound.
pub const CASES: usize = 500;

/// The case in which the fault and the model with masks part.
pub fn cases_to_find(fault: Fault, seed: u64) -> Option<usize> {
    let mut masks = Masks::new(seed);
    let mut port = Bytes(fault);
    (1..=CASES).find(|_| {
        let case = masks.next_case();
        let expected = effect(&mut Bytes(Masked), &case);
        against(&mut port, &case, &expected).is_err()
    })
}

fn fields_first(call: &Call, state: &mut [u32], buffer: &mut [u32]) -> Reply {
    request_first(UNFIT_REQUEST, call, state, buffer)
}

fn lifetimes_first(call: &Call, state: &mut [u32], buffer: &mut [u32]) -> Reply {
    request_first(INVALID, call, state, buffer)
}

/// Looks for `number` in all but the mask before the mask.
fn request_first(number: u32, call: &Call, state: &mut [u32], buffer: &mut [u32]) -> Reply {
    let before = model::lengths(call, state, buffer.len());
    let stands = before.and_then(|()| model::standing(call, state)).is_ok();
    if stands && fit::request(&with_word(call, 0)).err() == Some(number) {
        return Reply::refused(number);
    }
    masked(call, state, buffer)
}

fn mask_before_state(call: &Call, state: &mut [u32], buffer: &mut [u32]) -> Reply {
    let lengths = model::lengths(call, state, buffer.len());
    if lengths.is_ok() && netmask::model(mask(call)).number == BAD_MASK {
        return Reply::refused(BAD_MASK);
    }
    masked(call, state, buffer)
}

fn state_changed(call: &Call, state: &mut [u32], buffer: &mut [u32]) -> Reply {
    let reply = masked(call, state, buffer);
    if reply.number == BAD_MASK {
        state[0] ^= 1;
    }
    reply
}

fn buffer_changed(call: &Call, state: &mut [u32], buffer: &mut [u32]) -> Reply {
    let reply = masked(call, state, buffer);
    if reply.number == BAD_MASK {
        buffer[0] = 0;
    }
    reply
}

fn leading_ones(call: &Call, state: &mut [u32], buffer: &mut [u32]) -> Reply {
    if model::lengths(call, state, buffer.len()).is_err() {
        return masked(call, state, buffer);
    }
    let prefix = mask(call).leading_ones();
    model::model(&with_word(call, prefix), state, buffer)
}
