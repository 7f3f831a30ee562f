//! The list's calls with a netmask in place of the prefix.
use super::traps::{Sequence, many_routes};
use crate::call::Call;
use crate::compare::Case;
use crate::coverage;
use crate::netmask::with_word;
use crate::script::{self, NewAddress, ip};
use crate::words;
use std::collections::BTreeMap;

/// A call with a netmask: its code in the list, the code of the call whose
/// prefix the mask replaces, and the answers that it gives.
struct Kind {
    name: &'static str,
    code: u32,
    base: u32,
    answers: &'static [u32],
}

const KINDS: [Kind; 2] = [
    Kind {
        name: "add_v4_mask",
        code: 19,
        base: 3,
        answers: &[0, 17, 22, 200, 201, 202, 203, 207],
    },
    Kind {
        name: "del_v4_mask",
        code: 20,
        base: 4,
        answers: &[0, 99, 200, 201, 202, 207],
    },
];

/// The code of a request for an address with a mask.
pub fn code(call: &Call) -> u32 {
    let of = KINDS.iter().find(|kind| kind.base == call.code());
    of.expect("a request for an address").code
}

/// The code of the call whose prefix the mask replaces.
pub fn base(code: u32) -> Option<u32> {
    let of = KINDS.iter().find(|kind| kind.code == code);
    of.map(|kind| kind.base)
}

/// The answers that are not among those seen.
pub fn unseen(seen: &BTreeMap<(u32, u32), usize>) -> Vec<String> {
    KINDS
        .iter()
        .flat_map(|kind| coverage::unseen_of(seen, kind.name, kind.code, kind.answers))
        .collect()
}

/// Masks that are not good: with a gap, without leading ones, a prefix.
const BAD: [&str; 6] = [
    "255.0.255.0",
    "255.255.255.1",
    "127.255.255.255",
    "0.0.0.255",
    "0.0.0.1",
    "0.0.0.24",
];

pub fn sequences() -> Vec<Sequence> {
    let own = script::address("10.1.0.5/24").up();
    let unfit_state = {
        let mut state = words::empty();
        state[0] = 1 << 31;
        state
    };
    vec![
        (words::empty(), every_mask()),
        (script::started().state, on_one_state(own)),
        // 201 comes before 207
        (unfit_state, both(own, "255.0.255.0")),
        // and 207 before 203
        (
            many_routes(256),
            ["255.255.255.0", "255.0.255.0"]
                .map(|mask| add(own, mask))
                .into(),
        ),
    ]
}

/// An address put in by each good mask, and taken out by no other.
fn every_mask() -> Vec<Call> {
    let new = script::address("10.1.0.5/24");
    let masks: Vec<u32> = (0..=32).map(reference::mask).collect();
    let others = masks.iter().cycle().skip(1);
    masks
        .iter()
        .zip(others)
        .flat_map(|(&mask, &other)| {
            [
                with_word(&adding(new), mask),
                with_word(&deleting(new), other),
                with_word(&deleting(new), mask),
            ]
        })
        .collect()
}

/// With routes, and each refusal before those behind it.
fn on_one_state(own: NewAddress) -> Vec<Call> {
    let good = "255.255.255.0";
    let unfit = NewAddress { scope: 256, ..own };
    let ended = NewAddress { valid: 0, ..own };
    let changed = NewAddress {
        priority: 5,
        replace: true,
        ..own
    };
    let mut calls = vec![add(own, good), add(own, good), add(changed, good)];
    for mask in BAD {
        calls.extend(both(own, mask));
        calls.extend([
            add(unfit, mask),
            add(ended, mask),
            unfit_deletion(own, mask),
        ]);
    }
    calls.extend([
        add(unfit, good),
        add(ended, good),
        add(NewAddress { valid: 0, ..unfit }, good),
        unfit_deletion(own, good),
        delete(own, "255.255.0.0"),
        delete(own, good),
        delete(own, good),
    ]);
    calls
}

/// 200 comes before 207, whatever has another length.
pub fn lengths() -> Vec<Case> {
    let own = script::address("10.1.0.5/24");
    let mut cases = Vec::new();
    for mask in ["255.255.255.0", "255.0.255.0"] {
        for call in both(own, mask) {
            let case = Case::new(call, words::empty());
            let mut shorter = case.clone();
            shorter.state.pop();
            let mut longer = case.clone();
            longer.state.push(0);
            let mut buffer = case.clone();
            buffer.buffer.pop();
            cases.extend([shorter, longer, buffer]);
            let request = case.call.lent().expect("a request for an address").to_vec();
            let more = [&request[..], &[0]].concat();
            for words in [&request[..0], &request[..request.len() - 1], &more] {
                let mut case = case.clone();
                *case.call.lent_mut().expect("a request for an address") = words.to_vec();
                cases.push(case);
            }
        }
    }
    cases
}

fn both(new: NewAddress, mask: &str) -> Vec<Call> {
    vec![add(new, mask), delete(new, mask)]
}

fn add(new: NewAddress, mask: &str) -> Call {
    with_word(&adding(new), ip(mask))
}

fn delete(new: NewAddress, mask: &str) -> Call {
    with_word(&deleting(new), ip(mask))
}

fn adding(new: NewAddress) -> Call {
    let request = new.words();
    Call::AddV4 { request, now: 0 }
}

/// By its local address and its address, which the mask belongs to.
fn deleting(new: NewAddress) -> Call {
    let mut request = vec![1, new.local, 1, new.address, 0];
    request.extend([0; 6]);
    Call::DelV4 { request }
}

/// With a word of an absent label.
fn unfit_deletion(new: NewAddress, mask: &str) -> Call {
    let mut call = delete(new, mask);
    if let Some(word) = call.lent_mut().and_then(|request| request.last_mut()) {
        *word = 1;
    }
    call
}
