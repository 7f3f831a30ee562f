//! Netmasks (document 02, Paper 4): the prefix that a mask stands for.
use crate::call::{Call, Reply};
use crate::checks::Checks;
use crate::compare::{Case, Effect, effect, expected};
use crate::faults::masks;
use crate::port::{Bytes, WordPort, bytes};
use crate::script::{address, ip};
use crate::{model, words};

/// The refusal of a mask that isn't good.
pub const BAD_MASK: u32 = 207;

/// Of the cases with planted faults.
const SEED: u64 = 1;

const PREFIXES: std::ops::RangeInclusive<u8> = 0..=32;

/// A mask is one of the 33 that the Rust makes of a prefix, or isn't good.
/// No bit is counted here: that these are the masks whose ones and trailing
/// zeros make 32 is what a run over all masks shows.
pub fn model(mask: u32) -> Reply {
    match PREFIXES.into_iter().find(|&p| reference::mask(p) == mask) {
        Some(prefix) => Reply::value(prefix.into()),
        None => Reply::refused(BAD_MASK),
    }
}

/// Where a request for an address has its prefix, or the mask in its place.
pub fn place(call: &Call) -> Option<usize> {
    match call {
        Call::AddV4 { .. } => Some(2),
        Call::DelV4 { .. } => Some(4),
        _ => None,
    }
}

/// The mask of a request for an address, which must be whole.
pub fn mask(call: &Call) -> u32 {
    let at = place(call).expect("a request for an address");
    call.lent().expect("a request for an address")[at]
}

/// The call with another word in place of the prefix or mask.
pub fn with_word(call: &Call, word: u32) -> Call {
    let mut call = call.clone();
    let at = place(&call).expect("a request for an address");
    call.lent_mut().expect("a request for an address")[at] = word;
    call
}

/// The calls whose requests have a mask in place of the prefix: 200, 201,
/// 207, and then the call with the prefix.
pub fn masked(call: &Call, state: &mut [u32], buffer: &mut [u32]) -> Reply {
    let before = model::lengths(call, state, buffer.len());
    if let Err(number) = before.and_then(|()| model::standing(call, state)) {
        return Reply::refused(number);
    }
    let prefix = model(mask(call));
    if prefix.number != 0 {
        return prefix;
    }
    model::model(&with_word(call, prefix.value), state, buffer)
}

/// These as a port.
pub struct Masked;

impl WordPort for Masked {
    fn name(&self) -> String {
        "the model of masks".to_string()
    }
    fn call(&mut self, call: &Call, state: &mut [u32], buffer: &mut [u32]) -> Reply {
        masked(call, state, buffer)
    }
}

/// The first of all 2^32 masks to which `answer` says something else than
/// the model. It takes seconds: the good masks rise with their prefixes, so
/// that of those between them the model need not be asked.
pub fn differs(answer: impl Fn(u32) -> Reply) -> Option<u32> {
    let mut between = 0;
    for prefix in PREFIXES {
        let mask = reference::mask(prefix);
        let bad = (between..mask).find(|&m| answer(m) != Reply::refused(BAD_MASK));
        if bad.is_some() {
            return bad;
        }
        if answer(mask) != model(mask) {
            return Some(mask);
        }
        between = mask.wrapping_add(1);
    }
    // behind the last there is none
    assert_eq!(between, 0);
    None
}

/// The same of the good masks and those beside them alone.
pub fn differs_beside(answer: impl Fn(u32) -> Reply) -> Option<u32> {
    let beside = |m: u32| [m.wrapping_sub(1), m, m.wrapping_add(1)];
    let mut masks = PREFIXES.flat_map(|p| beside(reference::mask(p)));
    masks.find(|&m| answer(m) != model(m))
}

/// The paper's sentence: good when the ones and the trailing zeros make 32,
/// and then the ones are the prefix.
pub fn paper(mask: u32) -> Reply {
    told(mask.count_ones() + mask.trailing_zeros(), mask.count_ones())
}

/// `prefix`, if `digits` are all 32.
fn told(digits: u32, prefix: u32) -> Reply {
    if digits == 32 {
        Reply::value(prefix)
    } else {
        Reply::refused(BAD_MASK)
    }
}

pub fn check(checks: &mut Checks) {
    by_hand(checks);
    requests(checks);
    checks.same("the paper's rule on all 2^32 masks", differs(paper), None);
    for (name, found, expected) in [
        (
            "found: trailing zeros left out of the test",
            differs(|m| told(m.count_ones(), m.count_ones())),
            0,
        ),
        (
            "found: leading zeros for trailing ones",
            differs(|m| told(m.count_ones() + m.leading_zeros(), m.count_ones())),
            1,
        ),
        (
            "found: a mask with a gap stands for its leading ones",
            differs(|m| Reply::value(m.leading_ones())),
            1,
        ),
        (
            "found: the zeros are the prefix",
            differs(|m| told(m.count_ones() + m.trailing_zeros(), m.count_zeros())),
            0,
        ),
    ] {
        checks.same(name, found, Some(expected));
    }
    for fault in masks::FAULTS {
        let case = masks::cases_to_find(*fault, SEED);
        let at = case.map_or(format!("in no case of {}", masks::CASES), |n| {
            format!("case {n}")
        });
        checks.same(
            &format!("found: {} ({at})", fault.name),
            case.is_some(),
            true,
        );
    }
}

fn by_hand(checks: &mut Checks) {
    for (mask, reply) in [
        ("0.0.0.0", Reply::value(0)),
        ("128.0.0.0", Reply::value(1)),
        ("255.255.255.0", Reply::value(24)),
        ("255.255.255.254", Reply::value(31)),
        ("255.255.255.255", Reply::value(32)),
        ("255.0.255.0", Reply::refused(207)),
        ("0.0.0.255", Reply::refused(207)),
        ("0.0.0.1", Reply::refused(207)),
        ("127.255.255.255", Reply::refused(207)),
    ] {
        checks.same(mask, model(ip(mask)), reply);
    }
}

/// A 10.1.0.5 with a mask in place of the prefix, on the empty state.
fn requests(checks: &mut Checks) {
    let request = address("10.1.0.5/24").words();
    let case = Case::new(Call::AddV4 { request, now: 0 }, words::empty());
    let masked = |mask: &str| {
        let call = with_word(&case.call, ip(mask));
        effect(
            &mut Bytes(Masked),
            &Case {
                call,
                ..case.clone()
            },
        )
    };
    let refused = Effect {
        reply: Reply::refused(BAD_MASK),
        state: bytes(&case.state),
        buffer: bytes(&case.buffer),
    };
    for mask in ["255.0.255.0", "255.255.255.1"] {
        checks.same(
            &format!("P14 {mask} is 207, and every word stays"),
            masked(mask) == refused,
            true,
        );
    }
    checks.same(
        "P14 255.255.255.0 does what 24 does",
        masked("255.255.255.0") == expected(&case),
        true,
    );
}
