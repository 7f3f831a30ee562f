//! Whether a call's arguments are fit (else 202), lifetimes that Linux turns
//! down (22), and the request that the Rust then gets.
use crate::call::Call;
use crate::model::{INVALID, UNFIT_REQUEST};
use crate::well_formed::{byte, label, optional};
use reference::Request;

/// The greatest allowance that `expire` takes, a second (document 02,
/// Paper 7). Its clock and its allowance together are at most the greatest
/// 64-bit number.
pub const ALLOWANCE_LIMIT: u64 = 1_000_000_000;
/// The greatest error number that asm-generic has.
pub const ERROR_LIMIT: u32 = 133;
pub const METRICS: u32 = 17;

/// The request, or the number that refuses it. Lengths are right, a handed
/// row is fit.
pub fn request(call: &Call) -> Result<Request<'_>, u32> {
    if !fits(call) {
        return Err(UNFIT_REQUEST);
    }
    match call {
        Call::AddV4 { request, .. } if !lasts(request) => Err(INVALID),
        _ => Ok(typed(call)),
    }
}

/// Whether each field keeps to its range.
pub fn fits(call: &Call) -> bool {
    match call {
        Call::AddV4 { request, .. } => add_v4(request),
        Call::DelV4 { request } => del_v4(request),
        Call::AddRoute4 { request } => add_route4(request),
        Call::DelRoute4 { request } => del_route4(request),
        Call::Expire { now, allowance } => {
            *allowance <= ALLOWANCE_LIMIT && now.checked_add(*allowance).is_some()
        }
        Call::Lookup4Flow { tos, .. } => byte(*tos),
        Call::Select4 {
            present,
            dst,
            scope,
        } => optional(*present, *dst) && byte(*scope),
        _ => true,
    }
}

/// Document 02, Paper 2: Linux refuses valid 0, and preferred above valid.
fn lasts(w: &[u32]) -> bool {
    let [valid, preferred] = [w[14], w[15]];
    valid != 0 && preferred <= valid
}

fn add_v4(w: &[u32]) -> bool {
    w[2] <= 32
        && optional(w[3], w[4])
        && byte(w[5])
        && byte(w[7])
        && label(w[8], &w[9..13])
        && one_bit(&w[16..18])
}

fn del_v4(w: &[u32]) -> bool {
    w[4] <= 32
        && optional(w[0], w[1])
        && optional(w[2], w[3])
        && one_bit(&w[5..6])
        && label(w[6], &w[7..11])
        && (w[5] == 1 || w[6] == 0)
}

/// The first twelve words of a request to add or delete a route.
fn route(w: &[u32]) -> bool {
    [w[2], w[3], w[5], w[6], w[7]].iter().all(|&x| byte(x))
        && optional(w[8], w[9])
        && optional(w[10], w[11])
}

fn add_route4(w: &[u32]) -> bool {
    route(w) && w[14] < 65_536 && w[15] <= ERROR_LIMIT && one_bit(&w[33..])
}

/// An absent list has no pairs; pairs past the count aren't looked at.
fn del_route4(w: &[u32]) -> bool {
    route(w)
        && one_bit(&w[13..14])
        && w[14] <= METRICS
        && (w[13] == 1 || w[14] == 0)
        && (0..w[14] as usize).all(|i| w[15 + 2 * i] < METRICS)
}

fn one_bit(words: &[u32]) -> bool {
    words.iter().all(|&w| w <= 1)
}

fn array<const N: usize>(words: &[u32]) -> &[u32; N] {
    words.try_into().expect("lengths were checked")
}

/// What the Rust gets, fit or not.
pub fn typed(call: &Call) -> Request<'_> {
    match call {
        Call::Up { now } => Request::Up { now: *now },
        Call::Down => Request::Down,
        Call::AddV4 { request, now } => Request::AddV4 {
            request: array(request),
            now: *now,
        },
        Call::DelV4 { request } => Request::DelV4 {
            request: array(request),
        },
        Call::Expire { now, allowance } => Request::Expire {
            now: *now,
            allowance: *allowance,
        },
        Call::AddRoute4 { request } => Request::AddRoute4 {
            request: array(request),
        },
        Call::DelRoute4 { request } => Request::DelRoute4 {
            request: array(request),
        },
        Call::Dump4 => Request::Dump4,
        Call::Lookup4 { ip } => Request::Lookup4 { ip: *ip },
        Call::Lookup4Flow { ip, tos, oif } => Request::Lookup4Flow {
            ip: *ip,
            tos: *tos as u8,
            oif: *oif,
        },
        Call::Local4 { ip } => Request::Local4 { ip: *ip },
        Call::Source4 { row, ip } => Request::Source4 {
            row: array(row),
            ip: *ip,
        },
        Call::Source { ip } => Request::Source { ip: *ip },
        Call::Select4 {
            present,
            dst,
            scope,
        } => Request::Select4 {
            dst: (*present == 1).then_some(*dst),
            scope: *scope as u8,
        },
        Call::Left { row, now } => Request::Left {
            row: array(row),
            now: *now,
        },
    }
}
