//! Requests to add and delete routes, drawn with an eye on the rows that
//! are there.
use super::calls::{Host, destination, some_address, some_route};
use super::pools;
use crate::call::Call;
use crate::rng::Rng;
use reference::{Lists, RouteRow};

/// The first twelve words of a route request: a row that is there with one
/// field changed or none, or fields of the pools.
fn route_words(rng: &mut Rng, lists: &Lists) -> [u32; 12] {
    let mut w = [0; 12];
    if let Some(row) = some_route(rng, lists).filter(|_| rng.one_in(3)) {
        w.copy_from_slice(&row[..12]);
        match rng.below(10) {
            0 => w[0] = rng.pick(&pools::TABLES),
            1 => w[3] = rng.pick(&pools::TOS),
            2 => w[4] = rng.pick(&pools::PRIORITIES),
            3 => w[5] = rng.pick(&pools::KINDS),
            4 => w[6] = rng.pick(&pools::PROTOS),
            5 => w[7] = rng.pick(&pools::SCOPES),
            6 => w[8..10].copy_from_slice(&maybe_address(rng, lists)),
            7 => w[10..12].copy_from_slice(&maybe_address(rng, lists)),
            _ => {}
        }
        return w;
    }
    w[0] = rng.pick(&pools::TABLES);
    w[2] = rng.pick(&pools::PREFIXES);
    w[1] = pools::address(rng) & pools::mask(w[2]);
    match rng.below(40) {
        0 => w[2] = rng.pick(&[33, 64, 255]),
        1 => w[1] |= 1,
        _ => {}
    }
    w[3] = rng.pick(&pools::TOS);
    w[4] = rng.pick(&pools::PRIORITIES);
    w[5] = match rng.below(12) {
        0 => rng.pick(&[0, 4, 5, 10, 11, 12, 255]),
        1..6 => 1,
        _ => rng.pick(&pools::KINDS),
    };
    w[6] = rng.pick(&pools::PROTOS);
    w[7] = match w[5] {
        2 if !rng.one_in(6) => 254,
        3 if !rng.one_in(6) => 253,
        1 if !rng.one_in(3) => rng.pick(&[0, 0, 253]),
        _ => rng.pick(&pools::SCOPES),
    };
    if rng.one_in(3) {
        w[8..10].copy_from_slice(&maybe_address(rng, lists));
        if w[5] == 2 && rng.one_in(4) {
            w[9] = w[8] * w[1];
        }
    }
    if w[5] == 1 && rng.one_in(2) {
        w[0] = rng.pick(&[254, 254, 253, 253, 255, 100, 0]);
        w[7] = rng.pick(&[0, 0, 0, 0, 1, 200, 252, 253, 254]);
        gateway(rng, lists, &mut w);
    } else if rng.one_in(12) {
        w[10..12].copy_from_slice(&maybe_address(rng, lists));
    }
    w
}

/// A gateway that a row of a narrower scope reaches, or one that rejects, if
/// there is one, often with the row's own table.
fn gateway(rng: &mut Rng, lists: &Lists, w: &mut [u32; 12]) {
    let met = |r: &&RouteRow| r[7] > w[7] || r[5] >= 6;
    let near: Vec<&RouteRow> = lists.routes.iter().filter(met).collect();
    if near.is_empty() || rng.one_in(5) {
        w[10..].copy_from_slice(&maybe_address(rng, lists));
        return;
    }
    let row = near[rng.below(near.len())];
    if rng.one_in(2) {
        w[0] = row[0];
    }
    w[10..].copy_from_slice(&[1, row[1] | (rng.pick(&[0, 1, 5]) & !pools::mask(row[2]))]);
}

fn maybe_address(rng: &mut Rng, lists: &Lists) -> [u32; 2] {
    if rng.one_in(6) {
        return [0, 0];
    }
    match some_address(rng, lists).filter(|_| rng.one_in(2)) {
        Some(a) => [1, a[0]],
        None => [1, destination(rng, lists)],
    }
}

/// A request with a gateway, in which little else is amiss.
fn routed(rng: &mut Rng, lists: &Lists) -> Call {
    let mut w = [0; 12];
    w[0] = rng.pick(&[254, 253, 255, 100, 0]);
    w[2] = rng.pick(&pools::PREFIXES);
    w[1] = pools::address(rng) & pools::mask(w[2]);
    w[4] = rng.pick(&pools::PRIORITIES);
    w[5] = 1;
    w[7] = rng.pick(&[0, 0, 0, 200, 252]);
    gateway(rng, lists, &mut w);
    let mut request = w.to_vec();
    request.extend([
        rng.pick(&[1, 1, 1, 0, 0, 2]),
        rng.pick(&[0, 0, 0, 4]),
        0x400,
    ]);
    request.resize(33, 0);
    request.push(u32::from(!rng.one_in(8)));
    Call::AddRoute4 { request }
}

/// The route of a row asked for again, with what it has.
pub fn again(rng: &mut Rng, row: &RouteRow) -> Call {
    let mut request = row[..12].to_vec();
    request.extend([
        row[12],
        4 * row[13],
        rng.pick(&[0x500, 0x500, 0x400, 0xc00]),
    ]);
    request.push(0);
    request.extend(&row[15..]);
    request.push(1);
    Call::AddRoute4 { request }
}

pub fn add_route4(rng: &mut Rng, lists: &Lists, host: &Host) -> Call {
    if rng.one_in(6) {
        return routed(rng, lists);
    }
    let mut w = vec![0; 34];
    w[..12].copy_from_slice(&route_words(rng, lists));
    let rejects = (6..=9).contains(&w[5]);
    w[12] = match rng.below(10) {
        0 => rng.pick(&[0, 1, 2]),
        1 | 2 if w[10] == 1 => rng.pick(&[0, 0, 2]),
        _ => u32::from(!rejects),
    };
    w[13] = match rng.below(8) {
        0 => rng.pick(&[1, 0x10, 2, 8, 0x20, 0xffff_ffff, 0xffff_ffee]),
        1 => 4,
        _ if w[10] == 1 && rng.one_in(4) => 4,
        _ => 0,
    };
    // every combination of replace, excl, create and append
    w[14] = (rng.below(16) as u32) << 8 | rng.pick(&[0, 1, 5]);
    if rng.one_in(2) {
        w[14] |= 0x400;
        w[14] &= !0x200;
    }
    if rng.one_in(20) {
        w[15] = rng.pick(&[1, 22, 133, 95, 17]);
    }
    w[16..33].copy_from_slice(&pools::metrics(rng));
    if let Some(row) = some_route(rng, lists).filter(|_| rng.one_in(5)) {
        // the very row that is there, or one with other metrics
        w[..12].copy_from_slice(&row[..12]);
        w[12] = row[12];
        w[13] = 4 * row[13];
        w[16..33].copy_from_slice(&row[15..32]);
        w[16 + rng.below(17)] ^= u32::from(rng.one_in(4));
    }
    w[33] = u32::from(host.up ^ rng.one_in(10));
    Call::AddRoute4 { request: w }
}

pub fn del_route4(rng: &mut Rng, lists: &Lists) -> Call {
    let mut w = vec![0; 49];
    w[..12].copy_from_slice(&route_words(rng, lists));
    w[13] = 1;
    if let Some(row) = some_route(rng, lists).filter(|_| !rng.one_in(4)) {
        w[..12].copy_from_slice(&row[..12]);
        if rng.one_in(3) {
            // as much of the metrics as a request may name
            w[14] = 2;
            w[15..19].copy_from_slice(&[1, row[16], 16, row[31] ^ rng.pick(&[0, 0, 1])]);
        }
    }
    if w[0] == 254 && rng.one_in(3) {
        w[0] = 0;
    }
    for (at, wild) in [(5, 0), (6, 0), (7, 255)] {
        if rng.one_in(2) {
            w[at] = wild;
        }
    }
    for at in [8, 10] {
        if rng.one_in(2) {
            w[at..at + 2].fill(0);
        }
    }
    if rng.one_in(6) {
        w[4] = rng.pick(&pools::PRIORITIES);
    }
    w[12] = rng.pick(&[0, 0, 0, 0, 1, 1, 1, 2]);
    if rng.one_in(12) {
        w[13] = 0;
        w[14] = 0;
    }
    if rng.one_in(10) {
        // not looked at
        w[47..].copy_from_slice(&[99, 7]);
    }
    Call::DelRoute4 { request: w }
}
