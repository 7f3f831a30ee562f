//! Well-formed states made directly, also ones that no run reaches: rows
//! of unlisted tables, table 0 listed or in rows, equal address rows,
//! secondaries before their primary or with none, an address row of zeros.
use super::calls::{self, Host};
use super::pools::{self, FOREVER};
use crate::compare::filled;
use crate::model::model;
use crate::rng::Rng;
use crate::well_formed;
use crate::words::{self, ADDRESS_LIMIT, ROUTE_LIMIT, TABLE_LIMIT};
use reference::{AddressRow, Lists, RouteRow};
use std::cmp::Reverse;

/// An address row that could stand in a well-formed state.
pub fn address(rng: &mut Rng) -> AddressRow {
    let mut row = [0; 20];
    if rng.one_in(25) {
        return row;
    }
    row[..3].copy_from_slice(&pools::subnet(rng));
    if rng.one_in(4) {
        row[3] = 1;
        let named = pools::address(rng);
        row[4] = rng.pick(&[row[1] | !pools::mask(row[2]), named, 0]);
    }
    row[5] = rng.pick(&pools::SCOPES);
    row[6] = rng.pick(&[
        0, 0, 0x80, 0x80, 0x01, 0x81, 0x20, 0x21, 0x200, 0x280, FOREVER,
    ]);
    row[7] = rng.pick(&pools::PROTOS);
    row[8..13].copy_from_slice(&pools::label(rng));
    row[13] = rng.pick(&pools::PRIORITIES);
    row[14] = rng.pick(&pools::LIVES);
    row[15] = rng.pick(&pools::LIVES);
    let far = if rng.one_in(10) { u64::MAX } else { 1 << 34 };
    for at in [16, 18] {
        let stamp = rng.draw() % far;
        row[at] = stamp as u32;
        row[at + 1] = (stamp >> 32) as u32;
    }
    row
}

/// A route row that could stand in a well-formed state.
pub fn route(rng: &mut Rng) -> RouteRow {
    let mut row = [0; 32];
    row[0] = rng.pick(&pools::TABLES);
    row[2] = rng.pick(&pools::PREFIXES);
    row[1] = pools::address(rng) & pools::mask(row[2]);
    row[3] = rng.pick(&pools::TOS);
    row[4] = rng.pick(&pools::PRIORITIES);
    row[5] = rng.pick(&pools::KINDS);
    row[6] = rng.pick(&pools::PROTOS);
    row[7] = rng.pick(&pools::SCOPES);
    for at in [8, 10] {
        if rng.one_in(2) {
            row[at] = 1;
            row[at + 1] = pools::address(rng);
        }
    }
    row[12] = u32::from(!rng.one_in(4));
    row[13] = u32::from(rng.one_in(4));
    row[14] = u32::from(rng.one_in(4));
    row[15..].copy_from_slice(&pools::metrics(rng));
    row
}

/// Puts routes in order and drops equal ones. Alike rows stay as drawn.
pub fn arrange(routes: &mut Vec<RouteRow>) {
    let mut kept: Vec<RouteRow> = Vec::new();
    for row in routes.drain(..) {
        if !kept.contains(&row) {
            kept.push(row);
        }
    }
    kept.sort_by_key(|r| (r[1], Reverse(r[2]), Reverse(r[0]), Reverse(r[3]), r[4]));
    *routes = kept;
}

/// How long each list of a state shall be, at most.
#[derive(Clone, Copy, Debug)]
pub struct Sizes {
    pub addresses: usize,
    pub routes: usize,
    pub tables: usize,
}

impl Sizes {
    pub fn small(rng: &mut Rng) -> Self {
        Self {
            addresses: rng.below(6),
            routes: rng.below(9),
            tables: rng.below(6),
        }
    }
    pub fn any(rng: &mut Rng) -> Self {
        Self {
            addresses: rng.below(ADDRESS_LIMIT + 1),
            routes: rng.below(ROUTE_LIMIT + 1),
            tables: rng.below(TABLE_LIMIT + 1),
        }
    }
}

/// Lists made directly.
pub fn direct(rng: &mut Rng, sizes: Sizes) -> Lists {
    let mut lists = Lists::default();
    for _ in 0..sizes.addresses {
        let row = address(rng);
        lists.addresses.push(row);
        if rng.one_in(12) && lists.addresses.len() < sizes.addresses {
            lists.addresses.push(row);
        }
    }
    lists.addresses.truncate(sizes.addresses);
    for _ in 0..sizes.routes {
        let row = match (lists.routes.last(), lists.addresses.last()) {
            (Some(last), _) if rng.one_in(3) => sibling(rng, last),
            // near what the kernel makes for an address
            (_, Some(a)) if rng.one_in(3) => kernel_like(rng, a),
            _ if rng.one_in(2) => made_like(rng),
            _ => route(rng),
        };
        lists.routes.push(row);
    }
    arrange(&mut lists.routes);
    let wanted = [255, 254, 253, 100, 0];
    for _ in 0..sizes.tables {
        let table = match rng.below(3) {
            0 => rng.pick(&pools::TABLES),
            1 => rng.pick(&wanted),
            _ => rng.below(600) as u32,
        };
        if !lists.tables.contains(&table) {
            lists.tables.push(table);
        }
    }
    lists
}

/// A row as a request could have made it.
fn made_like(rng: &mut Rng) -> RouteRow {
    let mut row = route(rng);
    row[0] = rng.pick(&[254, 254, 253, 253, 255, 100]);
    row[5] = rng.pick(&[1, 1, 1, 2, 6]);
    row[7] = match row[5] {
        2 => 254,
        6 => 0,
        _ => rng.pick(&[0, 253, 253, 200]),
    };
    row[8..12].fill(0);
    row[12] = u32::from(row[5] != 6);
    row[13..15].fill(0);
    row
}

/// A row that differs in one field, mostly one that the order leaves out.
fn sibling(rng: &mut Rng, row: &RouteRow) -> RouteRow {
    let other = route(rng);
    let mut row = *row;
    match rng.below(12) {
        0 => row[0] = other[0],
        1 => row[3] = other[3],
        2 => row[4] = other[4],
        3 => row[5] = other[5],
        4 => row[6] = other[6],
        5 => row[7] = other[7],
        6 => row[8..10].copy_from_slice(&other[8..10]),
        7 => row[10..12].copy_from_slice(&other[10..12]),
        8 => row[12] ^= 1,
        9 => row[13] ^= 1,
        10 => row[14] ^= 1,
        _ => row[15 + rng.below(17)] ^= 1,
    }
    row
}

fn kernel_like(rng: &mut Rng, a: &AddressRow) -> RouteRow {
    let mut row = [0; 32];
    row[0] = 255;
    row[5..9].copy_from_slice(&[2, 2, 254, 1]);
    row[9] = a[0];
    row[12] = 1;
    match rng.below(3) {
        0 => row[1..3].copy_from_slice(&[a[0], 32]),
        1 => {
            row[1..3].copy_from_slice(&[a[1] & pools::mask(a[2]), a[2]]);
            row[4] = rng.pick(&[a[13], 0]);
        }
        _ => {
            row[1..3].copy_from_slice(&[a[1] | !pools::mask(a[2]), 32]);
            row[5] = 3;
            row[7] = 253;
        }
    }
    if rng.one_in(4) {
        sibling(rng, &row)
    } else {
        row
    }
}

/// A state that some calls from empty led to.
pub fn reached(rng: &mut Rng, calls: usize) -> (Vec<u32>, Host) {
    let mut state = words::empty();
    let mut host = Host::default();
    for _ in 0..calls {
        let call = calls::any(rng, &words::decode(&state), &mut host);
        let mut buffer = filled(call.buffer().least());
        model(&call, &mut state, &mut buffer);
    }
    (state, host)
}

/// The words of lists that must be well-formed.
pub fn encoded(lists: &Lists) -> Vec<u32> {
    let state = words::encode(lists);
    assert!(well_formed::state(&state), "made a state that isn't fit");
    state
}
