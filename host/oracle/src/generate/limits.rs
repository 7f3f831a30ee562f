//! States at and near the limits, for 203 and for what must not be 203.
use super::calls::{self, Host};
use super::pools;
use super::states::{self, Sizes, arrange};
use crate::call::Call;
use crate::rng::Rng;
use crate::words::{self, LIMITS};
use reference::{Lists, RouteRow};

/// A state with at least one list near its limit, and a call on it.
pub fn near(rng: &mut Rng) -> (Vec<u32>, Call) {
    if rng.one_in(8) {
        return heavy(rng);
    }
    let (lists, mut host) = full(rng);
    let call = call_on(rng, &lists, &mut host);
    (states::encoded(&lists), call)
}

/// A call that is likely to need room.
pub fn call_on(rng: &mut Rng, lists: &Lists, host: &mut Host) -> Call {
    let code = rng.pick(&[1, 1, 3, 3, 3, 3, 6, 6, 6, 6, 5, 4, 2, 7, 8, 9]);
    let mut call = calls::of_kind(rng, code, lists, host);
    press(rng, lists, &mut call);
    call
}

/// Lists of which at least one is near its limit.
pub fn full(rng: &mut Rng) -> (Lists, Host) {
    let mut host = Host {
        now: 5 * pools::SECOND,
        up: true,
    };
    let mut lists = if rng.one_in(2) {
        let count = rng.below(30);
        let (state, reached) = states::reached(rng, count);
        host = reached;
        words::decode(&state)
    } else {
        let sizes = Sizes::small(rng);
        states::direct(rng, sizes)
    };
    host.up |= rng.one_in(2);
    let which = 1 + rng.below(7);
    if which & 1 != 0 {
        fill_addresses(rng, &mut lists);
    }
    if which & 2 != 0 {
        fill_routes(rng, &mut lists);
    }
    if which & 4 != 0 {
        fill_tables(rng, &mut lists);
    }
    (lists, host)
}

/// Makes the call more likely to need room, or to just not need it.
fn press(rng: &mut Rng, lists: &Lists, call: &mut Call) {
    match call {
        Call::AddV4 { request, .. } if rng.one_in(3) && !lists.addresses.is_empty() => {
            // a change of priority of an address that is there
            let old = lists.addresses[rng.below(lists.addresses.len())];
            request[..3].copy_from_slice(&old[..3]);
            request[13] = rng.pick(&[5, 7, 0]);
            request[16] = 1;
            request[17] = 1;
        }
        Call::AddRoute4 { request } if rng.one_in(3) => {
            request[0] = rng.pick(&[255, 254, 253, 2000, 2001]);
        }
        _ => {}
    }
}

fn fill_addresses(rng: &mut Rng, lists: &mut Lists) {
    let wanted = LIMITS[0] - rng.pick(&[0, 0, 1, 1, 2]);
    let prefix = rng.pick(&[32, 24, 31]);
    for i in 0.. {
        if lists.addresses.len() >= wanted {
            break;
        }
        let mut row = [0; 20];
        row[0] = 0x0c00_0001 + (i << 8);
        row[1] = row[0];
        row[2] = prefix;
        row[6] = rng.pick(&[0x80, 0x80, 0, 0x280]);
        row[14..16].copy_from_slice(&[10, 5]);
        row[8..10].copy_from_slice(&[2, 0x6f6c]);
        row[13] = rng.pick(&[0, 0, 5]);
        lists.addresses.push(row);
    }
    lists.addresses.truncate(wanted);
}

fn fill_routes(rng: &mut Rng, lists: &mut Lists) {
    let wanted = LIMITS[1] - rng.pick(&[0, 0, 0, 1, 1, 2, 3, 4, 5]);
    let table = rng.pick(&[254, 255, 100, 9]);
    let kind = rng.pick(&[1, 6]);
    for i in 0.. {
        if lists.routes.len() >= wanted {
            break;
        }
        let mut row: RouteRow = [0; 32];
        row[..3].copy_from_slice(&[table, 0x0b00_0000 + (i << 8), 24]);
        row[5] = kind;
        row[7] = rng.pick(&[0, 253, 254]);
        row[12] = u32::from(kind == 1);
        lists.routes.push(row);
    }
    lists.routes.truncate(wanted);
    arrange(&mut lists.routes);
}

fn fill_tables(rng: &mut Rng, lists: &mut Lists) {
    let wanted = LIMITS[2] - rng.pick(&[0, 0, 1, 1, 2, 3]);
    if rng.one_in(2) {
        lists.tables.retain(|&t| t != rng.pick(&[254, 255]));
    }
    for i in 0.. {
        if lists.tables.len() >= wanted {
            break;
        }
        lists.tables.push(1000 + i);
    }
    lists.tables.truncate(wanted);
}

/// A removal that tells of many rows: up to 64 addresses of few subnets,
/// with lifetimes that end together, kernel routes, and main routes with
/// their prefsrc.
fn heavy(rng: &mut Rng) -> (Vec<u32>, Call) {
    let mut lists = Lists {
        tables: vec![254, 255],
        ..Lists::default()
    };
    let subnets = 1 + rng.below(3) as u32;
    let shared = rng.one_in(2);
    for i in 0..64 - rng.below(3) as u32 {
        let mut row = [0; 20];
        row[0] = 0x0c00_0001 + ((i % subnets) << 8) + i;
        row[1] = row[0];
        row[2] = 24;
        row[6] = u32::from(i >= subnets || (shared && i + 1 < subnets));
        // the last one, or each, is due at two seconds
        row[14] = if shared { rng.pick(&[100, 1]) } else { 1 };
        row[15] = rng.pick(&[1, 1, 1, 100]);
        lists.addresses.push(row);
    }
    if rng.one_in(2) {
        lists.addresses.reverse();
    }
    let sources: Vec<u32> = lists.addresses.iter().map(|a| a[0]).collect();
    let source = rng.pick(&sources);
    for i in 0..256 - rng.below(4) as u32 {
        let mut row: RouteRow = [0; 32];
        if let Some(local) = sources.get(i as usize).filter(|_| i % 4 < 3) {
            row[..8].copy_from_slice(&[255, *local, 32, 0, 0, 2, 2, 254]);
            row[8..10].copy_from_slice(&[1, rng.pick(&[*local, source])]);
        } else {
            row[..8].copy_from_slice(&[254, 0x0b00_0000 + (i << 8), 24, 0, 0, 1, 3, 253]);
            row[8..10].copy_from_slice(&[1, rng.pick(&[source, source, sources[0]])]);
        }
        row[12] = 1;
        lists.routes.push(row);
    }
    arrange(&mut lists.routes);
    let call = if rng.one_in(3) {
        let mut request = vec![0; 11];
        request[..2].copy_from_slice(&[1, source]);
        Call::DelV4 { request }
    } else {
        Call::Expire {
            now: 2 * pools::SECOND,
            allowance: pools::allowance(rng),
        }
    };
    (states::encoded(&lists), call)
}
