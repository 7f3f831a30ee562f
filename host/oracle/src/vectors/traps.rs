//! Calls that begin the list, and what a random call seldom meets.
use crate::call::Call;
use crate::generate::states;
use crate::script::{self, NewAddress, Route};
use crate::words;
use reference::{AddressRow, Lists, RouteRow};

/// A state and the calls on it, one after the other.
pub type Sequence = (Vec<u32>, Vec<Call>);

pub fn all() -> Vec<Sequence> {
    let mut sequences = vec![
        (words::empty(), first()),
        (words::empty(), gateways()),
        (words::empty(), forever()),
        (words::empty(), lifetimes()),
        before_its_primary(),
    ];
    for routes in 252..=256 {
        let state = many_routes(routes);
        sequences.push((state.clone(), vec![Call::Up { now: 0 }]));
        let request = script::address("10.1.0.5/24").up().words();
        sequences.push((state, vec![Call::AddV4 { request, now: 0 }]));
    }
    // 22 comes before 203
    let ends = NewAddress {
        valid: 1,
        preferred: 2,
        ..script::address("10.1.0.5/24").up()
    };
    let request = ends.words();
    sequences.push((many_routes(256), vec![Call::AddV4 { request, now: 0 }]));
    sequences
}

/// Document 01's first example, then each kind that rejects, in both sets of
/// tables: met by a lookup, by a flow and by a gateway's lookup; a deletion
/// that is refused.
fn first() -> Vec<Call> {
    let mut calls = vec![Call::Up { now: 0 }, Call::Up { now: 1 }, Call::Dump4];
    for (kind, dst) in [(6, "10.6.0.0/16"), (7, "10.7.0.0/16"), (8, "10.8.0.0/16")] {
        for table in [254, 253] {
            let mut ask = script::route(dst).rejecting(kind);
            ask.table = table;
            ask.dst += 254 - table;
            ask.len = 32;
            let (ip, tos, oif) = (ask.dst, 0, 1);
            let mut by = script::route("10.200.0.0/24").up();
            by.scope = 0;
            by.gateway = Some(ip);
            calls.extend([
                add(ask),
                Call::Lookup4 { ip },
                Call::Lookup4Flow { ip, tos, oif },
                add(by),
            ]);
        }
    }
    let ip = script::ip("10.9.0.1");
    calls.extend([
        add(script::route("10.0.0.0/8").rejecting(9)),
        Call::Lookup4 { ip },
        // bits outside its length
        Call::DelRoute4 {
            request: script::any("10.2.0.1/24").deleting(),
        },
    ]);
    calls
}

fn add(route: Route) -> Call {
    let request = route.adding();
    Call::AddRoute4 { request }
}

/// A gateway has to lie behind a route of greater scope than its own.
fn gateways() -> Vec<Call> {
    let mut calls = Vec::new();
    for (i, near) in [0, 200, 253, 254, 255].into_iter().enumerate() {
        let i = i as u32;
        let mut to = script::route("10.2.0.0/16").up();
        to.dst += i << 16;
        to.scope = near;
        calls.push(add(to));
        for scope in [0, 199, 200, 252, 253] {
            let mut by = script::route("10.100.0.0/24").up();
            by.dst += (i << 16) + (scope << 8);
            by.scope = scope;
            by.gateway = Some(to.dst + 1);
            calls.push(add(by));
        }
    }
    calls
}

/// Lifetimes that never end leave the stored seconds; the third is refused.
fn forever() -> Vec<Call> {
    let some = NewAddress {
        valid: 10,
        preferred: 5,
        replace: true,
        ..script::address("10.1.0.5/24").up()
    };
    let request = |valid, preferred| {
        let new = NewAddress {
            valid,
            preferred,
            ..some
        };
        new.words()
    };
    let lifetimes = [
        (10, 5),
        (script::FOREVER, 7),
        (9, script::FOREVER),
        (script::FOREVER, script::FOREVER),
        (4, 4),
    ];
    let at = |(now, (valid, preferred))| Call::AddV4 {
        request: request(valid, preferred),
        now,
    };
    (1..).zip(lifetimes).map(at).collect()
}

/// Both sides of what Linux turns down, of an address that isn't there and of
/// one that is, unfit and replacing.
fn lifetimes() -> Vec<Call> {
    let mut calls = Vec::new();
    for replace in [false, true] {
        for prefix in [33, 24] {
            for (valid, preferred) in [(0, 0), (0, 1), (1, 0), (1, 1), (1, 2), (9, script::FOREVER)]
            {
                let new = NewAddress {
                    valid,
                    preferred,
                    prefix,
                    replace,
                    ..script::address("10.1.0.5/24").up()
                };
                let request = new.words();
                calls.push(Call::AddV4 { request, now: 0 });
            }
        }
    }
    calls
}

/// A secondary that stands before its primary goes with it, and the addresses
/// behind them are met all the same.
fn before_its_primary() -> Sequence {
    let row = |local: &str, flags, valid| {
        let mut row: AddressRow = [0; 20];
        let (local, prefix) = script::net(local);
        row[..3].copy_from_slice(&[local, local, prefix]);
        row[6] = flags;
        row[14..16].copy_from_slice(&[valid, valid]);
        row
    };
    let lists = Lists {
        addresses: vec![
            row("10.1.0.6/24", 1, 1000),
            row("10.1.0.5/24", 0, 1),
            row("10.2.0.5/24", 0, 1),
        ],
        ..Lists::default()
    };
    let expire = Call::Expire {
        now: 5_000_000_000,
        allowance: reference::FUZZ,
    };
    (states::encoded(&lists), vec![expire])
}

/// As many routes of a private table.
pub fn many_routes(count: u32) -> Vec<u32> {
    let route = |i: u32| {
        let mut row: RouteRow = [0; 32];
        row[..3].copy_from_slice(&[100, 0x0900_0000 + (i << 8), 24]);
        row[5] = 6;
        row
    };
    states::encoded(&Lists {
        routes: (0..count).map(route).collect(),
        tables: vec![100],
        ..Lists::default()
    })
}
