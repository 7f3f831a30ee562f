//! Every example under 'Legs flown by hand' in document 01, on the Rust.
use crate::call::{Call, Reply};
use crate::checks::{Checks, lines};
use crate::script::{NewAddress, Route, Script, address, ip, route};
use crate::words::{self, encode};
use reference::Lists;
use std::net::Ipv4Addr;

pub fn check(checks: &mut Checks) {
    masks(checks);
    kinds(checks);
    up(checks);
    two_addresses(checks);
    lifetimes(checks);
    lookups(checks);
    new_primaries(checks);
    refusals(checks);
    printing(checks);
}

fn masks(checks: &mut Checks) {
    for (prefix, mask) in [(0, 0), (1, 2_147_483_648), (32, 4_294_967_295)] {
        checks.same(
            &format!("+ mask of {prefix}"),
            reference::mask(prefix),
            mask,
        );
    }
    let defined =
        (0..=32u8).all(|p| u64::from(reference::mask(p)) == (1u64 << 32) - (1 << (32 - p)));
    checks.same("mask of p is 2^32 - 2^(32 - p)", defined, true);
}

/// Port order 3 and 7.
fn kinds(checks: &mut Checks) {
    let found: Vec<_> = (0..=255u8)
        .filter_map(|code| reference::kind_error(code).map(|e| (code, e.unwrap_or(0))))
        .collect();
    let expected = vec![(1, 0), (2, 0), (3, 0), (6, 22), (7, 113), (8, 13), (9, 11)];
    checks.same("kinds and their errors", found, expected);
    let least = [255, 0, 254, 253, 253, 0, 0, 0, 0, 0, 255, 255];
    // a metrics error comes right after the scope's
    let passes = |kind, scope| {
        let ask = Route {
            kind,
            scope,
            error: 133,
            ..route("10.2.0.0/24")
        };
        Script::default().add_route(ask).reply.number == 133
    };
    let others = (0..=255u32).filter(|&kind| {
        let scope = least.get(kind as usize).copied().unwrap_or(0);
        !passes(kind, scope) || (scope > 0 && passes(kind, scope - 1))
    });
    let others: Vec<u32> = others.collect();
    checks.same("kind codes with another least scope", others, vec![]);
}

fn up(checks: &mut Checks) {
    let mut s = Script::default();
    let told = s.up(0);
    checks.same(
        "+ up on empty: events",
        told.text,
        lines(&[
            "NewAddr4 127.0.0.1/8",
            "NewRoute4 0x600 255 127.0.0.1/32 kind 2 from 127.0.0.1",
            "NewRoute4 0x600 255 127.0.0.0/8 kind 2 from 127.0.0.1",
            "NewRoute4 0x600 255 127.255.255.255/32 kind 3 from 127.0.0.1",
        ]),
    );
    checks.same("+ up on empty: tables", s.tables(), vec![254, 255]);
    let before = s.state.clone();
    checks.same("+ up again: no event", s.up(1).reply, Reply::default());
    checks.same("+ up again: same state", s.state == before, true);
    let told = s.lookup("127.5.6.7");
    checks.same("+ lookup 127.5.6.7: number", told.reply, Reply::default());
    checks.same(
        "+ lookup 127.5.6.7: row",
        told.text,
        lines(&["255 127.0.0.0/8 kind 2 from 127.0.0.1"]),
    );
    let row = told.written;
    let source = s.call(Call::Source4 {
        row,
        ip: ip("127.5.6.7"),
    });
    let localhost = ip("127.0.0.1");
    checks.same(
        "+ source of 127.5.6.7",
        (source.reply.present, source.reply.value),
        (1, localhost),
    );
    let source = |s: &mut Script, to| s.call(Call::Source { ip: ip(to) }).reply;
    checks.same(
        "+ source call, 127.5.6.7",
        source(&mut s, "127.5.6.7"),
        Reply::value(localhost),
    );
    checks.same(
        "+ lookup 10.0.0.1",
        s.lookup("10.0.0.1").reply,
        Reply::refused(101),
    );
    checks.same(
        "+ source call, 10.0.0.1",
        source(&mut s, "10.0.0.1"),
        Reply::value(localhost),
    );
}

fn two_addresses(checks: &mut Checks) {
    let mut s = Script::default();
    s.up(0);
    checks.same(
        "+ add 10.1.0.5/24",
        s.add(address("10.1.0.5/24").up()).text,
        lines(&[
            "NewAddr4 10.1.0.5/24",
            "NewRoute4 0x600 255 10.1.0.5/32 kind 2 from 10.1.0.5",
            "NewRoute4 0x600 255 10.1.0.0/24 kind 2 from 10.1.0.5",
            "NewRoute4 0x600 255 10.1.0.255/32 kind 3 from 10.1.0.5",
        ]),
    );
    checks.same(
        "+ add 10.1.0.6/24",
        s.add(address("10.1.0.6/24").up()).text,
        lines(&[
            "NewAddr4 10.1.0.6/24 secondary",
            "NewRoute4 0x600 255 10.1.0.6/32 kind 2 from 10.1.0.5",
        ]),
    );
    checks.same(
        "+ delete 10.1.0.5",
        s.del("10.1.0.5").text,
        lines(&[
            "DelAddr4 10.1.0.6/24 secondary",
            "DelRoute4 255 10.1.0.6/32 kind 2 from 10.1.0.5",
            "DelAddr4 10.1.0.5/24",
            "DelRoute4 255 10.1.0.0/24 kind 2 from 10.1.0.5",
            "DelRoute4 255 10.1.0.255/32 kind 3 from 10.1.0.5",
            "DelRoute4 255 10.1.0.5/32 kind 2 from 10.1.0.5",
        ]),
    );
}

/// A row of 10.1.0.5/24 with both lifetimes from `changed` on: no request may
/// ask for 0 (P13).
fn lasting(valid: u32, changed: u64) -> Script {
    let new = NewAddress {
        valid,
        preferred: valid,
        ..address("10.1.0.5/24")
    };
    let stamp = [changed as u32, (changed >> 32) as u32];
    let mut row = [0; words::ADDRESS_WORDS];
    row[..16].copy_from_slice(&new.words()[..16]);
    row[16..].copy_from_slice([stamp; 2].as_flattened());
    Script {
        state: encode(&Lists {
            addresses: vec![row],
            ..Lists::default()
        }),
    }
}

fn lifetimes(checks: &mut Checks) {
    let mut s = Script::default();
    s.add(NewAddress {
        valid: 10,
        preferred: 10,
        ..address("10.1.0.5/24")
    });
    s.expire(9_979_999_999);
    checks.same("+ valid 10 at 9,979,999,999", s.addresses(), 1);
    s.expire(9_980_000_000);
    checks.same("+ valid 10 at 9,980,000,000", s.addresses(), 0);
    for (valid, kept) in [(0, 0), (1, 1)] {
        let changed = 100_000_000_000;
        let mut s = lasting(valid, changed);
        s.expire(changed - 50_000_000_000);
        checks.same(
            &format!("a clock behind changed, valid {valid}"),
            s.addresses(),
            kept,
        );
    }
}

fn lookups(checks: &mut Checks) {
    // beside a local row, without the address rows that a run would bring
    let mut local = [0; 32];
    local[..8].copy_from_slice(&[255, ip("10.1.0.0"), 24, 0, 0, 2, 2, 254]);
    local[12] = 1;
    let mut hole = [0; 32];
    hole[..8].copy_from_slice(&[254, ip("10.1.0.7"), 32, 0, 0, 6, 3, 0]);
    let mut s = Script {
        state: encode(&Lists {
            routes: vec![local, hole],
            tables: vec![254, 255],
            ..Lists::default()
        }),
    };
    checks.same(
        "+ main blackhole beside local",
        s.lookup("10.1.0.7").reply.number,
        22,
    );
    let mut s = Script::default();
    s.up(0);
    s.add(address("10.1.0.5/24").up());
    s.add_route(route("10.1.0.7/32").rejecting(6));
    checks.same(
        "+ the same from a run",
        s.lookup("10.1.0.7").reply.number,
        22,
    );

    let mut s = Script::default();
    s.add_route(route("10.3.0.0/16").rejecting(9));
    checks.same(
        "+ throw, 253 not listed",
        s.lookup("10.3.0.1").reply.number,
        101,
    );

    for (tos, asked, number) in [(8, 0xe8, 0), (32, 32, 101), (32, 0xff, 101)] {
        let mut s = Script::default();
        s.add_route(Route {
            tos,
            ..route("10.2.0.0/24").up()
        });
        checks.same(
            &format!("+ row tos {tos}, flow tos {asked:#x}"),
            s.flow("10.2.0.1", asked).reply.number,
            number,
        );
    }
    let mut s = Script::default();
    s.add_route(Route {
        tos: 32,
        ..route("10.2.0.0/24").up()
    });
    let ip = ip("10.2.0.1");
    let never = (0..256).all(|tos| {
        let flow = s.call(Call::Lookup4Flow { ip, tos, oif: 1 });
        flow.reply.number == 101
    });
    checks.same("+ row tos 32 never fits", never, true);
}

fn new_primaries(checks: &mut Checks) {
    let mut routes = |name: &str, text: &str, expected: &[&str]| {
        let mut s = Script::default();
        s.add(address(text).up());
        checks.same(name, s.routes(), lines(expected));
    };
    routes(
        "prefix 30 has a broadcast route",
        "10.1.0.5/30",
        &[
            "255 10.1.0.4/30 kind 2 from 10.1.0.5",
            "255 10.1.0.5/32 kind 2 from 10.1.0.5",
            "255 10.1.0.7/32 kind 3 from 10.1.0.5",
        ],
    );
    routes(
        "prefix 31 has none",
        "10.1.0.5/31",
        &[
            "255 10.1.0.4/31 kind 2 from 10.1.0.5",
            "255 10.1.0.5/32 kind 2 from 10.1.0.5",
        ],
    );
    let own = ["255 10.1.0.5/32 kind 2 from 10.1.0.5"];
    routes("prefix 32 has its /32 only", "10.1.0.5/32", &own);
    routes("prefix 0 has its /32 only", "10.1.0.5/0", &own);
    routes(
        "D1 prefix 30 in network 0 has its /32 only",
        "0.0.0.1/30",
        &["255 0.0.0.1/32 kind 2 from 0.0.0.1"],
    );
    let peer = NewAddress {
        address: ip("10.1.0.6"),
        ..address("10.1.0.5/32").up()
    };
    let mut s = Script::default();
    s.add(peer);
    checks.same(
        "prefix 32 with a peer has the peer's row too",
        s.routes(),
        lines(&[
            "255 10.1.0.5/32 kind 2 from 10.1.0.5",
            "255 10.1.0.6/32 kind 2 from 10.1.0.5",
        ]),
    );
    let mut s = Script::default();
    checks.same(
        "prefix 33",
        s.add(address("10.1.0.5/33")).reply,
        Reply::refused(202),
    );
}

fn refusals(checks: &mut Checks) {
    let mut s = Script::default();
    let told = s.add_route(Route {
        table: 100,
        ..route("10.2.0.0/33")
    });
    checks.same("route length 33", told.reply, Reply::refused(22));
    checks.same("route length 33: table listed", s.tables(), vec![100]);
    let mut s = Script::default();
    for i in 0..64 {
        let new = NewAddress {
            local: ip("10.1.0.0") + i,
            address: ip("10.1.0.0") + i,
            ..address("10.1.0.0/32")
        };
        assert_eq!(s.add(new).reply.number, 0, "64 addresses fit");
    }
    let before = s.state.clone();
    checks.same(
        "the 65th address",
        s.add(address("10.2.0.1/32")).reply,
        Reply::refused(203),
    );
    checks.same("the 65th address: nothing changed", s.state == before, true);
}

/// The printed form, as the program over a state must give it.
fn printing(checks: &mut Checks) {
    let mut s = Script::default();
    s.up(0);
    let told = s.call(Call::Dump4);
    let mut printed = vec![format!("(routes {})", told.reply.value)];
    for r in told.written.chunks_exact(words::ROUTE_WORDS) {
        let dst = Ipv4Addr::from(r[1]);
        printed.push(format!(
            "({} ({dst} {}) {} {} {})",
            r[0], r[2], r[5], r[3], r[4]
        ));
    }
    checks.same(
        "listing after up on empty",
        printed,
        lines(&[
            "(routes 3)",
            "(255 (127.0.0.0 8) 2 0 0)",
            "(255 (127.0.0.1 32) 2 0 0)",
            "(255 (127.255.255.255 32) 3 0 0)",
        ]),
    );
}
