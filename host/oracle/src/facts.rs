//! What else the Rust does that its comments would let one miss, and what
//! the port adds to it.
use crate::call::{Call, Reply};
use crate::checks::{Checks, lines};
use crate::generate::{calls, states};
use crate::rng::Rng;
use crate::script::{FOREVER, NewAddress, Route, Script, address, any, ip, route, started};
use crate::words::{self, encode};
use reference::{Answer, Arguments, FUZZ, Lists, Native, Request, RouteRow};

pub fn check(checks: &mut Checks) {
    refusal_order(checks);
    gateways(checks);
    changes(checks);
    strays(checks);
    no_events(checks);
    scopes(checks);
    space(checks);
    most_events(checks);
    unfit(checks);
    ipv6_events(checks);
    told_beside(checks);
    by_the_calls(checks);
    lifetimes(checks);
    allowances(checks);
}

fn refusal_order(checks: &mut Checks) {
    let mut number = |name: &str, ask: Route, expected: u32| {
        checks.same(
            name,
            Script::default().add_route(ask).reply.number,
            expected,
        );
    };
    let up = route("10.2.0.0/24").up();
    for kind in [10, 11] {
        let name = format!("D2 kind {kind} below scope 255 is 22");
        number(
            &name,
            Route {
                kind,
                scope: 254,
                ..up
            },
            22,
        );
    }
    number(
        "D2 kind 4 below scope 253 is 22",
        Route {
            kind: 4,
            scope: 252,
            ..up
        },
        22,
    );
    number(
        "D2 the metrics error comes before 95",
        Route {
            kind: 5,
            error: 7,
            ..up
        },
        7,
    );
    number(
        "D2 and before an unknown kind's 22",
        Route {
            kind: 12,
            error: 7,
            ..up
        },
        7,
    );
}

fn gateways(checks: &mut Checks) {
    let via = |to: &str| Route {
        scope: 0,
        gateway: Some(ip(to)),
        ..route("10.2.0.0/24").up()
    };
    let mut s = started();
    let told = s.add_route(Route {
        oif: 2,
        ..via("127.0.0.1")
    });
    checks.same("D3 a gateway with device 2 is 101", told.reply.number, 101);
    let told = s.add_route(Route {
        kind: 6,
        oif: 2,
        ..route("10.2.0.0/24").up()
    });
    checks.same(
        "D3 a rejecting kind with a device is 22",
        told.reply.number,
        22,
    );
    let onlink = Route {
        flags: 4,
        ..via("10.9.0.1")
    };
    let told = Script::default().add_route(onlink);
    checks.same(
        "C1 an on-link gateway while 255 is unlisted is 22",
        told.reply.number,
        22,
    );
    s.add_route(route("10.9.0.0/16").rejecting(6));
    checks.same(
        "C1 under a rejecting row it is taken",
        s.add_route(onlink).reply,
        Reply::value(1),
    );
}

/// An address that is there, replaced.
fn changes(checks: &mut Checks) {
    let old = address("10.1.0.5/24");
    let mut s = Script::default();
    s.add(old);
    let told = s.add(NewAddress {
        priority: 5,
        replace: true,
        ..old.up()
    });
    checks.same(
        "C2 a change of priority without the old prefix route",
        told.text,
        lines(&[
            "NewRoute4 0x600 255 10.1.0.0/24 kind 2 priority 5 from 10.1.0.5",
            "DelRoute4 255 10.1.0.0/24 kind 2 priority 5 from 10.1.0.5",
            "NewAddr4 10.1.0.5/24",
        ]),
    );
    // a row's first 16 words are those of a request that names all it holds
    let held = |s: &Script| s.state[words::ADDRESSES_AT..][..16].to_vec();
    let row = |all: NewAddress| all.words()[..16].to_vec();
    let first = NewAddress {
        broadcast: Some(ip("10.1.0.77")),
        ..old
    };
    let taken = NewAddress {
        proto: 4,
        priority: 5,
        valid: 20,
        preferred: 10,
        ..first
    };
    let mut s = Script::default();
    s.add(first);
    s.add(NewAddress {
        replace: true,
        broadcast: None,
        scope: 9,
        flags: 0x200,
        label: "lo:1",
        ..taken
    });
    checks.same(
        "C3 a change takes priority, proto and lifetimes, and nothing else",
        held(&s),
        row(taken),
    );
    let ending = NewAddress {
        valid: 10,
        preferred: 5,
        ..old
    };
    let mut s = Script::default();
    s.add(ending);
    s.add(NewAddress {
        replace: true,
        ..old
    });
    checks.same(
        "C4 valid forever leaves the stored seconds",
        held(&s),
        row(NewAddress {
            flags: 0x80,
            ..ending
        }),
    );
}

/// A peer's /32 prefix route counts as the local one.
fn strays(checks: &mut Checks) {
    let mut s = started();
    s.add(address("10.1.0.5/32").up());
    s.add(NewAddress {
        address: ip("10.1.0.9"),
        ..address("10.1.0.5/32").up()
    });
    s.add_route(Route {
        prefsrc: Some(ip("10.1.0.5")),
        ..route("10.2.0.0/24").up()
    });
    let mut request = vec![0; 11];
    request[2..5].copy_from_slice(&[1, ip("10.1.0.9"), 32]);
    let del = Call::DelV4 { request };
    let local = |dst| Route {
        table: 255,
        ..any(dst)
    };
    s.del_route(local("10.1.0.5/32"));
    checks.same(
        "C5 main routes fall while another address has the same local",
        s.clone().call(del.clone()).text,
        lines(&[
            "DelAddr4 10.1.0.5/32",
            "DelRoute4 255 10.1.0.9/32 kind 2 from 10.1.0.5",
            "DelRoute4 254 10.2.0.0/24 kind 1 from 10.1.0.5",
        ]),
    );
    s.del_route(local("10.1.0.9/32"));
    checks.same(
        "C5 and though the row that goes was not there",
        s.call(del).text,
        lines(&[
            "DelAddr4 10.1.0.5/32",
            "DelRoute4 254 10.2.0.0/24 kind 1 from 10.1.0.5",
        ]),
    );
}

fn no_events(checks: &mut Checks) {
    let mut s = Script::default();
    let twice = Route {
        request: 0x500,
        ..route("10.2.0.0/24").up()
    };
    s.add_route(twice);
    checks.same(
        "C6 a row replaced by itself",
        s.add_route(twice).reply,
        Reply::default(),
    );
    let mut s = started();
    let mut lists = words::decode(&s.state);
    lists.tables.clear();
    s.state = encode(&lists);
    let found = (s.up(0).reply, s.tables());
    checks.same(
        "C7 up lists tables without an event",
        found,
        (Reply::default(), vec![254, 255]),
    );
    let mut s = Script::default();
    s.add(address("10.1.0.5/24"));
    checks.same(
        "C7 an address added while down lists both",
        s.tables(),
        vec![254, 255],
    );
}

/// A smaller number is a wider scope.
fn scopes(checks: &mut Checks) {
    let of = |scope, text| NewAddress {
        scope,
        ..address(text)
    };
    let select = |s: &mut Script, scope| {
        let (present, dst) = (0, 0);
        let chosen = s.call(Call::Select4 {
            present,
            dst,
            scope,
        });
        (chosen.reply.present, chosen.reply.value)
    };
    let none = (0, 0);
    let mut s = Script::default();
    s.add(of(254, "10.1.0.5/24"));
    checks.same("C8 select4 has no second choice", select(&mut s, 0), none);
    let second = |[first, second]: [u32; 2]| {
        let mut s = Script::default();
        s.add(of(first, "10.1.0.5/24"));
        s.add(of(second, "10.2.0.5/24"));
        words::address_at(&s.state, 1)[0]
    };
    checks.same(
        "C9 a primary of wider scope goes behind",
        second([253, 0]),
        ip("10.2.0.5"),
    );
    checks.same(
        "C9 one of narrower scope in front",
        second([0, 253]),
        ip("10.1.0.5"),
    );
    let mut s = Script::default();
    s.add(of(200, "10.1.0.5/24"));
    for (scope, chosen) in [(199, none), (200, (1, ip("10.1.0.5")))] {
        checks.same(
            &format!("C9 select4 of scope {scope} beside an address of 200"),
            select(&mut s, scope),
            chosen,
        );
    }
    for (scope, number) in [(253, 22), (254, 0)] {
        let told = Script::default().add_route(Route {
            kind: 2,
            scope,
            ..route("10.2.0.0/24").up()
        });
        checks.same(
            &format!("C9 a local route of scope {scope}"),
            told.reply.number,
            number,
        );
    }
}

/// A state with `routes` rows that no address wants.
fn filled(addresses: usize, routes: usize, tables: Vec<u32>) -> Lists {
    let mut lists = Lists {
        tables,
        ..Lists::default()
    };
    for i in 0..routes as u32 {
        let mut row: RouteRow = [0; 32];
        row[..3].copy_from_slice(&[100, ip("11.0.0.0") + (i << 8), 24]);
        row[5] = 6;
        lists.routes.push(row);
    }
    for i in 0..addresses as u32 {
        let mut row = [0; 20];
        row[..3].copy_from_slice(&[ip("12.0.0.1") + (i << 8), ip("12.0.0.1") + (i << 8), 24]);
        lists.addresses.push(row);
    }
    lists
}

fn script(lists: &Lists) -> Script {
    Script {
        state: encode(lists),
    }
}

fn space(checks: &mut Checks) {
    let lists = filled(64, 256, (1000..1032).collect());
    let request = address("10.1.0.5/24").words();
    let fit = request[..].try_into().expect("18 words");
    let after = reference::run(
        &lists,
        &Request::AddV4 {
            request: fit,
            now: 0,
        },
    )
    .lists;
    checks.same(
        "P1 the Rust has no limits",
        [
            after.addresses.len(),
            after.routes.len(),
            after.tables.len(),
        ],
        [65, 257, 34],
    );
    checks.same(
        "P1 where the port has no space",
        script(&lists).call(Call::AddV4 { request, now: 0 }).reply,
        Reply::refused(203),
    );
    let usual = || vec![254, 255];
    let changed = NewAddress {
        priority: 5,
        replace: true,
        ..address("12.0.0.1/24").up()
    };
    let mut s = script(&filled(1, 256, usual()));
    checks.same(
        "P1 a change of priority at 256 routes",
        s.add(changed).reply,
        Reply::refused(203),
    );
    let mut lists = filled(1, 255, usual());
    let mut s = script(&lists);
    s.add(changed);
    checks.same("P1 the same at 255", s.routes().len(), 255);
    let mut there: RouteRow = [0; 32];
    there[..10].copy_from_slice(&[255, ip("12.0.0.0"), 24, 0, 5, 2, 2, 254, 1, ip("12.0.0.1")]);
    there[12] = 1;
    lists.routes.push(there);
    let told = script(&lists).add(changed);
    checks.same(
        "P1 at 256 with the new row there already",
        told.reply,
        Reply::value(2),
    );
    let bad = |table| Route {
        table,
        len: 33,
        ..route("10.2.0.0/24")
    };
    for (name, tables, table, number) in [
        ("P1 a bad request that names a 33rd table", 32, 7, 203),
        ("P1 a bad request that names a listed one", 32, 1000, 22),
        ("P1 255 at 31 tables without 254", 31, 255, 203),
        ("P1 254 at 31 tables", 31, 254, 22),
    ] {
        let mut s = script(&filled(0, 0, (1000..1000 + tables).collect()));
        checks.same(name, s.add_route(bad(table)).reply, Reply::refused(number));
    }
    let mut s = script(&filled(64, 0, usual()));
    let told = s.add(address("12.0.0.1/24"));
    checks.same(
        "P1 a duplicate at 64 addresses",
        told.reply,
        Reply::refused(17),
    );
    let mut s = script(&filled(0, 256, vec![100]));
    let again = Route {
        table: 100,
        request: 0x600,
        scope: 0,
        ..route("11.0.0.0/24").rejecting(6)
    };
    let new = |request| Route {
        dst: ip("13.0.0.0"),
        request,
        ..again
    };
    for (name, ask, number) in [
        ("P1 a duplicate at 256 routes", again, 17),
        ("P1 no create flag at 256 routes", new(0), 2),
        ("P1 a new row at 256 routes", new(0x400), 203),
    ] {
        checks.same(name, s.add_route(ask).reply, Reply::refused(number));
    }
}

/// 63 NewAddr4, 64 DelAddr4 and 256 DelRoute4 in one `expire`, and event 6.
fn most_events(checks: &mut Checks) {
    let mut lists = filled(64, 0, vec![254, 255]);
    for (i, a) in lists.addresses.iter_mut().enumerate() {
        // all are marked on the way to the last, which is due; it takes its
        // secondaries along, and main rows fall with it
        a[..3].copy_from_slice(&[ip("12.0.0.1") + i as u32, ip("12.0.0.1"), 24]);
        a[6] = u32::from(i < 63);
        a[14] = if i < 63 { 100 } else { 1 };
        a[15] = if i < 63 { 1 } else { 100 };
    }
    lists.addresses[63][1] = ip("12.0.0.1");
    for i in 0..255 {
        let mut row: RouteRow = [0; 32];
        row[..3].copy_from_slice(&[254, ip("11.0.0.0") + (i << 8), 24]);
        row[5..10].copy_from_slice(&[1, 3, 253, 1, ip("12.0.0.1") + 63]);
        row[12] = 1;
        lists.routes.push(row);
    }
    let mut local: RouteRow = [0; 32];
    local[..3].copy_from_slice(&[255, ip("12.0.0.64"), 32]);
    local[5..10].copy_from_slice(&[2, 2, 254, 1, ip("12.0.0.64")]);
    local[12] = 1;
    lists.routes.push(local);
    let mut s = script(&lists);
    let told = s.expire(2_000_000_000).text;
    let of = |name: &str| told.iter().filter(|t| t.starts_with(name)).count();
    let counts = (of("NewAddr4"), of("DelAddr4"), of("DelRoute4"), told.len());
    checks.same(
        "P2 383 event rows in one expire, and event 6",
        counts,
        (63, 64, 256, 384),
    );
}

/// What the Rust's types leave no room for, or where it would stop.
fn unfit(checks: &mut Checks) {
    let mut refused = |name: &str, s: &mut Script, call: Call, number| {
        checks.same(name, s.call(call).reply, Reply::refused(number));
    };
    let ip = ip("10.1.0.5");
    let mut s = Script::default();
    s.state.pop();
    let call = Call::Local4 { ip };
    refused("P3 a state of 9,506 words", &mut s, call.clone(), 200);
    let mut s = Script::default();
    s.state[2] = 2;
    refused("P4 table 0 listed twice", &mut s, call, 201);
    let s = &mut started();
    let mut row = vec![0; 20];
    row[2] = 33;
    let call = Call::Left { row, now: 0 };
    refused("P4 left of a row of prefix 33", s, call, 201);
    let long = NewAddress {
        label: "sixteen-bytes-xx",
        ..address("10.1.0.5/24")
    };
    for (name, new) in [
        ("P5 prefix 33", address("10.1.0.5/33").up()),
        ("P5 a label of 16 bytes", long),
    ] {
        let request = new.words();
        refused(name, s, Call::AddV4 { request, now: 0 }, 202);
    }
    s.add_route(route("10.2.0.0/24").up());
    let mut request = any("10.2.0.0/24").deleting();
    request[13..16].copy_from_slice(&[1, 1, 17]);
    let call = Call::DelRoute4 { request };
    refused("P5 a metric's index 17", s, call, 202);
    s.add(NewAddress {
        valid: 1,
        preferred: 1,
        ..address("10.1.0.5/24").up()
    });
    let end = u64::MAX;
    for (name, now, allowance) in [
        ("P6 a clock within 20 ms of its end", end - 19_999_999, FUZZ),
        (
            "P16 a clock whose sum with 4 ms wraps",
            end - 3_999_999,
            4_000_000,
        ),
        ("P16 an allowance over a second", 0, 1_000_000_001),
    ] {
        refused(name, s, Call::Expire { now, allowance }, 202);
    }
}

/// The Rust's own lists go from call to call, with what IPv6 has in them.
fn ipv6_events(checks: &mut Checks) {
    let mut lo = Native::of(&[], &[], &[]);
    let mut s = Script::default();
    let mut told = |name: &str, call: Call, request: Request, rows: u32, struck_out: usize| {
        let all = lo.call(&Arguments::of(&request));
        let found = (s.call(call).reply, all.struck_out());
        checks.same(name, found, (Reply::value(rows), struck_out));
    };
    let (call, request) = (Call::Up { now: 0 }, Request::Up { now: 0 });
    told("P8 up", call.clone(), request, 4, 2);
    told("P8 up again", call, request, 0, 0);
    // event 5, beside the Rust
    told("P8 down", Call::Down, Request::Down, 1, 2);
}

/// What the port tells beside the Rust (document 02, Paper 9).
fn told_beside(checks: &mut Checks) {
    let mut s = Script::default();
    checks.same(
        "P18 down, whether or not a route goes",
        s.call(Call::Down).text,
        lines(&["the device down"]),
    );
    s.add(address("10.1.0.5/24"));
    checks.same(
        "P19 the last address gone",
        s.del("10.1.0.5").text,
        lines(&[
            "DelAddr4 10.1.0.5/24",
            "DelRoute4 255 10.1.0.5/32 kind 2 from 10.1.0.5",
            "the last address gone",
        ]),
    );
}

/// What `naskrefim` lacks, made of what it has, on states of any kind.
fn by_the_calls(checks: &mut Checks) {
    let mut rng = Rng::new(1);
    let (mut local, mut bindable) = ([0; 2], [0; 2]);
    for _ in 0..2_000 {
        let sizes = states::Sizes::small(&mut rng);
        let lists = states::direct(&mut rng, sizes);
        let lo = Native::of(&lists.addresses, &lists.routes, &lists.tables);
        let ip = calls::destination(&mut rng, &lists);
        let answer = |request| reference::run(&lists, &request).answer;
        let own = lists.addresses.iter().any(|a| a[0] == ip)
            || answer(Request::Local4 { ip }) == Answer::Yes(true);
        let met = match answer(Request::Lookup4 { ip }) {
            Answer::Row(row) => row[0] != 253 && matches!(row[5], 2 | 3),
            _ => false,
        };
        let free = met || !lists.tables.contains(&255);
        local[usize::from(own)] += usize::from(own == lo.is_local4(ip));
        bindable[usize::from(free)] += usize::from(free == lo.bindable4(ip));
    }
    let both = |[no, yes]: [usize; 2]| (no + yes, no > 100, yes > 100);
    checks.same(
        "P12 is_local4 by the calls",
        both(local),
        (2_000, true, true),
    );
    checks.same(
        "P12 bindable4 by the calls",
        both(bindable),
        (2_000, true, true),
    );
}

/// Document 02, Paper 2: what Linux turns down, the port does; the Rust takes
/// it.
fn lifetimes(checks: &mut Checks) {
    let of = |valid, preferred| NewAddress {
        valid,
        preferred,
        ..address("10.1.0.5/24")
    };
    let refused = Reply::refused(22);
    for (valid, preferred) in [(0, 0), (10, 20), (10, FOREVER)] {
        let name = format!("P13 valid {valid}, preferred {preferred}");
        let new = of(valid, preferred);
        let request = new.words();
        let (request, now) = (request[..].try_into().expect("18 words"), 0);
        let rust = reference::run(&Lists::default(), &Request::AddV4 { request, now });
        let told = matches!(rust.answer, Answer::Events(_));
        checks.same(
            &format!("{name}: the Rust takes it"),
            (rust.lists.addresses.len(), told),
            (1, true),
        );
        let mut s = Script::default();
        checks.same(&name, s.add(new).reply, refused);
        checks.same(
            &format!("{name}: nothing changed"),
            s.state == words::empty(),
            true,
        );
        let unfit = NewAddress { prefix: 33, ..new };
        checks.same(
            &format!("{name}, prefix 33"),
            Script::default().add(unfit).reply,
            Reply::refused(202),
        );
        checks.same(
            &format!("{name}, all lists full"),
            script(&filled(64, 256, (1000..1032).collect()))
                .add(new.up())
                .reply,
            refused,
        );
        // there already
        let mut s = Script::default();
        s.add(address("10.1.0.5/24"));
        let before = s.state.clone();
        for replace in [false, true] {
            let told = s.add(NewAddress { replace, ..new });
            checks.same(
                &format!("{name}, there already, replace {replace}"),
                (told.reply, s.state == before),
                (refused, true),
            );
        }
    }
    for (valid, preferred) in [(1, 0), (10, 10), (FOREVER, 0), (FOREVER, FOREVER)] {
        checks.same(
            &format!("P13 valid {valid}, preferred {preferred} is taken"),
            Script::default().add(of(valid, preferred)).reply,
            Reply::value(2),
        );
    }
    // a state that holds such a row is as it was
    let mut lists = filled(2, 0, vec![254, 255]);
    lists.addresses[1][14..16].copy_from_slice(&[10, FOREVER]);
    let mut s = script(&lists);
    checks.same(
        "P13 a row of valid 0 goes at the first clock call",
        (s.expire(0).text, s.addresses()),
        (lines(&["DelAddr4 12.0.0.1/24"]), 1),
    );
    s.expire(9_980_000_000);
    checks.same(
        "P13 a row preferred for longer goes in its time",
        s.addresses(),
        0,
    );
}

/// Document 02, Paper 7: an address of valid 10 that was set at 0 is there
/// a nanosecond before its time less the allowance, and gone at it.
fn allowances(checks: &mut Checks) {
    for (allowance, gone) in [
        (0, 10_000_000_000),
        (4_000_000, 9_996_000_000),
        (20_000_000, 9_980_000_000),
        (1_000_000_000, 9_000_000_000),
    ] {
        let mut s = Script::default();
        s.add(NewAddress {
            valid: 10,
            preferred: 10,
            ..address("10.1.0.5/24")
        });
        for (now, left) in [(gone - 1, 1), (gone, 0)] {
            s.expire_by(now, allowance);
            let name = format!("P16 valid 10 at {now} with {allowance}");
            checks.same(&name, s.addresses(), left);
        }
    }
    for (now, allowance) in [(u64::MAX, 0), (u64::MAX - 1_000_000_000, 1_000_000_000)] {
        let reply = Script::default().expire_by(now, allowance).reply;
        let name = format!("P16 a clock of {now} with {allowance} is taken");
        checks.same(&name, reply, Reply::value(0));
    }
}
