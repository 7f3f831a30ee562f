//! The differences between the Rust and Linux that docs/DIFFERENCES.md
//! lists: each smallest sequence on the Rust, with what the Rust does. What
//! Linux does was observed on a kernel and is not run here.
use crate::call::{Call, Reply};
use crate::checks::{Checks, lines};
use crate::script::{NewAddress, Route, Script, address, any, ip, route, started};
use crate::words;

pub fn check(checks: &mut Checks) {
    new_addresses(checks);
    kernel_routes(checks);
    removals(checks);
    new_routes(checks);
    kinds_and_priorities(checks);
    gateways_and_flags(checks);
    clock_and_up(checks);
}

/// Differences 1 to 5.
fn new_addresses(checks: &mut Checks) {
    let mut s = Script::default();
    s.add(address("10.1.0.5/24"));
    let told = s.add(NewAddress {
        scope: 253,
        ..address("10.1.0.6/24")
    });
    checks.same(
        "L1 a second scope in a subnet is taken",
        told.text.first().cloned(),
        Some("NewAddr4 10.1.0.6/24 secondary".to_string()),
    );
    let mut s = Script::default();
    s.add(address("127.0.0.2/8"));
    checks.same(
        "L1 up beside 127.0.0.2/8 of scope 0 adds 127.0.0.1",
        s.up(0).text.first().cloned(),
        Some("NewAddr4 127.0.0.1/8 secondary".to_string()),
    );
    for flags in [0x95e, 0x400] {
        let mut s = Script::default();
        s.add(NewAddress {
            flags,
            ..address("10.1.0.5/24")
        });
        let kept = words::address_at(&s.state, 0)[6];
        checks.same(&format!("L3 flags {flags:#x} are kept"), kept, flags | 0x80);
    }
    let mut s = Script::default();
    checks.same(
        "L4 0.0.0.0/24 is added",
        s.add(address("0.0.0.0/24")).reply,
        Reply::value(2),
    );
    zero_values(checks);
}

fn zero_values(checks: &mut Checks) {
    let zero = Some(0);
    let mut s = started();
    let told = s.add_route(Route {
        prefsrc: zero,
        ..route("10.2.0.0/24").up()
    });
    checks.same("L5 add a route, prefsrc 0.0.0.0", told.reply.number, 22);
    let told = s.add_route(Route {
        gateway: zero,
        scope: 0,
        ..route("10.2.0.0/24").up()
    });
    checks.same("L5 add a route, gateway 0.0.0.0", told.reply.number, 101);
    s.add_route(route("10.2.0.0/24").up());
    let told = s.del_route(Route {
        gateway: zero,
        ..any("10.2.0.0/24")
    });
    checks.same("L5 delete a route, gateway 0.0.0.0", told.reply.number, 3);
    let mut s = Script::default();
    s.add(NewAddress {
        broadcast: zero,
        ..address("10.1.0.5/24")
    });
    let row = words::address_at(&s.state, 0);
    checks.same(
        "L5 broadcast 0.0.0.0 is kept as present",
        (row[0], row[3]),
        (ip("10.1.0.5"), 1),
    );
}

/// Differences 6 and 7.
fn kernel_routes(checks: &mut Checks) {
    let last = |told: Vec<String>| told.last().cloned();
    let mut s = started();
    s.add(address("10.1.0.5/24").up());
    let told = s.add(address("10.1.0.255/31").up());
    checks.same(
        "L6 an address that looks up as broadcast has its prefix route",
        last(told.text),
        Some("NewRoute4 0x600 255 10.1.0.254/31 kind 2 from 10.1.0.255".to_string()),
    );
    let told = s.add(NewAddress {
        replace: true,
        priority: 5,
        ..address("10.1.0.255/31").up()
    });
    checks.same(
        "L6 at a change of priority",
        told.text,
        lines(&[
            "NewRoute4 0x600 255 10.1.0.254/31 kind 2 priority 5 from 10.1.0.255",
            "DelRoute4 255 10.1.0.254/31 kind 2 from 10.1.0.255",
            "NewAddr4 10.1.0.255/31",
        ]),
    );
    // the /32 row, put back by `up`, stands behind the /24's broadcast row
    let mut s = Script::default();
    s.add(address("10.1.0.5/24"));
    s.add(address("10.1.0.255/31"));
    s.del_route(Route {
        table: 255,
        ..any("10.1.0.255/32")
    });
    checks.same(
        "L6 at up",
        last(s.up(0).text),
        Some("NewRoute4 0x600 255 10.1.0.254/31 kind 2 from 10.1.0.255".to_string()),
    );
    let told = started().add_route(Route {
        gateway: Some(ip("224.0.0.5")),
        scope: 0,
        flags: 4,
        ..route("10.2.0.0/24").up()
    });
    checks.same(
        "L7 on-link gateway 224.0.0.5 is taken",
        told.reply,
        Reply::value(1),
    );
    let mut s = started();
    s.add(address("224.1.0.5/32").up());
    let ip = ip("224.1.0.5");
    checks.same(
        "L7 local4 of 224.1.0.5",
        s.call(Call::Local4 { ip }).reply,
        Reply::value(1),
    );
    let told = s.add_route(Route {
        prefsrc: Some(ip),
        ..route("10.2.0.0/24").up()
    });
    checks.same("L7 prefsrc 224.1.0.5 is taken", told.reply, Reply::value(1));
    let told = started().add(address("224.1.0.5/24").up());
    checks.same(
        "L7 224.1.0.5/24 has prefix and broadcast rows",
        told.text.len(),
        4,
    );
}

/// Differences 8 and 9.
fn removals(checks: &mut Checks) {
    for up in [true, false] {
        let mut s = if up { started() } else { Script::default() };
        s.add(NewAddress {
            up,
            ..address("10.1.0.5/24")
        });
        s.add(NewAddress {
            address: ip("10.1.0.5"),
            up,
            ..address("10.1.0.9/32")
        });
        s.del("10.1.0.5");
        let own = "255 10.1.0.5/32 kind 2 from 10.1.0.5".to_string();
        checks.same(
            &format!("L8 a row that a peer's prefix route equals stays, up {up}"),
            s.routes().contains(&own),
            true,
        );
    }
    let mut s = started();
    s.add(address("10.1.0.5/24").up());
    for dst in ["10.2.0.0/24", "10.3.0.0/24"] {
        s.add_route(Route {
            prefsrc: Some(ip("10.1.0.5")),
            ..route(dst).up()
        });
    }
    let mut told = s.del("10.1.0.5").text;
    told.retain(|t| t.starts_with("DelRoute4 254"));
    checks.same(
        "L9 main rows that fall are told rising",
        told,
        lines(&[
            "DelRoute4 254 10.2.0.0/24 kind 1 from 10.1.0.5",
            "DelRoute4 254 10.3.0.0/24 kind 1 from 10.1.0.5",
        ]),
    );
}

/// Differences 10 to 13.
fn new_routes(checks: &mut Checks) {
    let told = started().add_route(Route {
        prefsrc: Some(ip("10.9.9.9")),
        ..route("10.2.0.0/24").rejecting(6)
    });
    checks.same("L10 blackhole, prefsrc not local", told.reply.number, 22);
    let private = |of: Route| Route { table: 100, ..of };
    let mut s = Script::default();
    let told = s.del_route(private(any("10.2.0.1/24")));
    checks.same(
        "L11 delete with host bits, no such table",
        told.reply.number,
        3,
    );
    let told = s.add_route(private(route("10.2.0.0/33").up()));
    let found = (told.reply.number, s.tables());
    checks.same("L11 length 33 lists the table", found, (22, vec![100]));
    let mut s = started();
    let odd = |of: Route| Route { tos: 1, ..of };
    checks.same(
        "L12 delete a route, tos 1",
        s.del_route(odd(any("10.2.0.0/24"))).reply.number,
        3,
    );
    checks.same(
        "L12 add a route, tos 1",
        s.add_route(odd(route("10.2.0.0/24").up())).reply,
        Reply::value(1),
    );
    let unknown = |of: Route| Route {
        kind: 12,
        ..private(of)
    };
    let mut s = Script::default();
    checks.same(
        "L13 delete kind 12",
        s.del_route(unknown(any("10.2.0.0/24"))).reply.number,
        3,
    );
    let told = s.add_route(unknown(route("10.2.0.0/24").up()));
    checks.same(
        "L13 add kind 12",
        (told.reply.number, s.tables()),
        (22, vec![100]),
    );
}

/// Differences 14 and 15.
fn kinds_and_priorities(checks: &mut Checks) {
    for (kind, scope, oif) in [(4, 253, 1), (5, 253, 1), (10, 255, 0), (11, 255, 0)] {
        let told = started().add_route(Route {
            kind,
            scope,
            oif,
            ..route("10.2.0.0/24").up()
        });
        checks.same(&format!("L14 add kind {kind}"), told.reply.number, 95);
    }
    let mut s = started();
    let of = |priority, of: Route| Route { priority, ..of };
    s.add_route(of(10, route("10.2.0.0/24").up()));
    checks.same(
        "L15 a deletion takes the first row from its priority on",
        s.del_route(of(5, any("10.2.0.0/24"))).text,
        lines(&["DelRoute4 254 10.2.0.0/24 kind 1 priority 10"]),
    );
}

/// Differences 16 and 17.
fn gateways_and_flags(checks: &mut Checks) {
    let mut s = started();
    let private = |dst| Route {
        table: 100,
        ..route(dst).up()
    };
    s.add_route(private("10.2.0.0/24"));
    let told = s.add_route(Route {
        scope: 0,
        gateway: Some(ip("10.2.0.1")),
        ..private("10.3.0.0/24")
    });
    checks.same(
        "L16 a private table isn't read for a gateway",
        told.reply.number,
        101,
    );
    for flags in [2, 8, 0x20] {
        let told = started().add_route(Route {
            flags,
            ..route("10.2.0.0/24").up()
        });
        let onlink = told.written.get(2 + 13).copied();
        checks.same(&format!("L17 route flags {flags:#x}"), onlink, Some(0));
    }
    let mut s = started();
    s.add_route(route("10.2.0.0/24").up());
    let told = s.add_route(Route {
        flags: 0x20,
        ..route("10.2.0.0/24").up()
    });
    checks.same("L17 flag 0x20 tells no routes apart", told.reply.number, 17);
}

/// Differences 18 to 20.
fn clock_and_up(checks: &mut Checks) {
    let mut s = Script::default();
    for local in ["10.1.0.5/32", "10.1.0.4/32", "10.1.0.6/32"] {
        s.add(NewAddress {
            valid: 1,
            preferred: 1,
            ..address(local)
        });
    }
    let mut gone = |now| {
        let mut told = s.expire(now).text;
        told.retain(|t| t.starts_with("DelAddr4"));
        told
    };
    checks.same("L18 none is due before", gone(979_999_999), vec![]);
    checks.same(
        "L18 due together: list order, 20 ms early",
        gone(980_000_000),
        lines(&[
            "DelAddr4 10.1.0.5/32",
            "DelAddr4 10.1.0.4/32",
            "DelAddr4 10.1.0.6/32",
        ]),
    );
    let mut s = started();
    s.del("127.0.0.1");
    checks.same(
        "L19 up while up puts 127.0.0.1 back",
        s.up(0).reply,
        Reply::value(4),
    );
    let mut s = started();
    s.del_route(Route {
        table: 255,
        ..any("127.0.0.0/8")
    });
    checks.same(
        "L19 up while up puts a row back",
        s.up(0).text,
        lines(&["NewRoute4 0x600 255 127.0.0.0/8 kind 2 from 127.0.0.1"]),
    );
    let mut s = started();
    s.add_route(route("127.5.0.0/16").up());
    checks.same(
        "L20 255 and 254 are one set: a longer main row wins",
        s.lookup("127.5.6.7").text,
        lines(&["254 127.5.0.0/16 kind 1"]),
    );
}
