//! Where the Rust differs from the RFCs that document 01 names, and from
//! those that they lean on (docs/DIFFERENCES.md).
use crate::call::Reply;
use crate::checks::{Checks, lines};
use crate::script::{Route, Script, address, route};

pub fn check(checks: &mut Checks) {
    longest_match(checks);
    type_of_service(checks);
    weak_type_of_service(checks);
    special_addresses(checks);
    broadcast(checks);
}

fn longest_match(checks: &mut Checks) {
    for (table, dst) in [(253, "10.2.0.0/24"), (100, "10.2.0.1/32")] {
        let mut s = Script::default();
        s.add_route(route("10.0.0.0/8").up());
        s.add_route(Route {
            table,
            ..route(dst).up()
        });
        checks.same(
            &format!("R1 a longer row of {table} loses to a shorter one of 254"),
            s.lookup("10.2.0.1").text,
            lines(&["254 10.0.0.0/8 kind 1"]),
        );
    }
    let mut s = Script::default();
    s.add_route(route("10.0.0.0/8").up());
    s.add_route(route("10.2.0.0/24").rejecting(9));
    checks.same(
        "R2 a throw hides the shorter row of its own set",
        s.lookup("10.2.0.1").reply,
        Reply::refused(101),
    );
}

/// RFC 1349 has four bits (0x1e); the Rust masks with 0x1c.
fn type_of_service(checks: &mut Checks) {
    for (tos, number) in [(2, 101), (4, 0)] {
        let mut s = Script::default();
        s.add_route(Route {
            tos,
            ..route("10.2.0.0/24").up()
        });
        checks.same(
            &format!("R3 row tos {tos}, flow tos {tos}"),
            s.flow("10.2.0.1", tos).reply.number,
            number,
        );
    }
}

/// Of rows as long, the first in the list answers: by table, then by tos,
/// then by priority.
fn weak_type_of_service(checks: &mut Checks) {
    let of = |table, tos, priority| Route {
        table,
        tos,
        priority,
        ..route("10.2.0.0/24").up()
    };
    for (name, rows, answer) in [
        (
            "R5 a row of 255 without tos beside one of 254 with the flow's",
            [of(255, 0, 0), of(254, 8, 0)],
            "255 10.2.0.0/24 kind 1",
        ),
        (
            "R5 within 254 the row with the flow's tos",
            [of(254, 0, 0), of(254, 8, 0)],
            "254 10.2.0.0/24 kind 1 tos 8",
        ),
        (
            "R5 a row of 255 beside one of 254 of smaller priority",
            [of(255, 0, 10), of(254, 0, 5)],
            "255 10.2.0.0/24 kind 1 priority 10",
        ),
        (
            "R5 within 254 the row of smaller priority",
            [of(254, 0, 10), of(254, 0, 5)],
            "254 10.2.0.0/24 kind 1 priority 5",
        ),
    ] {
        let mut s = Script::default();
        for row in rows {
            s.add_route(row);
        }
        checks.same(name, s.flow("10.2.0.1", 8).text, lines(&[answer]));
    }
}

fn special_addresses(checks: &mut Checks) {
    for text in [
        "0.0.0.0/32",
        "255.255.255.255/32",
        "224.0.0.5/32",
        "10.1.0.255/24",
    ] {
        let told = Script::default().add(address(text));
        checks.same(
            &format!("R4 {text} is taken as an address"),
            told.reply.number,
            0,
        );
    }
}

/// Where the RFCs and the Rust agree, so that it stays seen.
fn broadcast(checks: &mut Checks) {
    let mut s = Script::default();
    s.add(address("10.1.0.5/31").up());
    let broadcast = s.routes().iter().any(|r| r.contains("kind 3"));
    checks.same("RFC 3021: no broadcast row for prefix 31", broadcast, false);
}
