//! The entries of docs/DIFFERENCES.md on events: this side.
use super::by_hand::{ADDRESS, OWN, ROUTE};
use crate::checks::Checks;
use crate::event::{Given, Parts, event, parts, write};
use crate::message::{ifa, rta};
use crate::words::label;

pub fn check(checks: &mut Checks) {
    order(checks);
    labels(checks);
    zeros(checks);
    numbers(checks);
}

/// The message of a row: an address that is new, or a route.
fn told(row: &[u32]) -> Parts {
    let kind = if row.len() == OWN.len() { 1 } else { 3 };
    parts(&event(kind, 0, row), Given::default()).expect("a row that could stand in a state")
}

fn value(parts: &Parts, code: u16) -> Option<&[u8]> {
    let found = parts.attributes.iter().find(|(other, _)| *other == code);
    found.map(|(_, value)| &value[..])
}

fn order(checks: &mut Checks) {
    let codes = |parts: Parts| -> Vec<u16> { parts.attributes.iter().map(|(c, _)| *c).collect() };
    checks.same(
        "W1 an address's attributes",
        codes(told(&ADDRESS)),
        vec![1, 2, 3, 4, 6, 8, 9, 11],
    );
    checks.same(
        "W1 a route's attributes",
        codes(told(&ROUTE)),
        vec![1, 4, 5, 6, 7, 8, 15],
    );
    let stamps = told(&ADDRESS);
    let stamps = value(&stamps, ifa::CACHEINFO).map(|cache| cache[8..].to_vec());
    checks.same("W2 the stamps", stamps, Some(vec![0; 8]));
}

fn labels(checks: &mut Checks) {
    let labelled = |text: &[u8]| {
        let mut row = OWN;
        row[8..13].copy_from_slice(&label(text));
        value(&told(&row), ifa::LABEL).map(<[u8]>::to_vec)
    };
    checks.same("W3 an empty label", labelled(b""), Some(b"\0".to_vec()));
    checks.same(
        "W4 a label with a zero in it",
        labelled(b"lo\0x"),
        Some(b"lo\0x\0".to_vec()),
    );
}

/// 0.0.0.0 where a value is present.
fn zeros(checks: &mut Checks) {
    let mut row = OWN;
    row[3] = 1;
    let broadcast = told(&row);
    let zero: Option<&[u8]> = Some(&[0; 4]);
    checks.same("W5 broadcast", value(&broadcast, ifa::BROADCAST), zero);
    let mut row = ROUTE;
    [row[9], row[11]] = [0, 0];
    let route = told(&row);
    checks.same("W5 gateway", value(&route, rta::GATEWAY), zero);
    checks.same("W5 prefsrc", value(&route, rta::PREFSRC), zero);
    let none = told(&[0; 20]);
    checks.same("W5 local", value(&none, ifa::LOCAL), zero);
    checks.same("W5 address", value(&none, ifa::ADDRESS), zero);
}

fn numbers(checks: &mut Checks) {
    let mut row = ROUTE;
    row[15..].fill(0);
    row[30] = 1;
    let route = told(&row);
    let metric: Option<&[u8]> = Some(&[8, 0, 16, 0, 1, 0, 0, 0]);
    checks.same(
        "W6 a metric of type 16",
        value(&route, rta::METRICS),
        metric,
    );
    let given = Given {
        sequence: 7,
        port: 9,
        now: 0,
    };
    for (kind, row) in [(1, &OWN[..]), (3, &ROUTE)] {
        let told = write(&event(kind, 0, row), given);
        let both = told.map(|bytes| bytes[8..16].to_vec());
        checks.same(
            "W7 sequence and port",
            both,
            Ok(vec![7, 0, 0, 0, 9, 0, 0, 0]),
        );
    }
}
