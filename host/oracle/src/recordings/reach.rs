//! What generated recordings reach, and that each way of damage alone is met
//! by its number.
use crate::generate::recordings::{Recordings, damages};
use crate::port::{Bytes, words};
use crate::recording::{
    APPENDS, Beside, IP_DISABLED, LINK_DOWN, Model, NUMBERS, REPLACES, RecordingCase, alike,
    effect, events, rebuild, step,
};
use crate::words::ROUTE_LIMIT;
use reference::{EventRow, RouteRow};
use std::collections::BTreeMap;

/// What an event can be, of the rows before it.
type Holds = fn(&EventRow, &[RouteRow]) -> bool;
const KINDS: [(&str, Holds); 15] = [
    ("put behind several alike rows", |e, rows| {
        adds(e) && e[1] & APPENDS != 0 && likes(e, rows) > 1
    }),
    ("put before several alike rows", |e, rows| {
        adds(e) && e[1] & APPENDS == 0 && likes(e, rows) > 1
    }),
    ("put between others", |e, rows| {
        let row = &e[2..];
        let (low, high) = (rows.first(), rows.last());
        let within = low.is_some_and(|r| r[1] < row[1]) && high.is_some_and(|r| r[1] > row[1]);
        adds(e) && likes(e, rows) == 0 && within
    }),
    ("the first of several replaced", |e, rows| {
        replaces(e) && likes(e, rows) > 1
    }),
    ("replaced, with 0x800", |e, rows| {
        replaces(e) && e[1] & APPENDS != 0 && likes(e, rows) > 1
    }),
    ("replaced at 256 rows", |e, rows| {
        replaces(e) && rows.len() == ROUTE_LIMIT
    }),
    ("a 256th row", |e, rows| {
        adds(e) && rows.len() == ROUTE_LIMIT - 1
    }),
    ("deleted behind an alike row", |e, rows| {
        let first = rows.iter().find(|r| alike(r, &row_of(e)));
        e[0] == 4 && first.is_some_and(|r| *r != row_of(e))
    }),
    ("event 5 leaves scope 254 of the device", |e, rows| {
        e[0] == LINK_DOWN && rows.iter().any(|r| r[12] == 1 && r[7] == 254)
    }),
    ("event 5 leaves rows without it", |e, rows| {
        e[0] == LINK_DOWN && rows.iter().any(|r| r[12] == 0 && r[7] != 254)
    }),
    ("event 5 takes another scope than 253", |e, rows| {
        e[0] == LINK_DOWN
            && rows
                .iter()
                .any(|r| r[12] == 1 && !matches!(r[7], 253 | 254))
    }),
    ("event 6 takes scope 254", |e, rows| {
        e[0] == IP_DISABLED && rows.iter().any(|r| r[12] == 1 && r[7] == 254)
    }),
    ("event 6 leaves rows without the device", |e, rows| {
        e[0] == IP_DISABLED && rows.iter().any(|r| r[12] == 0)
    }),
    ("an address comes", |e, _| e[0] == 1),
    ("an address goes", |e, _| e[0] == 2),
];

/// What two recordings can be.
const PAIRS: [&str; 6] = [
    "the same rows by other events",
    "other rows, as many",
    "the same rows in another order",
    "the start of the other's rows",
    "209 before the second's 208",
    "208 before the second's 209",
];

/// What a refused recording can be, beside its damage.
const REFUSED: [&str; 2] = ["209 before a later 208", "208 before a later 209"];

fn row_of(e: &EventRow) -> RouteRow {
    let (row, _) = e[2..].split_first_chunk().expect("a route is as long");
    *row
}
fn adds(e: &EventRow) -> bool {
    e[0] == 3 && e[1] & REPLACES == 0
}
fn replaces(e: &EventRow) -> bool {
    e[0] == 3 && e[1] & REPLACES != 0
}
fn likes(e: &EventRow, rows: &[RouteRow]) -> usize {
    rows.iter().filter(|r| alike(r, &row_of(e))).count()
}

/// All that a case shows.
pub fn shown(case: &RecordingCase) -> Vec<&'static str> {
    let mut all = Vec::new();
    let whole = |bytes: &[u8]| bytes.len().is_multiple_of(4).then(|| words(bytes));
    let Some(first) = whole(&case.first) else {
        return all;
    };
    let Ok(recorded) = events(&first) else {
        return all;
    };
    let mut rows = Vec::new();
    for (i, event) in recorded.iter().enumerate() {
        let before = rows.clone();
        match step(&mut rows, event) {
            Ok(()) => all.extend(KINDS.iter().filter(|k| (k.1)(event, &before)).map(|k| k.0)),
            Err(number) => {
                let unknown = |e: &EventRow| !(1..=6).contains(&e[0]);
                let later = &recorded[i + 1..];
                let behind = |of: fn(&EventRow) -> bool| later.iter().any(of);
                if number == 209 && later.iter().any(unknown) {
                    all.push(REFUSED[0]);
                }
                if number == 208 && behind(|e| e[0] == 2 && e[1] != 0 || e[0] == 3 && e[1] > 65_535)
                {
                    all.push(REFUSED[1]);
                }
                break;
            }
        }
    }
    if let Beside::Second(second) = &case.beside
        && let Some(second) = whole(second)
        && let Ok(other) = events(&second)
    {
        let both = [rebuild(recorded), rebuild(other)];
        let shown = match &both {
            [Ok(one), Ok(other)] => {
                let sorted = |rows: &Vec<RouteRow>| {
                    let mut rows = rows.clone();
                    rows.sort_unstable();
                    rows
                };
                [
                    one == other && first != second && !one.is_empty(),
                    one != other && one.len() == other.len(),
                    one != other && sorted(one) == sorted(other),
                    one.len() > other.len() && one.starts_with(other) && !other.is_empty(),
                    false,
                    false,
                ]
            }
            [one, other] => {
                let of = [one.clone().err(), other.clone().err()];
                let (mut all, both) = ([false; 6], [Some(209), Some(208)]);
                all[4] = of == both;
                all[5] = of == [both[1], both[0]];
                all
            }
        };
        let pairs = PAIRS.iter().zip(shown).filter(|(_, shown)| *shown);
        all.extend(pairs.map(|(name, _)| *name));
    }
    all
}

pub fn run(count: usize, seed: u64) -> bool {
    let mut recordings = Recordings::new(seed);
    let mut numbers: BTreeMap<(&str, u32), usize> = BTreeMap::new();
    let mut alone: BTreeMap<&str, usize> = BTreeMap::new();
    let mut seen: BTreeMap<&str, usize> = BTreeMap::new();
    let mut misfits = 0;
    for _ in 0..count {
        let case = recordings.next_case();
        let reply = effect(&mut Bytes(Model), &case).reply;
        let call = match case.beside {
            Beside::Rows(_) => "rebuild",
            Beside::Second(_) => "same",
        };
        *numbers.entry((call, reply.number)).or_default() += 1;
        for what in shown(&case) {
            *seen.entry(what).or_default() += 1;
        }
        let all: Vec<&str> = case.damage.iter().flatten().copied().collect();
        let expected = match all[..] {
            [] => 0,
            [name] => {
                *alone.entry(name).or_default() += 1;
                let found = damages().find(|(other, _)| *other == name);
                found.expect("it has a name").1
            }
            _ => continue,
        };
        if reply.number != expected {
            misfits += 1;
            println!("{call} {all:?}: {} in place of {expected}", reply.number);
        }
    }
    for (name, number) in damages() {
        let times = alone.get(name).copied().unwrap_or(0);
        println!("{name:36} alone {number}: {times:6}");
    }
    let kinds = KINDS.iter().map(|(name, _)| *name);
    let wanted: Vec<&str> = kinds.chain(PAIRS).chain(REFUSED).collect();
    for name in &wanted {
        println!("{name:46} {:6}", seen.get(name).copied().unwrap_or(0));
    }
    let unseen = wanted
        .iter()
        .filter(|name| !seen.contains_key(*name))
        .count()
        + damages().count()
        - alone.len();
    let unanswered = ["rebuild", "same"]
        .iter()
        .flat_map(|call| NUMBERS.map(|number| (*call, number)))
        .filter(|answer| !numbers.contains_key(answer))
        .count();
    println!(
        "recordings: {count} generated, answers {numbers:?}, {unanswered} not given; {} ways of damage \
         and {} kinds, {unseen} not seen; {misfits} not met as they must",
        damages().count(),
        wanted.len()
    );
    unseen + unanswered + misfits == 0 && numbers.len() == 2 * NUMBERS.len()
}
