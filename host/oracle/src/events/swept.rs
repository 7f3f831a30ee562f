//! Each word of a row at the ends of its range, each length of what is lent,
//! each label, each table and each metric.
use super::by_hand::{ADDRESS, ROUTE};
use crate::event::{MESSAGE_BYTES, event};
use crate::generate::events::{EventCase, TABLES};
use crate::port::bytes;
use crate::words::{self, EVENT_WORDS};

/// What each word is set to.
const ENDS: [u32; 19] = [
    0,
    1,
    2,
    3,
    4,
    5,
    6,
    15,
    16,
    17,
    32,
    33,
    252,
    255,
    256,
    65_535,
    65_536,
    1 << 31,
    u32::MAX,
];

fn of_kind(kind: u32) -> Vec<u32> {
    match kind {
        1 | 2 => event(kind, 0, &ADDRESS),
        _ => event(kind, 0, &ROUTE),
    }
}

/// Cases for writers to be compared on, beside generated ones.
pub fn swept() -> Vec<EventCase> {
    let mut all = Vec::new();
    for kind in 1..=4 {
        let whole = of_kind(kind);
        for at in 0..EVENT_WORDS {
            all.extend(ENDS.map(|word| {
                let mut event = whole.clone();
                event[at] = word;
                EventCase::new(&event)
            }));
        }
        for length in 0..=4 * EVENT_WORDS + 8 {
            let mut case = EventCase::new(&whole);
            case.event.resize(length, 0);
            all.push(case);
        }
        for length in 0..=MESSAGE_BYTES + 8 {
            let mut case = EventCase::new(&whole);
            case.message = vec![0xe1; length];
            all.push(case);
        }
    }
    all.extend(labels());
    all.extend(routes());
    all
}

/// Labels of each length to 16, with a zero at each place or none.
fn labels() -> Vec<EventCase> {
    let mut all = Vec::new();
    for length in 0..=16 {
        for zero in 0..=length {
            let mut text = *b"lo:abcdefghijklm";
            text[length..].fill(0);
            if zero < length {
                text[zero] = 0;
            }
            let mut row = ADDRESS;
            row[8..13].copy_from_slice(&words::label(&text));
            row[8] = length as u32;
            all.push(EventCase::new(&event(1, 0, &row)));
        }
    }
    all
}

/// Each table, each metric alone, and all of them with all else.
fn routes() -> Vec<EventCase> {
    let mut all = Vec::new();
    for table in TABLES {
        let mut row = ROUTE;
        row[0] = table;
        all.push(EventCase::new(&event(3, 0x600, &row)));
    }
    for at in 15..32 {
        for value in [1, 256, 1 << 24, u32::MAX] {
            let mut row = ROUTE;
            row[15..].fill(0);
            row[at] = value;
            all.push(EventCase::new(&event(4, 0, &row)));
        }
    }
    // each set of presences, with no metric and with all
    for present in 0..256 {
        let bit = |at: u32| (present >> at) & 1;
        let mut row = ROUTE;
        row[8..10].copy_from_slice(&[bit(0), bit(0) * 0x0a01_0005]);
        row[10..12].copy_from_slice(&[bit(1), bit(1) * 0x0a01_0001]);
        row[12] = bit(2);
        row[13] = bit(3);
        row[4] = bit(4) * 50;
        row[1..3].copy_from_slice(&[bit(5) * 0x0b03_0000, bit(5) * 16]);
        row[14] = bit(6);
        row[15..].fill(bit(7) * 0x0102_0304);
        all.push(EventCase::new(&event(3, 0x400, &row)));
    }
    all
}

/// The events of the sweep as words, where they are whole.
pub fn events() -> impl Iterator<Item = Vec<u32>> {
    let whole = swept().into_iter().map(|case| case.event);
    let whole = whole.filter(|event| event.len() == bytes(&[0; EVENT_WORDS]).len());
    whole.map(|event| crate::port::words(&event))
}
