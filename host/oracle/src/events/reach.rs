//! What the generator reaches, that it is met as it must be, and that what
//! is written is read again.
use super::{round_trip, swept};
use crate::event::{MESSAGE_BYTES, Model, Parts, Writer, list, parts, write};
use crate::generate::events::{Events, damages};
use crate::message::{DEL_ADDRESS, DEL_ROUTE, NEW_ADDRESS, NEW_ROUTE, ifa, rta};
use crate::port::{Bytes, exact};
use std::collections::BTreeMap;

/// What messages that were written can be like; the row stands behind the
/// event's first two words.
type Holds = fn(&Parts, &[u32]) -> bool;
const KINDS_OF_WRITING: [(&str, u16, Holds); 41] = [
    ("a peer", NEW_ADDRESS, |_, r| r[0] != r[1]),
    ("broadcast", NEW_ADDRESS, |p, _| has(p, ifa::BROADCAST)),
    ("broadcast 0", NEW_ADDRESS, |_, r| r[3..5] == [1, 0]),
    ("no broadcast", NEW_ADDRESS, |p, _| !has(p, ifa::BROADCAST)),
    ("empty label", NEW_ADDRESS, |_, r| r[8] == 0),
    ("empty label", DEL_ADDRESS, |_, r| r[8] == 0),
    ("label of 15", NEW_ADDRESS, |_, r| r[8] == 15),
    ("label without padding", NEW_ADDRESS, |_, r| r[8] % 4 == 3),
    ("zero in a label", NEW_ADDRESS, |p, r| {
        p.attributes[2].1[..r[8] as usize].contains(&0)
    }),
    ("zero in a label", DEL_ADDRESS, |p, r| {
        p.attributes[2].1[..r[8] as usize].contains(&0)
    }),
    ("permanent", NEW_ADDRESS, |_, r| {
        r[6] & 0x80 != 0 && r[14] != u32::MAX
    }),
    ("lifetimes going", NEW_ADDRESS, |p, r| {
        let [preferred, valid] = life(p);
        0 < preferred && preferred < r[15] && valid < r[14]
    }),
    ("lifetimes gone", NEW_ADDRESS, |p, r| {
        life(p) == [0, 0] && r[14] > 0 && r[15] > 0
    }),
    ("only preferred gone", NEW_ADDRESS, |p, r| {
        let [preferred, valid] = life(p);
        preferred == 0 && valid > 0 && r[15] > 0
    }),
    ("only valid forever", NEW_ADDRESS, |p, _| {
        let [preferred, valid] = life(p);
        preferred < valid && valid == u32::MAX
    }),
    ("only preferred forever", NEW_ADDRESS, |p, _| {
        let [preferred, valid] = life(p);
        valid < preferred && preferred == u32::MAX
    }),
    ("a clock before the change", NEW_ADDRESS, |p, r| {
        let changed = u64::from(r[18]) | u64::from(r[19]) << 32;
        r[6] & 0x80 == 0 && r[15] != u32::MAX && p.given.now < changed
    }),
    ("flags over a byte", NEW_ADDRESS, |_, r| r[6] > 255),
    ("priority", NEW_ADDRESS, |p, _| has(p, ifa::RT_PRIORITY)),
    ("no priority", NEW_ADDRESS, |p, _| !has(p, ifa::RT_PRIORITY)),
    ("proto", NEW_ADDRESS, |p, _| has(p, ifa::PROTO)),
    ("no proto", NEW_ADDRESS, |p, _| !has(p, ifa::PROTO)),
    ("header flags", NEW_ADDRESS, |p, _| p.flags != 0),
    ("words behind", DEL_ADDRESS, |_, r| {
        r[20..].iter().any(|&w| w != 0)
    }),
    ("table 0", NEW_ROUTE, |_, r| r[0] == 0),
    ("table 252", NEW_ROUTE, |_, r| r[0] == 252),
    ("table 255", NEW_ROUTE, |_, r| r[0] == 255),
    ("table 256", NEW_ROUTE, |_, r| r[0] == 256),
    ("the last table", NEW_ROUTE, |_, r| r[0] == u32::MAX),
    ("no destination", NEW_ROUTE, |p, _| !has(p, rta::DST)),
    ("destination 0 of a length", NEW_ROUTE, |_, r| {
        r[1] == 0 && r[2] > 0
    }),
    ("no device", NEW_ROUTE, |p, _| !has(p, rta::OIF)),
    ("gateway 0", NEW_ROUTE, |_, r| r[10..12] == [1, 0]),
    ("prefsrc 0", NEW_ROUTE, |_, r| r[8..10] == [1, 0]),
    ("no priority", NEW_ROUTE, |p, _| !has(p, rta::PRIORITY)),
    ("onlink", NEW_ROUTE, |p, _| p.fixed[8] == 4),
    ("no metrics", NEW_ROUTE, |p, _| !has(p, rta::METRICS)),
    ("one metric", DEL_ROUTE, |_, r| metrics(r) == 1),
    ("17 metrics", DEL_ROUTE, |_, r| metrics(r) == 17),
    ("header flags", DEL_ROUTE, |p, _| p.flags != 0),
    ("216 bytes", NEW_ROUTE, |p, _| {
        p.bytes().len() == MESSAGE_BYTES
    }),
];

fn has(parts: &Parts, code: u16) -> bool {
    parts.attributes.iter().any(|(other, _)| *other == code)
}

fn life(parts: &Parts) -> [u32; 2] {
    let cache = parts.attributes.iter().find(|(c, _)| *c == ifa::CACHEINFO);
    let words = exact(&cache.expect("every address has it").1);
    [words[0], words[1]]
}

fn metrics(row: &[u32]) -> usize {
    row[15..].iter().filter(|&&value| value != 0).count()
}

/// The kinds of writing that an event shows, by their places.
pub fn kinds(event: &[u32], given: crate::event::Given) -> Vec<usize> {
    let Ok(parts) = parts(event, given) else {
        return Vec::new();
    };
    let shows =
        |(_, of, holds): &(&str, u16, Holds)| *of == parts.kind && holds(&parts, &event[2..]);
    let all = KINDS_OF_WRITING.iter().enumerate();
    all.filter(|(_, one)| shows(one))
        .map(|(at, _)| at)
        .collect()
}

/// What `count` generated events reach; that each damage alone is met by
/// its number and an event without damage written; and that every message,
/// of the sweep too, has a length of at most 216, whole fours, rising codes,
/// and is read as what was put in.
pub fn run(count: usize, seed: u64) -> bool {
    let mut events = Events::new(seed);
    let mut numbers: BTreeMap<u32, usize> = BTreeMap::new();
    let mut alone: BTreeMap<&str, usize> = BTreeMap::new();
    let mut writings = [0; KINDS_OF_WRITING.len()];
    let (mut wrong, mut read) = (0, 0);
    let mut written = |event: &[u32], given| match whole(event, given) {
        None => {}
        Some(Ok(())) => read += 1,
        Some(Err(what)) => {
            wrong += 1;
            println!("{event:?}, {given:?}: {what}");
        }
    };
    let mut misfits = 0;
    for _ in 0..count {
        let case = events.next_case();
        let event = exact(&case.event);
        let mut message = case.message.clone();
        let number = Bytes(Model)
            .write(&case.event, &mut message, case.given)
            .number;
        *numbers.entry(number).or_default() += 1;
        for at in kinds(&event, case.given) {
            writings[at] += 1;
        }
        written(&event, case.given);
        let expected = match case.damage[..] {
            [] => 0,
            [name] => {
                *alone.entry(name).or_default() += 1;
                number_of(name)
            }
            _ => continue,
        };
        if number != expected {
            misfits += 1;
            println!("{:?}: {number} in place of {expected}", case.damage);
        }
    }
    let swept: Vec<Vec<u32>> = swept::events().collect();
    for event in &swept {
        written(event, Default::default());
    }
    for (name, number) in damages() {
        let seen = alone.get(name).copied().unwrap_or(0);
        println!("{name:31} alone {number:3}: {seen:6}");
    }
    for ((name, kind, _), seen) in KINDS_OF_WRITING.iter().zip(writings) {
        println!("type {kind}: {name:31} {seen:6}");
    }
    let all = damages().count() + writings.len();
    let unseen = all - alone.len() - writings.iter().filter(|n| **n > 0).count();
    println!(
        "events: {count} generated, numbers {numbers:?}, {} of {all} ways of damage and kinds of \
         writing seen, {misfits} not as they must; {} more swept; {read} messages read as what was \
         put in, {wrong} not",
        all - unseen,
        swept.len(),
    );
    let numbers: Vec<u32> = numbers.into_keys().collect();
    unseen + wrong + misfits == 0 && numbers == [0, 200, 201]
}

fn number_of(damage: &str) -> u32 {
    let found = damages().find(|(name, _)| *name == damage);
    found.map_or(0, |(_, number)| number)
}

/// Nothing of an event that is refused.
fn whole(event: &[u32], given: crate::event::Given) -> Option<Result<(), String>> {
    let message = write(event, given).ok()?;
    let parts = parts(event, given).ok()?;
    let codes = parts.attributes.iter().map(|(code, _)| *code);
    if message.len() > MESSAGE_BYTES || !message.len().is_multiple_of(4) {
        return Some(Err(format!("{} bytes", message.len())));
    }
    if !codes.clone().is_sorted_by(|a, b| a < b) || list(&parts.attributes).is_empty() {
        return Some(Err(format!("codes {:?}", codes.collect::<Vec<_>>())));
    }
    Some(round_trip::check(event, given, &message))
}
