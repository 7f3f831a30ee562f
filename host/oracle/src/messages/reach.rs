//! What the generator reaches, and that it is met as it must be.
use super::swept::every_size;
use crate::generate::message_damage::DAMAGES;
use crate::generate::messages::{MessageCase, Messages};
use crate::message::{DEL_ADDRESS, DEL_ROUTE, NEW_ADDRESS, NEW_ROUTE};
use crate::message::{Message, Model, Reader, cut, ifa, read, rta, text};
use std::collections::BTreeMap;

/// What messages that were read can be like.
type Holds = fn(&Message, &[u32]) -> bool;
const KINDS_OF_READING: [(&str, u16, Holds); 27] = [
    ("address missing", NEW_ADDRESS, |m, _| none(m, ifa::ADDRESS)),
    ("a peer", NEW_ADDRESS, |_, w| w[0] != w[1]),
    ("label missing", NEW_ADDRESS, |m, _| none(m, ifa::LABEL)),
    ("empty label", NEW_ADDRESS, |_, w| w[8] == 0),
    ("label of 15", NEW_ADDRESS, |_, w| w[8] == 15),
    ("zero in a label", NEW_ADDRESS, |m, _| {
        m.all(ifa::LABEL).any(|label| text(label) != label)
    }),
    ("forever by default", NEW_ADDRESS, |m, _| {
        none(m, ifa::CACHEINFO)
    }),
    ("lifetimes", NEW_ADDRESS, |_, w| w[14] != w[15]),
    ("broadcast 0", NEW_ADDRESS, |_, w| w[3..5] == [1, 0]),
    ("flags byte", NEW_ADDRESS, |m, w| {
        none(m, ifa::FLAGS) && w[6] > 0
    }),
    ("flags over a byte", NEW_ADDRESS, |_, w| w[6] > 255),
    ("replace", NEW_ADDRESS, |_, w| w[16] == 1),
    ("REPLACE and EXCL", NEW_ADDRESS, |m, _| {
        m.flags & 0x300 == 0x300
    }),
    ("up over 1", NEW_ADDRESS, |_, w| w[17] > 1),
    ("no condition", DEL_ADDRESS, |_, w| w[0] + w[2] + w[5] == 0),
    ("empty label", DEL_ADDRESS, |_, w| w[5..7] == [1, 0]),
    ("table byte", NEW_ROUTE, |m, w| {
        none(m, rta::TABLE) && w[0] > 0
    }),
    ("table over a byte", NEW_ROUTE, |_, w| w[0] > 255),
    ("no destination", NEW_ROUTE, |m, _| none(m, rta::DST)),
    ("metrics error", NEW_ROUTE, |_, w| w[15] == 22),
    ("metrics", NEW_ROUTE, |_, w| {
        w[16..33].iter().any(|&v| v > 0)
    }),
    ("no metrics", NEW_ROUTE, |m, _| none(m, rta::METRICS)),
    ("gateway", NEW_ROUTE, |_, w| w[10] == 1),
    ("absent list", DEL_ROUTE, |_, w| w[13] == 0),
    ("no metrics", DEL_ROUTE, |m, _| none(m, rta::METRICS)),
    ("two pairs", DEL_ROUTE, |_, w| w[14] == 2),
    ("table over a byte", DEL_ROUTE, |_, w| w[0] > 255),
];

fn none(message: &Message, code: u16) -> bool {
    message.all(code).next().is_none()
}

/// The kinds of reading that a message shows, by their places.
pub fn kinds(message: &[u8], up: u32) -> Vec<usize> {
    let (Ok((kind, words)), Ok(parts)) = (read(message, up), cut(message)) else {
        return Vec::new();
    };
    let shows = |(_, of, holds): &(&str, u16, Holds)| *of == kind && holds(&parts, &words);
    let all = KINDS_OF_READING.iter().enumerate();
    all.filter(|(_, one)| shows(one))
        .map(|(at, _)| at)
        .collect()
}

/// What `count` generated messages reach; and that one without damage reads
/// as what it was made of, and each damage alone is met by its number.
pub fn run(count: usize, seed: u64) -> bool {
    let mut messages = Messages::new(seed);
    let mut numbers: BTreeMap<u32, usize> = BTreeMap::new();
    let mut alone: BTreeMap<&str, usize> = BTreeMap::new();
    let mut among: BTreeMap<&str, usize> = BTreeMap::new();
    let mut readings = [0; KINDS_OF_READING.len()];
    let mut wrong = 0;
    for _ in 0..count {
        let case = messages.next_case();
        let found = read(&case.message, case.up);
        let mut request = case.request.clone();
        let number = Model.read(&case.message, &mut request, case.up).number;
        *numbers.entry(number).or_default() += 1;
        for at in kinds(&case.message, case.up) {
            readings[at] += 1;
        }
        for name in &case.damage {
            *among.entry(name).or_default() += 1;
        }
        let expected = match case.damage[..] {
            [] => 0,
            [name] => {
                *alone.entry(name).or_default() += 1;
                number_of(name)
            }
            _ => continue,
        };
        let expected = match expected {
            0 => Ok(asked(&case)),
            number => Err(number),
        };
        if found != expected {
            wrong += 1;
            println!("{:?}: {found:?} in place of {expected:?}", case.damage);
        }
    }
    for (name, number, _) in DAMAGES {
        let of = |counts: &BTreeMap<&str, usize>| counts.get(name).copied().unwrap_or(0);
        println!(
            "{name:40} alone {number:3}: {:6}, in all {:6}",
            of(&alone),
            of(&among)
        );
    }
    for ((name, kind, _), seen) in KINDS_OF_READING.iter().zip(readings) {
        println!("type {kind}: {name:31} {seen:6}");
    }
    let swept = every_size();
    let misfits = swept
        .iter()
        .filter(|(message, number)| read(message, 0).map_or_else(|found| found, |_| 0) != *number);
    let misfits = misfits.count();
    let unseen = DAMAGES.len() - alone.len() + readings.iter().filter(|n| **n == 0).count();
    println!(
        "messages: {count} generated, numbers {numbers:?}, {} of {} ways of damage and kinds of \
         reading seen, {wrong} not as they must; {} sizes swept, {misfits} not as they must",
        DAMAGES.len() + readings.len() - unseen,
        DAMAGES.len() + readings.len(),
        swept.len(),
    );
    let numbers: Vec<u32> = numbers.into_keys().collect();
    unseen + wrong + misfits == 0 && numbers == [0, 200, 204, 205, 206]
}

fn number_of(damage: &str) -> u32 {
    let found = DAMAGES.iter().find(|(name, _, _)| *name == damage);
    found.map_or(0, |(_, number, _)| *number)
}

/// The type and the request that a case was made of, with its host's word.
fn asked(case: &MessageCase) -> (u16, Vec<u32>) {
    let (kind, mut words) = case.made_of.clone();
    match kind {
        NEW_ADDRESS => words[17] = case.up,
        NEW_ROUTE => words[33] = case.up,
        _ => {}
    }
    (kind, words)
}
