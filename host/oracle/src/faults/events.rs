//! Faults in the writing of events. Most change a message's parts before
//! they become bytes.
use crate::call::Reply;
use crate::event::{Given, MESSAGE_BYTES, Parts, Row, Writer, Written};
use crate::event::{lent, list, metrics, parts, taken, write};
use crate::message::{HEADER, ifa, rta};
use crate::model::{UNFIT_BUFFER, UNFIT_STATE};
use crate::port::{exact, words};
use crate::words::EVENT_WORDS;
use reference::{AddressRow, RouteRow};

/// A writer that goes wrong in one way.
#[derive(Clone, Copy)]
pub struct Fault {
    pub name: &'static str,
    run: Run,
}

#[derive(Clone, Copy)]
enum Run {
    Address(fn(&mut Parts, &AddressRow)),
    Route(fn(&mut Parts, &RouteRow)),
    Written(fn(&[u32], Given) -> Written),
    Lent(fn(&[u8], &mut [u8], Given) -> Reply),
}

impl Fault {
    /// In the parts of an address's message.
    const fn address(name: &'static str, change: fn(&mut Parts, &AddressRow)) -> Self {
        let run = Run::Address(change);
        Self { name, run }
    }
    /// In those of a route's.
    const fn route(name: &'static str, change: fn(&mut Parts, &RouteRow)) -> Self {
        let run = Run::Route(change);
        Self { name, run }
    }
    const fn written(name: &'static str, run: fn(&[u32], Given) -> Written) -> Self {
        let run = Run::Written(run);
        Self { name, run }
    }
    const fn lent(name: &'static str, run: fn(&[u8], &mut [u8], Given) -> Reply) -> Self {
        let run = Run::Lent(run);
        Self { name, run }
    }
}

impl Writer for Fault {
    fn name(&self) -> String {
        self.name.to_string()
    }
    fn write(&mut self, event: &[u8], message: &mut [u8], given: Given) -> Reply {
        let words = exact(event);
        let changed = || {
            let mut parts = parts(&words, given)?;
            match (taken(&words)?.2, self.run) {
                (Row::Address(row), Run::Address(change)) => change(&mut parts, row),
                (Row::Route(row), Run::Route(change)) => change(&mut parts, row),
                _ => {}
            }
            Ok(parts.bytes())
        };
        match self.run {
            Run::Address(_) | Run::Route(_) => lent(changed(), message),
            Run::Written(write) => lent(write(&words, given), message),
            Run::Lent(run) => run(event, message, given),
        }
    }
}

pub const FAULTS: &[Fault] = &[
    // absent values
    Fault::address("an absent broadcast written as 0", |p, row| {
        zero_if(p, row[3] == 0, ifa::BROADCAST)
    }),
    Fault::route("an absent gateway written as 0", |p, row| {
        zero_if(p, row[10] == 0, rta::GATEWAY)
    }),
    Fault::route("an absent prefsrc written as 0", |p, row| {
        zero_if(p, row[8] == 0, rta::PREFSRC)
    }),
    Fault::address("a broadcast of 0 taken for none", |p, row| {
        drop_if(p, row[4] == 0, ifa::BROADCAST)
    }),
    Fault::route("a gateway of 0 taken for none", |p, row| {
        drop_if(p, row[11] == 0, rta::GATEWAY)
    }),
    Fault::route("a prefsrc of 0 taken for none", |p, row| {
        drop_if(p, row[9] == 0, rta::PREFSRC)
    }),
    Fault::address("an address priority of 0 written", |p, row| {
        zero_if(p, row[13] == 0, ifa::RT_PRIORITY)
    }),
    Fault::route("a route priority of 0 written", |p, row| {
        zero_if(p, row[4] == 0, rta::PRIORITY)
    }),
    Fault::address("a proto of 0 written", |p, row| {
        if row[7] == 0 {
            put(p, ifa::PROTO, vec![0]);
        }
    }),
    Fault::route("a destination of length 0 written", |p, row| {
        zero_if(p, row[2] == 0, rta::DST)
    }),
    Fault::route("a destination left out where it is 0", |p, row| {
        drop_if(p, row[1] == 0, rta::DST)
    }),
    Fault::route("a device where there is none", |p, row| {
        if row[12] == 0 {
            put(p, rta::OIF, vec![1, 0, 0, 0]);
        }
    }),
    Fault::route("a device of 0 written", |p, row| {
        zero_if(p, row[12] == 0, rta::OIF)
    }),
    Fault::route("no device", |p, _| drop_if(p, true, rta::OIF)),
    Fault::route("no table", |p, _| drop_if(p, true, rta::TABLE)),
    Fault::route("a table attribute only above 255", |p, row| {
        drop_if(p, row[0] <= 255, rta::TABLE)
    }),
    // metrics
    Fault::route("metrics of 0 written", |p, row| {
        let all = (1..).zip(&row[15..]);
        let all: Vec<_> = all.map(|(t, v)| (t, v.to_le_bytes().to_vec())).collect();
        put(p, rta::METRICS, list(&all));
    }),
    Fault::route("an empty list of metrics written", |p, row| {
        if metrics(row).is_empty() {
            put(p, rta::METRICS, Vec::new());
        }
    }),
    Fault::route("a metric's index as its type", |p, row| {
        nested(p, row, |all| all.iter_mut().for_each(|(t, _)| *t -= 1))
    }),
    Fault::route("the last metric left out", |p, row| {
        let mut all = metrics(row);
        all.retain(|(t, _)| *t < 17);
        drop_if(p, all.is_empty(), rta::METRICS);
        nested(p, row, |all| all.retain(|(t, _)| *t < 17))
    }),
    Fault::route("a metric's low byte decides", |p, row| {
        nested(p, row, |all| all.retain(|(_, value)| value[0] != 0))
    }),
    Fault::route("metrics by falling type", |p, row| {
        nested(p, row, |all| all.reverse())
    }),
    Fault::route("metrics with the nested bit", |p, _| {
        recode(p, rta::METRICS, rta::METRICS | 0x8000)
    }),
    Fault::route("a metric's type with a flag bit", |p, row| {
        nested(p, row, |all| all.iter_mut().for_each(|(t, _)| *t |= 0x4000))
    }),
    Fault::address("flags with a flag bit in the code", |p, _| {
        recode(p, ifa::FLAGS, ifa::FLAGS | 0x4000)
    }),
    // bytes of a head
    Fault::route("the table byte is the table's low byte", |p, row| {
        p.fixed[4] = row[0] as u8
    }),
    Fault::route("the table byte is 252 from 252 on", |p, row| {
        p.fixed[4] = row[0].min(252) as u8
    }),
    Fault::route("the table byte is 0 above 255", |p, row| {
        p.fixed[4] = u8::try_from(row[0]).unwrap_or(0)
    }),
    Fault::route("proto and scope change places", |p, _| p.fixed.swap(5, 6)),
    Fault::route("tos as the source's length", |p, _| p.fixed.swap(2, 3)),
    Fault::route("no onlink", |p, _| p.fixed[8] = 0),
    Fault::route("uses_gateway for onlink", |p, row| {
        p.fixed[8] = 4 * row[14] as u8
    }),
    Fault::route("onlink as 1", |p, row| p.fixed[8] = row[13] as u8),
    Fault::address("the flags' second byte", |p, row| {
        p.fixed[2] = row[6].to_le_bytes()[1]
    }),
    Fault::address("255 for flags above a byte", |p, row| {
        p.fixed[2] = u8::try_from(row[6]).unwrap_or(255)
    }),
    Fault::address("a device index of 0", |p, _| p.fixed[4] = 0),
    Fault::address("prefix and scope change places", |p, _| p.fixed.swap(1, 3)),
    // attributes of an address
    Fault::address("flags as their low byte alone", |p, row| {
        put(p, ifa::FLAGS, vec![row[6] as u8, 0, 0, 0])
    }),
    Fault::address("no flags attribute where a byte holds them", |p, row| {
        drop_if(p, row[6] < 256, ifa::FLAGS)
    }),
    Fault::address("local and address change places", |p, _| {
        let [a, b] = [p.attributes[0].1.clone(), p.attributes[1].1.clone()];
        (p.attributes[0].1, p.attributes[1].1) = (b, a);
    }),
    Fault::address("no address where it is the local one", |p, row| {
        drop_if(p, row[0] == row[1], ifa::ADDRESS)
    }),
    Fault::address("addresses the lowest byte first", |p, row| {
        put(p, ifa::LOCAL, row[0].to_le_bytes().to_vec())
    }),
    Fault::address("a proto of four bytes", |p, row| {
        if row[7] != 0 {
            put(p, ifa::PROTO, row[7].to_le_bytes().to_vec());
        }
    }),
    Fault::address("a label without its closing zero", |p, _| {
        value(p, ifa::LABEL, |label| label.truncate(label.len() - 1))
    }),
    Fault::address("an empty label left out", |p, row| {
        drop_if(p, row[8] == 0, ifa::LABEL)
    }),
    Fault::address("an empty label without its zero", |p, row| {
        if row[8] == 0 {
            put(p, ifa::LABEL, Vec::new());
        }
    }),
    Fault::address("a label cut at its first zero", |p, _| {
        value(p, ifa::LABEL, |label| {
            let end = label.iter().position(|&b| b == 0).unwrap_or(label.len());
            label.truncate(end + 1);
        })
    }),
    Fault::address("a label of all sixteen bytes", |p, _| {
        value(p, ifa::LABEL, |label| label.resize(16, 0))
    }),
    // lifetimes
    Fault::address("lifetimes as they are stored", |p, row| {
        life(p, row[15], row[14])
    }),
    Fault::address("a permanent address's lifetimes counted down", |p, row| {
        if row[6] & 0x80 != 0 {
            let mut row = *row;
            row[6] = 0;
            let [preferred, valid] = crate::event::left(&row, p.given.now);
            life(p, preferred, valid);
        }
    }),
    Fault::address("valid before preferred", |p, _| {
        value(p, ifa::CACHEINFO, |v| v[..8].rotate_left(4))
    }),
    Fault::address("half a clock", |p, row| {
        let [preferred, valid] = crate::event::left(row, p.given.now & 0xffff_ffff);
        life(p, preferred, valid);
    }),
    Fault::address("the stamps written", |p, row| {
        value(p, ifa::CACHEINFO, |v| {
            let stamps = [row[16], row[18]].map(u32::to_le_bytes);
            v[8..].copy_from_slice(stamps.as_flattened());
        })
    }),
    // order
    Fault::address("the address's attributes by falling code", |p, _| {
        p.attributes.reverse()
    }),
    Fault::address("local before address", |p, _| p.attributes.swap(0, 1)),
    Fault::route("prefsrc before priority", |p, _| {
        p.attributes.sort_by_key(|(code, _)| match *code {
            rta::PREFSRC => rta::PRIORITY,
            rta::PRIORITY => rta::PREFSRC,
            code => code,
        })
    }),
    Fault::route("the table first", |p, _| p.attributes.rotate_right(1)),
    // the header
    Fault::address("header flags 0, of an address", |p, _| p.flags = 0),
    Fault::route("header flags 0, of a route", |p, _| p.flags = 0),
    Fault::route("header flags of a deletion 0", |p, _| {
        if p.kind == 25 {
            p.flags = 0;
        }
    }),
    Fault::route("header flags cut to a byte", |p, _| p.flags &= 0xff),
    Fault::address("sequence and port change places", |p, _| {
        (p.given.sequence, p.given.port) = (p.given.port, p.given.sequence)
    }),
    Fault::route("a port of 0", |p, _| p.given.port = 0),
    Fault::route("a sequence of 0", |p, _| p.given.sequence = 0),
    Fault::address(
        "types of requests and of deletions change places",
        |p, _| p.kind ^= 1,
    ),
    Fault::written("padding left out of the length", |event, given| {
        let mut all = write(event, given)?;
        let short = all.len() - unpadded(event, given)?;
        all[0] -= short as u8;
        Ok(all)
    }),
    Fault::written("no padding at the end", |event, given| {
        let mut all = write(event, given)?;
        let end = unpadded(event, given)?;
        all.truncate(end);
        all[0] = end as u8;
        Ok(all)
    }),
    Fault::written("an attribute's length with its padding", |event, given| {
        let mut parts = parts(event, given)?;
        for (_, value) in &mut parts.attributes {
            value.resize(value.len().next_multiple_of(4), 0);
        }
        Ok(parts.bytes())
    }),
    // what is refused
    Fault::written("flags over 65,535 cut", |event, given| {
        with(event, given, |event| event[1] &= 0xffff)
    }),
    Fault::written("flags of 65,535 refused", |event, given| {
        refused_if(event, given, event.get(1) == Some(&65_535))
    }),
    Fault::written("flags of an address refused", |event, given| {
        let address = matches!(event.first(), Some(1 | 2));
        refused_if(event, given, address && event.get(1) != Some(&0))
    }),
    Fault::written("a kind's low byte", |event, given| {
        with(event, given, |event| event[0] &= 0xff)
    }),
    Fault::written("other kinds as deletions of routes", |event, given| {
        with(event, given, |event| event[0] = event[0].clamp(1, 4))
    }),
    Fault::written("words behind an address looked at", |event, given| {
        let address = matches!(event.first(), Some(1 | 2));
        refused_if(
            event,
            given,
            address && event.iter().skip(22).any(|&w| w != 0),
        )
    }),
    Fault::written("a longer event taken", |event, given| {
        write(&event[..event.len().min(EVENT_WORDS)], given)
    }),
    Fault::written("an address's event taken at 22 words", |event, given| {
        let mut event = event.to_vec();
        if matches!(event[..], [1 | 2, ..]) && event.len() >= 22 {
            event.resize(EVENT_WORDS, 0);
        }
        write(&event, given)
    }),
    Fault::written("an unfit prefix or length cut", |event, given| {
        with(event, given, |event| event[4] = event[4].min(32))
    }),
    Fault::written("host bits taken", |event, given| {
        with(event, given, |event| {
            if event[0] > 2 && event[4] < 32 {
                event[3] &= !(u32::MAX >> event[4]);
            }
        })
    }),
    Fault::written("any kind of route taken", |event, given| {
        let mut parts = with_parts(event, given, |event| {
            if event[0] > 2 {
                event[7] = 1;
            }
        })?;
        if event[0] > 2 {
            parts.fixed[7] = event[7] as u8;
        }
        Ok(parts.bytes())
    }),
    Fault::written("bytes after a label taken", |event, given| {
        with(event, given, |event| {
            if event[0] <= 2 && event[10] <= 15 {
                let kept = event[10] as usize;
                let mut bytes = crate::port::bytes(&event[11..15]);
                bytes[kept..].fill(0);
                event[11..15].copy_from_slice(&words(&bytes));
            }
        })
    }),
    Fault::lent("201 before 200", |event, message, given| {
        match write(&exact(event), given) {
            Err(number) => Reply::refused(number),
            written => lent(written, message),
        }
    }),
    Fault::lent(
        "no more room asked for than taken",
        |event, message, given| match write(&exact(event), given) {
            Ok(bytes) if message.len() >= bytes.len() => {
                message[..bytes.len()].copy_from_slice(&bytes);
                Reply::value(bytes.len() as u32)
            }
            Ok(_) => Reply::refused(UNFIT_BUFFER),
            written => lent(written, message),
        },
    ),
    Fault::lent(
        "a message of 216 bytes too short",
        |event, message, given| {
            if message.len() == MESSAGE_BYTES {
                return Reply::refused(UNFIT_BUFFER);
            }
            lent(write(&exact(event), given), message)
        },
    ),
    Fault::lent("a part of a word overlooked", |event, message, given| {
        lent(write(&words(event), given), message)
    }),
    Fault::lent("the message cleared behind", |event, message, given| {
        let reply = lent(write(&exact(event), given), message);
        if reply.number == 0 {
            message[reply.value as usize..].fill(0);
        }
        reply
    }),
    Fault::lent("padding that isn't written", |event, message, given| {
        let before = message.to_vec();
        let words = exact(event);
        let reply = lent(write(&words, given), message);
        if let (0, Ok(parts)) = (reply.number, parts(&words, given)) {
            for at in padding(&parts) {
                message[at] = before[at];
            }
        }
        reply
    }),
    Fault::lent("a refusal that writes", |event, message, given| {
        let reply = lent(write(&exact(event), given), message);
        if let (UNFIT_STATE, Some(first)) = (reply.number, message.first_mut()) {
            *first ^= 1;
        }
        reply
    }),
    Fault::lent("a reply of words", |event, message, given| {
        let reply = lent(write(&exact(event), given), message);
        Reply {
            value: reply.value / 4,
            ..reply
        }
    }),
];

/// The value of a code, in its place.
fn put(parts: &mut Parts, code: u16, new: Vec<u8>) {
    parts.attributes.retain(|(other, _)| *other != code);
    let before = parts.attributes.iter().take_while(|(c, _)| *c < code);
    let at = before.count();
    parts.attributes.insert(at, (code, new));
}

fn zero_if(parts: &mut Parts, holds: bool, code: u16) {
    if holds {
        put(parts, code, vec![0; 4]);
    }
}

fn drop_if(parts: &mut Parts, holds: bool, code: u16) {
    parts
        .attributes
        .retain(|(other, _)| !holds || *other != code);
}

fn recode(parts: &mut Parts, code: u16, new: u16) {
    for (other, _) in &mut parts.attributes {
        if *other == code {
            *other = new;
        }
    }
}

fn value(parts: &mut Parts, code: u16, change: impl Fn(&mut Vec<u8>)) {
    let found = parts
        .attributes
        .iter_mut()
        .find(|(other, _)| *other == code);
    if let Some((_, value)) = found {
        change(value);
    }
}

/// Changes the list of metrics, where there is one.
fn nested(parts: &mut Parts, row: &RouteRow, change: impl Fn(&mut Vec<(u16, Vec<u8>)>)) {
    value(parts, rta::METRICS, |value| {
        let mut all = metrics(row);
        change(&mut all);
        *value = list(&all);
    });
}

fn life(parts: &mut Parts, preferred: u32, valid: u32) {
    value(parts, ifa::CACHEINFO, |value| {
        let both = [preferred, valid].map(u32::to_le_bytes);
        value[..8].copy_from_slice(both.as_flattened());
    });
}

/// Writes another event in this one's place; only whole ones are changed.
fn with(event: &[u32], given: Given, change: impl Fn(&mut [u32])) -> Written {
    with_parts(event, given, change).map(|parts| parts.bytes())
}

fn with_parts(event: &[u32], given: Given, change: impl Fn(&mut [u32])) -> Result<Parts, u32> {
    let mut event = event.to_vec();
    if event.len() == EVENT_WORDS {
        change(&mut event);
    }
    parts(&event, given)
}

fn refused_if(event: &[u32], given: Given, holds: bool) -> Written {
    if holds {
        return Err(UNFIT_STATE);
    }
    write(event, given)
}

/// The bytes of a message without the last attribute's padding.
fn unpadded(event: &[u32], given: Given) -> Result<usize, u32> {
    let parts = parts(event, given)?;
    let last = parts.attributes.last().map_or(0, |(_, value)| value.len());
    let pad = last.next_multiple_of(4) - last;
    Ok(parts.bytes().len() - pad)
}

/// Where a message has padding.
fn padding(parts: &Parts) -> Vec<usize> {
    let mut all = Vec::new();
    let mut at = HEADER + parts.fixed.len();
    for (_, value) in &parts.attributes {
        let end = at + 4 + value.len();
        at = end.next_multiple_of(4);
        all.extend(end..at);
    }
    all
}
