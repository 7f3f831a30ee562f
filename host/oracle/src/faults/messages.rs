//! Faults in the reading of messages. Most change a message's parts before
//! the reader makes a request of them.
use crate::call::Reply;
use crate::message::{
    Attribute, BAD_ATTRIBUTE, BAD_LENGTH, DEL_ADDRESS, DEL_ROUTE, EXCL, FAMILY, HEADER, LABEL,
    METRICS, Message, Model, NEW_ADDRESS, NEW_ROUTE, NOT_IPV4, Read, Reader, attributes, cut,
    fixed, ifa, lent, read, request, rta, text,
};
use crate::words;

/// A reader that goes wrong in one way.
#[derive(Clone, Copy)]
pub struct Fault {
    pub name: &'static str,
    run: Run,
}

#[derive(Clone, Copy)]
enum Run {
    Reads(fn(&[u8], u32) -> Read),
    Lent(fn(&[u8], &mut [u8], u32) -> Reply),
}

impl Fault {
    const fn reads(name: &'static str, run: fn(&[u8], u32) -> Read) -> Self {
        let run = Run::Reads(run);
        Self { name, run }
    }
    const fn lent(name: &'static str, run: fn(&[u8], &mut [u8], u32) -> Reply) -> Self {
        let run = Run::Lent(run);
        Self { name, run }
    }
}

impl Reader for Fault {
    fn name(&self) -> String {
        self.name.to_string()
    }
    fn read(&mut self, message: &[u8], request: &mut [u8], up: u32) -> Reply {
        match self.run {
            Run::Reads(read) => lent(read(message, up), request),
            Run::Lent(run) => run(message, request, up),
        }
    }
}

pub const FAULTS: &[Fault] = &[
    Fault::reads("the first attribute wins", |m, up| {
        changed(m, up, |m| m.attributes.reverse())
    }),
    Fault::reads("the family before the lengths", family_first),
    Fault::reads("the sizes before the family", |m, up| {
        let as_ipv4 = changed(m, up, |m| m.fixed = of_ipv4(m.fixed));
        match read(m, up) {
            Err(NOT_IPV4) if as_ipv4 == Err(BAD_ATTRIBUTE) => as_ipv4,
            right => right,
        }
    }),
    Fault::reads("another type read on", |m, up| match read(m, up) {
        Err(NOT_IPV4) if cut_as(m, NEW_ROUTE).is_err() => Err(BAD_LENGTH),
        right => right,
    }),
    Fault::reads("a label of 16 accepted", |m, up| {
        changed(m, up, |m| {
            labels(m, |label| match text(label).len() {
                16 => &label[..LABEL],
                _ => label,
            })
        })
    }),
    Fault::reads("a label of 15 refused", |m, up| {
        refusing(m, up, BAD_ATTRIBUTE, |m| {
            !m.route() && m.all(ifa::LABEL).any(|label| text(label).len() == LABEL)
        })
    }),
    Fault::reads("a label held to its zero's place", |m, up| {
        refusing(m, up, BAD_ATTRIBUTE, |m| {
            !m.route() && m.all(ifa::LABEL).any(|label| label.len() > LABEL + 1)
        })
    }),
    Fault::reads("an empty label taken for none", |m, up| {
        changed(m, up, |m| {
            let route = m.route();
            let empty = |a: &Attribute| a.code() == ifa::LABEL && text(a.value).is_empty();
            m.attributes.retain(|a| route || !empty(a));
        })
    }),
    Fault::reads("top bits kept", |m, up| {
        changed(m, up, |m| {
            m.attributes.retain(|a| a.code() == a.raw);
        })
    }),
    Fault::reads("a metric's top bits kept", |m, up| {
        altered(m, up, NEW_ROUTE, |m, w| {
            if last_metrics(m).iter().any(|a| a.code() != a.raw) {
                w[15] = 22;
                w[16..33].fill(0);
            }
        })
    }),
    Fault::reads("nested lengths unchecked", |m, up| {
        changed(m, up, |m| {
            let route = m.route();
            let bad = |a: &Attribute| a.code() == rta::METRICS && attributes(a.value).is_err();
            m.attributes.retain(|a| !route || !bad(a));
        })
    }),
    Fault::reads("only the last list's lengths checked", |m, up| {
        changed(m, up, only_last_metrics)
    }),
    Fault::reads("all lists' errors count", |m, up| match read(m, up) {
        Ok((NEW_ROUTE, mut words)) if some_above(m) => {
            words[15] = 22;
            words[16..33].fill(0);
            Ok((NEW_ROUTE, words))
        }
        right => right,
    }),
    Fault::reads("a type above 17 skipped", |m, up| match read(m, up) {
        Ok((NEW_ROUTE, mut words)) => {
            words[15] = 0;
            Ok((NEW_ROUTE, words))
        }
        right => right,
    }),
    Fault::reads("a type above 17 held to four bytes", |m, up| {
        metric_sizes(m, up, |t| t > METRICS)
    }),
    Fault::reads("a type 0 held to four bytes", |m, up| {
        metric_sizes(m, up, |t| t == 0)
    }),
    Fault::reads("a deletion's absent list present", |m, up| {
        altered(m, up, DEL_ROUTE, |_, w| w[13] = 1)
    }),
    Fault::reads("a deletion without metrics has no list", |m, up| {
        altered(m, up, DEL_ROUTE, |m, w| {
            w[13] &= u32::from(m.all(rta::METRICS).next().is_some());
        })
    }),
    Fault::reads("pairs as they come", |m, up| {
        altered(m, up, DEL_ROUTE, |_, w| {
            let count = w[14] as usize;
            w[15..].as_chunks_mut::<2>().0[..count].reverse();
        })
    }),
    Fault::reads("a metric's type as its index", |m, up| {
        altered(m, up, DEL_ROUTE, |_, w| {
            for i in 0..w[14] as usize {
                w[15 + 2 * i] += 1;
            }
        })
    }),
    Fault::reads("replace with EXCL", |m, up| {
        changed(m, up, |m| {
            if m.kind == NEW_ADDRESS {
                m.flags &= !EXCL;
            }
        })
    }),
    Fault::reads("the table byte before the attribute", |m, up| {
        without(m, up, true, rta::TABLE)
    }),
    Fault::reads("the flags byte before the attribute", |m, up| {
        without(m, up, false, ifa::FLAGS)
    }),
    Fault::reads("the table attribute's low byte", |m, up| {
        altered(m, up, NEW_ROUTE, |_, w| w[0] &= 255)
    }),
    Fault::reads("a gateway of 0 taken for none", |m, up| {
        altered(m, up, NEW_ROUTE, |_, w| w[10] &= u32::from(w[11] != 0))
    }),
    Fault::reads("lifetimes in the other order", |m, up| {
        altered(m, up, NEW_ADDRESS, |_, w| w.swap(14, 15))
    }),
    Fault::reads("no cache information: no life", |m, up| {
        altered(m, up, NEW_ADDRESS, |m, w| {
            if m.all(ifa::CACHEINFO).next().is_none() {
                w[14..16].fill(0);
            }
        })
    }),
    Fault::reads("no label: an empty one", |m, up| {
        altered(m, up, NEW_ADDRESS, |m, w| {
            if m.all(ifa::LABEL).next().is_none() {
                w[8..13].fill(0);
            }
        })
    }),
    Fault::reads("a new address without an address refused", |m, up| {
        refusing(m, up, BAD_ATTRIBUTE, |m| {
            m.kind == NEW_ADDRESS && m.all(ifa::ADDRESS).next().is_none()
        })
    }),
    Fault::reads("a deletion's label is lo if missing", |m, up| {
        altered(m, up, DEL_ADDRESS, |_, w| {
            if w[5] == 0 {
                w[5] = 1;
                w[6..].copy_from_slice(&words::label(b"lo"));
            }
        })
    }),
    Fault::reads("a deletion's other attributes sized", |m, up| {
        refusing(m, up, BAD_ATTRIBUTE, |m| {
            m.kind == DEL_ADDRESS && m.all(ifa::CACHEINFO).any(|v| v.len() != 16)
        })
    }),
    Fault::reads("only the last one's size checked", |m, up| {
        let last = |m: &mut Message| {
            let all = m.attributes.clone();
            let mut i = 0;
            m.attributes.retain(|a| {
                i += 1;
                a.code() == rta::METRICS || all[i..].iter().all(|b| b.code() != a.code())
            });
        };
        changed(m, up, last)
    }),
    Fault::reads("longer attributes taken", |m, up| {
        changed(m, up, |m| {
            if m.route() {
                for a in &mut m.attributes {
                    let long = a.code() != rta::METRICS && a.value.len() > 4;
                    a.value = if long { &a.value[..4] } else { a.value };
                }
            }
        })
    }),
    Fault::reads("spare bytes refused", |m, up| match read(m, up) {
        Ok(_) if spare(m) => Err(BAD_LENGTH),
        right => right,
    }),
    Fault::reads("nested spare bytes refused", |m, up| {
        refusing(m, up, BAD_LENGTH, |m| {
            let mut lists = m.all(rta::METRICS);
            m.route() && lists.any(|list| padded(list) < list.len())
        })
    }),
    Fault::reads("missing padding refused", |m, up| match read(m, up) {
        Ok(_) if unpadded(m) => Err(BAD_LENGTH),
        right => right,
    }),
    Fault::reads("the lent bytes' end for the message's", |m, up| {
        let mut whole = m.to_vec();
        if let (Ok(_), Some(length)) = (read(m, up), whole.first_chunk_mut()) {
            *length = (m.len() as u32).to_le_bytes();
        }
        read(&whole, up)
    }),
    Fault::reads("the host's word cut to a bit", |m, up| read(m, up & 1)),
    Fault::reads("addresses in the host's order", |m, up| {
        altered(m, up, NEW_ADDRESS, |_, w| w[0] = w[0].swap_bytes())
    }),
    Fault::reads("a missing device is the loopback", |m, up| {
        altered(m, up, NEW_ROUTE, |m, w| {
            w[12] |= u32::from(m.all(rta::OIF).next().is_none());
        })
    }),
    Fault::lent("a request of 48 words taken", |m, request, up| {
        let mut longer = request.to_vec();
        if request.len() / 4 == 48 {
            longer.resize(HEADER + request.len(), 0);
        }
        let reply = Model.read(m, &mut longer, up);
        request.copy_from_slice(&longer[..request.len()]);
        reply
    }),
    Fault::lent("a request of whole words alone", |m, request, up| {
        match request.len() % 4 {
            0 => Model.read(m, request, up),
            _ => Reply::refused(200),
        }
    }),
    Fault::lent(
        "200 behind the other refusals",
        |m, request, up| match read(m, up) {
            Err(number) => Reply::refused(number),
            Ok(_) => Model.read(m, request, up),
        },
    ),
    Fault::lent("the rest of the request cleared", |m, request, up| {
        let reply = Model.read(m, request, up);
        if reply.number == 0 {
            request[4 * reply.second as usize..].fill(0);
        }
        reply
    }),
    Fault::lent("a refusal that writes", |m, request, up| {
        let reply = Model.read(m, request, up);
        if reply.number == BAD_ATTRIBUTE {
            request[..4].fill(0);
        }
        reply
    }),
    Fault::lent("bytes written in place of words", |m, request, up| {
        let reply = Model.read(m, request, up);
        Reply {
            second: 4 * reply.second,
            ..reply
        }
    }),
];

/// The reading of a message whose parts are changed.
fn changed(lent: &[u8], up: u32, change: impl FnOnce(&mut Message)) -> Read {
    let mut message = cut(lent)?;
    change(&mut message);
    request(&message, up)
}

/// The reading, refused where something holds that mustn't matter.
fn refusing(lent: &[u8], up: u32, number: u32, holds: impl Fn(&Message) -> bool) -> Read {
    let right = read(lent, up)?;
    if holds(&cut(lent)?) {
        Err(number)
    } else {
        Ok(right)
    }
}

/// The reading of one type, its words changed.
fn altered(lent: &[u8], up: u32, kind: u16, change: fn(&Message, &mut [u32])) -> Read {
    let (found, mut words) = read(lent, up)?;
    if found == kind {
        change(&cut(lent)?, &mut words);
    }
    Ok((found, words))
}

fn without(lent: &[u8], up: u32, route: bool, code: u16) -> Read {
    read(lent, up)?;
    changed(lent, up, |m| {
        let of = m.route() == route;
        m.attributes.retain(|a| !of || a.code() != code);
    })
}

fn family_first(lent: &[u8], up: u32) -> Read {
    let kind = lent
        .get(4..6)
        .map(|b| u16::from(b[0]) | u16::from(b[1]) << 8);
    match (kind.and_then(fixed), lent.get(HEADER)) {
        (Some(_), Some(&family)) if family != FAMILY => Err(NOT_IPV4),
        _ => read(lent, up),
    }
}

/// The fixed part with the right family.
fn of_ipv4(fixed: &[u8]) -> &'static [u8] {
    const ADDRESS: &[u8] = &[FAMILY, 0, 0, 0, 0, 0, 0, 0];
    const ROUTE: &[u8] = &[FAMILY, 0, 0, 0, 0, 0, 0, 0, 0, 0, 0, 0];
    if fixed.len() == ADDRESS.len() {
        ADDRESS
    } else {
        ROUTE
    }
}

/// Whether a message is one of another type.
fn cut_as(lent: &[u8], kind: u16) -> Result<(), u32> {
    let mut other = lent.to_vec();
    other[4..6].copy_from_slice(&kind.to_le_bytes());
    cut(&other).map(drop)
}

fn labels(m: &mut Message, change: fn(&[u8]) -> &[u8]) {
    let route = m.route();
    for a in m
        .attributes
        .iter_mut()
        .filter(|a| !route && a.code() == ifa::LABEL)
    {
        a.value = change(a.value);
    }
}

fn last_metrics<'a>(m: &Message<'a>) -> Vec<Attribute<'a>> {
    let last = m.all(rta::METRICS).last();
    last.map_or(Vec::new(), |v| attributes(v).unwrap_or_default())
}

fn only_last_metrics(m: &mut Message) {
    let is = |a: &Attribute| a.code() == rta::METRICS;
    let last = m.attributes.iter().rposition(is);
    let mut i = 0;
    let route = m.route();
    m.attributes.retain(|a| {
        i += 1;
        !route || !is(a) || Some(i - 1) == last
    });
}

fn some_above(lent: &[u8]) -> bool {
    let m = cut(lent).expect("it was read");
    let mut lists = m
        .all(rta::METRICS)
        .map(|v| attributes(v).unwrap_or_default());
    lists.any(|list| list.iter().any(|a| a.code() > METRICS))
}

/// Metrics of some types held to four bytes, too.
fn metric_sizes(lent: &[u8], up: u32, of: fn(u16) -> bool) -> Read {
    refusing(lent, up, BAD_ATTRIBUTE, |m| {
        let mut lists = m
            .all(rta::METRICS)
            .map(|v| attributes(v).unwrap_or_default());
        m.route() && lists.any(|list| list.iter().any(|a| of(a.code()) && a.value.len() != 4))
    })
}

/// The bytes of the attributes of a list with their padding.
fn padded(list: &[u8]) -> usize {
    let all = attributes(list).unwrap_or_default();
    all.iter()
        .map(|a| (4 + a.value.len()).next_multiple_of(4))
        .sum()
}

/// A message's own list.
fn own_list(lent: &[u8]) -> &[u8] {
    let m = cut(lent).expect("it was read");
    let length = lent
        .first_chunk()
        .map_or(0, |four| u32::from_le_bytes(*four));
    &lent[HEADER + m.fixed.len()..length as usize]
}

fn spare(lent: &[u8]) -> bool {
    let list = own_list(lent);
    padded(list) < list.len()
}

fn unpadded(lent: &[u8]) -> bool {
    let list = own_list(lent);
    padded(list) > list.len()
}
