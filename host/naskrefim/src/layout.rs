//! Records as document 01's words, and back.
use crate::records::{Ask4, Event, Kind, Life, Lifetimes, Metrics, Route4, Select4, V4};
use crate::{ADD_ROUTE4_WORDS, ADD_V4_WORDS, DEL_ROUTE4_WORDS, DEL_V4_WORDS};
use crate::{ADDRESS_LIMIT, ADDRESS_WORDS, EVENT_WORDS, ROUTE_LIMIT, ROUTE_WORDS, TABLE_LIMIT};
use crate::{Refused, Request};
use alloc::vec::Vec;
use core::net::Ipv4Addr;

/// Where a state's lists begin, behind its three counts.
pub(crate) const ADDRESSES_AT: usize = 3;
pub(crate) const ROUTES_AT: usize = ADDRESSES_AT + ADDRESS_LIMIT * ADDRESS_WORDS;
pub(crate) const TABLES_AT: usize = ROUTES_AT + ROUTE_LIMIT * ROUTE_WORDS;
/// And its change count, the low word first.
pub(crate) const COUNT_AT: usize = TABLES_AT + TABLE_LIMIT;
/// And the row counts of its tables.
pub(crate) const ROW_COUNTS_AT: usize = COUNT_AT + 2;

/// The word of the prefix, or of the netmask, in the two requests.
pub(crate) const ADD_V4_PREFIX: usize = 2;
pub(crate) const DEL_V4_PREFIX: usize = 4;

fn optional(value: Option<Ipv4Addr>) -> [u32; 2] {
    [u32::from(value.is_some()), value.map_or(0, u32::from)]
}

/// A label's length and its four words. One that is too long keeps its
/// length, which the library refuses.
fn label_words(label: &[u8]) -> [u32; 5] {
    let mut bytes = [0; 16];
    let kept = label.len().min(16);
    bytes[..kept].copy_from_slice(&label[..kept]);
    let mut words = [count(label.len()), 0, 0, 0, 0];
    for (word, four) in words[1..].iter_mut().zip(bytes.as_chunks().0) {
        *word = u32::from_le_bytes(*four);
    }
    words
}

/// A count or an index as a word; one that doesn't fit is refused.
pub(crate) fn count(n: usize) -> u32 {
    u32::try_from(n).unwrap_or(u32::MAX)
}

/// The 14 words that a request and a row have in common.
fn address_words(a: &V4, words: &mut [u32]) {
    words[..3].copy_from_slice(&[a.local.into(), a.address.into(), a.prefix.into()]);
    words[3..5].copy_from_slice(&optional(a.broadcast));
    words[5..8].copy_from_slice(&[a.scope.into(), a.flags, a.proto.into()]);
    words[8..13].copy_from_slice(&label_words(&a.label));
    words[13] = a.priority;
}

pub(crate) fn address_row(a: &V4) -> [u32; ADDRESS_WORDS] {
    let mut row = [0; ADDRESS_WORDS];
    address_words(a, &mut row);
    life_words(&a.life, &mut row);
    row
}

/// The row of an address that has nothing but a life.
pub(crate) fn life_row(life: &Life) -> [u32; ADDRESS_WORDS] {
    let mut row = [0; ADDRESS_WORDS];
    life_words(life, &mut row);
    row
}

fn life_words(life: &Life, row: &mut [u32; ADDRESS_WORDS]) {
    row[14..16].copy_from_slice(&[life.valid, life.preferred]);
    row[16..18].copy_from_slice(&halves(life.created));
    row[18..20].copy_from_slice(&halves(life.changed));
}

pub(crate) fn add_v4(
    new: &V4,
    Lifetimes { valid, preferred }: Lifetimes,
    replace: bool,
    up: bool,
) -> [u32; ADD_V4_WORDS] {
    let mut words = [0; ADD_V4_WORDS];
    address_words(new, &mut words);
    words[14..].copy_from_slice(&[valid, preferred, replace.into(), up.into()]);
    words
}

pub(crate) fn del_v4(
    local: Option<Ipv4Addr>,
    address: Option<Ipv4Addr>,
    prefix: u8,
    label: Option<&[u8]>,
) -> [u32; DEL_V4_WORDS] {
    let mut words = [0; DEL_V4_WORDS];
    words[..2].copy_from_slice(&optional(local));
    words[2..4].copy_from_slice(&optional(address));
    words[4] = prefix.into();
    words[5] = label.is_some().into();
    words[6..].copy_from_slice(&label_words(label.unwrap_or(&[])));
    words
}

/// The 12 words that requests and rows of routes begin with.
macro_rules! route_words {
    ($r:expr, $kind:expr, $words:expr) => {
        $words[..5].copy_from_slice(&[
            $r.table,
            $r.dst.into(),
            $r.len.into(),
            $r.tos.into(),
            $r.priority,
        ]);
        $words[5..8].copy_from_slice(&[$kind.into(), $r.proto.into(), $r.scope.into()]);
        $words[8..10].copy_from_slice(&optional($r.prefsrc));
        $words[10..12].copy_from_slice(&optional($r.gateway));
    };
}

pub(crate) fn route_row(r: &Route4) -> [u32; ROUTE_WORDS] {
    let mut row = [0; ROUTE_WORDS];
    route_words!(r, r.kind.code(), row);
    row[12..15].copy_from_slice(&[r.device.into(), r.onlink.into(), r.uses_gateway.into()]);
    row[15..].copy_from_slice(&r.metrics);
    row
}

pub(crate) fn add_route4(ask: &Ask4, up: bool) -> [u32; ADD_ROUTE4_WORDS] {
    let mut words = [0; ADD_ROUTE4_WORDS];
    route_words!(ask, ask.kind, words);
    words[12..15].copy_from_slice(&[ask.oif, ask.flags, ask.request.into()]);
    match &ask.metrics {
        Ok(metrics) => words[16..33].copy_from_slice(metrics),
        Err(error) => words[15] = error.number(),
    }
    words[33] = up.into();
    words
}

pub(crate) fn del_route4(select: &Select4) -> [u32; DEL_ROUTE4_WORDS] {
    let mut words = [0; DEL_ROUTE4_WORDS];
    route_words!(select, select.kind, words);
    words[12] = select.oif;
    if let Some(pairs) = &select.metrics {
        words[13] = 1;
        words[14] = count(pairs.len());
        for (two, &(index, value)) in words[15..].as_chunks_mut().0.iter_mut().zip(pairs) {
            *two = [count(index), value];
        }
    }
    words
}

fn halves(stamp: u64) -> [u32; 2] {
    [stamp as u32, (stamp >> 32) as u32]
}

pub(crate) fn whole(low: u32, high: u32) -> u64 {
    u64::from(low) | u64::from(high) << 32
}

/// A byte field of words that the library wrote.
fn byte(word: u32) -> u8 {
    u8::try_from(word).expect("a byte field of a well-formed row")
}

fn there(present: u32, value: u32) -> Option<Ipv4Addr> {
    (present == 1).then(|| value.into())
}

/// The first bytes of a label's words.
fn label(length: u32, words: &[u32]) -> Vec<u8> {
    let mut label = [0; 16];
    for (four, word) in label.as_chunks_mut().0.iter_mut().zip(words) {
        *four = word.to_le_bytes();
    }
    label[..length as usize].to_vec()
}

/// The address of the 14 words that a request and a row have in common.
fn address_of(words: &[u32], life: Life) -> V4 {
    V4 {
        local: words[0].into(),
        address: words[1].into(),
        prefix: byte(words[2]),
        broadcast: there(words[3], words[4]),
        scope: byte(words[5]),
        flags: words[6],
        proto: byte(words[7]),
        label: label(words[8], &words[9..13]),
        priority: words[13],
        life,
    }
}

/// The address of a well-formed row.
pub(crate) fn address(row: &[u32; ADDRESS_WORDS]) -> V4 {
    let life = Life {
        valid: row[14],
        preferred: row[15],
        created: whole(row[16], row[17]),
        changed: whole(row[18], row[19]),
    };
    address_of(row, life)
}

/// A route or a request for one: the twelve words that each begins with,
/// but for the kind, and what else it has.
macro_rules! of_route_words {
    ($of:ident, $words:ident: $($rest:tt)*) => {
        $of {
            table: $words[0],
            dst: $words[1].into(),
            len: byte($words[2]),
            tos: byte($words[3]),
            priority: $words[4],
            proto: byte($words[6]),
            scope: byte($words[7]),
            prefsrc: there($words[8], $words[9]),
            gateway: there($words[10], $words[11]),
            $($rest)*
        }
    };
}

/// The route of a well-formed row.
pub(crate) fn route(row: &[u32; ROUTE_WORDS]) -> Route4 {
    of_route_words! { Route4, row:
        kind: Kind::of(byte(row[5])).expect("a kind of a well-formed row"),
        device: row[12] == 1,
        onlink: row[13] == 1,
        uses_gateway: row[14] == 1,
        metrics: metrics(&row[15..]),
    }
}

fn metrics(words: &[u32]) -> Metrics {
    words.try_into().expect("as many words as metrics")
}

/// The request that `read` wrote for a message of type `of`.
pub(crate) fn request(of: u32, words: &[u32; DEL_ROUTE4_WORDS]) -> Request {
    match of {
        20 => Request::NewAddress {
            new: address_of(words, Life::default()),
            lifetimes: Lifetimes {
                valid: words[14],
                preferred: words[15],
            },
            replace: words[16] == 1,
            up: words[17] == 1,
        },
        21 => Request::DelAddress {
            local: there(words[0], words[1]),
            address: there(words[2], words[3]),
            prefix: byte(words[4]),
            label: (words[5] == 1).then(|| label(words[6], &words[7..11])),
        },
        24 => Request::NewRoute {
            ask: of_route_words! { Ask4, words:
                kind: byte(words[5]),
                oif: words[12],
                flags: words[13],
                request: u16::try_from(words[14]).expect("a header's flags have 16 bits"),
                metrics: match Refused::of(words[15]) {
                    None => Ok(metrics(&words[16..33])),
                    Some(error) => Err(error),
                },
            },
            up: words[33] == 1,
        },
        25 => {
            let pairs = &words[15..].as_chunks().0[..words[14] as usize];
            let pair = |&[index, value]: &[u32; 2]| (index as usize, value);
            Request::DelRoute(of_route_words! { Select4, words:
                kind: byte(words[5]),
                oif: words[12],
                metrics: (words[13] == 1).then(|| pairs.iter().map(pair).collect()),
            })
        }
        other => panic!("a message that is read has type 20, 21, 24 or 25, not {other}"),
    }
}

/// The row of an event, as a call that tells it writes it.
pub(crate) fn event_row(event: &Event) -> [u32; EVENT_WORDS] {
    let mut row = [0; EVENT_WORDS];
    let [what, flags, rest @ ..] = &mut row;
    match event {
        Event::NewAddr4(a) | Event::DelAddr4(a) => {
            rest[..ADDRESS_WORDS].copy_from_slice(&address_row(a));
        }
        Event::NewRoute4(r, _) | Event::DelRoute4(r) => *rest = route_row(r),
        Event::LinkDown | Event::IpDisabled => {}
    }
    *what = match event {
        Event::NewAddr4(_) => 1,
        Event::DelAddr4(_) => 2,
        Event::NewRoute4(..) => 3,
        Event::DelRoute4(_) => 4,
        Event::LinkDown => 5,
        Event::IpDisabled => 6,
    };
    if let Event::NewRoute4(_, of) = event {
        *flags = (*of).into();
    }
    row
}

/// The event of a row that the library wrote.
pub(crate) fn event(row: &[u32; EVENT_WORDS]) -> Event {
    let [what, flags, rest @ ..] = row;
    match what {
        1 => Event::NewAddr4(address_in(rest)),
        2 => Event::DelAddr4(address_in(rest)),
        3 => Event::NewRoute4(
            route(rest),
            u16::try_from(*flags).expect("an event's flags have 16 bits"),
        ),
        4 => Event::DelRoute4(route(rest)),
        5 => Event::LinkDown,
        6 => Event::IpDisabled,
        other => panic!("an event row begins with 1 to 6, not {other}"),
    }
}

/// The address in the place of a route, with zeros behind it.
fn address_in(words: &[u32; ROUTE_WORDS]) -> V4 {
    let (row, _) = words.split_first_chunk().expect("an address is shorter");
    address(row)
}
