//! Words as `naskrefim`'s records, and back: written once more, so that the
//! interface's own way between them is compared too.
use naskrefim::{Ask4, Event, Kind, Life, Refused, Request, Route4, Select4, V4};
use std::net::Ipv4Addr;

fn byte(word: u32) -> u8 {
    u8::try_from(word).expect("a byte field was checked")
}

fn flag(word: u32) -> bool {
    word == 1
}

/// The value after a presence word, if it is there.
pub fn there(present: u32, value: u32) -> Option<Ipv4Addr> {
    flag(present).then(|| Ipv4Addr::from(value))
}

pub fn label(length: u32, words: &[u32]) -> Vec<u8> {
    let bytes = words.iter().flat_map(|w| w.to_le_bytes());
    bytes.take(length as usize).collect()
}

/// The address of a row, or of a request's 14 words.
pub fn address(w: &[u32]) -> V4 {
    let word = |at: usize| u64::from(w.get(at).copied().unwrap_or(0));
    let mut new = V4::new(w[0].into(), w[1].into(), byte(w[2]), byte(w[5]));
    new.broadcast = there(w[3], w[4]);
    new.flags = w[6];
    new.proto = byte(w[7]);
    new.label = label(w[8], &w[9..13]);
    new.priority = w[13];
    new.life = Life {
        valid: word(14) as u32,
        preferred: word(15) as u32,
        created: word(16) + (word(17) << 32),
        changed: word(18) + (word(19) << 32),
    };
    new
}

/// A route or a request for one: the twelve words with which each begins,
/// but for the kind, and what else it has.
macro_rules! route {
    ($of:ident of $w:ident: $($rest:tt)*) => {
        $of {
            table: $w[0],
            dst: $w[1].into(),
            len: byte($w[2]),
            tos: byte($w[3]),
            priority: $w[4],
            proto: byte($w[6]),
            scope: byte($w[7]),
            prefsrc: there($w[8], $w[9]),
            gateway: there($w[10], $w[11]),
            $($rest)*
        }
    };
}

pub fn ask(w: &[u32]) -> Ask4 {
    route! { Ask4 of w:
        kind: byte(w[5]),
        oif: w[12],
        flags: w[13],
        request: u16::try_from(w[14]).expect("16 bits were checked"),
        metrics: match Refused::of(w[15]) {
            None => Ok(w[16..33].try_into().expect("17 metrics")),
            Some(error) => Err(error),
        },
    }
}

pub fn select(w: &[u32]) -> Select4 {
    let pairs = w[15..].chunks_exact(2).take(w[14] as usize);
    route! { Select4 of w:
        kind: byte(w[5]),
        oif: w[12],
        metrics: flag(w[13]).then(|| pairs.map(|p| (p[0] as usize, p[1])).collect()),
    }
}

pub fn route(w: &[u32]) -> Route4 {
    route! { Route4 of w:
        kind: Kind::of(byte(w[5])).expect("a kind was checked"),
        device: flag(w[12]),
        onlink: flag(w[13]),
        uses_gateway: flag(w[14]),
        metrics: w[15..].try_into().expect("17 metrics"),
    }
}

fn push(words: &mut Vec<u32>, value: Option<Ipv4Addr>) {
    words.push(u32::from(value.is_some()));
    words.push(value.map_or(0, u32::from));
}

/// A label's length and its words.
fn label_words(label: &[u8]) -> Vec<u32> {
    let mut words = vec![label.len() as u32];
    let mut bytes = label.to_vec();
    bytes.resize(16, 0);
    words.extend(oracle::port::words(&bytes));
    words
}

/// The 14 words of a request and a row.
fn named_words(a: &V4) -> Vec<u32> {
    let mut words = vec![a.local.into(), a.address.into(), a.prefix.into()];
    push(&mut words, a.broadcast);
    words.extend([a.scope.into(), a.flags, a.proto.into()]);
    words.extend(label_words(&a.label));
    words.push(a.priority);
    words
}

pub fn address_words(a: &V4) -> Vec<u32> {
    let mut words = named_words(a);
    words.extend([a.life.valid, a.life.preferred]);
    for stamp in [a.life.created, a.life.changed] {
        words.extend([stamp as u32, (stamp >> 32) as u32]);
    }
    words
}

/// The twelve words with which a route and a request for one begin.
macro_rules! twelve {
    ($r:expr, $kind:expr) => {{
        let r = $r;
        let mut words = vec![r.table, r.dst.into(), r.len.into(), r.tos.into()];
        words.extend([r.priority, $kind.into(), r.proto.into(), r.scope.into()]);
        push(&mut words, r.prefsrc);
        push(&mut words, r.gateway);
        words
    }};
}

pub fn route_words(r: &Route4) -> Vec<u32> {
    let mut words: Vec<u32> = twelve!(r, r.kind.code());
    words.extend([r.device, r.onlink, r.uses_gateway].map(u32::from));
    words.extend(r.metrics);
    words
}

/// The type and the words of a request.
pub fn request_words(request: &Request) -> (u32, Vec<u32>) {
    match request {
        Request::NewAddress {
            new,
            lifetimes,
            replace,
            up,
        } => {
            let mut words = named_words(new);
            words.extend([lifetimes.valid, lifetimes.preferred]);
            words.extend([*replace, *up].map(u32::from));
            (20, words)
        }
        Request::DelAddress {
            local,
            address,
            prefix,
            label,
        } => {
            let mut words = Vec::new();
            push(&mut words, *local);
            push(&mut words, *address);
            words.extend([u32::from(*prefix), label.is_some().into()]);
            words.extend(label_words(label.as_deref().unwrap_or_default()));
            (21, words)
        }
        Request::NewRoute { ask, up } => {
            let mut words: Vec<u32> = twelve!(ask, ask.kind);
            words.extend([ask.oif, ask.flags, ask.request.into()]);
            words.push(ask.metrics.map_or_else(Refused::number, |_| 0));
            words.extend(ask.metrics.unwrap_or_default());
            words.push((*up).into());
            (24, words)
        }
        Request::DelRoute(select) => {
            let mut words: Vec<u32> = twelve!(select, select.kind);
            let pairs = select.metrics.as_deref().unwrap_or_default();
            words.extend([select.oif, select.metrics.is_some().into()]);
            words.push(pairs.len() as u32);
            words.extend(pairs.iter().flat_map(|&(i, value)| [i as u32, value]));
            words.resize(49, 0);
            (25, words)
        }
    }
}

/// The event of a row whose byte fields are bytes, and whose kind is one;
/// the rest need not be fit.
pub fn event(words: &[u32]) -> Option<Event> {
    let (what, flags) = (*words.first()?, u16::try_from(*words.get(1)?).ok()?);
    let row = words.get(2..34)?;
    let bytes = |places: &[usize]| places.iter().all(|&at| row[at] < 256);
    match what {
        1 | 2 if bytes(&[2, 5, 7]) => {
            let own = address(&row[..20]);
            Some(match what {
                1 => Event::NewAddr4(own),
                _ => Event::DelAddr4(own),
            })
        }
        3 | 4 if bytes(&[2, 3, 5, 6, 7]) && Kind::of(byte(row[5])).is_some() => {
            let route = route(row);
            Some(match what {
                3 => Event::NewRoute4(route, flags),
                _ => Event::DelRoute4(route),
            })
        }
        5 => Some(Event::LinkDown),
        6 => Some(Event::IpDisabled),
        _ => None,
    }
}

pub fn event_words(event: &Event) -> Vec<u32> {
    let (mut words, row) = match event {
        Event::NewAddr4(a) => (vec![1, 0], address_words(a)),
        Event::DelAddr4(a) => (vec![2, 0], address_words(a)),
        Event::NewRoute4(r, flags) => (vec![3, u32::from(*flags)], route_words(r)),
        Event::DelRoute4(r) => (vec![4, 0], route_words(r)),
        Event::LinkDown => (vec![5], vec![]),
        Event::IpDisabled => (vec![6], vec![]),
    };
    words.extend(row);
    words.resize(34, 0);
    words
}
