//! The child module of `interface.rs` that fills its lists from rows, runs
//! one call, and reads the lists back as rows. Both copies have it.
#[path = "native.rs"]
pub(crate) mod native;

use super::*;
use crate::{AddressRow, Answer, EventRow, Lists, Request, RouteRow};
use native::{Arguments, Native};

/// Runs one call on a namespace that has `lists` and nothing else.
pub(crate) fn run(lists: &Lists, request: &Request) -> (Answer, Lists) {
    let mut all = Native::of(&lists.addresses, &lists.routes, &lists.tables);
    let told = all.call(&Arguments::of(request));
    (told.answer(), all.lists())
}

pub(crate) fn mask(prefix: u8) -> u32 {
    mask4(prefix)
}

pub(crate) fn kind_error(code: u8) -> Option<Option<u32>> {
    Kind::of(code).map(|kind| {
        assert_eq!(kind.code(), code, "Kind::code undoes Kind::of");
        kind.error().map(|e| e.0)
    })
}

/// The constants that are public in the Rust and concern IPv4.
pub(crate) fn constants() -> Vec<(&'static str, u32)> {
    macro_rules! named {
        ($($name:ident)*) => { vec![$((stringify!($name), $name.into())),*] };
    }
    named! {
        SECONDARY NO_PREFIX_ROUTE PERMANENT DEPRECATED FOREVER
        SCOPE_UNIVERSE SCOPE_LINK SCOPE_HOST SCOPE_NOWHERE
        TABLE_DEFAULT TABLE_MAIN TABLE_LOCAL PROTO_KERNEL
        F_REPLACE F_EXCL F_CREATE F_APPEND
    }
}

/// The row of an IPv4 event; the IPv6 ones are struck out.
fn event_row(event: &Event) -> Option<EventRow> {
    let mut row = [0; 34];
    match event {
        Event::NewAddr4(a) => {
            row[0] = 1;
            row[2..22].copy_from_slice(&address_row(a));
        }
        Event::DelAddr4(a) => {
            row[0] = 2;
            row[2..22].copy_from_slice(&address_row(a));
        }
        Event::NewRoute4(r, flags) => {
            row[0] = 3;
            row[1] = u32::from(*flags);
            row[2..].copy_from_slice(&route_row(r));
        }
        Event::DelRoute4(r) => {
            row[0] = 4;
            row[2..].copy_from_slice(&route_row(r));
        }
        Event::NewAddr6(..) | Event::DelAddr6(..) => return None,
        Event::NewRoute6(..) | Event::DelRoute6(..) => return None,
    }
    Some(row)
}

fn byte(word: u32) -> u8 {
    u8::try_from(word).expect("a byte field was checked")
}
fn option(present: u32, value: u32) -> Option<Ipv4Addr> {
    (present == 1).then(|| Ipv4Addr::from(value))
}
fn label_of(length: u32, words: &[u32]) -> Vec<u8> {
    let bytes: Vec<u8> = words.iter().flat_map(|w| w.to_le_bytes()).collect();
    bytes[..length as usize].to_vec()
}

fn address_of(row: &AddressRow) -> V4 {
    V4 {
        local: Ipv4Addr::from(row[0]),
        address: Ipv4Addr::from(row[1]),
        prefix: byte(row[2]),
        broadcast: option(row[3], row[4]),
        scope: byte(row[5]),
        flags: row[6],
        proto: byte(row[7]),
        label: label_of(row[8], &row[9..13]),
        priority: row[13],
        life: Life {
            valid: row[14],
            preferred: row[15],
            created: u64::from(row[16]) | u64::from(row[17]) << 32,
            changed: u64::from(row[18]) | u64::from(row[19]) << 32,
        },
    }
}

fn address_row(a: &V4) -> AddressRow {
    let mut label = [0u8; 16];
    label[..a.label.len()].copy_from_slice(&a.label);
    let mut row = [0; 20];
    row[0] = u32::from(a.local);
    row[1] = u32::from(a.address);
    row[2] = u32::from(a.prefix);
    row[3] = u32::from(a.broadcast.is_some());
    row[4] = a.broadcast.map_or(0, u32::from);
    row[5] = u32::from(a.scope);
    row[6] = a.flags;
    row[7] = u32::from(a.proto);
    row[8] = a.label.len() as u32;
    for (word, four) in row[9..13].iter_mut().zip(label.chunks_exact(4)) {
        *word = u32::from_le_bytes([four[0], four[1], four[2], four[3]]);
    }
    row[13] = a.priority;
    row[14] = a.life.valid;
    row[15] = a.life.preferred;
    row[16] = a.life.created as u32;
    row[17] = (a.life.created >> 32) as u32;
    row[18] = a.life.changed as u32;
    row[19] = (a.life.changed >> 32) as u32;
    row
}

fn metrics_of(words: &[u32]) -> Metrics {
    let mut metrics = NO_METRICS;
    metrics.copy_from_slice(words);
    metrics
}

/// A route or a request for one: the twelve words with which each begins,
/// but for the kind, and what else it has.
macro_rules! route {
    ($of:ident of $w:ident: $($rest:tt)*) => {
        $of {
            table: $w[0],
            dst: Ipv4Addr::from($w[1]),
            len: byte($w[2]),
            tos: byte($w[3]),
            priority: $w[4],
            proto: byte($w[6]),
            scope: byte($w[7]),
            prefsrc: option($w[8], $w[9]),
            gateway: option($w[10], $w[11]),
            $($rest)*
        }
    };
}

fn route_of(row: &RouteRow) -> Route4 {
    route! { Route4 of row:
        kind: Kind::of(byte(row[5])).expect("a row's kind was checked"),
        device: row[12] == 1,
        onlink: row[13] == 1,
        uses_gateway: row[14] == 1,
        metrics: metrics_of(&row[15..]),
    }
}

fn ask_of(w: &[u32; 34]) -> Ask4 {
    route! { Ask4 of w:
        kind: byte(w[5]),
        oif: w[12],
        flags: w[13],
        request: u16::try_from(w[14]).expect("16 bits were checked"),
        metrics: match w[15] {
            0 => Ok(metrics_of(&w[16..33])),
            e => Err(Errno(e)),
        },
    }
}

fn select_of(w: &[u32; 49]) -> Select4 {
    let pairs = w[15..].chunks_exact(2).take(w[14] as usize);
    route! { Select4 of w:
        kind: byte(w[5]),
        oif: w[12],
        metrics: (w[13] == 1).then(|| pairs.map(|p| (p[0] as usize, p[1])).collect()),
    }
}

fn route_row(r: &Route4) -> RouteRow {
    let mut row = [0; 32];
    row[0] = r.table;
    row[1] = u32::from(r.dst);
    row[2] = u32::from(r.len);
    row[3] = u32::from(r.tos);
    row[4] = r.priority;
    row[5] = u32::from(r.kind.code());
    row[6] = u32::from(r.proto);
    row[7] = u32::from(r.scope);
    row[8] = u32::from(r.prefsrc.is_some());
    row[9] = r.prefsrc.map_or(0, u32::from);
    row[10] = u32::from(r.gateway.is_some());
    row[11] = r.gateway.map_or(0, u32::from);
    row[12] = u32::from(r.device);
    row[13] = u32::from(r.onlink);
    row[14] = u32::from(r.uses_gateway);
    row[15..].copy_from_slice(&r.metrics);
    row
}
