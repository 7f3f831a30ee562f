//! The library through `naskrefim::Addresses`, as a host uses it: fit calls
//! go by its records, and what those cannot say (wrong lengths, fields over
//! their width) by the words.
use crate::library::OnWords;
use crate::records::{address, address_words, ask, event, event_words, label};
use crate::records::{request_words, route, route_words, select, there};
use naskrefim::{Addresses, Ask4, Event, Lifetimes, PERMANENT, Refused, Request, Route4};
use naskrefim::{Select4, V4};
use oracle::call::{Call, DEL_ROUTE4_WORDS, Reply};
use oracle::event::{Given, MESSAGE_BYTES, WordWriter};
use oracle::message::WordReader;
use oracle::port::WordPort;
use oracle::words::{ADDRESSES_AT, ROUTES_AT, ROW_COUNTS_AT, STATE_WORDS, TABLES_AT, change_count};
use oracle::{fit, well_formed};
use std::net::Ipv4Addr;

#[derive(Default)]
pub struct Typed(OnWords);

impl WordPort for Typed {
    fn name(&self) -> String {
        "the library through Addresses".to_string()
    }
    fn call(&mut self, call: &Call, state: &mut [u32], buffer: &mut [u32]) -> Reply {
        if !sayable(call, state.len(), buffer.len()) {
            return self.0.call(call, state, buffer);
        }
        // no call replies so: the comparison stops there
        let amiss = Reply::refused(u32::MAX);
        let arguments = Arguments::of(call);
        if let Arguments::Left(own, now) = &arguments {
            let alike = own.flags & PERMANENT != 0 || own.left(*now) == Ok(own.life.left(*now));
            let told = arguments.call(&mut Addresses::new());
            return if alike { told.write(buffer) } else { amiss };
        }
        let mut lo = match Addresses::from_words(state) {
            Ok(_) if !well_formed::state(state) => return amiss,
            Ok(lo) => lo,
            Err(refused) => return Reply::refused(refused.number()),
        };
        let told = arguments.call(&mut lo);
        state.copy_from_slice(lo.words());
        if shown(&lo, state) {
            told.write(buffer)
        } else {
            amiss
        }
    }
}

impl WordReader for Typed {
    fn name(&self) -> String {
        WordPort::name(self)
    }
    fn read(&mut self, message: &[u8], request: &mut [u32], up: u32) -> Reply {
        if up > 1 || request.len() < DEL_ROUTE4_WORDS {
            return WordReader::read(&mut self.0, message, request, up);
        }
        match Request::read(message, up == 1) {
            Err(refused) => Reply::refused(refused.number()),
            Ok(read) => {
                let (kind, words) = request_words(&read);
                request[..words.len()].copy_from_slice(&words);
                Reply {
                    second: words.len() as u32,
                    ..Reply::value(kind)
                }
            }
        }
    }
}

impl WordWriter for Typed {
    fn name(&self) -> String {
        WordPort::name(self)
    }
    fn write(&mut self, row: &[u32], message: &mut [u8], given: Given) -> Reply {
        // what records cannot say goes by the words
        let told = event(row).filter(|told| event_words(told) == row);
        let (Some(told), true) = (told, message.len() >= MESSAGE_BYTES) else {
            return WordWriter::write(&mut self.0, row, message, given);
        };
        match told.message(given.sequence, given.port, given.now) {
            Err(refused) => Reply::refused(refused.number()),
            Ok(bytes) => {
                message[..bytes.len()].copy_from_slice(&bytes);
                Reply::value(bytes.len() as u32)
            }
        }
    }
}

/// Whether records can say the call: its lengths are right, its fields
/// within their widths, and a row handed in has a kind.
pub fn sayable(call: &Call, state: usize, buffer: usize) -> bool {
    let row = match call {
        Call::Source4 { row, .. } => row[..].try_into().is_ok_and(well_formed::route),
        Call::Left { row, .. } => row[..].try_into().is_ok_and(well_formed::address),
        _ => call.request_whole(),
    };
    let state = state == STATE_WORDS || matches!(call, Call::Left { .. });
    row && state && buffer >= call.buffer().least() && fit::fits(call)
}

/// Whether the rows, the tables and the counts that `lo` shows are those of
/// `state`.
fn shown(lo: &Addresses, state: &[u32]) -> bool {
    let [a, r, t] = [0, 1, 2].map(|i| state[i] as usize);
    lo.changes() == change_count(state)
        && lo.addresses().len() == a
        && lo.routes().len() == r
        && lo.tables().len() == t
        && lo
            .tables()
            .zip(&state[TABLES_AT..])
            .zip(&state[ROW_COUNTS_AT..])
            .all(|((shown, table), rows)| shown.table == *table && shown.rows == *rows as usize)
        && lo
            .addresses()
            .zip(state[ADDRESSES_AT..].chunks(20))
            .all(|(own, row)| address_words(&own) == row)
        && lo
            .routes()
            .zip(state[ROUTES_AT..].chunks(32))
            .all(|(route, row)| route_words(&route) == row)
}

/// A call with its arguments as `Addresses` takes them.
pub enum Arguments {
    Up(u64),
    Down,
    AddV4(V4, Lifetimes, bool, bool, u64),
    DelV4(Option<Ipv4Addr>, Option<Ipv4Addr>, u8, Option<Vec<u8>>),
    Expire(u64, u64),
    AddRoute4(Ask4, bool),
    DelRoute4(Select4),
    Dump4,
    Lookup4(Ipv4Addr),
    Lookup4Flow(Ipv4Addr, u8, u32),
    Local4(Ipv4Addr),
    Source4(Route4, Ipv4Addr),
    Source(Ipv4Addr),
    Select4(Option<Ipv4Addr>, u8),
    Left(V4, u64),
}

/// What a call gave.
pub enum Told {
    Events(Result<Vec<Event>, Refused>),
    Rows(Vec<Route4>),
    Row(Result<Route4, Refused>),
    Yes(bool),
    Address(Ipv4Addr),
    Chosen(Result<Option<Ipv4Addr>, Refused>),
    Left(Result<(u32, u32), Refused>),
}

impl Arguments {
    /// Those of a fit call.
    pub fn of(call: &Call) -> Self {
        let byte = |word: u32| u8::try_from(word).expect("a byte field was checked");
        match call {
            Call::Up { now } => Self::Up(*now),
            Call::Down => Self::Down,
            Call::AddV4 { request: w, now } => {
                let lifetimes = Lifetimes {
                    valid: w[14],
                    preferred: w[15],
                };
                Self::AddV4(address(&w[..14]), lifetimes, w[16] == 1, w[17] == 1, *now)
            }
            Call::DelV4 { request: w } => Self::DelV4(
                there(w[0], w[1]),
                there(w[2], w[3]),
                byte(w[4]),
                (w[5] == 1).then(|| label(w[6], &w[7..])),
            ),
            Call::Expire { now, allowance } => Self::Expire(*now, *allowance),
            Call::AddRoute4 { request: w } => Self::AddRoute4(ask(w), w[33] == 1),
            Call::DelRoute4 { request: w } => Self::DelRoute4(select(w)),
            Call::Dump4 => Self::Dump4,
            Call::Lookup4 { ip } => Self::Lookup4((*ip).into()),
            Call::Lookup4Flow { ip, tos, oif } => Self::Lookup4Flow((*ip).into(), byte(*tos), *oif),
            Call::Local4 { ip } => Self::Local4((*ip).into()),
            Call::Source4 { row, ip } => Self::Source4(route(row), (*ip).into()),
            Call::Source { ip } => Self::Source((*ip).into()),
            Call::Select4 {
                present,
                dst,
                scope,
            } => Self::Select4(there(*present, *dst), byte(*scope)),
            Call::Left { row, now } => Self::Left(address(row), *now),
        }
    }

    pub fn call(&self, lo: &mut Addresses) -> Told {
        match self {
            Self::Up(now) => Told::Events(lo.up(*now)),
            Self::Down => Told::Events(Ok(lo.down())),
            Self::AddV4(new, lifetimes, replace, up, now) => {
                Told::Events(lo.add_v4(new.clone(), *lifetimes, *replace, *up, *now))
            }
            Self::DelV4(local, address, prefix, label) => {
                Told::Events(lo.del_v4(*local, *address, *prefix, label.as_deref()))
            }
            Self::Expire(now, allowance) => Told::Events(lo.expire(*now, *allowance)),
            Self::AddRoute4(ask, up) => Told::Events(lo.add_route4(ask, *up)),
            Self::DelRoute4(select) => Told::Events(lo.del_route4(select)),
            Self::Dump4 => Told::Rows(lo.dump4()),
            Self::Lookup4(ip) => Told::Row(lo.lookup4(*ip)),
            Self::Lookup4Flow(ip, tos, oif) => Told::Row(lo.lookup4_flow(*ip, *tos, *oif)),
            Self::Local4(ip) => Told::Yes(lo.local4(*ip)),
            Self::Source4(route, ip) => Told::Chosen(lo.source4(route, *ip)),
            Self::Source(ip) => Told::Address(lo.source(*ip)),
            Self::Select4(dst, scope) => Told::Chosen(Ok(lo.select4(*dst, *scope))),
            Self::Left(own, now) => Told::Left(own.left(*now)),
        }
    }
}

impl Told {
    /// Writes rows from the buffer's start on; gives the reply.
    pub fn write(&self, buffer: &mut [u32]) -> Reply {
        match self {
            Self::Events(Err(refused))
            | Self::Row(Err(refused))
            | Self::Chosen(Err(refused))
            | Self::Left(Err(refused)) => Reply::refused(refused.number()),
            Self::Events(Ok(told)) => written(buffer, told.iter().map(event_words)),
            Self::Rows(rows) => written(buffer, rows.iter().map(route_words)),
            Self::Row(Ok(found)) => {
                written(buffer, [route_words(found)].into_iter());
                Reply::default()
            }
            Self::Yes(yes) => Reply::value(u32::from(*yes)),
            Self::Address(source) => Reply::value((*source).into()),
            Self::Chosen(Ok(source)) => Reply {
                present: u32::from(source.is_some()),
                ..Reply::value(source.map_or(0, u32::from))
            },
            Self::Left(Ok((preferred, valid))) => Reply {
                second: *valid,
                ..Reply::value(*preferred)
            },
        }
    }
}

fn written(buffer: &mut [u32], rows: impl Iterator<Item = Vec<u32>>) -> Reply {
    let (mut at, mut count) = (0, 0);
    for row in rows {
        buffer[at..at + row.len()].copy_from_slice(&row);
        at += row.len();
        count += 1;
    }
    Reply::value(count)
}
