//! The Rust on its own lists, as a caller within its crate has it: typed
//! arguments in, its own results out, both behind this crate's types. The
//! oracle's answers come from it, and it is measured.
use super::super::*;
use super::{address_of, address_row, ask_of, byte, event_row, label_of, option};
use super::{route_of, route_row, select_of};
use crate::{AddressRow, Answer, EventRow, Lists, Request, RouteRow};

/// The lists of a namespace.
pub struct Native(Addresses);

/// A call with its arguments as the Rust takes them.
pub struct Arguments(Typed);

enum Typed {
    Up(u64),
    Down,
    AddV4(V4, Lifetimes, bool, bool, u64),
    DelV4(Option<Ipv4Addr>, Option<Ipv4Addr>, u8, Option<Vec<u8>>),
    Expire(u64),
    AddRoute4(Ask4, bool),
    DelRoute4(Select4),
    Dump4,
    Lookup4(Ipv4Addr),
    Lookup4Flow(Ipv4Addr, u8, u32),
    Local4(Ipv4Addr),
    Source4(Route4, Ipv4Addr),
    Source(Ipv4Addr),
    Select4(Option<Ipv4Addr>, u8),
    Left(V4, u64),
}

/// What a call gave.
pub struct Told(Given);

enum Given {
    Events(Result<Vec<Event>, Errno>),
    Rows(Vec<Route4>),
    Row(Result<Route4, Errno>),
    Yes(bool),
    Address(Option<Ipv4Addr>),
    Left(u32, u32),
}

impl Arguments {
    pub fn of(request: &Request) -> Self {
        Self(match *request {
            Request::Up { now } => Typed::Up(now),
            Request::Down => Typed::Down,
            Request::AddV4 { request: w, now } => {
                let mut row = [0; 20];
                row[..14].copy_from_slice(&w[..14]);
                let lifetimes = Lifetimes {
                    valid: w[14],
                    preferred: w[15],
                };
                Typed::AddV4(address_of(&row), lifetimes, w[16] == 1, w[17] == 1, now)
            }
            Request::DelV4 { request: w } => Typed::DelV4(
                option(w[0], w[1]),
                option(w[2], w[3]),
                byte(w[4]),
                (w[5] == 1).then(|| label_of(w[6], &w[7..11])),
            ),
            // the Rust has its own allowance
            Request::Expire { now, .. } => Typed::Expire(now),
            Request::AddRoute4 { request: w } => Typed::AddRoute4(ask_of(w), w[33] == 1),
            Request::DelRoute4 { request: w } => Typed::DelRoute4(select_of(w)),
            Request::Dump4 => Typed::Dump4,
            Request::Lookup4 { ip } => Typed::Lookup4(ip.into()),
            Request::Lookup4Flow { ip, tos, oif } => Typed::Lookup4Flow(ip.into(), tos, oif),
            Request::Local4 { ip } => Typed::Local4(ip.into()),
            Request::Source4 { row, ip } => Typed::Source4(route_of(row), ip.into()),
            Request::Source { ip } => Typed::Source(ip.into()),
            Request::Select4 { dst, scope } => Typed::Select4(dst.map(Ipv4Addr::from), scope),
            Request::Left { row, now } => Typed::Left(address_of(row), now),
        })
    }
}

impl Native {
    /// The namespace with these rows and nothing else.
    pub fn of(addresses: &[AddressRow], routes: &[RouteRow], tables: &[u32]) -> Self {
        let mut all = Addresses::isolated();
        all.v4 = addresses.iter().map(address_of).collect();
        all.routes4 = routes.iter().map(route_of).collect();
        all.tables4 = tables.to_vec();
        Self(all)
    }

    /// Takes the lists of `other`; what was allocated is used again.
    pub fn copy_from(&mut self, other: &Self) {
        self.0.v4.clone_from(&other.0.v4);
        self.0.routes4.clone_from(&other.0.routes4);
        self.0.tables4.clone_from(&other.0.tables4);
    }

    pub fn call(&mut self, arguments: &Arguments) -> Told {
        let all = &mut self.0;
        Told(match &arguments.0 {
            Typed::Up(now) => Given::Events(Ok(all.up(*now))),
            Typed::Down => Given::Events(Ok(all.down())),
            Typed::AddV4(new, lifetimes, replace, up, now) => {
                Given::Events(all.add_v4(new.clone(), *lifetimes, *replace, *up, *now))
            }
            Typed::DelV4(local, address, prefix, label) => {
                Given::Events(all.del_v4(*local, *address, *prefix, label.as_deref()))
            }
            Typed::Expire(now) => Given::Events(Ok(all.expire(*now))),
            Typed::AddRoute4(ask, up) => Given::Events(all.add_route4(ask, *up)),
            Typed::DelRoute4(select) => Given::Events(all.del_route4(select)),
            Typed::Dump4 => Given::Rows(all.dump4()),
            Typed::Lookup4(ip) => Given::Row(all.lookup4(*ip)),
            Typed::Lookup4Flow(ip, tos, oif) => Given::Row(all.lookup4_flow(*ip, *tos, *oif)),
            Typed::Local4(ip) => Given::Yes(all.local4(*ip)),
            Typed::Source4(route, ip) => Given::Address(all.source4(route, *ip)),
            Typed::Source(ip) => Given::Address(match all.source(IpAddr::V4(*ip)) {
                IpAddr::V4(source) => Some(source),
                IpAddr::V6(_) => unreachable!("an IPv4 destination has an IPv4 source"),
            }),
            Typed::Select4(dst, scope) => Given::Address(all.select4(*dst, *scope)),
            Typed::Left(address, now) => {
                let (preferred, valid) = address.left(*now);
                Given::Left(preferred, valid)
            }
        })
    }

    /// The lists' rows.
    pub(super) fn lists(&self) -> Lists {
        Lists {
            addresses: self.0.v4.iter().map(address_row).collect(),
            routes: self.0.routes4.iter().map(route_row).collect(),
            tables: self.0.tables4.clone(),
        }
    }

    /// What the Rust has beside the reference's calls: whether an address is
    /// the loopback's, and whether a socket may bind to it.
    pub fn is_local4(&self, ip: u32) -> bool {
        self.0.is_local4(ip.into())
    }
    pub fn bindable4(&self, ip: u32) -> bool {
        self.0.bindable4(ip.into())
    }

    pub fn lengths(&self) -> [usize; 3] {
        [self.0.v4.len(), self.0.routes4.len(), self.0.tables4.len()]
    }

    /// Writes the lists' rows; the slices have room for them.
    pub fn write(&self, addresses: &mut [AddressRow], routes: &mut [RouteRow], tables: &mut [u32]) {
        for (row, a) in addresses.iter_mut().zip(&self.0.v4) {
            *row = address_row(a);
        }
        for (row, r) in routes.iter_mut().zip(&self.0.routes4) {
            *row = route_row(r);
        }
        tables[..self.0.tables4.len()].copy_from_slice(&self.0.tables4);
    }
}

impl Told {
    /// What was told, in rows.
    pub(super) fn answer(&self) -> Answer {
        match &self.0 {
            Given::Events(Err(e)) | Given::Row(Err(e)) => Answer::Refused(e.0),
            Given::Events(Ok(told)) => Answer::Events(told.iter().filter_map(event_row).collect()),
            Given::Rows(routes) => Answer::Rows(routes.iter().map(route_row).collect()),
            Given::Row(Ok(route)) => Answer::Row(route_row(route)),
            Given::Yes(yes) => Answer::Yes(*yes),
            Given::Address(source) => Answer::Address(source.map(u32::from)),
            Given::Left(preferred, valid) => Answer::Left {
                preferred: *preferred,
                valid: *valid,
            },
        }
    }

    /// How many of the events told are IPv6's, which no row stands for.
    pub fn struck_out(&self) -> usize {
        match &self.0 {
            Given::Events(Ok(told)) => told.iter().filter(|e| event_row(e).is_none()).count(),
            _ => 0,
        }
    }

    /// Writes what was told into `buffer` as rows. Gives the reply: its
    /// number, then whether there is a value, and two values.
    pub fn write(&self, buffer: &mut [u32]) -> [u32; 4] {
        match &self.0 {
            Given::Events(Err(e)) | Given::Row(Err(e)) => [e.0, 0, 0, 0],
            Given::Events(Ok(events)) => {
                let (rows, _) = buffer.as_chunks_mut();
                let told = events.iter().filter_map(event_row);
                let written: usize = rows
                    .iter_mut()
                    .zip(told)
                    .map(|(row, event): (&mut EventRow, EventRow)| {
                        *row = event;
                        1
                    })
                    .sum();
                [0, 0, written as u32, 0]
            }
            Given::Rows(routes) => {
                let (rows, _) = buffer.as_chunks_mut();
                for (row, route) in rows.iter_mut().zip(routes) {
                    *row = route_row(route);
                }
                [0, 0, routes.len() as u32, 0]
            }
            Given::Row(Ok(route)) => {
                buffer[..32].copy_from_slice(&route_row(route));
                [0; 4]
            }
            Given::Yes(yes) => [0, 0, u32::from(*yes), 0],
            Given::Address(source) => {
                let value = source.map_or(0, u32::from);
                [0, u32::from(source.is_some()), value, 0]
            }
            Given::Left(preferred, valid) => [0, 0, *preferred, *valid],
        }
    }
}
