//! The linked library as ports: on bytes and on words.
use crate::guarded::Guard;
use crate::guarded::Lent::{Read, Write};
use naskrefim::{bytes, words};
use oracle::call::{Call, Reply};
use oracle::event::{Given, WordWriter, Writer};
use oracle::message::{Reader, WordReader};
use oracle::port::{Port, WordPort};

/// What guards hold: no row has such words by chance.
pub const BYTE: u8 = 0xc3;
pub const WORD: u32 = 0xc3d2_e1f0;

/// The reply of `local4`, if the check alone refuses just as it does; else
/// one that no call gives.
fn checked(local4: naskrefim::Reply, check: naskrefim::Reply) -> naskrefim::Reply {
    let number = local4.number;
    let none = naskrefim::Reply::default();
    let same = check == naskrefim::Reply { number, ..none };
    if same {
        local4
    } else {
        naskrefim::Reply {
            number: u32::MAX,
            ..none
        }
    }
}

pub fn reply(reply: naskrefim::Reply) -> Reply {
    Reply {
        number: reply.number,
        present: reply.present,
        value: reply.value,
        second: reply.second,
    }
}

pub fn named(what: &str, amiss: Option<&str>) -> String {
    match amiss {
        None => what.to_string(),
        Some(amiss) => format!("{what} ({amiss})"),
    }
}

/// The library on bytes.
#[derive(Default)]
pub struct OnBytes(Guard);

impl Port for OnBytes {
    fn name(&self) -> String {
        named("the library on bytes", self.0.amiss)
    }
    fn up(&mut self, state: &mut [u8], events: &mut [u8], now: u64) -> Reply {
        let lent = [Write(state), Write(events)];
        reply(self.0.lend(BYTE, lent, |[s, e]| bytes::up(s, e, now)))
    }
    fn down(&mut self, state: &mut [u8], events: &mut [u8]) -> Reply {
        let lent = [Write(state), Write(events)];
        reply(self.0.lend(BYTE, lent, |[s, e]| bytes::down(s, e)))
    }
    fn add_v4(&mut self, state: &mut [u8], request: &[u8], events: &mut [u8], now: u64) -> Reply {
        let lent = [Write(state), Read(request), Write(events)];
        let call = |[s, r, e]: [&mut [u8]; 3]| bytes::add_v4(s, r, e, now);
        reply(self.0.lend(BYTE, lent, call))
    }
    fn del_v4(&mut self, state: &mut [u8], request: &[u8], events: &mut [u8]) -> Reply {
        let lent = [Write(state), Read(request), Write(events)];
        let call = |[s, r, e]: [&mut [u8]; 3]| bytes::del_v4(s, r, e);
        reply(self.0.lend(BYTE, lent, call))
    }
    fn expire(&mut self, state: &mut [u8], events: &mut [u8], now: u64, allowance: u64) -> Reply {
        let lent = [Write(state), Write(events)];
        let call = |[s, e]: [&mut [u8]; 2]| bytes::expire(s, e, now, allowance);
        reply(self.0.lend(BYTE, lent, call))
    }
    fn add_route4(&mut self, state: &mut [u8], request: &[u8], events: &mut [u8]) -> Reply {
        let lent = [Write(state), Read(request), Write(events)];
        let call = |[s, r, e]: [&mut [u8]; 3]| bytes::add_route4(s, r, e);
        reply(self.0.lend(BYTE, lent, call))
    }
    fn del_route4(&mut self, state: &mut [u8], request: &[u8], events: &mut [u8]) -> Reply {
        let lent = [Write(state), Read(request), Write(events)];
        let call = |[s, r, e]: [&mut [u8]; 3]| bytes::del_route4(s, r, e);
        reply(self.0.lend(BYTE, lent, call))
    }
    fn dump4(&mut self, state: &[u8], listing: &mut [u8]) -> Reply {
        let lent = [Read(state), Write(listing)];
        reply(self.0.lend(BYTE, lent, |[s, l]| bytes::dump4(s, l)))
    }
    fn lookup4(&mut self, state: &[u8], row: &mut [u8], ip: u32) -> Reply {
        let lent = [Read(state), Write(row)];
        reply(self.0.lend(BYTE, lent, |[s, r]| bytes::lookup4(s, r, ip)))
    }
    fn lookup4_flow(&mut self, state: &[u8], row: &mut [u8], ip: u32, tos: u32, oif: u32) -> Reply {
        let lent = [Read(state), Write(row)];
        let call = |[s, r]: [&mut [u8]; 2]| bytes::lookup4_flow(s, r, ip, tos, oif);
        reply(self.0.lend(BYTE, lent, call))
    }
    fn local4(&mut self, state: &[u8], ip: u32) -> Reply {
        let call = |[s]: [&mut [u8]; 1]| checked(bytes::local4(s, ip), bytes::check(s));
        reply(self.0.lend(BYTE, [Read(state)], call))
    }
    fn source4(&mut self, state: &[u8], row: &[u8], ip: u32) -> Reply {
        let lent = [Read(state), Read(row)];
        reply(self.0.lend(BYTE, lent, |[s, r]| bytes::source4(s, r, ip)))
    }
    fn source(&mut self, state: &[u8], ip: u32) -> Reply {
        let lent = [Read(state)];
        reply(self.0.lend(BYTE, lent, |[s]| bytes::source(s, ip)))
    }
    fn select4(&mut self, state: &[u8], present: u32, dst: u32, scope: u32) -> Reply {
        let call = |[s]: [&mut [u8]; 1]| bytes::select4(s, present, dst, scope);
        reply(self.0.lend(BYTE, [Read(state)], call))
    }
    fn left(&mut self, row: &[u8], now: u64) -> Reply {
        let lent = [Read(row)];
        reply(self.0.lend(BYTE, lent, |[r]| bytes::left(r, now)))
    }
}

impl Reader for OnBytes {
    fn name(&self) -> String {
        Port::name(self)
    }
    fn read(&mut self, message: &[u8], request: &mut [u8], up: u32) -> Reply {
        let lent = [Read(message), Write(request)];
        reply(self.0.lend(BYTE, lent, |[m, r]| bytes::read(m, r, up)))
    }
}

impl Writer for OnBytes {
    fn name(&self) -> String {
        Port::name(self)
    }
    fn write(&mut self, event: &[u8], message: &mut [u8], given: Given) -> Reply {
        let Given {
            sequence,
            port,
            now,
        } = given;
        let lent = [Read(event), Write(message)];
        let call = |[e, m]: [&mut [u8]; 2]| bytes::write(e, m, sequence, port, now);
        reply(self.0.lend(BYTE, lent, call))
    }
}

/// The library on words.
#[derive(Default)]
pub struct OnWords {
    words: Guard,
    /// Of messages, which are bytes here too.
    bytes: Guard,
}

impl WordPort for OnWords {
    fn name(&self) -> String {
        named(
            "the library on words",
            self.words.amiss.or(self.bytes.amiss),
        )
    }
    fn call(&mut self, call: &Call, state: &mut [u32], buffer: &mut [u32]) -> Reply {
        let given = &mut self.words;
        let lent = call.lent().unwrap_or(&[]);
        reply(match *call {
            Call::Up { now } => given.lend(WORD, [Write(state), Write(buffer)], |[s, e]| {
                words::up(s, e, now)
            }),
            Call::Down => given.lend(WORD, [Write(state), Write(buffer)], |[s, e]| {
                words::down(s, e)
            }),
            Call::Expire { now, allowance } => {
                let lent = [Write(state), Write(buffer)];
                given.lend(WORD, lent, |[s, e]| words::expire(s, e, now, allowance))
            }
            Call::AddV4 { now, .. } => {
                let lent = [Write(state), Read(lent), Write(buffer)];
                given.lend(WORD, lent, |[s, r, e]| words::add_v4(s, r, e, now))
            }
            Call::DelV4 { .. } => {
                let lent = [Write(state), Read(lent), Write(buffer)];
                given.lend(WORD, lent, |[s, r, e]| words::del_v4(s, r, e))
            }
            Call::AddRoute4 { .. } => {
                let lent = [Write(state), Read(lent), Write(buffer)];
                given.lend(WORD, lent, |[s, r, e]| words::add_route4(s, r, e))
            }
            Call::DelRoute4 { .. } => {
                let lent = [Write(state), Read(lent), Write(buffer)];
                given.lend(WORD, lent, |[s, r, e]| words::del_route4(s, r, e))
            }
            Call::Dump4 => given.lend(WORD, [Read(state), Write(buffer)], |[s, l]| {
                words::dump4(s, l)
            }),
            Call::Lookup4 { ip } => {
                let lent = [Read(state), Write(buffer)];
                given.lend(WORD, lent, |[s, r]| words::lookup4(s, r, ip))
            }
            Call::Lookup4Flow { ip, tos, oif } => {
                let lent = [Read(state), Write(buffer)];
                given.lend(WORD, lent, |[s, r]| words::lookup4_flow(s, r, ip, tos, oif))
            }
            Call::Local4 { ip } => given.lend(WORD, [Read(state)], |[s]| {
                checked(words::local4(s, ip), words::check(s))
            }),
            Call::Source4 { ip, .. } => {
                let lent = [Read(state), Read(lent)];
                given.lend(WORD, lent, |[s, r]| words::source4(s, r, ip))
            }
            Call::Source { ip } => given.lend(WORD, [Read(state)], |[s]| words::source(s, ip)),
            Call::Select4 {
                present,
                dst,
                scope,
            } => {
                let lent = [Read(state)];
                given.lend(WORD, lent, |[s]| words::select4(s, present, dst, scope))
            }
            Call::Left { now, .. } => given.lend(WORD, [Read(lent)], |[r]| words::left(r, now)),
        })
    }
}

impl WordReader for OnWords {
    fn name(&self) -> String {
        WordPort::name(self)
    }
    fn read(&mut self, message: &[u8], request: &mut [u32], up: u32) -> Reply {
        let Self {
            words: given,
            bytes,
        } = self;
        reply(given.lend(WORD, [Write(request)], |[r]| {
            bytes.lend(BYTE, [Read(message)], |[m]| words::read(m, r, up))
        }))
    }
}

impl WordWriter for OnWords {
    fn name(&self) -> String {
        WordPort::name(self)
    }
    fn write(&mut self, event: &[u32], message: &mut [u8], given: Given) -> Reply {
        let Given {
            sequence,
            port,
            now,
        } = given;
        let Self {
            words: lent,
            bytes: room,
        } = self;
        reply(lent.lend(WORD, [Read(event)], |[e]| {
            room.lend(BYTE, [Write(message)], |[m]| {
                words::write(e, m, sequence, port, now)
            })
        }))
    }
}
