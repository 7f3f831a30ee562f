//! A port as the host meets it: one method for each call, on lent bytes,
//! all words little-endian. The model is one; a port behind the C ABI is
//! another.
use crate::call::{Call, Reply};
use crate::model;

/// The fifteen entry points. Slices first, then numbers, as the C ABI has
/// them.
pub trait Port {
    fn name(&self) -> String;
    fn up(&mut self, state: &mut [u8], events: &mut [u8], now: u64) -> Reply;
    fn down(&mut self, state: &mut [u8], events: &mut [u8]) -> Reply;
    fn add_v4(&mut self, state: &mut [u8], request: &[u8], events: &mut [u8], now: u64) -> Reply;
    fn del_v4(&mut self, state: &mut [u8], request: &[u8], events: &mut [u8]) -> Reply;
    fn expire(&mut self, state: &mut [u8], events: &mut [u8], now: u64, allowance: u64) -> Reply;
    fn add_route4(&mut self, state: &mut [u8], request: &[u8], events: &mut [u8]) -> Reply;
    fn del_route4(&mut self, state: &mut [u8], request: &[u8], events: &mut [u8]) -> Reply;
    fn dump4(&mut self, state: &[u8], listing: &mut [u8]) -> Reply;
    fn lookup4(&mut self, state: &[u8], row: &mut [u8], ip: u32) -> Reply;
    fn lookup4_flow(&mut self, state: &[u8], row: &mut [u8], ip: u32, tos: u32, oif: u32) -> Reply;
    fn local4(&mut self, state: &[u8], ip: u32) -> Reply;
    fn source4(&mut self, state: &[u8], row: &[u8], ip: u32) -> Reply;
    fn source(&mut self, state: &[u8], ip: u32) -> Reply;
    fn select4(&mut self, state: &[u8], present: u32, dst: u32, scope: u32) -> Reply;
    fn left(&mut self, row: &[u8], now: u64) -> Reply;
}

/// Makes `call` on `port`. `lent` are the bytes of the call's request or
/// row, which may have been cut short.
pub fn make(
    port: &mut dyn Port,
    call: &Call,
    state: &mut [u8],
    lent: &[u8],
    buffer: &mut [u8],
) -> Reply {
    match *call {
        Call::Up { now } => port.up(state, buffer, now),
        Call::Down => port.down(state, buffer),
        Call::AddV4 { now, .. } => port.add_v4(state, lent, buffer, now),
        Call::DelV4 { .. } => port.del_v4(state, lent, buffer),
        Call::Expire { now, allowance } => port.expire(state, buffer, now, allowance),
        Call::AddRoute4 { .. } => port.add_route4(state, lent, buffer),
        Call::DelRoute4 { .. } => port.del_route4(state, lent, buffer),
        Call::Dump4 => port.dump4(state, buffer),
        Call::Lookup4 { ip } => port.lookup4(state, buffer, ip),
        Call::Lookup4Flow { ip, tos, oif } => port.lookup4_flow(state, buffer, ip, tos, oif),
        Call::Local4 { ip } => port.local4(state, ip),
        Call::Source4 { ip, .. } => port.source4(state, lent, ip),
        Call::Source { ip } => port.source(state, ip),
        Call::Select4 {
            present,
            dst,
            scope,
        } => port.select4(state, present, dst, scope),
        Call::Left { now, .. } => port.left(lent, now),
    }
}

/// A port over words.
pub trait WordPort {
    fn name(&self) -> String;
    fn call(&mut self, call: &Call, state: &mut [u32], buffer: &mut [u32]) -> Reply;
    /// A planted fault: bytes after the last whole word are overlooked.
    fn overlooks_part_words(&self) -> bool {
        false
    }
}

/// The model as a port over words.
pub struct Model;

impl WordPort for Model {
    fn name(&self) -> String {
        "model".to_string()
    }
    fn call(&mut self, call: &Call, state: &mut [u32], buffer: &mut [u32]) -> Reply {
        model::model(call, state, buffer)
    }
}

/// The words of a slice whose size must be exact. One that isn't whole words
/// cannot be, and no words at all stand for it.
pub fn exact(bytes: &[u8]) -> Vec<u32> {
    if bytes.len().is_multiple_of(4) {
        words(bytes)
    } else {
        Vec::new()
    }
}

/// A port over words met through bytes.
pub struct Bytes<W>(pub W);

impl<W: WordPort> Bytes<W> {
    fn exact(&self, bytes: &[u8]) -> Vec<u32> {
        if self.0.overlooks_part_words() {
            words(bytes)
        } else {
            exact(bytes)
        }
    }
    /// A call that may write its state: what it did is written back.
    fn changing(&mut self, call: &Call, state: &mut [u8], buffer: &mut [u8]) -> Reply {
        let mut state_words = self.exact(state);
        let mut buffer_words = words(buffer);
        let reply = self.0.call(call, &mut state_words, &mut buffer_words);
        if state.len() / 4 == state_words.len() {
            write_back(&state_words, state);
        }
        write_back(&buffer_words, buffer);
        reply
    }
    fn reading(&mut self, call: &Call, state: &[u8], buffer: &mut [u8]) -> Reply {
        let mut state_words = self.exact(state);
        let mut buffer_words = words(buffer);
        let reply = self.0.call(call, &mut state_words, &mut buffer_words);
        write_back(&buffer_words, buffer);
        reply
    }
}

/// The words of `bytes`; one to three bytes after the last are left out.
pub fn words(bytes: &[u8]) -> Vec<u32> {
    let (fours, _) = bytes.as_chunks();
    fours.iter().map(|four| u32::from_le_bytes(*four)).collect()
}

pub fn bytes(words: &[u32]) -> Vec<u8> {
    let mut bytes = vec![0; 4 * words.len()];
    write_back(words, &mut bytes);
    bytes
}

pub fn write_back(words: &[u32], bytes: &mut [u8]) {
    for (four, word) in bytes.as_chunks_mut().0.iter_mut().zip(words) {
        *four = word.to_le_bytes();
    }
}

impl<W: WordPort> Port for Bytes<W> {
    fn name(&self) -> String {
        self.0.name()
    }
    fn up(&mut self, state: &mut [u8], events: &mut [u8], now: u64) -> Reply {
        self.changing(&Call::Up { now }, state, events)
    }
    fn down(&mut self, state: &mut [u8], events: &mut [u8]) -> Reply {
        self.changing(&Call::Down, state, events)
    }
    fn add_v4(&mut self, state: &mut [u8], request: &[u8], events: &mut [u8], now: u64) -> Reply {
        let request = self.exact(request);
        self.changing(&Call::AddV4 { request, now }, state, events)
    }
    fn del_v4(&mut self, state: &mut [u8], request: &[u8], events: &mut [u8]) -> Reply {
        let request = self.exact(request);
        self.changing(&Call::DelV4 { request }, state, events)
    }
    fn expire(&mut self, state: &mut [u8], events: &mut [u8], now: u64, allowance: u64) -> Reply {
        self.changing(&Call::Expire { now, allowance }, state, events)
    }
    fn add_route4(&mut self, state: &mut [u8], request: &[u8], events: &mut [u8]) -> Reply {
        let request = self.exact(request);
        self.changing(&Call::AddRoute4 { request }, state, events)
    }
    fn del_route4(&mut self, state: &mut [u8], request: &[u8], events: &mut [u8]) -> Reply {
        let request = self.exact(request);
        self.changing(&Call::DelRoute4 { request }, state, events)
    }
    fn dump4(&mut self, state: &[u8], listing: &mut [u8]) -> Reply {
        self.reading(&Call::Dump4, state, listing)
    }
    fn lookup4(&mut self, state: &[u8], row: &mut [u8], ip: u32) -> Reply {
        self.reading(&Call::Lookup4 { ip }, state, row)
    }
    fn lookup4_flow(&mut self, state: &[u8], row: &mut [u8], ip: u32, tos: u32, oif: u32) -> Reply {
        self.reading(&Call::Lookup4Flow { ip, tos, oif }, state, row)
    }
    fn local4(&mut self, state: &[u8], ip: u32) -> Reply {
        self.reading(&Call::Local4 { ip }, state, &mut [])
    }
    fn source4(&mut self, state: &[u8], row: &[u8], ip: u32) -> Reply {
        let row = self.exact(row);
        self.reading(&Call::Source4 { row, ip }, state, &mut [])
    }
    fn source(&mut self, state: &[u8], ip: u32) -> Reply {
        self.reading(&Call::Source { ip }, state, &mut [])
    }
    fn select4(&mut self, state: &[u8], present: u32, dst: u32, scope: u32) -> Reply {
        let call = Call::Select4 {
            present,
            dst,
            scope,
        };
        self.reading(&call, state, &mut [])
    }
    fn left(&mut self, row: &[u8], now: u64) -> Reply {
        let row = self.exact(row);
        self.reading(&Call::Left { row, now }, &[], &mut [])
    }
}

/// A port on bytes met through words: the other way round.
pub struct Words<'a>(pub &'a mut dyn Port);

impl WordPort for Words<'_> {
    fn name(&self) -> String {
        self.0.name()
    }
    fn call(&mut self, call: &Call, state: &mut [u32], buffer: &mut [u32]) -> Reply {
        let mut state_bytes = bytes(state);
        let mut buffer_bytes = bytes(buffer);
        let lent = bytes(call.lent().unwrap_or(&[]));
        let reply = make(self.0, call, &mut state_bytes, &lent, &mut buffer_bytes);
        state.copy_from_slice(&words(&state_bytes));
        buffer.copy_from_slice(&words(&buffer_bytes));
        reply
    }
}
