//! The writer of Paper 5: an event row to one rtnetlink message.
//!
//! Written from the paper's words alone; a line in quotation marks is the
//! paper's. Layouts and codes are those that the reader of
//! [`crate::message`] knows.
use crate::call::{Call, Reply};
use crate::message::{DEL_ADDRESS, DEL_ROUTE, FAMILY, HEADER, METRICS, NEW_ADDRESS, NEW_ROUTE};
use crate::message::{ifa, rta};
use crate::model::{UNFIT_BUFFER, UNFIT_STATE, model};
use crate::port::{Bytes, exact};
use crate::well_formed;
use crate::words::{ADDRESS_WORDS, EVENT_WORDS};
use reference::{AddressRow, RouteRow};

/// "A message takes at most 216 bytes, and a shorter lent buffer is met by
/// 200."
pub const MESSAGE_BYTES: usize = 216;

/// "the device index is 1"
const DEVICE: u32 = 1;
/// "The table byte is 252 for tables above 255"
const TABLE_COMPAT: u8 = 252;
/// "route flags are 4 for onlink, else 0"
const ONLINK: u32 = 4;

/// What a host says beside the event: "sequence and port given by the
/// caller", and the clock.
#[derive(Clone, Copy, Debug, Default, PartialEq, Eq)]
pub struct Given {
    pub sequence: u32,
    pub port: u32,
    pub now: u64,
}

/// The bytes of a message, or the number of the refusal.
pub type Written = Result<Vec<u8>, u32>;

/// A message in its parts.
#[derive(Clone, Debug)]
pub struct Parts {
    pub kind: u16,
    pub flags: u16,
    pub given: Given,
    /// `ifaddrmsg` or `rtmsg`.
    pub fixed: Vec<u8>,
    /// Codes and values, as they stand.
    pub attributes: Vec<(u16, Vec<u8>)>,
}

/// An event's row, which could stand in a well-formed state.
pub enum Row<'a> {
    Address(&'a AddressRow),
    Route(&'a RouteRow),
}

/// Writes an event.
pub fn write(event: &[u32], given: Given) -> Written {
    parts(event, given).map(|parts| parts.bytes())
}

/// The type, the flags and the row of an event; 201 for one that is refused.
pub fn taken(event: &[u32]) -> Result<(u16, u16, Row<'_>), u32> {
    let event: &[u32; EVENT_WORDS] = event.try_into().map_err(|_| UNFIT_STATE)?;
    let [kind, flags, row @ ..] = event;
    // "flags over 65,535"
    let flags = u16::try_from(*flags).map_err(|_| UNFIT_STATE)?;
    let (address, _) = row.split_first_chunk().expect("an address is shorter");
    // "a kind other than 1 to 4"; "type 20, 21, 24 or 25"
    let (kind, row) = match kind {
        1 => (NEW_ADDRESS, Row::Address(address)),
        2 => (DEL_ADDRESS, Row::Address(address)),
        3 => (NEW_ROUTE, Row::Route(row)),
        4 => (DEL_ROUTE, Row::Route(row)),
        _ => return Err(UNFIT_STATE),
    };
    // "whose address or route row could not stand in a well-formed state"
    let stands = match row {
        Row::Address(row) => well_formed::address(row),
        Row::Route(row) => well_formed::route(row),
    };
    match stands {
        true => Ok((kind, flags, row)),
        false => Err(UNFIT_STATE),
    }
}

/// The message of an event, in its parts.
pub fn parts(event: &[u32], given: Given) -> Result<Parts, u32> {
    let (kind, flags, row) = taken(event)?;
    let (fixed, attributes) = match row {
        Row::Address(row) => (ifaddrmsg(row), address(row, given.now)),
        Row::Route(row) => (rtmsg(row), route(row)),
    };
    Ok(Parts {
        kind,
        // "Header flags are the event's flags."
        flags,
        given,
        fixed,
        attributes,
    })
}

impl Parts {
    pub fn bytes(&self) -> Vec<u8> {
        let list = list(&self.attributes);
        // "padding is zero and counts in the message's length"
        let length = HEADER + self.fixed.len() + list.len();
        let mut all = (length as u32).to_le_bytes().to_vec();
        all.extend(self.kind.to_le_bytes());
        all.extend(self.flags.to_le_bytes());
        all.extend(self.given.sequence.to_le_bytes());
        all.extend(self.given.port.to_le_bytes());
        all.extend(&self.fixed);
        all.extend(list);
        all
    }
}

/// A list of attributes, the message's own or nested. "Codes bear no flag
/// bits."
pub fn list(attributes: &[(u16, Vec<u8>)]) -> Vec<u8> {
    let mut all = Vec::new();
    for (code, value) in attributes {
        all.extend((4 + value.len() as u16).to_le_bytes());
        all.extend(code.to_le_bytes());
        all.extend(value);
        all.resize(all.len().next_multiple_of(4), 0);
    }
    all
}

fn ifaddrmsg(row: &AddressRow) -> Vec<u8> {
    // "the flags byte the flags' low byte"
    let [flags, ..] = row[6].to_le_bytes();
    let mut all = vec![FAMILY, byte(row[2]), flags, byte(row[5])];
    all.extend(DEVICE.to_le_bytes());
    all
}

/// "Attributes stand in rising order of code, absent values give no
/// attribute".
fn address(row: &AddressRow, now: u64) -> Vec<(u16, Vec<u8>)> {
    let mut all = vec![
        (ifa::ADDRESS, network(row[1])),
        (ifa::LOCAL, network(row[0])),
        (ifa::LABEL, label(row)),
    ];
    all.extend(optional(ifa::BROADCAST, row[3], row[4]));
    // "Lifetimes are what `left` says at a given clock, stamps zero."
    let [preferred, valid] = left(row, now);
    all.push((
        ifa::CACHEINFO,
        [number(preferred), number(valid), vec![0; 8]].concat(),
    ));
    all.push((ifa::FLAGS, number(row[6])));
    // "and so is a priority or address proto of 0"
    all.extend(nonzero(row[13]).map(|priority| (ifa::RT_PRIORITY, number(priority))));
    all.extend(nonzero(row[7]).map(|proto| (ifa::PROTO, vec![byte(proto)])));
    all
}

/// "A label, even an empty one, has its closing zero".
fn label(row: &AddressRow) -> Vec<u8> {
    let bytes: Vec<u8> = row[9..13].iter().flat_map(|w| w.to_le_bytes()).collect();
    let mut label = bytes[..row[8] as usize].to_vec();
    label.push(0);
    label
}

/// What `left` says: the preferred lifetime and the valid one.
pub fn left(row: &AddressRow, now: u64) -> [u32; 2] {
    let row = row.to_vec();
    let reply = model(&Call::Left { row, now }, &mut [], &mut []);
    assert_eq!(reply.number, 0, "the row was looked at");
    [reply.value, reply.second]
}

fn rtmsg(row: &RouteRow) -> Vec<u8> {
    let table = u8::try_from(row[0]).unwrap_or(TABLE_COMPAT);
    let mut all = vec![FAMILY, byte(row[2]), 0, byte(row[3]), table];
    all.extend([byte(row[6]), byte(row[7]), byte(row[5])]);
    all.extend((ONLINK * row[13]).to_le_bytes());
    all
}

fn route(row: &RouteRow) -> Vec<(u16, Vec<u8>)> {
    let mut all = Vec::new();
    // "a destination of length 0 gives none"
    all.extend(nonzero(row[2]).map(|_| (rta::DST, network(row[1]))));
    // "absent where a route's device is 0"
    all.extend(nonzero(row[12]).map(|_| (rta::OIF, number(DEVICE))));
    all.extend(optional(rta::GATEWAY, row[10], row[11]));
    all.extend(nonzero(row[4]).map(|priority| (rta::PRIORITY, number(priority))));
    all.extend(optional(rta::PREFSRC, row[8], row[9]));
    // "Metrics that are 0 are left out, the whole attribute if all are"
    let metrics = metrics(row);
    if !metrics.is_empty() {
        all.push((rta::METRICS, list(&metrics)));
    }
    all.push((rta::TABLE, number(row[0])));
    all
}

/// The metrics of a route that aren't 0, by their types.
pub fn metrics(row: &RouteRow) -> Vec<(u16, Vec<u8>)> {
    let all = (1..=METRICS).zip(&row[15..]);
    all.filter(|(_, value)| **value != 0)
        .map(|(t, value)| (t, number(*value)))
        .collect()
}

fn byte(word: u32) -> u8 {
    u8::try_from(word).expect("a byte field was looked at")
}

fn number(word: u32) -> Vec<u8> {
    word.to_le_bytes().to_vec()
}

/// An address, in the order of the network.
fn network(address: u32) -> Vec<u8> {
    address.to_be_bytes().to_vec()
}

fn nonzero(word: u32) -> Option<u32> {
    (word != 0).then_some(word)
}

fn optional(code: u16, present: u32, address: u32) -> Option<(u16, Vec<u8>)> {
    (present == 1).then(|| (code, network(address)))
}

/// What is met as `interface4_write`.
pub trait Writer {
    fn name(&self) -> String;
    fn write(&mut self, event: &[u8], message: &mut [u8], given: Given) -> Reply;
}

/// The same with the event as words, `interface4w_write`.
pub trait WordWriter {
    fn name(&self) -> String;
    fn write(&mut self, event: &[u32], message: &mut [u8], given: Given) -> Reply;
}

/// A writer on words met through bytes.
impl<W: WordWriter> Writer for Bytes<W> {
    fn name(&self) -> String {
        self.0.name()
    }
    fn write(&mut self, event: &[u8], message: &mut [u8], given: Given) -> Reply {
        self.0.write(&exact(event), message, given)
    }
}

/// What `interface4_write` does, by this writing of an event.
pub fn lent(written: Written, message: &mut [u8]) -> Reply {
    if message.len() < MESSAGE_BYTES {
        return Reply::refused(UNFIT_BUFFER);
    }
    match written {
        Err(number) => Reply::refused(number),
        Ok(bytes) => {
            message[..bytes.len()].copy_from_slice(&bytes);
            Reply::value(bytes.len() as u32)
        }
    }
}

/// The writer above, on a lent message.
pub struct Model;

impl WordWriter for Model {
    fn name(&self) -> String {
        "the writer".to_string()
    }
    fn write(&mut self, event: &[u32], message: &mut [u8], given: Given) -> Reply {
        lent(write(event, given), message)
    }
}

/// An event row of this kind; an address has zeros behind it.
pub fn event(kind: u32, flags: u32, row: &[u32]) -> Vec<u32> {
    debug_assert!(row.len() >= ADDRESS_WORDS);
    let mut event = vec![kind, flags];
    event.extend(row);
    event.resize(EVENT_WORDS, 0);
    event
}
