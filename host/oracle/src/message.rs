//! The reader of Paper 1: one rtnetlink message to the base's request.
//!
//! Written from the paper's words alone; a line in quotation marks is the
//! paper's. Layouts and codes are those of netlink(7), rtnetlink(7) and the
//! Linux headers: numbers little-endian, as the port's hosts are, addresses
//! in the order of the network.
use crate::call::{ADD_ROUTE4_WORDS, ADD_V4_WORDS, Call, DEL_ROUTE4_WORDS, DEL_V4_WORDS, Reply};
use crate::model::UNFIT_BUFFER;
use crate::port::{Bytes, words as words_of, write_back};
use crate::words;

/// "204 under 16 bytes, or a length that passes the end or is below its
/// header".
pub const BAD_LENGTH: u32 = 204;
/// "205 another type or a family other than 2".
pub const NOT_IPV4: u32 = 205;
/// "206 an attribute of the wrong size or a new address without local".
pub const BAD_ATTRIBUTE: u32 = 206;

pub const NEW_ADDRESS: u16 = 20;
pub const DEL_ADDRESS: u16 = 21;
pub const NEW_ROUTE: u16 = 24;
pub const DEL_ROUTE: u16 = 25;
pub const TYPES: [u16; 4] = [NEW_ADDRESS, DEL_ADDRESS, NEW_ROUTE, DEL_ROUTE];

/// The bytes of `nlmsghdr`.
pub const HEADER: usize = 16;
pub const FAMILY: u8 = 2;
/// The bits of a code that count.
pub const CODE: u16 = 0x3fff;
/// The longest label, in bytes.
pub const LABEL: usize = 15;
/// Metrics have types from 1 to this.
pub const METRICS: u16 = 17;
const INVALID: u32 = 22;
const FOREVER: u32 = u32::MAX;

pub const REPLACE: u16 = 0x100;
pub const EXCL: u16 = 0x200;

/// `IFA_*`.
pub mod ifa {
    pub const ADDRESS: u16 = 1;
    pub const LOCAL: u16 = 2;
    pub const LABEL: u16 = 3;
    pub const BROADCAST: u16 = 4;
    pub const CACHEINFO: u16 = 6;
    pub const FLAGS: u16 = 8;
    pub const RT_PRIORITY: u16 = 9;
    pub const PROTO: u16 = 11;
}
/// `RTA_*`.
pub mod rta {
    pub const DST: u16 = 1;
    pub const OIF: u16 = 4;
    pub const GATEWAY: u16 = 5;
    pub const PRIORITY: u16 = 6;
    pub const PREFSRC: u16 = 7;
    pub const METRICS: u16 = 8;
    pub const TABLE: u16 = 15;
}

/// What a message is read as: its type and the request's words, or the
/// number of the refusal.
pub type Read = Result<(u16, Vec<u32>), u32>;

/// An attribute.
#[derive(Clone, Copy, Debug, PartialEq, Eq)]
pub struct Attribute<'a> {
    pub raw: u16,
    pub value: &'a [u8],
}

impl Attribute<'_> {
    /// "The top two bits of a code .. are ignored."
    pub fn code(self) -> u16 {
        self.raw & CODE
    }
}

/// A message in its parts.
#[derive(Clone, Debug)]
pub struct Message<'a> {
    pub kind: u16,
    pub flags: u16,
    /// `ifaddrmsg` or `rtmsg`.
    pub fixed: &'a [u8],
    pub attributes: Vec<Attribute<'a>>,
}

/// Reads a message; `up` is the host's word for the request.
pub fn read(lent: &[u8], up: u32) -> Read {
    request(&cut(lent)?, up)
}

/// The bytes of `ifaddrmsg` or `rtmsg`, of the four types.
pub fn fixed(kind: u16) -> Option<usize> {
    match kind {
        NEW_ADDRESS | DEL_ADDRESS => Some(8),
        NEW_ROUTE | DEL_ROUTE => Some(12),
        _ => None,
    }
}

/// The parts of a message.
pub fn cut(lent: &[u8]) -> Result<Message<'_>, u32> {
    // "under 16 bytes"
    let (header, _) = lent.split_at_checked(HEADER).ok_or(BAD_LENGTH)?;
    let (length, kind, flags) = (word(header), half(&header[4..]), half(&header[6..]));
    // "a length that passes the end or is below its header"; "bytes past the
    // message are ignored"
    let rest = lent.get(HEADER..length as usize).ok_or(BAD_LENGTH)?;
    // "after another type no more is read"
    let fixed = fixed(kind).ok_or(NOT_IPV4)?;
    // "(ifaddrmsg or rtmsg included)"
    let (fixed, rest) = rest.split_at_checked(fixed).ok_or(BAD_LENGTH)?;
    Ok(Message {
        kind,
        flags,
        fixed,
        attributes: attributes(rest)?,
    })
}

/// A list of attributes.
pub fn attributes(mut rest: &[u8]) -> Result<Vec<Attribute<'_>>, u32> {
    let mut all = Vec::new();
    // "one to three spare bytes .. are ignored"
    while rest.len() >= 4 {
        let (length, raw) = (half(rest) as usize, half(&rest[2..]));
        let value = rest.get(4..length).ok_or(BAD_LENGTH)?;
        all.push(Attribute { raw, value });
        // the padding of the last one may be missing
        rest = rest.get(length.next_multiple_of(4)..).unwrap_or(&[]);
    }
    Ok(all)
}

/// The request of a message whose own lengths are right.
pub fn request(message: &Message, up: u32) -> Read {
    // "Repeated and nested attributes are all checked"
    for nested in message.all(rta::METRICS).filter(|_| message.route()) {
        attributes(nested)?;
    }
    // "a family other than 2"
    if message.fixed[0] != FAMILY {
        return Err(NOT_IPV4);
    }
    // "an attribute of the wrong size or a new address without local"
    let sizes = message.attributes.iter().all(|a| sized(message.kind, *a));
    let local = message.last(ifa::LOCAL);
    if !sizes || (message.kind == NEW_ADDRESS && local.is_none()) {
        return Err(BAD_ATTRIBUTE);
    }
    let words = match message.kind {
        NEW_ADDRESS => new_address(message, up),
        DEL_ADDRESS => del_address(message),
        NEW_ROUTE => new_route(message, up),
        _ => del_route(message),
    };
    Ok((message.kind, words))
}

impl<'a> Message<'a> {
    pub fn route(&self) -> bool {
        matches!(self.kind, NEW_ROUTE | DEL_ROUTE)
    }
    /// The values of a code.
    pub fn all(&self, code: u16) -> impl Iterator<Item = &'a [u8]> {
        let of = self.attributes.iter().filter(move |a| a.code() == code);
        of.map(|a| a.value)
    }
    /// "of a repeated one the last counts".
    fn last(&self, code: u16) -> Option<&'a [u8]> {
        self.all(code).last()
    }
    fn number(&self, code: u16) -> Option<u32> {
        self.last(code).map(word)
    }
    fn address(&self, code: u16) -> Option<u32> {
        self.last(code).map(|v| word(v).swap_bytes())
    }
    fn label(&self) -> Option<[u32; 5]> {
        self.last(ifa::LABEL).map(|v| words::label(text(v)))
    }
    fn byte(&self, at: usize) -> u32 {
        self.fixed[at].into()
    }
}

/// "A label ends at its first zero byte".
pub fn text(label: &[u8]) -> &[u8] {
    let end = label.iter().position(|&b| b == 0);
    &label[..end.unwrap_or(label.len())]
}

/// Whether an attribute has the size of its field. "An attribute with no
/// field in the request is skipped."
fn sized(kind: u16, attribute: Attribute) -> bool {
    let (code, size) = (attribute.code(), attribute.value.len());
    match (kind, code) {
        (NEW_ADDRESS | DEL_ADDRESS, ifa::ADDRESS | ifa::LOCAL) => size == 4,
        // "over 15 bytes is a wrong size"
        (NEW_ADDRESS | DEL_ADDRESS, ifa::LABEL) => text(attribute.value).len() <= LABEL,
        (NEW_ADDRESS, ifa::BROADCAST | ifa::FLAGS | ifa::RT_PRIORITY) => size == 4,
        (NEW_ADDRESS, ifa::CACHEINFO) => size == 16,
        (NEW_ADDRESS, ifa::PROTO) => size == 1,
        (
            NEW_ROUTE | DEL_ROUTE,
            rta::DST | rta::OIF | rta::GATEWAY | rta::PRIORITY | rta::PREFSRC | rta::TABLE,
        ) => size == 4,
        // "A metric of type 1 to 17 has four bytes, one of type 0 is skipped"
        (NEW_ROUTE | DEL_ROUTE, rta::METRICS) => metrics_of(attribute.value)
            .iter()
            .all(|m| !(1..=METRICS).contains(&m.code()) || m.value.len() == 4),
        _ => true,
    }
}

/// The first 14 words of an address row, lifetimes, replace, up.
fn new_address(m: &Message, up: u32) -> Vec<u32> {
    let local = m.address(ifa::LOCAL).expect("206 was looked for");
    // "a missing address attribute means the local address"
    let address = m.address(ifa::ADDRESS).unwrap_or(local);
    let mut words = vec![local, address, m.byte(1)];
    words.extend(optional(m.address(ifa::BROADCAST)));
    // "the flags attribute before the flags byte"
    let flags = m.number(ifa::FLAGS).unwrap_or(m.byte(2));
    let proto = m.last(ifa::PROTO).map_or(0, |v| v[0].into());
    words.extend([m.byte(3), flags, proto]);
    // "a missing label means lo"
    words.extend(m.label().unwrap_or(words::label(b"lo")));
    words.push(m.number(ifa::RT_PRIORITY).unwrap_or(0));
    // "missing cache information means forever"; preferred comes first
    let life = m.last(ifa::CACHEINFO).map(|v| [word(&v[4..]), word(v)]);
    words.extend(life.unwrap_or([FOREVER, FOREVER]));
    words.extend([u32::from(m.flags & (REPLACE | EXCL) == REPLACE), up]);
    debug_assert_eq!(words.len(), ADD_V4_WORDS);
    words
}

/// "in a deletion a missing attribute sets no condition".
fn del_address(m: &Message) -> Vec<u32> {
    let mut words = Vec::new();
    words.extend(optional(m.address(ifa::LOCAL)));
    words.extend(optional(m.address(ifa::ADDRESS)));
    words.push(m.byte(1));
    words.push(m.label().is_some().into());
    words.extend(m.label().unwrap_or([0; 5]));
    debug_assert_eq!(words.len(), DEL_V4_WORDS);
    words
}

/// The first 12 words of a route row and the device.
fn route(m: &Message) -> Vec<u32> {
    // "The table attribute goes before the table byte"
    let table = m.number(rta::TABLE).unwrap_or(m.byte(4));
    // "a route's missing destination is always 0"
    let dst = m.address(rta::DST).unwrap_or(0);
    let priority = m.number(rta::PRIORITY).unwrap_or(0);
    let mut words = vec![table, dst, m.byte(1), m.byte(3), priority];
    words.extend([m.byte(7), m.byte(5), m.byte(6)]);
    words.extend(optional(m.address(rta::PREFSRC)));
    words.extend(optional(m.address(rta::GATEWAY)));
    words.push(m.number(rta::OIF).unwrap_or(0));
    words
}

fn new_route(m: &Message, up: u32) -> Vec<u32> {
    let mut words = route(m);
    words.extend([word(&m.fixed[8..]), m.flags.into()]);
    match metrics(m) {
        Some(metrics) => {
            words.push(0);
            words.extend(metrics.map(|value| value.unwrap_or(0)));
        }
        // "a type above 17 sets the metrics error to 22"
        None => words.extend([&[INVALID][..], &[0; METRICS as usize]].concat()),
    }
    words.push(up);
    debug_assert_eq!(words.len(), ADD_ROUTE4_WORDS);
    words
}

fn del_route(m: &Message) -> Vec<u32> {
    let mut words = route(m);
    // "(in a deletion, makes the list absent, which matches no row)"
    let named = metrics(m);
    let pairs = (0..).zip(named.into_iter().flatten());
    let pairs: Vec<[u32; 2]> = pairs.filter_map(|(i, v)| Some([i, v?])).collect();
    words.extend([named.is_some().into(), pairs.len() as u32]);
    words.extend(pairs.as_flattened());
    words.resize(DEL_ROUTE4_WORDS, 0);
    words
}

/// The last list of metrics; `None` with a type above 17 in it.
fn metrics(m: &Message) -> Option<[Option<u32>; METRICS as usize]> {
    let mut all = [None; METRICS as usize];
    for metric in m.last(rta::METRICS).map_or(Vec::new(), metrics_of) {
        match metric.code() {
            0 => {}
            t @ 1..=METRICS => all[t as usize - 1] = Some(word(metric.value)),
            _ => return None,
        }
    }
    Some(all)
}

fn metrics_of(value: &[u8]) -> Vec<Attribute<'_>> {
    attributes(value).expect("nested lengths were checked")
}

fn half(bytes: &[u8]) -> u16 {
    u16::from_le_bytes(bytes[..2].try_into().expect("two bytes"))
}

fn word(bytes: &[u8]) -> u32 {
    u32::from_le_bytes(bytes[..4].try_into().expect("four bytes"))
}

fn optional(value: Option<u32>) -> [u32; 2] {
    [value.is_some().into(), value.unwrap_or(0)]
}

/// The call that performs a request.
pub fn call(kind: u16, request: Vec<u32>, now: u64) -> Call {
    match kind {
        NEW_ADDRESS => Call::AddV4 { request, now },
        DEL_ADDRESS => Call::DelV4 { request },
        NEW_ROUTE => Call::AddRoute4 { request },
        _ => Call::DelRoute4 { request },
    }
}

/// The fewest bytes of a lent request.
pub const REQUEST_BYTES: usize = 4 * DEL_ROUTE4_WORDS;

/// What is met as `interface4_read`.
pub trait Reader {
    fn name(&self) -> String;
    fn read(&mut self, message: &[u8], request: &mut [u8], up: u32) -> Reply;
}

/// The same on words, `interface4w_read`.
pub trait WordReader {
    fn name(&self) -> String;
    fn read(&mut self, message: &[u8], request: &mut [u32], up: u32) -> Reply;
}

/// A reader on words met through bytes.
impl<W: WordReader> Reader for Bytes<W> {
    fn name(&self) -> String {
        self.0.name()
    }
    fn read(&mut self, message: &[u8], request: &mut [u8], up: u32) -> Reply {
        let mut words = words_of(request);
        let reply = self.0.read(message, &mut words, up);
        write_back(&words, request);
        reply
    }
}

/// What `interface4_read` does, by this reading of a message.
pub fn lent(read: Read, request: &mut [u8]) -> Reply {
    if request.len() < REQUEST_BYTES {
        return Reply::refused(UNFIT_BUFFER);
    }
    match read {
        Err(number) => Reply::refused(number),
        Ok((kind, words)) => {
            write_back(&words, request);
            Reply {
                second: words.len() as u32,
                ..Reply::value(kind.into())
            }
        }
    }
}

/// The reader above, on lent bytes.
pub struct Model;

impl Reader for Model {
    fn name(&self) -> String {
        "the reader".to_string()
    }
    fn read(&mut self, message: &[u8], request: &mut [u8], up: u32) -> Reply {
        lent(read(message, up), request)
    }
}
