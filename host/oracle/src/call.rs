//! The fourteen calls and `left`, with their arguments as words.
use crate::words::{EVENT_BUFFER, LISTING_BUFFER, ROUTE_WORDS};
use std::fmt;

/// The words of each request.
pub const ADD_V4_WORDS: usize = 18;
pub const DEL_V4_WORDS: usize = 11;
pub const ADD_ROUTE4_WORDS: usize = 34;
pub const DEL_ROUTE4_WORDS: usize = 49;

/// A call and its arguments, fit or not. State and buffer are lent beside
/// it.
#[derive(Clone, Debug, PartialEq, Eq)]
pub enum Call {
    Up { now: u64 },
    Down,
    AddV4 { request: Vec<u32>, now: u64 },
    DelV4 { request: Vec<u32> },
    Expire { now: u64, allowance: u64 },
    AddRoute4 { request: Vec<u32> },
    DelRoute4 { request: Vec<u32> },
    Dump4,
    Lookup4 { ip: u32 },
    Lookup4Flow { ip: u32, tos: u32, oif: u32 },
    Local4 { ip: u32 },
    Source4 { row: Vec<u32>, ip: u32 },
    Source { ip: u32 },
    Select4 { present: u32, dst: u32, scope: u32 },
    Left { row: Vec<u32>, now: u64 },
}

/// What a call's buffer is for.
#[derive(Clone, Copy, Debug, PartialEq, Eq)]
pub enum Buffer {
    None,
    Events,
    Listing,
    Row,
}

impl Buffer {
    /// The fewest words it may have.
    pub fn least(self) -> usize {
        match self {
            Self::None => 0,
            Self::Events => EVENT_BUFFER,
            Self::Listing => LISTING_BUFFER,
            Self::Row => ROUTE_WORDS,
        }
    }
}

/// The request or row of a borrowed call, borrowed alike.
macro_rules! lent {
    ($call:expr) => {
        match $call {
            Self::AddV4 { request, .. }
            | Self::DelV4 { request }
            | Self::AddRoute4 { request }
            | Self::DelRoute4 { request } => Some(request),
            Self::Source4 { row, .. } | Self::Left { row, .. } => Some(row),
            _ => None,
        }
    };
}

/// How many kinds of call there are; their codes go from 1 to this.
pub const KINDS: usize = 15;

impl Call {
    pub fn buffer(&self) -> Buffer {
        match self {
            Self::Up { .. }
            | Self::Down
            | Self::AddV4 { .. }
            | Self::DelV4 { .. }
            | Self::Expire { .. }
            | Self::AddRoute4 { .. }
            | Self::DelRoute4 { .. } => Buffer::Events,
            Self::Dump4 => Buffer::Listing,
            Self::Lookup4 { .. } | Self::Lookup4Flow { .. } => Buffer::Row,
            Self::Local4 { .. }
            | Self::Source4 { .. }
            | Self::Source { .. }
            | Self::Select4 { .. }
            | Self::Left { .. } => Buffer::None,
        }
    }

    /// Its code in vectors, from 1 on.
    pub fn code(&self) -> u32 {
        match self {
            Self::Up { .. } => 1,
            Self::Down => 2,
            Self::AddV4 { .. } => 3,
            Self::DelV4 { .. } => 4,
            Self::Expire { .. } => 5,
            Self::AddRoute4 { .. } => 6,
            Self::DelRoute4 { .. } => 7,
            Self::Dump4 => 8,
            Self::Lookup4 { .. } => 9,
            Self::Lookup4Flow { .. } => 10,
            Self::Local4 { .. } => 11,
            Self::Source4 { .. } => 12,
            Self::Source { .. } => 13,
            Self::Select4 { .. } => 14,
            Self::Left { .. } => 15,
        }
    }

    pub fn name(&self) -> &'static str {
        NAMES[self.code() as usize - 1]
    }

    /// The lent words that it reads and never writes: a request or a row.
    pub fn lent(&self) -> Option<&[u32]> {
        lent!(self)
    }

    pub fn lent_mut(&mut self) -> Option<&mut Vec<u32>> {
        lent!(self)
    }

    /// Whether its request, if it has one, is as long as it must be. A
    /// handed row is none.
    pub fn request_whole(&self) -> bool {
        match self {
            Self::AddV4 { request, .. } => request.len() == ADD_V4_WORDS,
            Self::DelV4 { request } => request.len() == DEL_V4_WORDS,
            Self::AddRoute4 { request } => request.len() == ADD_ROUTE4_WORDS,
            Self::DelRoute4 { request } => request.len() == DEL_ROUTE4_WORDS,
            _ => true,
        }
    }

    /// Its numbers, at most four, a clock and an allowance as the low and
    /// the high word.
    pub fn numbers(&self) -> Vec<u32> {
        match *self {
            Self::Up { now } | Self::AddV4 { now, .. } | Self::Left { now, .. } => {
                vec![now as u32, (now >> 32) as u32]
            }
            Self::Expire { now, allowance } => [now, allowance]
                .iter()
                .flat_map(|n| [*n as u32, (n >> 32) as u32])
                .collect(),
            Self::Lookup4 { ip }
            | Self::Local4 { ip }
            | Self::Source4 { ip, .. }
            | Self::Source { ip } => vec![ip],
            Self::Lookup4Flow { ip, tos, oif } => vec![ip, tos, oif],
            Self::Select4 {
                present,
                dst,
                scope,
            } => vec![present, dst, scope],
            Self::Down | Self::DelV4 { .. } | Self::AddRoute4 { .. } => vec![],
            Self::DelRoute4 { .. } | Self::Dump4 => vec![],
        }
    }
}

pub const NAMES: [&str; KINDS] = [
    "up",
    "down",
    "add_v4",
    "del_v4",
    "expire",
    "add_route4",
    "del_route4",
    "dump4",
    "lookup4",
    "lookup4_flow",
    "local4",
    "source4",
    "source",
    "select4",
    "left",
];

impl fmt::Display for Call {
    fn fmt(&self, f: &mut fmt::Formatter) -> fmt::Result {
        write!(f, "{}", self.name())?;
        if let Some(lent) = self.lent() {
            write!(f, " {lent:?}")?;
        }
        for number in self.numbers() {
            write!(f, " {number}")?;
        }
        Ok(())
    }
}

/// The reply of every call: `number` is 0 or the refusal's number, and then
/// the rest is 0.
#[derive(Clone, Copy, Debug, Default, PartialEq, Eq)]
pub struct Reply {
    pub number: u32,
    pub present: u32,
    pub value: u32,
    pub second: u32,
}

impl Reply {
    pub fn refused(number: u32) -> Self {
        Self {
            number,
            ..Self::default()
        }
    }
    pub fn value(value: u32) -> Self {
        Self {
            value,
            ..Self::default()
        }
    }
}
