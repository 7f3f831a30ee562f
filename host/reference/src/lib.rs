//! The IPv4 part of the unchanged `interface.rs` behind rows of words.
//!
//! A request here is already fit: lengths, widths and presence words are
//! what document 01 asks. The caller sees to that ([`Request`]).

include!(concat!(env!("OUT_DIR"), "/modules.rs"));
mod peaks;
pub use interface::access::native::{Arguments, Native, Told};

/// The SHA-256 of the file that was compiled.
pub const INTERFACE_SHA256: &str = env!("INTERFACE_SHA256");

/// An address row, a route row and an event row, as document 01 lays them
/// out.
pub type AddressRow = [u32; 20];
pub type RouteRow = [u32; 32];
pub type EventRow = [u32; 34];

/// The three IPv4 lists of `Addresses`, without limits.
#[derive(Clone, Debug, Default, PartialEq, Eq)]
pub struct Lists {
    pub addresses: Vec<AddressRow>,
    pub routes: Vec<RouteRow>,
    pub tables: Vec<u32>,
}

/// A call with fit arguments. The request words are laid out as in the
/// host's interface (host/README.md).
#[derive(Clone, Copy, Debug)]
pub enum Request<'a> {
    Up { now: u64 },
    Down,
    AddV4 { request: &'a [u32; 18], now: u64 },
    DelV4 { request: &'a [u32; 11] },
    Expire { now: u64, allowance: u64 },
    AddRoute4 { request: &'a [u32; 34] },
    DelRoute4 { request: &'a [u32; 49] },
    Dump4,
    Lookup4 { ip: u32 },
    Lookup4Flow { ip: u32, tos: u8, oif: u32 },
    Local4 { ip: u32 },
    Source4 { row: &'a RouteRow, ip: u32 },
    Source { ip: u32 },
    Select4 { dst: Option<u32>, scope: u8 },
    Left { row: &'a AddressRow, now: u64 },
}

/// What the Rust answers.
#[derive(Clone, Debug, PartialEq, Eq)]
pub enum Answer {
    Events(Vec<EventRow>),
    Rows(Vec<RouteRow>),
    Row(RouteRow),
    Yes(bool),
    Address(Option<u32>),
    Left { preferred: u32, valid: u32 },
    Refused(u32),
}

/// An answer, the lists afterwards, and the greatest length that each list
/// (addresses, routes, tables) had during the call.
#[derive(Clone, Debug, PartialEq, Eq)]
pub struct Outcome {
    pub answer: Answer,
    pub lists: Lists,
    pub peaks: [usize; 3],
}

/// The Rust's own allowance in `expire`, its `FUZZ`.
pub const FUZZ: u64 = 20_000_000;

/// Runs `request` on `lists`. The answer is the unchanged text's; the
/// observed copy gives the greatest lengths, and must answer alike.
///
/// An `expire` with another allowance than the Rust's own: whether a
/// lifetime is reached depends on the clock and the allowance by their sum
/// alone, so the unchanged text is asked at the clock that makes the same
/// sum with its 20 ms (at 0 where the sum is smaller: then no second has
/// passed either way). The observed copy has the allowance in the
/// constant's place, and the clock as it is.
pub fn run(lists: &Lists, request: &Request) -> Outcome {
    let (asked, allowance) = match *request {
        Request::Expire { now, allowance } => {
            let now = (now + allowance).saturating_sub(FUZZ);
            (
                Request::Expire {
                    now,
                    allowance: FUZZ,
                },
                allowance,
            )
        }
        other => (other, FUZZ),
    };
    let (answer, after) = interface::access::run(lists, &asked);
    let before = [
        lists.addresses.len(),
        lists.routes.len(),
        lists.tables.len(),
    ];
    peaks::begin(before, allowance);
    let (observed_answer, observed_after) = observed::access::run(lists, request);
    let peaks = peaks::read();
    assert_eq!(
        answer, observed_answer,
        "the observed copy answers otherwise"
    );
    assert_eq!(
        after, observed_after,
        "the observed copy leaves other lists"
    );
    Outcome {
        answer,
        lists: after,
        peaks,
    }
}

/// The mask of a prefix of at most 32.
pub fn mask(prefix: u8) -> u32 {
    interface::access::mask(prefix)
}

/// The error number of a kind's code: `None` for a code that is none of
/// the seven, `Some(None)` for a kind without an error.
pub fn kind_error(code: u8) -> Option<Option<u32>> {
    interface::access::kind_error(code)
}

/// The constants that are public in the Rust and concern IPv4, by name.
pub fn constants() -> Vec<(&'static str, u32)> {
    interface::access::constants()
}
