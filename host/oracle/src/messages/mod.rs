//! The reader of messages, checked: messages written by hand with what
//! they are read as, what the generator reaches, and planted faults.
mod by_hand;
mod linux;
pub mod list;
mod reach;
mod swept;

use crate::call::Reply;
use crate::checks;
use crate::faults::all_found;
use crate::faults::messages::{FAULTS, Fault};
use crate::generate::drafts::Draft;
use crate::generate::messages::{MessageCase, Messages};
use crate::message::{DEL_ADDRESS, Model, NEW_ADDRESS, NEW_ROUTE, Reader, ifa, rta};
pub use swept::swept;

const OWN: [u8; 4] = [10, 1, 0, 5];
const NET: [u8; 4] = [11, 2, 0, 0];
/// A request, to be created, that wants an answer.
const CREATE: u16 = 0x405;

/// Runs the checks by hand, `count` generated messages, and the faults.
pub fn run(count: usize, seed: u64) -> bool {
    let parts = [
        checks::run("messages by hand", by_hand::check),
        checks::run("messages and Linux", linux::check),
        reach::run(count, seed),
        selftest(count, seed),
    ];
    parts.into_iter().all(|passed| passed)
}

/// One message on a reader and on the one of [`crate::message`]: the reply and
/// every byte of the request must come out alike.
pub fn against(reader: &mut dyn Reader, case: &MessageCase) -> Result<Reply, String> {
    let (mut found, mut expected) = (case.request.clone(), case.request.clone());
    let reply = reader.read(&case.message, &mut found, case.up);
    let right = Model.read(&case.message, &mut expected, case.up);
    let what = if reply != right {
        format!("replies {reply:?} in place of {right:?}")
    } else if let Some(at) = (0..found.len()).find(|&i| found[i] != expected[i]) {
        let (found, expected) = (found[at], expected[at]);
        format!("request byte {at} is {found:#x} in place of {expected:#x}")
    } else {
        return Ok(right);
    };
    let (name, up, length) = (reader.name(), case.up, case.request.len());
    let message = hex(&case.message);
    Err(format!(
        "{name}: read: {what}\n(message {message}, a request of {length} bytes, up {up}, {:?})",
        case.damage
    ))
}

pub fn hex(bytes: &[u8]) -> String {
    bytes.iter().map(|b| format!("{b:02x}")).collect()
}

/// The bytes of a message written as hexadecimal digits.
pub fn bytes_of(hex: &str) -> Vec<u8> {
    let digits: Vec<u8> = hex.bytes().filter(u8::is_ascii_hexdigit).collect();
    let pair = |two: &[u8]| {
        let text = std::str::from_utf8(two).expect("digits");
        u8::from_str_radix(text, 16).expect("two digits")
    };
    digits.chunks(2).map(pair).collect()
}

/// Every fault must be found within `count` messages.
fn selftest(count: usize, seed: u64) -> bool {
    let cases = || {
        let mut messages = Messages::new(seed);
        std::iter::repeat_with(move || messages.next_case())
    };
    let one = |fault: &Fault, case: &_| against(&mut { *fault }, case);
    all_found("messages", count, FAULTS, |fault| fault.name, cases, one)
}

/// A new address 10.1.0.5/24.
fn own(flags: u16) -> Draft {
    let base = base(NEW_ADDRESS);
    Draft { flags, ..base }.with(ifa::LOCAL, &OWN)
}

/// A route 11.2.0.0/24 to be created.
fn new_net() -> Draft {
    let route = base(NEW_ROUTE).with(rta::DST, &NET);
    let flags = CREATE;
    Draft { flags, ..route }.with(rta::OIF, &[1, 0, 0, 0])
}

/// A message of a type without attributes.
fn base(kind: u16) -> Draft {
    if kind <= DEL_ADDRESS {
        Draft::new(kind, 0, &[2, 24, 0, 0, 1, 0, 0, 0])
    } else {
        Draft::new(kind, 0, &[2, 24, 0, 0, 254, 3, 253, 1, 0, 0, 0, 0])
    }
}
