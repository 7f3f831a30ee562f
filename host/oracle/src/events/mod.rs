//! The writer of events, checked: events written by hand with the bytes of
//! their messages, what the generator reaches, that each message is read
//! again, and planted faults.
mod by_hand;
mod linux;
pub mod list;
mod reach;
mod round_trip;
mod swept;

use crate::call::Reply;
use crate::checks;
use crate::event::{Model, Writer};
use crate::faults::all_found;
use crate::faults::events::{FAULTS, Fault};
use crate::generate::events::{EventCase, Events};
use crate::messages::hex;
use crate::port::{Bytes, words};
pub use swept::swept;

/// Runs the checks by hand, `count` generated events, and the faults.
pub fn run(count: usize, seed: u64) -> bool {
    let parts = [
        checks::run("events by hand", by_hand::check),
        checks::run("events and Linux", linux::check),
        reach::run(count, seed),
        selftest(count, seed),
    ];
    parts.into_iter().all(|passed| passed)
}

/// One event on a writer and on the one of [`crate::event`]: the reply and
/// every byte of the message must come out alike.
pub fn against(writer: &mut dyn Writer, case: &EventCase) -> Result<Reply, String> {
    let (mut found, mut expected) = (case.message.clone(), case.message.clone());
    let reply = writer.write(&case.event, &mut found, case.given);
    let right = Bytes(Model).write(&case.event, &mut expected, case.given);
    let what = if reply != right {
        format!("replies {reply:?} in place of {right:?}")
    } else if let Some(at) = (0..found.len()).find(|&i| found[i] != expected[i]) {
        let (found, expected) = (found[at], expected[at]);
        format!("message byte {at} is {found:#x} in place of {expected:#x}")
    } else {
        return Ok(right);
    };
    let (name, given, length) = (writer.name(), case.given, case.message.len());
    let event = words(&case.event);
    let part = case.event.len() % 4;
    Err(format!(
        "{name}: write: {what}\n(event {event:?} and {part} bytes, {given:?}, a message of {length} \
         bytes: {}; {:?})",
        hex(&expected),
        case.damage
    ))
}

/// Every fault must be found within `count` events.
fn selftest(count: usize, seed: u64) -> bool {
    let cases = || {
        let mut events = Events::new(seed);
        std::iter::repeat_with(move || events.next_case())
    };
    let one = |fault: &Fault, case: &_| against(&mut { *fault }, case);
    all_found("events", count, FAULTS, |fault| fault.name, cases, one)
}
