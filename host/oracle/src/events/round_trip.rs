//! What was put into a message is read out of it: "The reader of Paper 1
//! must find in each message the table, addresses, kind, scope, priority,
//! lifetimes and metrics that were put in, as far as a request of that type
//! has the field."
use crate::event::{Given, Row, left, taken};
use crate::message::{self, DEL_ADDRESS, NEW_ADDRESS, NEW_ROUTE, text};
use crate::port::bytes;
use crate::words;
use reference::{AddressRow, RouteRow};

/// The host's word, which no message has.
const UP: u32 = 1;

/// Reads the message of an event that isn't refused, and holds the request
/// against the event's row.
pub fn check(event: &[u32], given: Given, message: &[u8]) -> Result<(), String> {
    let (kind, flags, row) = taken(event).map_err(|number| format!("refused by {number}"))?;
    let request = match (kind, row) {
        (NEW_ADDRESS, Row::Address(row)) => new_address(row, flags, given.now),
        (DEL_ADDRESS, Row::Address(row)) => del_address(row),
        (NEW_ROUTE, Row::Route(row)) => new_route(row, flags),
        (_, Row::Route(row)) => del_route(row),
        _ => return Err("the kind and the row don't fit".to_string()),
    };
    match message::read(message, UP) {
        Ok(read) if read == (kind, request.clone()) => Ok(()),
        read => Err(format!("read as {read:?} in place of {request:?}")),
    }
}

/// The label as it is read: up to its first zero.
fn label(row: &AddressRow) -> [u32; 5] {
    let all = bytes(&row[9..13]);
    words::label(text(&all[..row[8] as usize]))
}

fn new_address(row: &AddressRow, flags: u16, now: u64) -> Vec<u32> {
    let mut request = row[..14].to_vec();
    request[8..13].copy_from_slice(&label(row));
    let [preferred, valid] = left(row, now);
    let replace = flags & 0x300 == 0x100;
    request.extend([valid, preferred, replace.into(), UP]);
    request
}

fn del_address(row: &AddressRow) -> Vec<u32> {
    let mut request = vec![1, row[0], 1, row[1], row[2], 1];
    request.extend(label(row));
    request
}

/// The first twelve words are the row's, and the device.
fn route(row: &RouteRow) -> Vec<u32> {
    row[..13].to_vec()
}

fn new_route(row: &RouteRow, flags: u16) -> Vec<u32> {
    let mut request = route(row);
    request.extend([4 * row[13], flags.into(), 0]);
    request.extend(&row[15..]);
    request.push(UP);
    request
}

fn del_route(row: &RouteRow) -> Vec<u32> {
    let mut request = route(row);
    let metrics = (0..).zip(&row[15..]).filter(|(_, value)| **value != 0);
    let pairs: Vec<[u32; 2]> = metrics.map(|(index, value)| [index, *value]).collect();
    request.extend([1, pairs.len() as u32]);
    request.extend(pairs.as_flattened());
    request.resize(49, 0);
    request
}
