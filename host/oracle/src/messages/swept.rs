//! Every size of every attribute, every length of a message and of what is
//! lent.
use super::{OWN, base, own};
use crate::generate::drafts::Draft;
use crate::generate::message_damage::fields;
use crate::generate::messages::MessageCase;
use crate::message::{CODE, DEL_ADDRESS, NEW_ADDRESS, REQUEST_BYTES, TYPES, ifa, rta};

/// A message of this type with no more than it must have.
fn least(kind: u16) -> Draft {
    match kind {
        NEW_ADDRESS => own(0),
        _ => base(kind),
    }
}

/// Every code with every size, for every type, and every metric with every
/// size; each with its number.
pub fn every_size() -> Vec<(Vec<u8>, u32)> {
    let mut all = Vec::new();
    for kind in TYPES {
        let route = kind > DEL_ADDRESS;
        for (code, size) in (0..40)
            .chain([255, CODE])
            .flat_map(|c| (0..=20).map(move |n| (c, n)))
        {
            let field = fields(kind).iter().find(|(field, _)| *field == code);
            let right = match code {
                rta::METRICS if route => continue,
                // there is no zero in it
                ifa::LABEL if !route => size <= 15,
                _ => field.is_none_or(|(_, right)| size == *right),
            };
            let draft = least(kind).with(code, &vec![9; size]);
            all.push((draft.bytes(), if right { 0 } else { 206 }));
        }
        for (t, size) in (0..20).flat_map(|t| (0..9).map(move |size| (t, size))) {
            if route {
                let right = !(1..=17).contains(&t) || size == 4;
                let draft = least(kind).with_metrics(&[(t, &vec![9; size])]);
                all.push((draft.bytes(), if right { 0 } else { 206 }));
            }
        }
    }
    all
}

/// A message cut at each place, and with each length said, of each type:
/// for readers to be compared on.
pub fn every_length() -> Vec<Vec<u8>> {
    let mut all = Vec::new();
    for kind in TYPES {
        let draft = if kind <= DEL_ADDRESS {
            let draft = base(kind).with(ifa::LOCAL, &OWN);
            draft.with(ifa::LABEL, b"lo:1\0").with(ifa::ADDRESS, &OWN)
        } else {
            let draft = base(kind).with(rta::DST, &[10, 2, 0, 0]);
            draft.with_metrics(&[(2, &[1; 4]), (0, b"five!"), (1, &[2; 4])])
        };
        let whole = draft.bytes();
        for end in 0..=whole.len() {
            all.push(whole[..end].to_vec());
            for past in [0, 7] {
                let said = Draft {
                    length: Some(end as u32),
                    past: vec![0; past],
                    ..draft.clone()
                };
                all.push(said.bytes());
            }
        }
        for at in 0..whole.len() {
            for byte in [0, 1, 3, 4, 5, 8, 0x40, 0xff] {
                let mut other = whole.clone();
                other[at] = byte;
                all.push(other);
            }
        }
    }
    all
}

/// Cases for readers to be compared on, beside generated ones: every size,
/// every length, and a request of every length around the least.
pub fn swept() -> Vec<MessageCase> {
    let sizes = every_size().into_iter().map(|(message, _)| message);
    let mut all: Vec<MessageCase> = sizes.chain(every_length()).map(MessageCase::new).collect();
    for kind in TYPES {
        let message = least(kind).bytes();
        for length in 0..=REQUEST_BYTES + 8 {
            let mut case = MessageCase::new(message.clone());
            case.request = vec![0xe1; length];
            all.push(case);
        }
    }
    all
}
