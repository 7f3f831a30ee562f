//! Faults in the events that the port tells beside the Rust (document 02,
//! Paper 9): 5 on every `down`, 6 when the last address goes.
use super::Fault;
use crate::call::{Buffer, Call, Reply};
use crate::model::model;
use crate::recording::{IP_DISABLED, LINK_DOWN, mark};
use crate::script::written;
use crate::words::{EVENT_ROWS, EVENT_WORDS, LIMITS, STATE_WORDS, decode};
use reference::{EventRow, Lists};

pub const FAULTS: &[Fault] = &[
    Fault::new("down tells nothing", |c, s, b| {
        told(c, s, b, |events, _| events.retain(|e| e[0] != LINK_DOWN))
    }),
    Fault::new("event 5 only where a row went", |c, s, b| {
        told(c, s, b, |events, made| {
            let idle = made.before.routes == made.after.routes;
            events.retain(|e| e[0] != LINK_DOWN || !idle);
        })
    }),
    Fault::new("event 5 for each row that went", |c, s, b| {
        told(c, s, b, |events, made| {
            if made.down {
                let gone = made.before.routes.len() - made.after.routes.len();
                *events = vec![mark(LINK_DOWN); gone];
            }
        })
    }),
    Fault::new(
        "down tells a DelRoute4 for each row that went",
        |c, s, b| {
            told(c, s, b, |events, made| {
                if made.down {
                    let stays = |row: &[u32; 32]| made.after.routes.contains(row);
                    let gone = made.before.routes.iter().filter(|row| !stays(row));
                    let one = |row: &[u32; 32]| {
                        let mut event = mark(4);
                        event[2..].copy_from_slice(row);
                        event
                    };
                    events.splice(0..0, gone.map(one));
                }
            })
        },
    ),
    Fault::new("no event 6", |c, s, b| {
        told(c, s, b, |events, _| events.retain(|e| e[0] != IP_DISABLED))
    }),
    Fault::new("event 6 by del_v4 alone", |c, s, b| {
        told(c, s, b, |events, made| {
            events.retain(|e| e[0] != IP_DISABLED || !made.expires);
        })
    }),
    Fault::new("event 6 by expire alone", |c, s, b| {
        told(c, s, b, |events, made| {
            events.retain(|e| e[0] != IP_DISABLED || made.expires);
        })
    }),
    Fault::new("event 6 only where there were routes", |c, s, b| {
        told(c, s, b, |events, made| {
            let none = made.before.routes.is_empty();
            events.retain(|e| e[0] != IP_DISABLED || !none);
        })
    }),
    Fault::new("event 6 by every deletion of an address", |c, s, b| {
        told(c, s, b, |events, made| {
            let goes = events.iter().any(|e| e[0] == 2);
            if goes && !made.after.addresses.is_empty() {
                events.push(mark(IP_DISABLED));
            }
        })
    }),
    Fault::new("event 6 by every call without an address", |c, s, b| {
        told(c, s, b, |events, made| {
            let none = made.before.addresses.is_empty() && made.after.addresses.is_empty();
            if none && !made.down {
                events.push(mark(IP_DISABLED));
            }
        })
    }),
    Fault::new("event 6 before the last address's own events", |c, s, b| {
        told(c, s, b, |events, _| {
            if events.last().is_some_and(|e| e[0] == IP_DISABLED) {
                events.rotate_right(1);
            }
        })
    }),
    Fault::new("events 5 and 6 in each other's place", |c, s, b| {
        each(c, s, b, |e| e[0] = LINK_DOWN + IP_DISABLED - e[0])
    }),
    Fault::new("events 5 and 6 with flags", |c, s, b| {
        each(c, s, b, |e| e[1] = 1)
    }),
    Fault::new("events 5 and 6 with a word behind", |c, s, b| {
        each(c, s, b, |e| e[EVENT_WORDS - 1] = 1)
    }),
];

/// What a changing call that isn't refused was and did.
struct Made {
    down: bool,
    expires: bool,
    before: Lists,
    after: Lists,
}

/// The model with other events.
fn told(
    call: &Call,
    state: &mut [u32],
    buffer: &mut [u32],
    by: fn(&mut Vec<EventRow>, &Made),
) -> Reply {
    let (before, held) = (state.to_vec(), buffer.to_vec());
    let mut reply = model(call, state, buffer);
    let within = before.len() == STATE_WORDS && (0..3).all(|i| before[i] as usize <= LIMITS[i]);
    if call.buffer() != Buffer::Events || reply.number != 0 || !within {
        return reply;
    }
    let (rows, _) = buffer[..written(call, &reply)].as_chunks();
    let mut events = rows.to_vec();
    let made = Made {
        down: matches!(call, Call::Down),
        expires: matches!(call, Call::Expire { .. }),
        before: decode(&before),
        after: decode(state),
    };
    by(&mut events, &made);
    events.truncate(EVENT_ROWS);
    buffer.copy_from_slice(&held);
    let words = events.as_flattened();
    buffer[..words.len()].copy_from_slice(words);
    reply.value = events.len() as u32;
    reply
}

/// The model with another event 5 or 6.
fn each(call: &Call, state: &mut [u32], buffer: &mut [u32], by: fn(&mut EventRow)) -> Reply {
    let reply = model(call, state, buffer);
    if call.buffer() == Buffer::Events {
        let (rows, _) = buffer[..written(call, &reply)].as_chunks_mut();
        let marks = |e: &&mut EventRow| matches!(e[0], LINK_DOWN | IP_DISABLED);
        rows.iter_mut().filter(marks).for_each(by);
    }
    reply
}
