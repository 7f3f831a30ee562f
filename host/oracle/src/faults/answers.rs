//! Faults in what lookups, listings, source choice and `left` answer.
use super::Fault;
use crate::call::{Call, Reply};
use crate::generate::states::arrange;
use crate::model::{model, outcome};
use crate::words::{LIMITS, STATE_WORDS, decode, encode};
use reference::{Lists, RouteRow};

pub const FAULTS: &[Fault] = &[
    Fault::new("local before main whatever the length", local_first),
    Fault::new("main before local at equal length", main_first),
    Fault::new("a private table read by lookups", private_read),
    Fault::new("253 read though unlisted", default_unlisted),
    Fault::new("a flow's tos compared without its mask", tos_unmasked),
    Fault::new("a listing in order of age alone", by_age),
    Fault::new("a listing with rows of unlisted tables", unlisted_rows),
    Fault::new("each source is 127.0.0.1", localhost),
    Fault::new("select4 takes secondaries too", secondaries_too),
    Fault::new("left takes the 20 ms off", left_early),
];

/// Those that make two runs part.
pub const PARTING: &[Fault] = &[
    Fault::new("a private table read by lookups", private_read),
    Fault::new("a reply that counts all rows", counts_rows),
];

fn looks_up(call: &Call) -> bool {
    matches!(
        call,
        Call::Lookup4 { .. } | Call::Lookup4Flow { .. } | Call::Source { .. } | Call::Local4 { .. }
    )
}

/// The lists of a state that the call takes as fit (`left` has none).
fn fit_lists(call: &Call, state: &[u32], buffer: &[u32]) -> Option<Lists> {
    outcome(call, state, buffer.len())
        .is_ok_and(|_| state.len() == STATE_WORDS)
        .then(|| decode(state))
}

/// The call on the lists that `change` makes of the state's.
fn on_changed(
    call: &Call,
    state: &mut [u32],
    buffer: &mut [u32],
    change: impl Fn(&mut Lists),
) -> Reply {
    match fit_lists(call, state, buffer) {
        Some(mut lists) => {
            change(&mut lists);
            arrange(&mut lists.routes);
            model(call, &mut encode(&lists), buffer)
        }
        None => model(call, state, buffer),
    }
}

fn local_first(call: &Call, state: &mut [u32], buffer: &mut [u32]) -> Reply {
    if matches!(call, Call::Lookup4 { .. } | Call::Lookup4Flow { .. }) {
        let reply = on_changed(call, state, buffer, |lists| {
            lists.routes.retain(|r| r[0] == 255);
        });
        if reply.number != 101 {
            return reply;
        }
    }
    model(call, state, buffer)
}

fn main_first(call: &Call, state: &mut [u32], buffer: &mut [u32]) -> Reply {
    if !matches!(call, Call::Lookup4 { .. } | Call::Lookup4Flow { .. }) {
        return model(call, state, buffer);
    }
    let swap = |table: u32| match table {
        254 => 255,
        255 => 254,
        other => other,
    };
    let reply = on_changed(call, state, buffer, |lists| {
        lists.routes.iter_mut().for_each(|r| r[0] = swap(r[0]));
    });
    if reply.number == 0 {
        buffer[0] = swap(buffer[0]);
    }
    reply
}

fn private_read(call: &Call, state: &mut [u32], buffer: &mut [u32]) -> Reply {
    if !looks_up(call) {
        return model(call, state, buffer);
    }
    on_changed(call, state, buffer, |lists| {
        let private = |r: &&mut RouteRow| !matches!(r[0], 0 | 253..=255);
        lists
            .routes
            .iter_mut()
            .filter(private)
            .for_each(|r| r[0] = 254);
    })
}

fn default_unlisted(call: &Call, state: &mut [u32], buffer: &mut [u32]) -> Reply {
    if !looks_up(call) {
        return model(call, state, buffer);
    }
    on_changed(call, state, buffer, |lists| {
        if !lists.tables.contains(&253) && lists.tables.len() < LIMITS[2] {
            lists.tables.push(253);
        }
    })
}

fn tos_unmasked(call: &Call, state: &mut [u32], buffer: &mut [u32]) -> Reply {
    let Call::Lookup4Flow { tos, .. } = *call else {
        return model(call, state, buffer);
    };
    on_changed(call, state, buffer, |lists| {
        lists.routes.retain(|r| r[3] == 0 || r[3] == tos);
    })
}

fn by_age(call: &Call, state: &mut [u32], buffer: &mut [u32]) -> Reply {
    let Some(lists) = fit_lists(call, state, buffer).filter(|_| *call == Call::Dump4) else {
        return model(call, state, buffer);
    };
    let of_table = |t: &u32| {
        lists
            .routes
            .iter()
            .filter(|r| r[0] == *t)
            .collect::<Vec<_>>()
    };
    let rows: Vec<u32> = lists
        .tables
        .iter()
        .flat_map(of_table)
        .flatten()
        .copied()
        .collect();
    buffer[..rows.len()].copy_from_slice(&rows);
    Reply::value(rows.len() as u32 / 32)
}

fn unlisted_rows(call: &Call, state: &mut [u32], buffer: &mut [u32]) -> Reply {
    if *call != Call::Dump4 {
        return model(call, state, buffer);
    }
    on_changed(call, state, buffer, |lists| {
        for row in &lists.routes {
            if !lists.tables.contains(&row[0]) && lists.tables.len() < LIMITS[2] {
                lists.tables.push(row[0]);
            }
        }
    })
}

fn localhost(call: &Call, state: &mut [u32], buffer: &mut [u32]) -> Reply {
    let reply = model(call, state, buffer);
    match call {
        Call::Source { .. } if reply.number == 0 => Reply::value(0x7f00_0001),
        _ => reply,
    }
}

fn secondaries_too(call: &Call, state: &mut [u32], buffer: &mut [u32]) -> Reply {
    if !matches!(call, Call::Select4 { .. }) {
        return model(call, state, buffer);
    }
    on_changed(call, state, buffer, |lists| {
        lists.addresses.iter_mut().for_each(|a| a[6] &= !1);
    })
}

fn left_early(call: &Call, state: &mut [u32], buffer: &mut [u32]) -> Reply {
    match call {
        Call::Left { row, now } => {
            let early = Call::Left {
                row: row.clone(),
                now: now.saturating_add(20_000_000),
            };
            model(&early, state, buffer)
        }
        _ => model(call, state, buffer),
    }
}

/// `local4` says how many rows there are, private ones too.
fn counts_rows(call: &Call, state: &mut [u32], buffer: &mut [u32]) -> Reply {
    let reply = model(call, state, buffer);
    match call {
        Call::Local4 { .. } if reply.number == 0 => Reply::value(state[1]),
        _ => reply,
    }
}
