//! Faults in when a call refuses, and in what a refusal leaves.
use super::Fault;
use crate::call::{Buffer, Call, Reply};
use crate::generate::states::arrange;
use crate::model::{
    INVALID, NO_SPACE, UNFIT_BUFFER, UNFIT_REQUEST, UNFIT_STATE, model, outcome, passes, settle,
};
use crate::words::{BASE_WORDS, EVENT_BUFFER, LIMITS, STATE_WORDS, decode, encode, encode_into};
use crate::{fit, well_formed};
use reference::{Answer, Lists, Outcome};

pub const FAULTS: &[Fault] = &[
    Fault::new("203 with free rows", space_to_spare),
    Fault::new("203 by the lengths afterwards alone", lengths_after),
    Fault::new("203 only where the reference doesn't refuse", refused_first),
    Fault::new("a 203 that leaves a table listed", table_left),
    Fault::new("no table listed by a refused add_route4", table_unlisted),
    Fault::new("a refusal that changes a word", word_changed),
    Fault::new("a refusal that writes into the buffer", buffer_changed),
    Fault::new("a refusal with a value", value_beside),
    Fault::new("every request to add a route denied", denied),
    Fault::new("202 before 201", request_first),
    Fault::new("201 before 200", state_first),
    Fault::new("384 event rows suffice", short_buffer),
    Fault::part_words("one to three bytes more not looked at"),
    Fault::new("unused words not looked at", unused_unchecked),
    Fault::new("the order of routes not looked at", order_unchecked),
    Fault::new("a table listed twice not looked at", twice_unchecked),
    Fault::new("alike routes in another order refused", alike_refused),
    Fault::new(
        "an absent value in a request not looked at",
        absent_unchecked,
    ),
    Fault::new("preferred equal to valid refused", equal_lifetimes),
    Fault::new("valid 0 taken where preferred is 0 too", zero_taken),
    Fault::new("22 before 202", lifetimes_first),
    Fault::new("22 after 203", space_first),
    Fault::new("22 after 17", there_already_first),
    Fault::new("lifetimes not looked at in a change", change_unchecked),
    Fault::new("a state refused for a row's lifetimes", row_lifetimes),
    Fault::new("an allowance over a second taken", long_allowance),
    Fault::new("an allowance of a second refused", second_refused),
    Fault::new(
        "the clock limit of 20 ms whatever the allowance",
        fixed_limit,
    ),
    Fault::new("a sum that wraps taken", wrapped_sum),
    Fault::new("the sum tested against 2^63", half_the_sum),
];

fn space_to_spare(call: &Call, state: &mut [u32], buffer: &mut [u32]) -> Reply {
    let adds = matches!(call, Call::AddV4 { .. } | Call::Up { .. });
    if adds && outcome(call, state, buffer.len()).is_ok() && state[1] as usize > LIMITS[1] - 4 {
        return Reply::refused(NO_SPACE);
    }
    model(call, state, buffer)
}

fn lengths_after(call: &Call, state: &mut [u32], buffer: &mut [u32]) -> Reply {
    match outcome(call, state, buffer.len()) {
        Ok(o) => {
            let l = &o.lists;
            if passes([l.addresses.len(), l.routes.len(), l.tables.len()]) {
                Reply::refused(NO_SPACE)
            } else {
                settle(call, &o, state, buffer)
            }
        }
        Err(_) => model(call, state, buffer),
    }
}

fn refused_first(call: &Call, state: &mut [u32], buffer: &mut [u32]) -> Reply {
    match outcome(call, state, buffer.len()) {
        Ok(o) if passes(o.peaks) => match o.answer {
            Answer::Refused(number) => Reply::refused(number),
            _ => Reply::refused(NO_SPACE),
        },
        _ => model(call, state, buffer),
    }
}

fn table_left(call: &Call, state: &mut [u32], buffer: &mut [u32]) -> Reply {
    let reply = model(call, state, buffer);
    if let Call::AddRoute4 { request } = call
        && reply.number == NO_SPACE
    {
        let mut lists = decode(state);
        if lists.tables.len() < LIMITS[2] && !lists.tables.contains(&request[0]) {
            lists.tables.push(request[0]);
        }
        encode_into(&lists, state);
    }
    reply
}

fn table_unlisted(call: &Call, state: &mut [u32], buffer: &mut [u32]) -> Reply {
    let before = state.to_vec();
    let reply = model(call, state, buffer);
    if reply.number != 0 {
        state.copy_from_slice(&before);
    }
    reply
}

fn word_changed(call: &Call, state: &mut [u32], buffer: &mut [u32]) -> Reply {
    let reply = model(call, state, buffer);
    if reply.number != 0
        && call.buffer() == Buffer::Events
        && let Some(word) = state.last_mut()
    {
        *word ^= 1;
    }
    reply
}

fn buffer_changed(call: &Call, state: &mut [u32], buffer: &mut [u32]) -> Reply {
    let reply = model(call, state, buffer);
    if reply.number == 101
        && let Some(word) = buffer.first_mut()
    {
        *word = 0;
    }
    reply
}

fn value_beside(call: &Call, state: &mut [u32], buffer: &mut [u32]) -> Reply {
    let reply = model(call, state, buffer);
    if reply.number == 101 {
        return Reply { value: 1, ..reply };
    }
    reply
}

fn denied(call: &Call, state: &mut [u32], buffer: &mut [u32]) -> Reply {
    if matches!(call, Call::AddRoute4 { .. }) && outcome(call, state, buffer.len()).is_ok() {
        return Reply::refused(22);
    }
    model(call, state, buffer)
}

fn request_first(call: &Call, state: &mut [u32], buffer: &mut [u32]) -> Reply {
    let reply = model(call, state, buffer);
    let hands_row = matches!(call, Call::Source4 { .. } | Call::Left { .. });
    if reply.number == UNFIT_STATE && !hands_row && !fit::fits(call) {
        return Reply::refused(UNFIT_REQUEST);
    }
    reply
}

fn state_first(call: &Call, state: &mut [u32], buffer: &mut [u32]) -> Reply {
    let reply = model(call, state, buffer);
    if reply.number == UNFIT_BUFFER && state.len() == STATE_WORDS && !well_formed::state(state) {
        return Reply::refused(UNFIT_STATE);
    }
    reply
}

fn short_buffer(call: &Call, state: &mut [u32], buffer: &mut [u32]) -> Reply {
    if call.buffer() == Buffer::Events && buffer.len() >= EVENT_BUFFER - 34 {
        let mut longer = buffer.to_vec();
        longer.resize(buffer.len().max(EVENT_BUFFER), 0);
        let reply = model(call, state, &mut longer);
        let length = buffer.len();
        buffer.copy_from_slice(&longer[..length]);
        return reply;
    }
    model(call, state, buffer)
}

/// Runs the call on mended words where only that makes the state fit.
fn where_unfit(call: &Call, state: &mut [u32], buffer: &mut [u32], mend: fn(&mut [u32])) -> Reply {
    let unfit = outcome(call, state, buffer.len()).is_err_and(|number| number == UNFIT_STATE);
    let within = state
        .iter()
        .zip(LIMITS)
        .all(|(&n, limit)| n as usize <= limit);
    if unfit && within && state.len() == STATE_WORDS {
        let mut mended = state.to_vec();
        mend(&mut mended);
        if well_formed::state(&mended) {
            state.copy_from_slice(&mended);
        }
    }
    model(call, state, buffer)
}

fn unused_unchecked(call: &Call, state: &mut [u32], buffer: &mut [u32]) -> Reply {
    where_unfit(call, state, buffer, |state| {
        let used = decode(state);
        encode_into(&used, state);
    })
}

/// Changes the lists, unless unused words hold something too.
fn mend_lists(state: &mut [u32], mend: impl Fn(&mut Lists)) {
    let mut lists = decode(state);
    if encode(&lists)[..BASE_WORDS] == state[..BASE_WORDS] {
        mend(&mut lists);
        encode_into(&lists, state);
    }
}

fn order_unchecked(call: &Call, state: &mut [u32], buffer: &mut [u32]) -> Reply {
    where_unfit(call, state, buffer, |state| {
        mend_lists(state, |lists| {
            let all = lists.routes.clone();
            arrange(&mut lists.routes);
            if lists.routes.len() < all.len() {
                // equal rows are another clause
                lists.routes = all;
            }
        });
    })
}

fn twice_unchecked(call: &Call, state: &mut [u32], buffer: &mut [u32]) -> Reply {
    where_unfit(call, state, buffer, |state| {
        mend_lists(state, |lists| {
            for table in std::mem::take(&mut lists.tables) {
                if !lists.tables.contains(&table) {
                    lists.tables.push(table);
                }
            }
        });
    })
}

/// Stricter than document 01: no two rows alike in the order's fields.
fn alike_refused(call: &Call, state: &mut [u32], buffer: &mut [u32]) -> Reply {
    if outcome(call, state, buffer.len()).is_ok() && state.len() == STATE_WORDS {
        let rows = decode(state).routes;
        if rows.windows(2).any(|w| w[0][..5] == w[1][..5]) {
            return Reply::refused(UNFIT_STATE);
        }
    }
    model(call, state, buffer)
}

fn absent_unchecked(call: &Call, state: &mut [u32], buffer: &mut [u32]) -> Reply {
    let mut mended = call.clone();
    if let Call::AddRoute4 { request } | Call::DelRoute4 { request } = &mut mended
        && request.len() > 12
    {
        for at in [8, 10] {
            if request[at] == 0 {
                request[at + 1] = 0;
            }
        }
    }
    model(&mended, state, buffer)
}

/// The lifetimes that a request for an address asks for, valid and preferred.
fn lifetimes(call: &Call) -> Option<[u32; 2]> {
    match call {
        Call::AddV4 { request, .. } if call.request_whole() => Some([request[14], request[15]]),
        _ => None,
    }
}

fn equal_lifetimes(call: &Call, state: &mut [u32], buffer: &mut [u32]) -> Reply {
    let equal = lifetimes(call).is_some_and(|[valid, preferred]| valid == preferred);
    if equal && outcome(call, state, buffer.len()).is_ok() {
        return Reply::refused(INVALID);
    }
    model(call, state, buffer)
}

fn lifetimes_first(call: &Call, state: &mut [u32], buffer: &mut [u32]) -> Reply {
    let reply = model(call, state, buffer);
    let refused = |[valid, preferred]: [u32; 2]| valid == 0 || preferred > valid;
    if reply.number == UNFIT_REQUEST && lifetimes(call).is_some_and(refused) {
        return Reply::refused(INVALID);
    }
    reply
}

/// What the Rust makes of lifetimes for which the model gives 22.
fn taken(call: &Call, state: &[u32], buffer: usize) -> Option<Outcome> {
    let refused = outcome(call, state, buffer).is_err_and(|number| number == INVALID);
    refused.then(|| reference::run(&decode(state), &fit::typed(call)))
}

/// Goes on with lifetimes that are refused.
fn take(call: &Call, state: &mut [u32], buffer: &mut [u32]) -> Reply {
    match taken(call, state, buffer.len()) {
        Some(o) if passes(o.peaks) => Reply::refused(NO_SPACE),
        Some(o) => settle(call, &o, state, buffer),
        None => model(call, state, buffer),
    }
}

fn zero_taken(call: &Call, state: &mut [u32], buffer: &mut [u32]) -> Reply {
    if lifetimes(call) == Some([0, 0]) {
        return take(call, state, buffer);
    }
    model(call, state, buffer)
}

fn space_first(call: &Call, state: &mut [u32], buffer: &mut [u32]) -> Reply {
    match taken(call, state, buffer.len()) {
        Some(o) if passes(o.peaks) => Reply::refused(NO_SPACE),
        _ => model(call, state, buffer),
    }
}

fn there_already_first(call: &Call, state: &mut [u32], buffer: &mut [u32]) -> Reply {
    match taken(call, state, buffer.len()).map(|o| o.answer) {
        Some(Answer::Refused(number)) => Reply::refused(number),
        _ => model(call, state, buffer),
    }
}

fn change_unchecked(call: &Call, state: &mut [u32], buffer: &mut [u32]) -> Reply {
    match call {
        Call::AddV4 { request, .. } if call.request_whole() && request[16] == 1 => {
            take(call, state, buffer)
        }
        _ => model(call, state, buffer),
    }
}

/// The rule is about requests: a state may hold such rows.
fn row_lifetimes(call: &Call, state: &mut [u32], buffer: &mut [u32]) -> Reply {
    let read = !matches!(call, Call::Left { .. }) && outcome(call, state, buffer.len()).is_ok();
    if read && decode(state).addresses.iter().any(|a| a[15] > a[14]) {
        return Reply::refused(UNFIT_STATE);
    }
    model(call, state, buffer)
}

/// The clock and the allowance of an `expire`.
fn allowed(call: &Call) -> Option<(u64, u64)> {
    match *call {
        Call::Expire { now, allowance } => Some((now, allowance)),
        _ => None,
    }
}

fn long_allowance(call: &Call, state: &mut [u32], buffer: &mut [u32]) -> Reply {
    match allowed(call) {
        Some((now, allowance)) if allowance == fit::ALLOWANCE_LIMIT + 1 => {
            let allowance = fit::ALLOWANCE_LIMIT;
            model(&Call::Expire { now, allowance }, state, buffer)
        }
        _ => model(call, state, buffer),
    }
}

/// Where the model goes on, 202.
fn refuse_where(
    call: &Call,
    state: &mut [u32],
    buffer: &mut [u32],
    refused: fn(u64, u64) -> bool,
) -> Reply {
    let refused = allowed(call).is_some_and(|(now, allowance)| refused(now, allowance));
    if refused && outcome(call, state, buffer.len()).is_ok() {
        return Reply::refused(UNFIT_REQUEST);
    }
    model(call, state, buffer)
}

fn second_refused(call: &Call, state: &mut [u32], buffer: &mut [u32]) -> Reply {
    refuse_where(call, state, buffer, |_, allowance| {
        allowance == fit::ALLOWANCE_LIMIT
    })
}

/// Document 01's limit. Clocks that then pass the end aren't taken either.
fn fixed_limit(call: &Call, state: &mut [u32], buffer: &mut [u32]) -> Reply {
    refuse_where(call, state, buffer, |now, _| {
        now > u64::MAX - reference::FUZZ
    })
}

fn wrapped_sum(call: &Call, state: &mut [u32], buffer: &mut [u32]) -> Reply {
    match allowed(call) {
        Some((now, allowance)) if allowance <= fit::ALLOWANCE_LIMIT => {
            let now = now.wrapping_add(allowance);
            model(&Call::Expire { now, allowance: 0 }, state, buffer)
        }
        _ => model(call, state, buffer),
    }
}

fn half_the_sum(call: &Call, state: &mut [u32], buffer: &mut [u32]) -> Reply {
    refuse_where(call, state, buffer, |now, allowance| {
        now.saturating_add(allowance) >= 1 << 63
    })
}
