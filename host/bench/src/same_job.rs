//! The Rust doing the port's job: lent words in, lent words out. They are
//! checked, the lists are decoded, the unchanged Rust answers, and what a
//! changing call left and told is written back; if that changed a word of the
//! lists, the change count goes up and the row counts are made anew; events 5
//! and 6 are told. Rows are compared only where they are alike. 203 is read off
//! the lengths after the call, which is one case short of exact: a changed
//! priority at 256 routes.
//!
//! Two ways: as one writes it, and tuned: unused words or-ed together in
//! place of a search for one that isn't 0 (which no compiler vectorises), no
//! list decoded that the call doesn't read, only rows that fell away
//! cleared, only words in use compared, a row's table looked for only among
//! those with its low byte.
use oracle::call::{Buffer, Call, Reply};
use oracle::fit;
use oracle::recording::{IP_DISABLED, LINK_DOWN, mark};
use oracle::words::{
    ADDRESSES_AT, BASE_WORDS, EVENT_WORDS, LIMITS, ROUTES_AT, ROW_COUNTS_AT, STATE_WORDS,
    TABLE_LIMIT, TABLES_AT, change_count, set_change_count,
};
use reference::{Arguments, Native};

/// The call on lent words.
pub fn call<const TUNED: bool>(call: &Call, state: &mut [u32], buffer: &mut [u32]) -> Reply {
    let stateless = matches!(call, Call::Left { .. });
    if (!stateless && state.len() != STATE_WORDS)
        || !call.request_whole()
        || buffer.len() < call.buffer().least()
    {
        return Reply::refused(200);
    }
    let row = match call {
        Call::Source4 { row, .. } => row[..].try_into().is_ok_and(route),
        Call::Left { row, .. } => row[..].try_into().is_ok_and(address),
        _ => true,
    };
    if !row || (!stateless && !well_formed::<TUNED>(state)) {
        return Reply::refused(201);
    }
    let request = match fit::request(call) {
        Ok(request) => request,
        Err(number) => return Reply::refused(number),
    };
    let arguments = Arguments::of(&request);
    let [reads_addresses, reads_routes] = if TUNED { reads(call) } else { [true; 2] };
    let [a, r, t] = if stateless { [0; 3] } else { counts(state) };
    let mut native = Native::of(
        if reads_addresses {
            &rows::<20>(&state[ADDRESSES_AT..])[..a]
        } else {
            &[]
        },
        if reads_routes {
            &rows::<32>(&state[ROUTES_AT..])[..r]
        } else {
            &[]
        },
        if reads_routes {
            &state[TABLES_AT..][..t]
        } else {
            &[]
        },
    );
    let told = native.call(&arguments);
    let marked = match call {
        Call::Down => Some(LINK_DOWN),
        Call::DelV4 { .. } | Call::Expire { .. } if a > 0 && native.lengths()[0] == 0 => {
            Some(IP_DISABLED)
        }
        _ => None,
    };
    if call.buffer() == Buffer::Events {
        if native
            .lengths()
            .iter()
            .zip(LIMITS)
            .any(|(n, most)| *n > most)
        {
            return Reply::refused(203);
        }
        let before = in_use::<TUNED>(state).map(<[u32]>::to_vec);
        write::<TUNED>(&native, state);
        if before != in_use::<TUNED>(state) {
            set_change_count(state, change_count(state).saturating_add(1));
            let counts = row_counts::<TUNED>(state);
            state[ROW_COUNTS_AT..].copy_from_slice(&counts);
        }
    }
    let [number, present, mut value, second] = told.write(buffer);
    if let Some(kind) = marked {
        buffer[value as usize * EVENT_WORDS..][..EVENT_WORDS].copy_from_slice(&mark(kind));
        value += 1;
    }
    Reply {
        number,
        // `source` has no mark for presence
        present: present * u32::from(!matches!(call, Call::Source { .. })),
        value,
        second,
    }
}

/// Whether a call reads the addresses; the routes and tables.
fn reads(call: &Call) -> [bool; 2] {
    match call {
        Call::Dump4 | Call::Lookup4 { .. } | Call::Lookup4Flow { .. } | Call::Local4 { .. } => {
            [false, true]
        }
        Call::Select4 { .. } | Call::Source4 { .. } => [true, false],
        Call::Left { .. } => [false, false],
        _ => [true, true],
    }
}

fn counts(state: &[u32]) -> [usize; 3] {
    [0, 1, 2].map(|i| state[i] as usize)
}

fn rows<const N: usize>(words: &[u32]) -> &[[u32; N]] {
    words.as_chunks().0
}

/// The words of the lists: all, or the counts and what is in use.
fn in_use<const TUNED: bool>(state: &[u32]) -> [&[u32]; 4] {
    if !TUNED {
        return [&state[..BASE_WORDS], &[], &[], &[]];
    }
    let [a, r, t] = counts(state);
    [
        &state[..3],
        &state[ADDRESSES_AT..][..20 * a],
        &state[ROUTES_AT..][..32 * r],
        &state[TABLES_AT..][..t],
    ]
}

fn write<const TUNED: bool>(native: &Native, state: &mut [u32]) {
    let before = if TUNED { counts(state) } else { [0; 3] };
    let state = &mut state[..BASE_WORDS];
    if !TUNED {
        state.fill(0);
    }
    let after = native.lengths();
    for (word, length) in state.iter_mut().zip(after) {
        *word = length as u32;
    }
    let (addresses, rest) = state[ADDRESSES_AT..].split_at_mut(ROUTES_AT - ADDRESSES_AT);
    let (routes, tables) = rest.split_at_mut(TABLES_AT - ROUTES_AT);
    let (addresses, _) = addresses.as_chunks_mut();
    let (routes, _) = routes.as_chunks_mut();
    native.write(addresses, routes, tables);
    if after[0] < before[0] {
        addresses[after[0]..before[0]].fill([0; 20]);
    }
    if after[1] < before[1] {
        routes[after[1]..before[1]].fill([0; 32]);
    }
}

/// Document 01's paragraph, in plain loops.
pub fn well_formed<const TUNED: bool>(state: &[u32]) -> bool {
    let counts = counts(state);
    if counts.iter().zip(LIMITS).any(|(n, most)| *n > most) {
        return false;
    }
    let [a, r, t] = counts;
    let (addresses, routes) = (
        &state[ADDRESSES_AT..ROUTES_AT],
        &state[ROUTES_AT..TABLES_AT],
    );
    let tables = &state[TABLES_AT..BASE_WORDS];
    let unused = [&addresses[20 * a..], &routes[32 * r..], &tables[t..]];
    unused.iter().all(|words| zero::<TUNED>(words))
        && rows::<20>(addresses)[..a].iter().all(address)
        && routes_fit(&rows::<32>(routes)[..r])
        && (1..t).all(|i| !tables[..i].contains(&tables[i]))
        && state[ROW_COUNTS_AT..] == row_counts::<TUNED>(state)
}

/// How many rows each listed table has, of lists within their limits.
fn row_counts<const TUNED: bool>(state: &[u32]) -> [u32; TABLE_LIMIT] {
    let [_, r, t] = counts(state);
    let rows = &rows::<32>(&state[ROUTES_AT..])[..r];
    let tables = &state[TABLES_AT..][..t];
    let mut counted = [0; TABLE_LIMIT];
    if !TUNED {
        for (count, table) in counted.iter_mut().zip(tables) {
            *count = rows.iter().map(|row| u32::from(row[0] == *table)).sum();
        }
        return counted;
    }
    // the last place with each low byte and 0, and before each place the one
    // before it
    let (mut last, mut before) = ([0_u8; 256], [0_u8; TABLE_LIMIT + 1]);
    for (place, table) in (1_u8..).zip(tables) {
        before[usize::from(place)] = std::mem::replace(&mut last[(table & 255) as usize], place);
    }
    for row in rows {
        let mut place = usize::from(last[(row[0] & 255) as usize]);
        while place > 0 && tables[place - 1] != row[0] {
            place = before[place].into();
        }
        if place > 0 {
            counted[place - 1] += 1;
        }
    }
    counted
}

fn zero<const TUNED: bool>(words: &[u32]) -> bool {
    if TUNED {
        or_of(words) == 0
    } else {
        words.iter().all(|&word| word == 0)
    }
}

/// All words or-ed together.
pub fn or_of(words: &[u32]) -> u32 {
    words.iter().fold(0, |all, word| all | word)
}

fn optional(present: u32, value: u32) -> bool {
    present == 1 || present | value == 0
}

pub fn address(row: &[u32; 20]) -> bool {
    row[2] <= 32 && optional(row[3], row[4]) && row[5] | row[7] < 256 && row[8] <= 15 && label(row)
}

/// Zeros after the label's length.
fn label(row: &[u32; 20]) -> bool {
    let bytes = [row[9], row[10], row[11], row[12]]
        .into_iter()
        .rev()
        .fold(0_u128, |all, word| all << 32 | u128::from(word));
    bytes >> (8 * row[8]) == 0
}

pub fn route(row: &[u32; 32]) -> bool {
    row[2] <= 32
        && row[3] | row[6] | row[7] < 256
        && matches!(row[5], 1 | 2 | 3 | 6 | 7 | 8 | 9)
        && optional(row[8], row[9])
        && optional(row[10], row[11])
        && row[12] | row[13] | row[14] <= 1
        && u64::from(row[1]) & ((1 << (32 - row[2])) - 1) == 0
}

fn routes_fit(routes: &[[u32; 32]]) -> bool {
    // dst rising, len falling, table falling, tos falling, priority rising
    let place = |r: &[u32; 32]| (r[1], !r[2], !r[0], !r[3], r[4]);
    for (i, row) in routes.iter().enumerate() {
        if !route(row) {
            return false;
        }
        let here = place(row);
        if i > 0 && place(&routes[i - 1]) > here {
            return false;
        }
        let alike = routes[..i].iter().rev().take_while(|r| place(r) == here);
        if alike.into_iter().any(|r| r == row) {
            return false;
        }
    }
    true
}
