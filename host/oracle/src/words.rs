//! The state: 9,507 words of 32 bits as document 01 lays them out, and
//! behind them the two of the change count and the 32 row counts (document
//! 02, Papers 6 and 8).
use reference::{AddressRow, Lists, RouteRow};

pub const ADDRESS_LIMIT: usize = 64;
pub const ROUTE_LIMIT: usize = 256;
pub const TABLE_LIMIT: usize = 32;
pub const LIMITS: [usize; 3] = [ADDRESS_LIMIT, ROUTE_LIMIT, TABLE_LIMIT];

pub const ADDRESS_WORDS: usize = 20;
pub const ROUTE_WORDS: usize = 32;
pub const EVENT_WORDS: usize = 34;

/// Where each list begins in the state.
pub const ADDRESSES_AT: usize = 3;
pub const ROUTES_AT: usize = ADDRESSES_AT + ADDRESS_LIMIT * ADDRESS_WORDS;
pub const TABLES_AT: usize = ROUTES_AT + ROUTE_LIMIT * ROUTE_WORDS;
/// The words of the three lists, behind them the change count's low and high
/// word, and a row count for each place in the list of tables.
pub const BASE_WORDS: usize = TABLES_AT + TABLE_LIMIT;
pub const COUNT_WORDS: usize = 2;
pub const ROW_COUNTS_AT: usize = BASE_WORDS + COUNT_WORDS;
pub const STATE_WORDS: usize = ROW_COUNTS_AT + TABLE_LIMIT;

/// The fewest rows and words of an event buffer ("385 event rows, 13,090
/// words": document 02, Paper 9) and words of a listing buffer.
pub const EVENT_ROWS: usize = 385;
pub const EVENT_BUFFER: usize = EVENT_ROWS * EVENT_WORDS;
pub const LISTING_BUFFER: usize = ROUTE_LIMIT * ROUTE_WORDS;

/// The empty state.
pub fn empty() -> Vec<u32> {
    vec![0; STATE_WORDS]
}

/// The words of `lists`, which keep to the limits, with a change count of 0.
pub fn encode(lists: &Lists) -> Vec<u32> {
    let mut state = empty();
    encode_into(lists, &mut state);
    state
}

/// Writes the words of `lists` over those of the lists in `state`, and their
/// row counts. The change count stays.
pub fn encode_into(lists: &Lists, state: &mut [u32]) {
    state[..BASE_WORDS].fill(0);
    state[0] = lists.addresses.len() as u32;
    state[1] = lists.routes.len() as u32;
    state[2] = lists.tables.len() as u32;
    let (rows, rest) = state[ADDRESSES_AT..].split_at_mut(ROUTES_AT - ADDRESSES_AT);
    let (routes, tables) = rest.split_at_mut(TABLES_AT - ROUTES_AT);
    put(rows, lists.addresses.as_flattened());
    put(routes, lists.routes.as_flattened());
    put(tables, &lists.tables);
    state[ROW_COUNTS_AT..].copy_from_slice(&row_counts(lists));
}

/// "The count beside each listed table" (document 02, Paper 8): how many rows
/// it has, and 0 at places of the list that are not in use.
pub fn row_counts(lists: &Lists) -> [u32; TABLE_LIMIT] {
    let mut counts = [0; TABLE_LIMIT];
    for (count, table) in counts.iter_mut().zip(&lists.tables) {
        *count = lists.routes.iter().filter(|row| row[0] == *table).count() as u32;
    }
    counts
}

/// Puts the row counts right, in a state whose lists keep to their limits.
pub fn recount(state: &mut [u32]) {
    let counts = row_counts(&decode(state));
    state[ROW_COUNTS_AT..].copy_from_slice(&counts);
}

fn put(words: &mut [u32], values: &[u32]) {
    words[..values.len()].copy_from_slice(values);
}

/// A label's length and its four words.
pub fn label(text: &[u8]) -> [u32; 5] {
    let mut bytes = [0; 16];
    bytes[..text.len()].copy_from_slice(text);
    let mut words = [text.len() as u32; 5];
    for (word, four) in words[1..].iter_mut().zip(bytes.as_chunks().0) {
        *word = u32::from_le_bytes(*four);
    }
    words
}

/// The lists of a well-formed state.
pub fn decode(state: &[u32]) -> Lists {
    let [addresses, routes, tables] = [0, 1, 2].map(|i| state[i] as usize);
    Lists {
        addresses: (0..addresses).map(|i| address_at(state, i)).collect(),
        routes: (0..routes).map(|i| route_at(state, i)).collect(),
        tables: state[TABLES_AT..TABLES_AT + tables].to_vec(),
    }
}

pub fn address_at(state: &[u32], i: usize) -> AddressRow {
    row_at(state, ADDRESSES_AT + i * ADDRESS_WORDS)
}

pub fn route_at(state: &[u32], i: usize) -> RouteRow {
    row_at(state, ROUTES_AT + i * ROUTE_WORDS)
}

/// How many calls have changed an address, a row or a table.
pub fn change_count(state: &[u32]) -> u64 {
    whole(state[BASE_WORDS], state[BASE_WORDS + 1])
}

pub fn set_change_count(state: &mut [u32], count: u64) {
    state[BASE_WORDS..][..COUNT_WORDS].copy_from_slice(&halves(count));
}

/// A number's low and high word.
pub fn halves(number: u64) -> [u32; COUNT_WORDS] {
    [number as u32, (number >> 32) as u32]
}

pub fn whole(low: u32, high: u32) -> u64 {
    u64::from(low) | u64::from(high) << 32
}

fn row_at<const N: usize>(state: &[u32], at: usize) -> [u32; N] {
    let mut row = [0; N];
    row.copy_from_slice(&state[at..at + N]);
    row
}
