//! Document 01's paragraph "A state is well-formed when ..", clause by
//! clause, and of document 02's Paper 8 "A wrong count makes a state not
//! well-formed".
use crate::words::{
    ADDRESSES_AT, BASE_WORDS, LIMITS, ROUTES_AT, ROW_COUNTS_AT, STATE_WORDS, TABLES_AT, address_at,
    decode, route_at, row_counts,
};
use reference::{AddressRow, RouteRow};
use std::cmp::Reverse;

/// Whether `state` (9,541 words) is well-formed. Any change count is.
pub fn state(state: &[u32]) -> bool {
    assert_eq!(state.len(), STATE_WORDS, "lengths are checked first");
    let counts = [0, 1, 2].map(|i| state[i] as usize);
    if counts
        .iter()
        .zip(LIMITS)
        .any(|(&count, limit)| count > limit)
    {
        return false;
    }
    let [addresses, routes, tables] = counts;
    let unused_zero = zero(&state[ADDRESSES_AT + addresses * 20..ROUTES_AT])
        && zero(&state[ROUTES_AT + routes * 32..TABLES_AT])
        && zero(&state[TABLES_AT + tables..BASE_WORDS]);
    unused_zero
        && (0..addresses).all(|i| address(&address_at(state, i)))
        && routes_fit(&(0..routes).map(|i| route_at(state, i)).collect::<Vec<_>>())
        && distinct(&state[TABLES_AT..TABLES_AT + tables])
        && state[ROW_COUNTS_AT..] == row_counts(&decode(state))
}

/// Whether an address row could stand in a well-formed state.
pub fn address(row: &AddressRow) -> bool {
    row[2] <= 32
        && optional(row[3], row[4])
        && [row[5], row[7]].iter().all(|&field| byte(field))
        && label(row[8], &row[9..13])
}

/// Whether a route row could stand in a well-formed state.
pub fn route(row: &RouteRow) -> bool {
    row[2] <= 32
        && [row[3], row[6], row[7]].iter().all(|&field| byte(field))
        && matches!(row[5], 1 | 2 | 3 | 6 | 7 | 8 | 9)
        && optional(row[8], row[9])
        && optional(row[10], row[11])
        && row[12..15].iter().all(|&mark| mark <= 1)
        && no_host_bits(row[1], row[2])
}

/// A value of 0 in the word after a presence word of 0.
pub fn optional(present: u32, value: u32) -> bool {
    present == 1 || (present == 0 && value == 0)
}

pub fn byte(word: u32) -> bool {
    word < 256
}

/// A label's length at most 15, and zeros after it in its 16 bytes.
pub fn label(length: u32, words: &[u32]) -> bool {
    length <= 15
        && words
            .iter()
            .flat_map(|w| w.to_le_bytes())
            .skip(length as usize)
            .all(|b| b == 0)
}

fn no_host_bits(dst: u32, len: u32) -> bool {
    u64::from(dst) % (1 << (32 - len)) == 0
}

/// Each row fit, none equal to another, and all in order. Rows that are
/// alike in the order's five fields may stand in any order.
fn routes_fit(routes: &[RouteRow]) -> bool {
    let place = |r: &RouteRow| (r[1], Reverse(r[2]), Reverse(r[0]), Reverse(r[3]), r[4]);
    routes.iter().all(route)
        && routes.windows(2).all(|w| place(&w[0]) <= place(&w[1]))
        && distinct(routes)
}

fn distinct<T: PartialEq>(items: &[T]) -> bool {
    (1..items.len()).all(|i| !items[..i].contains(&items[i]))
}

fn zero(words: &[u32]) -> bool {
    words.iter().all(|&w| w == 0)
}
