//! Damage: each clause of well-formedness, and each field of a request.
use super::calls::{self, Host};
use super::pools;
use super::states::{self, Sizes};
use crate::call::Call;
use crate::fit::ALLOWANCE_LIMIT;
use crate::rng::Rng;
use crate::words::{self, ADDRESSES_AT, ROUTES_AT, ROW_COUNTS_AT, TABLE_LIMIT, TABLES_AT};
use reference::{FUZZ, Lists, RouteRow};

/// What is done to a row that could stand in a state.
type Damage<const N: usize> = fn(&mut Rng, &mut [u32; N]);

pub const ADDRESS_CLAUSES: [(&str, Damage<20>); 8] = [
    ("address prefix", |rng, a| a[2] = over(rng, 33)),
    ("broadcast presence", |rng, a| a[3] = over(rng, 2)),
    ("absent broadcast", |_, a| a[3..5].copy_from_slice(&[0, 1])),
    ("address scope", |rng, a| a[5] = over(rng, 256)),
    ("address proto", |rng, a| a[7] = over(rng, 256)),
    ("label length", |rng, a| a[8] = over(rng, 16)),
    ("label's last byte", |_, a| a[12] |= 0x0100_0000),
    ("byte after the label", |_, a| {
        a[8..13].copy_from_slice(&[2, 0x0100_6f6c, 0, 0, 0]);
    }),
];

pub const ROUTE_CLAUSES: [(&str, Damage<32>); 13] = [
    ("route len", |rng, r| {
        r[1] = 0;
        r[2] = over(rng, 33);
    }),
    ("route tos", |rng, r| r[3] = over(rng, 256)),
    ("route kind", |rng, r| {
        r[5] = rng.pick(&[0, 4, 5, 10, 11, 12, 255, 256, 257, u32::MAX]);
    }),
    ("route proto", |rng, r| r[6] = over(rng, 256)),
    ("route scope", |rng, r| r[7] = over(rng, 256)),
    ("prefsrc presence", |rng, r| r[8] = over(rng, 2)),
    ("absent prefsrc", |_, r| r[8..10].copy_from_slice(&[0, 7])),
    ("gateway presence", |rng, r| r[10] = over(rng, 2)),
    ("absent gateway", |_, r| r[10..12].copy_from_slice(&[0, 7])),
    ("device mark", |rng, r| r[12] = over(rng, 2)),
    ("onlink mark", |rng, r| r[13] = over(rng, 2)),
    ("uses_gateway mark", |rng, r| r[14] = over(rng, 2)),
    ("bits outside len", |_, r| {
        r[1..3].copy_from_slice(&[0x0a01_0080, 24])
    }),
];

/// The clauses about more than one row.
pub const STATE_CLAUSES: [&str; 18] = [
    "address count",
    "route count",
    "table count",
    "unused address word",
    "unused route word",
    "unused table word",
    "a table twice",
    "equal routes",
    "order by dst",
    "order by len",
    "order by table",
    "order by tos",
    "order by priority",
    "a row count one too great",
    "a row count one too small",
    "row counts of the right sum",
    "row count of an unused place",
    "any row count",
];

/// How many clauses there are in all.
pub const CLAUSES: usize = ADDRESS_CLAUSES.len() + ROUTE_CLAUSES.len() + STATE_CLAUSES.len();

/// A number from `least` on, often `least` itself.
fn over(rng: &mut Rng, least: u32) -> u32 {
    match rng.below(4) {
        0 => least + rng.below(1000) as u32,
        1 => u32::MAX,
        _ => least,
    }
}

/// A state in which clause `which` is broken, and the clause's name.
pub fn state(rng: &mut Rng, which: usize) -> (&'static str, Vec<u32>) {
    let mut sizes = Sizes::small(rng);
    sizes.addresses += 1;
    sizes.routes += 1;
    sizes.tables += 1;
    let lists = states::direct(rng, sizes);
    of_lists(rng, which, &lists)
}

/// The words of `lists`, none of them empty or full, with clause `which`
/// broken.
pub fn of_lists(rng: &mut Rng, which: usize, lists: &Lists) -> (&'static str, Vec<u32>) {
    let mut state = states::encoded(lists);
    if let Some((name, damage)) = ADDRESS_CLAUSES.get(which) {
        spoil(rng, *damage, &lists.addresses, &mut state[ADDRESSES_AT..]);
        return (name, state);
    }
    let which = which - ADDRESS_CLAUSES.len();
    if let Some((name, damage)) = ROUTE_CLAUSES.get(which) {
        spoil(rng, *damage, &lists.routes, &mut state[ROUTES_AT..]);
        return (name, state);
    }
    let which = which - ROUTE_CLAUSES.len();
    match which {
        0..3 => state[which] = over(rng, words::LIMITS[which] as u32 + 1),
        3 => {
            let used = 20 * lists.addresses.len();
            state[ADDRESSES_AT + used + rng.below(20 * 64 - used)] = 1 + rng.below(3) as u32;
        }
        4 => {
            let used = 32 * lists.routes.len();
            state[ROUTES_AT + used + rng.below(32 * 256 - used)] = 1 + rng.below(3) as u32;
        }
        5 => {
            let used = lists.tables.len();
            state[TABLES_AT + used + rng.below(32 - used)] = 1 + rng.below(3) as u32;
        }
        6 => {
            let used = lists.tables.len();
            state[2] += 1;
            state[TABLES_AT + used] = lists.tables[rng.below(used)];
            words::recount(&mut state);
        }
        7 => set_routes(&mut state, &equal(rng)),
        8..13 => set_routes(&mut state, &disordered(rng, which - 8)),
        _ => miscount(rng, which - 13, lists, &mut state[ROW_COUNTS_AT..]),
    }
    (STATE_CLAUSES[which], state)
}

/// Damages one of `rows`, which stand in `words`.
fn spoil<const N: usize>(rng: &mut Rng, by: Damage<N>, rows: &[[u32; N]], words: &mut [u32]) {
    let i = rng.below(rows.len());
    let mut row = rows[i];
    by(rng, &mut row);
    words[N * i..][..N].copy_from_slice(&row);
}

fn set_routes(state: &mut [u32], rows: &[RouteRow]) {
    state[ROUTES_AT..TABLES_AT].fill(0);
    state[1] = rows.len() as u32;
    state[ROUTES_AT..ROUTES_AT + 32 * rows.len()].copy_from_slice(rows.as_flattened());
    words::recount(state);
}

/// Each place of a row count, with what makes it one too great and one too
/// small.
pub fn row_counts() -> impl Iterator<Item = (usize, u32)> {
    (0..TABLE_LIMIT).flat_map(|place| [(place, 1), (place, u32::MAX)])
}

/// The state with `by` added to the row count at `place`.
pub fn miscounted(state: &[u32], place: usize, by: u32) -> Vec<u32> {
    let mut wrong = state.to_vec();
    let count = &mut wrong[ROW_COUNTS_AT + place];
    *count = count.wrapping_add(by);
    wrong
}

/// Another number in place of a row count, or of two.
fn miscount(rng: &mut Rng, which: usize, lists: &Lists, counts: &mut [u32]) {
    let used = lists.tables.len();
    // of a table with rows, if there is one
    let with_rows: Vec<usize> = (0..used).filter(|&i| counts[i] > 0).collect();
    let place = match with_rows.len() {
        0 => rng.below(used),
        _ => rng.pick(&with_rows),
    };
    match which {
        0 => counts[place] += 1,
        1 => counts[place] = counts[place].wrapping_sub(1),
        2 => swap(rng, place, counts),
        3 => {
            let unlisted = |row: &&RouteRow| !lists.tables.contains(&row[0]);
            let uncounted = lists.routes.iter().filter(unlisted).count() as u32;
            counts[used + rng.below(TABLE_LIMIT - used)] = rng.pick(&[1, uncounted.max(1)]);
        }
        _ => {
            let count = &mut counts[rng.below(TABLE_LIMIT)];
            let (right, any) = (*count, rng.word());
            while *count == right {
                *count = rng.pick(&[0, right ^ 256, right ^ 1 << 31, any]);
            }
        }
    }
}

/// The count at `place` and another one change places; if all are alike, one
/// goes from the one to the other, so that their sum stays too.
fn swap(rng: &mut Rng, place: usize, counts: &mut [u32]) {
    let others: Vec<usize> = (0..TABLE_LIMIT)
        .filter(|&i| counts[i] != counts[place])
        .collect();
    if others.is_empty() {
        let other = (place + 1) % TABLE_LIMIT;
        counts[place] = counts[place].wrapping_sub(1);
        counts[other] = counts[other].wrapping_add(1);
    } else {
        counts.swap(place, rng.pick(&others));
    }
}

/// A row twice, next to itself or with alike rows in between.
fn equal(rng: &mut Rng) -> Vec<RouteRow> {
    let row = states::route(rng);
    let mut other = row;
    other[31] ^= 1;
    if rng.one_in(2) {
        vec![row, row]
    } else {
        vec![row, other, row]
    }
}

/// Two rows that differ in one field of the order and stand wrongly.
fn disordered(rng: &mut Rng, field: usize) -> Vec<RouteRow> {
    let mut first = states::route(rng);
    first[1..5].copy_from_slice(&[0x0a01_0000, 24, 8, 10]);
    first[0] = 100;
    let mut second = first;
    match field {
        0 => second[1] = 0x0a00_0000,
        1 => second[2] = 25,
        2 => second[0] = 101,
        3 => second[3] = 16,
        _ => second[4] = 9,
    }
    vec![first, second]
}

/// A request's fields: the word, the least value that is too great, and
/// whether it is the value after a presence word.
const ADD_V4: [(usize, u32); 6] = [(2, 33), (3, 2), (5, 256), (7, 256), (16, 2), (17, 2)];
const DEL_V4: [(usize, u32); 4] = [(0, 2), (2, 2), (4, 33), (5, 2)];
const ROUTE: [(usize, u32); 7] = [
    (2, 256),
    (3, 256),
    (5, 256),
    (6, 256),
    (7, 256),
    (8, 2),
    (10, 2),
];
const ADD_ROUTE4: [(usize, u32); 3] = [(14, 65_536), (15, 134), (33, 2)];

type Fields = &'static [(usize, u32)];

/// The calls that are lent a request or a row, by their codes: the fields in
/// it that are limited, and the least number that is too great for each.
const LIMITED: [(u32, [Fields; 2]); 6] = [
    (3, [&ADD_V4, &[(8, 16)]]),
    (4, [&DEL_V4, &[(6, 16)]]),
    (6, [&ROUTE, &ADD_ROUTE4]),
    (7, [&ROUTE, &[(13, 2), (14, 18)]]),
    (12, [&[(2, 33), (12, 2), (13, 2), (14, 2)], ROW_BYTES]),
    (15, [ADD_V4.split_at(4).0, &[(8, 16)]]),
];
/// A row's bytes and presence words stand as a request's do, but its len and
/// kind, which have limits of their own.
const ROW_BYTES: Fields = &[ROUTE[1], ROUTE[3], ROUTE[4], ROUTE[5], ROUTE[6]];

/// Calls on both sides of each such limit.
pub fn edges(rng: &mut Rng, lists: &Lists, host: &mut Host) -> Vec<Call> {
    let mut made = Vec::new();
    for (code, fields) in LIMITED {
        for (at, least) in fields.into_iter().flatten() {
            for value in [least - 1, *least] {
                let mut call = calls::of_kind(rng, code, lists, host);
                if let Some(lent) = call.lent_mut() {
                    lent[*at] = value;
                    if code == 3 {
                        // lifetimes that are refused would hide a field that is taken
                        lent[14..16].fill(pools::FOREVER);
                    }
                }
                made.push(call);
            }
        }
    }
    for allowance in [0, 1, 4_000_000, FUZZ, ALLOWANCE_LIMIT] {
        let last = u64::MAX - allowance;
        let past = last.checked_add(1);
        let clocks = [Some(0), Some(last), past].into_iter().flatten();
        made.extend(clocks.map(|now| Call::Expire { now, allowance }));
    }
    let allowance = ALLOWANCE_LIMIT + 1;
    made.push(Call::Expire { now: 0, allowance });
    made
}

/// Breaks one field of `call`, if it has one, so that it is met by 202. The
/// field's number is drawn; all of them come up.
pub fn request(rng: &mut Rng, call: &mut Call) -> bool {
    match call {
        Call::AddV4 { request: w, .. } => match rng.below(9) {
            6 => w[3..5].copy_from_slice(&[0, 1]),
            7 => w[8] = over(rng, 16),
            8 => w[12] |= 0x0100_0000,
            i => widen(rng, w, ADD_V4[i]),
        },
        Call::DelV4 { request: w } => match rng.below(10) {
            4 => w[..2].copy_from_slice(&[0, 1]),
            5 => w[2..4].copy_from_slice(&[0, 1]),
            6 => w[5..7].copy_from_slice(&[1, rng.pick(&[16, 17, u32::MAX])]),
            7 => w[5..11].copy_from_slice(&[0, 2, 0x6f6c, 0, 0, 0]),
            8 => w[5..11].copy_from_slice(&[0, 0, 0, 0, 1, 0]),
            9 => w[5..11].copy_from_slice(&[1, 1, 0x6f6c, 0, 0, 0]),
            i => widen(rng, w, DEL_V4[i]),
        },
        Call::AddRoute4 { request: w } => match rng.below(12) {
            i @ 0..7 => widen(rng, w, ROUTE[i]),
            7 => w[8..10].copy_from_slice(&[0, 1]),
            8 => w[10..12].copy_from_slice(&[0, 1]),
            i => widen(rng, w, ADD_ROUTE4[i - 9]),
        },
        Call::DelRoute4 { request: w } => match rng.below(13) {
            i @ 0..7 => widen(rng, w, ROUTE[i]),
            7 => w[8..10].copy_from_slice(&[0, 1]),
            8 => w[10..12].copy_from_slice(&[0, 1]),
            9 => w[13] = over(rng, 2),
            10 => w[13..15].copy_from_slice(&[1, over(rng, 18)]),
            11 => w[13..15].copy_from_slice(&[0, 1]),
            _ => {
                let pairs = 1 + rng.below(17);
                w[13..15].copy_from_slice(&[1, pairs as u32]);
                for pair in 0..17 {
                    w[15 + 2 * pair] = rng.below(17) as u32;
                }
                w[15 + 2 * rng.below(pairs)] = over(rng, 17);
            }
        },
        Call::Lookup4Flow { tos, .. } => *tos = over(rng, 256),
        Call::Select4 {
            present,
            dst,
            scope,
        } => match rng.below(3) {
            0 => *present = over(rng, 2),
            1 => (*present, *dst) = (0, pools::address(rng) | 1),
            _ => *scope = over(rng, 256),
        },
        Call::Expire { now, allowance } => {
            if rng.one_in(2) {
                *allowance = too_great(rng);
            } else {
                // together they pass the end by a little, or by all they can
                *allowance = rng.pick(&[1, 4_000_000, FUZZ, ALLOWANCE_LIMIT]);
                let any = rng.draw() % *allowance;
                let past = rng.pick(&[0, any, *allowance - 1]);
                *now = u64::MAX - *allowance + 1 + past;
            }
        }
        _ => return false,
    }
    true
}

/// An allowance over a second, often one whose low word is none.
fn too_great(rng: &mut Rng) -> u64 {
    let any = ALLOWANCE_LIMIT + 1 + rng.draw() % (u64::MAX - ALLOWANCE_LIMIT);
    rng.pick(&[
        ALLOWANCE_LIMIT + 1,
        ALLOWANCE_LIMIT + 1,
        1 << 32,
        (1 << 32) + 4_000_000,
        1 << 63,
        u64::MAX,
        any,
    ])
}

fn widen(rng: &mut Rng, words: &mut [u32], (at, least): (usize, u32)) {
    words[at] = over(rng, least);
}

/// Breaks the row handed to `source4` or `left`, so that it is met by 201.
pub fn handed_row(rng: &mut Rng, call: &mut Call) -> bool {
    match call {
        Call::Source4 { row, .. } => {
            let mut whole = states::route(rng);
            let clause = rng.below(ROUTE_CLAUSES.len());
            (ROUTE_CLAUSES[clause].1)(rng, &mut whole);
            *row = whole.to_vec();
        }
        Call::Left { row, .. } => {
            let mut whole = states::address(rng);
            let clause = rng.below(ADDRESS_CLAUSES.len());
            (ADDRESS_CLAUSES[clause].1)(rng, &mut whole);
            *row = whole.to_vec();
        }
        _ => return false,
    }
    true
}
