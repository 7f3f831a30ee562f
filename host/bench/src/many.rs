//! How long many destinations take: the library's one call against as many
//! calls of `lookup4`, and against plain Rust that does the same walk.
use crate::measure::in_turn;
use crate::same_job::well_formed;
use crate::states::{SIZES, of_size};
use crate::{ratio, time};
use naskrefim::{Addresses, Reply, bytes, words};
use oracle::many::{ANSWER_WORDS, FIRST, Looker, MOST, Model, SECOND, UNREACHABLE};
use oracle::port::bytes as bytes_of;
use oracle::words::{ROUTE_WORDS, ROUTES_AT, STATE_WORDS, TABLES_AT, decode, encode};
use reference::{Arguments, Native, Request, RouteRow, kind_error, mask};
use std::hint::black_box;
use std::net::Ipv4Addr;

/// The Rust on its own lists, one by one; `lookup4` on words, one by one;
/// plain Rust that checks and walks, plainly and tuned; the library on words
/// and on bytes, through `Addresses`.
const WAYS: usize = 7;

/// What the ways work on.
struct Stage {
    native: Native,
    state: Vec<u32>,
    state_bytes: Vec<u8>,
    lo: Addresses,
    to: Vec<u32>,
    to_bytes: Vec<u8>,
    addresses: Vec<Ipv4Addr>,
    answers: Vec<u32>,
    answer_bytes: Vec<u8>,
}

impl Stage {
    fn new(state: Vec<u32>) -> Self {
        let lists = decode(&state);
        let to = destinations();
        let answers = vec![0; ANSWER_WORDS * MOST];
        Self {
            native: Native::of(&lists.addresses, &lists.routes, &lists.tables),
            state_bytes: bytes_of(&state),
            lo: Addresses::from_words(&state).expect("what is measured is fit"),
            to_bytes: bytes_of(&to),
            addresses: to.iter().map(|&ip| ip.into()).collect(),
            answer_bytes: bytes_of(&answers),
            answers,
            to,
            state,
        }
    }

    /// A refusal leaves what a row's words hold.
    fn clear(&mut self) {
        self.answers.fill(0);
        self.answer_bytes.fill(0);
    }

    /// All destinations by this way; how many have a route.
    fn all(&mut self, way: usize) -> usize {
        let state = black_box(&self.state);
        match way {
            0 => {
                for (answer, &ip) in self.answers.chunks_mut(ANSWER_WORDS).zip(&self.to) {
                    let told = self.native.call(&Arguments::of(&Request::Lookup4 { ip }));
                    answer[0] = told.write(&mut answer[1..])[0];
                }
            }
            1 => {
                for (answer, &ip) in self.answers.chunks_mut(ANSWER_WORDS).zip(&self.to) {
                    answer[0] = words::lookup4(state, &mut answer[1..], ip).number;
                }
            }
            2 => drop(black_box(walked::<false>(
                state,
                &self.to,
                &mut self.answers,
            ))),
            3 => drop(black_box(walked::<true>(
                state,
                &self.to,
                &mut self.answers,
            ))),
            4 => drop(black_box(words::lookup4_many(
                state,
                &self.to,
                &mut self.answers,
            ))),
            5 => {
                let state = black_box(&self.state_bytes);
                let reply = bytes::lookup4_many(state, &self.to_bytes, &mut self.answer_bytes);
                black_box(reply);
                return self
                    .answer_bytes
                    .chunks(4 * ANSWER_WORDS)
                    .filter(|a| a[0] == 0)
                    .count();
            }
            _ => {
                let found = black_box(&self.lo).lookup4_many(&self.addresses);
                return found.map_or(0, |found| {
                    found.answers.iter().filter(|a| a.is_ok()).count()
                });
            }
        }
        self.answers
            .chunks(ANSWER_WORDS)
            .filter(|a| a[0] == 0)
            .count()
    }
}

/// As many as may be, to all parts of the state's rows.
fn destinations() -> Vec<u32> {
    let mut to: Vec<u32> = (0..MOST as u32)
        .map(|i| match i % 4 {
            0 => 0x0a00_0005 + (i / 4) * 0x1_0000,
            1 => 0x0b00_0001 + (i / 4) * 0x100,
            2 => 0x7f00_0001 + i,
            _ => 0x0c00_0000 + i,
        })
        .collect();
    to.sort_unstable();
    to
}

/// The same job in plain Rust: checks, a walk for each set, an answer for
/// each destination.
fn walked<const TUNED: bool>(state: &[u32], to: &[u32], answers: &mut [u32]) -> Reply {
    let refused = |number| Reply {
        number,
        ..Reply::default()
    };
    if state.len() != STATE_WORDS || answers.len() < ANSWER_WORDS * to.len() {
        return refused(200);
    }
    if !well_formed::<TUNED>(state) {
        return refused(201);
    }
    if to.len() > MOST {
        return refused(210);
    }
    if !to.is_sorted() {
        return refused(211);
    }
    let (rows, _) = state[ROUTES_AT..TABLES_AT].as_chunks::<ROUTE_WORDS>();
    let rows = &rows[..state[1] as usize];
    let listed = state[TABLES_AT..][..state[2] as usize].contains(&SECOND);
    let (first, mut weighed) = walk::<TUNED>(rows, &FIRST, to);
    let open = first.iter().rposition(|found| settled(*found).is_none());
    let mut second = Vec::new();
    if let Some(last) = open.filter(|_| listed) {
        let (found, more) = walk::<TUNED>(rows, &[SECOND], &to[..=last]);
        second = found;
        weighed += more;
    }
    for (i, answer) in answers.chunks_mut(ANSWER_WORDS).take(to.len()).enumerate() {
        let later = || second.get(i).copied().flatten();
        let ruling = settled(first[i]).or_else(|| settled(later()));
        let (number, row) = match ruling.unwrap_or(Err(UNREACHABLE)) {
            Ok(row) => (0, row),
            Err(number) => (number, &[0; ROUTE_WORDS]),
        };
        answer[0] = number;
        answer[1..].copy_from_slice(row);
    }
    Reply {
        value: weighed,
        ..Reply::default()
    }
}

/// A row as an answer, or its kind's error; none for none and for a throw.
fn settled(found: Option<&RouteRow>) -> Option<Result<&RouteRow, u32>> {
    let row = found?;
    match kind_error(row[5] as u8).flatten() {
        None => Some(Ok(row)),
        Some(11) => None,
        Some(error) => Some(Err(error)),
    }
}

/// The row of these tables that answers each destination, and the rows
/// weighed: for each length the first row of the last dst passed is kept.
/// Tuned, the lengths that have one are a word's bits.
fn walk<'a, const TUNED: bool>(
    rows: &'a [RouteRow],
    tables: &[u32],
    to: &[u32],
) -> (Vec<Option<&'a RouteRow>>, u32) {
    let mut kept: [Option<&RouteRow>; 33] = [None; 33];
    let mut lengths = 0_u64;
    let mut rows = rows.iter().peekable();
    let mut weighed = 0;
    let mut answer = |ip: u32| {
        while let Some(row) = rows.next_if(|row| row[1] <= ip) {
            if !tables.contains(&row[0]) {
                continue;
            }
            weighed += 1;
            let held = &mut kept[row[2] as usize];
            if row[3] == 0 && held.is_none_or(|held| held[1] != row[1]) {
                *held = Some(row);
                lengths |= 1 << row[2];
            }
        }
        let covers = |len: u8| kept[len as usize].filter(|row| row[1] == ip & mask(len));
        if !TUNED {
            return (0..=32).rev().find_map(covers);
        }
        let mut left = lengths;
        while left != 0 {
            let longest = 63 - left.leading_zeros();
            if let Some(row) = covers(longest as u8) {
                return Some(row);
            }
            left ^= 1 << longest;
        }
        None
    };
    let found = to.iter().map(|&ip| answer(ip)).collect();
    (found, weighed)
}

/// Prints the table.
pub fn table(rounds: usize) {
    println!(
        "\n{MOST} destinations together. `lookup4`: the library's on words, once for each. The \
         Rust on lent words: the check, and the same walk, in plain Rust.\n"
    );
    println!(
        "| destinations | the Rust, own lists, one by one | `lookup4`, one by one | the Rust on lent \
         words, plain | tuned | the port, words | bytes | `Addresses` | words / `lookup4` | words / \
         plain | words / tuned |"
    );
    println!("|---|---:|---:|---:|---:|---:|---:|---:|---:|---:|---:|");
    for [a, r, t] in SIZES {
        row(&format!("{a}/{r}/{t}"), of_size([a, r, t]), rounds);
    }
    let [a, r, t] = SIZES[2];
    row(&format!("{a}/{r}/{t}, 253 walked too"), with_253(), rounds);
}

/// The greatest size, with 253 in the place of a private table: it is walked
/// for the destinations that have no route in 254 and 255.
fn with_253() -> Vec<u32> {
    let mut lists = decode(&of_size(SIZES[2]));
    let in_place = |table: &mut u32| {
        if *table == 100 {
            *table = SECOND;
        }
    };
    lists.tables.iter_mut().for_each(in_place);
    lists
        .routes
        .iter_mut()
        .for_each(|row| in_place(&mut row[0]));
    encode(&lists)
}

fn row(name: &str, state: Vec<u32>, rounds: usize) {
    let mut stage = Stage::new(state);
    let mut answers = stage.answers.clone();
    let reply = Model.many(&stage.state, &stage.to, &mut answers);
    let found = stage.all(1);
    for walk in [walked::<false>, walked::<true>] {
        let mut own = vec![7; answers.len()];
        let given = walk(&stage.state, &stage.to, &mut own);
        assert_eq!((given.value, &own), (reply.value, &answers), "plain");
    }
    for way in 0..WAYS {
        stage.clear();
        assert_eq!(stage.all(way), found, "way {way} finds as many");
        match way {
            0..5 => assert_eq!(stage.answers, answers, "way {way}"),
            5 => assert_eq!(stage.answer_bytes, bytes_of(&answers), "on bytes"),
            _ => {}
        }
    }
    let counted = words::lookup4_many(&stage.state, &stage.to, &mut answers);
    assert_eq!(counted.value, reply.value, "the rows weighed");
    let times: [f64; WAYS] = in_turn(rounds, |way| {
        black_box(stage.all(way));
    });
    let [_, one_by_one, plain, tuned, on_words, ..] = times;
    let text = times.map(time).join(" | ");
    println!(
        "| {MOST}, {name} | {text} | {} | {} | {} |",
        ratio(on_words, one_by_one),
        ratio(on_words, plain),
        ratio(on_words, tuned)
    );
}
