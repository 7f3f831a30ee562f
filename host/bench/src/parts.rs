//! How long a whole listing takes in parts: the library against plain Rust
//! that does the same for each part (check, decode, the unchanged Rust's
//! listing, the rows from the place on).
use crate::measure::{enough, median, section};
use crate::same_job::call;
use crate::states::{SIZES, of_size};
use crate::{ratio, time};
use naskrefim::{Addresses, CURSOR_WORDS, Reply, bytes, words};
use oracle::call::Call;
use oracle::compare::filled;
use oracle::part::{MARK, dump4, mark};
use oracle::port::bytes as bytes_of;
use oracle::words::{LISTING_BUFFER, ROUTE_WORDS, change_count, halves, whole};
use std::hint::black_box;

/// The rows of a part.
const ROWS: usize = 16;
/// Plain, tuned; the library on words and on bytes, through `Addresses`;
/// `dump4` on words, once.
const WAYS: usize = 6;

/// What the ways work on.
struct Stage {
    state: Vec<u32>,
    state_bytes: Vec<u8>,
    lo: Addresses,
    /// All rows, where a way needs them.
    all: Vec<u32>,
    listing: Vec<u32>,
    listing_bytes: Vec<u8>,
}

impl Stage {
    fn new(state: Vec<u32>) -> Self {
        let listing = filled(ROWS * ROUTE_WORDS);
        Self {
            state_bytes: bytes_of(&state),
            lo: Addresses::from_words(&state).expect("what is measured is fit"),
            all: filled(LISTING_BUFFER),
            listing_bytes: bytes_of(&listing),
            listing,
            state,
        }
    }

    /// A whole listing by this way; the number of its rows.
    fn whole(&mut self, way: usize) -> usize {
        let mut cursor = [0; CURSOR_WORDS];
        match way {
            0 => in_parts(|begins| self.plain::<false>(&mut cursor, begins)),
            1 => in_parts(|begins| self.plain::<true>(&mut cursor, begins)),
            2 => in_parts(|begins| {
                let take = if begins {
                    words::dump4_begin
                } else {
                    words::dump4_next
                };
                let state = black_box(&self.state);
                take(state, &mut self.listing, &mut cursor, ROWS as u32)
            }),
            3 => {
                let mut cursor = [0; 4 * CURSOR_WORDS];
                in_parts(|begins| {
                    let take = if begins {
                        bytes::dump4_begin
                    } else {
                        bytes::dump4_next
                    };
                    let state = black_box(&self.state_bytes);
                    take(state, &mut self.listing_bytes, &mut cursor, ROWS as u32)
                })
            }
            4 => {
                let lo = black_box(&self.lo);
                let mut part = lo.dump4_begin(ROWS).expect("a part");
                let mut rows = part.routes.len();
                while let Some(cursor) = part.next {
                    part = lo.dump4_next(cursor, ROWS).expect("a part");
                    rows += black_box(&part.routes).len();
                }
                rows
            }
            _ => words::dump4(black_box(&self.state), &mut self.all).value as usize,
        }
    }

    /// A part by the Rust on lent words.
    fn plain<const TUNED: bool>(&mut self, cursor: &mut [u32; 3], begins: bool) -> Reply {
        let count = change_count(&self.state);
        if begins {
            let [low, high] = halves(count);
            *cursor = [0, low, high];
        }
        let state = black_box(&mut self.state);
        let listed = call::<TUNED>(&Call::Dump4, state, &mut self.all);
        let place = (cursor[0] as usize).min(listed.value as usize);
        let rows = ROWS.min(listed.value as usize - place);
        let given = &self.all[ROUTE_WORDS * place..][..ROUTE_WORDS * rows];
        self.listing[..given.len()].copy_from_slice(given);
        cursor[0] += rows as u32;
        Reply {
            number: listed.number,
            present: mark(whole(cursor[1], cursor[2]), count),
            value: rows as u32,
            second: u32::from(cursor[0] >= listed.value),
        }
    }
}

/// Parts until one reaches the end; none may be refused or have the mark.
fn in_parts(mut take: impl FnMut(bool) -> Reply) -> usize {
    let mut rows = 0;
    for part in 0.. {
        let reply = black_box(take(part == 0));
        assert!(reply.number == 0 && reply.present != MARK, "a whole part");
        rows += reply.value as usize;
        if reply.second == 1 {
            break;
        }
    }
    rows
}

/// Prints the table.
pub fn table(rounds: usize) {
    println!(
        "\nA whole listing in parts of {ROWS} rows. The Rust on lent words: for each part the check, \
         its `dump4`, and the rows from the place on. `dump4`: the library's, on words, once.\n"
    );
    println!(
        "| listing | rows | the Rust on lent words, plain | tuned | the port, words | bytes \
         | `Addresses` | `dump4` | words / plain | words / tuned | bytes / plain | words / `dump4` |"
    );
    println!("|---|---:|---:|---:|---:|---:|---:|---:|---:|---:|---:|---:|");
    for [a, r, t] in SIZES {
        let mut stage = Stage::new(of_size([a, r, t]));
        let rows = dump4(&stage.state).len() / ROUTE_WORDS;
        for way in 0..WAYS {
            assert_eq!(stage.whole(way), rows, "way {way} lists all");
        }
        let calls: [usize; WAYS] = core::array::from_fn(|way| {
            enough(|| {
                black_box(stage.whole(way));
            })
        });
        let mut times: [Vec<f64>; WAYS] = Default::default();
        for round in 0..rounds {
            for k in 0..WAYS {
                let way = (round + k) % WAYS;
                times[way].push(section(calls[way], || {
                    black_box(stage.whole(way));
                }));
            }
        }
        let medians = times.map(median);
        let [plain, tuned, on_words, on_bytes, _, once] = medians;
        let text = medians.map(time).join(" | ");
        println!(
            "| {a}/{r}/{t} | {rows} | {text} | {} | {} | {} | {} |",
            ratio(on_words, plain),
            ratio(on_words, tuned),
            ratio(on_bytes, plain),
            ratio(on_words, once)
        );
    }
}
