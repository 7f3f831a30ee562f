//! How long recordings of events take to be rebuilt, and two of them to be
//! held together: the library on words and on bytes, by `rebuild` and `same`,
//! and plain Rust that does the same job.
use crate::measure::in_turn;
use crate::recorder;
use crate::{ratio, time};
use naskrefim::{Event, LISTING_BUFFER_WORDS, bytes, rebuild, same, words};
use oracle::call::Call;
use oracle::compare::filled;
use oracle::generate::recordings::Recordings;
use oracle::port::{Bytes, bytes as bytes_of};
use oracle::recording::{Beside, Model, Rebuilder};
use oracle::script::{CREATE, Route, Script, Told, address, any, route};
use oracle::words::EVENT_WORDS;
use std::hint::black_box;

/// Generated recordings on which the plain one is first compared.
const COMPARED: usize = 10_000;

/// A run and what it told.
#[derive(Default)]
struct Recorded {
    script: Script,
    words: Vec<u32>,
}

impl Recorded {
    fn keep(&mut self, call: impl FnOnce(&mut Script) -> Told) {
        let told = call(&mut self.script);
        assert_eq!(told.reply.number, 0, "what is recorded is taken");
        self.words.extend(told.written);
    }

    /// Up, addresses, and routes.
    fn set_up(&mut self, addresses: usize, routes: usize) {
        self.keep(|s| s.up(0));
        for i in 1..addresses {
            self.keep(|s| s.add(address(&format!("10.{i}.0.5/32")).up()));
        }
        for i in 0..routes {
            self.keep(|s| s.add_route(net(i)));
        }
    }
}

fn net(i: usize) -> Route {
    route(&format!("11.{}.{}.0/24", i / 200, i % 200)).up()
}

/// A set-up; and a day on which routes come and go, one is replaced time and
/// again, and the device goes down and up.
fn all() -> [(&'static str, Recorded); 3] {
    let (mut short, mut full, mut day) = (
        Recorded::default(),
        Recorded::default(),
        Recorded::default(),
    );
    short.set_up(16, 16);
    full.set_up(62, 185);
    day.set_up(62, 120);
    for i in 0..600 {
        let (i, priority) = (i % 120, 7 + i as u32);
        let text = format!("11.0.{i}.0/24");
        day.keep(|s| s.del_route(any(&text)));
        day.keep(|s| {
            s.add_route(Route {
                request: CREATE | 0x800,
                ..net(i)
            })
        });
        let scope = 200 + priority % 2;
        let again = |request| Route {
            request,
            scope,
            ..route("14.0.0.0/24").up()
        };
        day.keep(|s| s.add_route(again(CREATE | 0x100)));
        if i == 119 {
            day.keep(|s| s.call(Call::Down));
            day.keep(|s| s.up(1));
            for i in 0..120 {
                day.keep(|s| s.add_route(net(i)));
            }
        }
    }
    [
        ("a small set-up", short),
        ("a set-up", full),
        ("a long day", day),
    ]
}

/// Compares the plain one with the oracle's, and gives the number of
/// recordings.
fn plain_is_right() -> usize {
    let mut generated = Recordings::new(1);
    let mut compared = 0;
    while compared < COMPARED {
        let case = generated.next_case();
        let whole = |bytes: &[u8]| bytes.len().is_multiple_of(4);
        let (first, beside) = (&case.first, &case.beside);
        match beside {
            Beside::Rows(rows) if whole(first) => {
                let (mut right, mut found) = (rows.clone(), oracle::port::words(rows));
                let reply = Bytes(Model).rebuild(first, &mut right);
                let told = recorder::rebuild(&oracle::port::words(first), &mut found);
                let right = oracle::port::words(&right);
                assert!((told, found) == (reply, right), "{case:?}");
            }
            Beside::Second(second) if whole(first) && whole(second) => {
                let reply = Bytes(Model).same(first, second);
                let [one, other] = [first, second].map(|bytes| oracle::port::words(bytes));
                assert_eq!(recorder::same(&one, &other), reply, "{case:?}");
            }
            _ => continue,
        }
        compared += 1;
    }
    compared
}

/// Prints the table.
pub fn table(rounds: usize) {
    println!(
        "\nRecordings, rebuilt, and held beside another of the same rows. Plain: Rust that does it in \
         one pass, alike with the oracle's model on {} recordings.\n",
        plain_is_right()
    );
    println!(
        "| recording | events | rows | plain | the library, words | ratio | bytes | ratio | `rebuild` \
         | same: plain | the library, words | ratio | bytes | `same` |"
    );
    println!("|---|---:|---:|---:|---:|---:|---:|---:|---:|---:|---:|---:|---:|---:|");
    for (name, recorded) in all() {
        let words = &recorded.words;
        let mut rows = filled(LISTING_BUFFER_WORDS);
        let count = words::rebuild(words, &mut rows).value;
        assert_eq!(count, recorded.script.state[1], "the table's");
        let [plain, on_words, on_bytes, typed] = rebuilt(words, rounds);
        let [both, both_words, both_bytes, both_typed] = compared(words, rounds);
        println!(
            "| {name} | {} | {count} | {} | {} | {} | {} | {} | {} | {} | {} | {} | {} | {} |",
            words.len() / EVENT_WORDS,
            time(plain),
            time(on_words),
            ratio(on_words, plain),
            time(on_bytes),
            ratio(on_bytes, plain),
            time(typed),
            time(both),
            time(both_words),
            ratio(both_words, both),
            time(both_bytes),
            time(both_typed)
        );
    }
}

fn typed(recording: &[u32]) -> Vec<Event> {
    let rows = recording.chunks(EVENT_WORDS);
    rows.map(|row| port::records::event(row).expect("records can say it"))
        .collect()
}

fn rebuilt(recording: &[u32], rounds: usize) -> [f64; 4] {
    let (on_bytes, events) = (bytes_of(recording), typed(recording));
    let mut rows = filled(LISTING_BUFFER_WORDS);
    let mut row_bytes = bytes_of(&rows);
    in_turn(rounds, |way| {
        let (recording, rows) = (black_box(recording), black_box(&mut rows[..]));
        match way {
            0 => drop(black_box(recorder::rebuild(recording, rows))),
            1 => drop(black_box(words::rebuild(recording, rows))),
            2 => drop(black_box(bytes::rebuild(
                black_box(&on_bytes),
                black_box(&mut row_bytes),
            ))),
            _ => drop(black_box(rebuild(black_box(&events)))),
        }
    })
}

fn compared(recording: &[u32], rounds: usize) -> [f64; 4] {
    let second = recording.to_vec();
    let (on_bytes, events) = (bytes_of(recording), typed(recording));
    let (second_bytes, second_events) = (on_bytes.clone(), events.clone());
    in_turn(rounds, |way| {
        let (first, second) = (black_box(recording), black_box(&second[..]));
        match way {
            0 => drop(black_box(recorder::same(first, second))),
            1 => drop(black_box(words::same(first, second))),
            2 => drop(black_box(bytes::same(
                black_box(&on_bytes),
                black_box(&second_bytes),
            ))),
            _ => drop(black_box(same(
                black_box(&events),
                black_box(&second_events),
            ))),
        }
    })
}
