//! How long a message takes to be read: the library on words and on bytes,
//! through `Request::read`, and a plain reader that is fast.
use crate::measure::{Way, in_turn, measure};
use crate::reader;
use crate::states::Measured;
use crate::{ratio, time};
use naskrefim::{Request, bytes, words};
use oracle::call::Reply;
use oracle::generate::drafts::Draft;
use oracle::generate::messages::Messages;
use oracle::message::{self, DEL_ADDRESS, DEL_ROUTE, NEW_ADDRESS, NEW_ROUTE, Reader, ifa, rta};
use oracle::messages::swept;
use oracle::port::words as words_of;
use std::hint::black_box;

/// Generated messages on which the plain reader is first compared.
const COMPARED: usize = 20_000;

/// What is measured: the messages of usual requests.
fn all() -> [(&'static str, Vec<u8>); 7] {
    let own: &[u8] = &[10, 200, 0, 5];
    let address = |kind, flags| {
        let draft = Draft::new(kind, flags, &[2, 24, 0, 0, 1, 0, 0, 0]);
        draft.with(ifa::LOCAL, own).with(ifa::ADDRESS, own)
    };
    let route = |kind, flags| {
        let draft = Draft::new(kind, flags, &[2, 24, 0, 0, 254, 3, 253, 1, 0, 0, 0, 0]);
        let draft = draft.with(rta::DST, &[10, 77, 0, 0]);
        draft.with(rta::OIF, &[1, 0, 0, 0])
    };
    let every = address(NEW_ADDRESS, 0x605)
        .with(ifa::LABEL, b"lo:1\0")
        .with(ifa::BROADCAST, &[10, 200, 0, 255])
        .with(ifa::CACHEINFO, &[9; 16])
        .with(ifa::FLAGS, &[0, 2, 0, 0])
        .with(ifa::RT_PRIORITY, &[7, 0, 0, 0])
        .with(ifa::PROTO, &[5]);
    let values: Vec<[u8; 4]> = (1..=17).map(u32::to_le_bytes).collect();
    let metrics: Vec<(u16, &[u8])> = (1..).zip(values.iter().map(|v| &v[..])).collect();
    [
        ("new address", address(NEW_ADDRESS, 0x605)),
        ("new address, every attribute", every),
        ("deleted address", address(DEL_ADDRESS, 5)),
        ("new route", route(NEW_ROUTE, 0x605)),
        (
            "new route, two metrics",
            route(NEW_ROUTE, 0x605).with_metrics(&[metrics[1], metrics[7]]),
        ),
        (
            "new route, 17 metrics",
            route(NEW_ROUTE, 0x605).with_metrics(&metrics),
        ),
        ("deleted route", route(DEL_ROUTE, 5)),
    ]
    .map(|(name, draft)| (name, draft.bytes()))
}

/// Compares the plain reader with the oracle's, and gives the number of
/// messages.
fn plain_is_right() -> usize {
    let mut generated = Messages::new(1);
    let drawn = (0..COMPARED).map(|_| generated.next_case());
    let cases = drawn.chain(swept());
    cases
        .map(|case| {
            let mut right = case.request.clone();
            let reply = message::Model.read(&case.message, &mut right, case.up);
            let mut found = case.request.clone();
            let told = reader::read_bytes(&case.message, &mut found, case.up);
            assert!((told, &found) == (reply, &right), "{:?}", case.message);
            let mut found = words_of(&case.request);
            let told = reader::read(&case.message, &mut found, case.up);
            assert!((told, found) == (reply, words_of(&right)), "on words");
        })
        .count()
}

/// Prints the table, and how many messages are read while one `add_v4` or
/// `add_route4` is made.
pub fn table(calls: &[Measured], rounds: usize) {
    println!(
        "\nMessages, read. Plain: Rust that reads in one pass and allocates nothing, alike with \
         the oracle's reader on {} messages.\n",
        plain_is_right()
    );
    println!(
        "| message | plain, words | the library, words | ratio | plain, bytes \
         | the library, bytes | ratio | `Request::read` |"
    );
    println!("|---|---:|---:|---:|---:|---:|---:|---:|");
    let mut slowest: f64 = 0.0;
    for (name, message) in all() {
        let [plain, words, plain_bytes, bytes, typed] = times(&message, rounds);
        slowest = slowest.max(words);
        println!(
            "| {name} | {} | {} | {} | {} | {} | {} | {} |",
            time(plain),
            time(words),
            ratio(words, plain),
            time(plain_bytes),
            time(bytes),
            ratio(bytes, plain_bytes),
            time(typed)
        );
    }
    println!(
        "\nAgainst the calls, on words: messages a second {:.0}, the slowest of these;",
        1e9 / slowest
    );
    for call in calls {
        let took = measure(call, rounds, &[Way::Words]).of(Way::Words);
        println!(
            "- {}: {:.0} calls a second, one call to {:.1} messages",
            call.name,
            1e9 / took,
            took / slowest
        );
    }
}

/// Medians of the five ways, in turn.
fn times(message: &[u8], rounds: usize) -> [f64; 5] {
    let mut on_words = [0u32; 49];
    let mut on_bytes = [0u8; 196];
    in_turn(rounds, |way| {
        let message = black_box(message);
        match way {
            0 => told(reader::read(message, black_box(&mut on_words), 1)),
            1 => drop(black_box(words::read(message, black_box(&mut on_words), 1))),
            2 => told(reader::read_bytes(message, black_box(&mut on_bytes), 1)),
            3 => drop(black_box(bytes::read(message, black_box(&mut on_bytes), 1))),
            _ => drop(black_box(Request::read(message, true))),
        }
    })
}

fn told(reply: Reply) {
    black_box(reply);
}
