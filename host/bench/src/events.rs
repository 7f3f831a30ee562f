//! How long an event takes to be written: the library on words and on
//! bytes, through `Event::message`, and a plain writer that is fast.
use crate::measure::in_turn;
use crate::writer;
use crate::{ratio, time};
use naskrefim::{Event, bytes, words};
use oracle::call::Reply;
use oracle::event::{Given, MESSAGE_BYTES, Model, Writer, event};
use oracle::events::swept;
use oracle::generate::events::Events;
use oracle::port::{Bytes, bytes as bytes_of, exact};
use std::hint::black_box;

/// Generated events on which the plain writer is first compared.
const COMPARED: usize = 20_000;
const GIVEN: Given = Given {
    sequence: 7,
    port: 9,
    now: 3_500_000_000,
};

/// What is measured: the events of usual calls, and the longest messages.
fn all() -> [(&'static str, Vec<u32>); 7] {
    let mut own = [0; 20];
    own[..3].copy_from_slice(&[0x0ac8_0005, 0x0ac8_0005, 24]);
    own[8..10].copy_from_slice(&[2, 0x6f6c]);
    own[14..16].copy_from_slice(&[100, 50]);
    let mut every = own;
    every[3..8].copy_from_slice(&[1, 0x0ac8_00ff, 253, 0x200, 5]);
    every[8..13].copy_from_slice(&[15, 0x3a6f_6c6c, 0x3130_3130, 0x3130_3130, 0x0031_3031]);
    every[13] = 7;
    let mut forever = own;
    forever[6] = 0x80;
    let mut net = [0; 32];
    net[..8].copy_from_slice(&[254, 0x0a4d_0000, 24, 0, 0, 1, 3, 253]);
    net[12] = 1;
    let mut two = net;
    [two[16], two[22]] = [1_400, 1_300];
    let mut longest = net;
    longest[0] = 1_000;
    longest[3..5].copy_from_slice(&[4, 50]);
    longest[8..12].copy_from_slice(&[1, 0x0ac8_0005, 1, 0x0ac8_0001]);
    longest[13..].fill(1);
    [
        ("new address", event(1, 0, &own)),
        ("new address, every attribute", event(1, 0, &every)),
        ("deleted address, permanent", event(2, 0, &forever)),
        ("new route", event(3, 0x600, &net)),
        ("new route, two metrics", event(3, 0x600, &two)),
        ("new route, 216 bytes", event(3, 0x600, &longest)),
        ("deleted route", event(4, 0, &net)),
    ]
}

/// Compares the plain writer with the oracle's, and gives the number of
/// events.
fn plain_is_right() -> usize {
    let mut generated = Events::new(1);
    let drawn = (0..COMPARED).map(|_| generated.next_case());
    let cases = drawn.chain(swept());
    cases
        .map(|case| {
            let (mut right, mut found) = (case.message.clone(), case.message.clone());
            let reply = Bytes(Model).write(&case.event, &mut right, case.given);
            let told = writer::write_bytes(&case.event, &mut found, case.given);
            assert!((told, &found) == (reply, &right), "{case:?}");
            let mut found = case.message.clone();
            let told = writer::write(&exact(&case.event), &mut found, case.given);
            assert!((told, found) == (reply, right), "on words: {case:?}");
        })
        .count()
}

/// Prints the table.
pub fn table(rounds: usize) {
    println!(
        "\nEvents, written. Plain: Rust that writes in one pass and allocates nothing, alike with \
         the oracle's writer on {} events.\n",
        plain_is_right()
    );
    println!(
        "| event | bytes | plain, words | the library, words | ratio | plain, bytes \
         | the library, bytes | ratio | `Event::message` |"
    );
    println!("|---|---:|---:|---:|---:|---:|---:|---:|---:|");
    for (name, row) in all() {
        let mut message = [0; MESSAGE_BYTES];
        let length = words::write(&row, &mut message, 7, 9, GIVEN.now).value;
        let [plain, on_words, plain_bytes, on_bytes, typed] = times(&row, rounds);
        println!(
            "| {name} | {length} | {} | {} | {} | {} | {} | {} | {} |",
            time(plain),
            time(on_words),
            ratio(on_words, plain),
            time(plain_bytes),
            time(on_bytes),
            ratio(on_bytes, plain_bytes),
            time(typed)
        );
    }
}

/// Medians of the five ways, in turn.
fn times(row: &[u32], rounds: usize) -> [f64; 5] {
    let on_bytes = bytes_of(row);
    let told: Event = port::records::event(row).expect("records can say it");
    let mut message = [0; MESSAGE_BYTES];
    let Given {
        sequence,
        port,
        now,
    } = GIVEN;
    in_turn(rounds, |way| {
        let (row, on_bytes) = (black_box(row), black_box(&on_bytes[..]));
        let message = black_box(&mut message[..]);
        match way {
            0 => said(writer::write(row, message, GIVEN)),
            1 => drop(black_box(words::write(row, message, sequence, port, now))),
            2 => said(writer::write_bytes(on_bytes, message, GIVEN)),
            3 => drop(black_box(bytes::write(
                on_bytes, message, sequence, port, now,
            ))),
            _ => drop(black_box(black_box(&told).message(sequence, port, now))),
        }
    })
}

fn said(reply: Reply) {
    black_box(reply);
}
