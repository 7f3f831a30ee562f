//! How long a netmask takes: `interface4_prefix` against plain Rust, and the
//! calls with a mask against the base's with the prefix that plain Rust
//! makes of it.
use crate::measure::in_turn;
use crate::states::Measured;
use crate::{ratio, time};
use naskrefim::{Reply, bytes, words};
use oracle::call::Call;
use oracle::compare::filled;
use oracle::netmask::place;
use oracle::port::bytes as bytes_of;
use std::hint::black_box;

fn plain(mask: u32) -> Option<u32> {
    let ones = mask.count_ones();
    (ones + mask.trailing_zeros() == 32).then_some(ones)
}

/// The call on words, with a mask as it is or by the base with its prefix;
/// on a copy of the state, which both pay for.
fn on_words(
    call: &Call,
    request: &mut [u32],
    state: &mut [u32],
    events: &mut [u32],
    base: bool,
) -> Reply {
    let at = place(call).expect("a request for an address");
    if base {
        request[at] = plain(request[at]).expect("a good mask");
    }
    match (call, base) {
        (Call::AddV4 { now, .. }, true) => words::add_v4(state, request, events, *now),
        (Call::AddV4 { now, .. }, false) => words::add_v4_mask(state, request, events, *now),
        (_, true) => words::del_v4(state, request, events),
        (_, false) => words::del_v4_mask(state, request, events),
    }
}

fn on_bytes(
    call: &Call,
    request: &mut [u8],
    state: &mut [u8],
    events: &mut [u8],
    base: bool,
) -> Reply {
    let at = 4 * place(call).expect("a request for an address");
    if base {
        let mask = u32::from_le_bytes(request[at..at + 4].try_into().expect("four bytes"));
        let prefix = plain(mask).expect("a good mask");
        request[at..at + 4].copy_from_slice(&prefix.to_le_bytes());
    }
    match (call, base) {
        (Call::AddV4 { now, .. }, true) => bytes::add_v4(state, request, events, *now),
        (Call::AddV4 { now, .. }, false) => bytes::add_v4_mask(state, request, events, *now),
        (_, true) => bytes::del_v4(state, request, events),
        (_, false) => bytes::del_v4_mask(state, request, events),
    }
}

/// Prints the table.
pub fn table(calls: &[Measured], rounds: usize) {
    println!(
        "\nNetmasks. Plain: Rust that counts the ones and the trailing zeros, and then the base's \
         call; each with a copy of the state.\n"
    );
    println!("| call | plain | the library | ratio |");
    println!("|---|---:|---:|---:|");
    let row = |name: &str, [plain, library]: [f64; 2]| {
        let ratio = ratio(library, plain);
        println!("| {name} | {} | {} | {ratio} |", time(plain), time(library));
    };
    let prefix = in_turn(rounds, |way| {
        for p in 0..=32 {
            let mask = black_box(reference::mask(p));
            match way {
                0 => drop(black_box(plain(mask))),
                _ => drop(black_box(naskrefim::prefix(mask))),
            }
        }
    });
    row("prefix, 33 masks", prefix);
    for measured in calls {
        let Some(at) = place(&measured.call) else {
            continue;
        };
        let mut request = measured.call.lent().unwrap_or(&[]).to_vec();
        request[at] = reference::mask(request[at] as u8);
        let (mut state, mut events) = (
            measured.state.clone(),
            filled(naskrefim::EVENT_BUFFER_WORDS),
        );
        let words = in_turn(rounds, |way| {
            state.copy_from_slice(black_box(&measured.state));
            let mut own = request.clone();
            black_box(on_words(
                &measured.call,
                &mut own,
                &mut state,
                &mut events,
                way == 0,
            ));
        });
        row(&format!("{}, words", measured.name), words);
        let (first, request) = (bytes_of(&measured.state), bytes_of(&request));
        let (mut state, mut events) = (first.clone(), bytes_of(&events));
        let bytes = in_turn(rounds, |way| {
            state.copy_from_slice(black_box(&first));
            let mut own = request.clone();
            black_box(on_bytes(
                &measured.call,
                &mut own,
                &mut state,
                &mut events,
                way == 0,
            ));
        });
        row(&format!("{}, bytes", measured.name), bytes);
    }
}
