//! How long each call takes: the unchanged Rust on its own lists, the Rust
//! doing the port's job on lent words (plainly, and tuned), the port on
//! words, on bytes and through `Addresses`. The tables are Markdown.
mod events;
mod many;
mod masks;
mod measure;
mod messages;
mod parts;
mod reader;
mod recorder;
mod recordings;
mod same_job;
mod states;
mod writer;

use measure::{Times, Way, enough, measure, median, section};
use naskrefim::words;
use oracle::call::Call;
use oracle::generate::cases::{Cases, USUAL};
use oracle::model::{NO_SPACE, model};
use reference::FUZZ;
use std::hint::black_box;
use std::process::ExitCode;

const USAGE: &str = "usage: bench [--addresses] [--rounds N] [--only TEXT]
  --addresses    only what a host gets that puts `Addresses` in the place of
                 the Rust on its own lists
  --rounds N     501 if it isn't said
  --only TEXT    only calls whose name has TEXT in it; check: the check of a
                 state alone; read: messages; mask: netmasks; write: events;
                 part: listings taken in parts; rebuild: recordings of
                 events; many: destinations looked up together";
/// Cases on which the Rust on lent words is first compared with the model.
const COMPARED: usize = 3_000;

/// What is asked of the port, against the Rust doing the same job.
const BYTES_MEAN: f64 = 0.4;
const BYTES_MOST: f64 = 0.8;
const WORDS_MEAN: f64 = 0.25;

fn main() -> ExitCode {
    let arguments: Vec<String> = std::env::args().skip(1).collect();
    let Some(Options {
        rounds,
        only,
        addresses,
    }) = options(&arguments)
    else {
        eprintln!("{USAGE}");
        return ExitCode::FAILURE;
    };
    let wanted = |all: Vec<states::Measured>| -> Vec<states::Measured> {
        let of = |one: &states::Measured| one.name.contains(only.as_str());
        all.into_iter().filter(of).collect()
    };
    println!("interface.rs: sha256 {}", reference::INTERFACE_SHA256);
    println!("library: {}", naskrefim::LIBRARY);
    if !addresses {
        println!(
            "The Rust on lent words: alike with the model on {} cases.",
            same_job_is_right()
        );
    }
    println!(
        "Medians of {rounds} rounds, all ways in turn. Calls that may change their state are \
         timed one by one, the state put back before each, outside the timed part; the others \
         many at once. The clock's own time is taken off. Buffers are not cleared between calls. \
         After a call's name: addresses, routes, tables."
    );
    let (usual, special) = (wanted(states::usual()), wanted(states::special()));
    if addresses {
        return swap(&usual, &special, rounds);
    }
    let others = ["check", "read", "mask", "write", "part", "rebuild", "many"];
    let others = others.map(|name| name.contains(only.as_str()));
    let [check, read, mask, write, part, rebuild, many] = others;
    if usual.is_empty() && special.is_empty() && !others.contains(&true) {
        eprintln!("no call has {only} in its name\n{USAGE}");
        return ExitCode::FAILURE;
    }
    if !usual.is_empty() {
        let usual = table(&usual, rounds);
        println!(
            "\nAsked of the port, against the Rust on lent words: on words a geometric mean of \
             at most {WORDS_MEAN}; on bytes of at most {BYTES_MEAN}, and no call above \
             {BYTES_MOST}.\n"
        );
        let plain = ("the Rust on lent words, plain", Way::Plain);
        let tuned = ("the Rust on lent words, tuned", Way::Tuned);
        let bytes = ("the Rust on lent bytes, plain", Way::PlainBytes);
        summary("the port on words", &usual, Way::Words, plain);
        summary("the port on words", &usual, Way::Words, tuned);
        summary("the port on bytes", &usual, Way::Bytes, plain);
        summary("the port on bytes", &usual, Way::Bytes, bytes);
        summary("`Addresses`", &usual, Way::Addresses, OWN);
    }
    if !special.is_empty() {
        println!("\nThe longest jobs:");
        table(&special, rounds);
    }
    if check {
        println!(
            "\nThe check of a state alone (the port: `interface4w_check`); a call without it takes \
             the difference:\n"
        );
        check_alone(rounds);
    }
    if read {
        messages::table(&states::changing(), rounds);
    }
    if mask {
        masks::table(&states::usual(), rounds);
    }
    if write {
        events::table(rounds);
    }
    if part {
        parts::table(rounds);
    }
    if rebuild {
        recordings::table(rounds);
    }
    if many {
        many::table(rounds);
    }
    ExitCode::SUCCESS
}

struct Options {
    rounds: usize,
    /// What a name must have in it.
    only: String,
    addresses: bool,
}

fn options(arguments: &[String]) -> Option<Options> {
    let mut options = Options {
        rounds: 501,
        only: String::new(),
        addresses: false,
    };
    let mut rest = arguments.iter();
    while let Some(option) = rest.next() {
        match option.as_str() {
            "--addresses" => options.addresses = true,
            "--rounds" => options.rounds = rest.next()?.parse().ok().filter(|n| *n > 0)?,
            "--only" => options.only.clone_from(rest.next()?),
            _ => return None,
        }
    }
    Some(options)
}

const OWN: (&str, Way) = ("the Rust on its own lists", Way::Own);

/// What a host gets that puts `Addresses` in the Rust's place.
fn swap(usual: &[states::Measured], special: &[states::Measured], rounds: usize) -> ExitCode {
    if usual.is_empty() && special.is_empty() {
        eprintln!("no call has that in its name\n{USAGE}");
        return ExitCode::FAILURE;
    }
    let parts = [
        ("Every call", usual, &states::SIZES[..]),
        ("The longest jobs", special, &[]),
    ];
    for (what, all, sizes) in parts {
        if all.is_empty() {
            continue;
        }
        println!("\n{what}:\n");
        println!(
            "| call | the Rust, own lists | `Addresses` | ratio | the library's part | of it the check |"
        );
        println!("|---|---:|---:|---:|---:|---:|");
        let mut measured = Vec::new();
        for one in all {
            let ways = [Way::Own, Way::Addresses, Way::Words, Way::Check];
            let times = measure(one, rounds, &ways);
            let stateless = matches!(one.call, Call::Left { .. });
            println!(
                "| {} | {} | {} | {} | {} | {} |",
                one.name,
                time(times.of(Way::Own)),
                time(times.of(Way::Addresses)),
                ratio(times.of(Way::Addresses), times.of(Way::Own)),
                time(times.of(Way::Words)),
                if stateless {
                    "-".to_string()
                } else {
                    time(times.of(Way::Check))
                }
            );
            measured.push((one.name.clone(), times));
        }
        println!();
        summary("`Addresses`", &measured, Way::Addresses, OWN);
        // a size stands at its names' end
        for [a, r, t] in sizes {
            let size = format!(", {a}/{r}/{t}");
            let of_size: Vec<_> = measured
                .iter()
                .filter(|(name, _)| name.ends_with(&size))
                .collect();
            if !of_size.is_empty() {
                let what = format!("`Addresses` at {a}/{r}/{t}");
                summary(&what, of_size, Way::Addresses, OWN);
            }
        }
    }
    ExitCode::SUCCESS
}

/// Compares it with the model on generated cases, and gives their number.
fn same_job_is_right() -> usize {
    let mut cases = Cases::new(1, USUAL);
    let mut compared = 0;
    while compared < COMPARED {
        let (_, case) = cases.next_case();
        // the Rust's own allowance is 20 ms
        if matches!(case.call, Call::Expire { allowance, .. } if allowance != FUZZ) {
            continue;
        }
        let (mut state, mut buffer) = (case.state.clone(), case.buffer.clone());
        let expected = model(&case.call, &mut state, &mut buffer);
        let (mut same_state, mut same_buffer) = (case.state.clone(), case.buffer.clone());
        let found = if compared % 2 == 0 {
            same_job::call::<true>(&case.call, &mut same_state, &mut same_buffer)
        } else {
            same_job::call::<false>(&case.call, &mut same_state, &mut same_buffer)
        };
        // 203 is not exact where a priority is changed
        if matches!(case.call, Call::AddV4 { .. }) && expected.number == NO_SPACE {
            continue;
        }
        assert_eq!(found, expected, "{}", case.call);
        assert!(
            same_state == state && same_buffer == buffer,
            "{}: other words",
            case.call
        );
        compared += 1;
    }
    compared
}

/// Measures and prints one table.
fn table(all: &[states::Measured], rounds: usize) -> Vec<(String, Times)> {
    println!(
        "\n| call | the Rust, own lists | on lent words, plain | tuned | on lent bytes, plain \
         | the port, words | bytes | `Addresses` | words / plain | words / tuned \
         | bytes / plain | bytes / plain on bytes | `Addresses` / own lists |"
    );
    println!("|---|---:|---:|---:|---:|---:|---:|---:|---:|---:|---:|---:|---:|");
    let mut measured = Vec::new();
    for one in all {
        let times = measure(one, rounds, &Way::ALL[..7]);
        let [own, plain, tuned, plain_bytes] =
            [Way::Own, Way::Plain, Way::Tuned, Way::PlainBytes].map(|way| times.of(way));
        let [words, bytes, addresses] =
            [Way::Words, Way::Bytes, Way::Addresses].map(|way| times.of(way));
        println!(
            "| {} | {} | {} | {} | {} | {} | {} | {} | {} | {} | {} | {} | {} |",
            one.name,
            time(own),
            time(plain),
            time(tuned),
            time(plain_bytes),
            time(words),
            time(bytes),
            time(addresses),
            ratio(words, plain),
            ratio(words, tuned),
            ratio(bytes, plain),
            ratio(bytes, plain_bytes),
            ratio(addresses, own)
        );
        measured.push((one.name.clone(), times));
    }
    measured
}

fn time(nanoseconds: f64) -> String {
    if nanoseconds < 1_000.0 {
        format!("{nanoseconds:.0} ns")
    } else {
        format!("{:.2} µs", nanoseconds / 1_000.0)
    }
}

fn ratio(port: f64, rust: f64) -> String {
    format!("{:.2}", port / rust)
}

/// The geometric mean and the greatest ratio, against one way of the Rust's.
fn summary<'a>(
    what: &str,
    all: impl IntoIterator<Item = &'a (String, Times)>,
    way: Way,
    (against, rust): (&str, Way),
) {
    let ratios: Vec<(&str, f64)> = all
        .into_iter()
        .map(|(name, t)| (name.as_str(), t.of(way) / t.of(rust)))
        .collect();
    let most = ratios.iter().max_by(|a, b| a.1.total_cmp(&b.1));
    let most = most.expect("a row at least");
    let logarithms = ratios.iter().map(|(_, r)| r.ln()).sum::<f64>();
    println!(
        "- {what}, against {against}, {} rows: geometric mean {:.2}, greatest {:.2} ({})",
        ratios.len(),
        (logarithms / ratios.len() as f64).exp(),
        most.1,
        most.0
    );
}

fn check_alone(rounds: usize) {
    println!("| state | the port | the Rust, plain | tuned | all words or-ed |");
    println!("|---|---:|---:|---:|---:|");
    for size in [[0, 0, 0], [62, 250, 30], [64, 256, 32]] {
        let state = states::of_size(size);
        let port = || {
            black_box(words::check(black_box(&state)));
        };
        let plain = || {
            black_box(same_job::well_formed::<false>(black_box(&state)));
        };
        let tuned = || {
            black_box(same_job::well_formed::<true>(black_box(&state)));
        };
        let scan = || {
            black_box(same_job::or_of(black_box(&state)));
        };
        let ways: [&dyn Fn(); 4] = [&port, &plain, &tuned, &scan];
        let calls = ways.map(enough);
        let mut times: [Vec<f64>; 4] = Default::default();
        for _ in 0..rounds {
            for (i, way) in ways.iter().enumerate() {
                times[i].push(section(calls[i], way));
            }
        }
        let [port, plain, tuned, scan] = times.map(|t| time(median(t)));
        let [a, r, t] = size;
        println!("| {a}/{r}/{t} | {port} | {plain} | {tuned} | {scan} |");
    }
}
