//! Holds the linked library against the Rust: on bytes, on words, and
//! through `Addresses`. The exit status is 0 only if nothing was found.
use oracle::call::{KINDS, NAMES};
use oracle::campaign::{self, Campaign, Kinds};
use oracle::port::Bytes;
use port::comparison::Comparison;
use port::events::Written;
use port::library::{OnBytes, OnWords};
use port::many::{self, Together};
use port::masks::WithMask;
use port::messages::{Boundary, Read};
use port::parts::{self, InParts};
use port::recordings::{self, Recorded};
use port::typed::Typed;
use std::process::ExitCode;
use std::time::{Duration, Instant, SystemTime};

const USAGE: &str = "usage: port [OPTION VALUE]..
  --seconds S        generated cases and pairs for S seconds (60 if nothing
                     is said), in place of counts
  --cases N          N generated cases, and
  --pairs N          N pairs of runs, and
  --messages N       N messages, read and performed, N requests for an
                     address with a netmask, N events, written, N steps of
                     runs in which listings are taken in parts, N recordings
                     of events, rebuilt or held together, and N lists of
                     destinations, looked up together
  --seed N           where they come from; a fresh seed if it isn't given
  --calls A,B,..     only these calls (then no pairs); read: messages; mask:
                     requests with a netmask, and all 2^32 netmasks
                     (with counts only those beside a good one); write:
                     events; part: listings taken in parts; rebuild:
                     recordings of events; many: destinations together
  --boundary WHICH   bytes, words or addresses; all if it isn't given";

/// What comes between two looks at the clock.
const BATCH: usize = 500;
const PAIRS_PER_BATCH: usize = 3;
/// What is compared beside the calls: messages read, requests with a netmask,
/// events written, listings taken in parts, recordings of events, destinations
/// looked up together.
const OTHERS: [&str; 6] = ["read", "mask", "write", "part", "rebuild", "many"];

struct Options {
    seconds: u64,
    counts: Option<[usize; 3]>,
    seed: u64,
    calls: Kinds,
    others: [bool; OTHERS.len()],
    /// One of [`BOUNDARIES`], or all.
    boundary: Option<String>,
}

const BOUNDARIES: [&str; 3] = ["bytes", "words", "addresses"];

fn main() -> ExitCode {
    let arguments: Vec<String> = std::env::args().skip(1).collect();
    match options(&arguments).and_then(|options| run(&options)) {
        Ok(()) => ExitCode::SUCCESS,
        Err(message) => {
            println!("{message}");
            ExitCode::FAILURE
        }
    }
}

fn options(arguments: &[String]) -> Result<Options, String> {
    let mut options = Options {
        seconds: 60,
        counts: None,
        seed: fresh(),
        calls: [true; KINDS],
        others: [true; OTHERS.len()],
        boundary: None,
    };
    if !arguments.len().is_multiple_of(2) {
        return Err(USAGE.to_string());
    }
    for pair in arguments.chunks_exact(2) {
        let value = &pair[1];
        let [cases, pairs, messages] = options.counts.unwrap_or_default();
        match pair[0].as_str() {
            "--seconds" => options.seconds = number(value)?,
            "--cases" => options.counts = Some([number(value)?, pairs, messages]),
            "--pairs" => options.counts = Some([cases, number(value)?, messages]),
            "--messages" => options.counts = Some([cases, pairs, number(value)?]),
            "--seed" => options.seed = number(value)?,
            "--calls" => {
                options.calls = kinds(value)?;
                options.others = OTHERS.map(|other| value.split(',').any(|name| name == other));
            }
            "--boundary" if BOUNDARIES.contains(&value.as_str()) => {
                options.boundary = Some(value.clone());
            }
            _ => return Err(USAGE.to_string()),
        }
    }
    Ok(options)
}

fn number<T: std::str::FromStr>(text: &str) -> Result<T, String> {
    text.parse()
        .map_err(|_| format!("not a number: {text}\n{USAGE}"))
}

fn kinds(text: &str) -> Result<Kinds, String> {
    let mut kinds = [false; KINDS];
    for name in text.split(',').filter(|name| !OTHERS.contains(name)) {
        let kind = NAMES.iter().position(|known| *known == name);
        kinds[kind.ok_or_else(|| format!("no such call: {name}\n{USAGE}"))?] = true;
    }
    Ok(kinds)
}

/// A seed that another run will not have.
fn fresh() -> u64 {
    let now = SystemTime::now().duration_since(SystemTime::UNIX_EPOCH);
    now.map_or(1, |d| d.as_nanos() as u64)
}

fn run(options: &Options) -> Result<(), String> {
    println!("interface.rs: sha256 {}", reference::INTERFACE_SHA256);
    println!("library: {}", naskrefim::LIBRARY);
    println!("seed {}", options.seed);
    println!("compared: {}", compared(options));
    port::constants::compare()?;
    let mut ports = boundaries(options);
    let mut campaign = Campaign::new(options.seed, options.calls);
    for port in &mut ports {
        campaign = campaign.with(&mut **port);
    }
    let mut others = others(options);
    let begin = Instant::now();
    let found = compare(&mut campaign, &mut others, options);
    say(&campaign.summary, begin.elapsed(), options.seed);
    for other in &others {
        println!("{}", other.said());
    }
    found.inspect(|()| println!("port: nothing found"))
}

/// Those that are asked for.
fn boundaries(options: &Options) -> Vec<Box<dyn Boundary>> {
    let all: [Box<dyn Boundary>; 3] = [
        Box::new(OnBytes::default()),
        Box::new(Bytes(OnWords::default())),
        Box::new(Bytes(Typed::default())),
    ];
    asked(options, all)
}

/// Of what there is for each boundary, that of those asked for.
fn asked<T>(options: &Options, all: [T; 3]) -> Vec<T> {
    let named = BOUNDARIES.iter().zip(all);
    let asked =
        named.filter(|(name, _)| options.boundary.as_ref().is_none_or(|asked| asked == *name));
    asked.map(|(_, boundary)| boundary).collect()
}

/// Which calls, and on what.
fn compared(options: &Options) -> String {
    let on = options.boundary.clone().unwrap_or(BOUNDARIES.join(", "));
    if options.calls == [true; KINDS] {
        return format!("all calls, on {on}");
    }
    let asked = NAMES.iter().zip(options.calls).filter(|(_, asked)| *asked);
    let mut names: Vec<&str> = asked.map(|(name, _)| *name).collect();
    let others = OTHERS.into_iter().zip(options.others);
    names.extend(others.filter(|(_, asked)| *asked).map(|(name, _)| name));
    format!("only {}, on {on}, and no pairs of runs", names.join(", "))
}

/// Those of [`OTHERS`] that are asked for.
fn others(options: &Options) -> Vec<Box<dyn Comparison>> {
    let seed = options.seed;
    let lent = || boundaries(options);
    let all: [Box<dyn Comparison>; OTHERS.len()] = [
        Box::new(Read::new(lent(), seed)),
        Box::new(WithMask::new(seed)),
        Box::new(Written::new(lent(), seed)),
        Box::new(InParts::new(lent(), asked(options, parts::listers()), seed)),
        Box::new(Recorded::new(
            asked(options, recordings::rebuilders()),
            seed,
        )),
        Box::new(Together::new(asked(options, many::lookers()), seed)),
    ];
    let asked = all.into_iter().zip(options.others);
    asked
        .filter_map(|(other, asked)| asked.then_some(other))
        .collect()
}

fn compare(
    campaign: &mut Campaign,
    others: &mut [Box<dyn Comparison>],
    options: &Options,
) -> Result<(), String> {
    let seeded = |what| format!("{what}\n(seed {})", options.seed);
    campaign.by_hand()?;
    for other in &mut *others {
        other.swept(options.counts.is_none())?;
    }
    let mut part = |[cases, pairs, count]: [usize; 3]| {
        campaign.cases(cases)?;
        campaign.pairs(pairs)?;
        for other in &mut *others {
            (0..count).try_for_each(|_| other.next()).map_err(seeded)?;
        }
        Ok::<(), String>(())
    };
    if let Some(counts) = options.counts {
        return part(counts);
    }
    // all masks take as long as they take
    let begin = Instant::now();
    while begin.elapsed() < Duration::from_secs(options.seconds) {
        part([BATCH, PAIRS_PER_BATCH, BATCH])?;
    }
    // a few cases need not reach all
    others.iter().try_for_each(|other| other.reached())
}

fn say(summary: &campaign::Summary, time: Duration, seed: u64) {
    for name in NAMES {
        let answers = summary
            .answers
            .iter()
            .filter(|((call, _), _)| *call == name);
        let counts: Vec<(u32, usize)> = answers.map(|((_, n), k)| (*n, *k)).collect();
        let text: Vec<String> = counts.iter().map(|(n, k)| format!("{n}: {k}")).collect();
        let all: usize = counts.iter().map(|(_, k)| k).sum();
        if all > 0 {
            println!("{name:13} {all:8} cases ({})", text.join(", "));
        }
    }
    println!(
        "{} calls by hand, {} cases; {} pairs of runs, counted for each boundary ({} more left \
         out for want of space); {} calls of the library in {:.1} s, {:.0} a second; seed {seed}",
        summary.by_hand,
        summary.cases,
        summary.pairs,
        summary.no_space,
        summary.calls,
        time.as_secs_f64(),
        summary.calls as f64 / time.as_secs_f64().max(1e-9)
    );
}
