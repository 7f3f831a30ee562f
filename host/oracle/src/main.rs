//! The oracle's commands. Every one ends with a line of counts; the exit
//! status is 0 only if nothing failed.
use oracle::generate::events::Events;
use oracle::generate::messages::Messages;
use oracle::generate::recordings::Recordings;
use oracle::vectors::{MODELS, Makers};
use oracle::{
    checks, coverage, document, events, examples, facts, faults, json, linux, listed, many,
    messages, netmask, pairs, parts, recordings, rfc, tables, vectors,
};
use std::process::ExitCode;
use std::time::Instant;

const USAGE: &str = "usage: oracle COMMAND
  examples               document 01's examples on the Rust
  linux                  the known differences from Linux, the Rust's side
  rfc                    the known differences from RFCs, the Rust's side
  facts                  what else the Rust does that is easily missed
  tables                 the row counts kept with the tables, by hand
  netmasks               Paper 4's rule on all 2^32 masks, and planted faults
                         in the calls with a mask
  document [N] [SEED]    sentences of document 01 on N generated cases
  generator [N] [SEED]   what N generated cases reach
  pairs [N] [SEED]       document 01's claim about two runs, on N pairs
  parts [N] [SEED]       listings taken in parts, on N steps of runs, and with
                         planted faults
  messages [N] [SEED]    the reader of messages: by hand, on N generated ones,
                         and with planted faults
  events [N] [SEED]      the writer of events: by hand, on N generated ones,
                         and with planted faults
  recordings [N] [SEED]  recordings of events: by hand, the paper's sentences
                         on runs and on N generated cases, N generated
                         recordings, and planted faults
  many [N] [SEED]        destinations looked up together: by hand, on N
                         generated cases, and with planted faults
  selftest [SEED]        planted faults, which the comparison must find
  vectors FOLDER [SEED]  writes the fixed list of answers, and damaged ones
  replay FILE            replays such a list against the model and against
                         planted faults, which it must find; each answer
                         of each call must be in it
  cases N SEED [--large PERCENT]
                         prints N random cases as JSON lines
  part-cases N SEED      prints N parts of listings as JSON lines
  message-cases N SEED   prints N random messages as JSON lines
  event-cases N SEED     prints N random events as JSON lines
  recording-cases N SEED prints N recordings as JSON lines
  many-cases N SEED      prints N lists of destinations as JSON lines
  message-list N SEED FOLDER
                         writes a list of N messages, and what is to be
                         printed of them
  event-list N SEED FOLDER
                         the same of N events
  part-list N SEED FOLDER
                         the same of N parts of listings
  recording-list N SEED FOLDER
                         the same of N recordings
  many-list N SEED FOLDER
                         the same of N lists of destinations
  all                    all of examples, linux, rfc, facts, tables,
                         netmasks, document, generator, pairs, parts,
                         messages, events, recordings, many, selftest, and a
                         list of answers replayed";

const CASES: usize = 30_000;
const PAIRS: usize = 2_000;
const SEED: u64 = 1;
const LARGE_PERCENT: usize = 3;

fn main() -> ExitCode {
    let arguments: Vec<String> = std::env::args().skip(1).collect();
    match command(&arguments) {
        Ok(true) => ExitCode::SUCCESS,
        Ok(false) => ExitCode::FAILURE,
        Err(message) => {
            eprintln!("{message}");
            ExitCode::from(2)
        }
    }
}

fn command(arguments: &[String]) -> Result<bool, String> {
    let (name, rest) = arguments.split_first().ok_or(USAGE)?;
    if !name.ends_with("cases") {
        println!("interface.rs: sha256 {}", reference::INTERFACE_SHA256);
    }
    let most = |n: usize| {
        if rest.len() > n {
            Err(format!("{name}: too many arguments\n{USAGE}"))
        } else {
            Ok(())
        }
    };
    match name.as_str() {
        "examples" => most(0).map(|()| checks::run("examples", examples::check)),
        "linux" => most(0).map(|()| checks::run("linux", linux::check)),
        "rfc" => most(0).map(|()| checks::run("rfc", rfc::check)),
        "facts" => most(0).map(|()| checks::run("facts", facts::check)),
        "tables" => most(0).map(|()| checks::run("tables", tables::check)),
        "netmasks" => most(0).map(|()| checks::run("netmasks", netmask::check)),
        "document" => {
            most(2)?;
            Ok(document::run(
                number(rest, 0, CASES)?,
                number(rest, 1, SEED)?,
            ))
        }
        "generator" => {
            most(2)?;
            Ok(coverage::run(
                number(rest, 0, CASES)?,
                number(rest, 1, SEED)?,
            ))
        }
        "pairs" => {
            most(2)?;
            Ok(pairs::run(number(rest, 0, PAIRS)?, number(rest, 1, SEED)?))
        }
        "parts" => {
            most(2)?;
            let (count, seed) = (number(rest, 0, parts::STEPS)?, number(rest, 1, SEED)?);
            Ok(parts::run(count, seed))
        }
        "messages" => {
            most(2)?;
            let (count, seed) = (number(rest, 0, CASES)?, number(rest, 1, SEED)?);
            Ok(messages::run(count, seed))
        }
        "events" => {
            most(2)?;
            let (count, seed) = (number(rest, 0, CASES)?, number(rest, 1, SEED)?);
            Ok(events::run(count, seed))
        }
        "recordings" => {
            most(2)?;
            let count = number(rest, 0, recordings::RECORDINGS)?;
            Ok(recordings::run(count, number(rest, 1, SEED)?))
        }
        "many" => {
            most(2)?;
            let (count, seed) = (
                number(rest, 0, many::checks::CASES)?,
                number(rest, 1, SEED)?,
            );
            Ok(many::checks::run(count, seed))
        }
        "selftest" => {
            most(1)?;
            Ok(faults::selftest(number(rest, 0, SEED)?))
        }
        "vectors" => {
            most(2)?;
            let path = rest.first().ok_or(USAGE)?;
            vectors::write(path, number(rest, 1, vectors::SEED)?).map(|()| true)
        }
        "replay" => {
            most(1)?;
            let path = rest.first().ok_or(USAGE)?;
            let data = std::fs::read(path).map_err(|e| format!("{path}: {e}"))?;
            replayed(&oracle::port::words(&data))
        }
        "cases" => cases(rest),
        "message-cases" | "event-cases" | "part-cases" | "recording-cases" | "many-cases" => {
            match rest {
                [_, _] => {
                    let (count, seed) = (number(rest, 0, 0)?, number(rest, 1, SEED)?);
                    match name.as_str() {
                        "message-cases" => json::messages(count, seed),
                        "event-cases" => json::events(count, seed),
                        "recording-cases" => json::recordings(count, seed),
                        "many-cases" => json::many(count, seed),
                        _ => json::parts(count, seed),
                    }
                    Ok(true)
                }
                _ => Err(USAGE.to_string()),
            }
        }
        "message-list" | "event-list" | "part-list" | "recording-list" | "many-list" => {
            match rest {
                [_, _, folder] => {
                    let (count, seed) = (number(rest, 0, 0)?, number(rest, 1, SEED)?);
                    let write = match name.as_str() {
                        "message-list" => listed::write::<Messages>,
                        "event-list" => listed::write::<Events>,
                        "recording-list" => listed::write::<Recordings>,
                        "many-list" => listed::write::<many::list::Lookups>,
                        _ => listed::write::<parts::list::Parts>,
                    };
                    write(count, seed, folder).map(|()| true)
                }
                _ => Err(USAGE.to_string()),
            }
        }
        "all" => most(0).and_then(|()| all()),
        _ => Err(USAGE.to_string()),
    }
}

fn cases(rest: &[String]) -> Result<bool, String> {
    let large = match rest {
        [_, _] => LARGE_PERCENT,
        [_, _, option, _] if option == "--large" => number(rest, 3, LARGE_PERCENT)?,
        _ => return Err(USAGE.to_string()),
    };
    json::run(number(rest, 0, 0)?, number(rest, 1, SEED)?, large);
    Ok(true)
}

fn replayed(data: &[u32]) -> Result<bool, String> {
    let records = vectors::replay(data)?;
    let mut found = 0;
    let mut missed = 0;
    let calls = faults::on_words().map(|fault| {
        let calls = fault.run;
        (fault.name, Makers { calls, ..MODELS })
    });
    let masked = faults::masks::FAULTS.iter().map(|fault| {
        let masked = fault.run;
        (fault.name, Makers { masked, ..MODELS })
    });
    for (name, faulty) in calls.chain(masked) {
        if vectors::replay_on(data, faulty).is_ok() {
            println!("MISSED  {name}");
            missed += 1;
        } else {
            found += 1;
        }
    }
    let missing = vectors::unseen(data);
    for answer in &missing {
        println!("MISSING {answer}");
    }
    println!(
        "replay: {records} records alike; {found} planted faults found, {missed} not; {} answers missing",
        missing.len()
    );
    Ok(missed == 0 && missing.is_empty())
}

type Part = dyn Fn() -> Result<bool, String>;

/// Everything, and one line of counts for each part.
fn all() -> Result<bool, String> {
    let begin = Instant::now();
    let parts: [(&str, &Part); 16] = [
        ("examples", &|| Ok(checks::run("examples", examples::check))),
        ("linux", &|| Ok(checks::run("linux", linux::check))),
        ("rfc", &|| Ok(checks::run("rfc", rfc::check))),
        ("facts", &|| Ok(checks::run("facts", facts::check))),
        ("tables", &|| Ok(checks::run("tables", tables::check))),
        ("netmasks", &|| Ok(checks::run("netmasks", netmask::check))),
        ("document", &|| Ok(document::run(CASES, SEED))),
        ("generator", &|| Ok(coverage::run(CASES, SEED))),
        ("pairs", &|| Ok(pairs::run(PAIRS, SEED))),
        ("parts", &|| Ok(parts::run(parts::STEPS, SEED))),
        ("messages", &|| Ok(messages::run(CASES, SEED))),
        ("events", &|| Ok(events::run(CASES, SEED))),
        ("recordings", &|| {
            Ok(recordings::run(recordings::RECORDINGS, SEED))
        }),
        ("many", &|| Ok(many::checks::run(many::checks::CASES, SEED))),
        ("selftest", &|| Ok(faults::selftest(SEED))),
        ("replay", &|| replayed(&vectors::vectors(vectors::SEED))),
    ];
    let mut failed = Vec::new();
    for (name, part) in parts {
        println!("== {name}");
        match part() {
            Ok(true) => {}
            Ok(false) => failed.push(name),
            Err(message) => {
                println!("{name}: {message}");
                failed.push(name);
            }
        }
    }
    let seconds = begin.elapsed().as_secs();
    let passed = parts.len() - failed.len();
    println!(
        "oracle: {passed} parts passed, {} failed, {seconds} s",
        failed.len()
    );
    if !failed.is_empty() {
        println!("failed: {}", failed.join(", "));
    }
    Ok(failed.is_empty())
}

fn number<T: std::str::FromStr>(rest: &[String], at: usize, usual: T) -> Result<T, String> {
    match rest.get(at) {
        None => Ok(usual),
        Some(text) => text
            .parse()
            .map_err(|_| format!("not a number: {text}\n{USAGE}")),
    }
}
