//! Recordings of events (document 02, Paper 9) by hand, the paper's sentence
//! on runs, what the generator reaches, and planted faults.
pub mod list;
mod reach;

use crate::call::{Buffer, Call, Reply};
use crate::checks::{self, Checks};
use crate::compare::{Case, Cut};
use crate::event::event;
use crate::faults::recordings::{FAULTS, RecordingFault};
use crate::faults::{all_found, recordings as faults};
use crate::generate::cases::{Cases, USUAL};
use crate::generate::recordings::Recordings;
use crate::generate::runs::Run;
use crate::model::{model, outcome, passes};
use crate::port::{Bytes, bytes};
use crate::recording::{IP_DISABLED, LINK_DOWN, Model, Rebuilder, against, mark, rebuild, step};
use crate::rng::Rng;
use crate::script::{CREATE, Route, Script, address, any, route, written};
use crate::words::{EVENT_ROWS, LISTING_BUFFER, decode};
use reference::{Answer, EventRow, Lists, RouteRow};

/// How many recordings are made, how many runs the sentence is held on, and
/// how many of either a planted fault may go unfound.
pub const RECORDINGS: usize = 20_000;
const RUNS: usize = 2_000;

/// Runs the checks by hand, the sentence, `count` generated recordings and as
/// many calls, and the faults.
pub fn run(count: usize, seed: u64) -> bool {
    let parts = [
        checks::run("recordings by hand", by_hand),
        silent(count, seed),
        sentence(seed),
        reach::run(count, seed),
        selftest(count, seed),
    ];
    parts.into_iter().all(|passed| passed)
}

/// The event rows that a call wrote.
fn told(call: &Call, reply: &Reply, buffer: &[u32]) -> Vec<EventRow> {
    let (rows, _) = buffer[..written(call, reply)].as_chunks();
    rows.to_vec()
}

/// "For every run from empty the rebuilt rows equal the table's, in order":
/// behind every call of a run.
pub fn of_run(
    calls: &[Call],
    rebuilt: fn(&mut Vec<RouteRow>, &EventRow) -> Result<(), u32>,
) -> Result<usize, String> {
    let mut run = Run::default();
    let (mut rows, mut events) = (Vec::new(), 0);
    for (i, call) in calls.iter().enumerate() {
        for event in run.make(call) {
            events += 1;
            let event = EventRow::try_from(event).expect("a whole event");
            rebuilt(&mut rows, &event)
                .map_err(|number| format!("call {i}, {call}: {number} for {event:?}"))?;
        }
        if rows != decode(&run.state).routes {
            return Err(format!("call {i}, {call}: other rows than the table's"));
        }
    }
    Ok(events)
}

/// The calls of a run from empty.
fn calls(rng: &mut Rng) -> Vec<Call> {
    let mut run = Run::default();
    let mut calls = Vec::new();
    let most = rng.pick(&[10, 40, 120]);
    for _ in 0..1 + rng.below(most) {
        let code = rng.pick(&[1, 1, 2, 3, 3, 3, 4, 4, 4, 5, 5, 6, 6, 6, 6, 6, 7, 7]);
        let call = run.draw(rng, code);
        run.make(&call);
        calls.push(call);
    }
    calls
}

/// The sentence on runs; and each fault that a run shows breaks it.
fn sentence(seed: u64) -> bool {
    let mut rng = Rng::new(seed ^ 0x99);
    let mut events = 0;
    for i in 0..RUNS {
        match of_run(&calls(&mut rng), step) {
            Ok(count) => events += count,
            Err(what) => {
                println!("FAILED  run {i} of seed {seed}: {what}");
                return false;
            }
        }
    }
    let mut missed = 0;
    let breaking: Vec<&RecordingFault> = FAULTS.iter().filter(|f| f.breaks_sentence).collect();
    for fault in &breaking {
        let mut rng = Rng::new(seed ^ 0x99);
        let step = fault.step().expect("it goes wrong in an event");
        let found = (1..=RUNS).find_map(|i| Some((i, of_run(&calls(&mut rng), step).err()?)));
        match found {
            Some((i, what)) => {
                let what: String = what.chars().take(80).collect();
                println!(
                    "found   {} (by the paper's sentence, run {i}: {what})",
                    fault.name
                );
            }
            None => {
                missed += 1;
                println!("MISSED  {} in {RUNS} runs", fault.name);
            }
        }
    }
    println!(
        "recordings of runs: {RUNS} runs from empty, {events} events, the rebuilt rows the table's \
         behind every call; {} of {} faults break that",
        breaking.len() - missed,
        breaking.len()
    );
    missed == 0
}

/// On `count` generated cases, of all well-formed states: what a call tells
/// makes the rows before it the rows behind it; the Rust tells the same but
/// for events 5 and 6; event 6 stands last; and the Rust drops no row in
/// silence but by `down` and with the last address, so that the deletions
/// which the paper has the port add are nowhere due.
fn silent(count: usize, seed: u64) -> bool {
    let mut cases = Cases::new(seed, USUAL);
    let (mut held, mut failed, mut most) = (0, 0, 0);
    let mut marks = [0; 2];
    for _ in 0..count {
        let (_, case) = cases.next_case();
        if case.call.buffer() != Buffer::Events || case.cut != Cut::default() {
            continue;
        }
        match tells(&case) {
            Ok(None) => {}
            Ok(Some(events)) => {
                held += 1;
                most = most.max(events.len());
                for (count, kind) in marks.iter_mut().zip([LINK_DOWN, IP_DISABLED]) {
                    *count += events.iter().filter(|e| e[0] == kind).count();
                }
            }
            Err(what) => {
                failed += 1;
                println!("FAILED  {}: {what}", case.call);
            }
        }
    }
    println!(
        "events: {held} calls tell what they do to the rows, {failed} don't; {} with event 5, {} with \
         event 6; {most} event rows at most; no row goes in silence but by these two",
        marks[0], marks[1]
    );
    failed == 0 && marks[0] > 0 && marks[1] > 0 && most <= EVENT_ROWS
}

/// The events of a changing call that isn't refused.
fn tells(case: &Case) -> Result<Option<Vec<EventRow>>, String> {
    let Ok(outcome) = outcome(&case.call, &case.state, case.buffer.len()) else {
        return Ok(None);
    };
    let Answer::Events(rust) = &outcome.answer else {
        return Ok(None);
    };
    if passes(outcome.peaks) {
        return Ok(None);
    }
    let (mut state, mut buffer) = (case.state.clone(), case.buffer.clone());
    let reply = model(&case.call, &mut state, &mut buffer);
    let events = told(&case.call, &reply, &buffer);
    // "The Rust is compared with events 5 and 6 and these added deletions removed."
    let marks = |e: &EventRow| matches!(e[0], LINK_DOWN | IP_DISABLED);
    let without: Vec<EventRow> = events.iter().filter(|e| !marks(e)).copied().collect();
    if without != *rust {
        return Err("other events than the Rust's".to_string());
    }
    if events.iter().rev().skip(1).any(marks) {
        return Err("an event behind event 5 or 6".to_string());
    }
    let before = decode(&case.state);
    if let Some(row) = dropped(&before, &outcome.lists, rust, &case.call) {
        return Err(format!(
            "a row goes in silence: an added deletion is due: {row:?}"
        ));
    }
    let mut rows = before.routes;
    for event in &events {
        step(&mut rows, event).map_err(|number| format!("{number} for {event:?}"))?;
    }
    match rows == decode(&state).routes {
        true => Ok(Some(events)),
        false => Err("other rows than the table's".to_string()),
    }
}

/// A row that went without an event, and neither by `down` nor with the last
/// address.
fn dropped(before: &Lists, after: &Lists, rust: &[EventRow], call: &Call) -> Option<RouteRow> {
    let last = !before.addresses.is_empty() && after.addresses.is_empty();
    let down = matches!(call, Call::Down);
    let told = |row: &RouteRow| {
        let of = |e: &EventRow| match e[0] {
            4 => e[2..] == *row,
            // one that takes its place
            3 => e[1] & 0x100 != 0 && e[2..7] == row[..5],
            _ => false,
        };
        rust.iter().any(of)
    };
    let accounted =
        |row: &RouteRow| told(row) || (row[12] == 1 && (last || (down && row[7] != 254)));
    let gone = before
        .routes
        .iter()
        .filter(|row| !after.routes.contains(row));
    gone.copied().find(|row| !accounted(row))
}

/// Every fault must be found within `count` recordings.
fn selftest(count: usize, seed: u64) -> bool {
    let cases = || {
        let mut recordings = Recordings::new(seed);
        std::iter::repeat_with(move || recordings.next_case())
    };
    let one = |fault: &faults::RecordingFault, case: &_| against(&mut Bytes(*fault), case);
    all_found("recordings", count, FAULTS, |fault| fault.name, cases, one)
}

/// The events of a script, one call after the other.
#[derive(Default)]
struct Recorded {
    script: Script,
    events: Vec<EventRow>,
}

impl Recorded {
    fn keep(&mut self, make: impl FnOnce(&mut Script) -> crate::script::Told) -> Vec<String> {
        let told = make(&mut self.script);
        self.events.extend(told.written.as_chunks().0);
        told.text
    }
    /// Whether they rebuild the table's rows, and how many.
    fn rebuilt(&self) -> (bool, usize) {
        let rows = decode(&self.script.state).routes;
        (rebuild(&self.events).as_ref() == Ok(&rows), rows.len())
    }
}

fn by_hand(checks: &mut Checks) {
    runs_by_hand(checks);
    rules_by_hand(checks);
    two_by_hand(checks);
}

fn runs_by_hand(checks: &mut Checks) {
    let mut r = Recorded::default();
    r.keep(|s| s.up(0));
    checks.same("up", r.rebuilt(), (true, 3));
    let said = r.keep(|s| s.add(address("10.1.0.5/24").up()));
    checks.same("an address", (said.len(), r.rebuilt()), (4, (true, 6)));
    let new = route("10.2.0.0/24").up();
    r.keep(|s| s.add_route(new));
    let with = |request, scope| Route {
        request,
        scope,
        ..new
    };
    r.keep(|s| s.add_route(with(CREATE | 0x800, 200)));
    r.keep(|s| s.add_route(with(CREATE, 210)));
    checks.same("before and behind", r.rebuilt(), (true, 9));
    r.keep(|s| s.add_route(with(CREATE | 0x100, 220)));
    checks.same("the first replaced", r.rebuilt(), (true, 9));
    let reject = route("10.3.0.0/16").rejecting(6);
    r.keep(|s| s.add_route(reject));
    let said = r.keep(|s| s.call(Call::Down));
    checks.same(
        "down tells event 5",
        said,
        vec!["the device down".to_string()],
    );
    checks.same("host scope and no device stay", r.rebuilt(), (true, 5));
    let said = r.keep(|s| s.call(Call::Down));
    checks.same(
        "an idle down too",
        said,
        vec!["the device down".to_string()],
    );
    r.keep(|s| s.up(1));
    r.keep(|s| s.add_route(new));
    r.keep(|s| s.del("10.1.0.5"));
    r.keep(|s| s.add_route(any("10.9.0.0/16")));
    let said = r.keep(|s| s.del("127.0.0.1"));
    checks.same(
        "the last address tells event 6, last",
        (said.len(), said.last().cloned()),
        (5, Some("the last address gone".to_string())),
    );
    checks.same("only the blackhole stays", r.rebuilt(), (true, 1));
    let said = r.keep(|s| s.del("127.0.0.1")).len();
    checks.same(
        "a refusal tells nothing",
        (said, r.rebuilt()),
        (0, (true, 1)),
    );
}

/// A row of 10.2.0.0/24 that differs in its last metric.
fn row(metric: u32) -> RouteRow {
    let mut row = [0; 32];
    row[..3].copy_from_slice(&[254, 0x0a02_0000, 24]);
    row[5..8].copy_from_slice(&[1, 3, 253]);
    row[12] = 1;
    row[31] = metric;
    row
}

fn of(kind: u32, flags: u32, row: &[u32]) -> EventRow {
    event(kind, flags, row).try_into().expect("a whole event")
}

/// The last metrics of what is rebuilt, or the number.
fn metrics(events: &[EventRow]) -> Result<Vec<u32>, u32> {
    Ok(rebuild(events)?.iter().map(|row| row[31]).collect())
}

fn rules_by_hand(checks: &mut Checks) {
    let add = |flags, metric| of(3, flags, &row(metric));
    checks.same("no events", metrics(&[]), Ok(vec![]));
    let three = [add(0xc00, 1), add(0xc00, 2), add(0x400, 3)];
    checks.same("behind, behind, before", metrics(&three), Ok(vec![3, 1, 2]));
    let with = |event| metrics(&[&three[..], &[event]].concat());
    checks.same(
        "0x100 replaces the first",
        with(add(0x100, 9)),
        Ok(vec![9, 1, 2]),
    );
    checks.same("0x900 too", with(add(0x900, 9)), Ok(vec![9, 1, 2]));
    checks.same("a row there added", with(add(0x800, 1)), Err(209));
    checks.same("replaced by a row there", with(add(0x100, 3)), Err(209));
    checks.same("replaced by one behind it", with(add(0x100, 2)), Err(209));
    let mut other = row(1);
    other[4] = 7;
    checks.same("no alike row", with(of(3, 0x100, &other)), Err(209));
    checks.same(
        "one of another priority",
        with(of(3, 0, &other)),
        Ok(vec![3, 1, 2, 1]),
    );
    checks.same("deleted", with(of(4, 0, &row(1))), Ok(vec![3, 2]));
    checks.same("not there", with(of(4, 0, &row(7))), Err(209));
    checks.same("flags of a deletion", with(of(4, 1, &row(1))), Err(209));
    checks.same("flags 65,535", with(add(0xfeff, 9)), Ok(vec![3, 1, 2, 9]));
    checks.same("flags 65,536", with(add(0x1_0000, 9)), Err(209));
    checks.same("down", with(mark(5)), Ok(vec![]));
    let mut host = row(8);
    host[7] = 254;
    let kept = |event| metrics(&[of(3, 0, &host), event]);
    checks.same("scope 254 stays", kept(mark(5)), Ok(vec![8]));
    checks.same("but not event 6", kept(mark(6)), Ok(vec![]));
    host[5..8].copy_from_slice(&[6, 3, 253]);
    host[12] = 0;
    let kept = |event| metrics(&[of(3, 0, &host), event]);
    checks.same("no device stays", kept(mark(5)), Ok(vec![8]));
    checks.same("of event 6 too", kept(mark(6)), Ok(vec![8]));
    for kind in [5, 6] {
        for at in [1, 2, 33] {
            let mut event = mark(kind);
            event[at] = 1;
            let name = format!("word {at} of event {kind}");
            checks.same(&name, metrics(&[event]), Err(209));
        }
    }
    let own = [0; 20];
    checks.same(
        "an address",
        metrics(&[of(1, 0, &own), of(2, 0, &own)]),
        Ok(vec![]),
    );
    checks.same("with flags", metrics(&[of(2, 1, &own)]), Err(209));
    let mut longer = [0; 21];
    longer[20] = 1;
    checks.same("a word behind it", metrics(&[of(1, 0, &longer)]), Err(209));
    for kind in [0, 7, u32::MAX] {
        let name = format!("kind {kind}");
        checks.same(&name, metrics(&[of(kind, 1 << 16, &row(1))]), Err(208));
    }
    let (unknown, unfit) = (mark(7), of(2, 1, &own));
    checks.same("208 first", metrics(&[unknown, unfit]), Err(208));
    checks.same("209 first", metrics(&[unfit, unknown]), Err(209));
    let many: Vec<EventRow> = (0..257).map(|metric| add(0xc00, metric)).collect();
    checks.same("256 rows", metrics(&many[..256]).map(|m| m.len()), Ok(256));
    checks.same("257 rows", metrics(&many), Err(209));
    let replaced = [&many[..256], &[add(0x100, 999)]].concat();
    let first = metrics(&replaced).map(|m| (m[0], m.len()));
    checks.same("one replaced at 256", first, Ok((999, 256)));
}

fn two_by_hand(checks: &mut Checks) {
    let add = |flags, metric| of(3, flags, &row(metric));
    let same = |first: &[EventRow], second: &[EventRow]| {
        Model.same(first.as_flattened(), second.as_flattened())
    };
    let one = [add(0x400, 1), add(0xc00, 2)];
    let other = [add(0x400, 2), add(0x400, 1)];
    checks.same("two ways", same(&one, &other), Reply::value(1));
    let swapped = [add(0x400, 1), add(0x400, 2)];
    checks.same("swapped", same(&one, &swapped), Reply::value(0));
    checks.same("one more", same(&one, &one[..1]), Reply::value(0));
    checks.same("none", same(&[mark(6)], &[]), Reply::value(1));
    let (unknown, unfit) = ([mark(9)], [of(4, 0, &row(1))]);
    checks.same(
        "the first decides",
        same(&unfit, &unknown),
        Reply::refused(209),
    );
    checks.same(
        "and else the second",
        same(&one, &unknown),
        Reply::refused(208),
    );
    let unknown = unknown.as_flattened();
    checks.same(
        "200 of the second",
        Model.same(unknown, &[0; 33]),
        Reply::refused(200),
    );
    checks.same(
        "200 of the first",
        Model.same(&[0; 35], unknown),
        Reply::refused(200),
    );
    let mut rows = vec![7; LISTING_BUFFER];
    checks.same(
        "35 words",
        Model.rebuild(&[0; 35], &mut rows),
        Reply::refused(200),
    );
    checks.same(
        "short rows",
        Model.rebuild(unknown, &mut rows[1..]),
        Reply::refused(200),
    );
    checks.same("are left", rows.iter().all(|word| *word == 7), true);
    let whole = bytes(one.as_flattened());
    let mut rows = vec![7; 4 * LISTING_BUFFER];
    let on_bytes = |recording: &[u8], rows: &mut [u8]| Bytes(Model).rebuild(recording, rows);
    checks.same("on bytes", on_bytes(&whole, &mut rows), Reply::value(2));
    checks.same(
        "behind them",
        rows[256..].iter().all(|byte| *byte == 7),
        true,
    );
    let cut = on_bytes(&whole[..whole.len() - 1], &mut rows);
    checks.same("but for a byte", cut, Reply::refused(200));
}
