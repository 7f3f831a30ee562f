//! Random cases as JSON lines, for a script that turns them into
//! equations. host/README.md describes the form.
use crate::call::{Call, Reply};
use crate::compare::Case;
use crate::event::{Given, Model, WordWriter as _};
use crate::generate::cases::{Cases, Weights};
use crate::generate::events::Events;
use crate::generate::many::Manies;
use crate::generate::messages::{MessageCase, Messages};
use crate::generate::parts::{Runs, Step};
use crate::generate::recordings::Recordings;
use crate::many::{self, ANSWER_WORDS, Looker, ManyCase};
use crate::message::read;
use crate::model::model;
use crate::part::{self, Lister, PartCase, Take};
use crate::port::{Bytes, exact, words as words_of};
use crate::recording::{self, Beside, RecordingCase};
use crate::rng::Rng;
use crate::script::written;
use crate::well_formed;
use crate::words::{self, EVENT_WORDS, ROUTE_WORDS, ROW_COUNTS_AT, STATE_WORDS};
use std::fmt::Write as _;

const SMALL: Weights = [50, 26, 0, 0, 6, 6, 4];
const LARGE: Weights = [0, 0, 1, 2, 0, 0, 0];

/// Prints `count` cases; about `large` of a hundred have lists that may go
/// up to their limits.
pub fn run(count: usize, seed: u64, large: usize) {
    let mut rng = Rng::new(seed);
    let mut small_cases = Cases::new(rng.draw(), SMALL);
    let mut large_cases = Cases::new(rng.draw(), LARGE);
    let mut printed = 0;
    while printed < count {
        let (_, case) = if rng.below(100) < large {
            large_cases.next_case()
        } else {
            small_cases.next_case()
        };
        if case.cut == Default::default() {
            println!("{}", line(&case));
            printed += 1;
        }
    }
}

/// Prints `count` messages with what they are read as.
pub fn messages(count: usize, seed: u64) {
    let mut messages = Messages::new(seed);
    for _ in 0..count {
        let MessageCase { message, up, .. } = messages.next_case();
        let (number, kind, words) = match read(&message, up) {
            Ok((kind, words)) => (0, kind, words),
            Err(number) => (number, 0, Vec::new()),
        };
        println!(
            "{{\"message\":{message:?},\"up\":{up},\"expect\":{{\"number\":{number},\"value\":{kind},\
             \"second\":{},\"words\":{}}}}}",
            words.len(),
            array(&words)
        );
    }
}

/// Prints `count` events of whole words, each with the room that it is lent
/// and the message that it gives.
pub fn events(count: usize, seed: u64) {
    let mut events = Events::new(seed);
    let whole = std::iter::repeat_with(|| events.next_case());
    let whole = whole.filter(|case| case.event.len().is_multiple_of(4));
    for case in whole.take(count) {
        let (event, room) = (exact(&case.event), case.message.len());
        let mut message = case.message;
        let Reply { number, value, .. } = Model.write(&event, &mut message, case.given);
        let Given {
            sequence,
            port,
            now,
        } = case.given;
        println!(
            "{{\"event\":{},\"room\":{room},\"sequence\":{sequence},\"port\":{port},\"now\":{now},\
             \"expect\":{{\"number\":{number},\"value\":{value},\"bytes\":{:?}}}}}",
            array(&event),
            &message[..value as usize]
        );
    }
}

/// Prints `count` parts of listings with their answers, few of them of long
/// lists.
pub fn parts(count: usize, seed: u64) {
    let mut runs = Runs::new(seed);
    let (mut printed, mut long) = (0, 0);
    while printed < count {
        let Ok(Step::Part(case)) = runs.next_step() else {
            continue;
        };
        let is_long = case.state.get(1).is_some_and(|&routes| routes > LONG);
        if case.cut != Default::default() || (is_long && long * PER_LONG >= printed) {
            continue;
        }
        long += usize::from(is_long);
        printed += 1;
        println!("{}", part_line(&case));
    }
}

/// Prints `count` recordings of whole words, each rebuilt or held beside
/// another, few of them long.
pub fn recordings(count: usize, seed: u64) {
    let mut recordings = Recordings::new(seed);
    let (mut printed, mut long) = (0, 0);
    while printed < count {
        let case = recordings.next_case();
        let lengths = match &case.beside {
            Beside::Rows(_) => [case.first.len(), 0],
            Beside::Second(second) => [case.first.len(), second.len()],
        };
        let is_long = lengths.iter().any(|&n| n > 4 * EVENT_WORDS * LONG as usize);
        let whole = lengths.iter().all(|n| n.is_multiple_of(4));
        if !whole || (is_long && long * PER_LONG >= printed) {
            continue;
        }
        long += usize::from(is_long);
        printed += 1;
        println!("{}", recording_line(&case));
    }
}

/// Prints `count` lists of destinations with their answers, few of them long
/// or on long lists.
pub fn many(count: usize, seed: u64) {
    let mut cases = Manies::new(seed);
    let (mut printed, mut long) = (0, 0);
    while printed < count {
        let case = cases.next_case();
        let is_long = case.state.get(1).is_some_and(|&routes| routes > LONG)
            || case.destinations.len() > LONG as usize;
        if case.cut != Default::default() || (is_long && long * PER_LONG >= printed) {
            continue;
        }
        long += usize::from(is_long);
        printed += 1;
        println!("{}", many_line(&case));
    }
}

/// Destinations, with the rows weighed and an answer for each.
pub fn many_line(case: &ManyCase) -> String {
    let mut answers = case.answers.clone();
    let Reply { number, value, .. } =
        many::Model.many(&case.state, &case.destinations, &mut answers);
    let given = match number {
        0 => case.destinations.len(),
        _ => 0,
    };
    let given = answers.chunks(ANSWER_WORDS).take(given);
    format!(
        "{{\"many\":{},\"buffer\":{},\"state\":{},\
         \"expect\":{{\"number\":{number},\"value\":{value},\"rows\":{}}}}}",
        array(&case.destinations),
        case.answers.len(),
        state_text(&case.state),
        list(given.map(array))
    )
}

/// A recording, or two, of whole words, with the answer.
pub fn recording_line(case: &RecordingCase) -> String {
    let effect = recording::effect(&mut Bytes(recording::Model), case);
    let reply = effect.reply;
    let (beside, rows) = match &case.beside {
        Beside::Rows(rows) => {
            let written = words_of(&effect.rows);
            let given = written.chunks(ROUTE_WORDS).take(reply.value as usize);
            let given = list(given.map(array));
            (format!("\"buffer\":{}", rows.len() / 4), given)
        }
        Beside::Second(second) => (
            format!("\"second\":{}", array(&words_of(second))),
            list([].into_iter()),
        ),
    };
    format!(
        "{{\"recording\":{},{beside},\"expect\":{{\"number\":{},\"value\":{},\"rows\":{rows}}}}}",
        array(&words_of(&case.first)),
        reply.number,
        reply.value
    )
}

/// Routes or events of a long list, and of how many cases one may have so
/// many.
const LONG: u32 = 40;
const PER_LONG: usize = 20;

/// A part of a listing with its answer.
pub fn part_line(case: &PartCase) -> String {
    let (mut listing, mut cursor) = (case.listing.clone(), case.cursor.clone());
    let reply = part::Model.part(case.ask, &case.state, &mut listing, &mut cursor);
    let rows = listing.chunks(ROUTE_WORDS).take(reply.value as usize);
    let part = match case.ask.take {
        Take::Begin => "begin",
        Take::Next => "next",
    };
    format!(
        "{{\"part\":\"{part}\",\"rows\":{},\"buffer\":{},\"cursor\":{},\"state\":{},\
         \"expect\":{{\"number\":{},\"present\":{},\"value\":{},\"second\":{},\"rows\":{},\
         \"cursor\":{}}}}}",
        case.ask.rows,
        case.listing.len(),
        array(&case.cursor),
        state_text(&case.state),
        reply.number,
        reply.present,
        reply.value,
        reply.second,
        list(rows.map(array)),
        array(&cursor)
    )
}

/// One case with its answer.
pub fn line(case: &Case) -> String {
    let mut state = case.state.clone();
    let mut buffer = case.buffer.clone();
    let reply = model(&case.call, &mut state, &mut buffer);
    let rows = &buffer[..written(&case.call, &reply)];
    let stride = match case.call {
        Call::Dump4 | Call::Lookup4 { .. } | Call::Lookup4Flow { .. } => ROUTE_WORDS,
        _ => EVENT_WORDS,
    };
    let mut text = format!("{{\"call\":\"{}\",\"args\":{{", case.call.name());
    text += &arguments(&case.call);
    let _ = write!(text, "}},\"buffer\":{},\"state\":", case.buffer.len());
    text += &state_text(&case.state);
    let _ = write!(
        text,
        ",\"expect\":{{\"number\":{},\"present\":{},\"value\":{},\"second\":{},\"state\":{},\"rows\":{}}}}}",
        reply.number,
        reply.present,
        reply.value,
        reply.second,
        state_text(&state),
        list(rows.chunks_exact(stride).map(array))
    );
    text
}

fn arguments(call: &Call) -> String {
    match call {
        Call::Up { now } => format!("\"now\":{now}"),
        Call::Expire { now, allowance } => format!("\"now\":{now},\"allowance\":{allowance}"),
        Call::AddV4 { request, now } => {
            format!("\"request\":{},\"now\":{now}", array(request))
        }
        Call::DelV4 { request } | Call::AddRoute4 { request } | Call::DelRoute4 { request } => {
            format!("\"request\":{}", array(request))
        }
        Call::Down | Call::Dump4 => String::new(),
        Call::Lookup4 { ip } | Call::Local4 { ip } | Call::Source { ip } => format!("\"ip\":{ip}"),
        Call::Lookup4Flow { ip, tos, oif } => {
            format!("\"ip\":{ip},\"tos\":{tos},\"oif\":{oif}")
        }
        Call::Source4 { row, ip } => format!("\"row\":{},\"ip\":{ip}", array(row)),
        Call::Select4 {
            present,
            dst,
            scope,
        } => {
            format!("\"present\":{present},\"dst\":{dst},\"scope\":{scope}")
        }
        Call::Left { row, now } => format!("\"row\":{},\"now\":{now}", array(row)),
    }
}

/// Lists of rows for a well-formed state, else its words that aren't 0.
fn state_text(state: &[u32]) -> String {
    if state.len() == STATE_WORDS && well_formed::state(state) {
        let lists = words::decode(state);
        return format!(
            "{{\"addresses\":{},\"routes\":{},\"tables\":{},\"count\":{},\"row_counts\":{}}}",
            list(lists.addresses.iter().map(|r| array(r))),
            list(lists.routes.iter().map(|r| array(r))),
            array(&lists.tables),
            words::change_count(state),
            array(&state[ROW_COUNTS_AT..])
        );
    }
    let places = state.iter().enumerate().filter(|(_, w)| **w != 0);
    let pairs = places.map(|(i, w)| array(&[i as u32, *w]));
    format!("{{\"words\":{},\"nonzero\":{}}}", state.len(), list(pairs))
}

fn array(words: &[u32]) -> String {
    list(words.iter().map(|w| w.to_string()))
}

fn list(items: impl Iterator<Item = String>) -> String {
    format!("[{}]", items.collect::<Vec<_>>().join(","))
}
