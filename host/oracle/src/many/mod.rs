//! Destinations looked up together (document 02, Paper 10). Written from
//! the paper's words alone; a line in quotation marks is the paper's.
pub mod checks;
pub mod list;
pub mod reach;

use crate::call::Reply;
use crate::compare::{Cut, first_other, shortened};
use crate::model::{UNFIT_BUFFER, UNFIT_STATE};
use crate::port::{Bytes, exact, words as words_of, write_back};
use crate::well_formed;
use crate::words::{ROUTE_WORDS, STATE_WORDS, decode};
use reference::{Arguments, Lists, Native, Request, RouteRow, mask};
use std::fmt;

/// "Each answer takes 33 words".
pub const ANSWER_WORDS: usize = 1 + ROUTE_WORDS;
/// "Take up to 256 in rising order".
pub const MOST: usize = 256;
/// "210 more than 256, 211 not rising, in that order after 201".
pub const TOO_MANY: u32 = 210;
pub const NOT_RISING: u32 = 211;

/// The numbers of the call, in the order in which they are looked for.
pub const NUMBERS: [u32; 5] = [0, UNFIT_BUFFER, UNFIT_STATE, TOO_MANY, NOT_RISING];

/// The sets of tables: the one that is read first, and the one behind it.
pub const FIRST: [u32; 2] = [254, 255];
pub const SECOND: u32 = 253;
/// No route, as Linux's errno has it.
pub const UNREACHABLE: u32 = 101;

/// What is met as `interface4_lookup4_many`, on bytes, or as
/// `interface4w_lookup4_many`, on words.
pub trait Looker<E> {
    fn name(&self) -> String;
    fn many(&mut self, state: &[E], destinations: &[E], answers: &mut [E]) -> Reply;
}

/// One on words met through bytes: destinations that aren't whole words are
/// met by 200.
impl<W: Looker<u32>> Looker<u8> for Bytes<W> {
    fn name(&self) -> String {
        self.0.name()
    }
    fn many(&mut self, state: &[u8], destinations: &[u8], answers: &mut [u8]) -> Reply {
        if !destinations.len().is_multiple_of(4) {
            return Reply::refused(UNFIT_BUFFER);
        }
        let mut given = words_of(answers);
        let asked = words_of(destinations);
        let reply = self.0.many(&exact(state), &asked, &mut given);
        write_back(&given, answers);
        reply
    }
}

/// The model, over the Rust's `lookup4`.
#[derive(Clone, Copy)]
pub struct Model;

impl Looker<u32> for Model {
    fn name(&self) -> String {
        "the model of many destinations".to_string()
    }
    fn many(&mut self, state: &[u32], destinations: &[u32], answers: &mut [u32]) -> Reply {
        if let Err(number) = refusal(state, destinations, answers.len()) {
            return Reply::refused(number);
        }
        let lists = decode(state);
        // "give for each what `lookup4` gives, refusals included"
        let mut rust = Rust::on(&lists);
        for (answer, &ip) in answers.chunks_mut(ANSWER_WORDS).zip(destinations) {
            answer.copy_from_slice(&rust.lookup4(ip));
        }
        // "The reply carries the number of rows weighed"
        Reply::value(weighed(&lists, destinations))
    }
}

/// The unchanged Rust on its own lists.
pub struct Rust(Native);

impl Rust {
    pub fn on(lists: &Lists) -> Self {
        Self(Native::of(&[], &lists.routes, &lists.tables))
    }

    /// The same while 253 isn't listed: then it has an answer exactly if the
    /// first set has one that isn't a throw.
    pub fn first_set(lists: &Lists) -> Self {
        let tables: Vec<u32> = lists
            .tables
            .iter()
            .copied()
            .filter(|&t| t != SECOND)
            .collect();
        Self(Native::of(&[], &lists.routes, &tables))
    }

    /// "the number or 0 and the row or zeros".
    pub fn lookup4(&mut self, ip: u32) -> [u32; ANSWER_WORDS] {
        let mut answer = [0; ANSWER_WORDS];
        let told = self.0.call(&Arguments::of(&Request::Lookup4 { ip }));
        answer[0] = told.write(&mut answer[1..])[0];
        answer
    }
}

/// "the rows of 254 and 255 whose dst is not above the last destination,
/// plus, if 253 is listed, the rows of 253 whose dst is not above the last
/// destination for which the first set had none or a throw. With no
/// destinations it is 0."
pub fn weighed(lists: &Lists, destinations: &[u32]) -> u32 {
    let mut first = Rust::first_set(lists);
    let mut open = destinations.iter().rev();
    let open = open.find(|&&ip| first.lookup4(ip)[0] == UNREACHABLE);
    let mut rows = up_to(lists, &FIRST, destinations.last());
    if lists.tables.contains(&SECOND) {
        rows += up_to(lists, &[SECOND], open);
    }
    rows
}

/// The rows of these tables whose dst isn't above `last`; none if there is
/// none.
pub fn up_to(lists: &Lists, tables: &[u32], last: Option<&u32>) -> u32 {
    let Some(&last) = last else { return 0 };
    let rows = lists.routes.iter();
    rows.filter(|row| tables.contains(&row[0]) && row[1] <= last)
        .count() as u32
}

/// The row of these tables that rules over a destination, a throw too: of
/// those without a tos that cover it the longest, the first in list order.
pub fn ruling<'a>(lists: &'a Lists, tables: &[u32], ip: u32) -> Option<&'a RouteRow> {
    let covers = |row: &&RouteRow| {
        tables.contains(&row[0]) && row[3] == 0 && row[1] == ip & mask(row[2] as u8)
    };
    // of several of the greatest length the last in this turned order
    let rows = lists.routes.iter().rev().filter(covers);
    rows.max_by_key(|row| row[2])
}

/// The number that refuses the call, in their order.
pub fn refusal(state: &[u32], destinations: &[u32], answers: usize) -> Result<(), u32> {
    if state.len() != STATE_WORDS || answers < ANSWER_WORDS * destinations.len() {
        Err(UNFIT_BUFFER)
    } else if !well_formed::state(state) {
        Err(UNFIT_STATE)
    } else if destinations.len() > MOST {
        Err(TOO_MANY)
    } else if !destinations.is_sorted() {
        Err(NOT_RISING)
    } else {
        Ok(())
    }
}

/// Destinations with the words lent.
#[derive(Clone, Debug)]
pub struct ManyCase {
    pub state: Vec<u32>,
    pub destinations: Vec<u32>,
    pub answers: Vec<u32>,
    /// `lent` is cut off the destinations, `buffer` off the answers.
    pub cut: Cut,
}

impl fmt::Display for ManyCase {
    fn fmt(&self, f: &mut fmt::Formatter) -> fmt::Result {
        let Self {
            state,
            destinations,
            answers,
            ..
        } = self;
        write!(f, "lookup4_many to {} destinations", destinations.len())?;
        let words = [state, answers].map(Vec::len);
        write!(f, ", state and answers of {words:?} words")?;
        if self.cut != Cut::default() {
            write!(f, " but for the last bytes, {:?}", self.cut)?;
        }
        Ok(())
    }
}

/// What it did; state and destinations are lent for reading.
#[derive(Clone, Debug, PartialEq, Eq)]
pub struct ManyEffect {
    pub reply: Reply,
    pub answers: Vec<u8>,
}

/// The effect of the case on `looker`.
pub fn effect(looker: &mut dyn Looker<u8>, case: &ManyCase) -> ManyEffect {
    let state = shortened(&case.state, case.cut.state);
    let destinations = shortened(&case.destinations, case.cut.lent);
    let mut answers = shortened(&case.answers, case.cut.buffer);
    let reply = looker.many(&state, &destinations, &mut answers);
    ManyEffect { reply, answers }
}

/// The model's.
pub fn expected(case: &ManyCase) -> ManyEffect {
    effect(&mut Bytes(Model), case)
}

/// What of the case's effect on `looker` isn't as expected.
pub fn differs(
    looker: &mut dyn Looker<u8>,
    case: &ManyCase,
    expected: &ManyEffect,
) -> Option<String> {
    let found = effect(looker, case);
    if found.reply != expected.reply {
        let (found, expected) = (found.reply, expected.reply);
        return Some(format!("replies {found:?} in place of {expected:?}"));
    }
    first_other("answers", &found.answers, &expected.answers)
}

/// The case on `looker`, whose effect must be the one expected.
pub fn against(
    looker: &mut dyn Looker<u8>,
    case: &ManyCase,
    expected: &ManyEffect,
) -> Result<(), String> {
    match differs(looker, case, expected) {
        None => Ok(()),
        Some(what) => Err(format!("{}: {case}: {what}", looker.name())),
    }
}
