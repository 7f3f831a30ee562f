//! The list of destinations that the proved program `many_cases` looks up,
//! and what it has to print, by the model of [`crate::many`] alone.
//! host/README.md describes its format.
use super::reach::kinds;
use super::{ANSWER_WORDS, Looker, MOST, ManyCase, Model};
use crate::call::Reply;
use crate::faults::many::{FAULTS, ManyFault};
use crate::generate::many::Manies;
use crate::listed::Source;
use crate::port::bytes;
use crate::vectors::check;
use crate::words::STATE_WORDS;

/// The words that the replayer holds of a state, of destinations and of
/// answers, and what each of the answers' holds.
const HELD: usize = STATE_WORDS + 1;
const TO: usize = MOST + 1;
const ROOM: usize = ANSWER_WORDS * TO + 19;
const PATTERN: u32 = 0xa5a5_a5a5;
/// A state with more words that aren't 0 stands in the list only for the
/// most destinations.
const SMALL: usize = 400;
/// More destinations stand in the list only for what none before them shows.
const FEW: usize = 40;

pub struct Record {
    case: ManyCase,
    /// The state's words, with zeros behind them.
    held: Vec<u32>,
}

impl Record {
    /// None for one that isn't whole words, or too long.
    fn new(case: ManyCase) -> Option<Self> {
        let mut held = case.state.clone();
        held.resize(HELD.max(case.state.len()), 0);
        let cut = [case.cut.state, case.cut.lent, case.cut.buffer];
        let fits = cut == [0; 3]
            && case.state.len() <= HELD
            && case.destinations.len() <= TO
            && case.answers.len() <= ROOM;
        let small = held.iter().filter(|&&word| word != 0).count() <= SMALL;
        (fits && (small || case.destinations.len() == MOST)).then_some(Self { case, held })
    }

    /// Its words, in a list in which the state's were `before`.
    fn words(&self, before: &[u32]) -> Vec<u32> {
        let pairs = self.held.iter().zip(before).enumerate();
        let changes = pairs.filter(|(_, (now, then))| now != then);
        let changes: Vec<u32> = changes
            .flat_map(|(at, (&now, _))| [at as u32, now])
            .collect();
        let ManyCase {
            state,
            destinations,
            answers,
            ..
        } = &self.case;
        let mut all = vec![(changes.len() / 2) as u32];
        all.extend([state.len(), destinations.len(), answers.len()].map(|n| n as u32));
        all.extend(changes);
        all.extend(destinations);
        all
    }

    /// What a looker makes of it: its reply, and the whole buffer.
    fn effect(&self, looker: &mut dyn Looker<u32>) -> (Reply, Vec<u32>) {
        let mut answers = vec![PATTERN; ROOM];
        let ManyCase {
            state,
            destinations,
            answers: room,
            ..
        } = &self.case;
        let reply = looker.many(state, destinations, &mut answers[..room.len()]);
        (reply, answers)
    }

    /// Its reply, and the line with the check of the whole buffer.
    fn answer(&self, looker: &mut dyn Looker<u32>) -> (Reply, String) {
        let (reply, answers) = self.effect(looker);
        let said = match reply.number {
            0 => format!("{} rows", reply.value),
            number => number.to_string(),
        };
        (reply, format!("{said}, check {}", check(&answers)))
    }
}

/// Destinations, most of them rising.
pub struct Lookups {
    cases: Manies,
    /// The state's words of the record before.
    before: Vec<u32>,
}

impl Source for Lookups {
    const NAMES: [&'static str; 2] = ["many", "calls"];
    const MAGIC: [u8; 4] = *b"NKL1";
    const FAULTS: &'static [ManyFault] = FAULTS;
    type Record = Record;
    type Fault = ManyFault;

    fn new(seed: u64) -> Self {
        Self {
            cases: Manies::new(seed),
            before: vec![0; HELD],
        }
    }
    fn name(fault: &ManyFault) -> &'static str {
        fault.name
    }
    fn next(&mut self) -> Option<(Record, Vec<String>)> {
        let record = Record::new(self.cases.next_case())?;
        let (reply, answers) = record.effect(&mut Model);
        let mut shown = vec![reply.number.to_string()];
        if reply.number == 0 {
            let kinds = kinds(&record.case, &answers);
            shown.extend(kinds.iter().map(ToString::to_string));
        }
        Some((record, shown))
    }
    fn may_fill(record: &Record) -> bool {
        record.case.destinations.len() <= FEW
    }
    fn bytes(&mut self, record: &Record) -> Vec<u8> {
        let words = record.words(&self.before);
        self.before.clone_from(&record.held);
        bytes(&words)
    }
    fn right(record: &Record) -> (Reply, String) {
        record.answer(&mut Model)
    }
    fn wrong(record: &Record, mut fault: ManyFault) -> (Reply, String) {
        record.answer(&mut fault)
    }
}
