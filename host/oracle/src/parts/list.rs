//! The list of parts of listings that the proved program `part_cases`
//! replays, and what it has to print, by the model of [`crate::part`] alone.
//! host/README.md describes its format.
use super::kinds;
use crate::call::Reply;
use crate::faults::parts::{FAULTS, PartFault};
use crate::generate::parts::{Runs, Step};
use crate::listed::Source;
use crate::part::{CURSOR_WORDS, Lister, MOST, Model, PartCase, Take};
use crate::port::bytes;
use crate::vectors::check;
use crate::words::STATE_WORDS;

/// The words that the replayer holds of a state, of a listing's buffer and
/// of a cursor, and what each of the buffer's holds.
const HELD: usize = STATE_WORDS + 1;
const ROOM: usize = 8300;
const CURSOR: usize = CURSOR_WORDS + 1;
const PATTERN: u32 = 0xa5a5_a5a5;
/// A state with more words that aren't 0 stands in the list only for a part
/// of the most rows.
const SMALL: usize = 400;

pub struct Record {
    case: PartCase,
    /// The state's words, with zeros behind them.
    held: Vec<u32>,
}

impl Record {
    /// None for one that isn't whole words, or too long.
    fn new(case: PartCase) -> Option<Self> {
        let mut held = case.state.clone();
        held.resize(HELD.max(case.state.len()), 0);
        let record = Self { case, held };
        let case = &record.case;
        let cut = [case.cut.state, case.cut.lent, case.cut.buffer];
        let fits = cut == [0; 3]
            && case.state.len() <= HELD
            && case.listing.len() <= ROOM
            && case.cursor.len() <= CURSOR;
        if !fits {
            return None;
        }
        let small = record.held.iter().filter(|&&word| word != 0).count() <= SMALL;
        (small || record.answer(&mut Model).0.value == MOST).then_some(record)
    }

    /// Its words, in a list in which the state's were `before`.
    fn words(&self, before: &[u32]) -> Vec<u32> {
        let pairs = self.held.iter().zip(before).enumerate();
        let changes = pairs.filter(|(_, (now, then))| now != then);
        let changes: Vec<u32> = changes
            .flat_map(|(at, (&now, _))| [at as u32, now])
            .collect();
        let PartCase {
            ask,
            state,
            listing,
            cursor,
            ..
        } = &self.case;
        let mut all = vec![(changes.len() / 2) as u32];
        all.extend([u32::from(ask.take == Take::Begin), ask.rows]);
        all.extend([state.len(), listing.len(), cursor.len()].map(|n| n as u32));
        all.extend(cursor.iter().chain(&[0; CURSOR]).take(CURSOR));
        all.extend(changes);
        all
    }

    /// What a lister makes of it: its reply, and the line with the checks of
    /// the whole buffer and the whole cursor.
    fn answer(&self, lister: &mut dyn Lister<u32>) -> (Reply, String) {
        let (mut listing, mut cursor) = (vec![PATTERN; ROOM], self.case.cursor.clone());
        let lent = cursor.len();
        cursor.resize(CURSOR, 0);
        let PartCase {
            ask,
            state,
            listing: room,
            ..
        } = &self.case;
        let rows = &mut listing[..room.len()];
        let reply = lister.part(*ask, state, rows, &mut cursor[..lent]);
        let said = match reply.number {
            0 => format!(
                "{} rows, mark {}, end {}",
                reply.value, reply.present, reply.second
            ),
            number => number.to_string(),
        };
        let checks = [check(&listing), check(&cursor)];
        (reply, format!("{said}, checks {} {}", checks[0], checks[1]))
    }
}

/// Parts taken in runs.
pub struct Parts {
    runs: Runs,
    /// The state's words of the record before.
    before: Vec<u32>,
}

impl Source for Parts {
    const NAMES: [&'static str; 2] = ["part", "parts"];
    const MAGIC: [u8; 4] = *b"NKP1";
    const FAULTS: &'static [PartFault] = FAULTS;
    type Record = Record;
    type Fault = PartFault;

    fn new(seed: u64) -> Self {
        Self {
            runs: Runs::new(seed),
            before: vec![0; HELD],
        }
    }
    fn name(fault: &PartFault) -> &'static str {
        fault.name
    }
    fn next(&mut self) -> Option<(Record, Vec<String>)> {
        let Ok(Step::Part(case)) = self.runs.next_step() else {
            return None;
        };
        let record = Record::new(case)?;
        let (reply, _) = record.answer(&mut Model);
        let mut shown = vec![format!("{} by {:?}", reply.number, record.case.ask.take)];
        if reply.number == 0 {
            shown.extend(kinds(&record.case, reply).map(ToString::to_string));
        }
        Some((record, shown))
    }
    fn bytes(&mut self, record: &Record) -> Vec<u8> {
        let words = record.words(&self.before);
        self.before.clone_from(&record.held);
        bytes(&words)
    }
    fn right(record: &Record) -> (Reply, String) {
        record.answer(&mut Model)
    }
    fn wrong(record: &Record, mut fault: PartFault) -> (Reply, String) {
        record.answer(&mut fault)
    }
}
