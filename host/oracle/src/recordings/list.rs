//! The list of recordings that the proved program `recording_cases` replays,
//! and what it has to print, by the model of [`crate::recording`] alone.
//! host/README.md describes its format.
use super::reach;
use crate::call::Reply;
use crate::faults::recordings::{FAULTS, RecordingFault};
use crate::generate::recordings::Recordings;
use crate::listed::Source;
use crate::port::{bytes, words};
use crate::recording::{Beside, Model, Rebuilder, RecordingCase};
use crate::vectors::check;
use crate::words::EVENT_WORDS;

/// The words that the replayer has room for: of a recording, and of a buffer
/// for rows, with what each of these holds.
const MOST: usize = 272 * EVENT_WORDS;
const ROOM: usize = 8300;
const PATTERN: u32 = 0xa5a5_a5a5;
/// A longer record stands in the list only for what none before it shows.
const SHORT: usize = 12 * EVENT_WORDS;

pub struct Record {
    first: Vec<u32>,
    beside: With,
}

enum With {
    /// So many words lent for rows.
    Rows(usize),
    Second(Vec<u32>),
}

impl Record {
    /// None for one that isn't whole words, or too long.
    fn new(case: &RecordingCase) -> Option<Self> {
        let whole = |bytes: &[u8]| {
            let fits = bytes.len().is_multiple_of(4) && bytes.len() <= 4 * MOST;
            fits.then(|| words(bytes))
        };
        let beside = match &case.beside {
            Beside::Rows(rows) => With::Rows((rows.len() / 4).min(ROOM)),
            Beside::Second(second) => With::Second(whole(second)?),
        };
        let first = whole(&case.first)?;
        Some(Self { first, beside })
    }

    fn words(&self) -> Vec<u32> {
        let (kind, second, words) = match &self.beside {
            With::Rows(room) => (1, *room, &[][..]),
            With::Second(second) => (0, second.len(), &second[..]),
        };
        let mut all = vec![kind, self.first.len() as u32, second as u32];
        all.extend(&self.first);
        all.extend(words);
        all
    }

    /// What a rebuilder makes of it: its reply, and the line, with the check
    /// of the whole buffer.
    fn answer(&self, rebuilder: &mut dyn Rebuilder<u32>) -> (Reply, String) {
        match &self.beside {
            With::Rows(room) => {
                let mut rows = vec![PATTERN; ROOM];
                let reply = rebuilder.rebuild(&self.first, &mut rows[..*room]);
                let said = match reply.number {
                    0 => format!("{} rows", reply.value),
                    number => number.to_string(),
                };
                (reply, format!("{said}, check {}", check(&rows)))
            }
            With::Second(second) => {
                let reply = rebuilder.same(&self.first, second);
                let said = match reply.number {
                    0 => format!("same {}", reply.value),
                    number => number.to_string(),
                };
                (reply, said)
            }
        }
    }
}

impl Source for Recordings {
    const NAMES: [&'static str; 2] = ["recording", "recordings"];
    const MAGIC: [u8; 4] = *b"NKR1";
    const FAULTS: &'static [RecordingFault] = FAULTS;
    type Record = Record;
    type Fault = RecordingFault;

    fn new(seed: u64) -> Self {
        Self::new(seed)
    }
    fn name(fault: &RecordingFault) -> &'static str {
        fault.name
    }
    fn next(&mut self) -> Option<(Record, Vec<String>)> {
        let case = self.next_case();
        let record = Record::new(&case)?;
        let shown = shown(&case, &record);
        Some((record, shown))
    }
    fn may_fill(record: &Record) -> bool {
        record.words().len() <= SHORT
    }
    fn bytes(&mut self, record: &Record) -> Vec<u8> {
        bytes(&record.words())
    }
    fn right(record: &Record) -> (Reply, String) {
        record.answer(&mut Model)
    }
    fn wrong(record: &Record, mut fault: RecordingFault) -> (Reply, String) {
        record.answer(&mut fault)
    }
}

/// What there is to see of a recording: its number, for either call, its
/// damage, if it is one way alone, and what its events do.
fn shown(case: &RecordingCase, record: &Record) -> Vec<String> {
    let (reply, _) = record.answer(&mut Model);
    let call = match record.beside {
        With::Rows(_) => "rebuild",
        With::Second(_) => "same",
    };
    let mut all = vec![format!("{call} {} {}", reply.number, reply.value.min(1))];
    let damage: Vec<&str> = case.damage.iter().flatten().copied().collect();
    if let [damage] = damage[..] {
        all.push(damage.to_string());
    }
    all.extend(reach::shown(case).into_iter().map(ToString::to_string));
    all
}
