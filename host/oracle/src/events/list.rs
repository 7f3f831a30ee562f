//! The list of events that the proved program `event_cases` replays, and
//! what it has to print, by the writer of [`crate::event`] alone.
//! host/README.md describes its format.
use super::reach;
use crate::call::Reply;
use crate::event::{Given, Model, Writer};
use crate::faults::events::{FAULTS, Fault};
use crate::generate::events::{EventCase, Events};
use crate::listed::Source;
use crate::port::{Bytes, bytes, words};
use crate::vectors::check;

/// The bytes of the replayer's buffer, what each of its words holds, and the
/// most words of an event.
const ROOM: usize = 224;
const PATTERN: u32 = 0xa5a5_a5a5;
const MOST: usize = 40;

pub struct Record {
    event: Vec<u32>,
    /// The bytes that are lent of the buffer.
    lent: usize,
    given: Given,
}

impl Record {
    /// None for an event that isn't whole words, or has too many.
    fn new(case: &EventCase) -> Option<Self> {
        let whole = case.event.len().is_multiple_of(4) && case.event.len() <= 4 * MOST;
        whole.then(|| Self {
            event: words(&case.event),
            lent: ROOM.min(case.message.len()),
            given: case.given,
        })
    }

    fn words(&self) -> Vec<u32> {
        let Given {
            sequence,
            port,
            now,
        } = self.given;
        let mut all = vec![self.lent as u32, self.event.len() as u32, sequence, port];
        all.extend([now as u32, (now >> 32) as u32]);
        all.extend(&self.event);
        all
    }

    /// What a writer makes of it: its reply, and the line, with the check of
    /// the whole buffer.
    fn answer(&self, writer: &mut dyn Writer) -> (Reply, String) {
        let mut buffer = bytes(&[PATTERN; ROOM / 4]);
        let lent = &mut buffer[..self.lent];
        let reply = writer.write(&bytes(&self.event), lent, self.given);
        let check = check(&words(&buffer));
        let line = match reply.number {
            0 => format!("{} bytes, check {check}", reply.value),
            number => format!("{number}, check {check}"),
        };
        (reply, line)
    }
}

impl Source for Events {
    const NAMES: [&'static str; 2] = ["event", "events"];
    const MAGIC: [u8; 4] = *b"NKE1";
    const FAULTS: &'static [Fault] = FAULTS;
    const BUT: &'static [&'static str] = &["a part of a word overlooked"];
    type Record = Record;
    type Fault = Fault;

    fn new(seed: u64) -> Self {
        Self::new(seed)
    }
    fn name(fault: &Fault) -> &'static str {
        fault.name
    }
    fn next(&mut self) -> Option<(Record, Vec<String>)> {
        let case = self.next_case();
        let record = Record::new(&case)?;
        let shown = shown(&case, &record);
        Some((record, shown))
    }
    fn bytes(&mut self, record: &Record) -> Vec<u8> {
        bytes(&record.words())
    }
    fn right(record: &Record) -> (Reply, String) {
        record.answer(&mut Bytes(Model))
    }
    fn wrong(record: &Record, mut fault: Fault) -> (Reply, String) {
        record.answer(&mut fault)
    }
}

/// What there is to see of an event: its number, for each kind, its damage,
/// if it is one way alone, the kinds of writing, and the message's length.
fn shown(case: &EventCase, record: &Record) -> Vec<String> {
    let kind = record.event.first().copied().unwrap_or(0).min(5);
    let number = Events::right(record).0.number;
    let mut all = vec![format!("{number} of kind {kind}")];
    if let [damage] = case.damage[..] {
        all.push(damage.to_string());
    }
    if number == 0 {
        let kinds = reach::kinds(&record.event, record.given);
        all.extend(kinds.iter().map(|at| format!("writing {at}")));
    }
    all
}
