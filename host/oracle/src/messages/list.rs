//! The list of messages that the proved program `message_cases` replays, and
//! what it has to print, by the reader of [`crate::message`] alone.
//! host/README.md describes its format.
use super::reach;
use crate::call::Reply;
use crate::faults::messages::{FAULTS, Fault};
use crate::generate::messages::{MessageCase, Messages};
use crate::listed::Source;
use crate::message::{Model, Reader};
use crate::port::{bytes, words};
use crate::vectors::check;

/// The words of the replayer's buffer, what each of them holds, and the
/// longest message.
const ROOM: usize = 51;
const PATTERN: u32 = 0xa5a5_a5a5;
const MOST: usize = 1024;
const CAPTURED: &str = include_str!("../../../messages/ip.txt");

pub struct Record {
    message: Vec<u8>,
    /// The words that are lent of the buffer.
    lent: usize,
    up: u32,
}

impl Record {
    fn new(case: &MessageCase) -> Self {
        Self {
            message: case.message.clone(),
            lent: ROOM.min(case.request.len() / 4),
            up: case.up,
        }
    }

    /// What a reader makes of it: its reply, and the line, with the check of
    /// the whole buffer.
    fn answer(&self, reader: &mut dyn Reader) -> (Reply, String) {
        let mut buffer = bytes(&[PATTERN; ROOM]);
        let reply = reader.read(&self.message, &mut buffer[..4 * self.lent], self.up);
        let check = check(&words(&buffer));
        let line = match reply.number {
            0 => format!(
                "type {}, {} words, check {check}",
                reply.value, reply.second
            ),
            number => format!("{number}, check {check}"),
        };
        (reply, line)
    }
}

impl Source for Messages {
    const NAMES: [&'static str; 2] = ["message", "messages"];
    const MAGIC: [u8; 4] = *b"NKM1";
    const FAULTS: &'static [Fault] = FAULTS;
    const BUT: &'static [&'static str] = &["a request of whole words alone"];
    type Record = Record;
    type Fault = Fault;

    fn new(seed: u64) -> Self {
        Self::new(seed)
    }
    fn name(fault: &Fault) -> &'static str {
        fault.name
    }
    /// The captured messages.
    fn first() -> Vec<Record> {
        captured().iter().map(Record::new).collect()
    }
    fn next(&mut self) -> Option<(Record, Vec<String>)> {
        let case = self.next_case();
        (case.message.len() <= MOST).then(|| {
            let record = Record::new(&case);
            let shown = shown(&case, &record);
            (record, shown)
        })
    }
    fn bytes(&mut self, record: &Record) -> Vec<u8> {
        let Record { message, lent, up } = record;
        let mut all = bytes(&[message.len() as u32, *lent as u32, *up]);
        all.extend(message);
        all
    }
    fn right(record: &Record) -> (Reply, String) {
        record.answer(&mut Model)
    }
    fn wrong(record: &Record, mut fault: Fault) -> (Reply, String) {
        record.answer(&mut fault)
    }
}

/// What there is to see of a message: its number, for each type, its damage,
/// if it is one way alone, and the kinds of reading.
fn shown(case: &MessageCase, record: &Record) -> Vec<String> {
    let kind = case.made_of.0;
    let number = Messages::right(record).0.number;
    let mut all = vec![format!("{number} of type {kind}")];
    if number != 200 {
        if let [damage] = case.damage[..] {
            all.push(format!("{damage}, of type {kind}"));
        }
        let kinds = reach::kinds(&case.message, case.up);
        all.extend(kinds.iter().map(|at| format!("reading {at}")));
    }
    all
}

/// The messages of host/messages/ip.txt.
fn captured() -> Vec<MessageCase> {
    let lines = CAPTURED
        .lines()
        .filter(|line| !line.starts_with(['#', '=']));
    let hex = lines.filter_map(|line| line.rsplit('\t').next());
    let bytes = |hex: &str| {
        let byte = |at| u8::from_str_radix(&hex[at..at + 2], 16).expect("two digits");
        (0..hex.len()).step_by(2).map(byte).collect()
    };
    let room = vec![0; 4 * ROOM];
    hex.map(|hex| MessageCase {
        request: room.clone(),
        ..MessageCase::new(bytes(hex))
    })
    .collect()
}
