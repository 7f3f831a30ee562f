//! Lists that a proved program replays: which cases are in one, and the
//! files that it is, `stdin` with the records and `stdout` with what is to be
//! printed of them.
use crate::call::Reply;
use crate::port::bytes;
use std::collections::{BTreeMap, BTreeSet};
use std::fs;
use std::path::Path;

/// How many generated cases are looked at.
const LOOKED: usize = 30_000;

/// What a list is made of.
pub trait Source {
    /// What one of its records is called, and several.
    const NAMES: [&'static str; 2];
    /// The first four bytes of the file.
    const MAGIC: [u8; 4];
    /// The planted faults that the list must find, but for those that no
    /// record can show.
    const FAULTS: &'static [Self::Fault];
    const BUT: &'static [&'static str] = &[];
    type Record;
    type Fault: Copy + 'static;

    fn new(seed: u64) -> Self;
    fn name(fault: &Self::Fault) -> &'static str;
    /// The records that are in the list whatever they show.
    fn first() -> Vec<Self::Record> {
        Vec::new()
    }
    /// A generated record with what it shows, or none where a case can be no
    /// record.
    fn next(&mut self) -> Option<(Self::Record, Vec<String>)>;
    /// The bytes of a record behind those given before.
    fn bytes(&mut self, record: &Self::Record) -> Vec<u8>;
    /// What the model replies to a record, and the line to be printed of it.
    fn right(record: &Self::Record) -> (Reply, String);
    /// The same of one that goes wrong.
    fn wrong(record: &Self::Record, fault: Self::Fault) -> (Reply, String);

    /// Whether a record may be in the list though it shows nothing new.
    fn may_fill(_record: &Self::Record) -> bool {
        true
    }

    fn finds(record: &Self::Record, fault: Self::Fault) -> bool {
        Self::wrong(record, fault) != Self::right(record)
    }
}

/// Writes a list of `count` records and what is to be printed into `folder`.
pub fn write<S: Source>(count: usize, seed: u64, folder: &str) -> Result<(), String> {
    let [one, several] = S::NAMES;
    let mut source = S::new(seed);
    let records = chosen(&mut source, count)?;
    let total = records.len();
    let mut list = bytes(&[u32::from_le_bytes(S::MAGIC), seed as u32, total as u32]);
    let mut printed = String::new();
    let mut numbers: BTreeMap<u32, usize> = BTreeMap::new();
    for (i, record) in records.iter().enumerate() {
        list.extend(source.bytes(record));
        let (reply, line) = S::right(record);
        printed += &format!("{i}: {line}\n");
        *numbers.entry(reply.number).or_default() += 1;
    }
    printed += &format!("{total} {several} of {total}\n");
    for (name, content) in [("stdin", &list[..]), ("stdout", printed.as_bytes())] {
        let path = Path::new(folder).join(name);
        fs::write(&path, content).map_err(|e| format!("{}: {e}", path.display()))?;
    }
    println!(
        "{one}-list: {total} {several} in {} bytes, seed {seed}; by number: {numbers:?}",
        list.len()
    );
    Ok(())
}

/// Behind the first records: of the generated ones each that shows what none
/// before it did, or that finds a planted fault; then more of them, up to the
/// count.
fn chosen<S: Source>(source: &mut S, count: usize) -> Result<Vec<S::Record>, String> {
    let mut all = S::first();
    let mut missed = S::FAULTS.to_vec();
    let mut seen = BTreeSet::new();
    for _ in 0..LOOKED {
        let Some((record, shown)) = source.next() else {
            continue;
        };
        let before = (seen.len(), missed.len());
        seen.extend(shown);
        missed.retain(|fault| !S::finds(&record, *fault));
        if before != (seen.len(), missed.len()) {
            all.push(record);
        }
    }
    let missed: Vec<&str> = missed.iter().map(S::name).collect();
    if missed != S::BUT {
        return Err(format!("not found by the list: {}", missed.join("; ")));
    }
    if all.len() > count {
        let [_, several] = S::NAMES;
        let least = all.len();
        return Err(format!("{count} {several} don't show all: {least} do"));
    }
    while all.len() < count {
        let next = source.next().map(|(record, _)| record);
        all.extend(next.filter(S::may_fill));
    }
    Ok(all)
}
