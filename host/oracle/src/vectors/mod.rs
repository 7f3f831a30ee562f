//! The fixed list of answers: a file of little-endian words that a program
//! without Rust at hand can replay. host/README.md describes its format.
mod damaged;
mod masked;
mod replay;
mod traps;

pub use replay::{MODELS, Makers, replay, replay_on};

use crate::call::Call;
use crate::campaign;
use crate::compare::{Case, filled};
use crate::coverage;
use crate::faults::{self, Run};
use crate::generate::calls::{self, Host};
use crate::generate::cases::Cases;
use crate::generate::masks::Masks;
use crate::generate::states::Sizes;
use crate::generate::{damage, limits, states};
use crate::model::model;
use crate::netmask;
use crate::port::bytes;
use crate::rng::Rng;
use crate::script::written;
use crate::words::{self, BASE_WORDS, EVENT_BUFFER, ROW_COUNTS_AT, STATE_WORDS};
use replay::answers;
use std::collections::BTreeMap;
use std::fs;
use std::path::Path;

/// "NKV3" in the file's first four bytes.
const MAGIC: u32 = u32::from_le_bytes(*b"NKV3");
/// The list's words before its records.
const HEAD_WORDS: usize = 5;
/// A record's words before its sets.
const RECORD_HEAD_WORDS: usize = 17;
/// The longest record, and the longest buffer: a replayer has room for no
/// more.
const RECORD_WORDS: usize = 4096;
const BUFFER_WORDS: usize = EVENT_BUFFER;
pub const SEED: u64 = 1;
/// The replayer's state has one word more than a state, so that it can lend
/// one that is too long.
pub const HELD_WORDS: usize = STATE_WORDS + 1;
/// What each part of the list may take, in words.
const SEQUENCES: usize = 44_000;
const DIRECT: usize = 12_000;
const LIMITS: usize = 16_500;
const MASKED: usize = 8_000;

/// What writes a case into the list, if there is room for it.
type Record = fn(&mut Writer, &Case) -> bool;

/// The list in the making.
struct Writer {
    words: Vec<u32>,
    records: u32,
    held: Vec<u32>,
}

/// Writes the list and the damaged ones into `folder`; refused if the list
/// lacks an answer.
pub fn write(folder: &str, seed: u64) -> Result<(), String> {
    let data = vectors(seed);
    let missing = unseen(&data);
    if !missing.is_empty() {
        return Err(format!("not in the list: {}", missing.join("; ")));
    }
    let mut files = damaged::lists(&data);
    files.push(("vectors", bytes(&data)));
    for (name, content) in &files {
        let path = Path::new(folder).join(name);
        fs::write(&path, content).map_err(|e| format!("{}: {e}", path.display()))?;
    }
    let mut counts: BTreeMap<u32, usize> = BTreeMap::new();
    for ((_, number), times) in answers(&data) {
        *counts.entry(number).or_default() += times;
    }
    let text: Vec<String> = counts.iter().map(|(n, k)| format!("{n}: {k}")).collect();
    println!(
        "vectors: {} records in {} bytes, seed {seed}, and {} damaged lists; answers by number: {}",
        data[3],
        data.len() * 4,
        files.len() - 1,
        text.join(", ")
    );
    Ok(())
}

/// The answers that are not in a list.
pub fn unseen(data: &[u32]) -> Vec<String> {
    let seen = answers(data);
    [coverage::unseen(&seen), masked::unseen(&seen)].concat()
}

/// The words of the list.
pub fn vectors(seed: u64) -> Vec<u32> {
    let mut w = Writer {
        words: vec![MAGIC, seed as u32, (seed >> 32) as u32, 0, 0],
        records: 0,
        held: vec![0; HELD_WORDS],
    };
    let mut rng = Rng::new(seed);
    w.by_hand();
    w.written();
    let mut sequences = Cases::new(rng.draw(), [1, 0, 0, 0, 0, 0, 0]);
    w.part(SEQUENCES, Writer::record, || sequences.next_case().1);
    let mut direct = Cases::new(rng.draw(), [0, 1, 0, 0, 0, 0, 0]);
    w.part(DIRECT, Writer::record, || direct.next_case().1);
    w.unfit(&mut rng);
    w.limits(LIMITS, &mut rng);
    w.masked();
    let mut masks = Masks::weighted(rng.draw(), [6, 3, 0, 0, 1, 1, 1]);
    w.part(MASKED, Writer::record_masked, || masks.next_case());
    w.close();
    w.faults(seed);
    w.words
}

/// What stands before a run of words so that damage to it is seen: a change
/// of any one word changes it.
pub fn check(words: &[u32]) -> u32 {
    words.iter().fold(1, |sum: u32, w| {
        sum.wrapping_mul(16_777_619).wrapping_add(*w)
    })
}

impl Writer {
    /// Document 01's first example begins the list, then each kind that
    /// rejects, in both sets of tables, then what a random call seldom meets.
    fn by_hand(&mut self) {
        for (state, calls) in traps::all() {
            self.sequence(Self::record, state, calls);
        }
    }

    /// The calls with a netmask: each good mask, each refusal before those
    /// behind it, wrong lengths.
    fn masked(&mut self) {
        for (state, calls) in masked::sequences() {
            self.sequence(Self::record_masked, state, calls);
        }
        for case in masked::lengths() {
            self.record_masked(&case);
        }
    }

    /// Each call on the state that the last one left.
    fn sequence(&mut self, record: Record, state: Vec<u32>, calls: Vec<Call>) {
        let mut state = state;
        for call in calls {
            record(self, &Case::new(call, state));
            state = self.held[..STATE_WORDS].to_vec();
        }
    }

    /// All calls of the examples and the differences, but those that change
    /// thousands of words.
    fn written(&mut self) {
        for case in campaign::by_hand() {
            self.record(&case);
        }
    }

    /// Cases until `size` words are written.
    fn part(&mut self, size: usize, record: Record, mut next_case: impl FnMut() -> Case) {
        let end = self.words.len() + size;
        while self.words.len() < end {
            let mut case = next_case();
            if case.cut != Default::default() {
                // bytes are the host's affair; this list is about words
                continue;
            }
            case.buffer.truncate(case.call.buffer().least());
            record(self, &case);
        }
    }

    /// Each clause and each kind of request damaged, both sides of each limit,
    /// and wrong lengths, all on one state.
    fn unfit(&mut self, rng: &mut Rng) {
        let sizes = Sizes {
            addresses: 3,
            routes: 4,
            tables: 3,
        };
        let lists = states::direct(rng, sizes);
        let mut state = states::encoded(&lists);
        words::set_change_count(&mut state, u64::MAX - 1);
        let mut host = Host::default();
        for clause in 0..damage::CLAUSES {
            let code = 1 + clause as u32 % 14;
            let call = calls::of_kind(rng, code, &lists, &mut host);
            let (_, unfit) = damage::of_lists(rng, clause, &lists);
            self.record(&Case::new(call, unfit));
        }
        for (place, by) in damage::row_counts() {
            let call = calls::of_kind(rng, 1 + place as u32 % 11, &lists, &mut host);
            self.record(&Case::new(call, damage::miscounted(&state, place, by)));
        }
        for call in damage::edges(rng, &lists, &mut host) {
            self.record(&Case::new(call, state.clone()));
        }
        for i in 0..90 {
            let mut call = calls::of_kind(rng, 1 + i % 15, &lists, &mut host);
            if damage::request(rng, &mut call) || damage::handed_row(rng, &mut call) {
                self.record(&Case::new(call, state.clone()));
            }
        }
        for code in 1..=15 {
            let call = calls::of_kind(rng, code, &lists, &mut host);
            for length in [BASE_WORDS, ROW_COUNTS_AT, STATE_WORDS - 1, HELD_WORDS] {
                let mut case = Case::new(call.clone(), state.clone());
                case.state.resize(length, 0);
                self.record(&case);
            }
            let mut case = Case::new(call, state.clone());
            case.buffer.pop();
            self.record(&case);
            if let Some(lent) = case.call.lent_mut() {
                lent.pop();
                self.record(&case);
            }
        }
    }

    /// For each planted fault that goes unfound, a case that finds it.
    fn faults(&mut self, seed: u64) {
        for fault in faults::on_words() {
            let faulty = Makers {
                calls: fault.run,
                ..MODELS
            };
            if replay_on(&self.words, faulty).is_ok() {
                let case = fault.case(seed).expect("the comparison finds it");
                assert!(self.record(&case), "{}: a long record", fault.name);
                self.close();
            }
        }
    }

    /// The head says how many records there are.
    fn close(&mut self) {
        self.words[3] = self.records;
        self.words[4] = check(&self.words[..4]);
    }

    /// Several calls on each of a few states at the limits.
    fn limits(&mut self, size: usize, rng: &mut Rng) {
        let end = self.words.len() + size;
        while self.words.len() < end {
            let (lists, mut host) = limits::full(rng);
            let mut state = states::encoded(&lists);
            for _ in 0..40 {
                let call = self.limit_call(rng, &state, &mut host);
                self.record(&Case::new(call, state));
                state = self.held[..STATE_WORDS].to_vec();
            }
        }
    }

    /// A call at the limits that doesn't tell or list many rows.
    fn limit_call(&self, rng: &mut Rng, state: &[u32], host: &mut Host) -> Call {
        loop {
            let call = if rng.one_in(6) {
                calls::any(rng, &words::decode(state), host)
            } else {
                limits::call_on(rng, &words::decode(state), host)
            };
            let mut after = state.to_vec();
            let mut buffer = filled(call.buffer().least());
            let reply = model(&call, &mut after, &mut buffer);
            if written(&call, &reply) <= 400 && changed(state, &after).len() < 300 {
                return call;
            }
        }
    }

    fn record(&mut self, case: &Case) -> bool {
        self.record_by(case.call.code(), model, case)
    }

    /// The request has a netmask in place of the prefix.
    fn record_masked(&mut self, case: &Case) -> bool {
        self.record_by(masked::code(&case.call), netmask::masked, case)
    }

    /// Writes the case and its answer, unless a replayer has no room for it.
    fn record_by(&mut self, code: u32, run: Run, case: &Case) -> bool {
        if case.state.len() > HELD_WORDS || case.buffer.len() > BUFFER_WORDS {
            return false;
        }
        let mut wanted = case.state.clone();
        wanted.resize(HELD_WORDS, 0);
        let from_here = changed(&self.held, &wanted);
        let from_zero = changed(&vec![0; HELD_WORDS], &wanted);
        let fresh = from_zero.len() < from_here.len();
        let sets = if fresh { from_zero } else { from_here };
        let mut state = case.state.clone();
        let mut buffer = case.buffer.clone();
        let reply = run(&case.call, &mut state, &mut buffer);
        let changes = changed(&case.state, &state);
        let rows = &buffer[..written(&case.call, &reply)];
        let lent = case.call.lent().unwrap_or(&[]);
        let mut numbers = case.call.numbers();
        numbers.resize(4, 0);
        let sets_end = RECORD_HEAD_WORDS + 2 * sets.len();
        let lent_end = sets_end + lent.len();
        let changes_end = lent_end + 2 * changes.len();
        let length = changes_end + rows.len();
        if length > RECORD_WORDS {
            return false;
        }
        let mut record = vec![0, length as u32, code, u32::from(fresh)];
        record.extend([case.state.len(), case.buffer.len()].map(|n| n as u32));
        record.extend([reply.number, reply.present, reply.value, reply.second]);
        record.extend([sets_end, lent_end, changes_end].map(|n| n as u32));
        record.extend(numbers);
        record.extend(sets.iter().flatten());
        record.extend(lent);
        record.extend(changes.iter().flatten());
        record.extend(rows);
        record[0] = check(&record[1..]);
        self.words.extend(record);
        self.held = wanted;
        self.held[..state.len()].copy_from_slice(&state);
        self.records += 1;
        true
    }
}

/// The words of `after` that aren't as in `before`, with their places.
fn changed(before: &[u32], after: &[u32]) -> Vec<[u32; 2]> {
    let pairs = before.iter().zip(after).zip(0..);
    pairs
        .filter(|((b, a), _)| b != a)
        .map(|((_, a), i)| [i, *a])
        .collect()
}
