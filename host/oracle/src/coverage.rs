//! What the generator reaches: every clause and field damaged, every
//! answer of every call, every set of flags told, the allowances at their
//! limits.
use crate::call::{Buffer, Call, NAMES};
use crate::compare::Case;
use crate::fit::ALLOWANCE_LIMIT;
use crate::generate::calls::{self, Host};
use crate::generate::cases::{Cases, USUAL};
use crate::generate::{damage, states};
use crate::model::{UNFIT_REQUEST, UNFIT_STATE, model};
use crate::rng::Rng;
use crate::script::written;
use crate::words::{self, EVENT_WORDS};
use reference::FUZZ;
use std::collections::{BTreeMap, BTreeSet};

/// The answers that each call gives, by its code: each must be seen, and no
/// other. Of the metrics errors that `add_route4` carries, the last.
const ANSWERS: [&[u32]; 15] = [
    &[0, 200, 201, 203],
    &[0, 200, 201],
    &[0, 17, 22, 200, 201, 202, 203],
    &[0, 99, 200, 201, 202],
    &[0, 200, 201, 202],
    &[
        0, 2, 13, 17, 19, 22, 95, 100, 101, 113, 133, 200, 201, 202, 203,
    ],
    &[0, 3, 22, 200, 201, 202],
    &[0, 200, 201],
    &[0, 13, 22, 101, 113, 200, 201],
    &[0, 13, 22, 101, 113, 200, 201, 202],
    &[0, 200, 201],
    &[0, 200, 201],
    &[0, 200, 201],
    &[0, 200, 201, 202],
    &[0, 201],
];
/// The flags that a new route may be told with.
const FLAGS: [u32; 4] = [0x100, 0x400, 0x600, 0xc00];
/// The allowances that `expire` must be seen with, each with its answer.
const ALLOWANCES: [(u64, u32); 5] = [
    (0, 0),
    (4_000_000, 0),
    (FUZZ, 0),
    (ALLOWANCE_LIMIT, 0),
    (ALLOWANCE_LIMIT + 1, 202),
];
/// And the clock: the last one that its allowance leaves, and one past it.
const CLOCKS: [(&str, u32); 2] = [("at the sum's end", 0), ("past the sum's end", 202)];

/// How often each clause and each kind of request is damaged.
const TIMES: usize = 40;

pub fn run(count: usize, seed: u64) -> bool {
    let unfit = unfit(seed);
    let mut cases = Cases::new(seed, USUAL);
    let mut seen: BTreeMap<(u32, u32), usize> = BTreeMap::new();
    let mut flags: BTreeSet<u32> = BTreeSet::new();
    let mut asked: BTreeSet<u32> = BTreeSet::new();
    let mut allowed: BTreeSet<(u64, u32)> = BTreeSet::new();
    let mut clocks: BTreeSet<(&str, u32)> = BTreeSet::new();
    let mut most_events = [0; 15];
    for _ in 0..count {
        let (_, mut case) = cases.next_case();
        let reply = answer(&mut case);
        let code = case.call.code();
        *seen.entry((code, reply.number)).or_default() += 1;
        if let Call::AddRoute4 { request } = &case.call
            && matches!(reply.number, 0 | 2 | 17)
        {
            asked.insert(request[14] >> 8 & 15);
        }
        if let Call::Expire { now, allowance } = case.call {
            allowed.insert((allowance, reply.number));
            match now.checked_add(allowance) {
                Some(u64::MAX) => _ = clocks.insert((CLOCKS[0].0, reply.number)),
                None if allowance <= ALLOWANCE_LIMIT => {
                    clocks.insert((CLOCKS[1].0, reply.number));
                }
                _ => {}
            }
        }
        if case.call.buffer() == Buffer::Events {
            let rows = case.buffer[..written(&case.call, &reply)].chunks_exact(EVENT_WORDS);
            most_events[code as usize - 1] = rows.len().max(most_events[code as usize - 1]);
            flags.extend(rows.filter(|r| r[0] == 3).map(|r| r[1]));
        }
    }
    for (name, code) in NAMES.iter().zip(1..) {
        let answers = seen.iter().filter(|((c, _), _)| *c == code);
        let text: Vec<String> = answers.map(|((_, n), k)| format!("{n}: {k}")).collect();
        println!("{name:13} {}", text.join(", "));
    }
    println!("most event rows in a call: {:?}", &most_events[..7]);
    let mut missed = unseen(&seen);
    let unseen = FLAGS.iter().filter(|f| !flags.contains(f));
    missed.extend(unseen.map(|f| format!("flags {f:#x}")));
    let unseen = ALLOWANCES.iter().filter(|a| !allowed.contains(a));
    missed.extend(unseen.map(|(a, n)| format!("expire {n} with {a}")));
    let unseen = CLOCKS.iter().filter(|c| !clocks.contains(c));
    missed.extend(unseen.map(|(c, n)| format!("expire {n} {c}")));
    if asked.len() < 16 {
        missed.push(format!("{} sets of request flags", 16 - asked.len()));
    }
    let others = others(&seen);
    let pairs: usize = ANSWERS.iter().map(|a| a.len()).sum();
    let all = pairs + FLAGS.len() + ALLOWANCES.len() + CLOCKS.len();
    println!(
        "generator: {count} cases; {} of {all} answers, flags, allowances and clocks seen; \
         {unfit} of {} damaged states and requests refused as they must",
        all.saturating_sub(missed.len()),
        expected_unfit()
    );
    if !missed.is_empty() {
        println!("not seen: {}", missed.join("; "));
    }
    if !others.is_empty() {
        println!("seen, and no answer of the call: {}", others.join("; "));
    }
    missed.is_empty() && others.is_empty() && unfit == expected_unfit()
}

/// The answers that are not among those seen.
pub fn unseen(seen: &BTreeMap<(u32, u32), usize>) -> Vec<String> {
    let all = NAMES.iter().zip(1..).zip(ANSWERS);
    all.flat_map(|((name, code), answers)| unseen_of(seen, name, code, answers))
        .collect()
}

/// Those of one call.
pub fn unseen_of(
    seen: &BTreeMap<(u32, u32), usize>,
    name: &str,
    code: u32,
    answers: &[u32],
) -> Vec<String> {
    let missing = answers.iter().filter(|&&n| !seen.contains_key(&(code, n)));
    missing.map(|n| format!("{name} {n}")).collect()
}

/// Those seen that no call of the kind gives.
fn others(seen: &BTreeMap<(u32, u32), usize>) -> Vec<String> {
    let known = |&&(code, n): &&(u32, u32)| {
        ANSWERS[code as usize - 1].contains(&n) || code == 6 && (1..=133).contains(&n)
    };
    let strange = seen.keys().filter(|pair| !known(pair));
    let text = |&(code, n): &(u32, u32)| format!("{} {n}", NAMES[code as usize - 1]);
    strange.map(text).collect()
}

/// The model's reply, with a buffer cut to whole words as a slice of bytes
/// would be.
fn answer(case: &mut Case) -> crate::call::Reply {
    let mut effect = crate::compare::effect(&mut crate::port::Bytes(crate::port::Model), case);
    let whole = effect.buffer.len() / 4 * 4;
    effect.buffer.truncate(whole);
    case.buffer = crate::port::words(&effect.buffer);
    effect.reply
}

/// The kinds of call with a field that can be unfit.
const FIELDS: [u32; 7] = [3, 4, 5, 6, 7, 10, 14];

fn expected_unfit() -> usize {
    let row_counts = damage::row_counts().count();
    TIMES * (damage::CLAUSES + row_counts + FIELDS.len() * 10 + 2 * 10)
}

/// Damages every clause, every kind of request, and the rows handed in, and
/// counts those refused as they must be.
fn unfit(seed: u64) -> usize {
    let mut rng = Rng::new(seed);
    let mut host = Host::default();
    let mut refused = 0;
    let mut expect = |call: &Call, mut state: Vec<u32>, number: u32, what: &str| {
        let before = state.clone();
        let mut buffer = vec![1; call.buffer().least()];
        let reply = model(call, &mut state, &mut buffer);
        if reply.number == number && state == before && buffer.iter().all(|&w| w == 1) {
            refused += 1;
        } else {
            println!("{what}: {call} gives {reply:?}, not {number}");
        }
    };
    for _ in 0..TIMES {
        for clause in 0..damage::CLAUSES {
            let (name, state) = damage::state(&mut rng, clause);
            let call = calls::of_kind(
                &mut rng,
                1 + (clause % 11) as u32,
                &Default::default(),
                &mut host,
            );
            expect(&call, state, UNFIT_STATE, name);
        }
        let lists = states::direct(
            &mut rng,
            states::Sizes {
                addresses: 4,
                routes: 6,
                tables: 4,
            },
        );
        let state = words::encode(&lists);
        for (place, by) in damage::row_counts() {
            let code = 1 + (place % 11) as u32;
            let call = calls::of_kind(&mut rng, code, &lists, &mut host);
            let wrong = damage::miscounted(&state, place, by);
            expect(&call, wrong, UNFIT_STATE, "a wrong row count");
        }
        for code in FIELDS {
            for _ in 0..10 {
                let mut call = calls::of_kind(&mut rng, code, &lists, &mut host);
                damage::request(&mut rng, &mut call);
                expect(&call, state.clone(), UNFIT_REQUEST, "an unfit request");
            }
        }
        for code in [12, 15] {
            for _ in 0..10 {
                let mut call = calls::of_kind(&mut rng, code, &lists, &mut host);
                damage::handed_row(&mut rng, &mut call);
                expect(&call, state.clone(), UNFIT_STATE, "an unfit row");
            }
        }
    }
    refused
}
