//! Destinations looked up together, on every boundary, against the model of
//! many destinations.
use crate::comparison::{Comparison, Tally};
use crate::guarded::Guard;
use crate::guarded::Lent::{Read, Write};
use crate::library::{BYTE, WORD, named, reply};
use crate::records::route_words;
use naskrefim::{Addresses, bytes, words};
use oracle::call::Reply;
use oracle::campaign::smallest_state;
use oracle::generate::many::Manies;
use oracle::json;
use oracle::many::{self, ANSWER_WORDS, Looker, ManyCase, NUMBERS};
use oracle::port::Bytes;
use oracle::words::STATE_WORDS;
use std::net::Ipv4Addr;

pub struct Together {
    lookers: Vec<Box<dyn Looker<u8>>>,
    cases: Manies,
    tally: Tally,
    /// Destinations that were answered, and the rows weighed for them.
    answers: usize,
    weighed: usize,
}

impl Together {
    pub fn new(lookers: Vec<Box<dyn Looker<u8>>>, seed: u64) -> Self {
        Self {
            lookers,
            cases: Manies::new(seed),
            tally: Tally::default(),
            answers: 0,
            weighed: 0,
        }
    }
}

impl Comparison for Together {
    fn next(&mut self) -> Result<(), String> {
        let case = self.cases.next_case();
        let expected = many::expected(&case);
        self.tally.given(expected.reply.number);
        if expected.reply.number == 0 {
            self.answers += case.destinations.len();
            self.weighed += expected.reply.value as usize;
        }
        for looker in &mut self.lookers {
            self.tally.calls += 1;
            many::against(&mut **looker, &case, &expected)
                .map_err(|what| format!("{what}\n{}", smallest(&mut **looker, &case)))?;
        }
        Ok(())
    }
    fn reached(&self) -> Result<(), String> {
        self.tally.reached("lookup of many destinations", &NUMBERS)
    }
    fn said(&self) -> String {
        let Tally { numbers, calls } = &self.tally;
        format!(
            "destinations together {numbers:?}, {} answers and {} rows weighed for them; {calls} calls \
             of the library",
            self.answers, self.weighed
        )
    }
}

/// A difference on the smallest state found for it, as a JSON line.
fn smallest(looker: &mut dyn Looker<u8>, case: &ManyCase) -> String {
    let with = |state: &[u32]| ManyCase {
        state: state.to_vec(),
        ..case.clone()
    };
    let state = smallest_state(case.state.clone(), |state| {
        let case = with(state);
        many::differs(looker, &case, &many::expected(&case)).is_some()
    });
    json::many_line(&with(&state))
}

/// The library on bytes, on words and through `Addresses`.
pub fn lookers() -> [Box<dyn Looker<u8>>; 3] {
    [
        Box::new(OnBytes::default()),
        Box::new(Bytes(OnWords::default())),
        Box::new(Bytes(Typed::default())),
    ]
}

#[derive(Default)]
struct OnBytes(Guard);

impl Looker<u8> for OnBytes {
    fn name(&self) -> String {
        named("the library on bytes", self.0.amiss)
    }
    fn many(&mut self, state: &[u8], destinations: &[u8], answers: &mut [u8]) -> Reply {
        let lent = [Read(state), Read(destinations), Write(answers)];
        reply(
            self.0
                .lend(BYTE, lent, |[s, d, a]| bytes::lookup4_many(s, d, a)),
        )
    }
}

#[derive(Default)]
struct OnWords(Guard);

impl Looker<u32> for OnWords {
    fn name(&self) -> String {
        named("the library on words", self.0.amiss)
    }
    fn many(&mut self, state: &[u32], destinations: &[u32], answers: &mut [u32]) -> Reply {
        let lent = [Read(state), Read(destinations), Write(answers)];
        reply(
            self.0
                .lend(WORD, lent, |[s, d, a]| words::lookup4_many(s, d, a)),
        )
    }
}

/// Lengths that `Addresses` can't say go by the words.
#[derive(Default)]
struct Typed(OnWords);

impl Looker<u32> for Typed {
    fn name(&self) -> String {
        "the library through Addresses".to_string()
    }
    fn many(&mut self, state: &[u32], destinations: &[u32], answers: &mut [u32]) -> Reply {
        if state.len() != STATE_WORDS || answers.len() < ANSWER_WORDS * destinations.len() {
            return self.0.many(state, destinations, answers);
        }
        let lo = match Addresses::from_words(state) {
            Ok(lo) => lo,
            Err(refused) => return Reply::refused(refused.number()),
        };
        let to: Vec<Ipv4Addr> = destinations.iter().map(|&ip| ip.into()).collect();
        match lo.lookup4_many(&to) {
            Err(refused) => Reply::refused(refused.number()),
            Ok(found) => {
                for (words, answer) in answers.chunks_mut(ANSWER_WORDS).zip(&found.answers) {
                    words.fill(0);
                    match answer {
                        Ok(route) => words[1..].copy_from_slice(&route_words(route)),
                        Err(refused) => words[0] = refused.number(),
                    }
                }
                Reply::value(found.weighed as u32)
            }
        }
    }
}
