//! One call on a port and on the model, from the same bytes: the reply and
//! every byte of state and buffer must come out alike.
use crate::call::{Call, Reply};
use crate::port::{Bytes, Model, Port, bytes, make};
use std::fmt;

/// Bytes cut off the end of one of the slices, to make a length that isn't
/// whole words.
#[derive(Clone, Copy, Debug, Default, PartialEq, Eq)]
pub struct Cut {
    pub state: usize,
    pub lent: usize,
    pub buffer: usize,
}

/// A call with the words lent to it.
#[derive(Clone, Debug)]
pub struct Case {
    pub call: Call,
    pub state: Vec<u32>,
    pub buffer: Vec<u32>,
    pub cut: Cut,
}

impl Case {
    /// `call` on `state` with a buffer just long enough, filled with words
    /// that no call writes by chance.
    pub fn new(call: Call, state: Vec<u32>) -> Self {
        let buffer = filled(call.buffer().least());
        Self {
            call,
            state,
            buffer,
            cut: Cut::default(),
        }
    }
    pub fn with_buffer(mut self, length: usize) -> Self {
        self.buffer = filled(length);
        self
    }
}

/// What buffers hold before a call: a word of its own at each place.
pub fn filled(length: usize) -> Vec<u32> {
    (0..length as u32).map(|i| 0xa5a5_0000 ^ i).collect()
}

/// What a port did.
#[derive(Clone, Debug, PartialEq, Eq)]
pub struct Effect {
    pub reply: Reply,
    pub state: Vec<u8>,
    pub buffer: Vec<u8>,
}

/// Where a port and the model part.
#[derive(Debug)]
pub struct Difference {
    pub port: String,
    pub call: Call,
    pub what: String,
}

impl fmt::Display for Difference {
    fn fmt(&self, f: &mut fmt::Formatter) -> fmt::Result {
        write!(f, "{}: {}: {}", self.port, self.call, self.what)
    }
}

/// The effect of the case's call on `port`.
pub fn effect(port: &mut dyn Port, case: &Case) -> Effect {
    let mut state = shortened(&case.state, case.cut.state);
    let mut buffer = shortened(&case.buffer, case.cut.buffer);
    let lent = shortened(case.call.lent().unwrap_or(&[]), case.cut.lent);
    let reply = make(port, &case.call, &mut state, &lent, &mut buffer);
    Effect {
        reply,
        state,
        buffer,
    }
}

/// The bytes of `words` without the last `cut`.
pub fn shortened(words: &[u32], cut: usize) -> Vec<u8> {
    let mut all = bytes(words);
    all.truncate(all.len().saturating_sub(cut));
    all
}

/// Runs the case on both. Gives the model's effect where they agree.
pub fn compare(port: &mut dyn Port, case: &Case) -> Result<Effect, Difference> {
    let expected = expected(case);
    against(port, case, &expected)?;
    Ok(expected)
}

/// The model's effect.
pub fn expected(case: &Case) -> Effect {
    effect(&mut Bytes(Model), case)
}

/// Runs the case on `port`, whose effect must be the one expected.
pub fn against(port: &mut dyn Port, case: &Case, expected: &Effect) -> Result<(), Difference> {
    let found = effect(port, case);
    let what = if found.reply != expected.reply {
        Some(format!(
            "replies {:?} in place of {:?}",
            found.reply, expected.reply
        ))
    } else if let Some(text) = first_other("state", &found.state, &expected.state) {
        Some(text)
    } else {
        first_other("buffer", &found.buffer, &expected.buffer)
    };
    match what {
        None => Ok(()),
        Some(what) => Err(Difference {
            port: port.name(),
            call: case.call.clone(),
            what,
        }),
    }
}

/// The first word of `found` that isn't the expected one.
pub fn first_other(name: &str, found: &[u8], expected: &[u8]) -> Option<String> {
    if found == expected {
        return None;
    }
    let at = found.iter().zip(expected).position(|(f, e)| f != e)?;
    let word = |b: &[u8]| {
        b[at / 4 * 4..]
            .iter()
            .take(4)
            .rev()
            .copied()
            .collect::<Vec<_>>()
    };
    let hex = |b: Vec<u8>| b.iter().map(|x| format!("{x:02x}")).collect::<String>();
    Some(format!(
        "{name} word {} is 0x{} in place of 0x{}",
        at / 4,
        hex(word(found)),
        hex(word(expected))
    ))
}
