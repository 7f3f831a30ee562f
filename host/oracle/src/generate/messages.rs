//! Messages made of calls that a sequence meets, whole or damaged, and the
//! sequence that goes on by what is read.
use super::calls::{self, Host};
use super::drafts::{self, any_bytes};
use super::message_damage::damage;
use crate::call::Call;
use crate::message::{REQUEST_BYTES, call, read};
use crate::model::model;
use crate::rng::Rng;
use crate::words;

/// A message with all that is lent to its reader, and the state on which it
/// is performed.
#[derive(Clone, Debug)]
pub struct MessageCase {
    pub message: Vec<u8>,
    /// What the lent request holds before.
    pub request: Vec<u8>,
    pub up: u32,
    pub state: Vec<u32>,
    pub now: u64,
    /// What was done to it.
    pub damage: Vec<&'static str>,
    /// What it was made of, before any damage.
    pub made_of: (u16, Vec<u32>),
}

impl MessageCase {
    /// A message that comes while the device is up, on the empty state.
    pub fn new(message: Vec<u8>) -> Self {
        Self {
            message,
            request: vec![0xe1; REQUEST_BYTES],
            up: 1,
            state: words::empty(),
            now: 0,
            damage: Vec::new(),
            made_of: (0, Vec::new()),
        }
    }
}

/// An endless stream of messages. What is read goes on to the state.
pub struct Messages {
    rng: Rng,
    state: Vec<u32>,
    host: Host,
    left: usize,
}

impl Messages {
    pub fn new(seed: u64) -> Self {
        Self {
            rng: Rng::new(seed),
            state: words::empty(),
            host: Host::default(),
            left: 0,
        }
    }

    pub fn next_case(&mut self) -> MessageCase {
        if self.left == 0 {
            self.left = 5 + self.rng.below(60);
            self.state = words::empty();
            self.host = Host::default();
        }
        self.left -= 1;
        // what no message asks for
        if self.rng.one_in(6) {
            let code = self.rng.pick(&[1, 1, 2, 5]);
            let call = self.draw(code);
            self.make(&call);
        }
        let code = self.rng.pick(&[3, 3, 4, 6, 6, 7]);
        let call = self.draw(code);
        let rng = &mut self.rng;
        let (mut draft, words) = drafts::of(rng, &call);
        let made_of = (draft.kind, words);
        let damage = damage(rng, &mut draft);
        let up = match call {
            _ if rng.one_in(20) => rng.word(),
            Call::AddV4 { request, .. } => request[17],
            Call::AddRoute4 { request } => request[33],
            _ => rng.below(2) as u32,
        };
        let length = match rng.below(12) {
            0 => REQUEST_BYTES - 8 + rng.below(17),
            1 => rng.below(2 * REQUEST_BYTES),
            _ => REQUEST_BYTES,
        };
        let case = MessageCase {
            message: draft.bytes(),
            request: any_bytes(rng, length),
            up,
            state: self.state.clone(),
            now: self.host.now,
            damage,
            made_of,
        };
        if let Ok((kind, request)) = read(&case.message, case.up) {
            self.make(&self::call(kind, request, case.now));
        }
        case
    }

    fn draw(&mut self, code: u32) -> Call {
        let lists = words::decode(&self.state);
        calls::of_kind(&mut self.rng, code, &lists, &mut self.host)
    }

    fn make(&mut self, call: &Call) {
        let mut buffer = vec![0; call.buffer().least()];
        model(call, &mut self.state, &mut buffer);
    }
}
