//! Sequences of calls from empty, on the model.
use super::calls::{self, Host};
use crate::call::Call;
use crate::compare::filled;
use crate::model::model;
use crate::rng::Rng;
use crate::words::{self, EVENT_WORDS};
use reference::Lists;

/// A run that begins anew after some calls.
pub struct Run {
    pub state: Vec<u32>,
    pub host: Host,
    left: usize,
}

impl Default for Run {
    fn default() -> Self {
        Self {
            state: words::empty(),
            host: Host::default(),
            left: 0,
        }
    }
}

impl Run {
    /// Before each call; whether a run begins with it.
    pub fn step(&mut self, rng: &mut Rng) -> bool {
        let begins = self.left == 0;
        if begins {
            self.left = 5 + rng.below(60);
            self.state = words::empty();
            self.host = Host::default();
        }
        self.left -= 1;
        begins
    }

    pub fn lists(&self) -> Lists {
        words::decode(&self.state)
    }

    /// A call of the kind with this code.
    pub fn draw(&mut self, rng: &mut Rng, code: u32) -> Call {
        calls::of_kind(rng, code, &self.lists(), &mut self.host)
    }

    /// Goes on by a call, and gives the events of one that changes the
    /// state.
    pub fn make(&mut self, call: &Call) -> Vec<Vec<u32>> {
        let mut buffer = filled(call.buffer().least());
        let reply = model(call, &mut self.state, &mut buffer);
        let rows = buffer.chunks(EVENT_WORDS).take(reply.value as usize);
        rows.map(<[u32]>::to_vec).collect()
    }
}
