//! Messages through the library: each is read on every boundary, and what
//! is read is performed there, on the state that a sequence has come to.
use crate::comparison::{Comparison, Tally};
use crate::records::event_words;
use naskrefim::Addresses;
use oracle::call::Reply;
use oracle::compare::{Case, Effect, against, expected, filled};
use oracle::event::Writer;
use oracle::generate::messages::{MessageCase, Messages};
use oracle::message::{Reader, call, read};
use oracle::messages;
use oracle::port::{Port, bytes, words};

/// The words of a state, the event rows and the last paper that the library
/// says.
const SIZES: (usize, usize, u32) = (9_541, 385, 10);
/// The numbers of a message, which must all be reached.
const NUMBERS: [u32; 5] = [0, 200, 204, 205, 206];

/// What the library is met through.
pub trait Boundary: Port + Reader + Writer {}
impl<B: Port + Reader + Writer> Boundary for B {}

/// Messages that are compared on all boundaries.
pub struct Read {
    boundaries: Vec<Box<dyn Boundary>>,
    messages: Messages,
    read: Tally,
    performed: Tally,
}

impl Read {
    pub fn new(boundaries: Vec<Box<dyn Boundary>>, seed: u64) -> Self {
        Self {
            boundaries,
            messages: Messages::new(seed),
            read: Tally::default(),
            performed: Tally::default(),
        }
    }

    fn one(&mut self, case: &MessageCase) -> Result<(), String> {
        for boundary in &mut self.boundaries {
            let reply = messages::against(&mut **boundary, case)?;
            self.read.called(reply.number);
        }
        let Ok((kind, request)) = read(&case.message, case.up) else {
            return Ok(());
        };
        let right = Case::new(call(kind, request, case.now), case.state.clone());
        let effect = expected(&right);
        for boundary in &mut self.boundaries {
            let mut request = vec![0; oracle::message::REQUEST_BYTES];
            let reply = boundary.read(&case.message, &mut request, case.up);
            let request = words(&request)[..reply.second as usize].to_vec();
            let own = Case {
                call: call(reply.value as u16, request, case.now),
                ..right.clone()
            };
            against(&mut **boundary, &own, &effect).map_err(|found| found.to_string())?;
            self.read.calls += 1;
            self.performed.called(effect.reply.number);
        }
        if case.up <= 1 {
            typed(case, &effect)?;
            self.performed.calls += 2;
        }
        Ok(())
    }
}

impl Comparison for Read {
    /// Every size and length, and the library's own sizes.
    fn swept(&mut self, _all: bool) -> Result<(), String> {
        let sizes = naskrefim::sizes();
        let found = (sizes.state_words, sizes.event_rows, sizes.paper);
        if found != SIZES {
            return Err(format!("sizes: {found:?} in place of {SIZES:?}"));
        }
        messages::swept().iter().try_for_each(|case| self.one(case))
    }
    fn next(&mut self) -> Result<(), String> {
        let case = self.messages.next_case();
        self.one(&case)
    }
    fn reached(&self) -> Result<(), String> {
        self.read.reached("message", &NUMBERS)
    }
    fn said(&self) -> String {
        let calls = self.read.calls + self.performed.calls;
        format!(
            "messages read {:?}, performed {:?}; {calls} calls of the library",
            self.read.numbers, self.performed.numbers
        )
    }
}

/// `Addresses::perform` on the case's state.
fn typed(case: &MessageCase, effect: &Effect) -> Result<(), String> {
    let mut lo = Addresses::from_words(&case.state).map_err(|e| format!("a state: {e}"))?;
    let (number, rows) = match lo.perform(&case.message, case.up == 1, case.now) {
        Ok(told) => (0, told.iter().flat_map(event_words).collect()),
        Err(refused) => (refused.number(), Vec::new()),
    };
    let mut buffer = filled(effect.buffer.len() / 4);
    buffer[..rows.len()].copy_from_slice(&rows);
    let reply = match number {
        0 => Reply::value((rows.len() / 34) as u32),
        number => Reply::refused(number),
    };
    if reply != effect.reply || lo.to_bytes() != effect.state || bytes(&buffer) != effect.buffer {
        return Err(format!(
            "Addresses::perform: {reply:?} in place of {:?}, or other words, for {:?}",
            effect.reply, case.message
        ));
    }
    Ok(())
}
