//! Requests for an address with a netmask in place of the prefix, on every
//! boundary, against the model with masks.
use crate::comparison::{Comparison, Tally};
use crate::guarded::Guard;
use crate::guarded::Lent::{Read, Write};
use crate::library::{BYTE, WORD, named, reply};
use crate::typed::{Arguments, Told, sayable};
use naskrefim::{Addresses, bytes, words};
use oracle::call::Call;
use oracle::compare::{Case, Cut, Effect, effect, first_other};
use oracle::generate::masks::Masks;
use oracle::netmask::{self, Masked, place};
use oracle::port::{self, Bytes};

/// The numbers in the order in which they are looked for, which must all be
/// reached.
const NUMBERS: [u32; 6] = [200, 201, 207, 202, 22, 203];

pub struct WithMask {
    masks: Masks,
    guard: Guard,
    tally: Tally,
}

impl WithMask {
    pub fn new(seed: u64) -> Self {
        Self {
            masks: Masks::new(seed),
            guard: Guard::default(),
            tally: Tally::default(),
        }
    }

    fn one(&mut self, case: &Case) -> Result<(), String> {
        let expected = effect(&mut Bytes(Masked), case);
        self.tally.given(expected.reply.number);
        let on_bytes = self.on_bytes(case);
        self.alike("on bytes", case, &on_bytes, &expected)?;
        if case.cut == Cut::default() {
            let on_words = self.on_words(case);
            self.alike("on words", case, &on_words, &expected)?;
        }
        if let Some(typed) = typed(case) {
            self.alike("through Addresses", case, &typed, &expected)?;
        }
        Ok(())
    }

    fn alike(
        &mut self,
        on: &str,
        case: &Case,
        found: &Effect,
        right: &Effect,
    ) -> Result<(), String> {
        self.tally.calls += 1;
        let what = if found.reply != right.reply {
            Some(format!(
                "replies {:?} in place of {:?}",
                found.reply, right.reply
            ))
        } else {
            first_other("state", &found.state, &right.state)
                .or_else(|| first_other("buffer", &found.buffer, &right.buffer))
        };
        match what {
            None => Ok(()),
            Some(what) => {
                let on = named(&format!("the library {on}"), self.guard.amiss);
                Err(format!("{on}: with a mask: {}: {what}", case.call))
            }
        }
    }

    fn on_bytes(&mut self, case: &Case) -> Effect {
        let mut state = shortened(&case.state, case.cut.state);
        let mut buffer = shortened(&case.buffer, case.cut.buffer);
        let request = shortened(case.call.lent().unwrap_or(&[]), case.cut.lent);
        let lent = [Write(&mut state[..]), Read(&request), Write(&mut buffer)];
        let reply = reply(self.guard.lend(BYTE, lent, |[s, r, e]| match case.call {
            Call::AddV4 { now, .. } => bytes::add_v4_mask(s, r, e, now),
            _ => bytes::del_v4_mask(s, r, e),
        }));
        Effect {
            reply,
            state,
            buffer,
        }
    }

    fn on_words(&mut self, case: &Case) -> Effect {
        let (mut state, mut buffer) = (case.state.clone(), case.buffer.clone());
        let request = case.call.lent().unwrap_or(&[]);
        let lent = [Write(&mut state[..]), Read(request), Write(&mut buffer)];
        let reply = reply(self.guard.lend(WORD, lent, |[s, r, e]| match case.call {
            Call::AddV4 { now, .. } => words::add_v4_mask(s, r, e, now),
            _ => words::del_v4_mask(s, r, e),
        }));
        Effect {
            reply,
            state: port::bytes(&state),
            buffer: port::bytes(&buffer),
        }
    }
}

impl Comparison for WithMask {
    /// Every mask by itself, or only the good ones and those beside them.
    fn swept(&mut self, all: bool) -> Result<(), String> {
        let answer = |mask| reply(naskrefim::prefix(mask));
        let other = match all {
            true => netmask::differs(answer),
            false => netmask::differs_beside(answer),
        };
        match other {
            None => Ok(()),
            Some(mask) => Err(format!(
                "interface4_prefix({mask:#010x}): {:?} in place of {:?}",
                answer(mask),
                netmask::model(mask)
            )),
        }
    }
    fn next(&mut self) -> Result<(), String> {
        let case = self.masks.next_case();
        self.one(&case)
    }
    fn reached(&self) -> Result<(), String> {
        self.tally.reached("request with a mask", &NUMBERS)
    }
    fn said(&self) -> String {
        let Tally { numbers, calls } = &self.tally;
        format!("with a netmask {numbers:?}; {calls} calls of the library")
    }
}

/// Where records can say all but the mask.
fn typed(case: &Case) -> Option<Effect> {
    let mut call = case.call.clone();
    let mask = std::mem::take(call.lent_mut()?.get_mut(place(&case.call)?)?);
    if case.cut != Cut::default() || !sayable(&call, case.state.len(), case.buffer.len()) {
        return None;
    }
    let mut lo = Addresses::from_words(&case.state).ok()?;
    let told = match Arguments::of(&call) {
        Arguments::AddV4(new, lifetimes, replace, up, now) => {
            lo.add_v4_mask(new, mask.into(), lifetimes, replace, up, now)
        }
        Arguments::DelV4(local, address, _, label) => {
            lo.del_v4_mask(local, address, mask.into(), label.as_deref())
        }
        _ => return None,
    };
    let mut buffer = case.buffer.clone();
    Some(Effect {
        reply: Told::Events(told).write(&mut buffer),
        state: lo.to_bytes(),
        buffer: port::bytes(&buffer),
    })
}

fn shortened(words: &[u32], cut: usize) -> Vec<u8> {
    let mut all = port::bytes(words);
    all.truncate(all.len().saturating_sub(cut));
    all
}
