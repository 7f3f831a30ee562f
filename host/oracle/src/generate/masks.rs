//! Requests for an address with a netmask in place of the prefix.
use super::cases::{Cases, USUAL, Weights};
use crate::compare::Case;
use crate::netmask::place;
use crate::rng::Rng;

/// An endless stream of them.
pub struct Masks {
    cases: Cases,
    rng: Rng,
}

impl Masks {
    pub fn new(seed: u64) -> Self {
        Self::weighted(seed, USUAL)
    }

    /// Of some origins.
    pub fn weighted(seed: u64, weights: Weights) -> Self {
        Self {
            cases: Cases::new(seed, weights),
            rng: Rng::new(!seed),
        }
    }

    /// The next case of a request for an address: the mask of its prefix,
    /// one beside it, or any word.
    pub fn next_case(&mut self) -> Case {
        loop {
            let (_, mut case) = self.cases.next_case();
            let Some(at) = place(&case.call) else {
                continue;
            };
            // a request cut short may have none
            if let Some(word) = case.call.lent_mut().and_then(|words| words.get_mut(at)) {
                *word = self.mask(*word);
            }
            return case;
        }
    }

    fn mask(&mut self, prefix: u32) -> u32 {
        let mask = reference::mask((prefix % 33) as u8);
        let rng = &mut self.rng;
        match rng.below(8) {
            0 => mask.wrapping_sub(1),
            1 => mask.wrapping_add(1),
            2 => mask ^ (1 << rng.below(32)),
            3 if rng.one_in(4) => prefix,
            _ => mask,
        }
    }
}
