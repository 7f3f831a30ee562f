//! Destinations looked up together.
use crate::{ANSWER_WORDS, Addresses, DESTINATION_LIMIT, Refused, Route4, layout, words};
use alloc::vec;
use alloc::vec::Vec;
use core::net::Ipv4Addr;

/// What [`Addresses::lookup4_many`] answers.
#[derive(Clone, Debug, PartialEq, Eq)]
pub struct Lookups {
    /// For each destination, in their order, what [`Addresses::lookup4`]
    /// gives.
    pub answers: Vec<Result<Route4, Refused>>,
    /// How many routes were weighed: those of the tables 254 and 255 whose
    /// `dst` isn't above the last destination, and, if 253 is listed, those
    /// of 253 whose `dst` isn't above the last destination for which 254 and
    /// 255 have none or a throw.
    pub weighed: usize,
}

impl Addresses {
    /// The routes to up to 256 destinations in rising order, equal ones
    /// allowed: for each what [`Self::lookup4`] gives, refusals included,
    /// found by one walk of the routes for each set of tables.
    ///
    /// # Errors
    /// [`Refused::TOO_MANY_DESTINATIONS`] for more than 256,
    /// [`Refused::NOT_RISING`] where one is below the one before it.
    ///
    /// ```
    /// use core::net::Ipv4Addr;
    /// use naskrefim::{Addresses, Refused};
    ///
    /// # fn main() -> Result<(), Refused> {
    /// let mut lo = Addresses::new();
    /// lo.up(0)?;
    /// let mut to = [
    ///     Ipv4Addr::new(127, 0, 0, 9),
    ///     Ipv4Addr::new(192, 0, 2, 1),
    ///     Ipv4Addr::new(127, 0, 0, 1),
    /// ];
    /// assert_eq!(lo.lookup4_many(&to), Err(Refused::NOT_RISING));
    /// to.sort();
    /// let found = lo.lookup4_many(&to)?;
    /// for (ip, answer) in to.iter().zip(&found.answers) {
    ///     assert_eq!(*answer, lo.lookup4(*ip));
    /// }
    /// assert_eq!(found.answers[2], Err(Refused::NO_ROUTE_TO_NETWORK));
    /// assert_eq!(found.weighed, 3, "127.0.0.0/8, 127.0.0.1 and 127.255.255.255");
    /// # Ok(())
    /// # }
    /// ```
    pub fn lookup4_many(&self, destinations: &[Ipv4Addr]) -> Result<Lookups, Refused> {
        // of too many, one more than may be is refused like all of them
        let asked = destinations.iter().take(DESTINATION_LIMIT + 1);
        let asked: Vec<u32> = asked.map(|&ip| ip.into()).collect();
        let mut answers = vec![0; ANSWER_WORDS * asked.len()];
        let reply = words::lookup4_many(&self.words()[..], &asked, &mut answers).accepted()?;
        let (answers, _) = answers.as_chunks();
        Ok(Lookups {
            answers: answers.iter().map(answer).collect(),
            weighed: reply.value as usize,
        })
    }
}

/// The number or 0, and the row or zeros.
fn answer(words: &[u32; ANSWER_WORDS]) -> Result<Route4, Refused> {
    let [number, row @ ..] = words;
    match Refused::of(*number) {
        None => Ok(layout::route(row)),
        Some(refused) => Err(refused),
    }
}
