//! Recordings of events, and the routes that they rebuild.
use crate::rows::RouteIter;
use crate::{EVENT_WORDS, Event, LISTING_BUFFER_WORDS, Refused, Route4, layout, words};
use alloc::vec;
use alloc::vec::Vec;

/// The routes that a recording of events rebuilds, in the state's order: from
/// all events of a run from empty, those of [`Addresses::routes`].
///
/// [`F_REPLACE`] in the flags of a new route replaces the first route alike in
/// destination, length, table, tos and priority; else [`F_APPEND`] adds it
/// behind the alike ones, and without it stands before them.
/// [`Event::LinkDown`] and [`Event::IpDisabled`] take the routes that go with
/// them. Addresses rebuild nothing.
///
/// # Errors
/// [`Refused::UNFIT_EVENT`] for an address or a route that could stand in no
/// state, a deletion of a route that isn't there, a replacement where none is
/// alike, an addition of a route or a replacement by one that is there
/// already, and a 257th route.
///
/// ```
/// use core::net::Ipv4Addr;
/// use naskrefim::{Addresses, Ask4, Event, Refused, rebuild};
///
/// # fn main() -> Result<(), Refused> {
/// let mut lo = Addresses::new();
/// let mut recording = lo.up(0)?;
/// let ask = Ask4::new(Ipv4Addr::new(10, 2, 0, 0), 24);
/// recording.extend(lo.add_route4(&ask, true)?);
/// assert_eq!(rebuild(&recording)?.len(), 4);
///
/// // two routes are of host scope
/// recording.extend(lo.down());
/// assert_eq!(recording.last(), Some(&Event::LinkDown));
/// assert!(lo.routes().eq(rebuild(&recording)?));
/// assert_eq!(lo.routes().len(), 2);
///
/// // one can't go twice
/// let gone = Event::DelRoute4(lo.routes().next().unwrap());
/// recording.extend([gone.clone(), gone]);
/// assert_eq!(rebuild(&recording), Err(Refused::UNFIT_EVENT));
/// # Ok(())
/// # }
/// ```
///
/// [`Addresses::routes`]: crate::Addresses::routes
/// [`F_REPLACE`]: crate::F_REPLACE
/// [`F_APPEND`]: crate::F_APPEND
pub fn rebuild(recording: &[Event]) -> Result<Vec<Route4>, Refused> {
    let mut rows = vec![0; LISTING_BUFFER_WORDS];
    let reply = words::rebuild(&recorded(recording), &mut rows).accepted()?;
    Ok(RouteIter::of(&rows, reply.value).collect())
}

/// Whether two recordings rebuild the same routes in the same order.
///
/// # Errors
/// As of [`rebuild`], for the first and then for the second.
///
/// ```
/// use core::net::Ipv4Addr;
/// use naskrefim::{Addresses, Ask4, Refused, same};
///
/// # fn main() -> Result<(), Refused> {
/// let ask = |i| Ask4::new(Ipv4Addr::new(10, 2, i, 0), 24);
/// let (mut one, mut other) = (Addresses::new(), Addresses::new());
/// let (mut first, mut second) = (one.up(0)?, other.up(5)?);
/// first.extend(one.add_route4(&ask(1), true)?);
/// first.extend(one.add_route4(&ask(2), true)?);
/// second.extend(other.add_route4(&ask(2), true)?);
/// assert!(!same(&first, &second)?);
/// second.extend(other.add_route4(&ask(1), true)?);
/// assert!(same(&first, &second)?, "in whatever order they were asked for");
/// # Ok(())
/// # }
/// ```
pub fn same(first: &[Event], second: &[Event]) -> Result<bool, Refused> {
    let reply = words::same(&recorded(first), &recorded(second)).accepted()?;
    Ok(reply.value == 1)
}

/// The words of a recording.
fn recorded(events: &[Event]) -> Vec<u32> {
    let mut words = Vec::with_capacity(EVENT_WORDS * events.len());
    for event in events {
        words.extend(layout::event_row(event));
    }
    words
}
