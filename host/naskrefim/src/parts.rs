//! Listings taken in parts.
use crate::addresses::impossible;
use crate::layout::{self, COUNT_AT};
use crate::rows::RouteIter;
use crate::{Addresses, CURSOR_WORDS, F_DUMP_INTR, ROUTE_LIMIT, ROUTE_WORDS};
use crate::{Refused, Reply, Route4, words};
use alloc::vec;
use alloc::vec::Vec;

/// One part of a listing: [`Addresses::dump4_begin`],
/// [`Addresses::dump4_next`].
#[derive(Clone, Debug, PartialEq, Eq)]
#[must_use = "the next part is asked for with its cursor"]
pub struct Part {
    /// Its rows, in the order of [`Addresses::dump4`].
    pub routes: Vec<Route4>,
    /// An address, a route or a table has changed since the listing began,
    /// so that rows may be missing or come twice: netlink's
    /// [`F_DUMP_INTR`]. (At a count of 2^64 - 1, where a change can't be
    /// told, it is always set.)
    pub interrupted: bool,
    /// From where the next part goes on; `None` if this one reaches the
    /// end.
    pub next: Option<Cursor>,
}

/// From where a listing goes on: the next place in the order of
/// [`Addresses::dump4`], and the [`Addresses::changes`] of its start. A host
/// may keep its three words for as long as it likes: any three are a cursor,
/// and one that doesn't belong to the state gives a part that is interrupted
/// or has no row, and nothing worse.
#[derive(Clone, Copy, Debug, PartialEq, Eq, Hash)]
pub struct Cursor([u32; CURSOR_WORDS]);

impl From<[u32; CURSOR_WORDS]> for Cursor {
    fn from(words: [u32; CURSOR_WORDS]) -> Self {
        Self(words)
    }
}

impl From<Cursor> for [u32; CURSOR_WORDS] {
    fn from(cursor: Cursor) -> Self {
        cursor.0
    }
}

/// The parts of a listing one after the other, each of the state as it is
/// when it is asked for: an iterator that is shown the state each time, so
/// that other calls may come between.
///
/// ```
/// use core::net::Ipv4Addr;
/// use naskrefim::{Addresses, Ask4, Parts, Refused};
///
/// # fn main() -> Result<(), Refused> {
/// let mut lo = Addresses::new();
/// lo.up(0)?;
/// let mut parts = Parts::of(2)?;
/// let mut seen = Vec::new();
/// while let Some(part) = parts.next(&lo) {
///     seen.push((part.routes.len(), part.interrupted));
///     lo.add_route4(&Ask4::new(Ipv4Addr::new(10, 2, 0, 0), 24), true).ok();
/// }
/// assert_eq!(seen, [(2, false), (2, true)]);
/// # Ok(())
/// # }
/// ```
#[derive(Clone, Debug)]
pub struct Parts {
    rows: usize,
    at: At,
}

/// Where the next part begins.
#[derive(Clone, Copy, Debug)]
enum At {
    Start,
    Cursor(Cursor),
    End,
}

impl Parts {
    /// A listing of at most `rows` at a time, not yet begun.
    ///
    /// # Errors
    /// [`Refused::UNFIT_REQUEST`] unless `rows` is 1 to 256.
    pub fn of(rows: usize) -> Result<Self, Refused> {
        if (1..=ROUTE_LIMIT).contains(&rows) {
            Ok(Self {
                rows,
                at: At::Start,
            })
        } else {
            Err(Refused::UNFIT_REQUEST)
        }
    }

    /// The next part, of `lo` as it is now; `None` behind the last.
    pub fn next(&mut self, lo: &Addresses) -> Option<Part> {
        let part = match self.at {
            At::Start => lo.dump4_begin(self.rows),
            At::Cursor(cursor) => lo.dump4_next(cursor, self.rows),
            At::End => return None,
        }
        .unwrap_or_else(impossible);
        self.at = part.next.map_or(At::End, At::Cursor);
        Some(part)
    }
}

impl Addresses {
    /// How many calls have changed an address, a route or a table of this
    /// state, refused ones too. It stops at 2^64 - 1.
    ///
    /// ```
    /// use naskrefim::{Addresses, Refused};
    /// let mut lo = Addresses::new();
    /// lo.up(0)?;
    /// assert_eq!(lo.changes(), 1);
    /// lo.up(0)?;
    /// assert_eq!(lo.changes(), 1, "nothing was added");
    /// # Ok::<(), Refused>(())
    /// ```
    #[must_use]
    pub fn changes(&self) -> u64 {
        layout::whole(self.words()[COUNT_AT], self.words()[COUNT_AT + 1])
    }

    /// The first part of a listing: at most `rows` of what
    /// [`Self::dump4`] gives. Every other call may come before the next
    /// part.
    ///
    /// # Errors
    /// [`Refused::UNFIT_REQUEST`] unless `rows` is 1 to 256.
    ///
    /// A status page, which shows a screen of rows at a time while guests go
    /// on changing:
    ///
    /// ```
    /// use core::net::Ipv4Addr;
    /// use naskrefim::{Addresses, Ask4, Refused};
    ///
    /// # fn main() -> Result<(), Refused> {
    /// let mut lo = Addresses::new();
    /// lo.up(0)?;
    /// let mut page = lo.dump4_begin(2)?;
    /// let mut shown = page.routes.len();
    /// lo.up(1)?; // changes nothing
    /// while let Some(cursor) = page.next {
    ///     page = lo.dump4_next(cursor, 2)?;
    ///     shown += page.routes.len();
    /// }
    /// assert!(shown == 3 && !page.interrupted);
    ///
    /// let mut page = lo.dump4_begin(2)?;
    /// lo.add_route4(&Ask4::new(Ipv4Addr::new(10, 2, 0, 0), 24), true)?;
    /// while let Some(cursor) = page.next {
    ///     page = lo.dump4_next(cursor, 2)?;
    /// }
    /// assert!(page.interrupted, "the page says so, or begins again");
    /// # Ok(())
    /// # }
    /// ```
    pub fn dump4_begin(&self, rows: usize) -> Result<Part, Refused> {
        // nothing in it is looked at
        self.part(words::dump4_begin, Cursor([0; CURSOR_WORDS]), rows)
    }

    /// The next part of a listing, at most `rows`, from where the part
    /// before left off.
    ///
    /// # Errors
    /// [`Refused::UNFIT_REQUEST`] unless `rows` is 1 to 256; the cursor can
    /// be used again.
    pub fn dump4_next(&self, cursor: Cursor, rows: usize) -> Result<Part, Refused> {
        self.part(words::dump4_next, cursor, rows)
    }

    fn part(&self, call: Call, mut cursor: Cursor, rows: usize) -> Result<Part, Refused> {
        let mut listing = vec![0; ROUTE_WORDS * rows.min(ROUTE_LIMIT)];
        let asked = layout::count(rows);
        let reply = call(&self.words()[..], &mut listing, &mut cursor.0, asked).accepted()?;
        Ok(Part {
            routes: RouteIter::of(&listing, reply.value).collect(),
            interrupted: reply.present == u32::from(F_DUMP_INTR),
            next: (reply.second == 0).then_some(cursor),
        })
    }
}

type Call = fn(&[u32], &mut [u32], &mut [u32], u32) -> Reply;
