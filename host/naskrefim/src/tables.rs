//! The listed tables with their row counts, and states that were kept before
//! there were counts.
use crate::layout::{COUNT_AT, ROUTES_AT, ROW_COUNTS_AT, TABLES_AT};
use crate::{Addresses, ROUTE_WORDS, Refused, STATE_WORDS};
use alloc::vec::Vec;
use core::iter::{FusedIterator, zip};

/// A listed table, and how many routes it has: [`Addresses::tables`].
#[derive(Clone, Copy, Debug, PartialEq, Eq, Hash)]
pub struct Table {
    /// Its number: [`TABLE_MAIN`](crate::TABLE_MAIN) and so on.
    pub table: u32,
    /// How many of the state's routes are its own, at most 256.
    pub rows: usize,
}

impl Addresses {
    /// The listed tables, the oldest first, each with the number of its
    /// routes. The state keeps it: no route is looked at.
    ///
    /// ```
    /// use core::net::Ipv4Addr;
    /// use naskrefim::{Addresses, Ask4, Refused, TABLE_LOCAL, TABLE_MAIN, Table};
    ///
    /// # fn main() -> Result<(), Refused> {
    /// let mut lo = Addresses::new();
    /// lo.up(0)?;
    /// lo.add_route4(&Ask4::new(Ipv4Addr::new(10, 2, 0, 0), 24), true)?;
    /// let main = Table { table: TABLE_MAIN, rows: 1 };
    /// let local = Table { table: TABLE_LOCAL, rows: 3 };
    /// assert!(lo.tables().eq([main, local]));
    /// let busiest = lo.tables().max_by_key(|t| t.rows);
    /// assert_eq!(busiest, Some(local));
    /// # Ok(())
    /// # }
    /// ```
    #[must_use = "a table is made as it is asked for"]
    pub fn tables(
        &self,
    ) -> impl DoubleEndedIterator<Item = Table> + ExactSizeIterator + FusedIterator + Clone {
        let words = self.words();
        let listed = words[2] as usize;
        let tables = &words[TABLES_AT..][..listed];
        zip(tables, &words[ROW_COUNTS_AT..][..listed]).map(|(&table, &rows)| Table {
            table,
            rows: rows as usize,
        })
    }

    /// Whether `table` is listed.
    #[must_use]
    pub fn has_table4(&self, table: u32) -> bool {
        self.tables().any(|listed| listed.table == table)
    }

    /// The state of words that an older library left, which
    /// [`Self::from_words`] refuses for their length: 9,507, or 9,509 with
    /// the change count. What is missing is put behind them: a count of no
    /// changes, and the tables' row counts, which are made here. Words of
    /// today's length are taken as they are.
    ///
    /// # Errors
    /// As of [`Self::from_words`].
    ///
    /// ```
    /// use naskrefim::{Addresses, Refused};
    /// let mut lo = Addresses::new();
    /// lo.up(0)?;
    /// let kept = &lo.words()[..9_509];
    /// assert_eq!(Addresses::from_words(kept), Err(Refused::UNFIT_BUFFER));
    /// let taken = Addresses::from_older_words(kept)?;
    /// assert_eq!(taken.words(), lo.words());
    /// let taken = Addresses::from_older_words(&kept[..9_507])?;
    /// assert_eq!((&taken, taken.changes()), (&lo, 0));
    /// # Ok::<(), Refused>(())
    /// ```
    pub fn from_older_words(state: &[u32]) -> Result<Self, Refused> {
        if ![COUNT_AT, ROW_COUNTS_AT].contains(&state.len()) {
            return Self::from_words(state);
        }
        let (rows, _) = state[ROUTES_AT..TABLES_AT].as_chunks::<ROUTE_WORDS>();
        // lists over their limits are refused with all else that is unfit
        let rows = rows.get(..state[1] as usize).unwrap_or_default();
        let tables = state[TABLES_AT..COUNT_AT].get(..state[2] as usize);
        let of = |table: &u32| -> u32 {
            let own = rows.iter().map(|row| u32::from(row[0] == *table));
            own.sum()
        };
        let counts = tables.unwrap_or_default().iter().map(of);
        let mut whole: Vec<u32> = state.to_vec();
        whole.resize(ROW_COUNTS_AT, 0);
        whole.extend(counts);
        whole.resize(STATE_WORDS, 0);
        Self::from_words(&whole)
    }
}
