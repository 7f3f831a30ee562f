//! Rows of held words as iterators.
use crate::layout;
use crate::records::{Route4, V4};
use crate::{ADDRESS_WORDS, ROUTE_WORDS};
use core::iter::FusedIterator;
use core::slice;

macro_rules! rows {
    ($(#[$doc:meta])* $name:ident: $words:ident of $record:ident by $made:path) => {
        $(#[$doc])*
        #[derive(Clone, Debug)]
        #[must_use = "a record is made as it is asked for"]
        pub struct $name<'a>(slice::Iter<'a, [u32; $words]>);

        impl<'a> $name<'a> {
            /// The first `count` rows of `words`.
            pub(crate) fn of(words: &'a [u32], count: u32) -> Self {
                Self(words.as_chunks().0[..count as usize].iter())
            }
        }
        impl Iterator for $name<'_> {
            type Item = $record;
            fn next(&mut self) -> Option<$record> {
                self.0.next().map($made)
            }
            // no record is made of a row that is passed over
            fn nth(&mut self, n: usize) -> Option<$record> {
                self.0.nth(n).map($made)
            }
            fn last(mut self) -> Option<$record> {
                self.next_back()
            }
            fn count(self) -> usize {
                self.0.len()
            }
            fn size_hint(&self) -> (usize, Option<usize>) {
                self.0.size_hint()
            }
        }
        impl DoubleEndedIterator for $name<'_> {
            fn next_back(&mut self) -> Option<$record> {
                self.0.next_back().map($made)
            }
        }
        impl ExactSizeIterator for $name<'_> {}
        impl FusedIterator for $name<'_> {}
    };
}

rows! {
    /// Addresses, each made of its row as it is asked for:
    /// [`Addresses::addresses`](crate::Addresses::addresses).
    AddressIter: ADDRESS_WORDS of V4 by layout::address
}
rows! {
    /// Routes, each made of its row as it is asked for:
    /// [`Addresses::routes`](crate::Addresses::routes).
    RouteIter: ROUTE_WORDS of Route4 by layout::route
}
