//! The exported functions of the port's library, as they are declared
//! there, and a safe function for each. Nothing checks these declarations
//! against the library but the comparison (`port`) that runs them.
//!
//! A lent slice passes as its pointer and then its length, in elements.
//! The library writes only what is lent to it as `&mut`, within its length,
//! and keeps nothing.
#![allow(unsafe_code)]

use crate::Refused;

/// What every call replies: `number` is 0, or the number of the refusal, and
/// then the rest is 0.
#[repr(C)]
#[derive(Clone, Copy, Debug, Default, PartialEq, Eq, Hash)]
pub struct Reply {
    /// 0, or why the call was refused.
    pub number: u32,
    /// Whether `value` is there, of `source4` and `select4`; the mark, of a
    /// part of a listing.
    pub present: u32,
    /// What the call answers: see there.
    pub value: u32,
    /// The valid lifetime, of `left`; the words written, of `read`; whether
    /// it reaches the end, of a part of a listing.
    pub second: u32,
}

impl Reply {
    /// Itself, unless the call was refused.
    ///
    /// # Errors
    /// The refusal.
    ///
    /// ```
    /// use naskrefim::{Refused, words};
    /// assert_eq!(words::check(&[]).accepted(), Err(Refused::UNFIT_BUFFER));
    /// ```
    pub const fn accepted(self) -> Result<Self, Refused> {
        match Refused::of(self.number) {
            None => Ok(self),
            Some(refused) => Err(refused),
        }
    }
}

/// How a slice is lent: for reading or for writing; or bytes for either,
/// beside whatever the call is on.
macro_rules! lent {
    (read $element:ty) => {
        &[$element]
    };
    (write $element:ty) => {
        &mut [$element]
    };
    (bytes $element:ty) => {
        &[u8]
    };
    (write_bytes $element:ty) => {
        &mut [u8]
    };
}
macro_rules! raw {
    (read $element:ty) => { *const $element };
    (write $element:ty) => { *mut $element };
    (bytes $element:ty) => { *const u8 };
    (write_bytes $element:ty) => { *mut u8 };
}
macro_rules! pointer {
    (write $slice:ident) => {
        ptr::from_mut($slice)
    };
    (write_bytes $slice:ident) => {
        ptr::from_mut($slice)
    };
    ($other:ident $slice:ident) => {
        ptr::from_ref($slice)
    };
}

/// A safe function for each exported one: slices, then numbers.
macro_rules! calls {
    ($element:ty, $prefix:literal: $(
        $(#[$doc:meta])*
        $name:ident($($slice:ident: $how:ident),*; $($number:ident: $of:ty),*);
    )*) => {
        use super::Reply;
        #[allow(unused_imports)]
        use core::ptr;

        mod library {
            use super::Reply;
            unsafe extern "C" {
                $(
                    #[link_name = concat!($prefix, stringify!($name))]
                    pub fn $name($(_: raw!($how $element), _: usize,)* $(_: $of),*) -> Reply;
                )*
            }
        }
        $(
            $(#[$doc])*
            ///
            #[doc = concat!("Calls `", $prefix, stringify!($name), "`.")]
            #[must_use = "a refusal is told by nothing else"]
            pub fn $name($($slice: lent!($how $element),)* $($number: $of),*) -> Reply {
                $(let $slice = pointer!($how $slice);)*
                // SAFETY: each pointer and length are those of one borrowed
                // slice, borrowed as the library asks and for the whole call
                unsafe { library::$name($($slice.cast(), $slice.len(),)* $($number),*) }
            }
        )*
    };
}

/// The exported functions of one kind of element: their names begin with
/// the prefix.
macro_rules! exported {
    ($element:ty, $prefix:literal) => {
        calls! { $element, $prefix:
            /// The device goes up at the clock `now`: see
            /// [`Addresses::up`](crate::Addresses::up). `value` is the
            /// number of event rows.
            up(state: write, events: write; now: u64);
            /// The device goes down: see
            /// [`Addresses::down`](crate::Addresses::down). `value` is the
            /// number of event rows, 1.
            down(state: write, events: write;);
            /// An address is added, or changed: see
            /// [`Addresses::add_v4`](crate::Addresses::add_v4). `value` is
            /// the number of event rows.
            add_v4(state: write, request: read, events: write; now: u64);
            /// An address goes: see
            /// [`Addresses::del_v4`](crate::Addresses::del_v4). `value` is
            /// the number of event rows.
            del_v4(state: write, request: read, events: write;);
            /// [`add_v4`] with a netmask in the prefix's word of the
            /// request: see
            /// [`Addresses::add_v4_mask`](crate::Addresses::add_v4_mask).
            add_v4_mask(state: write, request: read, events: write; now: u64);
            /// [`del_v4`] with a netmask in the prefix's word of the
            /// request: see
            /// [`Addresses::del_v4_mask`](crate::Addresses::del_v4_mask).
            del_v4_mask(state: write, request: read, events: write;);
            /// Addresses run out at the clock `now`, sooner by at most
            /// `allowance`: see
            /// [`Addresses::expire`](crate::Addresses::expire). `value` is
            /// the number of event rows.
            expire(state: write, events: write; now: u64, allowance: u64);
            /// A route is added: see
            /// [`Addresses::add_route4`](crate::Addresses::add_route4).
            /// `value` is the number of event rows.
            add_route4(state: write, request: read, events: write;);
            /// A route goes: see
            /// [`Addresses::del_route4`](crate::Addresses::del_route4).
            /// `value` is the number of event rows.
            del_route4(state: write, request: read, events: write;);
            /// The routes are listed: see
            /// [`Addresses::dump4`](crate::Addresses::dump4). `value` is
            /// the number of rows.
            dump4(state: read, listing: write;);
            /// The first part of a listing, at most `rows` rows, for which
            /// `listing` has room: see
            /// [`Addresses::dump4_begin`](crate::Addresses::dump4_begin).
            /// `value` is the number of rows, `present` the mark
            /// ([`F_DUMP_INTR`](crate::F_DUMP_INTR)) or 0, `second` 1 if
            /// they reach the end. All of `cursor`,
            /// [`CURSOR_WORDS`](crate::CURSOR_WORDS), is written, and
            /// nothing in it is looked at.
            dump4_begin(state: read, listing: write, cursor: write; rows: u32);
            /// The next part of a listing, from where `cursor` says, which
            /// then says where this one ends: see
            /// [`Addresses::dump4_next`](crate::Addresses::dump4_next).
            /// Otherwise as [`dump4_begin`].
            dump4_next(state: read, listing: write, cursor: write; rows: u32);
            /// The route to `ip` is written to `row`: see
            /// [`Addresses::lookup4`](crate::Addresses::lookup4).
            lookup4(state: read, row: write; ip: u32);
            /// The route of a flow is written to `row`: see
            /// [`Addresses::lookup4_flow`](crate::Addresses::lookup4_flow).
            lookup4_flow(state: read, row: write; ip: u32, tos: u32, oif: u32);
            /// The routes to `destinations`, at most
            /// [`DESTINATION_LIMIT`](crate::DESTINATION_LIMIT) and rising,
            /// are written to `answers`,
            /// [`ANSWER_WORDS`](crate::ANSWER_WORDS) for each: see
            /// [`Addresses::lookup4_many`](crate::Addresses::lookup4_many).
            /// `value` is the number of rows weighed.
            lookup4_many(state: read, destinations: read, answers: write;);
            /// Whether `ip` is the loopback's own: `value` is 1 or 0.
            local4(state: read; ip: u32);
            /// The source of packets to `ip` by the route in `row`:
            /// `present` is 1 and `value` the address, if there is one.
            source4(state: read, row: read; ip: u32);
            /// The source of packets to `ip`: `value` is the address.
            source(state: read; ip: u32);
            /// The address chosen for `dst`, if `dst_present` is 1, and
            /// `scope`: `present` is 1 and `value` the address, if there is
            /// one.
            select4(state: read; dst_present: u32, dst: u32, scope: u32);
            /// The lifetimes that the address in `row` has left at the
            /// clock `now`: `value` is the preferred one, `second` the
            /// valid one.
            left(row: read; now: u64);
            /// Looks at a state and does nothing else: `number` is 200 for
            /// a wrong length, 201 for words that are not well-formed,
            /// else 0.
            check(state: read;);
            /// One rtnetlink message is read, and the request that it
            /// carries written from the start of `request`, which has room
            /// for [`DEL_ROUTE4_WORDS`](crate::DEL_ROUTE4_WORDS): see
            /// [`Request::read`](crate::Request::read). `value` is the
            /// message's type (20, 21, 24 or 25: a request to `add_v4`,
            /// `del_v4`, `add_route4` or `del_route4`), `second` the number
            /// of words written. `up` becomes the request's last word where
            /// it has one for it.
            read(message: bytes, request: write; up: u32);
            /// The event in `event` is written as one rtnetlink message,
            /// from the start of `message`, which has room for
            /// [`MESSAGE_BYTES`](crate::MESSAGE_BYTES): see
            /// [`Event::message`](crate::Event::message). `value` is the
            /// number of bytes written.
            write(event: read, message: write_bytes; sequence: u32, port: u32, now: u64);
            /// The route rows that a recording of event rows rebuilds are
            /// written from the start of `rows`, which has room for
            /// [`LISTING_BUFFER_WORDS`](crate::LISTING_BUFFER_WORDS): see
            /// [`rebuild`](crate::rebuild). `value` is the number of rows.
            /// 200 for a recording that isn't whole event rows; then the
            /// earliest event that is refused decides, by 208 for its kind
            /// and else 209.
            rebuild(recording: read, rows: write;);
            /// Whether two recordings rebuild the same rows in the same
            /// order: `value` is 1 or 0. 200 for either; then 208 or 209 for
            /// the first, then for the second.
            same(first: read, second: read;);
        }
    };
}

/// The calls on bytes: all words little-endian, slices of any alignment.
/// They copy the state to the stack and back: see [Stack](crate#stack).
///
/// ```
/// use naskrefim::{EVENT_BUFFER_WORDS, STATE_WORDS, bytes};
/// let (mut state, mut events) = ([0; 4 * STATE_WORDS], [0; 4 * EVENT_BUFFER_WORDS]);
/// assert_eq!(bytes::up(&mut state, &mut events, 0).value, 4);
/// assert_eq!(bytes::local4(&state, 0x7f000001).value, 1);
/// ```
pub mod bytes {
    exported! { u8, "interface4_" }
}

/// The calls on words, where they are.
///
/// ```
/// use naskrefim::{EVENT_BUFFER_WORDS, STATE_WORDS, words};
/// let (mut state, mut events) = ([0; STATE_WORDS], [0; EVENT_BUFFER_WORDS]);
/// assert_eq!(words::up(&mut state, &mut events, 0).value, 4);
/// assert_eq!(words::source(&state, 0x0a000001).value, 0x7f000001);
/// ```
pub mod words {
    exported! { u32, "interface4w_" }
}

/// What is lent nothing, once for both.
mod library {
    calls! { u8, "interface4_":
        /// The library's sizes.
        sizes(;);
        /// The prefix of a netmask.
        prefix(; mask: u32);
    }
}

/// The prefix of a netmask: `value` is the count of its ones, or the number
/// is 207. [`Netmask`](crate::Netmask) asks it.
///
/// ```
/// assert_eq!(naskrefim::prefix(0xffff_ff00).value, 24);
/// assert_eq!(naskrefim::prefix(0xff00_ff00).number, 207);
/// ```
#[must_use = "a refusal is told by nothing else"]
pub fn prefix(mask: u32) -> Reply {
    library::prefix(mask)
}

/// The sizes that a library means: see [`sizes`].
#[derive(Clone, Copy, Debug, PartialEq, Eq, Hash)]
pub struct Sizes {
    /// The words of a state.
    pub state_words: usize,
    /// The fewest rows of an event buffer.
    pub event_rows: usize,
    /// The last of document 02's papers that the library has.
    pub paper: u32,
}

/// The sizes that the linked library means, which must be this crate's.
///
/// ```
/// use naskrefim::{EVENT_LIMIT, STATE_WORDS, sizes};
/// let sizes = sizes();
/// assert_eq!((sizes.state_words, sizes.event_rows), (STATE_WORDS, EVENT_LIMIT));
/// assert_eq!(sizes.paper, 10);
/// ```
#[must_use]
pub fn sizes() -> Sizes {
    let reply = library::sizes();
    Sizes {
        state_words: reply.value as usize,
        event_rows: reply.second as usize,
        paper: reply.present,
    }
}
