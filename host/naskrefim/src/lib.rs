//! IPv4 on a guest's loopback: addresses, routes, source choice.
//!
//! The code behind it is a static library in which every function is proved
//! to meet its contract; this crate is the way in from Rust. [`Addresses`]
//! is what a host wants: it has the names and types of paludarium's
//! `Addresses`, and refusals are the documents' numbers ([`Refused`]).
//! [`words`] and [`bytes`] are the calls as the library has them, on lent
//! slices, for hosts that keep the state elsewhere. [`Request`] is what an
//! rtnetlink message asks for, as it comes off the socket, and
//! [`Addresses::perform`] does it; [`Event::message`] is what those who
//! listen are told. [`Parts`] lists the routes a few at a time while other
//! calls go on. [`Addresses::lookup4_many`] looks up to 256 destinations up
//! together. [`rebuild`] makes the routes of a recording of events, and
//! [`same`] holds two recordings together. No function of this crate is
//! unsafe, whatever it is given.
//!
//! ```
//! use core::net::Ipv4Addr;
//! use naskrefim::{Addresses, Event, Lifetimes, Refused, SCOPE_UNIVERSE, V4};
//!
//! # fn main() -> Result<(), Refused> {
//! let mut lo = Addresses::new();
//! lo.up(0)?;
//! let own = Ipv4Addr::new(10, 1, 0, 5);
//! let new = V4::new(own, own, 24, SCOPE_UNIVERSE);
//! let told = lo.add_v4(new, Lifetimes::FOREVER, false, true, 1_000)?;
//! assert!(matches!(&told[0], Event::NewAddr4(new) if new.local == own));
//! assert_eq!(told.len(), 4);
//!
//! let peer = Ipv4Addr::new(10, 1, 0, 77);
//! assert_eq!(lo.source(peer), own);
//! assert_eq!(
//!     lo.lookup4(Ipv4Addr::new(192, 0, 2, 1)),
//!     Err(Refused::NO_ROUTE_TO_NETWORK)
//! );
//! # Ok(())
//! # }
//! ```
//!
//! # What a build needs
//!
//! The library: `rt lib` in crates/interface4 writes it where it is looked
//! for, and NASKREFIM_LIB names another file. It is for 64-bit x86 Linux (words
//! little-endian); a build for another target stops and says so. The crate
//! needs `alloc` and no `std`, and Rust 1.88 (`slice::as_chunks`). The
//! library itself calls `memcpy`, `memmove`, `memset` and nothing else.
//!
//! # Stack
//!
//! The library has no heap: what a call needs besides the lent slices is on
//! its caller's stack. At most so many bytes, on any input:
//!
//! | call | [`words`] | [`bytes`] |
//! |---|---:|---:|
//! | `up` | 94,208 | 188,416 |
//! | `down` | 4,096 | 40,960 |
//! | `add_v4` | 45,056 | 135,168 |
//! | `del_v4` | 4,096 | 98,304 |
//! | `expire` | 4,096 | 98,304 |
//! | `add_route4` | 4,096 | 94,208 |
//! | `del_route4` | 4,096 | 94,208 |
//! | `dump4` | 8,192 | 77,824 |
//! | `dump4_begin` | 36,864 | 110,592 |
//! | `dump4_next` | 36,864 | 110,592 |
//! | `lookup4` | 4,096 | 40,960 |
//! | `lookup4_flow` | 4,096 | 40,960 |
//! | `lookup4_many` | 4,096 | 77,824 |
//! | `local4` | 4,096 | 40,960 |
//! | `source4` | 4,096 | 40,960 |
//! | `source` | 4,096 | 40,960 |
//! | `select4` | 4,096 | 40,960 |
//! | `left` | 4,096 | 4,096 |
//! | `check` | 4,096 | 40,960 |
//! | `read` | 4,096 | 4,096 |
//! | `add_v4_mask` | 45,056 | 172,032 |
//! | `del_v4_mask` | 4,096 | 131,072 |
//! | `write` | 4,096 | 4,096 |
//! | `rebuild` | 40,960 | 40,960 |
//! | `same` | 77,824 | 77,824 |
//!
//! [`Addresses`] calls [`words`], and needs less than 4,096 bytes of its
//! own. The numbers are those of the C header; `host/c/stack` finds them
//! anew.

#![no_std]
#![deny(missing_docs)]

extern crate alloc;

mod addresses;
mod boundary;
mod constants;
mod layout;
mod many;
mod netmask;
mod parts;
mod recordings;
mod records;
mod refused;
mod request;
mod rows;
mod tables;

pub use addresses::Addresses;
pub use boundary::{Reply, Sizes, bytes, prefix, sizes, words};
pub use constants::{
    ALLOWANCE_LIMIT, DEPRECATED, F_APPEND, F_CREATE, F_DUMP_INTR, F_EXCL, F_REPLACE, FOREVER, FUZZ,
    NO_METRICS, NO_PREFIX_ROUTE, PERMANENT, PROTO_KERNEL, SCOPE_HOST, SCOPE_LINK, SCOPE_NOWHERE,
    SCOPE_UNIVERSE, SECONDARY, TABLE_DEFAULT, TABLE_LOCAL, TABLE_MAIN,
};
pub use many::Lookups;
pub use netmask::Netmask;
pub use parts::{Cursor, Part, Parts};
pub use recordings::{rebuild, same};
pub use records::{Ask4, Event, Kind, Life, Lifetimes, Metrics, Route4, Select4, V4};
pub use refused::Refused;
pub use request::Request;
pub use rows::{AddressIter, RouteIter};
pub use tables::Table;

/// The file that was linked.
pub const LIBRARY: &str = env!("NASKREFIM_LINKED");

/// The most addresses that a state holds.
pub const ADDRESS_LIMIT: usize = 64;
/// The most routes that a state holds, those of all tables together.
pub const ROUTE_LIMIT: usize = 256;
/// The most tables that a state lists.
pub const TABLE_LIMIT: usize = 32;
/// The most events that a call tells.
pub const EVENT_LIMIT: usize = 385;

/// The words of an address row.
pub const ADDRESS_WORDS: usize = 20;
/// The words of a route row.
pub const ROUTE_WORDS: usize = 32;
/// The words of an event row.
pub const EVENT_WORDS: usize = 34;

/// The words of a state: three counts, the address rows, the route rows,
/// the tables, the change count's low and high word, the tables' row counts.
pub const STATE_WORDS: usize =
    3 + ADDRESS_LIMIT * ADDRESS_WORDS + ROUTE_LIMIT * ROUTE_WORDS + TABLE_LIMIT + 2 + TABLE_LIMIT;
/// The fewest words of an event buffer.
pub const EVENT_BUFFER_WORDS: usize = EVENT_LIMIT * EVENT_WORDS;
/// The fewest words of a listing buffer.
pub const LISTING_BUFFER_WORDS: usize = ROUTE_LIMIT * ROUTE_WORDS;

/// The words of the cursor of a listing that is taken in parts: the next
/// place, and the start's change count as its low and its high word.
pub const CURSOR_WORDS: usize = 3;

/// The most destinations of [`Addresses::lookup4_many`].
pub const DESTINATION_LIMIT: usize = 256;
/// The words of an answer of [`words::lookup4_many`]: the number or 0, and
/// the row or zeros.
pub const ANSWER_WORDS: usize = 1 + ROUTE_WORDS;

/// The most bytes of the message of an [`Event`], and the fewest that
/// [`words::write`] is lent for it.
pub const MESSAGE_BYTES: usize = 216;

/// The words of a request to [`words::add_v4`].
pub const ADD_V4_WORDS: usize = 18;
/// The words of a request to [`words::del_v4`].
pub const DEL_V4_WORDS: usize = 11;
/// The words of a request to [`words::add_route4`].
pub const ADD_ROUTE4_WORDS: usize = 34;
/// The words of a request to [`words::del_route4`].
pub const DEL_ROUTE4_WORDS: usize = 49;
