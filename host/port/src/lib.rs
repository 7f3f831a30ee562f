//! The linked library behind the oracle's ports: on bytes, on words, and
//! through `Addresses`.
pub mod comparison;
pub mod constants;
pub mod events;
pub mod guarded;
pub mod library;
pub mod many;
pub mod masks;
pub mod messages;
pub mod parts;
pub mod recordings;
pub mod records;
pub mod typed;
