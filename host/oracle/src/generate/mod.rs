//! The generator: calls, states and whole cases, all from a seed.
pub mod calls;
pub mod cases;
pub mod damage;
pub mod drafts;
pub mod events;
pub mod limits;
pub mod many;
pub mod masks;
pub mod message_damage;
pub mod messages;
pub mod parts;
pub mod pools;
pub mod recordings;
pub mod requests;
pub mod runs;
pub mod states;
