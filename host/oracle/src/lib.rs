//! The oracle: what each of document 01's calls must answer, and every
//! word that it must leave, by the unchanged Rust.

pub mod call;
pub mod campaign;
pub mod checks;
pub mod compare;
pub mod coverage;
pub mod document;
pub mod event;
pub mod events;
pub mod examples;
pub mod facts;
pub mod faults;
pub mod fit;
pub mod generate;
pub mod json;
pub mod linux;
pub mod listed;
pub mod many;
pub mod message;
pub mod messages;
pub mod model;
pub mod netmask;
pub mod pairs;
pub mod part;
pub mod parts;
pub mod port;
pub mod recording;
pub mod recordings;
pub mod rfc;
pub mod rng;
pub mod script;
pub mod tables;
pub mod vectors;
pub mod well_formed;
pub mod words;
