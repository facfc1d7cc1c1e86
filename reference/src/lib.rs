//! The second program for the route mover, written from 01 and 02 alone: plain,
//! slow where that is clearer, with their words. Operations take the facts of a
//! sheet (`sheet::Sheet`), its bytes or a shelf; a refusal is a number and a
//! second number of theirs.

pub mod convert;
pub mod fit;
pub mod job;
pub mod judge;
pub mod layout;
pub mod lines;
pub mod listing;
pub mod lookup;
pub mod net;
pub mod print;
pub mod random;
pub mod reads;
pub mod record;
pub mod refusal;
pub mod script;
pub mod search;
pub mod sheet;
pub mod shelf;
pub mod slice;
pub mod tokens;
pub mod values;
pub mod version;
