//! Print, try, up and down once more, written for speed: the engine's times are set against its
//! own. It allocates nothing; lists are bit masks, and a place, a variable or
//! an occurrence is a bit.

mod convert;
mod cursor;
mod job;
mod listing;
mod lookup;
mod moved;
mod names;
mod pen;
mod precedence;
mod print;
mod reader;
mod route;
mod rows;
mod search;
mod trying;
mod version;

pub use convert::{down, up};
pub use job::compared;
pub use print::print;
pub use trying::try_order;

/// A refusal: 01's number and the second number.
pub type Refusal = (u32, u64);
