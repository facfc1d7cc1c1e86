//! The engine, held to the second program: every answer, and every byte of every
//! slice that a call is lent. Print, try, up and down on sheets are called through
//! the static library, and all operations by the program `drive`, over scripts.
//!
//! The seed is fixed; the variable SEED gives another.

mod branches;
mod compare;
mod conversions;
mod convert;
mod crowded;
mod damaged;
mod drive;
mod example;
mod guarded;
mod hard;
mod hard_sheet;
mod large;
mod listings;
mod long;
mod lookups;
mod orders;
mod parts;
mod remembering;
mod scripts;
mod seed;
mod shelves;
mod slices;
mod some_order;
mod table;
mod tally;
mod unwritten;
mod unwritten_scripts;
mod versions;
mod wrong_scripts;
mod wrong_shelves;
