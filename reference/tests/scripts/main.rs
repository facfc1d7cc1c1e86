//! Scripts: worked answers for 01's examples, for wrong records, for shelves, for
//! look-ups, for cloth, for starts, for sheets between editions, for readings and for
//! branches taken, and random scripts held to a direct reading of 01's and 02's
//! definitions.

mod branches;
mod cloth;
mod common;
mod convert;
mod direct;
#[path = "../random/kinds.rs"]
mod kinds;
#[path = "../random/kinds_of_branches.rs"]
mod kinds_of_branches;
#[path = "../random/kinds_of_cloth.rs"]
mod kinds_of_cloth;
#[path = "../random/kinds_of_convert.rs"]
mod kinds_of_convert;
mod kinds_of_lookups;
#[path = "../random/kinds_of_reads.rs"]
mod kinds_of_reads;
#[path = "../random/kinds_of_starts.rs"]
mod kinds_of_starts;
mod letters;
mod lookup;
mod names;
mod random;
mod random_branches;
mod random_cloth;
mod random_lookups;
mod random_reads;
mod random_shelves;
mod random_starts;
mod reads;
mod rows;
mod shelf;
mod starts;
mod version;
mod words;
mod wrong_lookups;
