//! The versions of the layout: 01's, and the present one.

pub trait Version {
    /// Of any number.
    const DIGITS: usize;
    const GREATEST_NAME: u64;
    /// Whether a step may have the mark.
    const CLOTH: bool;
    /// Whether a start line follows each head.
    const START: bool;

    fn is_name(name: u64) -> bool {
        (1..=Self::GREATEST_NAME).contains(&name)
    }
}

pub struct Scope;
pub struct Present;

impl Version for Scope {
    const DIGITS: usize = 5;
    const GREATEST_NAME: u64 = 65_535;
    const CLOTH: bool = false;
    const START: bool = false;
}

impl Version for Present {
    const DIGITS: usize = 10;
    const GREATEST_NAME: u64 = 4_294_967_295;
    const CLOTH: bool = true;
    const START: bool = true;
}
