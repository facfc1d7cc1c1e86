//! Refusals: a number and a second number, from 01's table or from 02.

/// What an operation answers when a row stops it.
#[derive(Clone, Copy, Debug, PartialEq, Eq, PartialOrd, Ord)]
pub struct Refusal {
    pub number: u32,
    pub second: usize,
}

/// The refusal by this row, with this second number.
pub fn refuse<T>(number: u32, second: usize) -> Result<T, Refusal> {
    Err(Refusal { number, second })
}

/// Refuses when the row's condition holds.
pub fn refuse_if(condition: bool, number: u32, second: usize) -> Result<(), Refusal> {
    if condition {
        refuse(number, second)
    } else {
        Ok(())
    }
}
