//! A slice inside a bigger buffer, with guard bytes on both sides.

use reference::random::dice::Dice;

pub struct Guarded {
    buffer: Vec<u8>,
    begin: usize,
    end: usize,
}

impl Guarded {
    /// A slice with these contents; the guards' lengths and bytes are random.
    pub fn new(contents: &[u8], dice: &mut Dice) -> Guarded {
        let (before, after) = (dice.below(40), dice.below(40));
        let buffer = [
            random_bytes(before, dice),
            contents.to_vec(),
            random_bytes(after, dice),
        ];
        Guarded {
            buffer: buffer.concat(),
            begin: before,
            end: before + contents.len(),
        }
    }

    pub fn slice(&self) -> &[u8] {
        &self.buffer[self.begin..self.end]
    }

    pub fn slice_mut(&mut self) -> &mut [u8] {
        &mut self.buffer[self.begin..self.end]
    }

    /// The whole buffer as it is when the slice has these contents.
    pub fn with(&self, contents: &[u8]) -> Vec<u8> {
        [
            &self.buffer[..self.begin],
            contents,
            &self.buffer[self.end..],
        ]
        .concat()
    }

    /// The whole buffer.
    pub fn buffer(&self) -> &[u8] {
        &self.buffer
    }
}

/// So many bytes of any values.
pub fn random_bytes(count: usize, dice: &mut Dice) -> Vec<u8> {
    let mut bytes = Vec::with_capacity(count + 8);
    while bytes.len() < count {
        bytes.extend(dice.roll().to_le_bytes());
    }
    bytes.truncate(count);
    bytes
}
