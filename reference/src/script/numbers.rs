//! The numbers of a script: base ten, one or more spaces or LFs between.

/// A script has at most this many bytes; no more are taken.
pub const MOST_BYTES: usize = 65_536;

/// The numbers not yet taken.
pub struct Numbers<'a> {
    words: Box<dyn Iterator<Item = &'a [u8]> + 'a>,
}

impl Numbers<'_> {
    pub fn of(script: &str) -> Numbers<'_> {
        let bytes = script.as_bytes();
        let words = bytes[..bytes.len().min(MOST_BYTES)]
            .split(|byte| matches!(byte, b' ' | b'\n'))
            .filter(|word| !word.is_empty());
        Numbers {
            words: Box::new(words),
        }
    }

    /// The next number, below 2^64; none at the script's end, at a word with
    /// another byte, or where the number is past its limit.
    pub fn any(&mut self) -> Option<u64> {
        let word = self.words.next()?;
        word.iter().try_fold(0, |number: u64, byte| {
            let digit = byte.is_ascii_digit().then(|| byte - b'0')?;
            number.checked_mul(10)?.checked_add(digit.into())
        })
    }

    /// The next number, if it is at most so much.
    pub fn most(&mut self, most: u64) -> Option<u64> {
        self.any().filter(|&number| number <= most)
    }
}
