//! The bytes of a sheet and where reading stands: fixed texts, numbers, lists.

use crate::version::Version;

/// The layout breaks at the cursor's offset.
pub struct Broken;

pub struct Cursor<'a> {
    bytes: &'a [u8],
    pub at: usize,
}

/// The entries of a list so far.
#[derive(Clone, Copy, Default)]
pub struct List {
    pub mask: u64,
    /// One above the highest entry.
    pub above: u64,
    /// Some entry is not above the one before.
    pub falls: bool,
}

impl List {
    #[inline(always)]
    fn add(&mut self, entry: u64) {
        self.mask |= 1u64 << (entry & 63);
        self.falls |= entry < self.above;
        self.above = self.above.max(entry + 1);
    }
}

impl<'a> Cursor<'a> {
    pub fn new(bytes: &'a [u8]) -> Cursor<'a> {
        Cursor { bytes, at: 0 }
    }

    pub fn at_end(&self) -> bool {
        self.at == self.bytes.len()
    }

    #[inline(always)]
    fn peek(&self) -> Option<u8> {
        self.bytes.get(self.at).copied()
    }

    /// Whether these bytes come next.
    #[inline(always)]
    pub fn sees<const N: usize>(&self, text: &[u8; N]) -> bool {
        self.bytes[self.at..].first_chunk() == Some(text)
    }

    /// Takes exactly these bytes.
    #[inline(always)]
    pub fn take<const N: usize>(&mut self, text: &[u8; N]) -> Result<(), Broken> {
        if self.sees(text) {
            self.at += N;
            return Ok(());
        }
        self.at += self.agreeing(text);
        Err(Broken)
    }

    /// How many bytes are as in the text.
    #[cold]
    fn agreeing(&self, text: &[u8]) -> usize {
        let pairs = self.bytes[self.at..].iter().zip(text);
        pairs.take_while(|(byte, letter)| byte == letter).count()
    }

    /// At most the version's digits, and no digit after a leading 0.
    #[inline(always)]
    pub fn number<V: Version>(&mut self) -> Result<u64, Broken> {
        let mut value = self.digit().ok_or(Broken)?;
        let most = if value == 0 { 0 } else { V::DIGITS - 1 };
        for _ in 0..most {
            match self.digit() {
                Some(digit) => value = value * 10 + digit,
                None => break,
            }
        }
        Ok(value)
    }

    #[inline(always)]
    fn digit(&mut self) -> Option<u64> {
        let digit = self.peek()?.wrapping_sub(b'0');
        if digit > 9 {
            return None;
        }
        self.at += 1;
        Some(u64::from(digit))
    }

    /// The entries of a list, one space before each.
    #[inline(always)]
    pub fn list<V: Version>(&mut self) -> Result<List, Broken> {
        let mut list = List::default();
        while self.peek() == Some(b' ') {
            self.at += 1;
            list.add(self.number::<V>()?);
        }
        Ok(list)
    }
}
