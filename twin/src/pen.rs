//! Where the listing goes: into the out slice, or into a count of its bytes.

pub trait Pen {
    fn word<const N: usize>(&mut self, word: &[u8; N]);

    /// One space and a number below 100. Some text always follows it.
    fn entry(&mut self, number: u8);

    /// One space and any number.
    fn number(&mut self, number: u64);
}

/// Writes into a slice that is long enough.
pub struct Writer<'a> {
    pub out: &'a mut [u8],
    pub at: usize,
}

/// Counts the bytes.
pub struct Counter(pub usize);

/// A space and the number at each index, filled up with a space.
const ENTRIES: [[u8; 3]; 100] = entries();

const fn entries() -> [[u8; 3]; 100] {
    let mut entries = [[b' '; 3]; 100];
    let mut number = 0;
    while number < 100 {
        let digit = b'0' + number as u8 % 10;
        entries[number] = if number < 10 {
            [b' ', digit, b' ']
        } else {
            [b' ', b'0' + number as u8 / 10, digit]
        };
        number += 1;
    }
    entries
}

impl Pen for Writer<'_> {
    #[inline(always)]
    fn word<const N: usize>(&mut self, word: &[u8; N]) {
        self.out[self.at..self.at + N].copy_from_slice(word);
        self.at += N;
    }

    /// Three bytes are written; what follows takes the place of a third one
    /// that isn't the number's.
    #[inline(always)]
    fn entry(&mut self, number: u8) {
        let end = self.at + 3;
        self.out[self.at..end].copy_from_slice(&ENTRIES[usize::from(number)]);
        self.at = end - usize::from(number < 10);
    }

    fn number(&mut self, number: u64) {
        let mut left = number;
        for place in (1..=digits(number)).rev() {
            self.out[self.at + place] = b'0' + (left % 10) as u8;
            left /= 10;
        }
        self.out[self.at] = b' ';
        self.at += 1 + digits(number);
    }
}

impl Pen for Counter {
    #[inline(always)]
    fn word<const N: usize>(&mut self, _: &[u8; N]) {
        self.0 += N;
    }

    #[inline(always)]
    fn entry(&mut self, number: u8) {
        self.0 += 3 - usize::from(number < 10);
    }

    fn number(&mut self, number: u64) {
        self.0 += 1 + digits(number);
    }
}

fn digits(number: u64) -> usize {
    1 + number.checked_ilog10().unwrap_or(0) as usize
}
