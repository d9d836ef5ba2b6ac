//! Words and numbers, written into a buffer that has room for them.

pub struct Text<'a> {
    bytes: &'a mut [u8],
    at: usize,
}

impl<'a> Text<'a> {
    /// Writes from this place on.
    #[inline]
    pub fn new(bytes: &'a mut [u8], at: usize) -> Self {
        Text { bytes, at }
    }

    /// The place behind what is written.
    #[inline]
    pub fn end(&self) -> usize {
        self.at
    }

    #[inline]
    pub fn byte(&mut self, byte: u8) {
        self.bytes[self.at] = byte;
        self.at += 1;
    }

    #[inline]
    pub fn bytes(&mut self, bytes: &[u8]) {
        self.bytes[self.at..self.at + bytes.len()].copy_from_slice(bytes);
        self.at += bytes.len();
    }

    /// Copies all twenty places, of which those past the number are written over by what follows.
    #[inline]
    pub fn line_number(&mut self, line: &LineNumber) {
        self.bytes[self.at..self.at + line.digits.len()].copy_from_slice(&line.digits);
        self.at += line.length;
    }

    /// Two digits at a time, from the last.
    #[inline]
    pub fn number(&mut self, mut value: u64) {
        let length = value.checked_ilog10().map_or(1, |log| log as usize + 1);
        let digits = &mut self.bytes[self.at..self.at + length];
        self.at += length;
        let mut pairs = digits.rchunks_exact_mut(2);
        for pair in &mut pairs {
            pair.copy_from_slice(&PAIRS[(value % 100) as usize]);
            value /= 100;
        }
        if let [first] = pairs.into_remainder() {
            *first = b'0' + value as u8;
        }
    }
}

/// The numbers below 100 in two digits.
static PAIRS: [[u8; 2]; 100] = {
    let mut pairs = [[b'0'; 2]; 100];
    let mut value = 0;
    while value < 100 {
        pairs[value] = [b'0' + value as u8 / 10, b'0' + value as u8 % 10];
        value += 1;
    }
    pairs
};

/// A line number kept in decimal, since every line prints it.
pub struct LineNumber {
    digits: [u8; 20],
    length: usize,
}

impl LineNumber {
    pub fn zero() -> Self {
        LineNumber { digits: [b'0'; 20], length: 1 }
    }

    #[inline]
    pub fn advance(&mut self) {
        for digit in self.digits[..self.length].iter_mut().rev() {
            if *digit < b'9' {
                *digit += 1;
                return;
            }
            *digit = b'0';
        }
        self.digits[0] = b'1';
        self.digits[self.length] = b'0';
        self.length += 1;
    }
}
