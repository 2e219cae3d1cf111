//! Decimal numbers, as in the crate itoa.

/// Memory for the digits of a number.
pub struct Buffer([u8; 20]);

/// The digits of a number.
pub struct Digits<'a>(&'a [u8]);

impl Digits<'_> {
    /// Returns the digits in ASCII.
    pub fn as_bytes(&self) -> &[u8] {
        self.0
    }
}

impl Buffer {
    pub fn new() -> Self {
        Buffer([0; 20])
    }

    /// Returns the number in decimal.
    pub fn format(&mut self, number: u64) -> Digits<'_> {
        let (mut start, mut rest) = (self.0.len(), number);
        loop {
            start -= 1;
            self.0[start] = b"0123456789"[(rest % 10) as usize];
            rest /= 10;
            if rest == 0 {
                return Digits(&self.0[start..]);
            }
        }
    }
}
