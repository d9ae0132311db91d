//! What a loop saw.

/// How many characters a loop saw, and a number that depends on each part that it saw. It crosses from Rattle as it is.
#[repr(C)]
#[derive(Clone, Copy, Debug, Default, PartialEq)]
pub struct Seen {
    pub chars: u64,
    sum: u64,
}

impl Seen {
    pub fn part(&mut self, chars: usize) {
        self.chars = self.chars.wrapping_add(chars as u64);
        self.sum = self.sum.wrapping_mul(31).wrapping_add(chars as u64);
    }

    pub fn char(&mut self, c: char) {
        self.chars = self.chars.wrapping_add(1);
        self.sum = self.sum.wrapping_add(c as u64);
    }
}
