//! The events text, read from front to back. Its form is taken for granted.

use super::POWERS;

pub struct Loss {
    pub treaty: usize,
    pub maximum: u64,
    pub amount: u64,
}

/// What is left of a text.
pub struct Reader<'a>(pub &'a [u8]);

/// Of these bits of eight bytes a digit has its own set, and the space or bracket that ends a number has not.
const DIGIT_BITS: u64 = 0x1010_1010_1010_1010;

/// The number of up to eight digits that are the upper bytes of a word, the first digit lowest; below are zeros.
fn value(digits: u64) -> u64 {
    let ones = digits & 0x0f0f_0f0f_0f0f_0f0f;
    let twos = (ones.wrapping_mul(10) + (ones >> 8)) & 0x00ff_00ff_00ff_00ff;
    let fours = (twos.wrapping_mul(100) + (twos >> 16)) & 0x0000_ffff_0000_ffff;
    (fours.wrapping_mul(10_000) + (fours >> 32)) & 0xffff_ffff
}

impl Reader<'_> {
    fn skip(&mut self, text: &str) {
        self.0 = &self.0[text.len()..];
    }

    /// Takes the beginning of the next event; gives its day.
    #[inline(always)]
    pub fn event(&mut self) -> Option<u64> {
        if self.0.is_empty() {
            return None;
        }
        self.skip("(event ");
        Some(self.number())
    }

    /// Takes the next loss of the event, or the event's end.
    #[inline(always)]
    pub fn loss(&mut self) -> Option<Loss> {
        // A treaty's number has one digit.
        let [b' ', _, _, _, _, _, _, treaty, _, rest @ ..] = self.0 else {
            self.skip(")\n");
            return None;
        };
        self.0 = rest;
        let maximum = self.number();
        self.skip(" ");
        let amount = self.number();
        self.skip(")");
        Some(Loss { treaty: usize::from(treaty - b'0'), maximum, amount })
    }

    /// Takes a number of at most sixteen digits.
    #[inline(always)]
    fn number(&mut self) -> u64 {
        let (first, count) = self.digits();
        if count < 8 || !self.0[0].is_ascii_digit() {
            return first;
        }
        let (rest, count) = self.digits();
        first * POWERS[count] + rest
    }

    /// Takes up to eight digits; gives their number and how many there are.
    #[inline(always)]
    fn digits(&mut self) -> (u64, usize) {
        let word = self.word();
        let bits = (!word & DIGIT_BITS).trailing_zeros() & !7;
        let count = bits as usize / 8;
        self.0 = &self.0[count..];
        (value(word << (64 - bits)), count)
    }

    /// The next eight bytes, the first lowest; zeros past the end of the text.
    #[inline(always)]
    fn word(&self) -> u64 {
        let bytes = self.0.first_chunk().copied().unwrap_or_else(|| {
            let mut bytes = [0; 8];
            bytes[..self.0.len()].copy_from_slice(self.0);
            bytes
        });
        u64::from_le_bytes(bytes)
    }
}
