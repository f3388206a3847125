//! The statement, written straight into the buffer.

use super::layers::Figures;
use super::{Amounts, POWERS};

/// What is left of the buffer. Each step gives what is left after it.
pub struct Writer<'a>(pub &'a mut [u8]);

/// The two digits of each number below 100.
const PAIRS: [[u8; 2]; 100] = {
    let mut pairs = [[0; 2]; 100];
    let mut number = 0;
    while number < 100 {
        pairs[number] = [b'0' + number as u8 / 10, b'0' + number as u8 % 10];
        number += 1;
    }
    pairs
};

/// How many digits a number above 0 has: as many as the power of two at or below it, or one more.
fn count(number: u64) -> usize {
    // 1,233 / 4,096 is the logarithm of two, near enough for 64 bits.
    let power = (number.ilog2() as usize * 1_233) >> 12;
    power + 1 + usize::from(number >= POWERS[power + 1])
}

fn last_four(number: u64) -> [u8; 4] {
    let [a, b] = PAIRS[(number / 100 % 100) as usize];
    let [c, d] = PAIRS[(number % 100) as usize];
    [a, b, c, d]
}

impl<'a> Writer<'a> {
    #[inline(always)]
    fn text<const N: usize>(self, text: &[u8; N]) -> Writer<'a> {
        let (place, rest) = self.0.split_first_chunk_mut().expect("room");
        *place = *text;
        Writer(rest)
    }

    #[inline(always)]
    fn number(self, number: u64) -> Writer<'a> {
        if number < 10 {
            self.text(&[b'0' + number as u8])
        } else {
            self.longer_number(number)
        }
    }

    #[inline(never)]
    fn longer_number(self, number: u64) -> Writer<'a> {
        let (digits, rest) = self.0.split_at_mut(count(number));
        let mut number = number;
        let mut fours = digits.rchunks_exact_mut(4);
        for four in &mut fours {
            four.copy_from_slice(&last_four(number));
            number /= 10_000;
        }
        let [_, hundreds, tens, ones] = last_four(number);
        match fours.into_remainder() {
            [a] => *a = ones,
            [a, b] => [*a, *b] = [tens, ones],
            [a, b, c] => [*a, *b, *c] = [hundreds, tens, ones],
            _ => (),
        }
        Writer(rest)
    }

    pub fn event(self, day: u64, amounts: &Amounts) -> Writer<'a> {
        self.text(b"(event ").number(day).amounts(amounts)
    }

    pub fn treaty(self, number: u64, ceded: u64) -> Writer<'a> {
        self.text(b"(treaty ").number(number).text(b" (ceded ").number(ceded).text(b"))\n")
    }

    /// A layer's line; the word names its tier.
    pub fn layer<const N: usize>(self, word: &[u8; N], place: u64, figures: &Figures) -> Writer<'a> {
        let line = self.text(word).number(place);
        let line = line.text(b" (deductible ").number(figures.deductible);
        let line = line.text(b") (cover ").number(figures.cover);
        let line = line.text(b") (recovered ").number(figures.paid.recovered);
        line.text(b") (premium ").number(figures.paid.premium).text(b"))\n")
    }

    pub fn total(self, amounts: &Amounts) -> Writer<'a> {
        self.text(b"(total").amounts(amounts)
    }

    fn amounts(self, amounts: &Amounts) -> Writer<'a> {
        let line = self.text(b" (gross ").number(amounts.gross);
        let line = line.text(b") (ceded ").number(amounts.ceded);
        let line = line.text(b") (risk ").number(amounts.risk);
        let line = line.text(b") (cat ").number(amounts.cat);
        let line = line.text(b") (net ").number(amounts.net);
        line.text(b") (premium ").number(amounts.premium).text(b"))\n")
    }
}
