//! Where line feeds stand in texts that are read: among eight bytes, counted by eights from the line's beginning, or
//! among the last bytes of a text, which are fewer than eight.

use crate::damage::NEARLY_FEEDS;

#[derive(Default)]
pub struct Feeds {
    /// Lines that end among eight bytes, by the place there.
    in_eight: [usize; 8],
    /// Lines that end among the last bytes, by the place there.
    in_the_last: [usize; 7],
    /// Lines that end among eight bytes of which a later one is a line feed too.
    of_two: usize,
    /// Lines out of form that have each of these bytes.
    nearly: [usize; NEARLY_FEEDS.len()],
}

impl Feeds {
    /// Counts the lines of a text, or those up to one, counted from 1, that is out of form.
    pub fn count(&mut self, text: &[u8], out_of_form: Option<usize>) {
        let mut begin = 0;
        for (place, line) in text.split_inclusive(|byte| *byte == b'\n').enumerate() {
            if line.ends_with(b"\n") {
                self.count_end(text, begin, line.len() - 1);
            }
            if out_of_form == Some(place + 1) {
                return self.count_nearly(line);
            }
            begin += line.len();
        }
    }

    fn count_end(&mut self, text: &[u8], begin: usize, length: usize) {
        let at = length % 8;
        match text[begin + length - at..].get(..8) {
            Some(eight) => {
                self.in_eight[at] += 1;
                self.of_two += usize::from(eight[at + 1..].contains(&b'\n'));
            }
            None => self.in_the_last[at] += 1,
        }
    }

    fn count_nearly(&mut self, line: &[u8]) {
        for (count, byte) in self.nearly.iter_mut().zip(NEARLY_FEEDS) {
            *count += usize::from(line.contains(&byte));
        }
    }

    /// What can be met and was not.
    pub fn unmet(&self) -> impl Iterator<Item = String> + '_ {
        let in_eight = self.in_eight.iter().enumerate().map(|(at, count)| (format!("place {at} of eight"), *count));
        let in_the_last = self.in_the_last.iter().enumerate();
        let in_the_last = in_the_last.map(|(at, count)| (format!("place {at} of the last"), *count));
        let nearly =
            NEARLY_FEEDS.iter().zip(self.nearly).map(|(byte, count)| (format!("byte {byte} in a line"), count));
        let two = [("two among eight".to_string(), self.of_two)];
        let counts = in_eight.chain(in_the_last).chain(two).chain(nearly);
        counts.filter(|(_, count)| *count == 0).map(|(name, _)| name)
    }

    /// The counts in a line.
    pub fn shown(&self) -> String {
        format!(
            "line feeds: among eight bytes {:?}, two there {}, among the last {:?}; lines with nearly one {:?}",
            self.in_eight, self.of_two, self.in_the_last, self.nearly
        )
    }
}
