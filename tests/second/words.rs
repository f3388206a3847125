//! The words and numbers of a text that is read.

/// Takes one number off the front: 1 to 16 digits without a leading zero.
pub fn number(rest: &mut &[u8]) -> Option<u64> {
    let mut value = 0;
    let mut digits = 0;
    while let Some(digit @ b'0'..=b'9') = rest.get(digits) {
        value = value * 10 + u64::from(digit - b'0');
        digits += 1;
        if digits > 16 {
            return None;
        }
    }
    if digits == 0 || (digits > 1 && rest[0] == b'0') {
        return None;
    }
    *rest = &rest[digits..];
    Some(value)
}

pub fn word(rest: &mut &[u8], expected: &[u8]) -> Option<()> {
    *rest = rest.strip_prefix(expected)?;
    Some(())
}

/// Takes a form off the front, where `#` stands for a number; gives its numbers.
pub fn numbers<const N: usize>(form: &str, rest: &mut &[u8]) -> Option<[u64; N]> {
    let mut found = [0; N];
    let mut words = form.split('#');
    word(rest, words.next()?.as_bytes())?;
    for (place, after) in found.iter_mut().zip(words) {
        *place = number(rest)?;
        word(rest, after.as_bytes())?;
    }
    Some(found)
}
