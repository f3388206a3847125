//! Faults put into the lines of a text that is accepted, a table, events or a scale: each aims at one refusal, or at
//! none in particular.

use crate::draw::{line, Lines, LARGEST_AMOUNT, LARGEST_RATE, MOST_RATES};
use crate::random::Random;

/// Puts a fault into the line at a place.
pub type Fault = fn(&mut Random, &mut Lines, usize);

/// The least and the greatest number.
pub type Range = (u64, u64);

pub const AMOUNT: Range = (0, LARGEST_AMOUNT);
pub const SHARE: Range = (0, 10_000);
const QUOTA: [Range; 4] = [(1, 8), SHARE, AMOUNT, AMOUNT];
const SURPLUS: [Range; 4] = [(1, 8), AMOUNT, (0, 100), AMOUNT];
/// A layer's numbers but for its rates, which stand before the last.
pub const LAYER: [Range; 6] =
    [AMOUNT, (1, LARGEST_AMOUNT), (0, 1_000_000_000_000_000), (0, MOST_RATES), (0, 1_000_000_000_000), SHARE];
pub const RATE: Range = (0, LARGEST_RATE);
const LOSS: [Range; 3] = [(0, 8), (1, LARGEST_AMOUNT), AMOUNT];
const DAY: [Range; 2] = [(1, 366), SHARE];

/// Bytes next to the line feed in number, a bit away from it, or above 127.
pub const NEARLY_FEEDS: [u8; 8] = [0x08, 0x09, 0x0b, 0x0e, 0x1a, 0x8a, 0x8b, 0xff];

/// The ranges of a line's numbers in order, as many as the line has.
pub fn ranges(line: &[u8]) -> Vec<Range> {
    let form: Vec<Range> = if line.starts_with(b"(quota") {
        QUOTA.to_vec()
    } else if line.starts_with(b"(surplus") {
        SURPLUS.to_vec()
    } else if line.starts_with(b"(event") {
        std::iter::once((1, 366)).chain(LOSS.into_iter().cycle().take(300)).collect()
    } else if line.starts_with(b"(day") {
        DAY.to_vec()
    } else {
        let rates = vec![RATE; number_places(line).len().saturating_sub(LAYER.len())];
        [&LAYER[..5], &rates, &LAYER[5..]].concat()
    };
    form.into_iter().take(number_places(line).len()).collect()
}

/// Where each number of a line begins and ends.
fn number_places(line: &[u8]) -> Vec<(usize, usize)> {
    let mut places = Vec::new();
    let mut at = 0;
    while at < line.len() {
        let digits = line[at..].iter().take_while(|byte| byte.is_ascii_digit()).count();
        if digits > 0 {
            places.push((at, at + digits));
        }
        at += digits + 1;
    }
    places
}

/// Puts other bytes in the place of a line's number.
pub fn replace_number(line: &mut Vec<u8>, place: usize, text: &[u8]) {
    if let Some((begin, end)) = number_places(line).get(place) {
        line.splice(begin..end, text.iter().copied());
    }
}

/// The number at a place of a line; 0 if there is none that fits.
pub fn number_at(line: &[u8], place: usize) -> u64 {
    let digits = number_places(line).get(place).map(|(begin, end)| String::from_utf8_lossy(&line[*begin..*end]));
    digits.and_then(|digits| digits.parse().ok()).unwrap_or(0)
}

fn random_number_place(random: &mut Random, line: &[u8]) -> usize {
    random.place(number_places(line).len().max(1))
}

fn spaces(line: &[u8]) -> Vec<usize> {
    (0..line.len()).filter(|place| line[*place] == b' ').collect()
}

/// A number that is none: sign, leading zero, seventeen digits and the like.
fn no_number(random: &mut Random, line: &mut Vec<u8>) {
    let place = random_number_place(random, line);
    let number = number_at(line, place);
    let texts = [
        format!("0{number}"),
        "00".to_string(),
        format!("-{number}"),
        format!("+{number}"),
        "10000000000000000".to_string(),
        "00000000000000001".to_string(),
        "99999999999999999999".to_string(),
        String::new(),
        "1e5".to_string(),
        "1.0".to_string(),
        "1,000".to_string(),
        "x".to_string(),
    ];
    replace_number(line, place, texts[random.place(texts.len())].as_bytes());
}

/// A space doubled, dropped or made a tab.
fn no_space(random: &mut Random, line: &mut Vec<u8>) {
    let places = spaces(line);
    if places.is_empty() {
        return line.insert(0, b' ');
    }
    let place = places[random.place(places.len())];
    match random.between(0, 2) {
        0 => line.insert(place, b' '),
        1 => drop(line.remove(place)),
        _ => line[place] = b'\t',
    }
}

/// Something at an end of the line: spaces, a carriage return, brackets, an empty line, no line feed.
fn no_end(random: &mut Random, line: &mut Vec<u8>) {
    let end = line.len().saturating_sub(1);
    match random.between(0, 8) {
        0 => line.insert(end, b' '),
        1 => line.insert(end, b'\r'),
        2 => line.insert(end, b')'),
        3 => line.insert(0, b' '),
        4 => line.insert(0, b'\n'),
        5 => line.push(b'\n'),
        6 => line.truncate(end),
        7 => line.truncate(random.place(line.len() + 1)),
        _ => drop(line.splice(end.saturating_sub(1)..end, *b"")),
    }
}

/// Another byte in place of one: not ASCII, zero, the other case, a bracket.
fn no_word(random: &mut Random, line: &mut [u8]) {
    if line.is_empty() {
        return;
    }
    let place = random.place(line.len());
    line[place] = match random.between(0, 4) {
        0 => random.between(128, 255) as u8,
        1 => 0,
        2 => b'(',
        3 => b'\n',
        _ => line[place] ^ 0x20,
    };
}

/// Refusals 2, 10 and 28: a line out of form.
pub fn form(random: &mut Random, lines: &mut Lines, place: usize) {
    match random.between(0, 3) {
        0 => no_number(random, &mut lines[place]),
        1 => no_space(random, &mut lines[place]),
        2 => no_end(random, &mut lines[place]),
        _ => no_word(random, &mut lines[place]),
    }
}

/// Refusals 3, 11 and 29: a number outside its range; of a layer's K, and of a scale's day, it makes a line out of
/// form.
pub fn range(random: &mut Random, lines: &mut Lines, place: usize) {
    let ranges = ranges(&lines[place]);
    if ranges.is_empty() {
        return;
    }
    let number = random.place(ranges.len());
    let (low, high) = ranges[number];
    let outside = if low > 0 && random.one_in(3) { low - 1 } else { high + random.pick(&[1, 1, 2, high]).max(1) };
    replace_number(&mut lines[place], number, outside.to_string().as_bytes());
}

/// Refusal 12: 65 losses, or one fewer, which are accepted.
pub fn count(random: &mut Random, lines: &mut Lines, place: usize) {
    let day = number_at(&lines[place], 0);
    let forms = " (loss 0 7 5)".repeat(random.pick(&[64, 65, 65, 66, 100]));
    lines[place] = line(format!("(event {day}{forms})"));
}

/// Refusal 13: a day below the one before, or the same one.
pub fn day(random: &mut Random, lines: &mut Lines, place: usize) {
    let place = place.max(1).min(lines.len() - 1);
    let before = number_at(&lines[place.saturating_sub(1)], 0);
    let day = random.pick(&[before, before.saturating_sub(1), before.saturating_sub(1), 1]);
    replace_number(&mut lines[place], 0, day.max(1).to_string().as_bytes());
}

/// Refusal 14: treaties that the table may lack.
pub fn treaty(random: &mut Random, lines: &mut Lines, place: usize) {
    for _ in 0..random.between(1, 3) {
        let end = lines[place].len().saturating_sub(2);
        let loss = format!(" (loss {} 9 9)", random.between(1, 8));
        lines[place].splice(end..end, loss.bytes());
    }
}

/// Two faults on one line of events, where the lower refusal decides.
pub fn events_line(random: &mut Random, lines: &mut Lines, place: usize) {
    let faults = [count, day, treaty, range, form];
    let second = 1 + random.place(faults.len() - 1);
    let first = random.place(second);
    let place = place.max(1).min(lines.len() - 1);
    faults[first](random, lines, place);
    faults[second](random, lines, place);
}

/// Ends a line with the byte at a place of those that are nearly a line feed; past them, with two line feeds more.
pub fn end_otherwise(line: &mut Vec<u8>, nearly: usize) {
    match NEARLY_FEEDS.get(nearly) {
        Some(byte) => {
            line.pop();
            line.push(*byte);
        }
        None => line.extend(b"\n\n"),
    }
}

/// The lines with another end in place of the line feed.
fn with_ends(lines: &Lines, end: &[u8]) -> Vec<u8> {
    lines.iter().flat_map(|line| [line.strip_suffix(b"\n").unwrap_or(line), end].concat()).collect()
}

/// The ends of the whole text: no last line feed, carriage returns, bytes after the last line feed or before all.
pub fn line_ends(random: &mut Random, lines: &mut Lines, _: usize) {
    let mut text = lines.concat();
    match random.between(0, 5) {
        0 | 1 => drop(text.pop()),
        2 => text = with_ends(lines, b"\r\n"),
        3 => text = with_ends(lines, b"\r"),
        4 => text.push(random.pick(b"\n \0\r)\x1a")),
        _ => text.insert(0, random.pick(b"\n \0\r(\xef")),
    }
    *lines = vec![text];
}

/// Some bytes of the text changed, added or dropped, or two lines changed about; many such texts are accepted.
pub fn bytes(random: &mut Random, lines: &mut Lines, place: usize) {
    let other = random.place(lines.len());
    let text = &mut lines[place];
    let at = random.place(text.len().max(1));
    match random.between(0, 4) {
        0 if at < text.len() => text[at] ^= 1 << random.between(0, 7),
        1 if at < text.len() => drop(text.remove(at)),
        2 => lines.swap(place, other),
        3 if at < text.len() => text[at] = random.between(b'0'.into(), b'9'.into()) as u8,
        _ => text.insert(at.min(text.len()), random.pick(b" \n()0123456789\r\t\0\xff\x80a")),
    }
}
