//! Faults put into the lines of a table that is accepted.

use crate::damage::{form, number_at, range, replace_number, Fault};
use crate::draw::{line, Lines, LARGEST_AMOUNT, LARGEST_RATE, MOST_RATES};
use crate::random::Random;
use std::cmp::Ordering;

/// The kinds of a table's lines, in the order in which they stand.
#[derive(Clone, Copy, Debug, PartialEq, Eq)]
pub enum Kind {
    Treaty,
    Risk,
    Cat,
}

/// Each kind behind each later one.
pub const MISPLACED: [(Kind, Kind); 3] =
    [(Kind::Treaty, Kind::Risk), (Kind::Treaty, Kind::Cat), (Kind::Risk, Kind::Cat)];

/// What can be wrong with a layer's K and its rates, each with its refusal.
pub const MISRATED: [(&str, u64); 5] = [
    ("too few rates", 2),
    ("too many rates", 2),
    ("k too large without its rates", 2),
    ("k too large with its rates", 3),
    ("a rate too large", 3),
];

/// What can be wrong with `(time)`, each refused with 2.
pub const MISTIMED: [&str; 6] =
    ["misspelt", "twice", "other brackets", "other spaces", "before the placed share", "on a treaty"];

/// The first of these as they can stand after a layer's placed share.
const MISTIMED_ENDS: [&[&str]; 4] = [
    &[" (tim))", " (tine))", " (Time))", " (times))", " (time 1))", " (time 0))", " ())"],
    &[" (time) (time))"],
    &[" (time)", " (time", " (time)))", " time))", " time)", ") (time)"],
    &["(time))", "  (time))", " (time) )", " (time ))", " ( time))", " (time)\r)"],
];

/// The kind of a line by its first word, if it has one.
pub fn kind_of(line: &[u8]) -> Option<Kind> {
    match line.split(|byte| *byte == b' ').next() {
        Some(b"(quota" | b"(surplus") => Some(Kind::Treaty),
        Some(b"(risk") => Some(Kind::Risk),
        Some(b"(cat") => Some(Kind::Cat),
        _ => None,
    }
}

fn is_layer(line: &[u8]) -> bool {
    matches!(kind_of(line), Some(Kind::Risk | Kind::Cat))
}

/// Refusal 4: a kind out of order, a treaty number that does not rise.
pub fn order(random: &mut Random, lines: &mut Lines, place: usize) {
    match random.between(0, 3) {
        0 => lines.insert(place, lines[place].clone()),
        1 => lines.insert(0, lines[0].clone()),
        _ => {
            let (kind, later) = random.pick(&MISPLACED);
            misplace(random, lines, kind, later);
        }
    }
}

/// A line for a table that has none of the kind.
fn plain(kind: Kind) -> Vec<u8> {
    let text = match kind {
        Kind::Treaty => "(quota 8 (cede 1) (capacity 1) (event 1))",
        Kind::Risk => "(risk (band 0 1) (deduct 0) (back 0 0) (placed 1))",
        Kind::Cat => "(cat (band 0 1) (deduct 0) (back 0 0) (placed 1))",
    };
    line(text.to_string())
}

/// Refusal 4: the last line of a kind behind some line of a later kind, where its kind alone is out of order. A table
/// without a line of the one or of the other is given one.
pub fn misplace(random: &mut Random, lines: &mut Lines, kind: Kind, later: Kind) {
    let is_of = |kind: Kind| move |line: &Vec<u8>| kind_of(line) == Some(kind);
    let moved = match lines.iter().rposition(is_of(kind)) {
        Some(place) => lines.remove(place),
        None => plain(kind),
    };
    if !lines.iter().any(is_of(later)) {
        let end = lines.iter().position(is_of(Kind::Cat)).unwrap_or(lines.len());
        lines.insert(end, plain(later));
    }
    let places: Vec<usize> = (0..lines.len()).filter(|place| is_of(later)(&lines[*place])).collect();
    lines.insert(random.pick(&places) + 1, moved);
}

/// Refusal 4: a ninth layer of a tier, which may have an attachment too low as well.
pub fn ninth(random: &mut Random, lines: &mut Lines, _: usize) {
    let tier = random.pick(&["risk", "cat"]);
    let low = LARGEST_AMOUNT - 9;
    let layer = |attachment| line(format!("({tier} (band {attachment} 1) (deduct 0) (back 0 0) (placed 1))"));
    lines.retain(|text| !is_layer(text));
    lines.extend((low..low + 8).map(layer));
    if !random.one_in(4) {
        lines.push(layer(random.pick(&[0, low + 7, low + 8])));
    }
}

/// Refusal 5: an attachment below the end of the band before, or just at it.
pub fn band(random: &mut Random, lines: &mut Lines, place: usize) {
    let Some(place) = (place..lines.len()).find(|place| is_layer(&lines[*place])) else {
        return;
    };
    let before = lines[place].clone();
    let end = number_at(&before, 0) + number_at(&before, 1);
    let mut after = before;
    let attachment = random.pick(&[end, end.saturating_sub(1), end.saturating_sub(1), 0]);
    replace_number(&mut after, 0, attachment.to_string().as_bytes());
    lines.insert(place + 1, after);
}

/// Where the items of a layer's reinstatements begin and end in its line.
fn back_place(line: &[u8]) -> Option<(usize, usize)> {
    let begin = line.windows(6).position(|bytes| bytes == b"(back ")? + 6;
    let length = line[begin..].iter().position(|byte| *byte == b')')?;
    Some((begin, begin + length))
}

/// A layer's K, premium and rates; none if they are not numbers.
fn back_of(line: &[u8]) -> Option<(u64, u64, Vec<u64>)> {
    let (begin, end) = back_place(line)?;
    let items = std::str::from_utf8(&line[begin..end]).ok()?.split(' ').map(str::parse);
    match items.collect::<Result<Vec<u64>, _>>().ok()?.as_slice() {
        [count, premium, rates @ ..] => Some((*count, *premium, rates.to_vec())),
        _ => None,
    }
}

/// Puts another K and other rates into a layer's line.
pub fn set_rates(line: &mut Vec<u8>, count: u64, rates: &[u64]) {
    if let (Some((begin, end)), Some((_, premium, _))) = (back_place(line), back_of(line)) {
        let listed: String = rates.iter().map(|rate| format!(" {rate}")).collect();
        line.splice(begin..end, format!("{count} {premium}{listed}").into_bytes());
    }
}

/// Which of these is wrong with the line at fault, if one is.
pub fn misrated(line: &[u8], refusal: u64) -> Option<usize> {
    let (count, _, rates) = back_of(line)?;
    let place = match (rates.len() as u64).cmp(&count) {
        _ if count > MOST_RATES && rates.len() as u64 != count => 2,
        Ordering::Less => 0,
        Ordering::Greater => 1,
        Ordering::Equal if count > MOST_RATES => 3,
        Ordering::Equal if rates.iter().any(|rate| *rate > LARGEST_RATE) => 4,
        Ordering::Equal => return None,
    };
    (MISRATED[place].1 == refusal).then_some(place)
}

/// The place of some layer's line. A table without a layer is given one.
fn some_layer(random: &mut Random, lines: &mut Lines) -> usize {
    if !lines.iter().any(|line| is_layer(line)) {
        lines.push(plain(Kind::Cat));
    }
    let places: Vec<usize> = (0..lines.len()).filter(|place| is_layer(&lines[*place])).collect();
    random.pick(&places)
}

/// Refusals 2 and 3: something wrong with the K and the rates of a layer. A table without a layer is given one.
pub fn misrate(random: &mut Random, lines: &mut Lines, wrong: usize) {
    let place = some_layer(random, lines);
    let line = &mut lines[place];
    let Some((count, _, rates)) = back_of(line) else { return };
    let rate = random.pick(&[0, 1, 7_201, LARGEST_RATE]);
    let some = [rates.clone(), vec![rate]].concat();
    let (count, rates) = match wrong {
        0 if rates.is_empty() => (random.pick(&[1, MOST_RATES]), rates),
        0 => (count, rates[random.place(rates.len())..].iter().skip(1).copied().collect()),
        1 if count > 0 && random.one_in(2) => (random.between(0, count - 1), rates),
        1 => (count, some),
        2 => (random.pick(&[21, 22, 9_999_999_999_999_999]), vec![rate; random.pick(&[0, 1, 19, 20])]),
        3 => {
            let count = random.pick(&[21, 21, 22, 40, 100]);
            (count, some.iter().cycle().take(count as usize).copied().collect())
        }
        _ => {
            let mut rates = if rates.is_empty() { some } else { rates };
            let place = random.place(rates.len());
            rates[place] = random.pick(&[LARGEST_RATE + 1, LARGEST_RATE + 1, 40_000, 9_999_999_999_999_999]);
            (rates.len() as u64, rates)
        }
    };
    set_rates(line, count, &rates);
}

/// The same as one fault among others.
pub fn rates(random: &mut Random, lines: &mut Lines, _: usize) {
    let wrong = random.place(MISRATED.len());
    misrate(random, lines, wrong);
}

/// Where the item of a layer's placed share begins and ends in its line.
fn placed_place(line: &[u8]) -> Option<(usize, usize)> {
    let begin = line.windows(8).position(|bytes| bytes == b"(placed ")?;
    let length = line[begin..].iter().position(|byte| *byte == b')')? + 1;
    Some((begin, begin + length))
}

/// Puts these words after a layer's placed share, up to the line feed.
fn set_end(line: &mut Vec<u8>, end: &str) {
    if let Some((_, placed)) = placed_place(line) {
        line.splice(placed.., end.bytes().chain([b'\n']));
    }
}

/// Which of these is wrong with `(time)` in the line at fault, if one is.
pub fn mistimed(line: &[u8]) -> Option<usize> {
    if kind_of(line) == Some(Kind::Treaty) {
        return line.ends_with(b" (time))").then_some(5);
    }
    let (begin, end) = placed_place(line)?;
    if line[..begin].ends_with(b"(time) ") {
        return Some(4);
    }
    MISTIMED_ENDS.iter().position(|ends| ends.iter().any(|words| line[end..] == *words.as_bytes()))
}

/// Refusal 2: something wrong with `(time)` of a layer or of a treaty. A table without one is given one.
pub fn mistime(random: &mut Random, lines: &mut Lines, wrong: usize) {
    if wrong == 5 {
        return mistime_treaty(random, lines);
    }
    let place = some_layer(random, lines);
    let line = &mut lines[place];
    match MISTIMED_ENDS.get(wrong) {
        Some(ends) => set_end(line, random.pick(ends)),
        None => {
            set_end(line, ")");
            let placed = placed_place(line).map_or(0, |(begin, _)| begin);
            line.splice(placed..placed, *b"(time) ");
        }
    }
}

fn mistime_treaty(random: &mut Random, lines: &mut Lines) {
    if !lines.iter().any(|line| kind_of(line) == Some(Kind::Treaty)) {
        lines.insert(0, plain(Kind::Treaty));
    }
    let count = lines.iter().filter(|line| kind_of(line) == Some(Kind::Treaty)).count();
    let line = &mut lines[random.place(count)];
    let end = line.len().saturating_sub(2);
    line.splice(end..end, *b" (time)");
}

/// The same as one fault among others.
pub fn time(random: &mut Random, lines: &mut Lines, _: usize) {
    let wrong = random.place(MISTIMED.len());
    mistime(random, lines, wrong);
}

/// Two faults on one line of a table, where the lower refusal decides.
pub fn table_line(random: &mut Random, lines: &mut Lines, place: usize) {
    let first = random.pick(&[order as Fault, ninth, band]);
    let second = random.pick(&[band as Fault, range, form]);
    first(random, lines, place);
    let last = lines.len() - 1;
    let place = random.pick(&[last, (place + 1).min(last)]);
    second(random, lines, place);
}
