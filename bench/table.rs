// Reading and writing a treaty table against a plain Rust reader and writer: the same answers, and how many times the
// time. `bash bench/run` builds and runs it. Nothing here is part of the gate.
mod random;
#[path = "../bindings/rust/src/raw.rs"]
#[allow(dead_code)] // opening and running are not measured here
mod raw;

use random::Random;
use raw::{Answer, Layers, Programme, Reading, Terms, Treaties, Treaty};
use std::fmt::Write;
use std::hint::black_box;
use std::time::Instant;

fn engine_read(text: &[u8]) -> Reading {
    unsafe { raw::cession_read(text.as_ptr(), text.len()) }
}

fn engine_write(programme: &Programme, buffer: &mut [u8]) -> Answer {
    unsafe { raw::cession_write(*programme, buffer.as_mut_ptr(), buffer.len()) }
}

// The plain reader: a cursor over one line.
struct Cursor<'a>(&'a [u8]);

impl Cursor<'_> {
    fn word(&mut self, word: &str) -> Option<()> {
        self.0 = self.0.strip_prefix(word.as_bytes())?;
        Some(())
    }

    fn number(&mut self) -> Option<u64> {
        let digits = self.0.iter().take_while(|b| b.is_ascii_digit()).count();
        if digits == 0 || digits > 16 || (digits > 1 && self.0[0] == b'0') {
            return None;
        }
        let value = self.0[..digits].iter().fold(0, |v, b| v * 10 + (b - b'0') as u64);
        self.0 = &self.0[digits..];
        Some(value)
    }

    // A word and the number after it.
    fn item(&mut self, word: &str) -> Option<u64> {
        self.word(word)?;
        self.number()
    }

    fn end(&mut self, word: &str) -> Option<()> {
        self.word(word)?;
        self.0.is_empty().then_some(())
    }

    fn terms(&mut self) -> Option<Terms> {
        let mut terms = Terms {
            attachment: self.item(" (band ")?,
            limit: self.item(" ")?,
            deductible: self.item(") (deduct ")?,
            reinstatements: self.item(") (back ")?,
            premium: self.item(" ")?,
            ..Terms::default()
        };
        // Twenty rates are kept; a line ends, so that no K takes long.
        for place in 0..terms.reinstatements {
            let rate = self.item(" ")?;
            if let Some(kept) = terms.rates.get_mut(place as usize) {
                *kept = rate;
            }
        }
        terms.placed = self.item(") (placed ")?;
        self.word(")")?;
        terms.time = u64::from(self.word(" (time)").is_some());
        self.end(")")?;
        Some(terms)
    }
}

enum Line {
    Treaty(Treaty),
    Risk(Terms),
    Cat(Terms),
}

fn form(line: &[u8]) -> Option<Line> {
    let mut c = Cursor(line);
    if c.word("(quota").is_some() {
        let number = c.item(" ")?;
        let (cede, capacity, limit) = (c.item(" (cede ")?, c.item(") (capacity ")?, c.item(") (event ")?);
        c.end("))")?;
        return Some(Line::Treaty(Treaty { kind: 1, number, cede, capacity, limit, ..Treaty::default() }));
    }
    if c.word("(surplus").is_some() {
        let number = c.item(" ")?;
        let (retention, lines, limit) = (c.item(" (retain ")?, c.item(") (lines ")?, c.item(") (event ")?);
        c.end("))")?;
        return Some(Line::Treaty(Treaty { kind: 2, number, retention, lines, limit, ..Treaty::default() }));
    }
    if c.word("(risk").is_some() {
        return Some(Line::Risk(c.terms()?));
    }
    c.word("(cat")?;
    Some(Line::Cat(c.terms()?))
}

const MONEY: u64 = 10_000_000_000_000;

fn treaty_in_range(t: &Treaty) -> bool {
    (1..=8).contains(&t.number)
        && t.cede <= 10_000
        && t.capacity <= MONEY
        && t.retention <= MONEY
        && t.lines <= 100
        && t.limit <= MONEY
}

fn terms_in_range(l: &Terms) -> bool {
    l.attachment <= MONEY
        && (1..=MONEY).contains(&l.limit)
        && l.deductible <= 100 * MONEY
        && l.reinstatements <= 20
        && l.premium <= MONEY / 10
        && l.placed <= 10_000
        && l.rates.iter().all(|rate| *rate <= 20_000)
        && l.time <= 1
}

// Puts a layer into its tier, or gives the fault.
fn enter(tier: &mut Layers, later: usize, l: Terms) -> u64 {
    if !terms_in_range(&l) {
        return 3;
    }
    if later > 0 || tier.count == 8 {
        return 4;
    }
    if tier.count > 0 && l.attachment < tier.places[tier.count - 1].attachment + tier.places[tier.count - 1].limit {
        return 5;
    }
    tier.places[tier.count] = l;
    tier.count += 1;
    0
}

fn enter_treaty(p: &mut Programme, t: Treaty) -> u64 {
    if !treaty_in_range(&t) {
        return 3;
    }
    let n = p.treaties.count;
    if p.risk.count + p.cat.count > 0 || (n > 0 && t.number <= p.treaties.places[n - 1].number) {
        return 4;
    }
    p.treaties.places[n] = t;
    p.treaties.count += 1;
    0
}

#[inline(never)]
fn plain_read(text: &[u8]) -> Reading {
    let refused = |refusal, line| Reading { refusal, line, programme: Programme::default() };
    if text.len() > 8192 {
        return refused(1, 0);
    }
    let mut programme = Programme::default();
    for (i, line) in text.split_inclusive(|&b| b == b'\n').enumerate() {
        let number = i as u64 + 1;
        let Some(line) = line.strip_suffix(b"\n") else { return refused(2, number) };
        let later = programme.cat.count;
        let fault = match form(line) {
            None => 2,
            Some(Line::Treaty(t)) => enter_treaty(&mut programme, t),
            Some(Line::Risk(l)) => enter(&mut programme.risk, later, l),
            Some(Line::Cat(l)) => enter(&mut programme.cat, 0, l),
        };
        if fault != 0 {
            return refused(fault, number);
        }
    }
    Reading { refusal: 0, line: 0, programme }
}

// Whether some text reads to a programme: the plain form of refusal 6.
fn plain_valid(p: &Programme) -> bool {
    let kind = |t: &Treaty| match t.kind {
        1 => t.retention == 0 && t.lines == 0,
        2 => t.cede == 0 && t.capacity == 0,
        _ => false,
    };
    let mut number = 0;
    let in_order = |t: &Treaty| kind(t) && treaty_in_range(t) && t.number > std::mem::replace(&mut number, t.number);
    p.treaties.count <= 8
        && p.treaties.places[..p.treaties.count].iter().all(in_order)
        && p.treaties.places[p.treaties.count..].iter().all(|t| *t == Treaty::default())
        && plain_tier(&p.risk)
        && plain_tier(&p.cat)
}

fn plain_tier(tier: &Layers) -> bool {
    let mut end = 0;
    let in_order = |l: &Terms| {
        terms_in_range(l)
            && l.attachment >= std::mem::replace(&mut end, l.attachment + l.limit)
            && l.rates[l.reinstatements as usize..].iter().all(|rate| *rate == 0)
    };
    tier.count <= 8
        && tier.places[..tier.count].iter().all(in_order)
        && tier.places[tier.count..].iter().all(|l| *l == Terms::default())
}

fn plain_text(p: &Programme) -> String {
    let mut s = String::with_capacity(4096);
    for t in &p.treaties.places[..p.treaties.count] {
        if t.kind == 1 {
            let (n, c, a, l) = (t.number, t.cede, t.capacity, t.limit);
            let _ = writeln!(s, "(quota {n} (cede {c}) (capacity {a}) (event {l}))");
        } else {
            let (n, r, k, l) = (t.number, t.retention, t.lines, t.limit);
            let _ = writeln!(s, "(surplus {n} (retain {r}) (lines {k}) (event {l}))");
        }
    }
    for (name, tier) in [("risk", &p.risk), ("cat", &p.cat)] {
        for l in &tier.places[..tier.count] {
            let _ = write!(
                s,
                "({} (band {} {}) (deduct {}) (back {} {}",
                name, l.attachment, l.limit, l.deductible, l.reinstatements, l.premium
            );
            for rate in &l.rates[..l.reinstatements as usize] {
                let _ = write!(s, " {rate}");
            }
            let time = if l.time == 1 { " (time)" } else { "" };
            let _ = writeln!(s, ") (placed {}){time})", l.placed);
        }
    }
    s
}

#[inline(never)]
fn plain_write(p: &Programme, buffer: &mut [u8]) -> Answer {
    if !plain_valid(p) {
        return Answer { refusal: 6, number: 0 };
    }
    let s = plain_text(p);
    let number = s.len() as u64;
    if buffer.len() < s.len() {
        return Answer { refusal: 7, number };
    }
    buffer[..s.len()].copy_from_slice(s.as_bytes());
    Answer { refusal: 0, number }
}

impl Random {
    fn tier(&mut self, count: usize) -> Layers {
        let mut tier = Layers { count, ..Layers::default() };
        let mut end = self.between(0, 1_000_000);
        for l in &mut tier.places[..count] {
            l.attachment = end + self.between(0, 3) * self.between(0, 1_000_000_000);
            l.limit = self.between(1, 500_000_000_000);
            l.deductible = self.between(0, 100 * MONEY);
            l.reinstatements = self.between(0, 20);
            l.rates[..l.reinstatements as usize].fill_with(|| self.between(0, 20_000));
            l.premium = self.between(0, MONEY / 10);
            l.placed = self.between(0, 10_000);
            l.time = self.between(0, 1);
            end = l.attachment + l.limit;
        }
        tier
    }

    fn treaties(&mut self, count: usize) -> Treaties {
        let mut treaties = Treaties { count, ..Treaties::default() };
        for (i, t) in treaties.places[..count].iter_mut().enumerate() {
            t.number = i as u64 + 1;
            t.limit = self.between(0, MONEY);
            if self.next() % 2 == 0 {
                (t.kind, t.cede, t.capacity) = (1, self.between(0, 10_000), self.between(0, MONEY));
            } else {
                (t.kind, t.retention, t.lines) = (2, self.between(0, MONEY), self.between(0, 100));
            }
        }
        treaties
    }

    fn programme(&mut self, full: bool) -> Programme {
        let mut count = || if full { 8 } else { self.between(0, 8) as usize };
        let (t, r, c) = (count(), count(), count());
        Programme { treaties: self.treaties(t), risk: self.tier(r), cat: self.tier(c) }
    }

    // A programme with one number, or one count, changed.
    fn changed(&mut self, programme: &Programme) -> Programme {
        let mut p = *programme;
        let at = self.between(0, 7) as usize;
        let number = [0, 1, 2, 9, 101, 10_001, 20_001, MONEY, MONEY + 1, u64::MAX / 2][self.between(0, 9) as usize];
        let layer = if self.next() % 2 == 0 { &mut p.risk.places[at] } else { &mut p.cat.places[at] };
        match self.between(0, 12) {
            0 => p.treaties.places[at].kind = number,
            1 => p.treaties.places[at].number = number,
            2 => p.treaties.places[at].cede = number,
            3 => p.treaties.places[at].retention = number,
            4 => layer.attachment = number,
            5 => layer.limit = number,
            6 => layer.placed = number,
            7 => p.treaties.count = self.between(0, 9) as usize,
            8 => p.risk.count = self.between(0, 9) as usize,
            9 => layer.reinstatements = number,
            10 => layer.rates[self.between(0, 19) as usize] = number,
            11 => layer.time = number,
            _ => p.cat.count = self.between(0, 9) as usize,
        }
        p
    }

    // A text with some bytes replaced, left out or said twice.
    fn damaged(&mut self, text: &str) -> Vec<u8> {
        let mut bytes = text.as_bytes().to_vec();
        for _ in 0..self.between(1, 2) {
            if bytes.is_empty() {
                break;
            }
            let at = self.between(0, bytes.len() as u64 - 1) as usize;
            match self.between(0, 2) {
                0 => bytes[at] = *b"0123456789 ()\nqsrcax\t\xff\0".get(self.between(0, 22) as usize).unwrap(),
                1 => drop(bytes.remove(at)),
                _ => bytes.insert(at, bytes[at]),
            }
        }
        bytes
    }
}

// Writing a programme into buffers with room, just enough and too little: the same answers and the same bytes.
fn compare_writing(programme: &Programme, length: usize, seen: &mut [u64; 8]) {
    for room in [length + 3, length, length.saturating_sub(1)] {
        let (mut ours, mut theirs) = (vec![7; room], vec![7; room]);
        let answer = engine_write(programme, &mut ours);
        assert_eq!(answer, plain_write(programme, &mut theirs));
        assert_eq!(ours, theirs);
        seen[answer.refusal as usize] += 1;
    }
}

// The same answers on valid and damaged tables and programmes; how often each refusal was seen.
fn compare(random: &mut Random, turns: usize) -> [u64; 8] {
    let mut seen = [0; 8];
    for _ in 0..turns {
        let programme = random.programme(false);
        let text = plain_text(&programme);
        let mut damaged = random.damaged(&text);
        if random.next() % 64 == 0 {
            damaged.resize(8192 + (random.next() % 2) as usize, b'\n');
        }
        for bytes in [text.as_bytes(), &damaged] {
            let reading = engine_read(bytes);
            assert_eq!(reading, plain_read(bytes));
            seen[reading.refusal as usize] += 1;
        }
        assert_eq!(engine_read(text.as_bytes()).programme, programme);
        compare_writing(&programme, text.len(), &mut seen);
        compare_writing(&random.changed(&programme), text.len(), &mut seen);
    }
    seen
}

// The least times of two calls taken in turn, the first over the second.
fn ratio(mut ours: impl FnMut(), mut theirs: impl FnMut()) -> f64 {
    let time = |call: &mut dyn FnMut()| {
        let start = Instant::now();
        (0..200).for_each(|_| call());
        start.elapsed().as_nanos() as f64
    };
    let (mut first, mut second) = (f64::MAX, f64::MAX);
    for _ in 0..40 {
        first = first.min(time(&mut ours));
        second = second.min(time(&mut theirs));
    }
    first / second
}

fn main() {
    let mut random = Random(0x9e37_79b9_7f4a_7c15);
    let seen = compare(&mut random, 100_000);
    println!("answers alike on 100000 tables and 100000 damaged ones; by refusal 0 to 7: {seen:?}");
    let mut ratios = [Vec::new(), Vec::new()];
    for _ in 0..21 {
        let programme = random.programme(true);
        let text = plain_text(&programme);
        let text = text.as_bytes();
        let (mut ours, mut theirs) = (vec![0; text.len()], vec![0; text.len()]);
        ratios[0].push(ratio(
            || { black_box(engine_read(black_box(text))); },
            || { black_box(plain_read(black_box(text))); },
        ));
        ratios[1].push(ratio(
            || { black_box(engine_write(black_box(&programme), black_box(&mut ours))); },
            || { black_box(plain_write(black_box(&programme), black_box(&mut theirs))); },
        ));
    }
    for (name, ratios) in ["reading", "writing"].iter().zip(&mut ratios) {
        ratios.sort_by(f64::total_cmp);
        let (least, median, most) = (ratios[0], ratios[10], ratios[20]);
        println!("{name} a full table: {median:.2} times plain Rust, from {least:.2} to {most:.2}");
    }
}
