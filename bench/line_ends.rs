// Where lines end, by the word and by the byte: the same ends as a plain search in Rust, and how many times the time.
// `bash bench/run lines` builds and runs it. Nothing here is part of the gate.
#[allow(dead_code)] // the benchmark of runs draws the rest
mod texts;
mod timing;

use std::hint::black_box;
use texts::random::Random;
use texts::{full_text, idle_text, Draw, MIXED, SEED};
use timing::{median, time, ROUNDS};

#[link(name = "text_c", kind = "static")]
extern "C" {
    fn text_line_end(text: *const u8, length: usize, at: usize) -> usize;
    fn text_line_end_by_byte(text: *const u8, length: usize, at: usize) -> usize;
}

// Where the line that begins at a place ends. The contracts ask for a place within the text.
type End = fn(&[u8], usize) -> usize;

fn by_word(text: &[u8], at: usize) -> usize {
    assert!(at <= text.len());
    unsafe { text_line_end(text.as_ptr(), text.len(), at) }
}

fn by_byte(text: &[u8], at: usize) -> usize {
    assert!(at <= text.len());
    unsafe { text_line_end_by_byte(text.as_ptr(), text.len(), at) }
}

#[inline(never)]
fn in_rust(text: &[u8], at: usize) -> usize {
    text[at..].iter().position(|byte| *byte == b'\n').map_or(text.len(), |place| at + place)
}

const ENDS: [End; 3] = [by_word, by_byte, in_rust];

// How many lines a text has, and the sum of the places where they end.
fn walk(text: &[u8], end: End) -> [usize; 2] {
    let (mut lines, mut sum, mut at) = (0, 0, 0);
    while at < text.len() {
        let found = end(text, at);
        (lines, sum, at) = (lines + 1, sum + found, found + 1);
    }
    [lines, sum]
}

// Every place of random texts of up to 64 bytes, often line feeds or near to one; gives how many were compared.
fn compare() -> usize {
    let mut random = Random(SEED);
    let mut compared = 0;
    for round in 0..200_000 {
        let mut byte = || match random.between(0, 3 + round % 40) {
            0 => b'\n',
            1 => b"\x00\x08\x09\x0b\x80\x81\x89\x8a\x8b\xff"[random.between(0, 9) as usize],
            _ => random.between(0, 255) as u8,
        };
        let text: Vec<u8> = (0..round % 65).map(|_| byte()).collect();
        for at in 0..=text.len() {
            let expected = in_rust(&text, at);
            assert_eq!([by_word(&text, at), by_byte(&text, at)], [expected; 2], "from {at} of {text:?}");
            compared += 1;
        }
    }
    compared
}

fn texts() -> [(&'static str, String); 4] {
    [
        ("64 losses a line", full_text(MIXED)),
        ("one loss a line", full_text(Draw { losses: 1, ..MIXED })),
        ("no losses", idle_text()),
        ("no line feed", full_text(MIXED).replace('\n', " ")),
    ]
}

fn main() {
    println!("{} ends of lines compared, all alike", compare());
    println!("| text | bytes | lines | by the word, us | by the byte, us | ratio | in Rust, us | ratio |");
    println!("|---|---:|---:|---:|---:|---:|---:|---:|");
    for (name, text) in texts() {
        let text = text.as_bytes();
        let [lines, sum] = walk(text, in_rust);
        let round = || ENDS.map(|end| time(20, || assert_eq!(walk(black_box(text), end), [lines, sum])) / 1e3);
        let rounds: Vec<[f64; 3]> = (0..ROUNDS).map(|_| round()).collect();
        let of = |figure: fn(&[f64; 3]) -> f64| median(rounds.iter().map(figure).collect());
        let (word, byte, rust) = (of(|r| r[0]), of(|r| r[1]), of(|r| r[2]));
        let (length, to_byte, to_rust) = (text.len(), of(|r| r[0] / r[1]), of(|r| r[0] / r[2]));
        println!("| {name} | {length} | {lines} | {word:.2} | {byte:.2} | {to_byte:.2} | {rust:.2} | {to_rust:.2} |");
    }
}
