// Product-and-divide against Rust's 128-bit product and division: the same results, and how many times the time.
// `bash bench/run` builds and runs it. Nothing here is part of the gate.
mod random;

use random::Random;
use std::hint::black_box;
use std::time::Instant;

#[link(name = "arith_c", kind = "static")]
extern "C" {
    fn arith_mul_div(a: u64, b: u64, d: u64) -> u64;
    fn arith_mul_div_word(a: u64, b: u64, d: u64) -> u64;
}

type Operands = (u64, u64, u64);
type Function = unsafe extern "C" fn(u64, u64, u64) -> u64;

// The ranges that the contracts require of every call.
fn in_wide(o: &Operands) -> bool {
    o.0 < 1 << 46 && o.2 > 0 && o.2 < 1 << 57 && o.1 <= 64 * o.2
}

fn in_narrow(o: &Operands) -> bool {
    o.0 < 1 << 48 && o.1 < 1 << 15 && o.2 > 0 && o.2 < 1 << 63
}

#[inline(never)]
extern "C" fn rust(a: u64, b: u64, d: u64) -> u64 {
    ((a as u128 * b as u128 + d as u128 / 2) / d as u128) as u64
}

impl Random {
    // The same with every length of number alike.
    fn sized(&mut self, low: u64, high: u64) -> u64 {
        let bits = self.between(0, 63 - high.leading_zeros() as u64);
        self.between(0, high >> bits).max(low)
    }
}

const MONEY: u64 = 10_000_000_000_000;

// Operands of document 01's formulas: (name, whether the product may pass 64 bits, one draw).
type Formula = (&'static str, bool, fn(&mut Random) -> Operands);

const FORMULAS: [Formula; 6] = [
    ("quota share with capacity", true, |r| {
        let e = r.sized(2, MONEY);
        (r.sized(0, MONEY), r.between(0, 10_000) * r.between(1, e - 1), 10_000 * e)
    }),
    ("surplus above its lines", true, |r| {
        let lines = r.between(0, 100);
        let retention = r.sized(0, (MONEY - 1) / (lines + 1));
        let e = r.between(retention * (lines + 1) + 1, MONEY);
        (r.sized(0, MONEY), lines * retention, e)
    }),
    ("surplus within its lines", true, |r| {
        let e = r.sized(2, MONEY);
        (r.sized(0, MONEY), e - r.between(1, e - 1), e)
    }),
    ("reinstatement premium", true, |r| {
        let (limit, backs) = (r.sized(1, MONEY), r.between(0, 20));
        (r.sized(0, 1_000_000_000_000), r.between(0, backs * limit) * r.between(0, 20_000), 10_000 * limit)
    }),
    ("quota share", false, |r| (r.sized(0, MONEY), r.between(0, 10_000), 10_000)),
    ("placed share", false, |r| (r.sized(0, 21 * MONEY), r.between(0, 10_000), 10_000)),
];

// The ends of the ranges, each with each.
fn corners(amounts: &[u64], divisors: &[u64], factors: impl Fn(u64) -> Vec<u64>) -> Vec<Operands> {
    let mut all = Vec::new();
    for &d in divisors {
        for b in factors(d) {
            all.extend(amounts.iter().map(|&a| (a, b, d)));
        }
    }
    all
}

fn wide_corners() -> Vec<Operands> {
    let mut divisors: Vec<u64> = (0..57).flat_map(|k| [1 << k, (1u64 << k) + 1, (2u64 << k) - 1]).collect();
    divisors.retain(|&d| d < 1 << 57);
    let amounts = [0, 1, 2, 10_000, MONEY - 1, MONEY, (1 << 45) - 1, 1 << 45, (1 << 46) - 1];
    corners(&amounts, &divisors, |d| vec![0, 1, d / 2, d - d / 2, d - 1, d, d + 1, 40 * d, 64 * d - 1, 64 * d])
}

fn narrow_corners() -> Vec<Operands> {
    let amounts = [0, 1, MONEY, 21 * MONEY, (1 << 48) - 1];
    let divisors = [1, 2, 9_999, 10_000, 1 << 32, (1 << 63) - 1];
    corners(&amounts, &divisors, |_| vec![0, 1, 3_333, 4_999, 5_000, 5_001, 9_999, 10_000, (1 << 15) - 1])
}

fn compare(ours: Function, operands: &[Operands], allowed: fn(&Operands) -> bool) -> usize {
    for o in operands {
        assert!(allowed(o), "outside the range: {o:?}");
        assert_eq!(unsafe { ours(o.0, o.1, o.2) }, rust(o.0, o.1, o.2), "{o:?}");
    }
    operands.len()
}

const PASSES: usize = 100;

type Measure = fn(Function, &[Operands]) -> f64;

// Seconds for all passes over the operands, each call free of the one before.
fn throughput(f: Function, operands: &[Operands]) -> f64 {
    let start = Instant::now();
    for _ in 0..PASSES {
        let mut sum = 0u64;
        for o in operands {
            sum = sum.wrapping_add(unsafe { f(o.0, o.1, o.2) });
        }
        black_box(sum);
    }
    start.elapsed().as_secs_f64()
}

// The same where one operand of each call waits for the result before it, of which the highest bit is always 0.
fn chained(f: Function, operands: &[Operands], next: fn(&Operands, u64) -> Operands) -> f64 {
    let start = Instant::now();
    for _ in 0..PASSES {
        let mut last = 0u64;
        for o in operands {
            let o = next(o, last >> 63);
            last = unsafe { f(o.0, o.1, o.2) };
        }
        black_box(last);
    }
    start.elapsed().as_secs_f64()
}

const MEASURES: [Measure; 4] = [
    throughput,
    |f, operands| chained(f, operands, |o, zero| (o.0 + zero, o.1, o.2)),
    |f, operands| chained(f, operands, |o, zero| (o.0, o.1 + zero, o.2)),
    |f, operands| chained(f, operands, |o, zero| (o.0, o.1, o.2 + zero)),
];

// The best of several turns of each, taken in turn, as a ratio.
fn ratio(measure: Measure, ours: Function, operands: &[Operands]) -> f64 {
    let (mut best, mut best_rust) = (f64::MAX, f64::MAX);
    for _ in 0..40 {
        best = best.min(measure(ours, operands));
        best_rust = best_rust.min(measure(rust, operands));
    }
    best / best_rust
}

fn main() {
    let mut random = Random(0x9e37_79b9_7f4a_7c15);
    let mut compared = compare(arith_mul_div, &wide_corners(), in_wide);
    compared += compare(arith_mul_div_word, &narrow_corners(), in_narrow);
    println!("Times the time of Rust's 128-bit product and division.");
    println!("{:28} {:>10} {:>28}", "", "throughput", "latency of a, of b, of d");
    for (name, passes_word, draw) in FORMULAS {
        let (ours, allowed): (Function, fn(&Operands) -> bool) =
            if passes_word { (arith_mul_div, in_wide) } else { (arith_mul_div_word, in_narrow) };
        let many: Vec<Operands> = (0..1_000_000).map(|_| draw(&mut random)).collect();
        compared += compare(ours, &many, allowed);
        let few = &many[..4096];
        let [free, a, b, d] = MEASURES.map(|measure| ratio(measure, ours, few));
        println!("{name:28} {free:10.2} {a:18.2} {b:4.2} {d:4.2}");
    }
    println!("{compared} results compared with the 128-bit result, all alike.");
}
