//! What calls leave of what they are lent, through the Rust wrapper. Called as `lent FOLDER`, it does and prints what
//! lent.c does.

use cession::{raw, Programme, Refusal, Scale, Standing, DAYS, EVENTS_BYTES};
use std::path::Path;
use std::{env, fs};

const MOST: usize = 70_000;
const AROUND: usize = 64;

/// The texts of the folder and a standing under way.
struct Lent {
    table: Vec<u8>,
    events: Vec<u8>,
    statement: Vec<u8>,
    begun: raw::Standing,
}

/// Bytes of which the middle part is lent.
fn memory() -> Vec<u8> {
    (0..AROUND + MOST + AROUND).map(|place| (place * 7 + 3) as u8).collect()
}

/// What a call left of the memory: untouched where it was refused, with the text in it where it was accepted.
fn left(memory: &[u8], before: &[u8], written: &[u8], accepted: bool) -> &'static str {
    let mut expected = before.to_vec();
    if accepted {
        expected[AROUND..AROUND + written.len()].copy_from_slice(written);
    }
    match (memory == expected, accepted) {
        (false, _) => "changed",
        (true, true) => "written",
        (true, false) => "as lent",
    }
}

fn print(call: &str, name: &str, answer: Result<usize, Refusal>, left: &str) {
    let (refusal, number) = match answer {
        Ok(length) => (0, length as u64),
        Err(refusal) => (refusal.number(), refusal.second()),
    };
    println!("{call}, {name}: {refusal} {number}, {left}");
}

impl Lent {
    fn new(folder: &Path) -> Lent {
        let text = |name: &str| fs::read(folder.join(name)).expect(name);
        let begun = raw::Standing { cat: [11, 12, 13, 14, 15, 0, 0, 0], day: 90, ..raw::Standing::default() };
        Lent { table: text("programme.txt"), events: text("events.txt"), statement: text("statement.txt"), begun }
    }

    fn programme(&self) -> raw::Programme {
        Programme::read(&self.table).expect("a table").into()
    }

    fn write(&self, name: &str, programme: raw::Programme, length: usize) {
        let (mut bytes, before) = (memory(), memory());
        let answer = Programme::from(programme).write_into(&mut bytes[AROUND..AROUND + length]);
        print("write", name, answer, left(&bytes, &before, &self.table, answer.is_ok()));
    }

    fn open(&self, name: &str, programme: raw::Programme) {
        // The wrapper gives no standing with a refusal: the call below it does.
        let opening = unsafe { raw::cession_open(programme) };
        let left = if opening.standing == raw::Standing::default() { "all 0" } else { "not all 0" };
        print("open", name, Programme::from(programme).open().map(|_| 0), left);
    }

    fn run(&self, name: &str, programme: raw::Programme, standing: raw::Standing, events: &[u8], length: usize) {
        let programme = Programme::from(programme);
        let call = |standing: &mut Standing, buffer: &mut [u8]| programme.run_into(standing, events, buffer);
        run("run", name, standing, length, &self.statement, call);
    }

    /// Each programme has one number that no table text reads to.
    fn programmes(&self) {
        let broken: [(&str, fn(&mut raw::Programme)); 13] = [
            ("treaty in an unused place", |programme| programme.treaties.places[3].limit = 1),
            ("risk layer in an unused place", |programme| programme.risk.places[0].placed = 1),
            ("cat layer in an unused place", |programme| programme.cat.places[7].attachment = 1),
            ("rate in an unused place", |programme| programme.cat.places[7].rates[19] = 1),
            ("rate past the last reinstatement", |programme| programme.cat.places[0].rates[2] = 1),
            ("rate over 20,000", |programme| programme.cat.places[0].rates[1] = 20_001),
            ("time 2", |programme| programme.cat.places[0].time = 2),
            ("time in an unused place", |programme| programme.risk.places[0].time = 1),
            ("count of treaties 9", |programme| programme.treaties.count = 9),
            ("count of risk layers 9", |programme| programme.risk.count = 9),
            ("count of cat layers 9", |programme| programme.cat.count = 9),
            ("treaty of kind 3", |programme| programme.treaties.places[1].kind = 3),
            ("surplus with a share ceded", |programme| programme.treaties.places[0].cede = 1),
        ];
        for (name, change) in broken {
            let mut programme = self.programme();
            change(&mut programme);
            self.write(name, programme, MOST);
            self.open(name, programme);
            self.run(name, programme, self.begun, &self.events, MOST);
        }
    }

    /// The cap of cat layer 1 is 100000000 + 50000000 * 3. Of the 13 that cat layer 3 has spent 12 are recovered, at
    /// 22500000 / 150000000 each: with (time) its timed premium is at most 1.8, which is 2.
    fn standings(&self) {
        let broken: [(&str, fn(&mut raw::Standing)); 7] = [
            ("cat layer 1 spent above its cap", |standing| standing.cat[0] = 250_000_001),
            ("missing risk layer spent", |standing| standing.risk[0] = 1),
            ("missing cat layer spent", |standing| standing.cat[5] = 1),
            ("day 367 in the standing", |standing| standing.day = 367),
            ("missing risk layer with a timed premium", |standing| standing.risk_timed[0] = 1),
            ("missing cat layer with a timed premium", |standing| standing.cat_timed[7] = 1),
            ("layer without (time) with a timed premium", |standing| standing.cat_timed[2] = 2),
        ];
        for (name, change) in broken {
            let mut standing = self.begun;
            change(&mut standing);
            self.run(name, self.programme(), standing, &self.events, MOST);
        }
        let (mut timed, mut standing) = (self.programme(), self.begun);
        timed.cat.places[2].time = 1;
        standing.cat_timed[2] = 2;
        self.run("the same with (time) and no buffer", timed, standing, &self.events, 0);
        standing.cat_timed[2] = 3;
        self.run("timed premium above the amount premium", timed, standing, &self.events, 0);
    }

    /// A line that is accepted under the standing, then a line that is not.
    fn texts(&self) {
        self.run("events over 65,536 bytes", self.programme(), self.begun, &vec![0; EVENTS_BYTES + 1], MOST);
        let later = raw::Standing { day: 92, ..self.begun };
        let many = format!("(event 92{})", " (loss 0 7 6)".repeat(65));
        let lines = [
            ("not an event form", self.begun, "(event 92"),
            ("day 367", self.begun, "(event 367)"),
            ("65 losses", self.begun, &many),
            ("day below the standing's", later, "(event 92)"),
            ("treaty that the table lacks", self.begun, "(event 92 (loss 4 7 6))"),
        ];
        for (name, standing, line) in lines {
            let events = format!("(event 91 (loss 0 9 8))\n{line}\n");
            self.run(name, self.programme(), standing, events.as_bytes(), MOST);
        }
    }
}

/// A run that is lent the middle one of three standings and so many bytes; gives the standing that it leaves.
fn run(
    kind: &str,
    name: &str,
    standing: raw::Standing,
    length: usize,
    written: &[u8],
    call: impl Fn(&mut Standing, &mut [u8]) -> Result<usize, Refusal>,
) -> Option<Standing> {
    let (mut bytes, before) = (memory(), memory());
    let around = raw::Standing { day: 7, ..raw::Standing::default() };
    let standings_before = [around, standing, around].map(Standing::from);
    let mut standings = standings_before.clone();
    let answer = call(&mut standings[1], &mut bytes[AROUND..AROUND + length]);
    let after = answer.is_ok().then(|| std::mem::replace(&mut standings[1], standings_before[1].clone()));
    let left = left(&bytes, &before, written, answer.is_ok());
    print(kind, name, answer, if standings == standings_before { left } else { "changed" });
    after
}

/// A scale by steps: the whole premium up to day 183, 66.67% of it on day 184, a third from day 185 on.
fn share_of(day: usize) -> u64 {
    match day {
        ..184 => 10_000,
        184 => 6_667,
        _ => 3_333,
    }
}

fn steps() -> [u64; DAYS] {
    std::array::from_fn(|place| share_of(place + 1))
}

/// Reads the first so many lines of the scale, with other words in place of one of them; 0 for none.
fn scale(name: &str, count: usize, line: usize, words: &str) {
    let form = |day: usize| format!("(day {day} {})\n", share_of(day));
    let lines = (1..=count).map(|day| if day == line { words.to_string() } else { form(day) });
    let text: String = lines.collect();
    // The wrapper gives no shares with a refusal: the call below it does.
    let reading = unsafe { raw::cession_read_scale(text.as_ptr(), text.len()) };
    let left = match reading.scale.shares {
        shares if shares == [0; DAYS] => "all 0",
        shares if shares == steps() => "the shares",
        _ => "other shares",
    };
    let read = Scale::read(text.as_bytes());
    assert!(read.as_ref().map_or(true, |scale| *scale.shares() == reading.scale.shares), "the wrapper's shares");
    print("read scale", name, read.map(|_| 0), left);
}

fn scales() {
    scale("by steps", 366, 0, "");
    scale("no lines", 0, 0, "");
    scale("365 lines", 365, 0, "");
    scale("367 lines", 367, 0, "");
    scale("no last line feed", 366, 366, "(day 366 3333)");
    scale("not the form", 366, 7, "(day 7 10000 )\n");
    scale("another day", 366, 185, "(day 184 3333)\n");
    scale("share over 10,000", 366, 184, "(day 184 10001)\n");
    scale("share over 10,000 in 10 lines", 10, 3, "(day 3 10001)\n");
    scale("share above the day before", 366, 185, "(day 185 6668)\n");
}

/// A run that is lent shares. An accepted one charges so much.
#[derive(Clone)]
struct Scaled {
    programme: raw::Programme,
    standing: raw::Standing,
    shares: Vec<u64>,
    events: Vec<u8>,
    length: usize,
    premium: u64,
}

impl Scaled {
    /// A layer that charges 182,500 for half of its limit, by time; a loss of 500,000 on day 184.
    fn by_steps() -> Scaled {
        let table = b"(cat (band 0 1000000) (deduct 0) (back 1 365000 10000) (placed 10000) (time))\n";
        Scaled {
            programme: Programme::read(table).expect("a table").into(),
            standing: raw::Standing::default(),
            shares: steps().to_vec(),
            events: b"(event 184 (loss 0 500000 500000))\n".to_vec(),
            length: MOST,
            premium: 121_673,
        }
    }

    /// The statement of that loss, for which so much is charged.
    fn statement(&self) -> String {
        let premium = self.premium;
        format!(
            "(event 184 (gross 500000) (ceded 0) (risk 0) (cat 500000) (net 0) (premium {premium}))\n\
            (layer cat 1 (deductible 0) (cover 1500000) (recovered 500000) (premium {premium}))\n\
            (total (gross 500000) (ceded 0) (risk 0) (cat 500000) (net 0) (premium {premium}))\n"
        )
    }

    /// A scale of the wrapper has 366 shares: fewer and more go to the call below it.
    fn call(&self, standing: &mut Standing, buffer: &mut [u8]) -> Result<usize, Refusal> {
        if let Ok(shares) = <[u64; DAYS]>::try_from(self.shares.as_slice()) {
            let programme = Programme::from(self.programme);
            return programme.run_scaled_into(standing, &Scale::from(shares), &self.events, buffer);
        }
        let mut lent = standing.clone().into();
        let (shares, text, room) = (self.shares.as_ptr(), self.events.as_ptr(), buffer.as_mut_ptr());
        let (days, size, length) = (self.shares.len(), self.events.len(), buffer.len());
        let answer =
            unsafe { raw::cession_run_scaled(self.programme, &mut lent, shares, days, text, size, room, length) };
        *standing = lent.into();
        match answer.refusal {
            0 => Ok(answer.number as usize),
            refusal => Err(Refusal::from_numbers(refusal, answer.number)),
        }
    }

    fn run(&self, name: &str) {
        let statement = self.statement();
        let call = |standing: &mut Standing, buffer: &mut [u8]| self.call(standing, buffer);
        if let Some(left) = run("run scaled", name, self.standing, self.length, statement.as_bytes(), call) {
            let (spent, timed) = (left.cat()[0], left.cat_timed()[0]);
            println!("run scaled, {name}, standing: {spent} {} {timed}", left.day());
        }
    }

    /// The run with a change.
    fn with(&self, name: &str, change: impl Fn(&mut Scaled)) -> Scaled {
        let mut changed = self.clone();
        change(&mut changed);
        changed.run(name);
        changed
    }
}

/// 182,500 x 6,667 / 10,000 is 121,672.75; the built-in share of day 184 is 4,986, and 182,500 x 4,986 / 10,000 is
/// 90,994.5.
fn accepted(steps: &Scaled) {
    steps.run("by steps");
    steps.with("buffer just long enough", |run| run.length = 245);
    steps.with("buffer one byte short", |run| run.length = 244);
    steps.with("the built-in shares", |run| {
        run.shares = (1..=366).map(|day| 10_000 * (366 - day) / 365).collect();
        run.premium = 90_995;
    });
    steps.with("without (time)", |run| {
        run.programme.cat.places[0].time = 0;
        run.premium = 182_500;
    });
}

/// Each scale is one that no text reads to.
fn no_scales(steps: &Scaled) {
    steps.with("no shares", |run| run.shares.clear());
    steps.with("365 shares", |run| run.shares.truncate(365));
    steps.with("367 shares", |run| run.shares.push(0));
    steps.with("first share over 10,000", |run| run.shares[0] = 10_001);
    steps.with("share of day 2 above the one before", |run| run.shares[0] = 9_999);
    let above = steps.with("share of day 366 above the one before", |run| run.shares[365] = 3_334);
    above.with("the same without (time)", |run| run.programme.cat.places[0].time = 0);
}

/// 365 shares with another fault beside them: 6 and 8 come before 28, 9 and the faults of lines after it.
fn order(steps: &Scaled) {
    let long = steps.with("events over 65,536 bytes", |run| run.events = vec![0; EVENTS_BYTES + 1]);
    let short = long.with("365 shares, events over 65,536 bytes", |run| run.shares.truncate(365));
    let late = short.with("365 shares, day 367 in the standing", |run| run.standing.day = 367);
    late.with("365 shares, time 2", |run| run.programme.cat.places[0].time = 2);
    steps.with("365 shares, day 367", |run| {
        run.shares.truncate(365);
        run.events = b"(event 367)\n".to_vec();
    });
}

/// The lengths of buffer that a text is tried with.
fn buffers(text: &[u8]) -> [(&'static str, usize); 4] {
    [
        ("buffer of length 0", 0),
        ("buffer one byte short", text.len() - 1),
        ("buffer just long enough", text.len()),
        ("buffer longer", MOST),
    ]
}

fn main() {
    let lent = Lent::new(Path::new(&env::args().nth(1).expect("a folder")));
    for (name, length) in buffers(&lent.table) {
        lent.write(name, lent.programme(), length);
    }
    lent.programmes();
    lent.standings();
    lent.texts();
    lent.run("no events and no buffer", lent.programme(), raw::Standing::default(), &[], 0);
    for (name, length) in buffers(&lent.statement) {
        lent.run(name, lent.programme(), raw::Standing::default(), &lent.events, length);
    }
    scales();
    let steps = Scaled::by_steps();
    accepted(&steps);
    no_scales(&steps);
    order(&steps);
}
