//! The checked figures of document 01, with C4, L2 and the tables as document 02 has them, typed from the papers, and
//! figures by hand, put to the second calculation. Says what is wrong and ends with status 1 when a figure differs.

mod calculation;
mod printed;

use calculation::dealing::{counted, Figures, Year};
use calculation::events::Loss;
use calculation::table::write_table;
use calculation::time::{read_scale, write_scale, Scale};
use calculation::{open, read_table, run, run_scaled, take_over, Programme, Refusal, Spent, Standing};
use printed::printed;

const SIDNEY_TABLE: &str = "\
(cat (band 25000000 75000000) (deduct 75000000) (back 0 0) (placed 10000))
(cat (band 100000000 150000000) (deduct 0) (back 1 75000000 5000) (placed 8000))
(cat (band 250000000 150000000) (deduct 0) (back 1 30000000 10000) (placed 7200))
";

const SIDNEY_STATEMENT: &str = "\
(event 230 (gross 350000000) (ceded 0) (risk 0) (cat 192000000) (net 158000000) (premium 44400000))
(layer cat 1 (deductible 0) (cover 75000000) (recovered 0) (premium 0))
(layer cat 2 (deductible 0) (cover 150000000) (recovered 120000000) (premium 30000000))
(layer cat 3 (deductible 0) (cover 200000000) (recovered 72000000) (premium 14400000))
(total (gross 350000000) (ceded 0) (risk 0) (cat 192000000) (net 158000000) (premium 44400000))
";

/// The cession of 101 is 50.5, so the layers' subject is 250, and they recover 15.5, 10.9989 and 26.6437 of it.
const UPWARD_TABLE: &str = "\
(quota 7 (cede 5000) (capacity 0) (event 0))
(cat (band 100 31) (deduct 0) (back 1 10 5000) (placed 5000))
(cat (band 150 33) (deduct 0) (back 1 50 10000) (placed 3333))
(cat (band 200 37) (deduct 0) (back 2 37 7500 7500) (placed 7201))
";

const UPWARD_EVENT: &str = "(event 77 (loss 7 1 101) (loss 0 1 200))\n";

const UPWARD_STATEMENT: &str = "\
(event 77 (gross 301) (ceded 51) (risk 0) (cat 54) (net 196) (premium 40))
(treaty 7 (ceded 51))
(layer cat 1 (deductible 0) (cover 31) (recovered 16) (premium 3))
(layer cat 2 (deductible 0) (cover 33) (recovered 11) (premium 17))
(layer cat 3 (deductible 0) (cover 74) (recovered 27) (premium 20))
(total (gross 301) (ceded 51) (risk 0) (cat 54) (net 196) (premium 40))
";

/// Two cat layers, one above a deductible and one that is exhausted, after a treaty whose event limit cuts.
const CAT_DEALT: &str = "\
(quota 1 (cede 4000) (capacity 0) (event 3000))
(cat (band 1000 4000) (deduct 1500) (back 3 800 5000 7500 10000) (placed 7200))
(cat (band 6000 1200) (deduct 0) (back 1 450 12345) (placed 3333))
";

/// A risk layer above a deductible, after such a treaty.
const RISK_DEALT: &str = "\
(quota 3 (cede 6000) (capacity 0) (event 900))
(risk (band 500 700) (deduct 300) (back 4 333 0 10000 2500 7500) (placed 9750) (time))
";

struct Checks {
    made: u64,
    failed: u64,
}

impl Checks {
    fn equal<T: PartialEq + std::fmt::Debug>(&mut self, name: &str, found: T, expected: T) {
        self.made += 1;
        if found != expected {
            self.failed += 1;
            eprintln!("figures: {name}: found {found:?}, expected {expected:?}");
        }
    }

    fn refused(&mut self, name: &str, table: &str, events: &str, refusal: u64, second: u64) {
        let expected = format!("(refused {refusal} {second})\n");
        self.equal(name, program(table, events), expected);
    }
}

fn program(table: &str, events: &str) -> String {
    String::from_utf8(printed(Some(table.as_bytes()), events.as_bytes())).unwrap()
}

/// The numbers under a name, one from each line that begins with the word.
fn column(statement: &str, line: &str, name: &str) -> Vec<u64> {
    let item = format!("({name} ");
    let lines = statement.lines().filter(|text| text.starts_with(line));
    let after = lines.map(|text| text.split_once(&item).unwrap().1);
    after.map(|rest| rest.split_once(')').unwrap().0.parse().unwrap()).collect()
}

/// An event with one loss for each pair of estimated maximum loss and amount.
fn event(treaty: u64, losses: &[(u64, u64)]) -> String {
    let forms: String = losses.iter().map(|(most, amount)| format!(" (loss {treaty} {most} {amount})")).collect();
    format!("(event 1{forms})\n")
}

/// What a treaty cedes of losses that are each an event of its own.
fn ceded(table: &str, losses: &[(u64, u64)]) -> Vec<u64> {
    let events: String = losses.iter().map(|loss| event(1, &[*loss])).collect();
    column(&program(table, &events), "(event", "ceded")
}

/// What a treaty cedes of losses of one event, in turn: what it cedes of the first so many, less of those before.
fn ceded_in_turn(table: &str, losses: &[(u64, u64)]) -> Vec<u64> {
    let of_first = |count: usize| column(&program(table, &event(1, &losses[..count])), "(treaty 1", "ceded")[0];
    (1..=losses.len()).map(|count| of_first(count) - of_first(count - 1)).collect()
}

/// The year's figure after each subject amount in turn, as the recoveries or premiums of one risk layer.
fn from_layer(table: &str, subjects: &[u64], name: &str) -> Vec<u64> {
    let events: String = subjects.iter().map(|subject| event(0, &[(1, *subject)])).collect();
    column(&program(table, &events), "(event", name)
}

fn treaties(checks: &mut Checks) {
    let plain = "(quota 1 (cede 4000) (capacity 0) (event 0))\n";
    checks.equal("C1", ceded(plain, &[(101, 101)]), vec![40]);
    let capacity = "(quota 1 (cede 4000) (capacity 20000) (event 0))\n";
    checks.equal("C2", ceded(capacity, &[(25_000, 10_000)]), vec![3_200]);
    checks.equal("C3", ceded(capacity, &[(20_000, 10_000)]), vec![4_000]);
    let (loss, small) = ((10_000, 10_000), (10_000, 1_000));
    let limited = |limit: u64| format!("(quota 1 (cede 4000) (capacity 0) (event {limit}))\n");
    checks.equal("C4", ceded_in_turn(&limited(15_000), &[loss; 3]), vec![4_000, 4_000, 4_000]);
    checks.equal("C4 with limit 5,000", ceded_in_turn(&limited(5_000), &[loss; 3]), vec![4_000, 1_000, 0]);
    checks.equal("quota", ceded_in_turn(&limited(5_000), &[loss, small, loss]), vec![4_000, 400, 600]);
    checks.equal("events apart", ceded(&limited(5_000), &[loss, loss]), vec![4_000, 4_000]);
    let most = "(surplus 1 (retain 10000) (lines 3) (event 5000))\n";
    let losses = [(40_000, 8_000), (40_000, 2_000), (40_000, 8_000)];
    checks.equal("surplus", ceded_in_turn(most, &losses), vec![5_000, 0, 0]);
    let surplus = "(surplus 1 (retain 10000) (lines 3) (event 0))\n";
    let losses = [(10_000, 10_000), (10_001, 10_001), (40_000, 8_000), (50_000, 8_000)];
    checks.equal("C5 to C8", ceded(surplus, &losses), vec![0, 1, 6_000, 4_800]);
}

fn layers(checks: &mut Checks) {
    let attached = "(risk (band 50 100) (deduct 0) (back 0 0) (placed 10000))\n";
    checks.equal("L1", from_layer(attached, &[50, 51], "risk"), vec![0, 1]);
    let half = "(risk (band 0 100) (deduct 0) (back 0 0) (placed 5000))\n";
    checks.equal("L2", from_layer(half, &[1, 1], "risk"), vec![1, 0]);
    let reinstated = "(risk (band 0 100) (deduct 0) (back 1 1000 10000) (placed 10000))\n";
    checks.equal("L3", from_layer(reinstated, &[100, 50, 50], "premium"), vec![1_000, 0, 0]);
    let deducted = "(risk (band 500000 500000) (deduct 1000000) (back 1 0 0) (placed 10000))\n";
    let losses = [750_000, 2_000_000, 1_000_000, 250_000, 1_000_000];
    checks.equal("L4", from_layer(deducted, &losses, "risk"), vec![0, 0, 250_000, 0, 500_000]);
    let sidney = program(SIDNEY_TABLE, "(event 230 (loss 0 350000000 350000000))\n");
    checks.equal("H1", sidney.as_str(), SIDNEY_STATEMENT);
}

/// Just below half a cent, a half and just above it, by each formula; then recoveries in turn, and several at once.
fn nearest_cents(checks: &mut Checks) {
    let quota = "(quota 1 (cede 3333) (capacity 0) (event 0))\n";
    checks.equal("quota halves", ceded(quota, &[(1, 5_003), (1, 5_000), (1, 4_997)]), vec![1_667, 1_667, 1_666]);
    let capacity = "(quota 1 (cede 7201) (capacity 3) (event 0))\n";
    let losses = [(4, 35_733), (4, 60_000), (4, 4_267)];
    checks.equal("capacity halves", ceded(capacity, &losses), vec![19_298, 32_405, 2_305]);
    let surplus = "(surplus 1 (retain 3) (lines 3) (event 0))\n";
    checks.equal("surplus halves", ceded(surplus, &[(8, 7), (8, 4), (8, 9)]), vec![4, 3, 6]);
    checks.equal("halves above the lines", ceded(surplus, &[(14, 10), (14, 7), (14, 4)]), vec![6, 5, 3]);
    let alone = |table: &str, subjects: &[u64], name: &str| -> Vec<u64> {
        subjects.iter().flat_map(|subject| from_layer(table, &[*subject], name)).collect()
    };
    let placed = "(risk (band 0 6000) (deduct 0) (back 0 0) (placed 3333))\n";
    checks.equal("placed halves", alone(placed, &[5_003, 5_000, 4_997], "risk"), vec![1_667, 1_667, 1_666]);
    checks.equal("five losses of 1", from_layer(placed, &[1; 5], "risk"), vec![0, 1, 0, 0, 1]);
    let reinstated = "(risk (band 0 14) (deduct 0) (back 1 18 5000) (placed 10000))\n";
    checks.equal("premium halves", alone(reinstated, &[10, 7, 4], "premium"), vec![6, 5, 3]);
    let of_share = |placed: u64| format!("(risk (band 0 7) (deduct 0) (back 1 100 5000) (placed {placed}))\n");
    checks.equal("premium of a share", alone(&of_share(3_333), &[5, 4], "premium"), vec![14, 7]);
    checks.equal("premium of half a cent", alone(&of_share(5_000), &[3, 5], "premium"), vec![14, 21]);
    checks.equal("all rounded up", program(UPWARD_TABLE, UPWARD_EVENT).as_str(), UPWARD_STATEMENT);
}

/// The premium of a layer of limit 100 in years of their own, each with one of the used amounts.
fn premiums(back: &str, placed: u64, used: &[u64]) -> Vec<u64> {
    let table = format!("(risk (band 0 100) (deduct 0) (back {back}) (placed {placed}))\n");
    let year = |used: &u64| {
        let subjects = [vec![100; (*used / 100) as usize], vec![used % 100]].concat();
        from_layer(&table, &subjects, "premium").iter().sum()
    };
    used.iter().map(year).collect()
}

/// Each reinstatement at its own rate, worked out by hand.
fn rates(checks: &mut Checks) {
    let used = [50, 100, 150, 200, 300];
    let whole = |back: &str| premiums(back, 10_000, &used);
    checks.equal("the first free", whole("2 1000 0 10000"), vec![0, 0, 500, 1_000, 1_000]);
    checks.equal("the second free", whole("2 1000 10000 0"), vec![500, 1_000, 1_000, 1_000, 1_000]);
    checks.equal("both at one rate", whole("2 1000 5000 5000"), vec![250, 500, 750, 1_000, 1_000]);
    checks.equal("no reinstatement", whole("0 1000"), vec![0; 5]);
    // Recovered are 33, 33, 34, 67, 100, 100 and 100: the slices are 33, then up to 34, then 33.
    let used = [99, 100, 101, 200, 299, 300, 301];
    checks.equal("by slices", premiums("3 999 1 20000 7", 3_333, &used), vec![0, 0, 20, 679, 680, 680, 680]);
    // Spent are 100, 131 and 230, used 70, 101 and 200. Recovered are 35, 51 and 100, by slices 35; 50 and 1; 50 and
    // 50. The year's premiums are 87.41, 132.37 and 499.5.
    let deducted = "(risk (band 0 100) (deduct 30) (back 2 999 2500 7500) (placed 5000))\n";
    checks.equal("above a deductible", from_layer(deducted, &[100, 31, 99], "premium"), vec![87, 45, 368]);
    // A whole slice at one bp is a cent of a premium of 10,000: 1, 1 + 2, 1 + 2 + 3, up to all twenty.
    let rising: Vec<u64> = (1..=20).collect();
    let listed: String = rising.iter().map(|rate| format!(" {rate}")).collect();
    let ends: Vec<u64> = rising.iter().map(|place| 100 * place).collect();
    let sums: Vec<u64> = rising.iter().map(|place| place * (place + 1) / 2).collect();
    checks.equal("twenty rates", premiums(&format!("20 10000{listed}"), 10_000, &ends), sums);
    checks.equal("past twenty", premiums(&format!("20 10000{listed}"), 10_000, &[2_050, 2_100, 2_101]), vec![210; 3]);
}

/// A layer whose amount premium is 182,500 for a loss of 500,000: half the limit, at 100% of 365,000.
fn timed_layer(tier: &str) -> String {
    format!("({tier} (band 0 1000000) (deduct 0) (back 1 365000 10000) (placed 10000) (time))\n")
}

/// An event of losses under no treaty.
fn dated(day: u64, amounts: &[u64]) -> String {
    let forms: String = amounts.iter().map(|amount| format!(" (loss 0 9 {amount})")).collect();
    format!("(event {day}{forms})\n")
}

/// The premium of each event.
fn charged(table: &str, events: &[String]) -> Vec<u64> {
    column(&program(table, &events.concat()), "(event", "premium")
}

/// The premium of such an event on each of the days, each in a year of its own.
fn charged_alone(table: &str, days: &[u64], amounts: &[u64]) -> Vec<u64> {
    days.iter().flat_map(|day| charged(table, &[dated(*day, amounts)])).collect()
}

/// The time shares, read off a premium of 10,000. Days left and shares before they are rounded: 364, 9,972.60; 292 of
/// 365, four fifths; 266, 7,287.67; 182, 4,986.30; 166, 4,547.95; 73, a fifth; 1, 27.40.
fn time_shares(checks: &mut Checks) {
    let cent = "(cat (band 0 1) (deduct 0) (back 1 10000 10000) (placed 10000) (time))\n";
    let days = [1, 2, 74, 100, 184, 200, 293, 365, 366];
    let shares = vec![10_000, 9_972, 8_000, 7_287, 4_986, 4_547, 2_000, 27, 0];
    checks.equal("time shares", charged_alone(cent, &days, &[1]), shares);
    // Each is the last number that is not above the exact share.
    let all = charged_alone(cent, &(1..=366).collect::<Vec<u64>>(), &[1]);
    let is_last = |(share, left): (&u64, u64)| share * 365 <= 10_000 * left && 10_000 * left < (share + 1) * 365;
    checks.equal("every time share", all.iter().zip((0..=365).rev()).filter(|found| is_last(*found)).count(), 366);
    let premium = "(cat (band 0 1) (deduct 0) (back 1 10000 10000) (placed 10000))\n";
    checks.equal("without (time)", charged_alone(premium, &[1, 100, 366], &[1]), vec![10_000; 3]);
}

/// Premium by amount and time, worked out by hand.
fn by_time(checks: &mut Checks) {
    let (cat, risk) = (timed_layer("cat"), timed_layer("risk"));
    // 182,500; 182,500 x 4,986 / 10,000 = 90,994.5; 0.
    checks.equal("one loss", charged_alone(&cat, &[1, 184, 366], &[500_000]), vec![182_500, 90_995, 0]);
    // 182,500 x 7,287 / 10,000 = 132,987.75; 182,500 x 4,547 / 10,000 = 82,982.75.
    let two = [dated(100, &[500_000]), dated(200, &[500_000])];
    checks.equal("two events", charged(&cat, &two), vec![132_988, 82_983]);
    checks.equal("their layer", column(&program(&cat, &two.concat()), "(layer", "premium"), vec![215_971]);
    checks.equal("their total", column(&program(&cat, &two.concat()), "(total", "premium"), vec![215_971]);
    // One loss of the event, 365,000 x 7,287 / 10,000 = 265,975.5, and 365,000 x 4,986 / 10,000 = 181,989.
    let both = [500_000, 500_000];
    checks.equal("cat layer, two losses", charged_alone(&cat, &[100, 184], &both), vec![265_976, 181_989]);
    // Two losses of the event, each as above: 132,988 twice, 90,995 twice.
    checks.equal("risk layer, two losses", charged_alone(&risk, &[100, 184], &both), vec![265_976, 181_990]);
    // The limit is reinstated once: a third loss has no amount premium.
    checks.equal("past the last", charged_alone(&risk, &[100], &[500_000, 500_000, 500_000]), vec![265_976]);
    // Brought are 600, 1,000 and 300, used 550, 1,550 and 1,850; recovered 183, 517 and 617, by slices 183; 333 and
    // 184; 333 and 284. The year's amount premiums are 91.41, 393.25 and 516.58, the losses' 91, 302 and 124. At
    // 1,178 they come to 10.72, 35.58 and 14.61, together 60.90; at 4,547 to 41.38, 137.32 and 56.38, together 235.08.
    let slices = "(risk (band 100 1000) (deduct 50) (back 2 999 5000 12345) (placed 3333) (time))\n";
    let losses = [700, 1_500, 400];
    checks.equal("three losses", charged_alone(slices, &[323, 200], &losses), vec![11 + 36 + 15, 41 + 137 + 56]);
    let apart = losses.map(|loss| dated(323, &[loss]));
    checks.equal("in three events", charged(slices, &apart), vec![11, 36, 15]);
    // With the first two changed about, used are 950, 1,550 and 1,850, and the first slice is 317 after the first. The
    // losses' amount premiums are 158, 235 and 124, at 4,547 71.84, 106.85 and 56.38.
    checks.equal("changed about", charged_alone(slices, &[200], &[1_500, 700, 400]), vec![72 + 107 + 56]);
    let none = "(cat (band 0 9) (deduct 0) (back 0 7) (placed 1) (time))\n";
    checks.equal("no reinstatement by time", charged_alone(none, &[1], &[9]), vec![0]);
}

/// The lines of a scale, each with the share of its day.
fn days(share: impl Fn(u64) -> u64) -> Vec<String> {
    (1..=366).map(|day| format!("(day {day} {})\n", share(day))).collect()
}

/// The premium of a loss of 500,000 on each of the days, each in a year of its own, under a scale.
fn charged_under(scale: &Scale, table: &str, on: &[u64]) -> Vec<u64> {
    let programme = read_table(table.as_bytes()).unwrap();
    let charged = |day: &u64| {
        let (mut standing, mut buffer) = (open(&programme).unwrap(), [0; 2_000]);
        let events = dated(*day, &[500_000]);
        let length = run_scaled(&programme, &mut standing, Some(scale), events.as_bytes(), &mut buffer).unwrap();
        let statement = String::from_utf8(buffer[..length].to_vec()).unwrap();
        checked_premium(&column(&statement, "(layer", "premium"), &column(&statement, "(event", "premium"))
    };
    on.iter().map(charged).collect()
}

/// The premium of the only layer, which is that of the only event.
fn checked_premium(of_layers: &[u64], of_events: &[u64]) -> u64 {
    assert_eq!((of_layers, of_events.len()), (of_events, 1));
    of_layers[0]
}

/// Premium under scales of a client's own, worked out by hand.
fn by_scale(checks: &mut Checks) {
    let scale = |share: fn(u64) -> u64| read_scale(days(share).concat().as_bytes()).unwrap();
    let (cat, risk) = (timed_layer("cat"), timed_layer("risk"));
    // 182,500 x 7,201 / 10,000 = 131,418.25; 182,500 x 6,667 / 10,000 = 121,672.75; 182,500 x 3,333 / 10,000 =
    // 60,827.25; 182,500 x 1 / 10,000 = 18.25.
    let steps = scale(|day| [7_201, 6_667, 3_333, 1, 0][(day as usize - 1).div_ceil(100)]);
    let on = [1, 2, 101, 102, 184, 201, 202, 301, 302, 366];
    let premiums = vec![131_418, 121_673, 121_673, 60_827, 60_827, 60_827, 18, 18, 0, 0];
    checks.equal("cat layer by steps", charged_under(&steps, &cat, &on), premiums.clone());
    checks.equal("risk layer by steps", charged_under(&steps, &risk, &on), premiums);
    checks.equal("by the whole", charged_under(&scale(|_| 10_000), &cat, &[1, 366]), vec![182_500; 2]);
    checks.equal("by nothing", charged_under(&scale(|_| 0), &cat, &[1, 366]), vec![0; 2]);
    let untimed = cat.replace(" (time)", "");
    checks.equal("without (time) by a scale", charged_under(&steps, &untimed, &[1, 366]), vec![182_500; 2]);
    let listed = [(1, 10_000), (2, 9_972), (74, 8_000), (184, 4_986), (293, 2_000), (365, 27), (366, 0)];
    let built_in = Scale::built_in();
    checks.equal("built-in shares", listed.map(|(day, _)| built_in.share_of(day)), listed.map(|(_, share)| share));
    checks.equal("the built-in as a text", read_scale(&write_scale(built_in.shares())), Ok(built_in));
}

fn band(attachment: u64, limit: u64) -> String {
    format!("(risk (band {attachment} {limit}) (deduct 0) (back 0 0) (placed 10000))\n")
}

fn refused_tables(checks: &mut Checks) {
    let accepted = |table: &str| read_table(table.as_bytes()).is_ok();
    checks.equal("bands 50 50 then 100 1", accepted(&(band(50, 50) + &band(100, 1))), true);
    checks.refused("bands 50 50 then 99 1", &(band(50, 50) + &band(99, 1)), "", 5, 2);
    checks.refused("table over 8,192 bytes", &"x".repeat(8_193), "", 1, 0);
    checks.refused("table of 8,192 bytes", &"x".repeat(8_192), "", 2, 1);
    checks.refused("form before range", "(quota 9 (cede 01) (capacity 0) (event 0))\n", "", 2, 1);
    checks.refused("treaty 9", "(quota 9 (cede 0) (capacity 0) (event 0))\n", "", 3, 1);
    checks.refused("limit 0", &band(5, 0), "", 3, 1);
    let quota = "(quota 1 (cede 0) (capacity 0) (event 0))\n";
    checks.refused("treaty after a layer", &(band(5, 1) + quota), "", 4, 2);
    checks.refused("treaty number repeated", &quota.repeat(2), "", 4, 2);
    let nine: String = (0..9).map(|place| band(place, 1)).collect();
    checks.refused("ninth layer", &nine, "", 4, 9);
    checks.refused("ninth layer below the eighth", &(nine[..nine.len() / 9 * 8].to_string() + &band(0, 1)), "", 4, 9);
    checks.refused("no line feed", "(quota 1 (cede 0) (capacity 0) (event 0))", "", 2, 1);
}

/// A table of one layer with such reinstatements.
fn with_back(back: &str) -> String {
    format!("(cat (band 30 70) (deduct 9) (back {back}) (placed 7201))\n")
}

/// So many rates, each after a space.
fn so_many(count: usize, rate: u64) -> String {
    format!(" {rate}").repeat(count)
}

/// Rates that are not as many as the line says are no form; the ranges come after that.
fn refused_rates(checks: &mut Checks) {
    let accepted = ["0 0", "0 1000000000000", "1 5000 10000", "1 5000 20000", "2 5000 0 1", "3 0 20000 0 7"];
    let twenty = format!("20 5000{}", so_many(20, 20_000));
    for back in accepted.into_iter().chain([twenty.as_str()]) {
        let table = with_back(back);
        let written = read_table(table.as_bytes()).map(|programme| write_table(&programme));
        checks.equal(back, written, Ok(table.into_bytes()));
    }
    let no_form = ["0", "0 ", "0 0 ", "0 0 0", "1 5000", "1 5000 ", "1 5000  7", "1 5000 7 7", "1 5000 07", "3 1 2 3"];
    let without = ["21 5000".to_string() + &so_many(20, 7), "9999999999999999 5000 7".to_string()];
    let seventeen = format!("1 5000 {}", "9".repeat(17));
    for back in no_form.into_iter().chain(without.iter().map(String::as_str)).chain([seventeen.as_str()]) {
        checks.refused(back, &with_back(back), "", 2, 1);
    }
    let with_all = "21 5000".to_string() + &so_many(21, 7);
    let sixteen = format!("1 5000 {}", "9".repeat(16));
    let outside = ["1 5000 20001", "1 5000 75000000", "2 5000 7 20001", "1 1000000000001 7", &with_all, &sixteen];
    for back in outside {
        checks.refused(back, &with_back(back), "", 3, 1);
    }
}

/// A table of one layer with such words after its placed share.
fn with_end(end: &str) -> String {
    format!("(risk (band 30 70) (deduct 9) (back 1 500 7) (placed 7201){end}\n")
}

/// `(time)` is the last item, once, or is not there.
fn refused_times(checks: &mut Checks) {
    for end in [")", " (time))"] {
        for table in [with_end(end), with_end(end).replace("risk", "cat"), with_end(end).replace("1 500 7", "0 0")] {
            let written = read_table(table.as_bytes()).map(|programme| write_table(&programme));
            checks.equal(end, written, Ok(table.into_bytes()));
        }
    }
    let misspelt = [" (tim))", " (tine))", " (Time))", " (times))", " (time 1))", " (time 0))", " ())"];
    let brackets = [" (time)", " (time", " (time)))", " time)", " time))", ") (time)"];
    let spaces = ["(time))", "  (time))", " (time) )", " (time ))", " ( time))", " (time)\r)"];
    for end in misspelt.into_iter().chain(brackets).chain(spaces).chain([" (time) (time))"]) {
        checks.refused(end, &with_end(end), "", 2, 1);
    }
    let elsewhere = [
        "(cat (band 30 70) (deduct 9) (back 1 500 7) (time) (placed 7201))\n",
        "(cat (band 30 70) (deduct 9) (time) (back 1 500 7) (placed 7201))\n",
        "(cat (time) (band 30 70) (deduct 9) (back 1 500 7) (placed 7201))\n",
        "(cat (band 30 70) (deduct 9) (back 1 500 7 (time)) (placed 7201))\n",
        "(quota 1 (cede 1) (capacity 1) (event 1) (time))\n",
        "(surplus 1 (retain 1) (lines 1) (event 1) (time))\n",
        "(time)\n",
    ];
    for table in elsewhere {
        checks.refused(table, table, "", 2, 1);
    }
    checks.refused("a range after the form", &with_end(" (time))").replace("7201", "10001"), "", 3, 1);
}

/// A scale text with other words in place of a line, and what it is refused with.
fn refused_line(checks: &mut Checks, line: u64, words: &str, refusal: u64) {
    let mut lines = days(|day| 9_000 - 10 * day);
    lines[line as usize - 1] = format!("{words}\n");
    checks.equal(words, read_scale(lines.concat().as_bytes()), Err((refusal, line)));
}

/// Scales of 366 lines of which one is at fault: 28 before 29 before 30.
fn refused_days(checks: &mut Checks) {
    let seventeen = format!("(day 1 {})", "1".repeat(17));
    let no_forms = ["(day 01 5)", "(day 1 05)", "(day 1 00)", &seventeen, "(day 1 5)\r", " (day 1 5)", "(day 1 5) "];
    let no_words = ["", "(day 1)", "(day 1 5 5)", "(day  1 5)", "(day 1  5)", "(Day 1 5)", "(day 1 -5)", "day 1 5"];
    let no_days = ["(day 0 5)", "(day 2 5)", "(day 367 5)", "(day 2 10001)"];
    for words in no_forms.into_iter().chain(no_words).chain(no_days) {
        refused_line(checks, 1, words, 28);
    }
    refused_line(checks, 366, "(day 367 0)", 28);
    refused_line(checks, 200, "(day 199 0)", 28);
    refused_line(checks, 200, "(day 201 7011)", 28);
    refused_line(checks, 1, "(day 1 10001)", 29);
    refused_line(checks, 200, "(day 200 10001)", 29);
    refused_line(checks, 366, &format!("(day 366 {})", "9".repeat(16)), 29);
    // Day 199 has 7,010, day 365 5,350.
    refused_line(checks, 200, "(day 200 7011)", 30);
    refused_line(checks, 366, "(day 366 5351)", 30);
}

/// Scales with too few lines or too many, and with several faults: the first line from the top decides.
fn refused_scales(checks: &mut Checks) {
    let text = days(|day| 9_000 - 10 * day).concat();
    let read = |text: &str| read_scale(text.as_bytes()).map(|scale| scale.shares().to_vec());
    let shares: Vec<u64> = (1..=366).map(|day| 9_000 - 10 * day).collect();
    checks.equal("a scale", read(&text), Ok(shares.clone()));
    let lines = |count: usize| days(|_| 7)[..count].concat();
    checks.equal("no lines", read(""), Err((28, 0)));
    checks.equal("365 lines", read(&lines(365)), Err((28, 0)));
    for more in ["(day 367 7)\n", "(day 1 7)\n", "\n", "x", "(day 367 10001"] {
        checks.equal(more, read(&(text.clone() + more)), Err((28, 367)));
    }
    checks.equal("no last line feed", read(&text[..text.len() - 1]), Err((28, 366)));
    checks.equal("no line feed in 10 lines", read(lines(10).trim_end()), Err((28, 10)));
    let third = |words: &str| lines(10).replace("(day 3 7)", words);
    checks.equal("a share in 10 lines", read(&third("(day 3 10001)")), Err((29, 3)));
    checks.equal("a rising share in 10 lines", read(&third("(day 3 8)")), Err((30, 3)));
    checks.equal("the first of two faults", read(&third("(day 3 8)\nx")), Err((30, 3)));
    checks.equal("carriage returns", read(&text.replace('\n', "\r\n")), Err((28, 1)));
    for changed in [&shares[1..], &[], &[shares.as_slice(), &[0]].concat()] {
        checks.equal("lent so many", Scale::of_shares(changed), None);
    }
    checks.equal("lent as read", Scale::of_shares(&shares).is_some(), true);
    for (place, share) in [(0, 10_001), (1, 8_991), (365, 5_351), (9, u64::MAX)] {
        let changed: Vec<u64> = (0..366).map(|other| if other == place { share } else { shares[other] }).collect();
        checks.equal("lent with another share", Scale::of_shares(&changed), None);
    }
}

/// A run that is lent no scale is refused with 28, after 6 and 8 and before the events are looked at.
fn refused_under(checks: &mut Checks) {
    let programme = read_table(timed_layer("cat").as_bytes()).unwrap();
    let mut broken = programme.clone();
    broken.cat[0].limit = 0;
    let mut spent = Standing::default();
    spent.risk[0] = 1;
    let long = "x".repeat(65_537);
    let refused = |programme: &Programme, standing: &Standing, events: &str| {
        let (mut left, mut buffer) = (standing.clone(), [7; 200]);
        let answer = run_scaled(programme, &mut left, None, events.as_bytes(), &mut buffer);
        assert_eq!((&left, buffer), (standing, [7; 200]));
        answer
    };
    checks.equal("6 before 28", refused(&broken, &spent, &long), Err((6, 0)));
    checks.equal("8 before 28", refused(&programme, &spent, &long), Err((8, 0)));
    for events in [&long, "x", "(event 367)\n", "(event 9)\n", ""] {
        checks.equal("28 before 9 to 14 and 7", refused(&programme, &Standing::default(), events), Err((28, 0)));
    }
    let untimed = read_table(b"").unwrap();
    checks.equal("28 without (time)", refused(&untimed, &Standing::default(), ""), Err((28, 0)));
}

fn refused_events(checks: &mut Checks) {
    let total = "(total (gross 0) (ceded 0) (risk 0) (cat 0) (net 0) (premium 0))\n";
    checks.equal("empty texts", program("", "").as_str(), total);
    checks.equal("day 366", program("", "(event 366)\n").starts_with("(event 366 (gross 0)"), true);
    checks.refused("day 367", "", "(event 367)\n", 11, 1);
    checks.equal("64 losses", program("", &event(0, &[(1, 1); 64])).starts_with("(event 1 (gross 64)"), true);
    checks.refused("65 losses", "", &event(0, &[(1, 1); 65]), 12, 1);
    let last_out_of_range = event(0, &[(1, 1); 65]).replace("1))", "10000000000001))");
    checks.refused("65 losses, the last out of range", "", &last_out_of_range, 11, 1);
    checks.refused("seventeen digits", "", "(event 10000000000000000)\n", 10, 1);
    checks.refused("a day back", "", "(event 2)\n(event 1)\n", 13, 2);
    checks.refused("a treaty that is not there", "", "(event 1 (loss 8 1 1))\n", 14, 1);
    checks.refused("a day back with such a treaty", "", "(event 2)\n(event 1 (loss 8 1 1))\n", 13, 2);
    checks.refused("the first line decides", "", "(event 1 (loss 8 1 1))\nx", 14, 1);
    checks.refused("events over 65,536 bytes", "", &"x".repeat(65_537), 9, 0);
    let event_line = total.replace("(total", "(event 1");
    let needed = (1_000 * event_line.len() + total.len()) as u64;
    checks.refused("statement over the buffer", "", &"(event 1)\n".repeat(1_000), 7, needed);
}

/// Programmes and standings that no reading or run hands over.
fn refused_records(checks: &mut Checks) {
    let programme = read_table(SIDNEY_TABLE.as_bytes()).unwrap();
    checks.equal("written as read", write_table(&programme), SIDNEY_TABLE.as_bytes().to_vec());
    let mut broken = programme.clone();
    broken.cat[1].attachment -= 1;
    checks.equal("opening a broken programme", open(&broken), Err((6, 0)));
    let mut standing = Standing::default();
    checks.equal("running it", run(&broken, &mut standing, b"x", &mut []), Err((6, 0)));
    let cat = [150_000_000, 300_000_000, 300_000_000, 0, 0, 0, 0, 0];
    let mut spent = Spent { cat, day: 366, ..Spent::default() };
    checks.equal("each spent amount at its cap", take_over(&programme, &spent).is_ok(), true);
    spent.day = 367;
    checks.equal("day 367 in a standing", take_over(&programme, &spent), Err((8, 0)));
    spent.day = 0;
    spent.cat[0] += 1;
    checks.equal("a spent amount above its cap", take_over(&programme, &spent), Err((8, 0)));
    standing.risk[0] = 1;
    checks.equal("a missing layer's sum", run(&programme, &mut standing, b"x", &mut []), Err((8, 0)));
}

/// Timed premiums of standings: a layer by time, one by amount, and no third, in each tier.
fn refused_timed(checks: &mut Checks) {
    let tier = |name: &str| {
        timed_layer(name) + &timed_layer(name).replace("band 0", "band 1000000").replace(" (time)", "")
    };
    let programme = read_table((tier("risk") + &tier("cat")).as_bytes()).unwrap();
    let spent = [500_000, 500_000, 0, 0, 0, 0, 0, 0];
    let with = |risk_timed: [u64; 8], cat_timed: [u64; 8]| {
        take_over(&programme, &Spent { risk: spent, cat: spent, day: 9, risk_timed, cat_timed })
    };
    let at = |place: usize, amount: u64| std::array::from_fn(|other| if other == place { amount } else { 0 });
    checks.equal("each timed premium at its most", with(at(0, 182_500), at(0, 182_500)).is_ok(), true);
    checks.equal("no timed premium", with([0; 8], [0; 8]).is_ok(), true);
    for (name, place, amount) in [("one above", 0, 182_501), ("by amount", 1, 1), ("missing", 2, 1), ("last", 7, 1)] {
        checks.equal(name, with(at(place, amount), [0; 8]), Err((8, 0)));
        checks.equal(name, with([0; 8], at(place, amount)), Err((8, 0)));
    }
    // The premium of the layer's line is the standing's and the loss's, 90,995, whatever its amount premium is.
    let mut standing = with([0; 8], at(0, 7)).unwrap();
    let mut buffer = [0; 2_000];
    let length = run(&programme, &mut standing, dated(184, &[500_000]).as_bytes(), &mut buffer).unwrap();
    let statement = String::from_utf8(buffer[..length].to_vec()).unwrap();
    checks.equal("after a standing", column(&statement, "(layer", "premium"), vec![90_995, 182_500, 7, 182_500]);
    checks.equal("what it leaves", (standing.risk_timed[0], standing.cat_timed[0]), (90_995, 7));
}

/// Runs the texts one after the other under a scale; each answer is the statement or the refusal.
fn history(programme: &Programme, scale: &Scale, texts: &[&str]) -> (Standing, Vec<Result<String, Refusal>>) {
    let mut standing = open(programme).unwrap();
    let mut answers = Vec::new();
    for text in texts {
        let mut buffer = [0; 2_000];
        let answer = run_scaled(programme, &mut standing, Some(scale), text.as_bytes(), &mut buffer);
        answers.push(answer.map(|length| String::from_utf8(buffer[..length].to_vec()).unwrap()));
    }
    (standing, answers)
}

/// A year run by run has the lines of the year in one run, and a refused run changes nothing.
fn histories(checks: &mut Checks) {
    let (programme, scale) = (read_table(SIDNEY_TABLE.as_bytes()).unwrap(), Scale::built_in());
    let lines = ["(event 100 (loss 0 9 110000001))\n", "(event 230 (loss 0 9 350000003))\n", "(event 231)\n"];
    let (whole, whole_answers) = history(&programme, &scale, &[&lines.concat()]);
    let texts = [lines[0], "(event 99)\n", lines[1], "", lines[2]];
    let (parts, part_answers) = history(&programme, &scale, &texts);
    checks.equal("standing after runs", parts, whole);
    checks.equal("a refused run", part_answers[1].clone(), Err((13, 1)));
    let whole_text = whole_answers[0].clone().unwrap();
    let texts: Vec<String> = part_answers.into_iter().flatten().collect();
    let select = |text: &str, word: &str| -> String {
        text.split_inclusive('\n').filter(|line| line.starts_with(word)).collect()
    };
    checks.equal("event lines of the runs", select(&texts.concat(), "(event"), select(&whole_text, "(event"));
    checks.equal("layer lines of the last run", select(&texts[3], "(layer"), select(&whole_text, "(layer"));
}

/// A layer by time over several runs has the ledger of one run under the same scale; a refused run charges nothing.
/// The two losses that have an amount premium are charged so much.
fn timed_history(checks: &mut Checks, scale: &Scale, [first, second]: [u64; 2]) {
    let programme = read_table(timed_layer("cat").as_bytes()).unwrap();
    let lines = [dated(100, &[300_000, 200_000]), dated(184, &[500_000]), dated(366, &[500_000])];
    let (whole, _) = history(&programme, scale, &[&lines.concat()]);
    let (parts, answers) = history(&programme, scale, &[&lines[0], "(event 99)\n", &lines[1], "", &lines[2]]);
    checks.equal("timed premium after runs", parts.cat_timed[0], first + second);
    checks.equal("timed standing after runs", parts, whole);
    checks.equal("a refused run between", answers[1].clone(), Err((13, 1)));
    let premiums: Vec<u64> =
        answers.iter().flatten().flat_map(|statement| column(statement, "(layer", "premium")).collect();
    let sum = first + second;
    checks.equal("layer lines of the runs", premiums, vec![first, sum, sum, sum]);
}

fn timed_histories(checks: &mut Checks) {
    timed_history(checks, &Scale::built_in(), [132_988, 90_995]);
    // 182,500 x 7,201 / 10,000 = 131,418.25, and 182,500 x 3,333 / 10,000 = 60,827.25.
    let lines = days(|day| if day < 184 { 7_201 } else { 3_333 });
    timed_history(checks, &read_scale(lines.concat().as_bytes()).unwrap(), [131_418, 60_827]);
}

/// A loss list, each loss as treaty and amount.
type List = &'static [(u64, u64)];

/// What a year comes to under a table by its loss lists alone.
fn dealt(table: &str, lists: &[List]) -> Year {
    let loss = |(treaty, amount): &(u64, u64)| Loss { treaty: *treaty, maximum: 9, amount: *amount };
    let lists = lists.iter().map(|list| list.iter().map(loss).collect());
    Year::of(&read_table(table.as_bytes()).unwrap(), &counted(lists))
}

/// The statement of a year that has the lists on days that follow one another.
fn dealt_in_turn(table: &str, first_day: u64, lists: &[List]) -> String {
    let form = |(treaty, amount): &(u64, u64)| format!(" (loss {treaty} 9 {amount})");
    let forms = lists.iter().map(|list| list.iter().map(form).collect::<String>());
    let events: String = forms.zip(first_day..).map(|(forms, day)| format!("(event {day}{forms})\n")).collect();
    program(table, &events)
}

/// Lists of a year without risk layers, whatever their order, worked out by hand.
fn dealt_without_risk_layers(checks: &mut Checks) {
    // Ceded of the first are 2,000 and 1,000, not 1,600; of the last 799.6. Left of the lists are 6,700, 9,100, 0 and
    // 1,199; the first occurs twice. Outside the bands stay 2,000 of it, 3,900 and 1,000, in all 8,900.
    let (twice, above, none, small): (List, List, List, List) =
        (&[(1, 5_000), (1, 4_000), (0, 700)], &[(0, 9_100)], &[], &[(1, 1_999)]);
    // The first layer is brought 4,000 three times and 199: used 10,699, recovered 7,703.28, kept 1,500 and 2,996. By
    // slices it recovers 2,880, 2,880 and 1,943: premium 288 + 432 + 388.6. Its cap is 17,500.
    let first =
        Figures { spent: 12_199, deductible_left: 0, cover_left: 5_301, recovered: 7_703, amount_premium: 1_109 };
    // The second is brought 700 twice and 1,200, its cap is 2,400: recovered 799.92, kept 1,600 and 200. The slice is
    // 399.96, so the premium 400 x 12,345 x 450 / 12,000,000 = 185.175.
    let second = Figures { spent: 2_400, deductible_left: 0, cover_left: 0, recovered: 800, amount_premium: 185 };
    let net = 8_900 + 1_500 + 2_996 + 1_600 + 200;
    let cat = Some(vec![first, second]);
    let year = Year { gross: 30_499, ceded: 6_800, risk: Vec::new(), cat, net: Some(net) };
    checks.equal("cat layers dealt", dealt(CAT_DEALT, &[twice, above, none, small, twice]), year.clone());
    checks.equal("in another order", dealt(CAT_DEALT, &[small, twice, twice, none, above]), year.clone());
    checks.equal("a list once", dealt(CAT_DEALT, &[small, twice, none, above]) == year, false);
    for lists in [[twice, above, none, small, twice], [small, none, above, twice, twice]] {
        let statement = dealt_in_turn(CAT_DEALT, 51, &lists);
        checks.equal("cat layers in turn", column(&statement, "(layer", "recovered"), vec![7_703, 800]);
        checks.equal("their premiums", column(&statement, "(layer", "premium"), vec![1_109, 185]);
        checks.equal("their net", column(&statement, "(total", "net"), vec![net]);
    }
    let bare = Year { gross: 9_700, ceded: 0, risk: Vec::new(), cat: Some(Vec::new()), net: Some(9_700) };
    checks.equal("without contracts", dealt("", &[&[(0, 9_000)], &[(0, 400), (0, 300)]]), bare);
}

/// Lists of a year with risk layers, worked out by hand. The order inside a list is not free.
fn dealt_with_risk_layers(checks: &mut Checks) {
    // Ceded of the first are 900, not 1,200, and then nothing: left are 1,100 and 1,000, which bring 600 and 500; it
    // occurs twice. The second brings 350 and 700. Used are 2,950, recovered 2,876.25, by slices 683, 682, 683 and
    // 682: premium 0 + 324.4 + 81.2 + 243.3. The cap is 3,800. Outside the band stay 500 five times and 501; kept
    // inside are 300 and 74.
    let (twice, other): (List, List) = (&[(3, 2_000), (3, 1_000)], &[(0, 850), (0, 1_201)]);
    let layer = Figures { spent: 3_250, deductible_left: 0, cover_left: 550, recovered: 2_876, amount_premium: 649 };
    let risk = vec![layer];
    let net = Some(2_500 + 501 + 300 + 74);
    let year = Year { gross: 8_051, ceded: 1_800, risk, cat: None, net };
    checks.equal("a risk layer dealt", dealt(RISK_DEALT, &[twice, other, twice]), year.clone());
    let both = RISK_DEALT.to_string() + "(cat (band 900 50) (deduct 0) (back 0 0) (placed 7200))\n";
    checks.equal("both tiers dealt", dealt(&both, &[twice, twice, other]), Year { net: None, ..year });
    // The other way about 600 and 300 are ceded: left are 400 and 1,700, which bring 0 and 700, twice.
    let turned: List = &[(3, 1_000), (3, 2_000)];
    checks.equal("losses changed about", dealt(RISK_DEALT, &[turned, other, turned]).risk[0].spent, 2_450);
    for lists in [[twice, other, twice], [other, twice, twice]] {
        let statement = dealt_in_turn(&RISK_DEALT.replace(" (time)", ""), 300, &lists);
        checks.equal("a risk layer in turn", column(&statement, "(layer", "recovered"), vec![2_876]);
        checks.equal("its premium", column(&statement, "(layer", "premium"), vec![649]);
        checks.equal("its net", column(&statement, "(total", "net"), vec![3_375]);
    }
}

/// With both tiers the order of the lists can change net: the first of them eats the risk layer's deductible of 10.
fn dealt_to_both_tiers(checks: &mut Checks) {
    let table = "\
(risk (band 50 110) (deduct 10) (back 0 0) (placed 10000))
(cat (band 70 90) (deduct 0) (back 0 0) (placed 10000))
";
    let (two, one): (List, List) = (&[(0, 60), (0, 30)], &[(0, 150)]);
    let of_events = |lists: &[List], name: &str| column(&dealt_in_turn(table, 9, lists), "(event", name);
    // The risk layer is brought 10 of the 60 and 100 of the 150. The cat layer's subjects are 90 and 50, or 60 and 80.
    checks.equal("cat in one order", of_events(&[two, one], "cat"), vec![20, 0]);
    checks.equal("cat in the other", of_events(&[one, two], "cat"), vec![0, 10]);
    checks.equal("net in one order", of_events(&[two, one], "net"), vec![70, 50]);
    checks.equal("net in the other", of_events(&[one, two], "net"), vec![60, 70]);
    checks.equal("net of both tiers", dealt(table, &[two, one]).net, None);
}

fn main() {
    let mut checks = Checks { made: 0, failed: 0 };
    treaties(&mut checks);
    layers(&mut checks);
    nearest_cents(&mut checks);
    rates(&mut checks);
    time_shares(&mut checks);
    by_time(&mut checks);
    by_scale(&mut checks);
    refused_tables(&mut checks);
    refused_rates(&mut checks);
    refused_times(&mut checks);
    refused_days(&mut checks);
    refused_scales(&mut checks);
    refused_under(&mut checks);
    refused_events(&mut checks);
    refused_records(&mut checks);
    refused_timed(&mut checks);
    histories(&mut checks);
    timed_histories(&mut checks);
    dealt_without_risk_layers(&mut checks);
    dealt_with_risk_layers(&mut checks);
    dealt_to_both_tiers(&mut checks);
    println!("figures: {} compared, {} differ", checks.made, checks.failed);
    std::process::exit(i32::from(checks.failed > 0));
}
