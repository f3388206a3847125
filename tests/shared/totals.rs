//! What a statement's total line says.

/// The numbers of a line, in order.
pub fn numbers(line: &str) -> Vec<u64> {
    line.split(|byte: char| !byte.is_ascii_digit()).filter_map(|digits| digits.parse().ok()).collect()
}

/// The amounts of a statement's total line: gross, ceded, risk, cat, net, premium. None for a refusal.
pub fn totals(statement: &[u8]) -> Option<Vec<u64>> {
    let text = std::str::from_utf8(statement).ok()?;
    text.lines().last()?.strip_prefix("(total").map(numbers)
}

/// Whether something is ceded, both tiers have recoveries and there is premium.
pub fn has_all(amounts: &[u64]) -> bool {
    [1, 2, 3, 5].iter().all(|place| amounts[*place] > 0)
}
