//! Prints number and sentence of every refusal that the Rust wrapper names, and of some that it does not, with a second
//! number of 0 and with another.

use cession::Refusal;

fn main() {
    for number in 1..=31 {
        for second in [0, 3] {
            let refusal = Refusal::from_numbers(number, second);
            println!("{}: {refusal}", refusal.number());
        }
    }
}
