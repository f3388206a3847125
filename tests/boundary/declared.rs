//! Prints what the Rust wrapper declares, as the program made of the header does: each field's offset and size, each
//! struct's size, each constant.

use cession::{raw, Refusal};
use std::mem::{offset_of, size_of, size_of_val};

macro_rules! print_struct {
    ($name:ident { $($field:ident),* }) => {
        // The pattern names every field: one left out here does not compile.
        let raw::$name { $($field),* } = raw::$name::default();
        let plain = stringify!($name).to_lowercase();
        $(println!("{plain} {} {} {}", stringify!($field), offset_of!(raw::$name, $field), size_of_val(&$field));)*
        println!("{plain} {}", size_of::<raw::$name>());
    };
}

/// The variant's name in capitals, with its words parted.
fn constant(refusal: Refusal) -> String {
    let shown = format!("{refusal:?}");
    let name = shown.split(' ').next().expect("a name");
    let parted = |letter: char| if letter.is_uppercase() { format!("_{letter}") } else { letter.to_string() };
    name.chars().map(parted).collect::<String>().trim_start_matches('_').to_uppercase()
}

fn main() {
    print_struct!(Treaty { kind, number, cede, capacity, retention, lines, limit });
    print_struct!(Terms { attachment, limit, deductible, reinstatements, premium, placed, rates, time });
    print_struct!(Treaties { places, count });
    print_struct!(Layers { places, count });
    print_struct!(Programme { treaties, risk, cat });
    print_struct!(Standing { risk, cat, day, risk_timed, cat_timed });
    print_struct!(Scale { shares });
    print_struct!(Answer { refusal, number });
    print_struct!(Reading { refusal, line, programme });
    print_struct!(ScaleReading { refusal, line, scale });
    print_struct!(Opening { refusal, number, standing });
    println!("constant PLACES {}", cession::PLACES);
    println!("constant RATES {}", cession::RATES);
    println!("constant DAYS {}", cession::DAYS);
    println!("constant TABLE_BYTES {}", cession::TABLE_BYTES);
    println!("constant EVENTS_BYTES {}", cession::EVENTS_BYTES);
    println!("constant QUOTA_SHARE {}", cession::QUOTA_SHARE);
    println!("constant SURPLUS {}", cession::SURPLUS);
    let named = |number: &u64| !matches!(Refusal::from_numbers(*number, 0), Refusal::Other { .. });
    for number in (1..100).filter(named) {
        println!("constant {} {number}", constant(Refusal::from_numbers(number, 0)));
    }
}
