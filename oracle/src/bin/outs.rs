//! `outs COUNT [FIRST]`: COUNT seeds of each call over templates out and page out from FIRST on, and what they reached.

use oracle::outs::reached::Reached;
use oracle::outs::sweep;
use std::process::ExitCode;

fn main() -> ExitCode {
    let numbers: Vec<u64> = std::env::args().skip(1).filter_map(|word| word.parse().ok()).collect();
    let [count, first @ ..] = &numbers[..] else {
        eprintln!("outs COUNT [FIRST]");
        return ExitCode::from(2);
    };
    let first = first.first().copied().unwrap_or(0);
    let all = [
        (sweep::conversions(first, *count), Reached::due_of_convert()),
        (sweep::finds(first, *count), Reached::due_of_find()),
        (sweep::fills(first, *count), Reached::due_of_fill()),
        (sweep::histories(false, first, *count), Reached::due_of_catalogue(false)),
        (sweep::histories(true, first, *count), Reached::due_of_catalogue(true)),
    ];
    let mut missing = vec![];
    for (reached, due) in &all {
        print!("{}", reached.table());
        missing.extend(reached.missing(due, 1));
    }
    missing.iter().for_each(|what| println!("never reached: {what}"));
    if missing.is_empty() { ExitCode::SUCCESS } else { ExitCode::FAILURE }
}
