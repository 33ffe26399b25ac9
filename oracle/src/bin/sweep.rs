//! `sweep COUNT [FIRST] [--arms]`: runs COUNT seeds from FIRST on, checks demand 3 and A9 on every accepted page, and
//! prints what was reached. With --arms the copy of the Rust that counts its arms runs beside the judge.
//! `sweep small FIELDS`: the same checks on all small pages with up to FIELDS fields, under four options.

use oracle::sweep::{Settings, small, sweep};
use std::process::ExitCode;

fn main() -> ExitCode {
    let words: Vec<String> = std::env::args().skip(1).collect();
    let numbers: Vec<u64> = words.iter().filter_map(|w| w.parse().ok()).collect();
    let Some(count) = numbers.first() else {
        eprintln!("sweep COUNT [FIRST] [--arms], or sweep small FIELDS");
        return ExitCode::from(2);
    };
    if !oracle::AVAILABLE {
        eprintln!("built without jsx_precompile.rs: nothing can be judged");
        return ExitCode::from(2);
    }
    if words[0] == "small" {
        let mut violations = 0;
        for fields in 1..=*count as usize {
            let report = small(fields);
            println!("pages of {fields} fields: {report:?}");
            violations += report.violations;
        }
        return if violations == 0 { ExitCode::SUCCESS } else { ExitCode::FAILURE };
    }
    let settings = Settings {
        first: numbers.get(1).copied().unwrap_or(0),
        count: *count,
        arms: words.iter().any(|w| w == "--arms"),
        progress: true,
    };
    let report = sweep(&settings);
    print!("{}", report.table());
    let shortfalls = report.shortfalls();
    for shortfall in &shortfalls {
        println!("reached too little: {shortfall}");
    }
    if report.violations == 0 && shortfalls.is_empty() { ExitCode::SUCCESS } else { ExitCode::FAILURE }
}
