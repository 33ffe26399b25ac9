//! `tags COUNT [FIRST]`: COUNT seeds of tag text from FIRST on, and what they reached.
//! `tags short`: all short texts, read by the judge and by the slow reader that tries every production.
//! `tags show SEED`: the text of a seed, and the judge's answer.
//! `tags vectors`: answers of the judge, one call on a line.

use oracle::show::show;
use oracle::tag::sweep::{short_all, sweep};
use oracle::tag::vectors::sample;
use oracle::tag::{generate, outcome};
use std::process::ExitCode;

fn main() -> ExitCode {
    let words: Vec<String> = std::env::args().skip(1).collect();
    let numbers: Vec<u64> = words.iter().filter_map(|word| word.parse().ok()).collect();
    match (words.first().map(String::as_str), &numbers[..]) {
        (Some("short"), []) => match short_all() {
            Ok(lines) => print!("{lines}"),
            Err(words) => {
                println!("{words}");
                return ExitCode::FAILURE;
            }
        },
        (Some("vectors"), []) => sample().iter().for_each(|vector| print!("{}", vector.line())),
        (Some("show"), [seed]) => {
            let case = generate::case(*seed);
            println!("{}", String::from_utf8_lossy(&case.text));
            match outcome(&case.text) {
                Ok(field) => print!("{}", show(&field)),
                Err(refusal) => println!("{} {refusal:?}", refusal as u32),
            }
        }
        (Some(_), [count, first @ ..]) => {
            let report = sweep(first.first().copied().unwrap_or(0), *count);
            print!("{}", report.table());
            let shortfalls = report.shortfalls();
            shortfalls.iter().for_each(|words| println!("reached too little: {words}"));
            if !shortfalls.is_empty() {
                return ExitCode::FAILURE;
            }
        }
        _ => {
            eprintln!("tags COUNT [FIRST], tags short, tags show SEED, or tags vectors");
            return ExitCode::from(2);
        }
    }
    ExitCode::SUCCESS
}
