//! `decimals COUNT [SEED]`: A2's writing of decimals against what the Rust prints for them: all digits around each power
//! of ten and at the bounds, then random ones, each with all places, until COUNT decimals or more were compared.

use oracle::writing::compare;
use std::process::ExitCode;
use std::time::Instant;

fn main() -> ExitCode {
    let numbers: Vec<u64> = std::env::args().skip(1).filter_map(|word| word.parse().ok()).collect();
    let Some(count) = numbers.first() else {
        eprintln!("decimals COUNT [SEED]");
        return ExitCode::from(2);
    };
    let start = Instant::now();
    let comparison = compare(*count, numbers.get(1).copied().unwrap_or(0));
    println!(
        "{} decimals: {} around powers of ten and at the bounds, {} random; {} differ; {:.1} s",
        comparison.all(),
        comparison.around_powers,
        comparison.random,
        comparison.differences,
        start.elapsed().as_secs_f64()
    );
    match comparison.first {
        None => ExitCode::SUCCESS,
        Some(words) => {
            println!("{words}");
            ExitCode::FAILURE
        }
    }
}
