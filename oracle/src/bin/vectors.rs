//! `vectors`: writes the stored sample of the judge's answers to standard output (oracle/README.md has its format).

use oracle::vectors::sample;
use std::io::Write;
use std::process::ExitCode;

fn main() -> ExitCode {
    if !oracle::AVAILABLE {
        eprintln!("built without jsx_precompile.rs: nothing can be judged");
        return ExitCode::from(2);
    }
    let text: String = sample().iter().map(|vector| vector.line()).collect();
    match std::io::stdout().write_all(text.as_bytes()) {
        Ok(()) => ExitCode::SUCCESS,
        Err(error) => {
            eprintln!("{error}");
            ExitCode::FAILURE
        }
    }
}
