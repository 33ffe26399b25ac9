//! `show`: prints the bytes on standard input as indented fields, a page, options, shelf out, page out, an order or a
//! catalogue.
//! `show seed N`: prints page, options, answer and outputs of a seed.

use oracle::generate;
use oracle::show::show;
use oracle::vectors::Vector;
use std::io::Read;
use std::process::ExitCode;

fn main() -> ExitCode {
    let words: Vec<String> = std::env::args().skip(1).collect();
    match &words[..] {
        [] => {
            let mut bytes = vec![];
            if let Err(error) = std::io::stdin().read_to_end(&mut bytes) {
                eprintln!("{error}");
                return ExitCode::FAILURE;
            }
            print!("{}", show(&bytes));
        }
        [word, seed] if word == "seed" && oracle::AVAILABLE => {
            let Ok(seed) = seed.parse() else { return usage() };
            let vector = Vector::of("", &generate::case(seed));
            print!("page\n{}options\n{}", show(&vector.page), show(&vector.options));
            println!("{:?}", vector.answer);
            print!("templates\n{}page out\n{}", show(&vector.templates_written), show(&vector.page_written));
        }
        _ => return usage(),
    }
    ExitCode::SUCCESS
}

fn usage() -> ExitCode {
    eprintln!("show < BYTES, or show seed N");
    ExitCode::from(2)
}
