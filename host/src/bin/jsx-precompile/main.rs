//! The program `jsx-precompile`: pages into JavaScript modules, and views of pages and outputs. `jsx-precompile --help`
//! says how it is called.

mod catalogue;
mod convert;
mod fill;
mod find;
mod help;
mod input;
mod preview;
mod show;
mod tag;
mod words;

use input::{Bytes, Failure, named, read};
use jsx_precompile::{Fault, Forms, Options, transform};
use std::io::{ErrorKind, Write};
use std::process::ExitCode;
use words::{BadCall, Command};

const DONE: u8 = 0;
const REFUSED: u8 = 1;
const BAD_CALL: u8 = 2;

fn main() -> ExitCode {
    let words: Vec<String> = std::env::args_os().skip(1).map(|word| word.to_string_lossy().into_owned()).collect();
    let status = match Command::from_words(&words) {
        Ok(command) => run(&command),
        Err(BadCall { said, command }) => {
            let command = command.map_or(String::new(), |name| format!(" {name}"));
            say(&format!("{said}; see `jsx-precompile{command} --help`"));
            BAD_CALL
        }
    };
    ExitCode::from(status)
}

fn run(command: &Command) -> u8 {
    let done = match command {
        Command::Help(text) => print(text),
        Command::Version => print(help::VERSION),
        Command::Build { file, options, outputs: None } => {
            taken(file, options).and_then(|forms| print(&forms.javascript()))
        }
        Command::Build { file, options, outputs: Some((templates, page)) } => taken(file, options).and_then(|forms| {
            write(templates, forms.templates_bytes())?;
            write(page, forms.page_bytes())
        }),
        Command::Check { files, options } => return check(files, options),
        Command::Show { file, input, bytes, whole } => read(file, *bytes).and_then(|bytes| {
            let (text, fault) = show::show(&bytes, input.unwrap_or_else(|| show::told_by(&bytes)), *whole);
            print(&text)?;
            fault.map_or(Ok(()), |fault| Err(refused(file, &fault)))
        }),
        Command::Preview { file, options } => read(file, None).and_then(|bytes| {
            let forms = transform(&bytes, options).map_err(|fault| refused(file, &fault))?;
            print(&preview::html(named(file), &bytes, &forms))
        }),
        Command::Tag { file, form } => {
            let text = read(file, Some(Bytes::Raw));
            let printed = text.and_then(|text| {
                tag::printed(&text, *form)
                    .map_err(|said| Failure { said: format!("{}: {said}", named(file)), status: REFUSED })
            });
            printed.and_then(|text| print(&text))
        }
        Command::Convert { way, files, outputs } => convert::converted(*way, files).and_then(|both| match outputs {
            None => {
                let lengths = (both.templates_bytes().len(), both.page_bytes().len());
                print(&format!("taken: {} bytes of templates out, {} of page out\n", lengths.0, lengths.1))
            }
            Some((templates, page)) => {
                write(templates, both.templates_bytes())?;
                write(page, both.page_bytes())
            }
        }),
        Command::Fill { files } => fill::filled(files).and_then(|html| print(&html)),
        Command::Catalogue { file, action } => catalogue::done(file, action).and_then(|text| print(&text)),
        Command::Find { file, numbers } => read(file, None).and_then(|bytes| {
            let printed = find::printed(&bytes, numbers);
            print(&printed.map_err(|said| Failure { said: format!("{}: {said}", named(file)), status: REFUSED })?)
        }),
    };
    status(done)
}

fn status(done: Result<(), Failure>) -> u8 {
    match done {
        Ok(()) => DONE,
        Err(Failure { said, status }) => {
            say(&said);
            status
        }
    }
}

/// Every file is looked at, whatever the others are.
fn check(files: &[String], options: &Options) -> u8 {
    let one = |file: &String| {
        status(taken(file, options).and_then(|forms| {
            let count = forms.count();
            print(&format!("{}: taken, {count} {}\n", named(file), if count == 1 { "template" } else { "templates" }))
        }))
    };
    files.iter().map(one).max().unwrap_or(DONE)
}

fn taken(file: &str, options: &Options) -> Result<Forms, Failure> {
    let page = read(file, None)?;
    transform(&page, options).map_err(|fault| refused(file, &fault))
}

fn refused(file: &str, fault: &Fault) -> Failure {
    Failure { said: format!("{}: {fault}", named(file)), status: REFUSED }
}

fn say(words: &str) {
    eprintln!("jsx-precompile: {words}");
}

fn print(text: &str) -> Result<(), Failure> {
    match std::io::stdout().write_all(text.as_bytes()) {
        // Nobody is reading any more.
        Err(error) if error.kind() == ErrorKind::BrokenPipe => Ok(()),
        done => done.map_err(|error| Failure { said: format!("standard output: {error}"), status: BAD_CALL }),
    }
}

fn write(file: &str, bytes: &[u8]) -> Result<(), Failure> {
    std::fs::write(file, bytes).map_err(|error| Failure { said: format!("{file}: {error}"), status: BAD_CALL })
}
