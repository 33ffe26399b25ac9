//! The command line.

use crate::help;
use crate::input::Bytes;
use jsx_precompile::limits::MAX_CATALOGUE;
use jsx_precompile::{Input, Options};
use std::collections::VecDeque;

/// What is asked for.
pub enum Command {
    Help(&'static str),
    Version,
    Build { file: String, options: Options, outputs: Option<(String, String)> },
    Check { files: Vec<String>, options: Options },
    Show { file: String, input: Option<Input>, bytes: Option<Bytes>, whole: bool },
    Preview { file: String, options: Options },
    Tag { file: String, form: Form },
    Find { file: String, numbers: Vec<u32> },
    Fill { files: [String; 2] },
    Convert { way: Way, files: [String; 2], outputs: Option<(String, String)> },
    Catalogue { file: String, action: Action },
}

/// What is done with a catalogue.
pub enum Action {
    New { length: usize },
    Add { name: u32, house: u32, files: [String; 2], shares: Option<String> },
    Remove { name: u32 },
    List { shares: Option<String> },
    Show { name: Option<u32>, whole: bool },
}

/// Which way templates out and page out are converted.
#[derive(Clone, Copy, PartialEq, Eq)]
pub enum Way {
    Up,
    Down,
}

/// How a tag that was read is printed.
#[derive(Clone, Copy, PartialEq, Eq)]
pub enum Form {
    /// Its field as a tree.
    Tree,
    /// Its field in hex digits.
    Hex,
    /// A page of one statement, the tag, in hex digits.
    Page,
}

/// Why nothing can be done, and the command that was named.
pub struct BadCall {
    pub said: String,
    pub command: Option<&'static str>,
}

const COMMANDS: [(&str, &str); 10] = [
    ("build", help::BUILD),
    ("check", help::CHECK),
    ("show", help::SHOW),
    ("preview", help::PREVIEW),
    ("tag", help::TAG),
    ("find", help::FIND),
    ("fill", help::FILL),
    ("catalogue", help::CATALOGUE),
    ("upgrade", help::UPGRADE),
    ("downgrade", help::DOWNGRADE),
];

impl Command {
    pub fn from_words(words: &[String]) -> Result<Command, BadCall> {
        let bad = |said: String| BadCall { said, command: None };
        let (first, rest) = words.split_first().ok_or_else(|| bad("no command".to_string()))?;
        match first.as_str() {
            "--help" | "-h" => return Ok(Command::Help(help::ALL)),
            "--version" | "-V" => return Ok(Command::Version),
            "help" => {
                let asked = rest.first().map_or(Some(help::ALL), |name| help_of(name));
                return asked.map(Command::Help).ok_or_else(|| bad(format!("no command {}", rest[0])));
            }
            _ => {}
        }
        let Some((name, text)) = COMMANDS.into_iter().find(|(name, _)| name == first) else {
            return Err(bad(format!("no command {first}")));
        };
        if rest.iter().take_while(|word| *word != "--").any(|word| word == "--help" || word == "-h") {
            return Ok(Command::Help(text));
        }
        let read = Words::read(name, rest).and_then(|words| words.command(name));
        read.map_err(|said| BadCall { said, command: Some(name) })
    }
}

fn help_of(name: &str) -> Option<&'static str> {
    COMMANDS.into_iter().find(|(command, _)| *command == name).map(|(_, text)| text)
}

/// The words behind a command, each in its place.
#[derive(Default)]
struct Words {
    files: Vec<String>,
    options: Options,
    templates: Option<String>,
    page: Option<String>,
    input: Option<Input>,
    bytes: Option<Bytes>,
    whole: bool,
    form: Option<Form>,
    shares: Option<String>,
}

impl Words {
    fn read(command: &str, words: &[String]) -> Result<Words, String> {
        let mut read = Words::default();
        let mut rest: VecDeque<&str> = words.iter().map(String::as_str).collect();
        while let Some(word) = rest.pop_front() {
            // --name=value is --name value
            let word = match word.split_once('=') {
                Some((name, value)) if name.starts_with("--") => {
                    rest.push_front(value);
                    name
                }
                _ => word,
            };
            let transforms = matches!(command, "build" | "check" | "preview");
            let writes = matches!(command, "build" | "upgrade" | "downgrade");
            let mut value =
                || rest.pop_front().map(str::to_string).ok_or_else(|| format!("{word} needs a word behind it"));
            match word {
                "--skip-element" if transforms => read.options = read.options.skip_serialize([value()?]),
                "--skip-attribute" if transforms => read.options = read.options.skip_prop_serialize([value()?]),
                "--import-source" if transforms => read.options = read.options.import_source(value()?),
                "--sums" if transforms => read.options = read.options.sums(true),
                "--templates" if writes => read.templates = Some(value()?),
                "--page" if writes => read.page = Some(value()?),
                "--as" if command == "show" => read.input = Some(kind(&value()?)?),
                "--as" if command == "tag" => read.form = Some(form(&value()?)?),
                "--hex" if command == "show" => read.bytes = Some(Bytes::Hex),
                "--raw" if command == "show" => read.bytes = Some(Bytes::Raw),
                "--whole" if matches!(command, "show" | "catalogue") => read.whole = true,
                "--shares" if command == "catalogue" => read.shares = Some(value()?),
                "--" => read.files.extend(rest.drain(..).map(str::to_string)),
                _ if word.starts_with('-') && word != "-" => return Err(format!("{command} has no option {word}")),
                _ => read.files.push(word.to_string()),
            }
        }
        Ok(read)
    }

    fn command(self, command: &str) -> Result<Command, String> {
        if command == "catalogue" {
            return self.catalogue();
        }
        let Words { mut files, options, templates, page, input, bytes, whole, form, shares: _ } = self;
        if command == "check" {
            return if files.is_empty() { Err("no file".to_string()) } else { Ok(Command::Check { files, options }) };
        }
        if command == "find" {
            let mut words = files.into_iter();
            let file = words.next().ok_or("no file (- is standard input)")?;
            return Ok(Command::Find { file, numbers: words.map(|word| number(&word)).collect::<Result<_, _>>()? });
        }
        let outputs = match (templates, page) {
            (Some(templates), Some(page)) => Some((templates, page)),
            (None, None) => None,
            _ => return Err("--templates and --page belong together".to_string()),
        };
        if let Some(way) = way(command) {
            return Ok(Command::Convert { way, files: two(command, files, "a page out")?, outputs });
        }
        if command == "fill" {
            return Ok(Command::Fill { files: two(command, files, "an order")? });
        }
        let file = match (files.pop(), files.pop()) {
            (Some(file), None) => file,
            (None, _) => return Err("no file (- is standard input)".to_string()),
            (Some(_), Some(_)) => return Err(format!("{command} takes one file")),
        };
        Ok(match command {
            "show" => Command::Show { file, input, bytes, whole },
            "preview" => Command::Preview { file, options },
            "tag" => Command::Tag { file, form: form.unwrap_or(Form::Tree) },
            _ => Command::Build { file, options, outputs },
        })
    }

    /// The words behind `catalogue`: what is done, the file, and what it is done with.
    fn catalogue(self) -> Result<Command, String> {
        let Words { files, shares, whole, .. } = self;
        let mut words = files.into_iter();
        let action = words.next().ok_or("new, add, remove, list or show")?;
        let file = words.next().ok_or_else(|| format!("{action} takes a file with a catalogue"))?;
        let rest: Vec<String> = words.collect();
        let takes = |what: &str| Err(format!("{action} takes {what}"));
        let action = match (action.as_str(), &rest[..]) {
            ("new", [length]) => match length.parse() {
                Ok(length) if length <= MAX_CATALOGUE => Action::New { length },
                _ => return Err(format!("{length} is no number from 0 to {MAX_CATALOGUE}")),
            },
            ("new", _) => return takes("a file and its length"),
            ("add", [name, house, files @ ..]) => {
                let files = two("add", files.to_vec(), "a page out")?;
                Action::Add { name: number(name)?, house: number(house)?, files, shares: shares.clone() }
            }
            ("add", _) => return takes("a file, a name, a house, templates and a page out"),
            ("remove", [name]) => Action::Remove { name: number(name)? },
            ("remove", _) => return takes("a file and a name"),
            ("list", []) => Action::List { shares: shares.clone() },
            ("list", _) => return takes("one file"),
            ("show", []) => Action::Show { name: None, whole },
            ("show", [name]) => Action::Show { name: Some(number(name)?), whole },
            ("show", _) => return takes("a file, or a file and a name"),
            _ => return Err(format!("new, add, remove, list or show, not {action}")),
        };
        if whole && !matches!(action, Action::Show { .. }) {
            return Err("--whole is for show alone".to_string());
        }
        if shares.is_some() && !matches!(action, Action::Add { .. } | Action::List { .. }) {
            return Err("--shares is for add and list alone".to_string());
        }
        Ok(Command::Catalogue { file, action })
    }
}

/// Templates and this.
fn two(command: &str, files: Vec<String>, second: &str) -> Result<[String; 2], String> {
    let files: [String; 2] = files.try_into().map_err(|_| format!("{command} takes templates and {second}"))?;
    match files.each_ref().map(String::as_str) {
        ["-", "-"] => Err("- stands for one file alone".to_string()),
        _ => Ok(files),
    }
}

fn way(command: &str) -> Option<Way> {
    match command {
        "upgrade" => Some(Way::Up),
        "downgrade" => Some(Way::Down),
        _ => None,
    }
}

fn kind(word: &str) -> Result<Input, String> {
    Ok(match word {
        "page" => Input::Page,
        "options" => Input::Options,
        "templates" => Input::Templates,
        "out" => Input::PageOut,
        "order" => Input::Order,
        "catalogue" => Input::Catalogue,
        _ => return Err(format!("--as is page, options, templates, out, order or catalogue, not {word}")),
    })
}

/// The number of a template or house, or the name of a page.
fn number(word: &str) -> Result<u32, String> {
    word.parse().map_err(|_| format!("{word} is no number from 0 to {}", u32::MAX))
}

fn form(word: &str) -> Result<Form, String> {
    Ok(match word {
        "tree" => Form::Tree,
        "hex" => Form::Hex,
        "page" => Form::Page,
        _ => return Err(format!("--as is tree, hex or page, not {word}")),
    })
}
