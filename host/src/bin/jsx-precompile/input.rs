//! The bytes of a file or of standard input, raw or in hex digits.

use crate::BAD_CALL;
use std::io::Read;

/// What is said on standard error, and the status that the program ends with.
pub struct Failure {
    pub said: String,
    pub status: u8,
}

/// How bytes are written down.
#[derive(Clone, Copy, PartialEq, Eq)]
pub enum Bytes {
    Raw,
    Hex,
}

/// A file as messages have it.
pub fn named(file: &str) -> &str {
    if file == "-" { "standard input" } else { file }
}

/// The bytes of a file, or of standard input for `-`. Hex digits are known as such, unless `written` says it.
pub fn read(file: &str, written: Option<Bytes>) -> Result<Vec<u8>, Failure> {
    let failed = |said: String| Failure { said: format!("{}: {said}", named(file)), status: BAD_CALL };
    let mut bytes = vec![];
    match file {
        "-" => std::io::stdin().read_to_end(&mut bytes).map(|_| ()),
        _ => std::fs::read(file).map(|read| bytes = read),
    }
    .map_err(|error| failed(error.to_string()))?;
    match (written, unhex(&bytes)) {
        (Some(Bytes::Raw), _) | (None, None) => Ok(bytes),
        (_, Some(bytes)) => Ok(bytes),
        (Some(Bytes::Hex), None) => Err(failed("not pairs of hex digits".to_string())),
    }
}

/// The bytes that hex digits are. No page, options, output or order begins with a digit or a letter, so raw bytes are
/// not mistaken for them.
fn unhex(text: &[u8]) -> Option<Vec<u8>> {
    let digits: Vec<u8> = text.iter().copied().filter(|byte| !byte.is_ascii_whitespace()).collect();
    if digits.is_empty() != text.is_empty() || !digits.len().is_multiple_of(2) {
        return None;
    }
    let digit = |byte: u8| char::from(byte).to_digit(16);
    digits.chunks(2).map(|pair| Some((16 * digit(pair[0])? + digit(pair[1])?) as u8)).collect()
}
