//! What the tests share; not each of them needs all of it.

#![allow(dead_code)]

use std::io::Write;
use std::process::{Command, Output, Stdio};

/// Printed at once, also where the output of tests is held back.
pub fn say(words: &str) {
    let _ = writeln!(std::io::stderr(), "{words}");
}

pub fn no_judge() -> bool {
    if !oracle::AVAILABLE {
        say("skipped: the judge was built without jsx_precompile.rs");
    }
    !oracle::AVAILABLE
}

/// The program, called with these words in the repository's root.
pub fn jsx_precompile(words: &[&str], input: &[u8]) -> Output {
    let mut child = Command::new(env!("CARGO_BIN_EXE_jsx-precompile"))
        .args(words)
        .current_dir(concat!(env!("CARGO_MANIFEST_DIR"), "/.."))
        .stdin(Stdio::piped())
        .stdout(Stdio::piped())
        .stderr(Stdio::piped())
        .spawn()
        .expect("the program runs");
    // It may end before it has read anything.
    let _ = child.stdin.take().expect("it is piped").write_all(input);
    child.wait_with_output().expect("it ends")
}
