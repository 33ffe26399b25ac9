//! The programs `card` and `tag`: run on some bytes, and what was printed held to another text.

use std::io::Write;
use std::path::{Path, PathBuf};
use std::process::{Command, Stdio};
use std::thread;
use std::time::Duration;

/// Long enough for the program to read what is there before more comes.
const PAUSE: Duration = Duration::from_millis(3);

/// Of the repository's target/bin, or the file that JSX_PRECOMPILE_ and its name, in capitals, name.
pub struct Program(PathBuf);

impl Program {
    /// Without the program nothing can be compared, so that it is missing is a failure.
    pub fn found(name: &str) -> Program {
        let built = Path::new(env!("CARGO_MANIFEST_DIR")).with_file_name("target").join("bin").join(name);
        let variable = format!("JSX_PRECOMPILE_{}", name.to_uppercase());
        let program = std::env::var_os(variable).map_or(built, PathBuf::from);
        if !program.is_file() {
            panic!("{} is not there: run `tools/build.sh {name}` in the repository's root", program.display());
        }
        Program(program)
    }

    /// What the program prints of its standard input, which comes in these parts, a pause between them.
    pub fn prints(&self, parts: &[&[u8]]) -> Result<Vec<u8>, String> {
        let failed = |error| format!("{}: {error}", self.0.display());
        let mut command = Command::new(&self.0);
        command.stdin(Stdio::piped()).stdout(Stdio::piped()).stderr(Stdio::piped());
        let mut child = command.spawn().map_err(failed)?;
        let mut input = child.stdin.take().expect("it is piped");
        let output = thread::scope(|scope| {
            scope.spawn(move || {
                for (i, part) in parts.iter().enumerate() {
                    if i > 0 {
                        thread::sleep(PAUSE);
                    }
                    // The program may end before it has read all: of a long page it needs the front alone.
                    if input.write_all(part).is_err() {
                        return;
                    }
                }
            });
            child.wait_with_output().map_err(failed)
        })?;
        if !output.status.success() || !output.stderr.is_empty() {
            let said = String::from_utf8_lossy(&output.stderr);
            return Err(format!("the program ended with {}, and said {said:?}", output.status));
        }
        Ok(output.stdout)
    }
}

/// The first line on which two printed texts part, each behind the name of its text; nothing where they are the same.
pub fn parting(named: [&str; 2], texts: [&[u8]; 2]) -> Option<String> {
    if texts[0] == texts[1] {
        return None;
    }
    let [mut one, mut other] = texts.map(|text| text.split_inclusive(|byte| *byte == b'\n'));
    let mut line = 1;
    loop {
        let lines = [one.next(), other.next()];
        if lines[0] != lines[1] {
            let [one, other] = lines.map(|line| match line {
                Some(line) => format!("{:?}", String::from_utf8_lossy(line)),
                None => "nothing".to_string(),
            });
            return Some(format!("line {line}: {} {one}, {} {other}", named[0], named[1]));
        }
        line += 1;
    }
}
