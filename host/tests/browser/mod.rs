//! A browser without a window, where there is one.

use crate::common::say;
use std::path::Path;
use std::process::{Command, Stdio};
use std::time::{Duration, Instant};

/// A browser that takes its orders from the command line; none where there is none.
pub fn chromium() -> Option<Command> {
    let named = ["chromium", "chromium-browser", "google-chrome"];
    let found = named.into_iter().find(|name| Command::new(name).arg("--version").output().is_ok());
    if found.is_none() {
        say("skipped: no chromium here");
    }
    let mut command = Command::new(found?);
    // No sandbox: tests may be run by root, and the page is our own. A folder of its own: another may be running.
    let profile = format!("chromium-{:?}", std::thread::current().id()).replace(['(', ')'], "");
    command.args(["--headless", "--no-sandbox", "--disable-gpu", "--disable-dev-shm-usage", "--hide-scrollbars"]);
    command.arg(format!("--user-data-dir={}/{profile}", env!("CARGO_TARGET_TMPDIR")));
    Some(command)
}

/// What the browser prints; it is stopped where it does not end by itself.
pub fn run(chromium: &mut Command) -> String {
    let printed = Path::new(env!("CARGO_TARGET_TMPDIR")).join(format!("printed-{:?}", std::thread::current().id()));
    let file = std::fs::File::create(&printed).expect("a file");
    let mut child = chromium.stdout(file).stderr(Stdio::null()).spawn().expect("it runs");
    let start = Instant::now();
    while child.try_wait().expect("its status").is_none() {
        if start.elapsed() > Duration::from_secs(60) {
            let _ = child.kill();
            panic!("the browser did not end within a minute");
        }
        std::thread::sleep(Duration::from_millis(20));
    }
    std::fs::read_to_string(&printed).expect("text")
}
