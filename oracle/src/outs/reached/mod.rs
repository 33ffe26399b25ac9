//! What the seeds of the calls over both outs reached: every refusal by its cause, every branch of what is taken.

mod asked;
mod catalogue;
mod convert;

use std::collections::BTreeMap;
use std::fmt::Write;

/// How often each thing was met, by its name.
#[derive(Clone, Debug, Default, PartialEq, Eq)]
pub struct Reached {
    counts: BTreeMap<String, u64>,
}

impl Reached {
    pub(super) fn met(&mut self, what: impl Into<String>) {
        *self.counts.entry(what.into()).or_default() += 1;
    }

    fn met_if(&mut self, holds: bool, what: &str) {
        if holds {
            self.met(what);
        }
    }

    pub fn count(&self, what: &str) -> u64 {
        self.counts.get(what).copied().unwrap_or(0)
    }

    /// Which of these were met fewer times than this.
    pub fn missing(&self, due: &[String], times: u64) -> Vec<String> {
        let missing = due.iter().filter(|what| self.count(what) < times);
        missing.map(|what| format!("{what}: {}", self.count(what))).collect()
    }

    pub fn table(&self) -> String {
        let mut out = String::new();
        for (what, count) in &self.counts {
            writeln!(out, "{count:9} {what}").expect("a string can be written");
        }
        out
    }
}

/// Names with a word before each.
fn with(word: &str, names: &[&str]) -> Vec<String> {
    names.iter().map(|name| format!("{word}: {name}")).collect()
}
