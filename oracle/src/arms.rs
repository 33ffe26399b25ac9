//! How often each arm of the Rust was reached, and which of them no page can reach.

use std::sync::atomic::{AtomicU64, Ordering};

#[cfg(jsx_source)]
include!(concat!(env!("OUT_DIR"), "/arms.rs"));

/// Line, function and text of each match arm, `if` block and `else` block of the source.
#[cfg(not(jsx_source))]
pub const ARMS: &[(usize, &str, &str)] = &[];

static HITS: [AtomicU64; ARMS.len()] = [const { AtomicU64::new(0) }; ARMS.len()];

/// Called by the counting copy of the source at the front of arm `arm`.
pub fn hit(arm: usize) {
    HITS[arm].fetch_add(1, Ordering::Relaxed);
}

pub fn hits(arm: usize) -> u64 {
    HITS[arm].load(Ordering::Relaxed)
}

/// Arms that no page reaches: the line of the source, and why. `sweep --arms` shows that all others are reached.
pub const DEAD: &[(usize, &str)] = &[
    (439, "an attribute has a name, so the text asked about is never empty"),
    (668, "a number was merged into the run before it could become a gap"),
    (669, "a boolean was dropped by the merge"),
    (671, "a string was merged into the run"),
    (673, "within the arm of line 671"),
    (675, "within the arm of line 671"),
    (779, "empty braces were dropped by the merge"),
    (814, "spread children were dropped by the merge"),
    (1079, "empty braces were dropped by the merge"),
    (1108, "spread children were dropped by the merge"),
    (1136, "is_serializable holds of identifiers only"),
    (1332, "is_serializable holds of elements without spread only"),
];

pub fn is_dead(arm: usize) -> bool {
    DEAD.iter().any(|(line, _)| *line == ARMS[arm].0)
}
