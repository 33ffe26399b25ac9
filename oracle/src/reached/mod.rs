//! What the seeds reached of the requests of 02.

mod decimals;
mod mixed_case;
mod repeats;
mod sums;

pub use decimals::Decimals;
pub use mixed_case::MixedCase;
pub use repeats::Repeats;
pub use sums::{LONGER, Sums};
