//! The judge: document 000 (jsx_precompile.rs), compiled unchanged over stand-ins for swc's crates, behind the byte
//! layouts, refusals and lent bytes of document 01. What is built elsewhere in this repository is compared with it.
//! Where it stops with `todo!`, a copy with that one arm filled in (02, A1) goes on.
//!
//! Data flows one way: bytes, `decode`, a syntax tree, `transform`, a syntax tree, `encode`, bytes. `judge` is the whole
//! with the effect on every lent byte. Nothing here is taken from the definitions that the proofs are about.

pub mod answer;
pub mod arms;
pub mod card;
pub mod compare;
pub mod decimal;
pub mod decode;
pub mod demand3;
pub mod encode;
pub mod exhaustive;
pub mod field;
pub mod generate;
pub mod judge;
pub mod kept;
pub mod make;
pub mod marks;
pub mod outs;
pub mod reached;
pub mod serialized;
pub mod show;
pub mod shrink;
#[cfg_attr(not(jsx_source), allow(unused))]
pub mod stand_ins;
pub mod sums;
pub mod sweep;
pub mod tag;
pub mod transform;
pub mod vectors;
pub mod writing;

#[cfg(jsx_source)]
#[allow(clippy::all, dead_code)]
mod precompile;
#[cfg(not(jsx_source))]
#[path = "no_precompile.rs"]
mod precompile;
#[cfg(jsx_source)]
#[allow(clippy::all, dead_code)]
mod precompile_counted;
#[cfg(jsx_source)]
#[allow(clippy::all, dead_code)]
mod precompile_noted;
#[cfg(jsx_source)]
#[allow(clippy::all, dead_code)]
mod precompile_patched;
#[cfg(not(jsx_source))]
use precompile as precompile_counted;
#[cfg(not(jsx_source))]
use precompile as precompile_noted;
#[cfg(not(jsx_source))]
use precompile as precompile_patched;

// The name under which jsx_precompile.rs looks for atoms.
#[cfg(jsx_source)]
mod swc {
    pub use crate::stand_ins::swc_atoms as atoms;
}

pub use answer::{Answer, Refusal};
pub use card::card;
pub use decode::{Options, decode};
pub use encode::{Output, encode};
pub use judge::{Outcome, judge, outcome, settle};
pub use precompile::{SOURCE, private};
pub use transform::{transform, transform_ready};

/// Whether jsx_precompile.rs was there when this was built.
pub const AVAILABLE: bool = cfg!(jsx_source);
