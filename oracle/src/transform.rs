//! One run of the Rust. Where the unchanged source stops at its `todo!`, a panic caught here, the patched one runs
//! instead (02, A1). Any other panic is a fault and goes on.

use crate::decode::Options;
use crate::stand_ins::swc_ecma_ast::Module;
use crate::{precompile, precompile_counted, precompile_noted, precompile_patched};
use std::any::Any;
use std::cell::Cell;
use std::panic::{self, AssertUnwindSafe};
use std::sync::Once;

/// Which copy of the source runs.
#[derive(Clone, Copy, Debug, Default, PartialEq, Eq)]
pub enum Copy {
    /// As it is.
    #[default]
    Unchanged,
    /// With its `todo!` filled in.
    Patched,
    /// The patched one with a note of each element that it serializes.
    Noted,
    /// The patched one with counters.
    Counted,
}

/// The transform alone on a ready tree, without bytes and without the guard for `todo!`: for measuring.
pub fn transform_ready(options: &Options, module: &mut Module) {
    precompile::run(options, module);
}

/// The transform on a ready tree by the unchanged copy or, where that stops, by the patched one; which of the two it was.
pub fn transform(options: &Options, module: &mut Module) -> Copy {
    // What a stopped run leaves is half transformed. Only a listed attribute can stop it.
    let before = options.skip_prop_serialize.is_some().then(|| module.clone());
    if runs_to_its_end(options, module) {
        return Copy::Unchanged;
    }
    *module = before.expect("todo! is reached only where attributes are listed");
    transform_with(Copy::Patched, options, module);
    Copy::Patched
}

/// The transform by that copy, without a guard: the unchanged one may panic.
pub fn transform_with(copy: Copy, options: &Options, module: &mut Module) {
    match copy {
        Copy::Unchanged => precompile::run(options, module),
        Copy::Patched => precompile_patched::run(options, module),
        Copy::Noted => precompile_noted::run(options, module),
        Copy::Counted => precompile_counted::run(options, module),
    }
}

/// Runs the unchanged copy; whether it did not stop at `todo!`.
fn runs_to_its_end(options: &Options, module: &mut Module) -> bool {
    hush_todo();
    EXPECTED.set(true);
    let end = panic::catch_unwind(AssertUnwindSafe(|| transform_with(Copy::Unchanged, options, module)));
    EXPECTED.set(false);
    match end {
        Ok(()) => true,
        Err(payload) if is_todo(&*payload) => false,
        Err(payload) => panic::resume_unwind(payload),
    }
}

thread_local! {
    static EXPECTED: Cell<bool> = const { Cell::new(false) };
}

/// A `todo!` during a run is expected, so it prints nothing. Other panics print as ever.
fn hush_todo() {
    static HUSHED: Once = Once::new();
    HUSHED.call_once(|| {
        let usual = panic::take_hook();
        panic::set_hook(Box::new(move |info| {
            if !(EXPECTED.get() && is_todo(info.payload())) {
                usual(info);
            }
        }));
    });
}

fn is_todo(payload: &(dyn Any + Send)) -> bool {
    let text = payload.downcast_ref::<&str>().copied().or(payload.downcast_ref::<String>().map(String::as_str));
    text.is_some_and(|t| t.starts_with("not yet implemented"))
}
