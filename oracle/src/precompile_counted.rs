//! The patched source with a counter in each arm: it only shows how much of the Rust the pages reach.

use crate::stand_ins::{swc_atoms, swc_common, swc_ecma_ast, swc_ecma_lexer, swc_ecma_utils, swc_ecma_visit};

include!(concat!(env!("OUT_DIR"), "/jsx_precompile_counted.rs"));

pub fn run(options: &crate::Options, module: &mut Module) {
    let mut transform = JsxPrecompile::new(
        options.import_source.clone(),
        options.skip_serialize.clone(),
        options.skip_prop_serialize.clone(),
    );
    transform.visit_mut_module(module);
}
