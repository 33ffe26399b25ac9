//! The patched source with a note of each element that it serializes (build/note_serialized.rs): 02's A4 asks which these
//! are.

use crate::stand_ins::{swc_atoms, swc_common, swc_ecma_ast, swc_ecma_lexer, swc_ecma_utils, swc_ecma_visit};

include!(concat!(env!("OUT_DIR"), "/jsx_precompile_noted.rs"));

pub fn run(options: &crate::Options, module: &mut Module) {
    let mut transform = JsxPrecompile::new(
        options.import_source.clone(),
        options.skip_serialize.clone(),
        options.skip_prop_serialize.clone(),
    );
    transform.visit_mut_module(module);
}
