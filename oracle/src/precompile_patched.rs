//! The source with its one `todo!()` filled in as 02's A1 says (build/fill_todo.rs): the judge of pages on which the
//! unchanged source stops.

use crate::stand_ins::{swc_atoms, swc_common, swc_ecma_ast, swc_ecma_lexer, swc_ecma_utils, swc_ecma_visit};

include!(concat!(env!("OUT_DIR"), "/jsx_precompile_patched.rs"));

pub fn run(options: &crate::Options, module: &mut Module) {
    let mut transform = JsxPrecompile::new(
        options.import_source.clone(),
        options.skip_serialize.clone(),
        options.skip_prop_serialize.clone(),
    );
    transform.visit_mut_module(module);
}
