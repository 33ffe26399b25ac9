//! Stand-ins for swc's crates: only the names that jsx_precompile.rs uses, with swc's shapes and field order.
//! docs/DIFFERENCES.md lists what each of them is believed to have in common with swc.

pub mod swc_atoms;
pub mod swc_common;
pub mod swc_ecma_ast;
pub mod swc_ecma_lexer;
pub mod swc_ecma_utils;
pub mod swc_ecma_visit;
