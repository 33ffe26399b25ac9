//! jsx_precompile.rs itself, unchanged, and beside it (within reach of what it keeps private) the few openings that the
//! judge and its tests need.

use crate::stand_ins::{swc_atoms, swc_common, swc_ecma_ast, swc_ecma_lexer, swc_ecma_utils, swc_ecma_visit};

include!(concat!(env!("OUT_DIR"), "/jsx_precompile.rs"));

pub fn run(options: &crate::Options, module: &mut Module) {
    let mut transform = JsxPrecompile::new(
        options.import_source.clone(),
        options.skip_serialize.clone(),
        options.skip_prop_serialize.clone(),
    );
    transform.visit_mut_module(module);
}

/// The text of the source, for the tests that count in it.
pub const SOURCE: &str = include_str!(concat!(env!("OUT_DIR"), "/jsx_precompile.rs"));

/// The private functions under their own names.
pub mod private {
    use super::{DUMMY_SP, JSXText, Lit, Str};

    pub fn jsx_text_to_str(text: &str, escape: bool, trim_last_child: bool) -> String {
        let jsx_text = JSXText { span: DUMMY_SP, value: text.into(), raw: "".into() };
        super::jsx_text_to_str(&jsx_text, escape, trim_last_child)
    }

    pub fn normalize_lit_str(text: &str) -> String {
        match super::normalize_lit_str(&Str { span: DUMMY_SP, value: text.into(), raw: None }) {
            Lit::Str(made) => made.value.to_string_lossy().into_owned(),
            _ => unreachable!("normalize_lit_str makes a string"),
        }
    }

    pub fn escape_html(text: &str) -> String {
        super::escape_html(text)
    }

    pub fn normalize_dom_attr_name(name: &str) -> String {
        super::normalize_dom_attr_name(name)
    }

    pub fn is_void_element(name: &str) -> bool {
        super::is_void_element(name)
    }

    pub fn is_boolean_attr(name: &str) -> bool {
        super::is_boolean_attr(name)
    }

    pub fn is_text_valid_identifier(text: &str) -> bool {
        super::is_text_valid_identifier(text)
    }
}
