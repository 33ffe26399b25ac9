//! In place of jsx_precompile.rs where it was not found: whatever needs it says so.

use crate::stand_ins::swc_ecma_ast::Module;

pub const SOURCE: &str = "";

fn missing() -> ! {
    panic!("jsx_precompile.rs was not there when the judge was built")
}

pub fn run(_options: &crate::Options, _module: &mut Module) {
    missing()
}

pub mod private {
    use super::missing;

    pub fn jsx_text_to_str(_text: &str, _escape: bool, _trim_last_child: bool) -> String {
        missing()
    }

    pub fn normalize_lit_str(_text: &str) -> String {
        missing()
    }

    pub fn escape_html(_text: &str) -> String {
        missing()
    }

    pub fn normalize_dom_attr_name(_name: &str) -> String {
        missing()
    }

    pub fn is_void_element(_name: &str) -> bool {
        missing()
    }

    pub fn is_boolean_attr(_name: &str) -> bool {
        missing()
    }

    pub fn is_text_valid_identifier(_text: &str) -> bool {
        missing()
    }
}
