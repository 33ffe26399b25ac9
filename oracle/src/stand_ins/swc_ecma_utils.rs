//! `prepend_stmt` goes behind directives in swc. Pages with a directive are left out of the comparison.

use super::swc_ecma_ast::ModuleItem;

pub fn prepend_stmt(stmts: &mut Vec<ModuleItem>, stmt: ModuleItem) {
    stmts.insert(0, stmt);
}

macro_rules! quote_ident {
    ($name:expr) => {
        $crate::stand_ins::swc_ecma_ast::IdentName::new($name.into(), $crate::stand_ins::swc_common::DUMMY_SP)
    };
}
pub(crate) use quote_ident;
