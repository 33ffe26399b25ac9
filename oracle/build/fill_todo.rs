// 02, A1: the Rust stops with `todo!` where a listed attribute has a container. The patched copy goes on there: the
// container's expression as it stands, null for an empty one. Nothing else is changed.

const STOPS: &str = "JSXAttrValue::JSXExprContainer(_) => todo!(),";

// On one line, so that every other line keeps its number.
const GOES_ON: &str = "JSXAttrValue::JSXExprContainer(container) => match container.expr { \
    JSXExpr::Expr(expr) => *expr, \
    JSXExpr::JSXEmptyExpr(_) => Expr::Lit(Lit::Null(Null { span: DUMMY_SP })), \
},";

/// The source with that arm filled in; an error unless it is there and the only `todo!`.
pub fn filled(source: &str) -> Result<String, String> {
    match (source.matches("todo!").count(), source.matches(STOPS).count()) {
        (1, 1) => Ok(source.replace(STOPS, GOES_ON)),
        (all, here) => Err(format!(
            "jsx_precompile.rs has {all} times `todo!` and {here} times `{STOPS}`; the patch of A1 needs each once"
        )),
    }
}
