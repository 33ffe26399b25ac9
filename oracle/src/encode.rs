//! 01, Form and call: the transformed module as shelf out (the templates) and page out, with 10 and 11. 02, A6: a template
//! is an 84, its kinds told by the Rust's own dynamic expressions.
//!
//! 11 is also given for a merged run over 65,535 bytes. Runs are inside the Rust and cannot be seen here, but bodies
//! decide alone. A run that is flushed into a template is part of one static string; a run of a call that makes no
//! template becomes a string of its own: in both the body is at least the run. There remains a call whose children
//! become a template: their run is merged a second time, and trimming may shorten it. Say the run has 65,536 bytes or
//! more: a bytes of text and strings, d digits of numbers, and g bytes that escaping added, at most five for each of q
//! escaped characters (5q >= g). The second time each of the q escapes grows by four bytes (its `&`), and only white
//! space goes, which is none of the q escaped characters. So the static string has at least g + d + q + 4q >= 2g + d
//! bytes. A whole number takes 14 bytes of the page and gives at most 16 digits, a decimal takes 15 and gives at most 17
//! with its point; a sum that is worked out (02, A12) has no more digits than its source has bytes, and takes 9 more. So
//! a + 14d/16 <= 32,768, and with g >= 65,536 - a - d the static string has at least 131,072 - 2a - d >= 65,536 bytes.

use crate::answer::Refusal;
use crate::decimal::{DECIMAL, Decimal, MINUS_DECIMAL};
use crate::field::{begin, finish};
use crate::stand_ins::swc_ecma_ast::*;
use std::collections::HashMap;

/// What an accepted page gives, before it is known whether it fits the lent bytes.
#[derive(Clone, Debug, PartialEq, Eq)]
pub struct Output {
    pub templates: Vec<u8>,
    pub page: Vec<u8>,
    pub count: usize,
}

/// Both outputs; 10 where a tag is left in the module, else 11 where a body is too long.
pub fn encode(module: &Module) -> Result<Output, Refusal> {
    let mut shelf = Writer::default();
    let mut page = Writer::default();
    let mut templates = vec![];
    for item in &module.body {
        match item {
            ModuleItem::ModuleDecl(ModuleDecl::Import(import)) => page.import(import),
            ModuleItem::Stmt(Stmt::Decl(Decl::Var(var))) => {
                if templates.is_empty() {
                    page.field(0x83, |_| {});
                }
                templates.push(var);
            }
            ModuleItem::ModuleDecl(ModuleDecl::ExportDecl(pieces) | ModuleDecl::ExportDefaultDecl(pieces)) => {
                page.field(0x10, |w| w.pieces(pieces));
            }
            ModuleItem::ModuleDecl(ModuleDecl::Other(pieces)) => page.field(0x11, |w| w.pieces(pieces)),
            ModuleItem::Stmt(Stmt::Other(pieces)) => page.field(0x12, |w| w.pieces(pieces)),
            ModuleItem::Stmt(Stmt::Empty(_)) => page.field(0x13, |_| {}),
        }
    }
    // A call in a tag that is left was not seen, and its template's kinds are not known.
    if page.tag_left {
        return Err(Refusal::TagLeft);
    }
    for var in &templates {
        shelf.template(var, &page.kinds);
    }
    if shelf.long || page.long {
        return Err(Refusal::OutputTooLong);
    }
    Ok(Output { templates: shelf.out, page: page.out, count: templates.len() })
}

#[derive(Default)]
struct Writer {
    out: Vec<u8>,
    long: bool,
    tag_left: bool,
    /// By the number of a template, the kinds of its call's dynamic expressions.
    kinds: HashMap<u32, Vec<u8>>,
}

/// 02, A6: where a dynamic expression belongs. A jsxAttr call or a boolean choice is an attribute's; all else is a child's.
fn kind(gap: &ExprOrSpread) -> u8 {
    match &*gap.expr {
        Expr::Cond(_) => 1,
        Expr::Call(call) if helper(call) == "_jsxAttr" => 1,
        _ => 2,
    }
}

fn helper(call: &CallExpr) -> &str {
    let Callee::Expr(callee) = &call.callee;
    let Expr::Ident(helper) = &**callee else { unreachable!("a helper is called by its name") };
    &helper.sym
}

impl Writer {
    fn field(&mut self, tag: u8, inside: impl FnOnce(&mut Self)) {
        let at = begin(&mut self.out, tag);
        inside(self);
        self.long |= !finish(&mut self.out, at);
    }

    fn leaf(&mut self, tag: u8, bytes: &[u8]) {
        self.field(tag, |w| w.out.extend(bytes));
    }

    /// 84: the number in the binding's name, the kinds of the call's dynamic expressions with their count, and the static
    /// strings.
    fn template(&mut self, var: &VarDecl, kinds: &HashMap<u32, Vec<u8>>) {
        let [VarDeclarator { name: Pat::Ident(name), init: Some(init), .. }] = &var.decls[..] else {
            unreachable!("a template is one binding with a value")
        };
        let Expr::Array(strings) = &**init else { unreachable!("a template's value is an array") };
        let number = template_number(&name.id);
        let kinds = &kinds[&number];
        let count = u16::try_from(kinds.len()).expect("a page has fewer gaps than bytes");
        self.field(0x84, |w| {
            w.out.extend(number.to_be_bytes());
            w.out.extend(count.to_be_bytes());
            w.out.extend(kinds);
            for string in strings.elems.iter().flatten() {
                w.leaf(0x81, string_of(&string.expr).as_bytes());
            }
        });
    }

    /// 82: the source, and the sum of the helpers.
    fn import(&mut self, import: &ImportDecl) {
        let helper = |specifier: &ImportSpecifier| {
            let ImportSpecifier::Named(ImportNamedSpecifier { imported: Some(ModuleExportName::Ident(name)), .. }) =
                specifier
            else {
                unreachable!("helpers are imported by name")
            };
            match &*name.sym {
                "jsx" => 1,
                "jsxTemplate" => 2,
                "jsxAttr" => 4,
                "jsxEscape" => 8,
                other => unreachable!("no helper is called {other}"),
            }
        };
        let sum: u8 = import.specifiers.iter().map(helper).sum();
        self.field(0x82, |w| {
            w.leaf(0x81, import.src.value.to_string_lossy().as_bytes());
            w.out.push(sum);
        });
    }

    fn pieces(&mut self, pieces: &[Piece]) {
        for piece in pieces {
            match piece {
                Piece::Source(text) => self.leaf(0x20, text.as_bytes()),
                Piece::Expr(expr) => self.expression(expr),
            }
        }
    }

    fn expression(&mut self, expr: &Expr) {
        match expr {
            Expr::Lit(lit) => self.literal(lit),
            Expr::Unary(unary) => match &*unary.arg {
                Expr::Lit(Lit::Num(number)) => self.number(0x75, MINUS_DECIMAL, number),
                _ => unreachable!("a minus stands over a number"),
            },
            Expr::Array(array) => self.field(0x76, |w| w.elements(array)),
            Expr::Other(pieces) => self.field(0x79, |w| w.pieces(pieces)),
            Expr::Call(call) => self.call(call),
            Expr::Cond(cond) => self.field(0x93, |w| {
                w.expression(&cond.test);
                w.leaf(0x81, string_of(&cond.cons).as_bytes());
            }),
            Expr::Object(object) => self.field(0x95, |w| w.props(object)),
            Expr::JSXElement(_) | Expr::JSXFragment(_) => self.tag_left = true,
            Expr::Ident(_) | Expr::Member(_) => unreachable!("only the name of a call is an identifier or member"),
        }
    }

    fn literal(&mut self, lit: &Lit) {
        match lit {
            Lit::Str(string) => self.leaf(0x70, string.value.to_string_lossy().as_bytes()),
            Lit::Num(number) => self.number(0x71, DECIMAL, number),
            Lit::Bool(boolean) => self.leaf(0x72, &[boolean.value.into()]),
            Lit::Null(_) => self.leaf(0x73, &[]),
            Lit::Other(text) => self.leaf(0x74, text.as_bytes()),
        }
    }

    /// A number as it came: a decimal with its digits and places, else a whole number.
    fn number(&mut self, whole: u8, decimal: u8, number: &Number) {
        match Decimal::of(number) {
            Some(own) => self.leaf(decimal, &own.bytes()),
            None => self.leaf(whole, &(number.value as u64).to_be_bytes()),
        }
    }

    fn elements(&mut self, array: &ArrayLit) {
        for elem in &array.elems {
            match elem {
                None => self.leaf(0x78, &[]),
                Some(elem) if elem.spread.is_some() => self.field(0x77, |w| w.expression(&elem.expr)),
                Some(elem) => self.expression(&elem.expr),
            }
        }
    }

    fn call(&mut self, call: &CallExpr) {
        let args = &call.args;
        match helper(call) {
            "_jsxTemplate" => self.field(0x90, |w| {
                let Expr::Ident(name) = &*args[0].expr else { unreachable!("a template is called by its name") };
                let number = template_number(name);
                w.out.extend(number.to_be_bytes());
                w.kinds.insert(number, args[1..].iter().map(kind).collect());
                w.arguments(&args[1..]);
            }),
            "_jsxAttr" => self.field(0x91, |w| {
                w.leaf(0x81, string_of(&args[0].expr).as_bytes());
                w.arguments(&args[1..]);
            }),
            "_jsxEscape" => self.field(0x92, |w| w.arguments(args)),
            "_jsx" => self.field(0x94, |w| {
                w.called_name(&args[0].expr);
                w.arguments(&args[1..]);
            }),
            other => unreachable!("no helper is called {other}"),
        }
    }

    fn arguments(&mut self, args: &[ExprOrSpread]) {
        for arg in args {
            self.expression(&arg.expr);
        }
    }

    /// An 81 for a tag, a 40 or 41 for a component.
    fn called_name(&mut self, name: &Expr) {
        match name {
            Expr::Ident(ident) => self.leaf(0x40, ident.sym.as_bytes()),
            Expr::Member(member) => self.field(0x41, |w| w.member(member)),
            _ => self.leaf(0x81, string_of(name).as_bytes()),
        }
    }

    fn member(&mut self, member: &MemberExpr) {
        match &*member.obj {
            Expr::Ident(ident) => self.leaf(0x40, ident.sym.as_bytes()),
            Expr::Member(inner) => self.member(inner),
            _ => unreachable!("a member of names"),
        }
        let MemberProp::Ident(prop) = &member.prop;
        self.leaf(0x40, prop.sym.as_bytes());
    }

    fn props(&mut self, object: &ObjectLit) {
        for prop in &object.props {
            match prop {
                PropOrSpread::Spread(spread) => self.field(0x53, |w| w.expression(&spread.expr)),
                PropOrSpread::Prop(prop) => {
                    let Prop::KeyValue(pair) = &**prop;
                    self.field(0x96, |w| {
                        match &pair.key {
                            PropName::Ident(name) => w.leaf(0x81, name.sym.as_bytes()),
                            PropName::Str(name) => w.leaf(0x81, name.value.to_string_lossy().as_bytes()),
                        }
                        w.expression(&pair.value);
                    });
                }
            }
        }
    }
}

/// The number in a template's name.
fn template_number(ident: &Ident) -> u32 {
    let digits = ident.sym.strip_prefix("$$_tpl_").expect("a template's name");
    digits.parse().expect("a page has fewer templates than bytes")
}

fn string_of(expr: &Expr) -> String {
    match expr {
        Expr::Lit(Lit::Str(string)) => string.value.to_string_lossy().into_owned(),
        _ => unreachable!("a string stands here"),
    }
}
