//! The visitor: a node's children in the order in which swc declares them. Only modules and expressions have a method
//! of their own, since jsx_precompile.rs overrides no other; a JSX element that is left standing is gone through for
//! the expressions within it, as in swc.

use super::swc_ecma_ast::*;

pub trait VisitMut {
    fn visit_mut_module(&mut self, node: &mut Module) {
        node.visit_mut_children_with(self);
    }
    fn visit_mut_expr(&mut self, node: &mut Expr) {
        node.visit_mut_children_with(self);
    }
}

pub trait VisitMutWith<V: VisitMut + ?Sized> {
    fn visit_mut_children_with(&mut self, v: &mut V);
}

// The types of TypeScript, which a page does not have.
macro_rules! noop_visit_mut_type {
    () => {};
}
pub(crate) use noop_visit_mut_type;

impl<V: VisitMut + ?Sized> VisitMutWith<V> for Module {
    fn visit_mut_children_with(&mut self, v: &mut V) {
        for item in &mut self.body {
            match item {
                ModuleItem::ModuleDecl(ModuleDecl::Import(_)) | ModuleItem::Stmt(Stmt::Empty(_) | Stmt::Decl(_)) => {}
                ModuleItem::ModuleDecl(
                    ModuleDecl::ExportDecl(pieces) | ModuleDecl::ExportDefaultDecl(pieces) | ModuleDecl::Other(pieces),
                )
                | ModuleItem::Stmt(Stmt::Other(pieces)) => pieces.visit_mut_children_with(v),
            }
        }
    }
}

impl<V: VisitMut + ?Sized> VisitMutWith<V> for Vec<Piece> {
    fn visit_mut_children_with(&mut self, v: &mut V) {
        for piece in self {
            match piece {
                Piece::Source(_) => {}
                Piece::Expr(expr) => v.visit_mut_expr(expr),
            }
        }
    }
}

impl<V: VisitMut + ?Sized> VisitMutWith<V> for Expr {
    fn visit_mut_children_with(&mut self, v: &mut V) {
        match self {
            Expr::Lit(_) | Expr::Ident(_) => {}
            Expr::Member(member) => v.visit_mut_expr(&mut member.obj),
            Expr::Unary(unary) => v.visit_mut_expr(&mut unary.arg),
            Expr::Call(call) => {
                let Callee::Expr(callee) = &mut call.callee;
                v.visit_mut_expr(callee);
                for arg in &mut call.args {
                    v.visit_mut_expr(&mut arg.expr);
                }
            }
            Expr::Cond(cond) => {
                v.visit_mut_expr(&mut cond.test);
                v.visit_mut_expr(&mut cond.cons);
                v.visit_mut_expr(&mut cond.alt);
            }
            Expr::Array(array) => {
                for elem in array.elems.iter_mut().flatten() {
                    v.visit_mut_expr(&mut elem.expr);
                }
            }
            Expr::Object(object) => {
                for prop in &mut object.props {
                    match prop {
                        PropOrSpread::Spread(spread) => v.visit_mut_expr(&mut spread.expr),
                        PropOrSpread::Prop(prop) => {
                            let Prop::KeyValue(pair) = &mut **prop;
                            v.visit_mut_expr(&mut pair.value);
                        }
                    }
                }
            }
            Expr::Other(pieces) => pieces.visit_mut_children_with(v),
            Expr::JSXElement(element) => element.visit_mut_children_with(v),
            Expr::JSXFragment(fragment) => fragment.visit_mut_children_with(v),
        }
    }
}

impl<V: VisitMut + ?Sized> VisitMutWith<V> for JSXElement {
    fn visit_mut_children_with(&mut self, v: &mut V) {
        for attr in &mut self.opening.attrs {
            match attr {
                JSXAttrOrSpread::SpreadElement(spread) => v.visit_mut_expr(&mut spread.expr),
                JSXAttrOrSpread::JSXAttr(attr) => match &mut attr.value {
                    None | Some(JSXAttrValue::Str(_)) => {}
                    Some(JSXAttrValue::JSXExprContainer(container)) => container.visit_mut_children_with(v),
                    Some(JSXAttrValue::JSXElement(element)) => element.visit_mut_children_with(v),
                    Some(JSXAttrValue::JSXFragment(fragment)) => fragment.visit_mut_children_with(v),
                },
            }
        }
        self.children.visit_mut_children_with(v);
    }
}

impl<V: VisitMut + ?Sized> VisitMutWith<V> for JSXFragment {
    fn visit_mut_children_with(&mut self, v: &mut V) {
        self.children.visit_mut_children_with(v);
    }
}

impl<V: VisitMut + ?Sized> VisitMutWith<V> for JSXExprContainer {
    fn visit_mut_children_with(&mut self, v: &mut V) {
        match &mut self.expr {
            JSXExpr::JSXEmptyExpr(_) => {}
            JSXExpr::Expr(expr) => v.visit_mut_expr(expr),
        }
    }
}

impl<V: VisitMut + ?Sized> VisitMutWith<V> for Vec<JSXElementChild> {
    fn visit_mut_children_with(&mut self, v: &mut V) {
        for child in self {
            match child {
                JSXElementChild::JSXText(_) => {}
                JSXElementChild::JSXExprContainer(container) => container.visit_mut_children_with(v),
                JSXElementChild::JSXSpreadChild(spread) => v.visit_mut_expr(&mut spread.expr),
                JSXElementChild::JSXElement(element) => element.visit_mut_children_with(v),
                JSXElementChild::JSXFragment(fragment) => fragment.visit_mut_children_with(v),
            }
        }
    }
}
