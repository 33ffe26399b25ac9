//! The syntax tree, as far as jsx_precompile.rs builds it or takes it apart. Instead of all other kinds of items and
//! expressions there is a row of pieces: source text, and the JSX within it in the visitor's order.

use super::swc_atoms::{Atom, Wtf8Atom};
use super::swc_common::{Span, SyntaxContext};
use std::fmt;

#[derive(Clone, Debug)]
pub struct Module {
    pub body: Vec<ModuleItem>,
}

#[derive(Clone, Debug)]
pub enum ModuleItem {
    ModuleDecl(ModuleDecl),
    Stmt(Stmt),
}

#[derive(Clone, Debug)]
pub enum ModuleDecl {
    Import(ImportDecl),
    ExportDecl(Vec<Piece>),
    ExportDefaultDecl(Vec<Piece>),
    Other(Vec<Piece>),
}

#[derive(Clone, Debug)]
pub enum Stmt {
    Empty(EmptyStmt),
    Decl(Decl),
    Other(Vec<Piece>),
}

#[derive(Clone, Debug)]
pub struct EmptyStmt;

/// Not swc's: what stands for every item and expression that jsx_precompile.rs does not look into.
#[derive(Clone, Debug)]
pub enum Piece {
    Source(Atom),
    Expr(Box<Expr>),
}

#[derive(Clone, Debug)]
pub enum Decl {
    Var(Box<VarDecl>),
}

#[derive(Clone, Debug)]
pub struct VarDecl {
    pub span: Span,
    pub ctxt: SyntaxContext,
    pub kind: VarDeclKind,
    pub declare: bool,
    pub decls: Vec<VarDeclarator>,
}

#[derive(Clone, Copy, Debug)]
pub enum VarDeclKind {
    Const,
}

#[derive(Clone, Debug)]
pub struct VarDeclarator {
    pub span: Span,
    pub name: Pat,
    pub init: Option<Box<Expr>>,
    pub definite: bool,
}

#[derive(Clone, Debug)]
pub enum Pat {
    Ident(BindingIdent),
}

#[derive(Clone, Debug)]
pub struct BindingIdent {
    pub id: Ident,
    pub type_ann: Option<NoTypes>,
}

/// TypeScript's types, which a page does not have.
#[derive(Clone, Debug)]
pub enum NoTypes {}

#[derive(Clone, Debug)]
pub struct ImportDecl {
    pub span: Span,
    pub specifiers: Vec<ImportSpecifier>,
    pub src: Box<Str>,
    pub type_only: bool,
    pub with: Option<Box<ObjectLit>>,
    pub phase: ImportPhase,
}

#[derive(Clone, Copy, Debug, Default)]
pub enum ImportPhase {
    #[default]
    Evaluation,
}

#[derive(Clone, Debug)]
pub enum ImportSpecifier {
    Named(ImportNamedSpecifier),
}

#[derive(Clone, Debug)]
pub struct ImportNamedSpecifier {
    pub span: Span,
    pub local: Ident,
    pub imported: Option<ModuleExportName>,
    pub is_type_only: bool,
}

#[derive(Clone, Debug)]
pub enum ModuleExportName {
    Ident(Ident),
}

#[derive(Clone, Debug)]
pub struct Ident {
    pub span: Span,
    pub ctxt: SyntaxContext,
    pub sym: Atom,
}

impl Ident {
    pub fn new(sym: Atom, span: Span, ctxt: SyntaxContext) -> Self {
        Ident { span, ctxt, sym }
    }
}

#[derive(Clone, Debug)]
pub struct IdentName {
    pub span: Span,
    pub sym: Atom,
}

impl IdentName {
    pub fn new(sym: Atom, span: Span) -> Self {
        IdentName { span, sym }
    }
}

#[derive(Clone, Debug)]
pub enum Expr {
    Lit(Lit),
    Ident(Ident),
    Member(MemberExpr),
    Unary(UnaryExpr),
    Call(CallExpr),
    Cond(CondExpr),
    Array(ArrayLit),
    Object(ObjectLit),
    JSXElement(Box<JSXElement>),
    JSXFragment(JSXFragment),
    Other(Vec<Piece>),
}

#[derive(Clone, Debug)]
pub enum Lit {
    Str(Str),
    Bool(Bool),
    Null(Null),
    Num(Number),
    /// A regular expression or a big integer, as written.
    Other(Atom),
}

#[derive(Clone, Debug)]
pub struct Str {
    pub span: Span,
    pub value: Wtf8Atom,
    pub raw: Option<Atom>,
}

#[derive(Clone, Debug)]
pub struct Bool {
    pub span: Span,
    pub value: bool,
}

#[derive(Clone, Debug)]
pub struct Null {
    pub span: Span,
}

#[derive(Clone, Debug)]
pub struct Number {
    pub span: Span,
    pub value: f64,
    pub raw: Option<Atom>,
}

impl fmt::Display for Number {
    fn fmt(&self, f: &mut fmt::Formatter<'_>) -> fmt::Result {
        fmt::Display::fmt(&self.value, f)
    }
}

#[derive(Clone, Debug)]
pub struct MemberExpr {
    pub span: Span,
    pub obj: Box<Expr>,
    pub prop: MemberProp,
}

#[derive(Clone, Debug)]
pub enum MemberProp {
    Ident(IdentName),
}

#[derive(Clone, Debug)]
pub struct UnaryExpr {
    pub span: Span,
    pub op: UnaryOp,
    pub arg: Box<Expr>,
}

#[derive(Clone, Copy, Debug, PartialEq, Eq)]
pub enum UnaryOp {
    Minus,
}

#[derive(Clone, Debug)]
pub struct CallExpr {
    pub span: Span,
    pub ctxt: SyntaxContext,
    pub callee: Callee,
    pub args: Vec<ExprOrSpread>,
    pub type_args: Option<NoTypes>,
}

#[derive(Clone, Debug)]
pub enum Callee {
    Expr(Box<Expr>),
}

#[derive(Clone, Debug)]
pub struct ExprOrSpread {
    pub spread: Option<Span>,
    pub expr: Box<Expr>,
}

#[derive(Clone, Debug)]
pub struct CondExpr {
    pub span: Span,
    pub test: Box<Expr>,
    pub cons: Box<Expr>,
    pub alt: Box<Expr>,
}

#[derive(Clone, Debug)]
pub struct ArrayLit {
    pub span: Span,
    pub elems: Vec<Option<ExprOrSpread>>,
}

#[derive(Clone, Debug)]
pub struct ObjectLit {
    pub span: Span,
    pub props: Vec<PropOrSpread>,
}

#[derive(Clone, Debug)]
pub enum PropOrSpread {
    Spread(SpreadElement),
    Prop(Box<Prop>),
}

#[derive(Clone, Debug)]
pub struct SpreadElement {
    pub dot3_token: Span,
    pub expr: Box<Expr>,
}

#[derive(Clone, Debug)]
pub enum Prop {
    KeyValue(KeyValueProp),
}

#[derive(Clone, Debug)]
pub struct KeyValueProp {
    pub key: PropName,
    pub value: Box<Expr>,
}

#[derive(Clone, Debug)]
pub enum PropName {
    Ident(IdentName),
    Str(Str),
}

#[derive(Clone, Debug)]
pub struct JSXElement {
    pub span: Span,
    pub opening: JSXOpeningElement,
    pub children: Vec<JSXElementChild>,
}

#[derive(Clone, Debug)]
pub struct JSXOpeningElement {
    pub name: JSXElementName,
    pub span: Span,
    pub attrs: Vec<JSXAttrOrSpread>,
}

#[derive(Clone, Debug)]
pub enum JSXElementName {
    Ident(Ident),
    JSXMemberExpr(JSXMemberExpr),
    JSXNamespacedName(JSXNamespacedName),
}

#[derive(Clone, Debug)]
pub struct JSXMemberExpr {
    pub span: Span,
    pub obj: JSXObject,
    pub prop: IdentName,
}

#[derive(Clone, Debug)]
pub enum JSXObject {
    JSXMemberExpr(Box<JSXMemberExpr>),
    Ident(Ident),
}

#[derive(Clone, Debug)]
pub struct JSXNamespacedName {
    pub span: Span,
    pub ns: IdentName,
    pub name: IdentName,
}

#[derive(Clone, Debug)]
pub enum JSXAttrOrSpread {
    JSXAttr(JSXAttr),
    SpreadElement(SpreadElement),
}

#[derive(Clone, Debug)]
pub struct JSXAttr {
    pub span: Span,
    pub name: JSXAttrName,
    pub value: Option<JSXAttrValue>,
}

#[derive(Clone, Debug)]
pub enum JSXAttrName {
    Ident(IdentName),
    JSXNamespacedName(JSXNamespacedName),
}

#[derive(Clone, Debug)]
pub enum JSXAttrValue {
    Str(Str),
    JSXExprContainer(JSXExprContainer),
    JSXElement(Box<JSXElement>),
    JSXFragment(JSXFragment),
}

#[derive(Clone, Debug)]
pub struct JSXExprContainer {
    pub span: Span,
    pub expr: JSXExpr,
}

#[derive(Clone, Debug)]
pub enum JSXExpr {
    JSXEmptyExpr(JSXEmptyExpr),
    Expr(Box<Expr>),
}

#[derive(Clone, Debug)]
pub struct JSXEmptyExpr {
    pub span: Span,
}

#[derive(Clone, Debug)]
pub struct JSXFragment {
    pub span: Span,
    pub children: Vec<JSXElementChild>,
}

#[derive(Clone, Debug)]
pub enum JSXElementChild {
    JSXText(JSXText),
    JSXExprContainer(JSXExprContainer),
    JSXSpreadChild(JSXSpreadChild),
    JSXElement(Box<JSXElement>),
    JSXFragment(JSXFragment),
}

#[derive(Clone, Debug)]
pub struct JSXText {
    pub span: Span,
    pub value: Atom,
    pub raw: Atom,
}

#[derive(Clone, Debug)]
pub struct JSXSpreadChild {
    pub span: Span,
    pub expr: Box<Expr>,
}
