//! Options and page from bytes, with refusals 3 to 8 in 01's order: options, then page, front to back; at each field
//! its header (torn, then misplaced), then its depth, then its body.

use crate::answer::{MOST_DEPTH, MOST_NAME, MOST_NUMBER, Refusal};
use crate::decimal::Decimal;
use crate::stand_ins::swc_common::{DUMMY_SP, SyntaxContext};
use crate::stand_ins::swc_ecma_ast::*;

/// What `JsxPrecompile::new` takes.
#[derive(Clone, Debug, Default, PartialEq, Eq)]
pub struct Options {
    pub skip_serialize: Option<Vec<String>>,
    pub skip_prop_serialize: Option<Vec<String>>,
    pub import_source: Option<String>,
    /// 02, A12: whether sums are worked out, which is done before the transform.
    pub sums: bool,
}

type Read<T> = Result<T, Refusal>;

/// The options and the page as a syntax tree, ready for the transform.
pub fn decode(page: &[u8], options: &[u8]) -> Read<(Options, Module)> {
    let options = read_options(options)?;
    Ok((options, read_page(page)?))
}

/// What is left of a row of fields, and the depth at which they lie.
struct Row<'a> {
    rest: &'a [u8],
    depth: usize,
}

impl<'a> Row<'a> {
    /// The next field, whose tag must be allowed here; none at the end.
    fn next(&mut self, allowed: impl Fn(u8) -> bool) -> Read<Option<(u8, Row<'a>)>> {
        if self.rest.is_empty() {
            return Ok(None);
        }
        let [tag, high, low, behind @ ..] = self.rest else { return Err(Refusal::Truncated) };
        let length = usize::from(*high) << 8 | usize::from(*low);
        if behind.len() < length {
            return Err(Refusal::Truncated);
        }
        if !allowed(*tag) {
            return Err(Refusal::Misplaced);
        }
        if self.depth > MOST_DEPTH {
            return Err(Refusal::TooDeep);
        }
        let (body, rest) = behind.split_at(length);
        self.rest = rest;
        Ok(Some((*tag, Row { rest: body, depth: self.depth + 1 })))
    }

    /// The next field where one must stand: a missing one is misplaced.
    fn need(&mut self, allowed: impl Fn(u8) -> bool) -> Read<(u8, Row<'a>)> {
        self.next(allowed)?.ok_or(Refusal::Misplaced)
    }

    /// Nothing more may stand here: another field is misplaced at its header.
    fn end(mut self) -> Read<()> {
        self.next(|_| false).map(|_| ())
    }

    fn text(&self) -> Read<&'a str> {
        std::str::from_utf8(self.rest).map_err(|_| Refusal::NotUtf8)
    }

    fn empty(&self) -> Read<()> {
        if self.rest.is_empty() { Ok(()) } else { Err(Refusal::Misplaced) }
    }
}

pub fn read_options(bytes: &[u8]) -> Read<Options> {
    let mut row = Row { rest: bytes, depth: 1 };
    let mut options = Options::default();
    let mut last = 0x01;
    while let Some((tag, body)) = row.next(|t| last < t && t <= 0x05)? {
        match tag {
            0x02 => options.skip_serialize = Some(read_strings(body)?),
            0x03 => options.skip_prop_serialize = Some(read_strings(body)?),
            0x04 => {
                if body.rest.is_empty() {
                    return Err(Refusal::Misplaced);
                }
                options.import_source = Some(body.text()?.to_string());
            }
            _ => {
                body.empty()?;
                options.sums = true;
            }
        }
        last = tag;
    }
    Ok(options)
}

fn read_strings(mut row: Row) -> Read<Vec<String>> {
    let mut strings = vec![];
    while let Some((_, body)) = row.next(|t| t == 0x20)? {
        strings.push(body.text()?.to_string());
    }
    Ok(strings)
}

pub fn read_page(bytes: &[u8]) -> Read<Module> {
    if bytes.is_empty() {
        return Err(Refusal::Truncated);
    }
    let mut row = Row { rest: bytes, depth: 1 };
    let (_, mut items) = row.need(|t| t == 0x01)?;
    let mut body = vec![];
    while let Some((tag, inside)) = items.next(|t| matches!(t, 0x10..=0x13))? {
        body.push(read_item(tag, inside)?);
    }
    // Bytes behind 01 are torn, whatever they are, but only after all that stands in 01.
    if row.rest.is_empty() { Ok(Module { body }) } else { Err(Refusal::Truncated) }
}

fn read_item(tag: u8, row: Row) -> Read<ModuleItem> {
    Ok(match tag {
        0x10 => {
            let pieces = read_pieces(row)?;
            // Which of the two it is makes no difference to the transform; both are met this way.
            let default = matches!(pieces.first(), Some(Piece::Source(s)) if s.starts_with("export default"));
            ModuleItem::ModuleDecl(if default {
                ModuleDecl::ExportDefaultDecl(pieces)
            } else {
                ModuleDecl::ExportDecl(pieces)
            })
        }
        0x11 => ModuleItem::ModuleDecl(ModuleDecl::Other(read_pieces(row)?)),
        0x12 => ModuleItem::Stmt(Stmt::Other(read_pieces(row)?)),
        _ => {
            row.empty()?;
            ModuleItem::Stmt(Stmt::Empty(EmptyStmt))
        }
    })
}

fn read_pieces(mut row: Row) -> Read<Vec<Piece>> {
    let mut pieces = vec![];
    while let Some((tag, body)) = row.next(|t| matches!(t, 0x20 | 0x30 | 0x31))? {
        pieces.push(match tag {
            0x20 => Piece::Source(body.text()?.into()),
            _ => Piece::Expr(Box::new(read_tag(tag, body)?)),
        });
    }
    Ok(pieces)
}

fn read_tag(tag: u8, row: Row) -> Read<Expr> {
    Ok(if tag == 0x30 {
        Expr::JSXElement(Box::new(read_element(row)?))
    } else {
        Expr::JSXFragment(read_fragment(row)?)
    })
}

fn read_element(mut row: Row) -> Read<JSXElement> {
    let (tag, body) = row.need(|t| matches!(t, 0x40..=0x42))?;
    let name = match tag {
        0x40 => JSXElementName::Ident(ident(read_name(&body)?)),
        0x41 => JSXElementName::JSXMemberExpr(read_member(body)?),
        _ => JSXElementName::JSXNamespacedName(read_namespaced(body)?),
    };
    let mut attrs = vec![];
    let mut children = vec![];
    while let Some((tag, body)) = row.next(|t| is_child(t) || children.is_empty() && matches!(t, 0x50 | 0x53))? {
        match tag {
            0x50 => attrs.push(JSXAttrOrSpread::JSXAttr(read_attribute(body)?)),
            0x53 => attrs.push(JSXAttrOrSpread::SpreadElement(SpreadElement {
                dot3_token: DUMMY_SP,
                expr: read_one_expression(body)?,
            })),
            _ => children.push(read_child(tag, body)?),
        }
    }
    Ok(JSXElement { span: DUMMY_SP, opening: JSXOpeningElement { name, span: DUMMY_SP, attrs }, children })
}

fn read_fragment(mut row: Row) -> Read<JSXFragment> {
    let mut children = vec![];
    while let Some((tag, body)) = row.next(is_child)? {
        children.push(read_child(tag, body)?);
    }
    Ok(JSXFragment { span: DUMMY_SP, children })
}

fn is_child(tag: u8) -> bool {
    matches!(tag, 0x60 | 0x52 | 0x30 | 0x31 | 0x61)
}

fn read_child(tag: u8, row: Row) -> Read<JSXElementChild> {
    Ok(match tag {
        0x60 => {
            let text = row.text()?;
            JSXElementChild::JSXText(JSXText { span: DUMMY_SP, value: text.into(), raw: "".into() })
        }
        0x52 => JSXElementChild::JSXExprContainer(read_container(row)?),
        0x30 => JSXElementChild::JSXElement(Box::new(read_element(row)?)),
        0x31 => JSXElementChild::JSXFragment(read_fragment(row)?),
        _ => JSXElementChild::JSXSpreadChild(JSXSpreadChild { span: DUMMY_SP, expr: read_one_expression(row)? }),
    })
}

fn read_container(mut row: Row) -> Read<JSXExprContainer> {
    let expr = match row.next(is_expression)? {
        None => JSXExpr::JSXEmptyExpr(JSXEmptyExpr { span: DUMMY_SP }),
        Some((tag, body)) => JSXExpr::Expr(Box::new(read_expression(tag, body)?)),
    };
    row.end()?;
    Ok(JSXExprContainer { span: DUMMY_SP, expr })
}

/// A 40: 1 to 128 bytes, a letter, `_` or `$`, then also digits and hyphens.
fn read_name<'a>(row: &Row<'a>) -> Read<&'a str> {
    let (first, others) = row.rest.split_first().ok_or(Refusal::BadName)?;
    let starts = |c: &u8| c.is_ascii_alphabetic() || *c == b'_' || *c == b'$';
    let goes_on = |c: &u8| starts(c) || c.is_ascii_digit() || *c == b'-';
    if row.rest.len() > MOST_NAME || !starts(first) || !others.iter().all(goes_on) {
        return Err(Refusal::BadName);
    }
    std::str::from_utf8(row.rest).map_err(|_| Refusal::BadName)
}

fn ident(name: &str) -> Ident {
    Ident::new(name.into(), DUMMY_SP, SyntaxContext)
}

fn ident_name(name: &str) -> IdentName {
    IdentName::new(name.into(), DUMMY_SP)
}

/// A 41: two to eight 40s without hyphens.
fn read_member(mut row: Row) -> Read<JSXMemberExpr> {
    let mut names = vec![];
    while names.len() < 8
        && let Some((_, body)) = row.next(|t| t == 0x40)?
    {
        let name = read_name(&body)?;
        if name.contains('-') {
            return Err(Refusal::BadName);
        }
        names.push(name);
    }
    row.end()?;
    let [first, second, others @ ..] = &names[..] else { return Err(Refusal::Misplaced) };
    let member = |obj, prop| JSXMemberExpr { span: DUMMY_SP, obj, prop: ident_name(prop) };
    let two = member(JSXObject::Ident(ident(first)), second);
    Ok(others.iter().fold(two, |obj, prop| member(JSXObject::JSXMemberExpr(Box::new(obj)), prop)))
}

/// A 42: two 40s.
fn read_namespaced(mut row: Row) -> Read<JSXNamespacedName> {
    let ns = ident_name(read_name(&row.need(|t| t == 0x40)?.1)?);
    let name = ident_name(read_name(&row.need(|t| t == 0x40)?.1)?);
    row.end()?;
    Ok(JSXNamespacedName { span: DUMMY_SP, ns, name })
}

fn read_attribute(mut row: Row) -> Read<JSXAttr> {
    let (tag, body) = row.need(|t| matches!(t, 0x40 | 0x42))?;
    let name = match tag {
        0x40 => JSXAttrName::Ident(ident_name(read_name(&body)?)),
        _ => JSXAttrName::JSXNamespacedName(read_namespaced(body)?),
    };
    let value = match row.next(|t| matches!(t, 0x51 | 0x52 | 0x30 | 0x31))? {
        None => None,
        Some((0x51, body)) => Some(JSXAttrValue::Str(string(body.text()?))),
        Some((0x52, body)) => Some(JSXAttrValue::JSXExprContainer(read_container(body)?)),
        Some((0x30, body)) => Some(JSXAttrValue::JSXElement(Box::new(read_element(body)?))),
        Some((_, body)) => Some(JSXAttrValue::JSXFragment(read_fragment(body)?)),
    };
    row.end()?;
    Ok(JSXAttr { span: DUMMY_SP, name, value })
}

fn string(text: &str) -> Str {
    Str { span: DUMMY_SP, value: text.into(), raw: None }
}

fn is_expression(tag: u8) -> bool {
    matches!(tag, 0x70..=0x76 | 0x79..=0x7b | 0x30 | 0x31)
}

fn read_one_expression(mut row: Row) -> Read<Box<Expr>> {
    let (tag, body) = row.need(is_expression)?;
    let expr = read_expression(tag, body)?;
    row.end()?;
    Ok(Box::new(expr))
}

fn read_expression(tag: u8, row: Row) -> Read<Expr> {
    Ok(match tag {
        0x70 => Expr::Lit(Lit::Str(string(row.text()?))),
        0x71 => Expr::Lit(Lit::Num(read_number(&row)?)),
        0x72 => match row.rest {
            [byte @ 0..=1] => Expr::Lit(Lit::Bool(Bool { span: DUMMY_SP, value: *byte == 1 })),
            _ => return Err(Refusal::Misplaced),
        },
        0x73 => {
            row.empty()?;
            Expr::Lit(Lit::Null(Null { span: DUMMY_SP }))
        }
        0x74 => Expr::Lit(Lit::Other(row.text()?.into())),
        0x75 => minus(read_number(&row)?),
        0x76 => Expr::Array(read_array(row)?),
        0x79 => Expr::Other(read_pieces(row)?),
        0x7a => Expr::Lit(Lit::Num(Decimal::read(row.rest)?.literal())),
        0x7b => minus(Decimal::read(row.rest)?.literal()),
        _ => read_tag(tag, row)?,
    })
}

fn minus(number: Number) -> Expr {
    Expr::Unary(UnaryExpr { span: DUMMY_SP, op: UnaryOp::Minus, arg: Box::new(Expr::Lit(Lit::Num(number))) })
}

fn read_number(row: &Row) -> Read<Number> {
    let bytes: [u8; 8] = row.rest.try_into().map_err(|_| Refusal::Misplaced)?;
    let value = u64::from_be_bytes(bytes);
    if value > MOST_NUMBER {
        return Err(Refusal::NumberTooLarge);
    }
    // Within the limit every whole number is one f64 exactly.
    Ok(Number { span: DUMMY_SP, value: value as f64, raw: None })
}

fn read_array(mut row: Row) -> Read<ArrayLit> {
    let mut elems = vec![];
    while let Some((tag, body)) = row.next(|t| is_expression(t) || matches!(t, 0x77 | 0x78))? {
        elems.push(match tag {
            0x77 => Some(ExprOrSpread { spread: Some(DUMMY_SP), expr: read_one_expression(body)? }),
            0x78 => {
                body.empty()?;
                None
            }
            _ => Some(ExprOrSpread { spread: None, expr: Box::new(read_expression(tag, body)?) }),
        });
    }
    Ok(ArrayLit { span: DUMMY_SP, elems })
}
