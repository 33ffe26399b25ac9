//! Expressions as text. What is still to be printed lies on a stack: a page out that is read may be deep.

use super::Names;
use super::source::{Shape, is_apart, is_behind_new, is_of_word, may_end_in_comment, shape};
use crate::out::*;
use std::fmt::Write;

pub(super) struct Print<'p, 'a> {
    pub(super) out: String,
    names: &'p Names,
    /// What comes next is last.
    later: Vec<Step<'a>>,
}

enum Step<'a> {
    Text(&'a str),
    String(&'a str),
    /// As an argument, an item of an array or the value of a property.
    Argument(Expression<'a>),
    Pieces(Pieces<'a>),
    /// A parenthesis behind source text that ends so.
    Close(&'a str),
}

struct Pieces<'a> {
    rest: Series<'a, Piece<'a>>,
    /// Where the source text behind the last expression begins.
    from: Option<usize>,
}

impl<'p, 'a> Print<'p, 'a> {
    pub(super) fn new(names: &'p Names) -> Print<'p, 'a> {
        Print { out: String::new(), names, later: vec![] }
    }

    pub(super) fn text(&mut self, text: &str) {
        self.out.push_str(text);
    }

    pub(super) fn import(&mut self, import: &Import) {
        let named = import.helpers().map(|helper| format!("{} as {}", helper.name(), self.names.helper(helper)));
        let named = named.collect::<Vec<_>>().join(", ");
        self.text(&format!("import {{ {named} }} from "));
        self.string(import.source);
        self.text(";\n");
    }

    pub(super) fn template(&mut self, template: &Template) {
        self.text(&format!("const {} = [", self.names.template(template.number())));
        for (i, string) in template.strings().enumerate() {
            self.text(if i == 0 { "" } else { ", " });
            self.string(string);
        }
        self.text("];\n");
    }

    pub(super) fn item(&mut self, pieces: Series<'a, Piece<'a>>) {
        self.later.push(Step::Pieces(Pieces { rest: pieces, from: None }));
        self.run();
        self.text("\n");
    }

    pub(super) fn argument(&mut self, expression: Expression<'a>) {
        self.later.push(Step::Argument(expression));
        self.run();
    }

    fn run(&mut self) {
        while let Some(step) = self.later.pop() {
            match step {
                Step::Text(text) => self.text(text),
                Step::String(text) => self.string(text),
                Step::Argument(Expression::Other(pieces)) => {
                    let bare = shape(pieces.clone()) != Shape::Any;
                    self.other(pieces, bare);
                }
                Step::Argument(expression) => self.expression(expression),
                Step::Pieces(pieces) => self.piece(pieces),
                Step::Close(text) => self.text(if may_end_in_comment(text) { "\n)" } else { ")" }),
            }
        }
    }

    /// These steps come next, the first of them first.
    fn next(&mut self, steps: impl IntoIterator<Item = Step<'a>, IntoIter: DoubleEndedIterator>) {
        self.later.extend(steps.into_iter().rev());
    }

    fn string(&mut self, text: &str) {
        self.out.push('"');
        for sign in text.chars() {
            match sign {
                '"' => self.text("\\\""),
                '\\' => self.text("\\\\"),
                '\n' => self.text("\\n"),
                '\r' => self.text("\\r"),
                // In a string they are line ends to older engines, and to readers of the file.
                '\u{2028}' => self.text("\\u2028"),
                '\u{2029}' => self.text("\\u2029"),
                '\0'..' ' | '\u{7f}' => {
                    let _ = write!(self.out, "\\x{:02x}", u32::from(sign));
                }
                _ => self.out.push(sign),
            }
        }
        self.out.push('"');
    }

    fn other(&mut self, pieces: Series<'a, Piece<'a>>, bare: bool) {
        let last = match pieces.clone().last() {
            Some(Piece::Source(text)) => text,
            _ => "",
        };
        let inside = Step::Pieces(Pieces { rest: pieces, from: None });
        match bare {
            true => self.next([inside]),
            false => self.next([Step::Text("("), inside, Step::Close(last)]),
        }
    }

    /// The next of the pieces, and then the others.
    fn piece(&mut self, mut pieces: Pieces<'a>) {
        let from = *pieces.from.get_or_insert(self.out.len());
        match pieces.rest.next() {
            None => {}
            Some(Piece::Source(text)) => {
                self.text(text);
                self.next([Step::Pieces(pieces)]);
            }
            Some(Piece::Expression(expression)) => {
                let before = &self.out[from..];
                let bare = match &expression {
                    Expression::Call(Call::Choice(_)) => false,
                    Expression::Call(_) => !is_behind_new(before),
                    Expression::Other(inside) if shape(inside.clone()) != Shape::Chain => false,
                    _ => is_apart(before, &following(pieces.rest.clone())),
                };
                if bare && before.ends_with(is_of_word) {
                    self.text(" ");
                }
                let rest = Step::Pieces(Pieces { rest: pieces.rest, from: None });
                match (expression, bare) {
                    (Expression::Other(inside), _) => {
                        self.next([rest]);
                        self.other(inside, bare);
                    }
                    (expression, true) => {
                        self.next([rest]);
                        self.expression(expression);
                    }
                    (expression, false) => {
                        self.next([Step::Text("("), Step::Argument(expression), Step::Text(")"), rest]);
                    }
                }
            }
        }
    }

    fn expression(&mut self, expression: Expression<'a>) {
        match expression {
            Expression::String(text) => self.string(text),
            Expression::Number(number) => self.text(&number.to_string()),
            Expression::Boolean(value) => self.text(if value { "true" } else { "false" }),
            Expression::Null => self.text("null"),
            Expression::Literal(source) => self.text(source),
            Expression::Minus(number) => self.text(&format!("-{number}")),
            Expression::Array(items) => self.array(items),
            Expression::Other(pieces) => self.other(pieces, false),
            Expression::Decimal(decimal) => self.text(&decimal.to_string()),
            Expression::MinusDecimal(decimal) => self.text(&format!("-{decimal}")),
            Expression::Call(Call::Choice(choice)) => self.choice(choice),
            Expression::Call(call) => self.call(call),
        }
    }

    fn array(&mut self, items: Series<'a, ArrayItem<'a>>) {
        self.text("[");
        let mut steps = vec![];
        for (i, item) in items.clone().enumerate() {
            steps.push(Step::Text(if i == 0 { "" } else { ", " }));
            match item {
                ArrayItem::Expression(inside) => steps.push(Step::Argument(inside)),
                ArrayItem::Spread(inside) => steps.extend([Step::Text("..."), Step::Argument(inside)]),
                ArrayItem::Hole => {}
            }
        }
        // A comma behind the last item makes no hole.
        steps.push(Step::Text(if items.last() == Some(ArrayItem::Hole) { ",]" } else { "]" }));
        self.next(steps);
    }

    fn choice(&mut self, choice: Choice<'a>) {
        let end = [Step::Text(" ? "), Step::String(choice.name()), Step::Text(" : \"\"")];
        self.next(end);
        match choice.condition() {
            Expression::Other(pieces) => {
                let bare = shape(pieces.clone()) == Shape::Chain;
                self.other(pieces, bare);
            }
            inside @ Expression::Call(Call::Choice(_)) => {
                self.next([Step::Text("("), Step::Argument(inside), Step::Text(")")]);
            }
            inside => self.next([Step::Argument(inside)]),
        }
    }

    fn call(&mut self, call: Call<'a>) {
        let names = self.names;
        self.text(call.helper().map_or("", |helper| names.helper(helper)));
        self.text("(");
        let mut steps = vec![];
        match call {
            Call::Template(call) => {
                self.text(&names.template(call.number()));
                for expression in call.expressions() {
                    steps.extend([Step::Text(", "), Step::Argument(expression)]);
                }
            }
            Call::Attr(call) => {
                steps.extend([Step::String(call.name()), Step::Text(", "), Step::Argument(call.value())]);
            }
            Call::Escape(call) => steps.push(Step::Argument(call.value())),
            Call::Choice(_) => {}
            Call::Jsx(call) => {
                self.called_name(call.name());
                self.text(", ");
                match call.props() {
                    None => self.text("null"),
                    Some(props) => props_steps(props, &mut steps),
                }
                if let Some(key) = call.key() {
                    steps.extend([Step::Text(", "), Step::Argument(key)]);
                }
            }
        }
        steps.push(Step::Text(")"));
        self.next(steps);
    }

    fn called_name(&mut self, name: CalledName) {
        match name {
            // No variable has a hyphen in its name.
            CalledName::Identifier(name) if !name.contains('-') => self.text(name),
            CalledName::Identifier(name) | CalledName::Tag(name) => self.string(name),
            CalledName::Member(names) => self.text(&names.collect::<Vec<_>>().join(".")),
        }
    }
}

fn props_steps<'a>(props: Series<'a, Prop<'a>>, steps: &mut Vec<Step<'a>>) {
    steps.push(Step::Text("{"));
    let mut any = false;
    for prop in props {
        steps.push(Step::Text(if any { ", " } else { " " }));
        any = true;
        match prop {
            // As a plain name it would set the prototype.
            Prop::Named("__proto__", value) => steps.extend([Step::Text("[\"__proto__\"]: "), Step::Argument(value)]),
            Prop::Named(name, value) if is_identifier(name) => {
                steps.extend([Step::Text(name), Step::Text(": "), Step::Argument(value)]);
            }
            Prop::Named(name, value) => steps.extend([Step::String(name), Step::Text(": "), Step::Argument(value)]),
            Prop::Spread(inside) => steps.extend([Step::Text("..."), Step::Argument(inside)]),
        }
    }
    steps.push(Step::Text(if any { " }" } else { "}" }));
}

fn is_identifier(name: &str) -> bool {
    let begins = |sign: char| sign.is_ascii_alphabetic() || sign == '_' || sign == '$';
    name.starts_with(begins) && name.chars().all(|sign| begins(sign) || sign.is_ascii_digit())
}

/// The source text up to the next expression.
fn following<'a>(rest: impl Iterator<Item = Piece<'a>>) -> String {
    let mut text = String::new();
    for piece in rest {
        match piece {
            Piece::Source(source) => text.push_str(source),
            // A word, to be apart from.
            Piece::Expression(_) => {
                text.push('_');
                break;
            }
        }
    }
    text
}
