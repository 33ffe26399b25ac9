//! The JavaScript module that both outputs are.
//!
//! The program `card` prints outputs for a reader, as document 01 lays it down; its text is not always JavaScript with
//! the meaning of the outputs. What is printed here is to be run:
//!
//! - an expression stands in parentheses where it would be taken apart otherwise, as `(sold ? true : held) ? ...`;
//! - a hole at the end of an array has a comma of its own, U+2028 is escaped, and `__proto__` is a property;
//! - directives (`"use client"`) at the head of the module stay before the import;
//! - a name with a hyphen (`<Foo-bar/>`), which is no variable, is called as a string, as Babel does;
//! - names of helpers and templates that the source has for itself get one more `_` or `$`.
//!
//! It rests on what a parse gives: that source text within an item or expression is JavaScript, and that a literal (74)
//! is one.
//!
//! ```
//! use jsx_precompile::{Options, page::{Element, Expression, Item, Page}, transform};
//!
//! // const a = <p title={x, y}>Hi {n}</p>;
//! let tag = Element::new("p").attribute("title", Expression::source("x, y")).text("Hi ").child(Expression::source("n"));
//! let page = Page::new([Item::statement(["const a = ".into(), tag.into(), ";".into()])]);
//! let forms = transform(&page.to_bytes()?, &Options::new())?;
//! assert_eq!(forms.javascript(), r#"import { jsxTemplate as _jsxTemplate, jsxAttr as _jsxAttr, jsxEscape as _jsxEscape } from "react/jsx-runtime";
//! const $$_tpl_1 = ["<p ", ">Hi ", "</p>"];
//! const a = _jsxTemplate($$_tpl_1, _jsxAttr("title", (x, y)), _jsxEscape(n));
//! "#);
//! # Ok::<(), Box<dyn std::error::Error>>(())
//! ```

mod print;
mod source;

use crate::out::{Expression, Helper, Item, PageOut, Piece, Templates};
use print::Print;

/// Prints the outputs of one page.
///
/// ```
/// use jsx_precompile::javascript::Printer;
/// use jsx_precompile::out::{PageOut, Templates};
///
/// let templates = Templates::read(b"\x84\0\x0d\0\0\0\x01\0\0\x81\0\x04<br>")?;
/// let page = PageOut::read(b"\x82\0\x05\x81\0\x01s\x02\x83\0\0\x12\0\x07\x90\0\x04\0\0\0\x01")?;
/// let expected = "import { jsxTemplate as _jsxTemplate } from \"s\";
/// const $$_tpl_1 = [\"<br>\"];
/// _jsxTemplate($$_tpl_1)
/// ";
/// assert_eq!(Printer::new(templates, page).module(), expected);
/// # Ok::<(), jsx_precompile::Fault>(())
/// ```
#[derive(Clone, Debug)]
pub struct Printer<'a> {
    templates: Templates<'a>,
    page: PageOut<'a>,
    names: Names,
}

impl<'a> Printer<'a> {
    /// Prints these outputs; they belong to one page.
    ///
    /// ```
    /// use jsx_precompile::javascript::Printer;
    /// use jsx_precompile::out::{PageOut, Templates};
    ///
    /// assert_eq!(Printer::new(Templates::read(&[])?, PageOut::read(&[])?).module(), "");
    /// # Ok::<(), jsx_precompile::Fault>(())
    /// ```
    pub fn new(templates: Templates<'a>, page: PageOut<'a>) -> Printer<'a> {
        Printer { templates, page, names: Names::beside(page) }
    }

    /// The module, each item on lines of its own.
    ///
    /// ```
    /// let forms = jsx_precompile::transform(b"\x01\0\x0b\x13\0\0\x12\0\x05\x20\0\x02x;", &Default::default())?;
    /// assert_eq!(forms.javascript(), ";\nx;\n");
    /// # Ok::<(), jsx_precompile::Fault>(())
    /// ```
    pub fn module(&self) -> String {
        self.items().into_iter().map(|(_, text)| text).collect()
    }

    /// The items of the page out in the order in which the module has them, each with its text.
    ///
    /// ```
    /// let forms = jsx_precompile::transform(b"\x01\0\x0b\x13\0\0\x12\0\x05\x20\0\x02x;", &Default::default())?;
    /// let printer = jsx_precompile::javascript::Printer::new(forms.templates(), forms.page());
    /// assert!(printer.items().into_iter().map(|(_, text)| text).eq([";\n", "x;\n"]));
    /// # Ok::<(), jsx_precompile::Fault>(())
    /// ```
    pub fn items(&self) -> Vec<(Item<'a>, String)> {
        let mut items: Vec<Item> = self.page.items().collect();
        // The import and the templates come before them in page out; a directive is one only at the head.
        let front = items.iter().take_while(|item| matches!(item, Item::Import(_) | Item::Templates)).count();
        let directives = items[front..].iter().take_while(|item| is_directive(item)).count();
        items[..front + directives].rotate_right(directives);
        let text = |item: &Item<'a>| {
            let mut print = Print::new(&self.names);
            match item.clone() {
                Item::Import(import) => print.import(&import),
                Item::Templates => self.templates.clone().for_each(|template| print.template(&template)),
                Item::Export(pieces) | Item::Declaration(pieces) | Item::Statement(pieces) => print.item(pieces),
                Item::Empty => print.text(";\n"),
            }
            print.out
        };
        items.into_iter().map(|item| (item.clone(), text(&item))).collect()
    }

    /// One expression of the page, as the module has it as an argument.
    ///
    /// ```
    /// let forms = jsx_precompile::transform(b"\x01\0\x0a\x12\0\x07\x30\0\x04\x40\0\x01i", &Default::default())?;
    /// let call = forms.page().calls().next().unwrap();
    /// let printer = jsx_precompile::javascript::Printer::new(forms.templates(), forms.page());
    /// assert_eq!(printer.expression(jsx_precompile::out::Expression::Call(call)), "_jsxTemplate($$_tpl_1)");
    /// # Ok::<(), jsx_precompile::Fault>(())
    /// ```
    pub fn expression(&self, expression: Expression<'a>) -> String {
        let mut print = Print::new(&self.names);
        print.argument(expression);
        print.out
    }

    /// The variable of the template with this number. It stands in the module where the template is recorded and where
    /// it is called, and nowhere else.
    ///
    /// ```
    /// use jsx_precompile::javascript::Printer;
    /// use jsx_precompile::out::{PageOut, Templates};
    ///
    /// let page = PageOut::read(b"\x12\0\x10\x20\0\x0dlet $$_tpl_1;")?; // the source has this name
    /// assert_eq!(Printer::new(Templates::read(&[])?, page).template_name(1), "$$$_tpl_1");
    /// # Ok::<(), jsx_precompile::Fault>(())
    /// ```
    pub fn template_name(&self, number: u32) -> String {
        self.names.template(number)
    }
}

fn is_directive(item: &Item) -> bool {
    let Item::Statement(pieces) = item else { return false };
    let mut pieces = pieces.clone();
    matches!((pieces.next(), pieces.next()), (Some(Piece::Source(text)), None) if source::is_directive(text))
}

/// The variables that the module has beside those of the source.
#[derive(Clone, Debug)]
struct Names {
    helpers: [String; 4],
    templates: String,
}

impl Names {
    fn beside(page: PageOut) -> Names {
        let own = |name: &str, more: &str| {
            let mut name = name.to_string();
            while page.sources().any(|text| text.contains(&name)) {
                name.insert_str(0, more);
            }
            name
        };
        Names {
            helpers: Helper::ALL.map(|helper| own(&format!("_{}", helper.name()), "_")),
            templates: own("$$_tpl_", "$"),
        }
    }

    fn helper(&self, helper: Helper) -> &str {
        let place = Helper::ALL.iter().position(|one| *one == helper);
        place.map_or(helper.name(), |place| &self.helpers[place])
    }

    fn template(&self, number: u32) -> String {
        format!("{}{number}", self.templates)
    }
}
