//! 01, Shelf marks and The card, as text and, with 02's A6, as bytes.

use super::{Mark, listed_container, mark, taken};
use crate::make::*;

/// One tag as the only piece of a statement; the text behind the import line.
fn tag(name: &str, tag: Vec<u8>, sum: u8, behind: &str) -> Mark {
    taken(name, page_of(tag), vec![], sum, behind)
}

/// The kinds of gaps.
const ATTRIBUTE: u8 = 1;
const CHILD: u8 = 2;

impl Mark {
    /// Templates out, and page out: the import with its sum, the place of the templates, and one statement.
    fn written(self, sum: u8, templates: &[Vec<u8>], pieces: &[Vec<u8>]) -> Mark {
        let import = field(0x82, &[string_out("react/jsx-runtime"), vec![sum]].concat());
        let place = field(0x83, b"");
        let page = [import, place, statement(pieces)].concat();
        Mark { written: Some([templates.concat(), page]), ..self }
    }
}

fn attribute_call(name: &str, value: Vec<u8>) -> Vec<u8> {
    row(0x91, &[string_out(name), value])
}

fn escape_call(value: Vec<u8>) -> Vec<u8> {
    field(0x92, &value)
}

fn choice(test: Vec<u8>, name: &str) -> Vec<u8> {
    row(0x93, &[test, string_out(name)])
}

/// `Foo` with one child.
fn foo_call(child: Vec<u8>) -> Vec<u8> {
    let props = row(0x95, &[row(0x96, &[string_out("children"), child])]);
    row(0x94, &[name_of("Foo"), props])
}

pub fn marks() -> Vec<Mark> {
    let false_value = braces(boolean(false));
    let card = statement(&[
        source("const a = "),
        element("p", &[attribute_string("class", "t"), text("Hi "), braces(code("n"))]),
        source(";"),
    ]);
    vec![
        taken(
            "card",
            page(&[card]),
            vec![],
            2 + 8,
            "const $$_tpl_1 = [\"<p class=\\\"t\\\">Hi \", \"</p>\"];\nconst a = _jsxTemplate($$_tpl_1, _jsxEscape(n));\n",
        )
        .written(
            2 + 8,
            &[template(1, &[CHILD], &["<p class=\"t\">Hi ", "</p>"])],
            &[source("const a = "), template_call(1, &[escape_call(code("n"))]), source(";")],
        ),
        tag("k1", element("br", &[]), 2, "const $$_tpl_1 = [\"<br>\"];\n_jsxTemplate($$_tpl_1)\n").written(
            2,
            &[template(1, &[], &["<br>"])],
            &[template_call(1, &[])],
        ),
        tag(
            "k2",
            element("i", &[attribute_with("disabled", false_value), text("B")]),
            2,
            "const $$_tpl_1 = [\"<i>B</i>\"];\n_jsxTemplate($$_tpl_1)\n",
        )
        .written(2, &[template(1, &[], &["<i>B</i>"])], &[template_call(1, &[])]),
        tag(
            "k3",
            element("i", &[attribute_with("disabled", braces(code("f")))]),
            2,
            "const $$_tpl_1 = [\"<i \", \"></i>\"];\n_jsxTemplate($$_tpl_1, f ? \"disabled\" : \"\")\n",
        )
        .written(2, &[template(1, &[ATTRIBUTE], &["<i ", "></i>"])], &[template_call(1, &[choice(code("f"), "disabled")])]),
        tag(
            "k4",
            element("p", &[attribute("hidden")]),
            2 + 4,
            "const $$_tpl_1 = [\"<p \", \"></p>\"];\n_jsxTemplate($$_tpl_1, _jsxAttr(\"hidden\", true))\n",
        )
        .written(2 + 4, &[template(1, &[ATTRIBUTE], &["<p ", "></p>"])], &[template_call(1, &[attribute_call("hidden", boolean(true))])]),
        tag(
            "k5",
            element("b", &[attribute_with("key", braces(string("7")))]),
            2,
            "const $$_tpl_1 = [\"<b key=\\\"7\\\"></b>\"];\n_jsxTemplate($$_tpl_1)\n",
        )
        .written(2, &[template(1, &[], &["<b key=\"7\"></b>"])], &[template_call(1, &[])]),
        tag(
            "k5-string",
            element("b", &[attribute_string("key", "7")]),
            2 + 4,
            "const $$_tpl_1 = [\"<b \", \"></b>\"];\n_jsxTemplate($$_tpl_1, _jsxAttr(\"key\", \"7\"))\n",
        )
        .written(2 + 4, &[template(1, &[ATTRIBUTE], &["<b ", "></b>"])], &[template_call(1, &[attribute_call("key", string("7"))])]),
        tag(
            "k6",
            element("div", &[element("Foo", &[element("i", &[])])]),
            1 + 2,
            "const $$_tpl_2 = [\"<i></i>\"];\nconst $$_tpl_1 = [\"<div>\", \"</div>\"];\n\
             _jsxTemplate($$_tpl_1, _jsx(Foo, { children: _jsxTemplate($$_tpl_2) }))\n",
        )
        .written(1 + 2, &[template(2, &[], &["<i></i>"]), template(1, &[CHILD], &["<div>", "</div>"])], &[template_call(1, &[foo_call(template_call(2, &[]))])]),
        tag("k7", fragment(&[]), 0, "null\n"),
        mark("k7-nested", page_of(fragment(&[fragment(&[])])), vec![], 10),
        tag(
            "k8",
            element("Foo", &[text("a"), braces(string("<")), element("i", &[])]),
            1 + 2,
            "const $$_tpl_1 = [\"a&amp;lt;<i></i>\"];\n_jsx(Foo, { children: _jsxTemplate($$_tpl_1) })\n",
        )
        .written(1 + 2, &[template(1, &[], &["a&amp;lt;<i></i>"])], &[foo_call(template_call(1, &[]))]),
        tag(
            "k9",
            element("a", &[attribute_with("b", braces(minus(0)))]),
            2,
            "const $$_tpl_1 = [\"<a b=\\\"-0\\\"></a>\"];\n_jsxTemplate($$_tpl_1)\n",
        )
        .written(2, &[template(1, &[], &["<a b=\"-0\"></a>"])], &[template_call(1, &[])]),
        // 02, A1: K10 and three more rows.
        listed_container("k10", "a", "b", braces(minus(0)), "-0").written(2 + 4, &[template(1, &[ATTRIBUTE], &["<a ", "></a>"])], &[template_call(1, &[attribute_call("b", minus(0))])]),
        listed_container("k10-empty", "a", "b", empty_braces(), "null").written(2 + 4, &[template(1, &[ATTRIBUTE], &["<a ", "></a>"])], &[template_call(1, &[attribute_call("b", null())])]),
        taken(
            "k10-tag",
            page_of(element("a", &[attribute_with("b", braces(element("i", &[])))])),
            attributes_listed(&["b"]),
            2 + 4,
            "const $$_tpl_1 = [\"<a \", \"></a>\"];\nconst $$_tpl_2 = [\"<i></i>\"];\n\
             _jsxTemplate($$_tpl_1, _jsxAttr(\"b\", _jsxTemplate($$_tpl_2)))\n",
        )
        .written(2 + 4, &[template(1, &[ATTRIBUTE], &["<a ", "></a>"]), template(2, &[], &["<i></i>"])], &[template_call(1, &[attribute_call("b", template_call(2, &[]))])]),
        listed_container("k10-class", "p", "class", braces(code("x")), "x"),
        // 02, A6: both kinds in one template, and a gap in an inner opening tag.
        tag(
            "a6-kinds",
            element(
                "p",
                &[
                    attribute_with("open", braces(code("o"))),
                    attribute("hidden"),
                    braces(code("x")),
                    element("b", &[attribute("hidden"), braces(literal("7n"))]),
                ],
            ),
            2 + 4 + 8,
            "const $$_tpl_1 = [\"<p \", \" \", \">\", \"<b \", \">\", \"</b></p>\"];\n\
             _jsxTemplate($$_tpl_1, o ? \"open\" : \"\", _jsxAttr(\"hidden\", true), _jsxEscape(x), \
             _jsxAttr(\"hidden\", true), 7n)\n",
        )
        .written(
            2 + 4 + 8,
            &[template(1, &[ATTRIBUTE, ATTRIBUTE, CHILD, ATTRIBUTE, CHILD], &["<p ", " ", ">", "<b ", ">", "</b></p>"])],
            &[template_call(1, &[choice(code("o"), "open"), attribute_call("hidden", boolean(true)), escape_call(code("x")), attribute_call("hidden", boolean(true)), literal("7n")])],
        ),
    ]
}
