//! Places where 01 can be read in two ways, each settled one way (the numbers are those of the list of readings).

use super::{Mark, listed_container, mark, taken};
use crate::generate::names::listed_in;
use crate::make::*;

pub fn marks() -> Vec<Mark> {
    [order(), leaves(), containers(), left(), keys(), listed(), merging(), printing(), names(), everything()].concat()
}

/// 1: within a header torn, misplaced, depth; then the body. Extra fields at their header, missing ones at the end.
fn order() -> Vec<Mark> {
    let at_depth_49 =
        |leaf: Vec<u8>| page_of((1..45).fold(element("i", &[braces(leaf)]), |inner, _| element("i", &[inner])));
    let in_braces = |expressions: &[Vec<u8>]| page_of(fragment(&[braces(expressions.concat())]));
    let bad_text = field(0x70, b"\xff");
    let member = |parts: &[&[u8]]| {
        let parts: Vec<Vec<u8>> = parts.iter().map(|p| field(0x40, p)).collect();
        page_of(row(0x30, &[row(0x41, &parts)]))
    };
    let torn_ninth = [vec![field(0x40, b"a"); 8].concat(), vec![0x40]].concat();
    vec![
        mark("r1-misplaced-before-bytes-behind", vec![1, 0, 3, 0x99, 0, 0, 7], vec![], 4),
        mark("r1-bytes-behind", vec![1, 0, 0, 7], vec![], 3),
        mark("r1-field-behind", vec![1, 0, 0, 1, 0, 0], vec![], 3),
        mark("r1-torn-before-misplaced", vec![1, 0, 3, 0x99, 0, 1], vec![], 3),
        mark("r1-torn-top", vec![2, 0, 1], vec![], 3),
        mark("r1-misplaced-top", vec![2, 0, 0], vec![], 4),
        mark("r1-empty-page", vec![], vec![], 3),
        mark("r1-two-bytes", vec![1, 0], vec![], 3),
        mark("r1-73-long-at-48", page_of(fragment(&[braces(field(0x73, b"x"))])), vec![], 4),
        mark("r1-73-long-at-49", at_depth_49(field(0x73, b"x")), vec![], 8),
        mark("r1-misplaced-at-49", at_depth_49(field(0x99, b"")), vec![], 4),
        mark("r1-torn-at-49", at_depth_49(vec![0x99, 0]), vec![], 3),
        mark("r1-extra-unread", in_braces(&[null(), bad_text.clone()]), vec![], 4),
        mark("r1-extra-torn", in_braces(&[null(), vec![0x70, 0]]), vec![], 3),
        mark("r1-extra-deep", at_depth_49(vec![]), vec![], 0),
        mark("r1-first-then-extra", in_braces(&[bad_text, null()]), vec![], 6),
        mark("r1-member-one-bad", member(&[b"-"]), vec![], 5),
        mark("r1-member-one", member(&[b"a"]), vec![], 4),
        mark("r1-member-none", member(&[]), vec![], 4),
        mark("r1-member-ninth-torn", page_of(row(0x30, &[field(0x41, &torn_ninth)])), vec![], 3),
        mark("r1-member-ninth-bad", member(&[b"a", b"a", b"a", b"a", b"a", b"a", b"a", b"a", b"-"]), vec![], 4),
        mark("r1-no-name", page_of(field(0x30, b"")), vec![], 4),
        mark("r1-attribute-behind-child", page_of(element("i", &[text("x"), attribute("a")])), vec![], 4),
        mark("r1-spread-empty", page_of(element("i", &[field(0x53, b"")])), vec![], 4),
        mark("r1-spread-child-empty", page_of(fragment(&[field(0x61, b"")])), vec![], 4),
        mark("r1-hole-outside-array", in_braces(&[hole()]), vec![], 4),
        mark("r1-options-first", vec![], vec![0x02, 0, 0, 0x02, 0, 0], 4),
        mark("r1-options-order", page(&[]), [attributes_listed(&[]), elements_listed(&[])].concat(), 4),
        mark("r1-options-torn", page(&[]), vec![0x04, 0], 3),
        mark("r1-options-unknown", page(&[]), field(0x06, b""), 4),
    ]
}

/// 2: depth counts 40s too; which leaves are UTF-8; which may be empty.
fn leaves() -> Vec<Mark> {
    let bad = b"a\xc3";
    let expression = |leaf: Vec<u8>| page_of(fragment(&[braces(leaf)]));
    let empty = [
        ("20", page(&[statement(&[source("")])])),
        ("51", page_of(element("i", &[attribute_string("a", "")]))),
        ("60", page_of(element("i", &[text("")]))),
        ("70", expression(string(""))),
        ("74", expression(literal(""))),
    ];
    let not_text = [
        ("20", page(&[statement(&[field(0x20, bad)])])),
        ("51", page_of(element("i", &[attribute_with("a", field(0x51, bad))]))),
        ("60", page_of(element("i", &[field(0x60, bad)]))),
        ("70", expression(field(0x70, bad))),
        ("74", expression(field(0x74, bad))),
    ];
    let mut marks = vec![
        taken("r2-empty-page", page(&[]), vec![], 0, ""),
        mark("r2-40-outside-ascii", page_of(row(0x30, &[field(0x40, "\u{e9}".as_bytes())])), vec![], 5),
        mark("r2-40-not-utf8", page_of(row(0x30, &[field(0x40, b"a\xff")])), vec![], 5),
        mark("r2-hyphen-in-member", page_of(element("a.b-c", &[])), vec![], 5),
        mark("r2-hyphen-in-namespaced", page_of(element("a-b:c-d", &[])), vec![], 0),
        mark("r2-04-empty", page(&[]), import_source(""), 4),
        mark("r2-04-not-utf8", page(&[]), field(0x04, bad), 6),
        mark("r2-02-not-utf8", page(&[]), row(0x02, &[field(0x20, bad)]), 6),
        mark("r2-boolean-2", expression(field(0x72, &[2])), vec![], 4),
        mark("r2-boolean-empty", expression(field(0x72, &[])), vec![], 4),
        mark("r2-number-7-bytes", expression(field(0x71, &[0; 7])), vec![], 4),
        mark("r2-number-9-bytes", expression(field(0x75, &[255; 9])), vec![], 4),
        mark("r2-13-with-body", page(&[field(0x13, b"x")]), vec![], 4),
        mark(
            "r2-empty-lists",
            page_of(element("i", &[attribute("a")])),
            [elements_listed(&[]), attributes_listed(&[])].concat(),
            0,
        ),
        mark("r2-surrogate", expression(field(0x70, b"\xed\xa0\x80")), vec![], 6),
        mark("r2-overlong", expression(field(0x70, b"\xc0\x80")), vec![], 6),
        mark("r2-over-10ffff", expression(field(0x70, b"\xf4\x90\x80\x80")), vec![], 6),
    ];
    marks.extend(empty.map(|(tag, page)| mark(&format!("r2-empty-{tag}"), page, vec![], 0)));
    marks.extend(not_text.map(|(tag, page)| mark(&format!("r2-not-utf8-{tag}"), page, vec![], 6)));
    marks
}

/// 4: containers of listed attributes (02, A1), also inside a tag that is left, which stays 10.
fn containers() -> Vec<Mark> {
    let class = || attributes_listed(&["class"]);
    let p = || element("p", &[attribute_with("class", braces(code("x")))]);
    let with = |name: &str, tag: Vec<u8>, number: u32| mark(name, page_of(tag), class(), number);
    let second = |name: &str, expression: Vec<u8>, printed: &str| {
        listed_container(&format!("r4-passes-{name}"), "p", "class", braces(expression), printed)
    };
    vec![
        with("r4-within-a-spread-child", fragment(&[spread_child(p())]), 10),
        with("r4-unseen-within-a-tag-left", fragment(&[fragment(&[braces(p())])]), 10),
        with("r4-void-children", element("br", &[p()]), 0),
        with("r4-spread-child", element("i", &[spread_child(p())]), 0),
        with("r4-empty-braces", element("p", &[attribute_with("class", empty_braces())]), 0),
        with("r4-string", element("p", &[attribute_string("class", "x")]), 0),
        with("r4-no-value", element("p", &[attribute("class")]), 0),
        with("r4-element-value", element("p", &[attribute_with("class", element("i", &[]))]), 0),
        with("r4-fragment-value", element("p", &[attribute_with("class", fragment(&[]))]), 0),
        with("r4-call", element("Foo", &[attribute_with("class", braces(code("x")))]), 0),
        with("r4-later-in-the-page", fragment(&[fragment(&[]), element("i", &[braces(p())])]), 0),
        with("r4-beside-a-tag-left", fragment(&[spread_child(other(&[p(), fragment(&[fragment(&[])])]))]), 10),
        with(
            "r4-in-braces-a-tag-left",
            element("p", &[attribute_with("class", braces(fragment(&[fragment(&[])])))]),
            10,
        ),
        // As it stands: lines of a string stay, a boolean is no reason to drop, nothing is serialized.
        second("a-string", string("<\n  b"), "\"<\\n  b\""),
        second("a-number", number(7), "7"),
        second("false", boolean(false), "false"),
        second("null", null(), "null"),
        second("a-literal", literal("1n"), "1n"),
        second("an-array", array(&[number(1), hole(), array_spread(code("x"))]), "[1, , ...x]"),
        second("an-empty-fragment", fragment(&[]), "null"),
        listed_container("r4-boolean-attribute", "i", "disabled", braces(boolean(false)), "false"),
        listed_container("r4-as-written", "i", "className", braces(code("x")), "x"),
        taken(
            "r4-namespaced",
            page_of(element("a", &[attribute_with("xlink:href", braces(code("x")))])),
            attributes_listed(&["href"]),
            2 + 4,
            "const $$_tpl_1 = [\"<a \", \"></a>\"];\n_jsxTemplate($$_tpl_1, _jsxAttr(\"href\", x))\n",
        ),
    ]
}

/// 4: what else is left bare.
fn left() -> Vec<Mark> {
    let with = |name: &str, tag: Vec<u8>, number: u32| mark(name, page_of(tag), vec![], number);
    vec![
        with("r4-fragment-of-spread", fragment(&[spread_child(code("x"))]), 10),
        with("r4-fragment-of-tag-in-braces", fragment(&[fragment(&[braces(element("a", &[]))])]), 10),
        with("r4-fragment-of-fragment-with-text", fragment(&[fragment(&[text("x")])]), 0),
        with("r4-three-fragments", fragment(&[fragment(&[fragment(&[])])]), 10),
        with("r4-fragment-of-empty-braces", fragment(&[fragment(&[empty_braces()])]), 10),
        with("r4-two-empty-fragments", fragment(&[fragment(&[]), fragment(&[])]), 0),
    ]
}

/// 6: void and boolean names, `key`.
fn keys() -> Vec<Mark> {
    let call =
        |name: &str, parts: &[Vec<u8>], behind: &str| taken(name, page_of(element("Foo", parts)), vec![], 1, behind);
    vec![
        call(
            "r6-key-erased-by-empty-braces",
            &[attribute_string("key", "1"), attribute_with("key", empty_braces())],
            "_jsx(Foo, null)\n",
        ),
        call(
            "r6-key-erased-by-a-tag",
            &[attribute_string("key", "1"), attribute_with("key", element("i", &[]))],
            "_jsx(Foo, null)\n",
        ),
        call(
            "r6-key-without-value",
            &[attribute_string("key", "1"), attribute("key")],
            "_jsx(Foo, { key: true }, \"1\")\n",
        ),
        call("r6-key-last", &[attribute_string("key", "1"), attribute_string("key", "2")], "_jsx(Foo, null, \"2\")\n"),
        call("r6-key-capital-on-a-component", &[attribute_string("Key", "1")], "_jsx(Foo, { Key: \"1\" })\n"),
        taken(
            "r6-key-capital-on-a-tag",
            page_of(element("a:b", &[attribute_string("Key", "1")])),
            vec![],
            1,
            "_jsx(\"a:b\", null, \"1\")\n",
        ),
        taken(
            "r6-boolean-in-capitals",
            page_of(element("i", &[attribute("DISABLED")])),
            vec![],
            2,
            "const $$_tpl_1 = [\"<i disabled></i>\"];\n_jsxTemplate($$_tpl_1)\n",
        ),
        taken(
            "r6-attribute-string-of-a-call",
            page_of(element("Foo", &[attribute_string("a", " x \n\n  y \r\n")])),
            vec![],
            1,
            "_jsx(Foo, { a: \"x   y \" })\n",
        ),
    ]
}

/// 6: 03 is searched with an identifier as written and a namespaced name normalised.
fn listed() -> Vec<Mark> {
    let a = |attribute: Vec<u8>| page_of(element("a", &[attribute]));
    let gap = |name: &str| {
        format!("const $$_tpl_1 = [\"<a \", \"></a>\"];\n_jsxTemplate($$_tpl_1, _jsxAttr(\"{name}\", \"#\"))\n")
    };
    let plain = |name: &str| format!("const $$_tpl_1 = [\"<a {name}=\\\"#\\\"></a>\"];\n_jsxTemplate($$_tpl_1)\n");
    let href = || attributes_listed(&["href"]);
    vec![
        taken("r6-href-catches-xlink-href", a(attribute_string("xlink:href", "#")), href(), 2 + 4, &gap("href")),
        taken("r6-href-not-xlinkHref", a(attribute_string("xlinkHref", "#")), href(), 2, &plain("href")),
        taken(
            "r6-as-written",
            a(attribute_string("className", "#")),
            attributes_listed(&["className"]),
            2 + 4,
            &gap("className"),
        ),
        taken(
            "r6-not-normalised",
            a(attribute_string("className", "#")),
            attributes_listed(&["class"]),
            2,
            &plain("class"),
        ),
        taken(
            "element-listed",
            page_of(element("a", &[attribute_string("className", "#")])),
            elements_listed(&["a"]),
            1,
            "_jsx(\"a\", { class: \"#\" })\n",
        ),
        mark("import-source", page_of(element("a", &[])), import_source("preact"), 0),
        mark(
            "all-options",
            page_of(element("a", &[])),
            [elements_listed(&["a"]), attributes_listed(&["b"]), import_source("\u{65e5}\""), sums()].concat(),
            0,
        ),
    ]
}

/// 7: which children of a call become a template.
fn merging() -> Vec<Mark> {
    let in_call = |name: &str, children: &[Vec<u8>], sum: u8, behind: &str| {
        taken(name, page_of(element("Foo", children)), vec![], sum, behind)
    };
    vec![
        in_call(
            "r7-string-is-no-text",
            &[braces(string("a")), element("i", &[])],
            1 + 2,
            "const $$_tpl_1 = [\"<i></i>\"];\n_jsx(Foo, { children: [\"a\", _jsxTemplate($$_tpl_1)] })\n",
        ),
        in_call("r7-all-drop", &[braces(boolean(true)), empty_braces()], 1, "_jsx(Foo, { children: [] })\n"),
        in_call(
            "r7-escaped-outside-a-template",
            &[braces(string("<")), braces(code("x"))],
            1,
            "_jsx(Foo, { children: [\"&lt;\", x] })\n",
        ),
        in_call("r7-only-child", &[braces(string("<"))], 1, "_jsx(Foo, { children: \"<\" })\n"),
        in_call("r7-only-text", &[text("  <\n  ")], 1, "_jsx(Foo, { children: \"  <\" })\n"),
        in_call(
            "spread-dropped",
            &[fragment(&[braces(array(&[array_spread(code("x"))]))]), text("")],
            1,
            "_jsx(Foo, { children: x })\n",
        ),
        in_call(
            "array-flattened",
            &[fragment(&[braces(array(&[code("x"), hole(), number(1)]))]), text("")],
            1,
            "_jsx(Foo, { children: [x, , 1] })\n",
        ),
        in_call("hole-alone", &[fragment(&[braces(array(&[hole()]))]), text("")], 1, "_jsx(Foo, { children: [] })\n"),
        taken(
            "templates-where",
            page(&[declaration(&[source("import x")]), empty_statement(), export(&[element("i", &[])])]),
            vec![],
            2,
            "import x\n;\nconst $$_tpl_1 = [\"<i></i>\"];\n_jsxTemplate($$_tpl_1)\n",
        ),
        taken(
            "templates-before-all",
            page(&[declaration(&[element("i", &[])]), empty_statement()]),
            vec![],
            2,
            "const $$_tpl_1 = [\"<i></i>\"];\n_jsxTemplate($$_tpl_1)\n;\n",
        ),
    ]
}

/// 8: the card's text.
fn printing() -> Vec<Mark> {
    let props = [
        attribute_with("a", braces(array(&[hole(), number(3), array_spread(code("y")), hole()]))),
        attribute_with("b-c", braces(minus(12))),
        attribute_with("xlink:href", braces(literal("/r/"))),
        attribute_with("d", braces(boolean(false))),
        attribute_with("e", braces(null())),
        spread(code("z")),
        attribute_with("f", braces(string("\"\\\n\r\t\u{7f}\u{e9}"))),
    ];
    vec![
        taken(
            "r8-props",
            page_of(element("a.b.C", &props)),
            vec![],
            1,
            "_jsx(a.b.C, { a: [, 3, ...y, ], \"b-c\": -12, href: /r/, d: false, e: null, ...z, \
             f: \"\\\"\\\\\\n\\r\\x09\\x7f\u{e9}\" })\n",
        ),
        taken(
            "r8-choice-bare",
            page_of(element("i", &[attribute_with("open", braces(code("a, b")))])),
            vec![],
            2,
            "const $$_tpl_1 = [\"<i \", \"></i>\"];\n_jsxTemplate($$_tpl_1, a, b ? \"open\" : \"\")\n",
        ),
        taken("r8-empty-statement", page(&[empty_statement()]), vec![], 0, ";\n"),
        taken("r8-no-pieces", page(&[statement(&[])]), vec![], 0, "\n"),
        taken("r8-two-pieces", page(&[statement(&[source("a"), source("b")])]), vec![], 0, "ab\n"),
    ]
}

/// Every name that the Rust lists, as an attribute of a tag and of a namespaced call; every void element.
fn names() -> Vec<Mark> {
    let mut attributes = listed_in("normalize_dom_attr_name");
    attributes.retain(|name| *name != "-{}");
    attributes.extend(listed_in("is_boolean_attr"));
    let attributes: Vec<Vec<u8>> = attributes.iter().map(|name| attribute_string(name, "v")).collect();
    let void: Vec<Vec<u8>> = listed_in("is_void_element").iter().map(|name| element(name, &[text("x")])).collect();
    let boolean: Vec<Vec<u8>> =
        listed_in("is_boolean_attr").iter().map(|name| attribute_with(name, braces(code("f")))).collect();
    vec![
        mark("all-names-on-a-tag", page_of(element("p", &attributes)), vec![], 0),
        mark("all-names-on-a-call", page_of(element("p:q", &attributes)), vec![], 0),
        mark("all-void", page_of(fragment(&void)), vec![], 0),
        mark("all-boolean", page_of(element("p", &boolean)), vec![], 0),
    ]
}

/// Every tag of the grammar in one page.
fn everything() -> Vec<Mark> {
    let values = [
        string("s"),
        number(1),
        boolean(true),
        null(),
        literal("1n"),
        minus(2),
        decimal(1250, 2),
        minus_decimal(5, 2),
        array(&[array_spread(null()), hole(), element("i", &[])]),
        other(&[source("f("), fragment(&[text("t")]), source(")")]),
        element("b", &[]),
        fragment(&[element("u", &[])]),
    ];
    // Each with a name of its own (02, A4).
    let named = |(i, value): (usize, &Vec<u8>)| attribute_with(&format!("a{i}"), braces(value.clone()));
    let attributes: Vec<Vec<u8>> = values.iter().enumerate().map(named).collect();
    let children: Vec<Vec<u8>> = values.iter().map(|v| braces(v.clone())).collect();
    let parts = [attributes, children].concat();
    let spreads: Vec<Vec<u8>> = values.iter().map(|v| spread_child(v.clone())).collect();
    vec![
        mark("all-values-in-a-tag", page_of(element("p", &parts)), vec![], 0),
        mark("all-values-in-a-call", page_of(element("P", &parts)), vec![], 0),
        mark("all-values-in-a-member", page_of(element("p.q", &parts)), vec![], 0),
        mark("all-values-in-a-namespaced", page_of(element("p:q", &parts)), vec![], 0),
        mark("all-spread-children", page_of(element("p", &spreads)), vec![], 0),
        mark("spread-attribute", page_of(element("p", &[spread(element("i", &[]))])), vec![], 0),
        mark("dangerous", page_of(element("p", &[attribute("dangerouslySetInnerHTML")])), vec![], 0),
    ]
}
