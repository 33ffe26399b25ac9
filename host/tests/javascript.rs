//! The printed module means what the outputs mean: run by node, expressions of every kind in every place give what the
//! same expression in parentheses gives. Where there is no node, that is said; the texts are compared in any case.

mod common;
mod modules;

use common::say;
use jsx_precompile::javascript::Printer;
use jsx_precompile::out::{PageOut, Templates};
use jsx_precompile::page::*;
use jsx_precompile::{Options, transform};
use modules::quoted;
use oracle::generate::rng::Rng;
use oracle::make::{decimal, field, minus_decimal, row};
use std::path::Path;
use std::process::Command;

fn module(page: &Page) -> String {
    let bytes = page.to_bytes().expect("a page");
    transform(&bytes, &Options::new()).unwrap_or_else(|fault| panic!("{fault}")).javascript()
}

/// `const r = TAG;`
fn module_of(tag: impl Into<Piece>) -> String {
    module(&Page::new([Item::statement(["const r = ".into(), tag.into(), ";".into()])]))
}

/// The last line of `const r = TAG;` behind `const r = `.
fn call_of(tag: impl Into<Piece>) -> String {
    let module = module_of(tag);
    let start = module.rfind("const r = ").expect("it is the last item") + "const r = ".len();
    module[start..].trim_end().to_string()
}

fn code(text: &str) -> Expression {
    Expression::source(text)
}

#[test]
fn parentheses() {
    let p = || Element::new("p");
    let component = || Element::new("Foo");
    let disabled = |text: &str| call_of(p().attribute("disabled", code(text)));
    assert_eq!(disabled("sold ? true : held"), r#"_jsxTemplate($$_tpl_1, (sold ? true : held) ? "disabled" : "");"#);
    assert_eq!(disabled("sold.has(\"A1\")"), r#"_jsxTemplate($$_tpl_1, sold.has("A1") ? "disabled" : "");"#);
    assert_eq!(disabled("yield"), r#"_jsxTemplate($$_tpl_1, (yield) ? "disabled" : "");"#);
    let child = |text: &str| call_of(p().child(code(text)));
    assert_eq!(child("a, b"), "_jsxTemplate($$_tpl_1, _jsxEscape((a, b)));");
    assert_eq!(child("f((a, b) => a)"), "_jsxTemplate($$_tpl_1, _jsxEscape(f((a, b) => a)));");
    assert_eq!(child("a // b"), "_jsxTemplate($$_tpl_1, _jsxEscape((a // b\n)));");
    assert_eq!(call_of(component().spread(code("a, b"))), "_jsx(Foo, { ...(a, b) });");
    assert_eq!(call_of(component().attribute("key", code("a, b"))), "_jsx(Foo, null, (a, b));");
}

#[test]
fn holes_names_and_numbers() {
    let array = |items: Vec<ArrayItem>| call_of(Element::new("Foo").attribute("a", Expression::Array(items)));
    assert_eq!(array(vec![]), "_jsx(Foo, { a: [] });");
    assert_eq!(array(vec![ArrayItem::Hole]), "_jsx(Foo, { a: [,] });");
    assert_eq!(array(vec![Expression::Null.into(), ArrayItem::Hole]), "_jsx(Foo, { a: [null, ,] });");
    assert_eq!(array(vec![ArrayItem::Hole, Expression::Null.into()]), "_jsx(Foo, { a: [, null] });");
    let spread = ArrayItem::Spread(code("a, b"));
    assert_eq!(array(vec![spread, Expression::Minus(0).into()]), "_jsx(Foo, { a: [...(a, b), -0] });");

    let prop = |name: &str| call_of(Element::new("Foo").attribute(name, Expression::Number(7)));
    assert_eq!(prop("a"), "_jsx(Foo, { a: 7 });");
    assert_eq!(prop("class"), "_jsx(Foo, { class: 7 });");
    assert_eq!(prop("data-a"), "_jsx(Foo, { \"data-a\": 7 });");
    assert_eq!(prop("xml:lang"), "_jsx(Foo, { \"xml:lang\": 7 });");
    assert_eq!(prop("__proto__"), "_jsx(Foo, { [\"__proto__\"]: 7 });");
    assert_eq!(call_of(Element::new("Foo.Bar")), "_jsx(Foo.Bar, null);");
    assert_eq!(call_of(Element::new("Foo-bar")), "_jsx(\"Foo-bar\", null);");
    assert_eq!(call_of(Element::new("a:b").spread(code("c"))), "_jsx(\"a:b\", { ...c });");
}

#[test]
fn strings() {
    let text = "\" \\ ' ` \n \r \t \0 \u{1f} \u{7f} \u{2028} \u{2029} é \u{1f3ad} </script>";
    let printed = r#""\" \\ ' ` \n \r \x09 \x00 \x1f \x7f \u2028 \u2029 é 🎭 </script>""#;
    let tag = Element::new("Foo").attribute("a", Expression::String(text.into()));
    assert_eq!(call_of(tag), format!("_jsx(Foo, {{ a: {printed} }});"));
    let Some(answer) = node(&format!("console.log({printed} === {});", quoted(text))) else { return };
    assert_eq!(answer, "true\n");
}

/// Words of the source that a call would run into, and what `new` would make.
#[test]
fn beside_source() {
    let last = |pieces: Vec<Piece>| {
        let module = module(&Page::new([Item::statement(pieces)]));
        module.lines().last().expect("a line").to_string()
    };
    let i = || Piece::from(Element::new("i"));
    assert_eq!(last(vec!["return".into(), i(), ";".into()]), "return _jsxTemplate($$_tpl_1);");
    assert_eq!(last(vec!["a = b in".into(), i()]), "a = b in _jsxTemplate($$_tpl_1)");
    assert_eq!(last(vec!["new ".into(), i(), "()".into()]), "new (_jsxTemplate($$_tpl_1))()");
    assert_eq!(last(vec!["ne".into(), "w /**/ ".into(), i()]), "new /**/ (_jsxTemplate($$_tpl_1))");
    let empty = || Piece::from(Fragment::new());
    assert_eq!(last(vec!["a = ".into(), empty(), ";".into()]), "a = null;");
    assert_eq!(last(vec!["a = ".into(), empty(), "in b;".into()]), "a = (null)in b;");
    assert_eq!(last(vec!["return".into(), empty()]), "return null");
}

#[test]
fn directives_and_own_names() {
    let i = || Piece::from(Element::new("i"));
    let page = Page::new([
        Item::statement(["\"use client\";".into()]),
        Item::statement(["'a'".into()]),
        Item::statement([i()]),
        Item::statement(["\"b\"".into()]),
    ]);
    let expected = r#""use client";
'a'
import { jsxTemplate as _jsxTemplate } from "react/jsx-runtime";
const $$_tpl_1 = ["<i></i>"];
_jsxTemplate($$_tpl_1)
"b"
"#;
    assert_eq!(module(&page), expected);
    // the source has these names for itself
    let page = Page::new([Item::statement(["let _jsxTemplate, __jsxTemplate, $$_tpl_7;".into(), i()])]);
    let expected = r#"import { jsxTemplate as ___jsxTemplate } from "react/jsx-runtime";
const $$$_tpl_1 = ["<i></i>"];
let _jsxTemplate, __jsxTemplate, $$_tpl_7;___jsxTemplate($$$_tpl_1)
"#;
    assert_eq!(module(&page), expected);
}

/// No recursion: a page out far deeper than any that is written.
#[test]
fn deep_outputs() {
    let deep = |around: fn(&[u8]) -> Vec<u8>, bytes: usize| {
        let inside = (0..60_000 / bytes).fold(row(0x79, &[field(0x20, b"a")]), |inner, _| around(&inner));
        let page = field(0x12, &inside);
        Printer::new(Templates::read(&[]).expect("none"), PageOut::read(&page).expect("a page out")).module()
    };
    assert!(deep(|inner| field(0x92, inner), 3).starts_with("_jsxEscape(_jsxEscape("));
    assert!(deep(|inner| field(0x76, inner), 3).starts_with("([[[["));
    assert!(deep(|inner| field(0x79, inner), 3).contains("((((a))))"));
    assert!(deep(|inner| row(0x93, &[inner.to_vec(), field(0x81, b"")]), 6).starts_with("(((("));
}

/// Of the examples only choices.page needs parentheses that the card has not.
#[test]
fn examples() {
    let folder = Path::new(env!("CARGO_MANIFEST_DIR")).with_file_name("examples");
    let mut modules = vec![];
    for file in std::fs::read_dir(folder).expect("examples") {
        let file = file.expect("it is there").path();
        if file.extension().is_none_or(|end| end != "page") {
            continue;
        }
        let Ok(forms) = transform(&std::fs::read(&file).expect("a page"), &Options::new()) else { continue };
        let card = std::fs::read_to_string(file.with_extension("card")).expect("a card");
        let name = file.file_stem().expect("a name").to_string_lossy().into_owned();
        match &*name {
            "choices" => assert_eq!(forms.javascript(), card.replace("chosen === \"B2\"", "(chosen === \"B2\")")),
            _ => assert_eq!(forms.javascript(), card, "{name}"),
        }
        modules.push((name, forms.javascript()));
    }
    assert!(modules.len() > 20);
    let Some(answer) = node(&parsed(&modules)) else { return };
    assert_eq!(answer, format!("{} parsed\n", modules.len()));
    say(&format!("javascript: {} modules of examples/ parsed by node", modules.len()));
}

/// What node prints of a script; none where there is no node.
fn node(script: &str) -> Option<String> {
    if Command::new("node").arg("--version").output().is_err() {
        say("skipped: no node here");
        return None;
    }
    let file = format!("javascript-{:?}.mjs", std::thread::current().id()).replace(['(', ')'], "");
    let file = Path::new(env!("CARGO_TARGET_TMPDIR")).join(file);
    std::fs::write(&file, script).expect("it is written");
    let output = Command::new("node")
        .args(["--experimental-vm-modules", "--no-warnings"])
        .arg(&file)
        .output()
        .expect("node runs");
    assert!(output.status.success(), "{}", String::from_utf8_lossy(&output.stderr));
    Some(String::from_utf8(output.stdout).expect("text"))
}

fn parsed(modules: &[(String, String)]) -> String {
    let sources: Vec<_> = modules.iter().map(|(_, source)| quoted(source)).collect();
    format!(
        "import vm from 'node:vm';\nlet count = 0;\nfor (const source of [{}]) {{ new vm.SourceTextModule(source); count++; }}\nconsole.log(`${{count}} parsed`);",
        sources.join(",\n")
    )
}

/// Expressions that differ in what they may stand beside.
const EXPRESSIONS: [&str; 47] = [
    "a",
    "a.b",
    "f(a)",
    "f(a, b)[0]",
    "a, b",
    "(a, b)",
    "f(), a",
    "a ? b : c",
    "a ?? b",
    "a || b && c",
    "x = b",
    "x += 2",
    "x++",
    "-a",
    "- -a",
    "!a",
    "typeof a",
    "typeof(a)",
    "void 0",
    "a + b",
    "a - -b",
    "2 ** 3",
    "(-2) ** 2",
    "a in { 1: 2 }",
    "() => a",
    "x => ({ x })",
    "(x, y) => x",
    "async () => a",
    "function (x, y) { return x; }",
    "class { a = 1 }",
    "{ a, b: 2 }",
    "{ ...{ a }, b }",
    "[a, , b]",
    "[, ]",
    "/a,b/g",
    "a / b / c",
    "`a${b}`",
    "`,`",
    "'a, \\' b'",
    "\"https://a\" + b",
    "a // , b",
    "a /* ( */",
    "a\n  + b",
    "new Map([[a, b]])",
    "new Array(a).length",
    "yield a",
    "await a",
];

/// A place for an expression: what is transformed, and what must come out, with `E` for the expression in parentheses.
struct Place {
    name: &'static str,
    make: fn(Expression) -> Vec<Piece>,
    expected: &'static str,
}

fn is(tag: impl Into<Piece>) -> Vec<Piece> {
    vec!["r = ".into(), tag.into(), ";".into()]
}

const PLACES: [Place; 14] = [
    Place { name: "child", make: |e| is(Element::new("p").child(e)), expected: "tpl(['<p>', '</p>'], esc(E))" },
    Place {
        name: "two children",
        make: |e| is(Element::new("p").child(e.clone()).child(e)),
        expected: "tpl(['<p>', '', '</p>'], esc(E), esc(E))",
    },
    Place {
        name: "attribute",
        make: |e| is(Element::new("p").attribute("title", e)),
        expected: "tpl(['<p ', '></p>'], attr('title', E))",
    },
    Place {
        name: "choice",
        make: |e| is(Element::new("p").attribute("disabled", e)),
        expected: "tpl(['<p ', '></p>'], E ? 'disabled' : '')",
    },
    Place {
        name: "property",
        make: |e| is(Element::new("Foo").attribute("a", e).attribute("b-c", Expression::Number(7))),
        expected: "jsx(Foo, { a: E, 'b-c': 7 })",
    },
    Place { name: "spread", make: |e| is(Element::new("Foo").spread(e)), expected: "jsx(Foo, { ...E })" },
    Place {
        name: "prototype",
        make: |e| is(Element::new("Foo").attribute("__proto__", e)),
        expected: "jsx(Foo, { ['__proto__']: E })",
    },
    Place { name: "key", make: |e| is(Element::new("Foo").attribute("key", e)), expected: "jsx(Foo, null, E)" },
    Place { name: "only child", make: |e| is(Element::new("Foo").child(e)), expected: "jsx(Foo, { children: E })" },
    Place {
        name: "children",
        make: |e| is(Element::new("Foo").child(e.clone()).child(e)),
        expected: "jsx(Foo, { children: [E, E] })",
    },
    Place {
        name: "array",
        make: |e| {
            is(Element::new("Foo")
                .attribute("a", Expression::Array(vec![ArrayItem::Hole, e.clone().into(), e.into(), ArrayItem::Hole])))
        },
        expected: "jsx(Foo, { a: [, E, E, ,] })",
    },
    Place {
        name: "array spread",
        make: |e| {
            is(Element::new("Foo").attribute(
                "a",
                Expression::Array(vec![ArrayItem::Spread(Expression::Array(vec![e.into()])), Expression::Null.into()]),
            ))
        },
        expected: "jsx(Foo, { a: [...[E], null] })",
    },
    Place {
        name: "within source",
        make: |e| {
            vec![
                "r = [0, 1].map((n) =>".into(),
                Element::new("p")
                    .child(Expression::Other(vec![
                        "n, ".into(),
                        Element::new("Foo").attribute("a", Expression::Number(1)).into(),
                    ]))
                    .into(),
                ").concat(".into(),
                Element::new("Foo").spread(Expression::Array(vec![e.into()])).into(),
                ");".into(),
            ]
        },
        expected: "[0, 1].map((n) => tpl(['<p>', '</p>'], esc((n, jsx(Foo, { a: 1 }))))).concat(jsx(Foo, { ...[E] }))",
    },
    Place {
        name: "operand",
        make: |e| {
            vec![
                "r = typeof".into(),
                Element::new("Foo").attribute("a", e).into(),
                "in { object: 1 } ? new".into(),
                Element::new("Make").into(),
                "(2) : 0;".into(),
            ]
        },
        expected: "(jsx(Foo, { a: E }), new (jsx(Make, null))(2))",
    },
];

/// Both as bodies of functions, the import taken away and the helpers given by the script.
#[test]
fn meanings() {
    let mut cases = vec![];
    for expression in EXPRESSIONS {
        for Place { name, make, expected } in PLACES {
            let module = module(&Page::new([Item::statement(make(code(expression)))]));
            let (import, body) = module.split_once('\n').expect("an import");
            assert!(import.starts_with("import {"), "{module}");
            let expected = format!("r = {};", expected.replace('E', &format!("({expression}\n)")));
            cases.push(format!(
                "[{}, {}, {}]",
                quoted(&format!("{name}: {expression}")),
                quoted(body),
                quoted(&expected)
            ));
        }
    }
    let script = format!("{RUNTIME}\nconst cases = [\n{}\n];\n{COMPARE}", cases.join(",\n"));
    let Some(answer) = node(&script) else { return };
    assert_eq!(answer, format!("{} alike\n", cases.len()));
    let (expressions, places) = (EXPRESSIONS.len(), PLACES.len());
    say(&format!("javascript: {expressions} expressions in {places} places, {}", answer.trim_end()));
}

const RUNTIME: &str = r#"
import assert from "node:assert";
import util from "node:util";
const tpl = (...all) => ["template", ...all], attr = (...all) => ["attr", ...all], esc = (...all) => ["escape", ...all];
// The two printers write a function's inside in two ways.
const text = Function.prototype.toString;
Function.prototype.toString = function () { return text.call(this).startsWith("class") ? text.call(this) : "function"; };
function Foo() {}
Foo.Bar = function () {};
function Make(n) { this.made = n; }
const jsx = (name, ...all) => name === Make ? Make : ["jsx", name, ...all];
const Generator = Object.getPrototypeOf(async function* () {}).constructor;
async function run(body) {
    const names = ["_jsxTemplate", "_jsxAttr", "_jsxEscape", "_jsx", "tpl", "attr", "esc", "jsx", "Foo", "Make"];
    const make = new Generator(...names, "'use strict'; let r, x = 1; const a = 1, b = 2, c = 3, f = (...all) => all;\n" + body + "\nreturn r;");
    const steps = make(tpl, attr, esc, jsx, tpl, attr, esc, jsx, Foo, Make);
    let step = await steps.next();
    while (!step.done) step = await steps.next("sent " + step.value);
    return shown(step.value);
}
const shown = (value) => inspected(value) + functions(value);
const inspected = (value) => util.inspect(value, { depth: 50, customInspect: false, maxArrayLength: null });
// Functions are alike where what they give is, classes where their texts are.
const functions = (value) => {
    if (Array.isArray(value) || value && Object.getPrototypeOf(value) === Object.prototype)
        return Reflect.ownKeys(value).map((key) => functions(value[key])).join("");
    if (typeof value !== "function") return "";
    if (String(value).startsWith("class")) return String(value);
    try { return "\ngives " + shown(value(3, 4)); } catch (error) { return "\nfails with " + error; }
};
"#;

// What fails as it runs must fail alike (nothing is looked for in a number); what is expected is always JavaScript.
const COMPARE: &str = r#"
let count = 0;
const outcome = async (body) => { try { return await run(body); } catch (error) { return error; } };
for (const [name, body, expected] of cases) {
    const [ours, theirs] = [await outcome(body), await outcome(expected)];
    assert(!(theirs instanceof SyntaxError), `${name}: ${theirs}\n${expected}`);
    assert.strictEqual(String(ours), String(theirs), `${name}: ${ours}, and not ${theirs}\n${body}\n${expected}`);
    count++;
}
console.log(`${count} alike`);
"#;

/// Pages of all kinds of expressions within each other, against a printer that puts everything in parentheses.
#[test]
fn within_each_other() {
    const SEEDS: u64 = 4_000;
    let mut cases = vec![];
    for seed in 0..SEEDS {
        let page = modules::page(&mut Rng::new(seed));
        let Ok(bytes) = page.to_bytes() else { continue };
        let Ok(forms) = transform(&bytes, &Options::new()) else { continue };
        let module = forms.javascript();
        let body = match module.split_once('\n') {
            Some((import, body)) if import.starts_with("import {") => body,
            _ => &module,
        };
        let expected = modules::in_parentheses(&forms);
        cases.push(format!("[{}, {}, {}]", quoted(&format!("seed {seed}")), quoted(body), quoted(&expected)));
    }
    assert!(cases.len() > SEEDS as usize / 2, "{} of {SEEDS} are taken", cases.len());
    let script = format!("{RUNTIME}\nconst cases = [\n{}\n];\n{COMPARE}", cases.join(",\n"));
    let Some(answer) = node(&script) else { return };
    assert_eq!(answer, format!("{} alike\n", cases.len()));
    say(&format!("javascript: {} pages of expressions within each other, {}", cases.len(), answer.trim_end()));
}

/// Values among source text that no page gives but a page out may have: as they would be in parentheses.
#[test]
fn pieces_of_a_page_out() {
    let number = |tag: u8, value: u64| field(tag, &value.to_be_bytes());
    let other = |text: &str| field(0x79, &field(0x20, text.as_bytes()));
    let values: Vec<(Vec<u8>, &str)> = vec![
        (field(0x70, b"use strict"), "\"use strict\""),
        (number(0x71, 5), "5"),
        (field(0x72, &[1]), "true"),
        (field(0x73, &[]), "null"),
        (field(0x74, b"/a/"), "/a/"),
        (field(0x74, b"5n"), "5n"),
        (number(0x75, 5), "-5"),
        (decimal(50, 1), "5"),
        (decimal(1250, 2), "12.5"),
        (minus_decimal(0, 2), "-0"),
        (field(0x76, &[]), "[]"),
        (other("a"), "a"),
        (other("a, b"), "a, b"),
        (other("{ a: 1 }"), "{ a: 1 }"),
        (other("a ? b : c"), "a ? b : c"),
        (other("function () {}"), "function () {}"),
        (other("a // c"), "a // c"),
        (row(0x93, &[other("a ? 0 : c"), field(0x81, b"n")]), "(a ? 0 : c) ? \"n\" : \"\""),
        (
            row(0x93, &[row(0x93, &[other("a"), field(0x81, b"")]), field(0x81, b"n")]),
            "(a ? \"\" : \"\") ? \"n\" : \"\"",
        ),
    ];
    let sides = [
        ("r = ", ";"),
        ("r = [", "]"),
        ("r = typeof", ";"),
        ("r = String(", ".constructor.name)"),
        ("r = 1 +", ";"),
        ("r = [1] /", "/ 2"),
        ("r = (() => ", ")()"),
        ("r = (function () { return", "; })()"),
        ("r = (({ a }) => { ", "; return 1; })({})"),
        ("r = `${", "}`"),
        ("r = ", "in { 5: 1 }"),
        ("r = ", "\n? 1 : 2"),
        ("r = [", " && 1]"),
    ];
    let mut cases = vec![];
    for (bytes, text) in &values {
        for (before, behind) in sides {
            let page = row(0x12, &[field(0x20, before.as_bytes()), bytes.clone(), field(0x20, behind.as_bytes())]);
            let page = PageOut::read(&page).expect("a page out");
            let ours = Printer::new(Templates::read(&[]).expect("none"), page).module();
            let expected = format!("{before} ({text}\n) {behind}");
            cases.push(format!(
                "[{}, {}, {}]",
                quoted(&format!("{before}{text}{behind}")),
                quoted(&ours),
                quoted(&expected)
            ));
        }
    }
    let script = format!("{RUNTIME}\nconst cases = [\n{}\n];\n{COMPARE}", cases.join(",\n"));
    let Some(answer) = node(&script) else { return };
    assert_eq!(answer, format!("{} alike\n", cases.len()));
    say(&format!("javascript: {} values among source text, {}", cases.len(), answer.trim_end()));
}
