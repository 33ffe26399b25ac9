//! Tag texts with a name and the answer that A3 fixes by hand: each sentence of it, each reading that was settled, each
//! limit and one beyond it.

use super::{MOST_TEXT, TagRefusal};
use crate::answer::{MOST_NAME, MOST_NUMBER};
use crate::make::*;

#[derive(Clone, Debug)]
pub struct TagMark {
    pub name: String,
    pub text: Vec<u8>,
    /// The field or, where the text is refused, its number.
    pub answer: Result<Vec<u8>, TagRefusal>,
}

pub fn all() -> Vec<TagMark> {
    [tags(), names(), texts(), expressions(), refused(), closing(), order(), limits()].concat()
}

fn taken(name: &str, text: &str, field: Vec<u8>) -> TagMark {
    TagMark { name: name.to_string(), text: text.into(), answer: Ok(field) }
}

fn refused_as(refusal: TagRefusal, name: &str, text: impl Into<Vec<u8>>) -> TagMark {
    TagMark { name: name.to_string(), text: text.into(), answer: Err(refusal) }
}

fn tags() -> Vec<TagMark> {
    vec![
        taken(
            "worked",
            "<p class=\"t\">Hi {n}</p>",
            element("p", &[attribute_string("class", "t"), text("Hi "), braces(code("n"))]),
        ),
        taken("alone", "<br/>", element("br", &[])),
        taken("around", "<br></br>", element("br", &[])),
        taken("fragment", "<></>", fragment(&[])),
        taken("fragments", "<><></></>", fragment(&[fragment(&[])])),
        taken(
            "space-everywhere",
            "<\ta\r\n:\nb c\r=\t'd'\n{ ... e } / >",
            element("a:b", &[attribute_string("c", "d"), spread(code("e"))]),
        ),
        taken("space-in-closing", "< a >< / a >", element("a", &[])),
        taken("space-in-fragment", "< ><\n/\t>", fragment(&[])),
        taken(
            "no-space-needed",
            "<a b=\"1\"c{...d}e/>",
            element("a", &[attribute_string("b", "1"), attribute("c"), spread(code("d")), attribute("e")]),
        ),
        taken(
            "tags-as-values",
            "<a b=<i/>c=<></>d/>",
            element("a", &[attribute_with("b", element("i", &[])), attribute_with("c", fragment(&[])), attribute("d")]),
        ),
        taken("one-name-twice", "<a b b/>", element("a", &[attribute("b"), attribute("b")])),
    ]
}

fn names() -> Vec<TagMark> {
    let long = "n".repeat(MOST_NAME);
    vec![
        taken("hyphen", "<a-b c-d/>", element("a-b", &[attribute("c-d")])),
        taken("hyphen-last", "<a- _-=\"\"/>", element("a-", &[attribute_string("_-", "")])),
        taken("member", "<a . b.c/>", element("a.b.c", &[])),
        taken("namespaced-with-hyphens", "<a-:b- c-:d-/>", element("a-:b-", &[attribute("c-:d-")])),
        taken("other-letters", "<$ _ _$9/>", element("$", &[attribute("_"), attribute("_$9")])),
        taken("words-are-names", "<true null=\"\"/>", element("true", &[attribute_string("null", "")])),
        taken("name-128", &format!("<{long}/>"), element(&long, &[])),
        taken("eight-members", "<a.b.c.d.e.f.g.h/>", element("a.b.c.d.e.f.g.h", &[])),
    ]
}

fn texts() -> Vec<TagMark> {
    let around = |text: &str| format!("<>{text}</>");
    let all = "&amp;&lt;&gt;&quot;&#39;";
    vec![
        taken("text-decoded", &around(all), fragment(&[text("&<>\"'")])),
        taken("decoded-once", &around("&amp;lt;"), fragment(&[text("&lt;")])),
        taken("text-quotes", &around("\"'`\\/="), fragment(&[text("\"'`\\/=")])),
        taken("text-controls", &around("\0\u{7f}\u{b}é\u{1f600}"), fragment(&[text("\0\u{7f}\u{b}é\u{1f600}")])),
        taken("text-line-ends", &around("\r\n \r"), fragment(&[text("\r\n \r")])),
        taken("space-between-children", "<> <i/>\n</>", fragment(&[text(" "), element("i", &[]), text("\n")])),
        taken("string-decoded", &format!("<a b='{all}'/>"), element("a", &[attribute_string("b", "&<>\"'")])),
        taken("string-over-lines", "<a b=\"<{}>\r\n'\\\"/>", element("a", &[attribute_string("b", "<{}>\r\n'\\")])),
    ]
}

fn expressions() -> Vec<TagMark> {
    let each: Vec<(&str, &str, Vec<u8>)> = vec![
        ("zero", "0", number(0)),
        ("whole", " 12\n", number(12)),
        ("minus", "-12", minus(12)),
        ("minus-space", "- \t\r\n7", minus(7)),
        ("minus-zero", "-0", minus(0)),
        ("decimal", "12.50", decimal(1250, 2)),
        ("decimal-zeros", "0.00", decimal(0, 2)),
        ("decimal-minus", "- 0.05", minus_decimal(5, 2)),
        ("needless-zero", "01", code("01")),
        ("minus-needless-zero", "-00", code("-00")),
        ("minus-alone", "-", code("-")),
        ("two-minuses", "- -5px", code("- -5px")),
        ("plus", "+5px", code("+5px")),
        ("number-then-signs", "1 + 2", code("1 + 2")),
        ("number-then-quotes", "1 + \"2\"", code("1 + \"2\"")),
        ("number-then-letter-beyond-ascii", "1 + é", code("1 + é")),
        ("string", "\"a'b\"", string("a'b")),
        ("string-single", "'a\"b'", string("a\"b")),
        ("string-empty", "\"\"", string("")),
        ("string-barred-signs", "\"`/<>{}[&\"", string("`/<>{}[&")),
        ("string-not-decoded", "'&lt;'", string("&lt;")),
        ("two-strings", "\"a\"\"b\"", code("\"a\"\"b\"")),
        ("true", "true", boolean(true)),
        ("false", " false ", boolean(false)),
        ("null", "null", null()),
        ("name", "nulls", code("nulls")),
        ("tag", " <i/> ", element("i", &[])),
        ("fragment", "<></>", fragment(&[])),
        ("inner-spaces", " a  b\n", code("a  b")),
        ("braces-in-braces", "{a}", code("{a}")),
        ("braces-in-quotes", "f('}', \"{\")", code("f('}', \"{\")")),
        ("other-signs", "a > b && c[0]", code("a > b && c[0]")),
        ("other-space", "\u{a0}", code("\u{a0}")),
        ("entity", "&lt;", code("&lt;")),
    ];
    let places = |(name, inside, field): (&str, &str, Vec<u8>)| {
        let tag = |parts: Vec<u8>| element("a", &[parts]);
        [
            ("value", format!("<a b={{{inside}}}/>"), tag(attribute_with("b", braces(field.clone())))),
            ("spread", format!("<a{{...{inside}}}/>"), tag(spread(field.clone()))),
            ("child", format!("<a>{{{inside}}}</a>"), tag(braces(field.clone()))),
            ("spread-child", format!("<a>{{ ... {inside}}}</a>"), tag(spread_child(field))),
        ]
        .map(|(place, text, field)| taken(&format!("{place}-{name}"), &text, field))
    };
    let mut marks: Vec<TagMark> = each.into_iter().flat_map(places).collect();
    marks.push(taken("child-nothing", "<a>{}</a>", element("a", &[empty_braces()])));
    marks.push(taken("child-spaces", "<a>{ \t\r\n}</a>", element("a", &[empty_braces()])));
    marks
}

/// 14, one text for each way; those in braces in each of the four places.
fn refused() -> Vec<TagMark> {
    let whole = [
        ("nothing", ""),
        ("no-tag", "a"),
        ("sign-alone", "<"),
        ("space-before", " <a/>"),
        ("space-behind", "<a/>\n"),
        ("mark-before", "\u{feff}<a/>"),
        ("two-tags", "<a/><b/>"),
        ("not-closed", "<a>"),
        ("not-opened", "</a>"),
        ("fragment-alone", "</>"),
        ("fragment-with-spread", "<{...b}></>"),
        ("self-closing-parted", "<a/ b>"),
        ("closing-with-attribute", "<a></a b>"),
        ("name-of-digits", "<1/>"),
        ("name-of-hyphen", "<-/>"),
        ("name-beyond-ascii", "<é/>"),
        ("name-then-beyond-ascii", "<aé/>"),
        ("other-space", "<a\u{b}/>"),
        ("form-feed", "<a\u{c}/>"),
        ("no-break-space", "<a\u{a0}/>"),
        ("member-hyphen", "<a.b-c/>"),
        ("member-attribute", "<a b.c/>"),
        ("member-open", "<a./>"),
        ("nine-members", "<a.b.c.d.e.f.g.h.i/>"),
        ("three-namespaces", "<a:b:c/>"),
        ("member-of-namespace", "<a:b.c/>"),
        ("namespace-of-member", "<a.b:c/>"),
        ("value-missing", "<a b=/>"),
        ("value-bare", "<a b=c/>"),
        ("value-number", "<a b=1/>"),
        ("value-entity", "<a b=&lt;/>"),
        ("string-open", "<a b=\"'/>"),
        ("string-other-entity", "<a b=\"&nbsp;\"/>"),
        ("string-ampersand", "<a b='&'/>"),
        ("value-empty-braces", "<a b={}/>"),
        ("value-spaces", "<a b={ }/>"),
        ("value-spread", "<a b={...c}/>"),
        ("braces-in-tag", "<a {b}/>"),
        ("empty-braces-in-tag", "<a {}/>"),
        ("text-greater", "<>></>"),
        ("text-brace", "<>}</>"),
        ("text-ampersand", "<>a & b</>"),
        ("text-other-entity", "<>&apos;</>"),
        ("text-entity-in-capitals", "<>&LT;</>"),
        ("text-entity-open", "<>&lt</>"),
        ("text-entity-by-number", "<>&#039;</>"),
        ("comment", "<>{/* a */}</>"),
        ("comment-in-tag", "<a /* b */ />"),
        ("points-parted", "<a {.. .b}/>"),
        ("two-points", "<a {..b}/>"),
    ];
    let inside = [
        ("points-alone", "..."),
        ("six-points", "......b"),
        ("array", "[b]"),
        ("array-behind-space", " [b]"),
        ("backquote", "b`c`"),
        ("backslash", "b\\c"),
        ("slash", "b/c"),
        ("less", "b<c"),
        ("tag-and-more", "<i/> + 1"),
        ("more-and-tag", "1 + <i/>"),
        ("slash-in-quotes", "f(\"b/c\")"),
        ("backquote-in-quotes", "f('`')"),
        ("less-in-quotes", "f('<')"),
        ("backslash-in-string", "\"\\\""),
        ("backslash-n-in-string", "'\\n'"),
        ("quote-open", "don't"),
        ("quote-over-lines", "\"b\nc\""),
        ("quote-over-returns", "'b\rc'"),
        ("brace-open", "{b"),
        ("brace-too-many", "b}"),
        ("number-with-letter", "1 + b"),
        ("number-with-unit", "-5px"),
        ("number-minus-space-letter", "- 5px"),
        ("number-with-exponent", "1e3"),
        ("number-hexadecimal", "0x10"),
        ("number-with-underscore", "1_6"),
        ("number-needless-zero", "01.5"),
        ("number-bare-point", "5."),
        ("number-point-first", ".5"),
        ("number-minus-point", "-.5"),
        ("number-two-points", "1.2.3"),
        ("number-letter-in-quotes", "1 + \"b\""),
        ("big-integer", "7n"),
    ];
    let no = |name: &str, text: String| refused_as(TagRefusal::NoReading, &format!("no-{name}"), text);
    let mut marks: Vec<TagMark> = whole.into_iter().map(|(name, text)| no(name, text.to_string())).collect();
    for (name, inside) in inside {
        marks.extend([
            no(&format!("value-{name}"), format!("<a b={{{inside}}}/>")),
            no(&format!("spread-{name}"), format!("<a {{...{inside}}}/>")),
            no(&format!("child-{name}"), format!("<a>{{{inside}}}</a>")),
            no(&format!("spread-child-{name}"), format!("<a>{{...{inside}}}</a>")),
        ]);
    }
    let long = "n".repeat(MOST_NAME + 1);
    marks.extend([
        no("name-129", format!("<{long}/>")),
        no("attribute-129", format!("<a {long}/>")),
        no("part-129", format!("<a.{long}/>")),
        no("closing-129", format!("<a></{long}>")),
        no("closing-nine", "<a></a.b.c.d.e.f.g.h.i>".to_string()),
        no("closing-hyphen", "<a></a.b-c>".to_string()),
    ]);
    marks
}

fn closing() -> Vec<TagMark> {
    let differs = |name: &str, text: &str| refused_as(TagRefusal::NamesDiffer, &format!("differ-{name}"), text);
    vec![
        taken("closed-with-space", "<a.b></a . b>", element("a.b", &[])),
        taken("closed-namespaced", "<a:b></ a\n:b\t>", element("a:b", &[])),
        differs("other-name", "<a></b>"),
        differs("case", "<a></A>"),
        differs("prefix", "<ab></a>"),
        differs("member-namespaced", "<a.b></a:b>"),
        differs("member-shorter", "<a.b></a>"),
        differs("member-longer", "<a.b></a.b.c>"),
        differs("element-by-fragment", "<a></>"),
        differs("fragment-by-element", "<></a>"),
        differs("crossed", "<a><b></a></b>"),
        differs("inner", "<a b=<i></j>>{<k></l>}</a>"),
        refused_as(TagRefusal::NoReading, "differ-and-no-reading", "<a><b></c></a"),
    ]
}

/// 7, then 8, then 11, each over the whole text; 14 and 15 before them.
fn order() -> Vec<TagMark> {
    let big = "{9007199254740992}";
    let deep = |inside: &str| format!("{}{inside}{}", "<>".repeat(47), "</>".repeat(47));
    let long = "{1}".repeat(4_682);
    vec![
        refused_as(TagRefusal::NoReading, "no-reading-before-number", format!("<>{big}&</>")),
        refused_as(TagRefusal::NamesDiffer, "names-before-number", format!("<>{big}</a>")),
        refused_as(TagRefusal::NamesDiffer, "names-before-depth", format!("<a>{}</b>", deep(""))),
        refused_as(TagRefusal::NumberTooLarge, "number-behind-depth", format!("<>{}{big}</>", deep(""))),
        refused_as(TagRefusal::NumberTooLarge, "number-in-depth", deep(big)),
        refused_as(TagRefusal::TooDeep, "depth-behind-long", format!("<>{long}{}</>", deep(""))),
        refused_as(TagRefusal::NumberTooLarge, "number-behind-long", format!("<>{long}{big}</>")),
        refused_as(TagRefusal::NotUtf8, "letters-before-no-reading", b"\xff".to_vec()),
        refused_as(TagRefusal::InputTooLong, "long-before-letters", vec![0xff; MOST_TEXT + 1]),
    ]
}

fn limits() -> Vec<TagMark> {
    use TagRefusal::*;
    let child = |inside: &str| format!("<>{{{inside}}}</>");
    let nines = |count: usize| "9".repeat(count);
    let places = |count: usize| format!("0.{}1", "0".repeat(count - 1));
    // The outermost lies at 3; of a name 4, of a member's parts 5.
    let fragments = |count: usize, inside: &str| format!("{}{inside}{}", "<>".repeat(count), "</>".repeat(count));
    let in_fragments = |count: usize, inside: Vec<u8>| (0..count).fold(inside, |inside, _| fragment(&[inside]));
    let texts = |bytes: usize| format!("<>{}</>", "t".repeat(bytes - 5));
    // `{1}` gives 14 bytes; a 60 has its bytes and 3.
    let body = |bytes: usize| {
        let count = (bytes - 4) / 14;
        let left = bytes - 14 * count - 3;
        (format!("<>{}{}</>", "{1}".repeat(count), "t".repeat(left)), count, left)
    };
    let full = {
        let (full, count, left) = body(65_535);
        let children = [vec![braces(number(1)); count], vec![text(&"t".repeat(left))]].concat();
        taken("body-65535", &full, fragment(&children))
    };
    let over = |name: &str, refusal: TagRefusal, text: String| refused_as(refusal, name, text);
    vec![
        taken("number-most", &child(&MOST_NUMBER.to_string()), fragment(&[braces(number(MOST_NUMBER))])),
        over("number-over", NumberTooLarge, child(&(MOST_NUMBER + 1).to_string())),
        over("number-minus-over", NumberTooLarge, child(&format!("- {}", MOST_NUMBER + 1))),
        over("number-far-over", NumberTooLarge, child(&nines(200))),
        over("number-two-to-64", NumberTooLarge, child("18446744073709551616")),
        over("number-two-to-64-and-7", NumberTooLarge, child("18446744073709551623")),
        taken("digits-most", &child("9999999999999.99"), fragment(&[braces(decimal(999_999_999_999_999, 2))])),
        over("digits-over", NumberTooLarge, child("10000000000000.00")),
        over("digits-far-over", NumberTooLarge, child(&format!("{}.5", nines(300)))),
        taken("places-15", &child(&places(15)), fragment(&[braces(decimal(1, 15))])),
        over("places-16", NumberTooLarge, child(&places(16))),
        over("places-zeros", NumberTooLarge, child("0.0000000000000000")),
        over("places-256-zeros", NumberTooLarge, child(&format!("0.{}", "0".repeat(256)))),
        taken("places-15-one", &child("0.100000000000000"), fragment(&[braces(decimal(100_000_000_000_000, 15))])),
        over("places-15-and-one", NumberTooLarge, child("1.000000000000000")),
        taken("depth-48", &fragments(46, ""), in_fragments(45, fragment(&[]))),
        over("depth-49", TooDeep, fragments(47, "")),
        taken("depth-48-name", &fragments(44, "<a/>"), in_fragments(44, element("a", &[]))),
        over("depth-49-name", TooDeep, fragments(45, "<a/>")),
        taken("depth-48-member", &fragments(43, "<a.b/>"), in_fragments(43, element("a.b", &[]))),
        over("depth-49-member", TooDeep, fragments(44, "<a.b/>")),
        taken("depth-48-attribute", &fragments(43, "<a b/>"), in_fragments(43, element("a", &[attribute("b")]))),
        over("depth-49-attribute", TooDeep, fragments(44, "<a b/>")),
        taken("depth-48-source", &fragments(43, "{b}"), in_fragments(43, braces(code("b")))),
        over("depth-49-source", TooDeep, fragments(44, "{b}")),
        over("deepest-fragments", NoReading, "<>".repeat(MOST_TEXT / 2)),
        over("deepest-closed", TooDeep, fragments(6_553, "")),
        taken("text-32768", &texts(MOST_TEXT), fragment(&[text(&"t".repeat(MOST_TEXT - 5))])),
        over("text-32769", InputTooLong, texts(MOST_TEXT + 1)),
        full,
        over("body-65536", OutputTooLong, body(65_536).0),
    ]
}
