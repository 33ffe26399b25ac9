//! Tag texts to measure on: components as the web writes them, the tags of the examples, the densest of these alone, tiny texts, and the worst that
//! the limit allows.

use jsx_precompile::limits::MAX_TAG_TEXT;

pub struct Text {
    pub name: String,
    pub text: String,
}

const PERSON: &str = r#"  <div className="flex items-center gap-4 px-6 py-4">
    <img className="h-10 w-10 rounded-full" src={user.avatar} alt="" />
    <div className="min-w-0 flex-1">
      <p className="truncate text-sm font-medium text-gray-900">{user.name}</p>
      <p className="text-sm text-gray-500">Joined {formatDate(user.joined)}</p>
    </div>
    <button type="button" className="rounded-md px-3 py-2 font-semibold" onClick={() => onFollow(user.id)}>
      Follow
    </button>
  </div>
"#;

const SHOW: &str = r#"  <article class="show" data-id={show.id}>
    <h2>{show.title}</h2>
    <p class="when">Doors open at {show.doors}, the play begins at {show.start}.</p>
    <p>
      The company returns to the main hall with a new production. Latecomers are seated
      in the first interval; please ask at the desk.
    </p>
    <a class="book" href={bookingLink(show)} aria-label="Book seats">Book from &quot;{show.price}&quot;</a>
  </article>
"#;

/// Every kind of name, value, child and expression, close together.
const DENSE: &str = include_str!("../../../examples/programme.tag");

/// The modules of the examples that hold a tag of 150 bytes and more which is read.
const MODULES: [&str; 6] = [
    include_str!("../../../examples/hall.jsx"),
    include_str!("../../../examples/choices.jsx"),
    include_str!("../../../examples/booleans.jsx"),
    include_str!("../../../examples/paper.jsx"),
    include_str!("../../../examples/plan.jsx"),
    include_str!("../../../examples/prices.jsx"),
];

/// Texts that are too short for a tag.
const SHORT: [&str; 8] = ["<", "a", "<a", "é", "<a>", "abc", "</>", "€"];

pub fn all() -> Vec<Text> {
    let mut texts = vec![];
    let examples: Vec<&str> = MODULES.iter().map(|module| outermost(module)).chain([DENSE]).collect();
    for (size, most) in [("500 bytes", 520), ("1 KB", 1_024), ("8 KB", 8_192), ("32 KB", MAX_TAG_TEXT)] {
        texts.push(named(&format!("components, {size}"), within(&[PERSON, SHOW], most)));
        texts.push(named(&format!("examples, {size}"), within(&examples, most)));
        texts.push(named(&format!("dense, {size}"), within(&[DENSE], most)));
    }
    for text in ["<a/>", "<></>", "<p>a</p>", "<p>Hi {n}</p>", r#"<p class="t">Hi {name}, ok</p>"#] {
        texts.push(named(text, text.into()));
    }
    texts.extend(SHORT.map(|text| named(&format!("too short: {text}"), text.into())));
    texts.extend(worst());
    texts
}

fn named(name: &str, text: String) -> Text {
    assert!(text.len() <= MAX_TAG_TEXT, "{name}");
    Text { name: name.into(), text }
}

/// The tag of a module's first statement that has one.
fn outermost(module: &str) -> &str {
    let statement = module.split(";\n").find(|statement| statement.contains('<')).expect("a tag");
    let (start, end) = (statement.find('<'), statement.rfind('>'));
    &statement[start.expect("its start")..=end.expect("its end")]
}

/// The parts by turns, in one element, as long as they fit.
fn within(parts: &[&str], most: usize) -> String {
    let mut text = "<section>\n".to_string();
    let end = "</section>";
    for part in parts.iter().cycle() {
        if text.len() + part.len() + end.len() > most {
            break;
        }
        text += part;
    }
    text + end
}

/// One thing as often as a text holds it.
fn worst() -> Vec<Text> {
    let attributes = ["b ", "b:c ", "b=\"\" ", "b={1} ", "b=<c/>", "b={<c/>}", "{...b}"];
    let children =
        ["<b/>", "<></>", "<a.a/>", "{1}", "{x}", "{}", "{-1}", "{1.5}", "{null}", "{\"\"}", "a{}", "&lt;", "a", " "];
    let nests =
        [("<>", "</>"), ("<a>", "</a>"), ("<a b=", "/>"), ("<a b={", "}/>"), ("<a{...", "}/>"), ("<>{", "}</>")];
    let unclosed = ["<", "<a>", "{", "{\"{", "&", "<a b=\"", "{'"];
    let in_tag = attributes.map(|part| named(&format!("attributes {part}"), repeated("<a ", part, "/>")));
    let in_children = children.map(|part| named(&format!("children {part}"), repeated("<a>", part, "</a>")));
    let nested = nests.map(|(before, after)| {
        let times = (MAX_TAG_TEXT - 4) / (before.len() + after.len());
        named(&format!("nested {before}"), before.repeat(times) + "<a/>" + &after.repeat(times))
    });
    let open = unclosed.map(|part| named(&format!("unclosed {part}"), repeated("<a>", part, "")));
    in_tag.into_iter().chain(in_children).chain(nested).chain(open).collect()
}

fn repeated(before: &str, part: &str, after: &str) -> String {
    let times = (MAX_TAG_TEXT - before.len() - after.len()) / part.len();
    before.to_string() + &part.repeat(times) + after
}
