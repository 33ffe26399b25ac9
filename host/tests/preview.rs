//! `jsx-precompile preview`: its page, and what a browser makes of it. Where there is no chromium that is said, and the
//! page's text is looked at alone. `PREVIEW_WRITE=1` takes the picture for docs/.

mod browser;
mod common;

use browser::{chromium, run};
use common::{jsx_precompile, say};
use jsx_precompile::out::{Call, Expression};
use jsx_precompile::{Forms, Options, transform};
use std::path::{Path, PathBuf};

fn root(name: &str) -> PathBuf {
    Path::new(env!("CARGO_MANIFEST_DIR")).with_file_name("").join(name)
}

fn preview(words: &[&str]) -> String {
    let output = jsx_precompile(&[&["preview"], words].concat(), b"");
    assert!(output.status.success() && output.stderr.is_empty(), "{output:?}");
    String::from_utf8(output.stdout).expect("text")
}

/// Looks about in the page as it is shown, and leaves what it saw as lines in it.
const REPORT: &str = r##"<script>
const lines = [];
const all = (selector) => [...document.querySelectorAll(selector)];
const styled = (selector) => [...new Set(all(selector).map((one) => getComputedStyle(one).backgroundColor))].join();
lines.push("templates " + all(".template").length);
for (const one of all(".template")) {
    lines.push(one.id + " " + [...one.querySelector("pre").children].map((part) => JSON.stringify([part.className, part.textContent])).join(" "));
    const call = document.querySelector(one.querySelector("h3 a").hash);
    lines.push(one.id + " called by " + JSON.stringify(call.parentElement.textContent.slice(0, 40)) + " in " + call.closest(".item").id);
}
lines.push("links without an end " + all("a").filter((one) => !document.querySelector(one.hash)).length + " of " + all("a").length);
lines.push("ids used twice " + (all("[id]").length - new Set(all("[id]").map((one) => one.id)).size));
lines.push("colours " + styled("#templates .attribute") + " | " + styled("#templates .child") + " | " + styled("#templates .static"));
lines.push("source " + JSON.stringify(all("#source pre").map((one) => one.textContent).join("\n")));
lines.push("module " + JSON.stringify(all("#module pre").map((one) => one.textContent).join("")));
lines.push("other files " + all("script[src], link, img, iframe").length + ", wider than the window " + (document.documentElement.scrollWidth > innerWidth));
const report = document.createElement("pre");
report.id = "report";
report.textContent = "\n" + lines.join("\n") + "\n";
document.body.append(report);
</script>
"##;

/// What the browser saw of a page.
fn report(name: &str, html: &str) -> Option<Vec<String>> {
    let mut chromium = chromium()?;
    let file = Path::new(env!("CARGO_TARGET_TMPDIR")).join(format!("preview-{name}.html"));
    assert_eq!(html.matches("</body>").count(), 1);
    std::fs::write(&file, html.replace("</body>", &format!("{REPORT}</body>"))).expect("it is written");
    let dom =
        run(chromium.args(["--dump-dom", "--virtual-time-budget=5000"]).arg(format!("file://{}", file.display())));
    let (_, report) = dom.split_once("<pre id=\"report\">").unwrap_or_else(|| panic!("{name}: no report in\n{dom}"));
    let (report, _) = report.split_once("</pre>").expect("an end");
    let plain = report.replace("&lt;", "<").replace("&gt;", ">").replace("&amp;", "&");
    Some(plain.trim().lines().map(str::to_string).collect())
}

/// A text as JSON.stringify has it.
fn json(text: &str) -> String {
    let one = |sign: char| match sign {
        '"' => "\\\"".to_string(),
        '\\' => "\\\\".to_string(),
        '\n' => "\\n".to_string(),
        _ => sign.to_string(),
    };
    format!("\"{}\"", text.chars().map(one).collect::<String>())
}

/// What must be seen of the templates of a page, from the outputs alone.
fn expected(forms: &Forms) -> Vec<String> {
    let printer = jsx_precompile::javascript::Printer::new(forms.templates(), forms.page());
    let mut lines = vec![format!("templates {}", forms.count())];
    for template in forms.templates() {
        let call = forms.page().calls().find_map(|call| match call {
            Call::Template(call) if call.number() == template.number() => Some(call),
            _ => None,
        });
        let mut expressions = call.expect("it is called").expressions();
        let mut parts = vec![];
        for string in template.strings() {
            parts.push(format!("[\"static\",{}]", json(string)));
            parts.extend(expressions.next().map(|expression| {
                let kind = match expression {
                    Expression::Call(Call::Attr(_) | Call::Choice(_)) => "attribute",
                    _ => "child",
                };
                format!("[\"{kind}\",{}]", json(&printer.expression(expression)))
            }));
        }
        lines.push(format!("template-{} {}", template.number(), parts.join(" ")));
    }
    lines
}

#[test]
fn in_a_browser() {
    // Three templates within each other; all helpers; choices.
    for name in ["rows", "hall", "choices"] {
        let page = std::fs::read(root(&format!("examples/{name}.page"))).expect("a page");
        let forms = transform(&page, &Options::new()).expect("it is taken");
        let Some(seen) = report(name, &preview(&[&format!("examples/{name}.page")])) else { return };
        let (templates, others): (Vec<_>, Vec<_>) =
            seen.iter().partition(|line| line.starts_with("template") && !line.contains(" called by "));
        assert_eq!(templates, expected(&forms).iter().collect::<Vec<_>>(), "{name}");
        let has = |line: &str| assert!(others.iter().any(|one| *one == line), "{name}: no {line:?} in {others:#?}");
        let source = std::fs::read_to_string(root(&format!("examples/{name}.jsx"))).expect("a source");
        has(&format!("source {}", json(source.trim_end())));
        has(&format!("module {}", json(&forms.javascript())));
        has("ids used twice 0");
        has("other files 0, wider than the window false");
        let links = others.iter().find(|line| line.starts_with("links without an end 0 of ")).expect("no broken link");
        let count: usize = links.rsplit(' ').next().and_then(|number| number.parse().ok()).expect("a number");
        assert!(count >= 2 * forms.count() + 2, "{name}: {links}");
        let colours = others.iter().find_map(|line| line.strip_prefix("colours ")).expect("colours");
        let [attribute, child, plain] = colours.split(" | ").collect::<Vec<_>>()[..] else { panic!("{colours}") };
        assert!(
            attribute.starts_with("rgb(") && attribute != child && attribute != plain && child != plain,
            "{colours}"
        );
        assert_eq!(child.starts_with("rgb("), name != "choices", "{name}: {colours}");
        for template in forms.templates() {
            let number = template.number();
            let line = others.iter().find(|line| line.starts_with(&format!("template-{number} called by ")));
            assert!(line.is_some_and(|line| line.ends_with(" in item-0")), "{name}: {line:?}");
        }
        say(&format!("preview: examples/{name}.page in a browser, {} lines seen", seen.len()));
    }
}

/// Signs of HTML in the page, options, and a page without templates.
#[test]
fn as_text() {
    let html = preview(&["examples/controls.page"]);
    assert!(html.contains("one\\two\u{2421}\u{240d}\n"), "{html}");
    assert!(html.bytes().all(|byte| byte >= b' ' || byte == b'\n' || byte == b'\t'));
    let html = preview(&["examples/rows.page"]);
    assert!(html.contains("within <a href=\"#template-1\">template 1</a>"), "{html}");
    assert!(preview(&["examples/no-tags.page"]).contains("<p class=\"none\">This page has no templates.</p>"));
    assert!(preview(&["--skip-element=h1", "examples/hall.page"]).contains("<p class=\"none\">"));
    assert!(
        preview(&["--import-source=\"<&", "examples/k1.page"]).contains("&quot;\\&quot;&lt;&amp;/jsx-runtime&quot;")
    );
    let refused = jsx_precompile(&["preview", "examples/damaged.page"], b"");
    assert_eq!((refused.status.code(), refused.stdout), (Some(1), vec![]));
}

/// The picture in docs/ is small, and a picture.
#[test]
fn picture() {
    let file = root("docs/preview.png");
    if std::env::var("PREVIEW_WRITE").is_ok_and(|word| word == "1") {
        let html = Path::new(env!("CARGO_TARGET_TMPDIR")).join("hall.html");
        std::fs::write(&html, preview(&["examples/hall.page"])).expect("it is written");
        let mut chromium = chromium().expect("a browser");
        chromium.args(["--window-size=1180,720", &format!("--screenshot={}", file.display())]);
        run(chromium.arg(format!("file://{}", html.display())));
    }
    let bytes = std::fs::read(&file).expect("docs/preview.png");
    assert!(bytes.starts_with(b"\x89PNG") && bytes.len() < 150_000, "{} bytes", bytes.len());
}
