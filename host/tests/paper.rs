//! examples/paper.html in a browser: the elements that its HTML says, nothing moved and nothing closed by the browser, and
//! the texts of its order. Where there is no chromium that is said.

mod browser;
mod common;

use browser::{chromium, run};
use common::say;
use jsx_precompile::{Filling, Order};
use std::path::Path;

fn example(name: &str) -> Vec<u8> {
    let folder = Path::new(env!("CARGO_MANIFEST_DIR")).with_file_name("examples");
    std::fs::read(folder.join(name)).unwrap_or_else(|error| panic!("{name}: {error}"))
}

/// Leaves in the page what the browser made of it: its HTML, and each text by itself.
const REPORT: &str = r#"<script>
const html = document.documentElement.outerHTML.replace(document.currentScript.outerHTML, "");
const walker = document.createTreeWalker(document.body, NodeFilter.SHOW_TEXT);
const texts = [];
while (walker.nextNode()) {
    if (walker.currentNode.parentElement !== document.currentScript) texts.push(walker.currentNode.data);
}
const report = document.createElement("pre");
report.id = "report";
report.textContent = "\n" + [html, ...texts].join("\n") + "\n";
document.body.append(report);
</script>"#;

/// The plain texts of an order, from front to back.
fn texts(order: &Order, found: &mut Vec<String>) {
    for filling in &order.fillings {
        match filling {
            Filling::Text(text) => found.push(text.clone()),
            Filling::Order(order) => texts(order, found),
            Filling::Attribute(_) => {}
        }
    }
}

#[test]
fn in_a_browser() {
    let Some(mut chromium) = chromium() else { return };
    let html = String::from_utf8(example("paper.html")).expect("text");
    let html = html.strip_suffix('\n').expect("a line end");
    let file = Path::new(env!("CARGO_TARGET_TMPDIR")).join("paper.html");
    assert_eq!(html.matches("</body>").count(), 1);
    std::fs::write(&file, html.replace("</body>", &format!("{REPORT}</body>"))).expect("it is written");
    let dom =
        run(chromium.args(["--dump-dom", "--virtual-time-budget=5000"]).arg(format!("file://{}", file.display())));
    let (_, report) = dom.split_once("<pre id=\"report\">").unwrap_or_else(|| panic!("no report in\n{dom}"));
    let (report, _) = report.split_once("</pre>").expect("an end");
    let plain = report.replace("&lt;", "<").replace("&gt;", ">").replace("&amp;", "&");
    let mut lines = plain.trim().lines();
    // The browser writes these two signs as they are, and no space where a gap is empty.
    let expected = html.replace("&#39;", "'").replace("&quot;", "\"").replace("<tr >", "<tr>");
    assert_eq!(lines.next(), Some(&*expected));
    let mut ordered = vec![];
    texts(&Order::from_bytes(&example("paper.order")).expect("an order"), &mut ordered);
    // The first is the title's, which is not in the body.
    assert_eq!(lines.collect::<Vec<_>>(), ordered[1..]);
    assert!(ordered.len() > 15);
    say(&format!("paper: {} bytes of HTML and {} texts in a browser, as ordered", html.len(), ordered.len()));
}
