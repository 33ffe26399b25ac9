//! `preview`: one HTML page that shows the source, the templates with what fills them, and the module, with links
//! between a template and its call. No scripts, no other files.

use jsx_precompile::Forms;
use jsx_precompile::javascript::Printer;
use jsx_precompile::out::{Call, Expression, Item, PageOut, Template, TemplateCall};
use jsx_precompile::page::Page;
use std::collections::HashMap;

const STYLE: &str = "
body { margin: 0 auto; max-width: 76rem; padding: 1rem 2rem; font: 15px/1.45 system-ui, sans-serif; color: #1d1d1f; background: #fff; }
h1 { font-size: 1.3rem; margin: 0.5rem 0; }
h2 { font-size: 1.05rem; margin: 1.5rem 0 0.5rem; border-bottom: 1px solid #ddd; }
h3 { font-size: 0.95rem; margin: 0 0 0.4rem; font-weight: 600; }
h3 span { font-weight: 400; color: #555; margin-left: 0.6rem; }
pre { margin: 0; font: 13px/1.6 ui-monospace, 'DejaVu Sans Mono', monospace; white-space: pre-wrap; overflow-wrap: anywhere; }
.item, .template { padding: 0.5rem 0.7rem; margin: 0.35rem 0; background: #f6f6f8; border-radius: 6px; }
.item { display: flex; gap: 0.8rem; }
.item > a { color: #888; text-decoration: none; font: 12px/1.75 ui-monospace, monospace; }
a { color: #0b57d0; }
:target { outline: 2px solid #0b57d0; }
.static { color: #444; }
.attribute, .child { border-radius: 4px; padding: 0 0.3em; }
.attribute { background: #ffe2b8; color: #5f3700; }
.child { background: #cfe8cf; color: #10421a; }
.legend span { margin-right: 0.6rem; }
.none { color: #777; }
";

/// The page of a file that was taken.
pub fn html(file: &str, bytes: &[u8], forms: &Forms) -> String {
    let view = View::of(forms);
    let title = escaped(file);
    let templates: String = forms.templates().map(|template| view.template(&template)).collect();
    let none = "<p class=\"none\">This page has no templates.</p>\n";
    let [source, module] = [view.source(bytes), view.module()];
    format!(
        "<!doctype html>
<html lang=\"en\">
<head>
<meta charset=\"utf-8\">
<meta name=\"viewport\" content=\"width=device-width\">
<title>{title}</title>
<style>{STYLE}</style>
</head>
<body>
<h1>{title}</h1>
<p class=\"legend\">{count}, filled by <span class=\"attribute\">attributes</span><span class=\"child\">children</span></p>
<h2>Source</h2>
<div id=\"source\">
{source}</div>
<h2>Templates</h2>
<div id=\"templates\">
{templates}</div>
<h2>Module</h2>
<div id=\"module\">
{module}</div>
</body>
</html>
",
        count = counted(forms.count(), "template"),
        templates = if forms.count() == 0 { none } else { &templates },
    )
}

fn counted(count: usize, what: &str) -> String {
    format!("{count} {what}{}", if count == 1 { "" } else { "s" })
}

struct View<'a> {
    printer: Printer<'a>,
    /// What fills each template.
    fillings: HashMap<u32, Vec<Expression<'a>>>,
    callers: HashMap<u32, Caller>,
}

/// Where a template is called.
struct Caller {
    /// The item, counted from 0 without the import and the templates.
    item: usize,
    /// The template that the call fills.
    template: Option<u32>,
}

impl<'a> View<'a> {
    fn of(forms: &'a Forms) -> View<'a> {
        let calls = forms.page().calls().filter_map(template_call);
        let fillings = calls.map(|call| (call.number(), call.expressions().collect()));
        View {
            printer: Printer::new(forms.templates(), forms.page()),
            fillings: fillings.collect(),
            callers: callers(forms.page()),
        }
    }

    fn source(&self, bytes: &[u8]) -> String {
        // It was taken.
        let items = Page::from_bytes(bytes).map_or(vec![], |mut page| std::mem::take(&mut page.items));
        let one = |(i, item): (usize, &jsx_precompile::page::Item)| {
            let text = escaped(&item.to_jsx());
            format!("<div class=\"item\" id=\"source-{i}\"><a href=\"#item-{i}\">{i}</a><pre>\n{text}</pre></div>\n")
        };
        items.iter().enumerate().map(one).collect()
    }

    fn template(&self, template: &Template) -> String {
        let number = template.number();
        let fillings = self.fillings.get(&number).into_iter().flatten();
        let mut gaps = template.kinds().into_iter().flatten().zip(fillings);
        let mut text = String::new();
        for string in template.strings() {
            text += &format!("<span class=\"static\">{}</span>", escaped(string));
            if let Some((kind, filling)) = gaps.next() {
                text += &format!(
                    "<span class=\"{}\">{}</span>",
                    kind.name(),
                    self.linked(&self.printer.expression(filling.clone()), false)
                );
            }
        }
        let name = escaped(&self.printer.template_name(number));
        let caller = self.callers.get(&number).map_or(String::new(), |caller| {
            let within = caller
                .template
                .map_or(String::new(), |outer| format!(", within <a href=\"#template-{outer}\">template {outer}</a>"));
            format!("<span>called in <a href=\"#call-{number}\">item {}</a>{within}</span>", caller.item)
        });
        format!(
            "<div class=\"template\" id=\"template-{number}\"><h3><code>{name}</code>{caller}</h3><pre>{text}</pre></div>\n"
        )
    }

    fn module(&self) -> String {
        let mut out = String::new();
        let mut count = 0;
        for (item, text) in self.printer.items() {
            let text = self.linked(&text, true);
            match item {
                Item::Import(_) => out += &format!("<div class=\"item\" id=\"import\"><pre>{text}</pre></div>\n"),
                Item::Templates => out += &format!("<div class=\"item\" id=\"records\"><pre>{text}</pre></div>\n"),
                _ => {
                    out += &format!(
                        "<div class=\"item\" id=\"item-{count}\"><a href=\"#source-{count}\">{count}</a><pre>{text}</pre></div>\n"
                    );
                    count += 1;
                }
            }
        }
        out
    }

    /// JavaScript with a link at each template's name. With `ids` a call is what the links of templates lead to.
    fn linked(&self, text: &str, ids: bool) -> String {
        let name = self.printer.template_name(0);
        let prefix = name.trim_end_matches('0');
        let mut out = String::new();
        let mut rest = text;
        while let Some(at) = rest.find(prefix) {
            let (before, behind) = rest.split_at(at);
            let digits = behind[prefix.len()..].bytes().take_while(u8::is_ascii_digit).count();
            let (name, behind) = behind.split_at(prefix.len() + digits);
            let number = &name[prefix.len()..];
            let id = if ids && before.ends_with('(') { format!(" id=\"call-{number}\"") } else { String::new() };
            out += &format!("{}<a{id} href=\"#template-{number}\">{}</a>", escaped(before), escaped(name));
            rest = behind;
        }
        out + &escaped(rest)
    }
}

/// Where each template is called.
fn callers(page: PageOut) -> HashMap<u32, Caller> {
    let mut callers = HashMap::new();
    let items = page.items().filter(|item| !matches!(item, Item::Import(_) | Item::Templates));
    for (item, calls) in items.map(|item| item.calls()).enumerate() {
        for outer in calls.filter_map(template_call) {
            callers.entry(outer.number()).or_insert(Caller { item, template: None });
            // An outer call comes before those in it, so that what stays is the innermost around a call.
            for inner in outer.calls().filter_map(template_call) {
                callers.insert(inner.number(), Caller { item, template: Some(outer.number()) });
            }
        }
    }
    callers
}

fn template_call(call: Call) -> Option<TemplateCall> {
    match call {
        Call::Template(call) => Some(call),
        _ => None,
    }
}

/// Text of HTML; control characters, which HTML does not have, as their pictures.
fn escaped(text: &str) -> String {
    let one = |sign: char| match sign {
        '&' => "&amp;".to_string(),
        '<' => "&lt;".to_string(),
        '>' => "&gt;".to_string(),
        '"' => "&quot;".to_string(),
        '\n' | '\t' => sign.to_string(),
        '\0'..' ' => char::from_u32(0x2400 + u32::from(sign)).map_or(String::new(), String::from),
        '\u{7f}' => "\u{2421}".to_string(),
        _ => sign.to_string(),
    };
    text.chars().map(one).collect()
}
