//! `show`: bytes as an indented tree of fields, the place of each, its tag, what the tag means, and its text.

use jsx_precompile::catalogue::{Catalogue, Pages, StandingPage};
use jsx_precompile::field::{Field, Fields};
use jsx_precompile::out::{Import, Kind, PageOut, Templates};
use jsx_precompile::page::Page;
use jsx_precompile::{Decimal, Fault, Input, Options, Order};

/// What bytes are, by the first of them.
pub fn told_by(bytes: &[u8]) -> Input {
    match bytes.first() {
        Some(0x02..=0x05) => Input::Options,
        Some(0x80 | 0x84) => Input::Templates,
        Some(0x85) => Input::Order,
        Some(0x97) => Input::Catalogue,
        Some(0x10..=0x13 | 0x82 | 0x83) => Input::PageOut,
        _ => Input::Page,
    }
}

fn check(input: Input, bytes: &[u8]) -> Result<(), Fault> {
    match input {
        Input::Page => Page::from_bytes(bytes).map(drop),
        Input::Options => Options::from_bytes(bytes).map(drop),
        Input::Templates => Templates::read(bytes).map(drop),
        Input::PageOut => PageOut::read(bytes).map(drop),
        Input::Order => Order::from_bytes(bytes).map(drop),
        Input::Catalogue => Catalogue::over(bytes).map(drop),
    }
}

/// The tree, and why the bytes are not what they are read as; the place is marked in the tree.
pub fn show(bytes: &[u8], input: Input, whole: bool) -> (String, Option<Fault>) {
    let mut lines = if input == Input::Catalogue { catalogue(bytes, whole) } else { tree(bytes, whole) };
    let fault = check(input, bytes).err();
    let last = match &fault {
        None => counted(&input.to_string(), bytes, &lines),
        Some(fault) => {
            // Behind the last field that begins at or before the place.
            let place = lines.iter().rposition(|line| line.at <= fault.at).map_or(0, |line| line + 1);
            let depth = place.checked_sub(1).map_or(1, |line| lines[line].depth);
            let text = format!("^ {} ({}): {}", fault.refusal.number(), fault.refusal.word(), fault.reason);
            lines.insert(place, Line { at: fault.at, depth, text, is_field: false });
            String::new()
        }
    };
    (printed(&lines) + &last, fault)
}

/// The field at the front of some bytes by itself, without what it holds.
pub fn first(bytes: &[u8]) -> String {
    Fields::new(bytes).next().map_or(String::new(), |field| line(&field, false))
}

/// A page of a catalogue, and the fields of its templates and its page out.
pub fn page(page: &StandingPage, whole: bool) -> String {
    let mut lines = vec![];
    standing(&mut lines, page, whole);
    printed(&lines)
}

/// The tree of a field that is none of these.
pub fn field(name: &str, bytes: &[u8]) -> String {
    let lines = tree(bytes, true);
    printed(&lines) + &counted(name, bytes, &lines)
}

fn printed(lines: &[Line]) -> String {
    let one = |line: &Line| {
        let indent = 2 * line.depth;
        format!("{:6}{:indent$}{}\n", line.at, "", line.text)
    };
    lines.iter().map(one).collect()
}

fn counted(name: &str, bytes: &[u8], lines: &[Line]) -> String {
    let fields = lines.iter().filter(|line| line.is_field).count();
    let depth = lines.iter().map(|line| line.depth).max().unwrap_or(0);
    format!("{name}: {} bytes, {fields} fields, {depth} deep\n", bytes.len())
}

struct Line {
    at: usize,
    depth: usize,
    text: String,
    is_field: bool,
}

fn tree(bytes: &[u8], whole: bool) -> Vec<Line> {
    let mut lines = vec![];
    fields(&mut lines, bytes, (0, 0), whole);
    lines
}

/// The pages by their lengths, and what stands behind them.
fn catalogue(bytes: &[u8], whole: bool) -> Vec<Line> {
    let (mut lines, mut pages) = (vec![], Pages::new(bytes));
    pages.by_ref().for_each(|page| standing(&mut lines, &page, whole));
    let (at, rest) = (pages.place(), pages.rest());
    let text = match rest.iter().position(|byte| *byte != 0) {
        None if rest.is_empty() => return lines,
        None => format!("free: {} bytes", rest.len()),
        Some(0) => format!("no page: {}", hex(rest, whole)),
        Some(zeros) => format!("free: {zeros} bytes, then {}", hex(&rest[zeros..], whole)),
    };
    lines.push(Line { at, depth: 1, text, is_field: false });
    lines
}

fn standing(lines: &mut Vec<Line>, page: &StandingPage, whole: bool) {
    let (at, name, house) = (page.at(), page.name(), page.house());
    let text = format!("97 page {name} of house {house}: {}, {} bytes", numbered(page), page.bytes());
    lines.push(Line { at, depth: 1, text, is_field: false });
    let (templates, page_out) = (page.templates_bytes(), page.page_bytes());
    let end = at + page.bytes();
    fields(lines, templates, (end - page_out.len() - templates.len(), 1), whole);
    fields(lines, page_out, (end - page_out.len(), 1), whole);
}

/// The numbers of a page's templates, in words.
pub fn numbered(page: &StandingPage) -> String {
    let numbers = page.numbers();
    match (numbers.is_empty(), numbers.start() == numbers.end()) {
        (true, _) => "no templates".to_string(),
        (_, true) => format!("template {}", numbers.start()),
        _ => format!("templates {} to {}", numbers.start(), numbers.end()),
    }
}

/// The fields of these bytes, which stand so far behind the front and so deep.
fn fields(lines: &mut Vec<Line>, bytes: &[u8], (front, outer): (usize, usize), whole: bool) {
    let mut rows = vec![Fields::new(bytes)];
    while let Some(row) = rows.last_mut() {
        let next = row.next();
        let (at, rest) = (front + row.place(), row.rest());
        let depth = outer + rows.len();
        match next {
            Some(field) => {
                lines.push(Line { at: front + field.at, depth, text: line(&field, whole), is_field: true });
                rows.push(field.inner());
            }
            None => {
                if !rest.is_empty() {
                    lines.push(Line { at, depth, text: format!("no field: {}", hex(rest, whole)), is_field: false });
                }
                rows.pop();
            }
        }
    }
}

fn line(field: &Field, whole: bool) -> String {
    let Field { tag, body, .. } = *field;
    let Some(name) = field.name() else { return format!("{tag:02x} no tag, {}", hex(body, whole)) };
    let inside = match (tag, body) {
        (0x05 | 0x13 | 0x73 | 0x78 | 0x83, []) => String::new(),
        (0x71 | 0x75, _) if body.len() == 8 => number(body).to_string(),
        (0x7a | 0x7b, [digits @ .., places]) if digits.len() == 8 => decimal(digits, *places),
        (0x72, [0]) => "false".to_string(),
        (0x72, [1]) => "true".to_string(),
        (0x80 | 0x84 | 0x85 | 0x90, _) => match (field.number(), field.kinds()) {
            (Some(number), None | Some([])) => number.to_string(),
            (Some(number), Some(kinds)) => format!("{number}: {}", listed(kinds, whole)),
            (None, _) => hex(body, whole),
        },
        (0x82, [.., sum]) => {
            let names: Vec<_> = Import { source: "", sum: *sum }.helpers().map(|helper| helper.name()).collect();
            format!("{sum}: {}", names.join(", "))
        }
        (0x05 | 0x13 | 0x71..=0x73 | 0x75 | 0x78 | 0x7a | 0x7b | 0x83, _) => hex(body, whole),
        (0x04 | 0x20 | 0x40 | 0x51 | 0x60 | 0x70 | 0x74 | 0x81 | 0x86 | 0x87, _) => text(body, whole),
        _ => String::new(),
    };
    format!("{tag:02x} {name} {inside}").trim_end().to_string()
}

fn number(eight: &[u8]) -> u64 {
    eight.iter().fold(0, |number, byte| number << 8 | u64::from(*byte))
}

/// The kinds of dynamic expressions.
fn listed(kinds: &[u8], whole: bool) -> String {
    let name = |byte: &u8| Kind::from_byte(*byte).map_or(format!("no kind {byte}"), |kind| kind.name().to_string());
    let shown = if whole { kinds } else { &kinds[..kinds.len().min(CUT / 10)] };
    let names = shown.iter().map(name).collect::<Vec<_>>().join(", ");
    if shown.len() < kinds.len() { format!("{names}... ({} in all)", kinds.len()) } else { names }
}

/// As it is written, where it is within its limits; and what is held, since zeros at the end are not written.
fn decimal(digits: &[u8], places: u8) -> String {
    let digits = number(digits);
    let held = format!("digits {digits}, places {places}");
    Decimal::new(digits, places).map_or(held.clone(), |decimal| format!("{decimal}: {held}"))
}

const CUT: usize = 100;

fn text(body: &[u8], whole: bool) -> String {
    let Ok(text) = std::str::from_utf8(body) else { return format!("not UTF-8: {}", hex(body, whole)) };
    match text.char_indices().nth(CUT) {
        Some((end, _)) if !whole => format!("{:?}... ({} bytes)", &text[..end], body.len()),
        _ => format!("{text:?}"),
    }
}

fn hex(bytes: &[u8], whole: bool) -> String {
    let shown = if whole { bytes } else { &bytes[..bytes.len().min(CUT / 2)] };
    let digits: String = shown.iter().map(|byte| format!("{byte:02x}")).collect();
    if shown.len() < bytes.len() { format!("{digits}... ({} bytes)", bytes.len()) } else { digits }
}
