//! Texts at the limits: of length, of depth, of a body.

use super::text::Text;
use crate::answer::{MOST_BODY, MOST_DEPTH};
use crate::generate::rng::Rng;
use crate::tag::{MOST_TEXT, TAG_DEPTH};

/// Within two bytes of the longest text; filled up in a string or in text.
pub fn length(rng: &mut Rng) -> Vec<u8> {
    let inner = Text::new(rng, 2000, 0, 0).written();
    let (before, after): (&[u8], &[u8]) = if rng.chance(50) { (b"<a b='", b"'>") } else { (b"<a>", b"") };
    let around = before.len() + after.len() + inner.len() + b"</a>".len();
    let length = MOST_TEXT - 2 + rng.below(5);
    let fill: &[u8] = if rng.chance(90) { b"t" } else { "\u{e9}".as_bytes() };
    let mut filling = fill.repeat((length - around) / fill.len());
    filling.resize(length - around, b'.');
    [before, &filling, after, &inner, b"</a>"].concat()
}

/// What stands before an inner tag, behind it, and how many fields deeper that lies.
type Around = (&'static str, &'static str, usize);

const WAYS: [Around; 12] = [
    ("<>", "</>", 1),
    ("<a>", "</a>", 1),
    ("<a.b>", "</a.b>", 1),
    ("<a>{", "}</a>", 2),
    ("<>{ ", " }</>", 2),
    ("<>{...", "}</>", 2),
    ("<a {...", "}/>", 2),
    ("<a b=", "/>", 2),
    ("<a b=", "></a>", 2),
    ("<a b={", "}/>", 3),
    ("<a:b c:d={", "}>t</a:b>", 3),
    ("<> <i/>{1}", "{}</>", 1),
];

/// Tags within tags: around depth 48, or far deeper and up to the longest text. Now and then something is not closed, a
/// number is too large, or a name differs.
pub fn nest(rng: &mut Rng) -> Vec<u8> {
    let one_way = rng.chance(40).then(|| rng.below(WAYS.len()));
    let shallow = rng.chance(80);
    let depth = if shallow { rng.within(MOST_DEPTH - 6, MOST_DEPTH + 2) } else { rng.within(60, 12_000) };
    let mut at = TAG_DEPTH;
    let (mut front, mut back) = (String::new(), vec![]);
    while at < depth && front.len() < MOST_TEXT / 2 {
        let (before, after, deeper) = WAYS[one_way.unwrap_or_else(|| rng.below(WAYS.len()))];
        front += before;
        back.push(after);
        at += deeper;
    }
    if rng.chance(4) {
        back.pop();
    }
    let mut inner = rng.pick(&["<a/>", "<></>", "<a.b/>", "<a b/>", "<>{x}</>", "<>t</>", "<a>{1}</a>"]);
    if rng.chance(6) {
        inner = rng.pick(&["<>{9007199254740992}</>", "<a></b>", "<></a>", "<a b={0.0000000000000000}/>"]);
    }
    front += inner;
    back.iter().rev().for_each(|after| front += after);
    front.into_bytes()
}

/// Many small fields that become a body of about 65,535 bytes; filled up by text.
pub fn body(rng: &mut Rng) -> Vec<u8> {
    // A child or attribute, and the bytes that it gives.
    let (before, one, given, after) = match rng.below(4) {
        0 => ("<>", "{1}", 14, "</>"),
        1 => ("<>", "{-1.5}", 15, "</>"),
        2 => ("<>", "<i/>", 7, "</>"),
        _ => ("<a", " b", 7, "></a>"),
    };
    let name = if before == "<a" { 4 } else { 0 };
    let near = rng.chance(70);
    let length = if near { MOST_BODY - 1 + rng.below(4) } else { rng.within(60_000, 90_000) };
    let count = (length - name - 4) / given;
    let left = length - name - given * count - 3;
    let mut text = "t".repeat(left);
    // Beside it now and then what is refused before a long body, or after it.
    if !near && rng.chance(40) {
        let (levels, inner) = (rng.within(MOST_DEPTH - 4, MOST_DEPTH), rng.pick(&["", "{x}", "{9007199254740992}"]));
        text += &format!("{}{inner}{}", "<>".repeat(levels), "</>".repeat(levels));
    }
    let end = after.strip_prefix('>');
    let mut out = format!("{before}{}", one.repeat(count));
    out += &end.map_or_else(|| format!("{text}{after}"), |end| format!(">{text}{end}"));
    out.into_bytes()
}
