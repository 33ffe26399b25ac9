//! The static strings of a template: mostly such that each gap has a kind, now and then such that one has none.

use crate::generate::rng::Rng;

/// Without `<` and `>`.
const TEXTS: [&str; 14] =
    ["", "", "a", "Hi ", " ", "/", "&amp;", "\u{e9}", "\u{1f600}", "\n", "\0", "\"'=", "br", "/p "];
/// Tags that are open: what follows is within them.
const OPEN: [&str; 9] = ["<p ", "<p a=\"b\" ", "<my-el ", "<br ", "< ", "< / ", "<! ", "<x\n ", "<b class=\"t\" "];
/// Whole tags; nothing here asks for names that agree.
const TAGS: [&str; 10] = ["<p>", "</p>", "<br>", "<>", "</>", "< >", "<b class=\"t\">", "</b>", "<i></i>", "</ x>"];
/// What leaves a gap behind it without a kind.
const MISFITS: [&str; 9] = ["<p", "</p ", "</ ", "<", "<<p ", "><p ", ">", "<p\t", "<p a "];

/// One more than there are gaps. Of a thousand gaps, `misfits` are left without a kind.
pub fn strings(rng: &mut Rng, gaps: usize, misfits: usize) -> Vec<Vec<u8>> {
    let mut open = false;
    let mut out = vec![];
    for _ in 0..gaps {
        let mut string = if open { within(rng, 45) } else { texts(rng) };
        open &= !string.ends_with('>');
        if rng.below(1_000) < misfits {
            string += rng.pick(&MISFITS);
        } else if !open && rng.chance(45) {
            string += rng.pick(&OPEN);
            open = true;
        } else if open && !string.is_empty() && !string.ends_with(' ') {
            string += " ";
        }
        out.push(string.into_bytes());
    }
    let mut last = if open { within(rng, 97) } else { texts(rng) };
    last += if rng.chance(50) { "</p>" } else { "" };
    out.push(last.into_bytes());
    out
}

/// Text and whole tags.
fn texts(rng: &mut Rng) -> String {
    let mut out = String::new();
    for _ in 0..rng.below(4) {
        out += if rng.chance(60) { rng.pick(&TEXTS) } else { rng.pick(&TAGS) };
    }
    out
}

/// Behind an open tag: nothing, more of it, or its end and what follows.
fn within(rng: &mut Rng, ends: usize) -> String {
    let mut out = String::new();
    if rng.chance(40) {
        out += rng.pick(&TEXTS);
        out += " ";
    }
    if rng.chance(ends) {
        out += ">";
        if rng.chance(50) {
            out += &texts(rng);
            // Its end must be seen by the caller.
            out += "<br>";
        }
    }
    out
}
