//! A call of the reader of tag text within a small stack: the deepest texts, each way in which tags hold each other.

use jsx_precompile::limits::{MAX_TAG, MAX_TAG_TEXT};
use jsx_precompile::read_tag_into;

const STACK: usize = 512 * 1024;

/// As often within each other as a text can have it: not closed, and closed.
fn deepest(before: &str, after: &str) -> [(String, u32); 2] {
    let open = before.repeat(MAX_TAG_TEXT / before.len());
    let times = (MAX_TAG_TEXT - "<a/>".len()) / (before.len() + after.len());
    [(open, 14), (format!("{}<a/>{}", before.repeat(times), after.repeat(times)), 8)]
}

#[test]
fn half_a_megabyte_is_enough() {
    let ways = [
        ("<>", "</>"),
        ("<a>", "</a>"),
        ("<a b=", "/>"),
        ("<a b={", "}/>"),
        ("<a{...", "}/>"),
        ("<a b=<>{", "}</>/>"),
        ("<>{", "}</>"),
        ("<>{...", "}</>"),
        ("<a.b.c.d.e.f.g.h>", "</a.b.c.d.e.f.g.h>"),
    ];
    let mut texts: Vec<(String, u32)> = ways.into_iter().flat_map(|(before, after)| deepest(before, after)).collect();
    // Braces within braces are source, as deep as they are.
    let braces = (MAX_TAG_TEXT - 9) / 2;
    texts.push((format!("<>{{a{}{}}}</>", "{".repeat(braces), "}".repeat(braces)), 0));
    // Every closing name differs.
    let names = MAX_TAG_TEXT / 7;
    texts.push(("<a>".repeat(names) + &"</b>".repeat(names), 15));
    let count = texts.len();
    let calls = move || {
        let mut out = vec![0; MAX_TAG];
        for (text, number) in &texts {
            let answer = read_tag_into(text.as_bytes(), &mut out);
            assert_eq!(answer.number, *number, "{}...", &text[..20]);
            assert!(text.len() > MAX_TAG_TEXT - 40, "{} bytes of {}...", text.len(), &text[..20]);
        }
    };
    let thread = std::thread::Builder::new().stack_size(STACK).spawn(calls).expect("a thread");
    thread.join().expect("it ends");
    println!("stack: {count} tag texts within {STACK} bytes");
}
