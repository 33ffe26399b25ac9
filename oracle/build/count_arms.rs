// Puts a counter at the front of every match arm, `if` block and `else` block of a Rust source. The code is otherwise
// left as it is. No parser: comments and literals are blanked, then `=>`, `if` and `else` are looked for.

/// The source with counters, and a Rust table of the places counted: line, function, text of the line.
pub fn with_counters(source: &str) -> (String, String) {
    let plain = blanked(source);
    let mut inserts: Vec<(usize, String)> = vec![];
    let mut table = vec![];
    for at in 0..plain.len() {
        if let Some((start, end)) = arm_or_block(&plain, at) {
            let count = format!("crate::arms::hit({});", table.len());
            match end {
                None => inserts.push((start, count)),
                Some(end) => {
                    inserts.push((start, format!("{{ {count} ")));
                    inserts.push((end, " }".to_string()));
                }
            }
            table.push(place(source, at));
        }
    }
    inserts.sort_by_key(|i| i.0);
    let mut out = String::new();
    let mut done = 0;
    for (at, text) in inserts {
        out.push_str(&source[done..at]);
        out.push_str(&text);
        done = at;
    }
    out.push_str(&source[done..]);
    (out, format!("pub const ARMS: &[(usize, &str, &str)] = &[\n{}];\n", table.concat()))
}

/// Where the code of the arm or block that is announced at `at` starts; its end where it is an expression.
fn arm_or_block(plain: &[u8], at: usize) -> Option<(usize, Option<usize>)> {
    if plain[at..].starts_with(b"=>") {
        let body = at + 2 + plain[at + 2..].iter().position(|c| !c.is_ascii_whitespace())?;
        return Some(if plain[body] == b'{' { (body + 1, None) } else { (body, Some(end_of_expression(plain, body))) });
    }
    if word(plain, at, b"if") {
        return Some((block(plain, at)? + 1, None));
    }
    if word(plain, at, b"else") {
        let next = at + 4 + plain[at + 4..].iter().position(|c| !c.is_ascii_whitespace())?;
        return (plain[next] == b'{').then_some((next + 1, None));
    }
    None
}

fn word(plain: &[u8], at: usize, w: &[u8]) -> bool {
    let part = |c: u8| c.is_ascii_alphanumeric() || c == b'_';
    plain[at..].starts_with(w) && (at == 0 || !part(plain[at - 1])) && plain.get(at + w.len()).is_none_or(|c| !part(*c))
}

/// The first `{` outside round and square brackets.
fn block(plain: &[u8], from: usize) -> Option<usize> {
    let mut depth = 0;
    for (i, c) in plain.iter().enumerate().skip(from) {
        match c {
            b'(' | b'[' => depth += 1,
            b')' | b']' => depth -= 1,
            b'{' if depth == 0 => return Some(i),
            _ => {}
        }
    }
    None
}

fn end_of_expression(plain: &[u8], from: usize) -> usize {
    let mut depth = 0;
    for (i, c) in plain.iter().enumerate().skip(from) {
        match c {
            b'(' | b'[' | b'{' => depth += 1,
            b')' | b']' | b'}' if depth == 0 => return i,
            b')' | b']' | b'}' => depth -= 1,
            b',' if depth == 0 => return i,
            _ => {}
        }
    }
    plain.len()
}

/// The source with comments as spaces and literals as quotes, byte for byte as long.
fn blanked(source: &str) -> Vec<u8> {
    let s = source.as_bytes();
    let mut out = s.to_vec();
    let mut i = 0;
    while i < s.len() {
        let (end, filling) = match s[i] {
            b'/' if s[i + 1..].starts_with(b"/") => {
                (i + s[i..].iter().position(|c| *c == b'\n').unwrap_or(s.len() - i), b' ')
            }
            b'"' => (closing(s, i, b'"'), b'"'),
            b'\'' if is_char_literal(s, i) => (closing(s, i, b'\''), b'"'),
            _ => (i + 1, s[i]),
        };
        out[i..end].fill(filling);
        i = end;
    }
    out
}

fn closing(s: &[u8], from: usize, quote: u8) -> usize {
    let mut i = from + 1;
    while s[i] != quote {
        i += if s[i] == b'\\' { 2 } else { 1 };
    }
    i + 1
}

/// A lifetime is the other thing that starts with this quote.
fn is_char_literal(s: &[u8], at: usize) -> bool {
    s[at + 1] == b'\\' || s.get(at + 2) == Some(&b'\'')
}

fn place(source: &str, at: usize) -> String {
    let before = &source[..at];
    let line = before.matches('\n').count() + 1;
    let function = before.rfind("fn ").map_or("", |f| {
        let name = &before[f + 3..];
        &name[..name.find(|c: char| !c.is_alphanumeric() && c != '_').unwrap_or(name.len())]
    });
    let text = source.lines().nth(line - 1).unwrap_or("").trim();
    format!("    ({line}, {function:?}, {text:?}),\n")
}
