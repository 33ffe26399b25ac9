//! The signs of tag text: which bytes A3 and 01 speak of.

/// A3: white space is tab, LF, CR, space.
pub fn is_space(byte: u8) -> bool {
    matches!(byte, b'\t' | b'\n' | b'\r' | b' ')
}

/// 01: a 40 begins with a letter, `_` or `$`.
pub fn begins_name(byte: u8) -> bool {
    byte.is_ascii_alphabetic() || matches!(byte, b'_' | b'$')
}

/// 01: then also digits and `-`.
pub fn goes_on(byte: u8) -> bool {
    begins_name(byte) || byte.is_ascii_digit() || byte == b'-'
}

/// JSX: text among children is any character but these.
pub fn is_text(byte: u8) -> bool {
    !matches!(byte, b'<' | b'>' | b'{' | b'}')
}

pub fn is_quote(byte: u8) -> bool {
    matches!(byte, b'"' | b'\'')
}

pub fn is_line_end(byte: u8) -> bool {
    matches!(byte, b'\n' | b'\r')
}

/// A3: what is not read in a 79, in its quotes neither.
pub fn bars_source(byte: u8) -> bool {
    matches!(byte, b'`' | b'\\' | b'/' | b'<')
}

/// A3: the five that are decoded, with what they stand for.
pub const ENTITIES: [(&[u8], u8); 5] =
    [(b"&amp;", b'&'), (b"&lt;", b'<'), (b"&gt;", b'>'), (b"&quot;", b'"'), (b"&#39;", b'\'')];

/// Text or an attribute string, decoded once, front to back; none where another `&` stands in it.
pub fn decoded(mut text: &[u8]) -> Option<Vec<u8>> {
    let mut out = vec![];
    while let [first, behind @ ..] = text {
        if *first != b'&' {
            out.push(*first);
            text = behind;
            continue;
        }
        let (entity, sign) = ENTITIES.into_iter().find(|(entity, _)| text.starts_with(entity))?;
        out.push(sign);
        text = &text[entity.len()..];
    }
    Some(out)
}

/// Without the white space at both ends.
pub fn trimmed(mut text: &[u8]) -> &[u8] {
    while let [first, behind @ ..] = text
        && is_space(*first)
    {
        text = behind;
    }
    while let [before @ .., last] = text
        && is_space(*last)
    {
        text = before;
    }
    text
}
