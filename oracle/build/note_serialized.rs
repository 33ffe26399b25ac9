// 02, A4 speaks of serialized elements: those that the Rust writes into the strings of a template. A copy of the source
// notes each of them where it begins to write it: its name, and the names of its attributes as it normalises them.
// Nothing else is changed.

const WRITES: &str = "strings.last_mut().unwrap().push('<');";

// On one line, so that every other line keeps its number.
const NOTES: &str = "crate::serialized::note(name, el.opening.attrs.iter().filter_map(|attr| match attr { \
    JSXAttrOrSpread::JSXAttr(attr) => Some(get_attr_name(attr, true)), \
    JSXAttrOrSpread::SpreadElement(_) => None, \
})); ";

/// The source with that note before the one place where a tag is opened; an error unless there is exactly one.
pub fn noting(source: &str) -> Result<String, String> {
    match source.matches(WRITES).count() {
        1 => Ok(source.replace(WRITES, &format!("{NOTES}{WRITES}"))),
        count => Err(format!("jsx_precompile.rs has {count} times `{WRITES}`; the notes of A4 need it once")),
    }
}
