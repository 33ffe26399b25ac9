//! `tag`: tag text read, its field printed.

use crate::show::field;
use crate::words::Form;
use jsx_precompile::Tag;
use jsx_precompile::page::{Item, Page};

/// What is printed of a file with tag text, or why there is nothing. The line end that a text file ends with is no part
/// of the text.
pub fn printed(file: &[u8], form: Form) -> Result<String, String> {
    let text = file.strip_suffix(b"\n").map_or(file, |text| text.strip_suffix(b"\r").unwrap_or(text));
    let tag = Tag::read_bytes(text).map_err(|error| error.to_string())?;
    Ok(match form {
        Form::Tree => field("tag", tag.bytes()),
        Form::Hex => hex(tag.bytes()),
        Form::Page => {
            let page = Page::new([Item::statement([tag.into()])]);
            hex(&page.to_bytes().map_err(|error| error.to_string())?)
        }
    })
}

fn hex(bytes: &[u8]) -> String {
    bytes.iter().map(|byte| format!("{byte:02x}")).chain(["\n".to_string()]).collect()
}
