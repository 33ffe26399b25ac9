//! Names as tag text has them.

use std::fmt;

/// A name and its parts; behind `<` or as an attribute's.
#[derive(Clone, Debug, PartialEq, Eq)]
pub(super) struct Name<'a> {
    /// What stands between the parts: `.` in a member, `:` behind a namespace.
    pub sign: Option<char>,
    pub parts: Vec<&'a str>,
}

impl fmt::Display for Name<'_> {
    fn fmt(&self, f: &mut fmt::Formatter<'_>) -> fmt::Result {
        let sign = self.sign.map_or(String::new(), String::from);
        f.write_str(&self.parts.join(&sign))
    }
}

/// What a tag is opened with and closed with, as it is shown.
pub(super) fn opening(name: Option<&Name>) -> String {
    format!("<{}>", name.map_or(String::new(), Name::to_string))
}

pub(super) fn closing(name: Option<&Name>) -> String {
    format!("</{}>", name.map_or(String::new(), Name::to_string))
}

pub(super) fn begins(sign: char) -> bool {
    sign.is_ascii_alphabetic() || sign == '_' || sign == '$'
}

pub(super) fn goes_on(sign: char) -> bool {
    begins(sign) || sign.is_ascii_digit() || sign == '-'
}
