//! Shared immutable strings. swc interns them; here a clone is a count, as there.
//! A `Wtf8Atom` may hold lone surrogates in swc; a page is UTF-8, so its lossy reading is the identity.

use std::borrow::Cow;
use std::fmt;
use std::ops::Deref;
use std::rc::Rc;

#[derive(Clone, Debug, PartialEq, Eq)]
pub struct Atom(Rc<str>);

impl Atom {
    pub fn new(text: impl AsRef<str>) -> Self {
        Atom(Rc::from(text.as_ref()))
    }
}

impl Deref for Atom {
    type Target = str;
    fn deref(&self) -> &str {
        &self.0
    }
}

impl AsRef<str> for Atom {
    fn as_ref(&self) -> &str {
        &self.0
    }
}

impl fmt::Display for Atom {
    fn fmt(&self, f: &mut fmt::Formatter<'_>) -> fmt::Result {
        f.write_str(&self.0)
    }
}

impl From<String> for Atom {
    fn from(text: String) -> Self {
        Atom::new(text)
    }
}

impl From<&str> for Atom {
    fn from(text: &str) -> Self {
        Atom::new(text)
    }
}

#[derive(Clone, Debug, PartialEq, Eq)]
pub struct Wtf8Atom(Rc<str>);

impl Wtf8Atom {
    pub fn to_string_lossy(&self) -> Cow<'_, str> {
        Cow::Borrowed(&self.0)
    }
}

impl From<Atom> for Wtf8Atom {
    fn from(atom: Atom) -> Self {
        Wtf8Atom(atom.0)
    }
}

impl From<String> for Wtf8Atom {
    fn from(text: String) -> Self {
        Wtf8Atom(Rc::from(text))
    }
}

impl From<&str> for Wtf8Atom {
    fn from(text: &str) -> Self {
        Wtf8Atom(Rc::from(text))
    }
}
