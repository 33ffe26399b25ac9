//! Where in the tree a field stands.

use crate::field::{Field, Fields, ORDER};
use std::fmt;

/// Where in the tree a field stands: the fields around it, from the outermost in, and itself.
///
/// It is shown as `01 > 12[3] > 30 p > 50 class`: tags, names where there are some, and in square brackets the place
/// among the fields beside it, counted from 0. The place is shown for items and for the fillings of an order, and where a
/// field beside it has the same tag and name.
///
/// ```
/// use jsx_precompile::page::{Element, Expression, Item, Page};
///
/// // <ul><li/><li id={9007199254740992}/></ul>, the number written over one that is taken
/// let row = Element::new("li").attribute("id", Expression::Number(0x1f_ffff_ffff_ffff));
/// let list = Element::new("ul").child(Element::new("li")).child(row);
/// let mut bytes = Page::new([Item::Empty, Item::statement([list.into()])]).to_bytes()?;
/// let number = bytes.windows(8).position(|eight| eight == 0x1f_ffff_ffff_ffff_u64.to_be_bytes()).unwrap();
/// bytes[number..number + 8].copy_from_slice(&(1u64 << 53).to_be_bytes());
///
/// let fault = Page::from_bytes(&bytes).unwrap_err();
/// assert_eq!(fault.path.to_string(), "01 > 12[1] > 30 ul > 30[2] li > 50 id > 52 > 71");
/// assert_eq!(fault.path.steps()[3].name.as_deref(), Some("li"));
/// # Ok::<(), jsx_precompile::WriteError>(())
/// ```
#[derive(Clone, Debug, Default, PartialEq, Eq)]
pub struct Path(Vec<Step>);

/// One field of a [`Path`].
///
/// ```
/// use jsx_precompile::page::Page;
///
/// // A page whose second item is a fragment.
/// let fault = Page::from_bytes(&[1, 0, 6, 0x13, 0, 0, 0x31, 0, 0]).unwrap_err();
/// let step = &fault.path.steps()[1];
/// assert_eq!((step.tag, step.at, step.index), (0x31, 6, 1));
/// ```
#[derive(Clone, Debug, PartialEq, Eq)]
pub struct Step {
    /// What the field is.
    pub tag: u8,
    /// Where its header begins.
    pub at: usize,
    /// Its place among the fields beside it, from 0.
    pub index: usize,
    /// The name of an element, an attribute, a property or of what is called; the number of a template, or of the one that
    /// an order names.
    pub name: Option<String>,
    shows_index: bool,
}

impl Path {
    /// The fields, from the outermost in.
    ///
    /// ```
    /// let fault = jsx_precompile::page::Page::from_bytes(&[]).unwrap_err();
    /// assert!(fault.path.steps().is_empty());
    /// ```
    pub fn steps(&self) -> &[Step] {
        &self.0
    }

    /// The path of these headers, each in the field before it. Ends early where no field is to be read.
    pub(crate) fn of(bytes: &[u8], places: &[usize]) -> Path {
        let mut path = vec![];
        let mut row = Fields::new(bytes);
        let mut holder = 0;
        for place in places {
            let all: Vec<Field> = row.collect();
            let Some(index) = all.iter().position(|field| field.at == *place) else { break };
            let field = all[index];
            let alike = |other: &&Field| other.tag == field.tag && label(other) == label(&field);
            let shows_index = matches!(holder, 0x01 | ORDER) || all.iter().filter(alike).count() > 1;
            path.push(Step { tag: field.tag, at: field.at, index, name: label(&field), shows_index });
            holder = field.tag;
            row = field.inner();
        }
        Path(path)
    }

    /// The path of the innermost field that begins at this place.
    pub(crate) fn to(bytes: &[u8], place: usize) -> Path {
        let mut places = vec![];
        let mut row = Fields::new(bytes);
        while let Some(field) = row.find(|field| place < field.at + crate::field::HEADER + field.body.len()) {
            places.push(field.at);
            if field.at >= place {
                break;
            }
            row = field.inner();
        }
        Path::of(bytes, &places)
    }
}

impl fmt::Display for Path {
    fn fmt(&self, f: &mut fmt::Formatter<'_>) -> fmt::Result {
        for (i, step) in self.0.iter().enumerate() {
            let arrow = if i == 0 { "" } else { " > " };
            write!(f, "{arrow}{:02x}", step.tag)?;
            if step.shows_index {
                write!(f, "[{}]", step.index)?;
            }
            if let Some(name) = &step.name {
                write!(f, " {name}")?;
            }
        }
        Ok(())
    }
}

/// Names may be of any bytes and length where they are what is refused.
const MOST_LETTERS: usize = 40;

/// The name of a field that has one, as it is shown.
pub(crate) fn label(field: &Field) -> Option<String> {
    let name = match field.tag {
        0x30 | 0x50 | 0x91 | 0x94 | 0x96 => name(&field.inner().next()?)?,
        0x80 | 0x84 | ORDER | 0x90 => field.number()?.to_string(),
        _ => return None,
    };
    let shown: String = name.chars().take(MOST_LETTERS).flat_map(char::escape_debug).collect();
    let cut = if name.chars().nth(MOST_LETTERS).is_some() { "..." } else { "" };
    Some(shown + cut)
}

fn name(field: &Field) -> Option<String> {
    let joined = |sign: &str| {
        let parts: Vec<_> = field.inner().map(|part| String::from_utf8_lossy(part.body).into_owned()).collect();
        parts.join(sign)
    };
    match field.tag {
        0x40 | 0x81 => Some(String::from_utf8_lossy(field.body).into_owned()),
        0x41 => Some(joined(".")),
        0x42 => Some(joined(":")),
        _ => None,
    }
}
