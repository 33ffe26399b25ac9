//! The tag at which the transform refuses a page. The library says only that it does; it is asked again about parts of
//! the page, until no part within is refused alike.

use crate::call::transform_into;
use crate::field::{Field, Fields, around};
use crate::page::write::{WriteError, Writer};
use crate::path::label;
use crate::refusal::Refusal;

/// The place of the smallest tag that a page owes its refusal to. Where several tags are needed for it, the tag or item
/// around them; where the page cannot be asked about in parts, the last tag or item that could.
pub(crate) fn locate(page: &[u8], options: &[u8], scratch: &mut [u8], refusal: Refusal) -> usize {
    let mut whole = Fields::new(page).next();
    let mut search = Search { options, scratch, refusal };
    let mut place = 0;
    while let Some(field) = whole.take() {
        place = field.at;
        let tags = tags_in(field);
        let Some(last) = search.last_needed(field, &tags) else { break };
        let by_itself = refusal == Refusal::TagLeft && search.refuses(with_hollow(field, last)) == Some(true);
        if !by_itself && search.refuses(alone(last)) == Some(true) {
            whole = Some(last);
        } else if refusal == Refusal::TagLeft {
            // Alone it may be transformed, but not where it stands.
            place = last.at;
        } else if field.tag == 0x01 {
            place = field.inner().filter(|item| item.at < last.at).last().map_or(place, |item| item.at);
        }
    }
    place
}

/// The first attribute of the element there that is an earlier one again, and that one, by their names; none where the
/// library does not tell. An attribute counts whatever its value, so none is asked about with it.
pub(crate) fn repeated(page: &[u8], options: &[u8], scratch: &mut [u8], at: usize) -> Option<[String; 2]> {
    let element = Fields::new(page.get(at..)?).next()?;
    let name = element.inner().next()?;
    let attributes: Vec<Field> = element.inner().filter(|field| field.tag == 0x50).collect();
    let mut search = Search { options, scratch, refusal: Refusal::RepeatedAttribute };
    let mut refuses = |of: &[Field]| search.refuses(with_attributes(name, of)) == Some(true);
    let again = (2..=attributes.len()).find(|count| refuses(&attributes[..*count]))? - 1;
    let first = (0..again).find(|first| refuses(&[attributes[*first], attributes[again]]))?;
    Some([label(&attributes[first])?, label(&attributes[again])?])
}

/// A page of an element with these attributes, without their values.
fn with_attributes(name: Field, attributes: &[Field]) -> Option<Vec<u8>> {
    page(|w| {
        w.field(0x30, |w| {
            w.leaf(name.tag, name.body)?;
            attributes
                .iter()
                .filter_map(|attribute| attribute.inner().next())
                .try_for_each(|name| w.field(0x50, |w| w.leaf(name.tag, name.body)))
        })
    })
}

struct Search<'a> {
    options: &'a [u8],
    scratch: &'a mut [u8],
    refusal: Refusal,
}

impl Search<'_> {
    /// Whether the page is refused alike; none where it is no page, which a changed one may be: too long or too deep.
    /// Nothing is lent for the outputs, since that they are too small is told last.
    fn refuses(&mut self, page: Option<Vec<u8>>) -> Option<bool> {
        let answer = transform_into(&page?, self.options, self.scratch, &mut [], &mut []);
        match answer.refusal() {
            Some(refusal) if refusal <= Refusal::TooDeep => None,
            refusal => Some(refusal == Some(self.refusal)),
        }
    }

    /// The tag without which, and without those behind it, the field is no longer refused; none where it is refused
    /// without any, or cannot be asked about.
    fn last_needed<'a>(&mut self, field: Field<'a>, tags: &[Field<'a>]) -> Option<Field<'a>> {
        let (mut taken, mut refused) = (0, tags.len());
        if self.refuses(with_tags_before(field, tags.first()?.at))? {
            return None;
        }
        while refused - taken > 1 {
            let middle = (taken + refused) / 2;
            match self.refuses(with_tags_before(field, tags[middle].at))? {
                true => refused = middle,
                false => taken = middle,
            }
        }
        Some(tags[refused - 1])
    }
}

fn is_tag(field: &Field) -> bool {
    matches!(field.tag, 0x30 | 0x31)
}

/// The tags within a field, not those within them.
fn tags_in(field: Field) -> Vec<Field> {
    field.inner().flat_map(|inner| if is_tag(&inner) { vec![inner] } else { tags_in(inner) }).collect()
}

/// A page of this tag as its only statement.
fn alone(tag: Field) -> Option<Vec<u8>> {
    page(|w| w.leaf(tag.tag, tag.body))
}

/// A page of this field, where the tags in it from this place on are harmless ones or none.
fn with_tags_before(field: Field, cut: usize) -> Option<Vec<u8>> {
    around_it(field, |w| copy(field, cut, None, w))
}

/// The same with this tag too, but none of those in it.
fn with_hollow(field: Field, tag: Field) -> Option<Vec<u8>> {
    around_it(field, |w| copy(field, tag.at, Some(tag.at), w))
}

fn around_it(field: Field, copy: impl FnOnce(&mut Writer) -> Written) -> Option<Vec<u8>> {
    if field.tag != 0x01 {
        return page(copy);
    }
    let mut writer = Writer::default();
    copy(&mut writer).ok()?;
    Some(writer.out)
}

fn page(inside: impl FnOnce(&mut Writer) -> Written) -> Option<Vec<u8>> {
    let mut writer = Writer::default();
    writer.field(0x01, |w| w.field(0x12, inside)).ok()?;
    Some(writer.out)
}

type Written = Result<(), WriteError>;

/// The field with the tags before `cut` as they are, and the hollow one without those in it.
fn copy(field: Field, cut: usize, hollow: Option<usize>, writer: &mut Writer) -> Written {
    if around(field.tag, field.body).is_none() {
        return writer.leaf(field.tag, field.body);
    }
    let holds_pieces = matches!(field.tag, 0x10..=0x12 | 0x79);
    writer.field(field.tag, |w| {
        field.inner().try_for_each(|inner| match is_tag(&inner) {
            true if Some(inner.at) == hollow => copy(inner, cut, None, w),
            // Pieces are visited one by one, so that one may fall away; that keeps the page short.
            true if inner.at >= cut && holds_pieces => Ok(()),
            true if inner.at >= cut => harmless(w),
            true => w.leaf(inner.tag, inner.body),
            false => copy(inner, cut, hollow, w),
        })
    })
}

/// `<i/>`, which no refusal comes from.
fn harmless(writer: &mut Writer) -> Written {
    writer.field(0x30, |w| w.leaf(0x40, b"i"))
}
