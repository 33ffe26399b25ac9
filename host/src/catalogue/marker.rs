//! The place of the templates in a page out: an 83 stands before the first 10 or 12 or, where there is none, before all
//! items. Readers of page out take it anywhere; a catalogue does not, as document 02 has it.

use crate::field::{Fields, tag_name};

/// Where no 83 may have stood as it did, and why; none where its place is right. The items are looked at as far as they
/// are fields.
pub(super) fn misplaced(page: &[u8]) -> Option<(usize, String)> {
    let mut seen = Seen::default();
    Fields::new(page).find_map(|field| {
        let reason = seen.behind(field.tag, field.at)?;
        Some((field.at, format!("{:02x} ({}) {reason}", field.tag, tag_name(field.tag).unwrap_or("no tag"))))
    })
}

/// The 83 behind which an export or a statement is missing, in a page out that is right so far.
pub(super) fn without_item(page: &[u8]) -> Option<(usize, String)> {
    let mut seen = Seen::default();
    for field in Fields::new(page) {
        seen.behind(field.tag, field.at);
    }
    let due = seen.marker.filter(|marker| marker.behind_items && !seen.settled)?;
    Some((
        due.at,
        "83 (templates go here) stands behind items, and no export (10) or statement (12) follows".to_string(),
    ))
}

#[derive(Clone, Copy)]
struct Marker {
    at: usize,
    behind_items: bool,
}

#[derive(Default)]
struct Seen {
    /// An 11 or 13, before the 83 or behind it.
    others: bool,
    marker: Option<Marker>,
    /// A 10 or 12.
    settled: bool,
}

impl Seen {
    /// With one more item; why it may not stand here.
    fn behind(&mut self, tag: u8, at: usize) -> Option<&'static str> {
        match (tag, self.marker) {
            (0x83, _) if self.settled => return Some("stands behind the first export (10) or statement (12)"),
            (0x83, None) => {
                self.marker = Some(Marker { at, behind_items: self.others });
                self.others = false;
            }
            (0x10 | 0x12, Some(Marker { behind_items: false, .. })) if self.others && !self.settled => {
                return Some("stands behind an 83 that is not right before the first export (10) or statement (12)");
            }
            (0x10 | 0x12, _) => self.settled = true,
            (0x11 | 0x13, Some(Marker { behind_items: true, .. })) if !self.settled => {
                return Some(
                    "stands between an 83 behind items and the export (10) or statement (12) that must follow",
                );
            }
            (0x11 | 0x13, _) => self.others = true,
            _ => {}
        }
        None
    }
}
