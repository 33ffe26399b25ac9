//! What A14 promises of every history, asked of the judge's own: guarantees that are kept, and houses that do not see each
//! other.

use super::Refusal;
use super::catalogue::{self, Catalogued, Page};
use super::compare::Catalogue;
use super::generate::history::Call;
use super::reached::Reached;
use super::shares::{Share, read_shares, used};

/// The shares of all arrivals so far, the refused ones apart: as long as they are the same, guarantees are kept.
#[derive(Default)]
pub struct Guarantees(Option<Vec<u32>>);

impl Guarantees {
    /// With one call more; none where the shares have changed.
    pub fn and(self, call: &Call, before: &[u8], answer: Catalogued, reached: &mut Reached) -> Option<Guarantees> {
        let Call::Add { name, house, shares, templates, page } = call else { return Some(self) };
        let Ok(read) = read_shares(shares, before.len()) else { return Some(self) };
        if self.0.as_ref().is_some_and(|held| held != shares) {
            return None;
        }
        let pages = catalogue::read(before, true).expect("a sound catalogue");
        let new = pages.iter().all(|page| page.name != *name) && (1..=16).contains(house);
        if let (true, Ok(mut page)) = (new, Page::arriving(*name, None, templates, page)) {
            page.house = Some(*house as u8);
            let has = used(&pages, *house as u8) + page.bytes() as u64;
            if has <= u64::from(read[*house as usize - 1].guaranteed) {
                assert_eq!(answer.number, 0, "a page within its guarantee");
                reached.met("shares: a guarantee is kept");
            }
        }
        Some(Guarantees(Some(shares.clone())))
    }
}

/// A call finds the same number, and leaves the others' pages alike, in a catalogue that differs only in another house's
/// pages: in their order or, within its guarantee, in that they are gone. `by` is the judge's own call or another's.
pub fn apart(by: &impl Catalogue, call: &Call, before: &[u8], after: &[u8], answer: Catalogued, reached: &mut Reached) {
    let Some(pages) = catalogue::read(before, true) else { return };
    let (name, asking, shares) = match call {
        Call::Add { name, house, shares, .. } => (*name, Some(*house), read_shares(shares, before.len()).ok()),
        Call::Remove { name } => (*name, None, None),
    };
    for house in 1..=16_u8 {
        let (own, others): (Vec<Page>, Vec<Page>) = pages.iter().cloned().partition(|page| page.house == Some(house));
        if own.is_empty() || asking == Some(u32::from(house)) || own.iter().any(|page| page.name == name) {
            continue;
        }
        let alike = |pages: Vec<Page>| {
            let mut bytes = vec![0; before.len()];
            catalogue::build(&mut bytes, &pages, Refusal::NotCovered).expect("no more bytes than before");
            let other = by(call, &mut bytes);
            assert_eq!(other.number, answer.number, "another house is seen");
            let of_others = |bytes: &[u8]| {
                let pages = catalogue::read(bytes, true).expect("a sound catalogue");
                pages.into_iter().filter(|page| page.house != Some(house)).collect::<Vec<Page>>()
            };
            assert!(of_others(&bytes) == of_others(after), "pages of others");
        };
        let within = |shares: [Share; 16]| used(&pages, house) <= u64::from(shares[usize::from(house) - 1].guaranteed);
        if shares.is_none_or(within) {
            alike(others.clone());
            reached.met("shares: another house is gone");
        }
        alike([others, own].concat());
        reached.met("shares: another house in another order");
    }
}
