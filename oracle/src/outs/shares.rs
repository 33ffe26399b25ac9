//! 02, A14: what each house is guaranteed of the catalogue, and the most that it may have.

use super::catalogue::{self, Catalogued, Page};
use super::row::ensure;
use super::{Read, Refusal};

pub const HOUSES: usize = 16;

/// In bytes of the catalogue.
#[derive(Clone, Copy, Debug, PartialEq, Eq)]
pub struct Share {
    pub guaranteed: u32,
    pub most: u32,
}

/// Guaranteed and most of house 1, of house 2, and so on; 26 for another count, for a guarantee above its most, and for
/// guarantees that add up to more than the catalogue.
pub fn read_shares(shares: &[u32], catalogue: usize) -> Read<[Share; HOUSES]> {
    let pairs: Vec<Share> = shares.chunks_exact(2).map(|pair| Share { guaranteed: pair[0], most: pair[1] }).collect();
    ensure(shares.len() == 2 * HOUSES, Refusal::BadShares)?;
    ensure(pairs.iter().all(|share| share.guaranteed <= share.most), Refusal::BadShares)?;
    let guaranteed: u64 = pairs.iter().map(|share| u64::from(share.guaranteed)).sum();
    ensure(guaranteed <= catalogue as u64, Refusal::BadShares)?;
    pairs.try_into().map_err(|_| Refusal::BadShares)
}

/// The bytes of a house's pages.
pub fn used(pages: &[Page], house: u8) -> u64 {
    pages.iter().filter(|page| page.house == Some(house)).map(|page| page.bytes() as u64).sum()
}

/// `jsx_precompile_catalogue_add`: 4 for the catalogue; the page's own; 26; 21; 24; 25.
pub fn add(catalogue: &mut [u8], name: u32, house: u32, shares: &[u32], templates: &[u8], page: &[u8]) -> Catalogued {
    let outcome = catalogue::read(catalogue, true).ok_or(Refusal::Misplaced).and_then(|mut pages| {
        let mut arriving = Page::arriving(name, None, templates, page)?;
        let house = u8::try_from(house).ok().filter(|house| (1..=16).contains(house)).ok_or(Refusal::BadShares)?;
        let shares = read_shares(shares, catalogue.len())?;
        ensure(pages.iter().all(|page| page.name != name), Refusal::NamePresent)?;
        arriving.house = Some(house);
        pages.push(arriving);
        let used = |house: u8| used(&pages, house);
        let share = |house: u8| shares[usize::from(house) - 1];
        ensure(used(house) <= u64::from(share(house).most), Refusal::OverMost)?;
        // What is free once the page stands covers what the others have not used of their guarantees.
        let all: u64 = (1..=16).map(used).sum();
        let others = (1..=16).filter(|other| *other != house);
        let unused: u64 = others.map(|other| u64::from(share(other).guaranteed).saturating_sub(used(other))).sum();
        ensure(all + unused <= catalogue.len() as u64, Refusal::NotCovered)?;
        catalogue::build(catalogue, &pages, Refusal::NotCovered)
    });
    catalogue::answer(outcome)
}

/// `jsx_precompile_catalogue_remove`: 4 for the catalogue, then 22.
pub fn remove(catalogue: &mut [u8], name: u32) -> Catalogued {
    catalogue::leave(catalogue, true, name)
}
