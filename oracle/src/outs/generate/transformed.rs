//! What the transform's judge makes of a page, in whichever layout it writes.

use super::pair::Pair;
use crate::generate::{self, rng::Rng};
use crate::outs::{Layout, page, templates};

/// How many seeds are tried: most pages are taken.
const TRIES: usize = 4;

/// None where the Rust is not there, or a few pages in a row are refused.
pub fn pair(rng: &mut Rng) -> Option<Pair> {
    if !crate::AVAILABLE {
        return None;
    }
    (0..TRIES).find_map(|_| {
        let case = generate::case(rng.draw() >> 40);
        let output = crate::outcome(&case.page, &case.options).ok()?;
        let [old, new] = [Layout::Old, Layout::New].map(|layout| read(&output.templates, &output.page, layout));
        let mut pair = old.or(new).expect("the transform's judge writes one of the two layouts");
        for template in &mut pair.templates {
            template.kinds = templates::kinds(&template.strings).expect("each gap of the transform's has a kind");
        }
        Some(pair)
    })
}

fn read(templates: &[u8], page: &[u8], layout: Layout) -> Option<Pair> {
    Some(Pair { templates: templates::read(templates, layout).ok()?, parts: page::read(page, layout).ok()? })
}
