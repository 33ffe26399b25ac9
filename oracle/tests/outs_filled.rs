//! 02, A8: whoever fills an accepted page's templates gets well-nested HTML.

use oracle::demand3::well_nested;
use oracle::generate::rng::Rng;
use oracle::outs::generate::{order, transformed};
use oracle::outs::{Layout, fill, templates};

#[test]
#[cfg_attr(not(jsx_source), ignore = "jsx_precompile.rs is not there")]
fn filled_templates_are_well_nested() {
    let (mut filled, mut refused, mut bytes) = (0, 0, 0);
    for seed in 0..4_000 {
        let rng = &mut Rng::new(seed);
        let Some(pair) = transformed::pair(rng) else { continue };
        let Some(written) = templates::write(&pair.templates, Layout::New) else { continue };
        let order = order::order(rng, &pair.templates);
        match fill::outcome(&written, &order) {
            Ok(html) => {
                assert!(well_nested(&html), "seed {seed}: {}", String::from_utf8_lossy(&html));
                filled += 1;
                bytes += html.len();
            }
            Err(_) => refused += 1,
        }
    }
    println!("{filled} filled, {bytes} bytes of HTML, {refused} orders refused");
    assert!(filled > 1_000 && refused > 0);
}
