//! 50,000 seeds: demand 3, A9, the lent bytes, and that the generator reaches what it must.

use oracle::generate;
use oracle::kept::PLACES;
use oracle::sweep::{Settings, sweep};

#[test]
#[cfg_attr(not(jsx_source), ignore = "jsx_precompile.rs is not there")]
fn fifty_thousand_seeds() {
    let report = sweep(&Settings { first: 0, count: 50_000, arms: true, progress: false });
    print!("{}", report.table());
    assert_eq!(report.violations, 0);
    assert_eq!(report.shortfalls(), Vec::<String>::new());
    assert!(report.kept.kept > 0 && PLACES.iter().all(|place| report.kept.lost_in(*place) > 0), "{:?}", report.kept);
}

#[test]
fn a_seed_gives_the_same_case_again() {
    for seed in 0..300 {
        let (one, two) = (generate::case(seed), generate::case(seed));
        assert_eq!(format!("{one:?}"), format!("{two:?}"));
    }
}
