//! Many seeds of each call in a row, and what they reached. What A7 and A13 promise of all calls is asked of each.

use super::catalogue::{self, Page};
use super::convert::{self, Way};
use super::fill;
use super::find::find;
use super::generate::history::{Call, history, run};
use super::generate::{convert_case, fill_case, find_case};
use super::promises::{Guarantees, apart};
use super::reached::Reached;

pub fn conversions(first: u64, count: u64) -> Reached {
    let mut reached = Reached::default();
    for seed in first..first + count {
        let case = convert_case(seed);
        let outcome = convert::outcome(case.way, &case.templates, &case.page);
        let lent = case.lent(&outcome);
        let (mut templates, mut page) = (vec![0xa5; lent.0], vec![0x5a; lent.1]);
        let answer = convert::settle(&outcome, &mut templates, &mut page);
        let left = |byte: u8| if answer.number == 0 { byte } else { 0 };
        assert!(templates[answer.templates_bytes..].iter().all(|byte| *byte == left(0xa5)), "seed {seed}: templates");
        assert!(page[answer.page_bytes..].iter().all(|byte| *byte == left(0x5a)), "seed {seed}: page");
        reached.meet_convert(&case, lent, answer);
        // What was converted comes back byte for byte, wherever both ways are taken.
        if let Ok(outs) = outcome {
            let back = if case.way == Way::Up { Way::Down } else { Way::Up };
            match convert::outcome(back, &outs.templates, &outs.page) {
                Ok(again) => {
                    assert_eq!(
                        (again.templates, again.page),
                        (case.templates, case.page),
                        "seed {seed}: not as it came"
                    );
                }
                // On the way up again a body may be too long only where it was too long before, and then it was refused.
                Err(refusal) => panic!("seed {seed}: {refusal:?} on the way back"),
            }
        }
    }
    reached
}

pub fn finds(first: u64, count: u64) -> Reached {
    let mut reached = Reached::default();
    for seed in first..first + count {
        let case = find_case(seed);
        reached.meet_find(&case, &find(&case.templates, &case.numbers));
    }
    reached
}

pub fn fills(first: u64, count: u64) -> Reached {
    let mut reached = Reached::default();
    for seed in first..first + count {
        let case = fill_case(seed);
        let outcome = fill::outcome(&case.templates, &case.order);
        let mut html = vec![0xa5; case.lent(&outcome)];
        let answer = fill::settle(&outcome, &mut html);
        let left = if answer.number == 0 { 0xa5 } else { 0 };
        assert!(html[answer.html_bytes..].iter().all(|byte| *byte == left), "seed {seed}: HTML");
        reached.meet_fill(&case, answer);
    }
    reached
}

/// With shares (A14) or without (A13). A refused call leaves the catalogue; a taken one leaves it built afresh from the
/// pages that remain, and only what follows the place is touched.
pub fn histories(housed: bool, first: u64, count: u64) -> Reached {
    let mut reached = Reached::default();
    for seed in first..first + count {
        let history = history(seed, housed);
        let mut shares = history.catalogue.iter().all(|byte| *byte == 0).then(Guarantees::default);
        run(&history, |step, before, after, answer| {
            reached.meet_catalogue(housed, step, before, answer);
            if housed && step.damage.is_none() {
                let judge = |call: &Call, bytes: &mut [u8]| call.judge(true, bytes);
                apart(&judge, &step.call, before, after, answer, &mut reached);
                shares = shares.take().and_then(|held| held.and(&step.call, before, answer, &mut reached));
            }
            if answer.number != 0 {
                assert!(before == after && (answer.used, answer.pages) == (0, 0), "seed {seed}: a refused call");
                return;
            }
            let [was, is] = [before, after].map(|bytes| catalogue::read(bytes, housed).expect("a sound catalogue"));
            assert_eq!((answer.used, answer.pages), (bytes(&is), is.len()), "seed {seed}");
            let place = match &step.call {
                Call::Add { .. } => was.len(),
                Call::Remove { name } => was.iter().position(|page| page.name == *name).expect("it was there"),
            };
            assert_eq!(before[..bytes(&was[..place])], after[..bytes(&was[..place])], "seed {seed}: before the place");
            let mut afresh = vec![0; after.len()];
            is.iter().for_each(|page| arrive(&mut afresh, page));
            assert!(afresh == after, "seed {seed}: not as built afresh");
        });
    }
    reached
}

fn bytes(pages: &[Page]) -> usize {
    pages.iter().map(Page::bytes).sum()
}

/// One page more, by its own bytes.
fn arrive(catalogue: &mut [u8], page: &Page) {
    let mut pages = catalogue::read(catalogue, page.house.is_some()).expect("a sound catalogue");
    pages.push(page.clone());
    catalogue::build(catalogue, &pages, super::Refusal::CatalogueTooSmall).expect("it stood there");
}
