//! 01, Limits and the answer: the whole call with all refusals in their order and its effect on every lent byte.

use crate::answer::{Answer, LEAST_SCRATCH, MOST_OPTIONS, MOST_PAGE, Refusal};
use crate::decode::{Options, decode, read_page};
use crate::encode::{Output, encode};
use crate::serialized;
use crate::stand_ins::swc_ecma_ast::Module;
use crate::sums;
use crate::transform::{Copy, transform, transform_with};

/// What page and options give before any lent byte is looked at: 2 to 11, 16, 19, or both outputs.
pub type Outcome = Result<Output, Refusal>;

pub fn outcome(page: &[u8], options: &[u8]) -> Outcome {
    outcome_and_copy(page, options).0
}

/// The outcome, and the copy of the Rust that gave it: the unchanged one or, where that stops, the patched one; none
/// where 2 to 8 came first.
pub fn outcome_and_copy(page: &[u8], options: &[u8]) -> (Outcome, Option<Copy>) {
    let mut copy = None;
    let outcome = outcome_by(page, options, |options, module| copy = Some(transform(options, module)));
    (outcome, copy)
}

/// The outcome by one copy alone; by the unchanged one only for pages on which it does not stop.
pub fn outcome_with(copy: Copy, page: &[u8], options: &[u8]) -> Outcome {
    outcome_by(page, options, |options, module| transform_with(copy, options, module))
}

fn outcome_by(page: &[u8], options: &[u8], run: impl FnOnce(&Options, &mut Module)) -> Outcome {
    if page.len() > MOST_PAGE || options.len() > MOST_OPTIONS {
        return Err(Refusal::InputTooLong);
    }
    let (options, mut module) = decode(page, options)?;
    if options.sums {
        // 2 to 8 were given for the page as it came; what follows is for the worked one (02, A12).
        module = read_page(&sums::worked(page)).expect("a page stays one when its sums are worked out");
    }
    let before = module.clone();
    run(&options, &mut module);
    match encode(&module) {
        // 10 comes before what is said of serialized elements, 11 behind it.
        Err(Refusal::TagLeft) => Err(Refusal::TagLeft),
        encoded => match serialized::refusal(&serialized::elements(&options, before)) {
            Some(refusal) => Err(refusal),
            None => encoded,
        },
    }
}

/// The answer to a call, with the same effect on scratch (the desk), templates out (shelf out) and page out as 01 says.
pub fn judge(page: &[u8], options: &[u8], scratch: &mut [u8], templates_out: &mut [u8], page_out: &mut [u8]) -> Answer {
    // A desk too short is answered before anything is read.
    let outcome = if scratch.len() < LEAST_SCRATCH { Err(Refusal::ScratchTooSmall) } else { outcome(page, options) };
    settle(&outcome, scratch, templates_out, page_out)
}

/// The last step: 1, 12 and 13, and what is written where.
/// Accepted: bytes behind the written ends stay. Refused: both outs are zero. The desk is zero after all but 1.
pub fn settle(outcome: &Outcome, scratch: &mut [u8], templates_out: &mut [u8], page_out: &mut [u8]) -> Answer {
    let fitting = if scratch.len() < LEAST_SCRATCH {
        Err(Refusal::ScratchTooSmall)
    } else {
        scratch.fill(0);
        fit(outcome, templates_out.len(), page_out.len())
    };
    match fitting {
        Ok(output) => {
            templates_out[..output.templates.len()].copy_from_slice(&output.templates);
            page_out[..output.page.len()].copy_from_slice(&output.page);
            Answer {
                number: 0,
                templates_bytes: output.templates.len(),
                page_bytes: output.page.len(),
                templates: output.count,
            }
        }
        Err(refusal) => {
            templates_out.fill(0);
            page_out.fill(0);
            Answer::refused(refusal)
        }
    }
}

fn fit(outcome: &Outcome, templates: usize, page: usize) -> Result<&Output, Refusal> {
    let output = outcome.as_ref().map_err(|refusal| *refusal)?;
    if output.templates.len() > templates {
        Err(Refusal::TemplatesTooSmall)
    } else if output.page.len() > page {
        Err(Refusal::PageTooSmall)
    } else {
        Ok(output)
    }
}
