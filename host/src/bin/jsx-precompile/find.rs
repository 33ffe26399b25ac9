//! `find`: where the templates with some numbers stand.

use crate::show::first;
use jsx_precompile::out::Templates;
use jsx_precompile::{Input, Refusal, find};

/// A line for each number, as `show` has it, and how many templates were read; or why there is nothing.
pub fn printed(templates: &[u8], numbers: &[u32]) -> Result<String, String> {
    let found = find(templates, numbers).map_err(|refusal| said(templates, refusal))?;
    let line = |(number, place): (&u32, &Option<usize>)| match place {
        Some(at) => format!("{at:6}  {}\n", first(&templates[*at..])),
        None => format!("absent  84 template {number}\n"),
    };
    let lines: String = numbers.iter().zip(found.places()).map(line).collect();
    let (count, records) = (found.places().iter().flatten().count(), found.records());
    let read = if records == 1 { "template read" } else { "templates read" };
    Ok(format!("{lines}{count} of {} found, {records} {read}\n", numbers.len()))
}

/// The refusal, with its place where the templates are refused.
fn said(templates: &[u8], refusal: Refusal) -> String {
    match Templates::read(templates) {
        Err(fault) if fault.refusal == refusal => fault.to_string(),
        _ if refusal == Refusal::NotRising => refusal.to_string(),
        // Templates of before, which are read and not looked up.
        _ => format!(
            "{}, byte 0: {} ({}): 80s are not looked up; `jsx-precompile upgrade` makes 84s of them",
            Input::Templates,
            refusal.number(),
            refusal.word()
        ),
    }
}
