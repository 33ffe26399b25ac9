//! `upgrade` and `downgrade`: templates out and page out of before made new, and new ones made old.

use crate::REFUSED;
use crate::input::{Failure, named, read};
use crate::words::Way;
use jsx_precompile::out::{PageOut, Templates};
use jsx_precompile::{Converted, Refusal, downgrade, upgrade};

/// Both, converted; or which of the files is refused, and why.
pub fn converted(way: Way, [templates_file, page_file]: &[String; 2]) -> Result<Converted, Failure> {
    let (templates, page) = (read(templates_file, None)?, read(page_file, None)?);
    let call = match way {
        Way::Up => upgrade,
        Way::Down => downgrade,
    };
    call(&templates, &page).map_err(|refusal| {
        // Templates that are refused alone are the cause: they are looked at first.
        let (file, fault) = match call(&templates, &[]) {
            Err(alone) if alone == refusal => (templates_file, Templates::read(&templates).err()),
            // A page out of before is read by the library alone.
            _ => (page_file, PageOut::read(&page).err().filter(|_| way == Way::Down)),
        };
        let said = match fault {
            Some(fault) if fault.refusal == refusal => fault.to_string(),
            _ if matches!(refusal, Refusal::Truncated | Refusal::Misplaced) => format!("{refusal}{}", layouts(way)),
            _ => refusal.to_string(),
        };
        Failure { said: format!("{}: {said}", named(file)), status: REFUSED }
    })
}

/// What is easily mistaken.
fn layouts(way: Way) -> &'static str {
    match way {
        Way::Up => "; what goes up has templates of 80s and calls with numbers of two bytes",
        Way::Down => "; what goes down has templates of 84s and calls with numbers of four bytes",
    }
}
