//! `fill`: templates filled by an order, as HTML.

use crate::REFUSED;
use crate::input::{Failure, named, read};
use jsx_precompile::{Input, fill};

/// The HTML and a line end; or which of the files is refused, and why.
pub fn filled([templates_file, order_file]: &[String; 2]) -> Result<String, Failure> {
    let (templates, order) = (read(templates_file, None)?, read(order_file, None)?);
    fill(&templates, &order).map(|html| html + "\n").map_err(|fault| {
        let file = if fault.input == Input::Templates { templates_file } else { order_file };
        Failure { said: format!("{}: {fault}", named(file)), status: REFUSED }
    })
}
