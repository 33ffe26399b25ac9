//! Cases with a name and an answer that the papers fix by hand: the marks of 01's table, its limits, the worked card,
//! every reading of it that was settled (which field counts first, what a listed name catches, and so on), and 02's
//! decimals, sums, attributes that stand twice and names in mixed case.

mod decimals;
mod limits;
mod mixed_case;
mod readings;
mod repeats;
mod sums;
mod table;

use crate::answer::LEAST_SCRATCH;
use crate::generate::{Case, Room};
use crate::make::{attribute_with, attributes_listed, element, page_of};

#[derive(Clone, Debug)]
pub struct Mark {
    pub name: String,
    pub case: Case,
    pub number: u32,
    /// The printed text of both outputs, where it is written down.
    pub printed: Option<String>,
    /// The bytes of templates out and page out, where they are written down.
    pub written: Option<[Vec<u8>; 2]>,
}

pub fn all() -> Vec<Mark> {
    let of_document_02 = [decimals::marks(), sums::marks(), repeats::marks(), mixed_case::marks()];
    [table::marks(), limits::marks(), readings::marks()].into_iter().chain(of_document_02).flatten().collect()
}

/// A page that is refused, or taken without its text being written down.
fn mark(name: &str, page: Vec<u8>, options: Vec<u8>, number: u32) -> Mark {
    let case = Case { page, options, scratch: LEAST_SCRATCH, templates_room: Room::More(3), page_room: Room::More(2) };
    Mark { name: name.to_string(), case, number, printed: None, written: None }
}

/// A page that is taken, and what is then printed. The sum tells the helpers on the first line.
fn taken(name: &str, page: Vec<u8>, options: Vec<u8>, sum: u8, behind: &str) -> Mark {
    let helpers = crate::card::HELPERS.iter().filter(|(bit, _)| sum & bit != 0);
    let named: Vec<String> = helpers.map(|(_, name)| format!("{name} as _{name}")).collect();
    let import = format!("import {{ {} }} from \"react/jsx-runtime\";\n", named.join(", "));
    let printed = if sum == 0 { behind.to_string() } else { import + behind };
    Mark { printed: Some(printed), ..mark(name, page, options, 0) }
}

/// 02, A1: an element with one attribute that is listed and has a container, and what is then printed as the second
/// part of the jsxAttr call.
fn listed_container(name: &str, tag: &str, attribute: &str, container: Vec<u8>, second: &str) -> Mark {
    let page = page_of(element(tag, &[attribute_with(attribute, container)]));
    let behind = format!(
        "const $$_tpl_1 = [\"<{tag} \", \"></{tag}>\"];\n\
         _jsxTemplate($$_tpl_1, _jsxAttr(\"{attribute}\", {second}))\n"
    );
    taken(name, page, attributes_listed(&[attribute]), 2 + 4, &behind)
}
