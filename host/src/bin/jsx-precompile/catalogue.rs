//! `catalogue`: the pages of several houses in one file.

use crate::input::{Failure, read};
use crate::show::{self, numbered};
use crate::words::Action;
use crate::{BAD_CALL, REFUSED};
use jsx_precompile::Input;
use jsx_precompile::catalogue::{Catalogue, CatalogueError, CatalogueFile, FileError, Share, Shares, StandingPage};
use jsx_precompile::limits::HOUSES;

/// What is printed once it is done, or why it is not.
pub fn done(file: &str, action: &Action) -> Result<String, Failure> {
    match action {
        Action::New { length } => CatalogueFile::create(file, *length).map(|_| String::new()).map_err(failed),
        Action::Add { name, house, files, shares } => {
            let (templates, page) = (read(&files[0], None)?, read(&files[1], None)?);
            let shares = shares_of(shares.as_deref())?;
            let mut catalogue = CatalogueFile::open(file).map_err(failed)?;
            let added = catalogue.add(*name, *house, &shares, &templates, &page);
            added.map_err(|error| failed_with(file, files, error))?;
            let page = catalogue.catalogue().page(*name).map(|page| printed(&page));
            Ok(page.unwrap_or_default())
        }
        Action::Remove { name } => {
            let mut catalogue = CatalogueFile::open(file).map_err(failed)?;
            catalogue.remove(*name).map(|()| String::new()).map_err(|error| failed_in(file, error))
        }
        Action::List { shares } => {
            let shares = shares.as_deref().map(|file| shares_of(Some(file))).transpose()?;
            let catalogue = CatalogueFile::open(file).map_err(failed)?;
            Ok(listed(catalogue.catalogue(), shares.as_ref()))
        }
        Action::Show { name, whole } => shown(file, *name, *whole),
    }
}

fn shares_of(file: Option<&str>) -> Result<Shares, Failure> {
    let Some(file) = file else { return Ok(Shares::new()) };
    let failed = |said: String| Failure { said: format!("{file}: {said}"), status: BAD_CALL };
    let text = std::fs::read_to_string(file).map_err(|error| failed(error.to_string()))?;
    text.parse().map_err(|error: jsx_precompile::catalogue::SharesError| failed(error.to_string()))
}

fn failed(error: FileError) -> Failure {
    let status = if matches!(error, FileError::Io { .. }) { BAD_CALL } else { REFUSED };
    Failure { said: error.to_string(), status }
}

/// What is refused in a catalogue, with the name of its file.
fn failed_in(file: &str, error: FileError) -> Failure {
    match error {
        FileError::Refused(error) => Failure { said: format!("{file}: {error}"), status: REFUSED },
        error => failed(error),
    }
}

/// The same, and of a page which of its two files it is.
fn failed_with(file: &str, [templates, page]: &[String; 2], error: FileError) -> Failure {
    match &error {
        FileError::Refused(CatalogueError::Page(fault)) => {
            let file = if fault.input == Input::Templates { templates } else { page };
            failed_in(crate::named(file), error)
        }
        _ => failed_in(file, error),
    }
}

fn printed(page: &StandingPage) -> String {
    let (at, name, house, bytes) = (page.at(), page.name(), page.house(), page.bytes());
    format!("{at:8}  page {name} of house {house}: {bytes} bytes, {}\n", numbered(page))
}

/// A line for each page, one for each house that has pages or a share, and one for all.
fn listed(catalogue: &Catalogue, shares: Option<&Shares>) -> String {
    let pages: String = catalogue.pages().map(|page| printed(&page)).collect();
    let houses: String = (1..=HOUSES as u32).filter_map(|house| of_house(catalogue, house, shares)).collect();
    let (count, used, all) = (catalogue.count(), catalogue.used(), catalogue.bytes().len());
    let templates = catalogue.templates().count();
    let counted = |count: usize, what: &str| format!("{count} {what}{}", if count == 1 { "" } else { "s" });
    format!("{pages}{houses}{}, {}, {used} of {all} bytes\n", counted(count, "page"), counted(templates, "template"))
}

fn of_house(catalogue: &Catalogue, house: u32, shares: Option<&Shares>) -> Option<String> {
    let used = catalogue.used_by(house);
    let share = shares.and_then(|shares| shares.share(house)).filter(|share| *share != Share::FREE);
    if used == 0 && share.is_none() {
        return None;
    }
    let guaranteed = share.map_or(String::new(), |Share { guaranteed, most }| {
        let most = if most == u32::MAX { String::new() } else { format!(", at most {most}") };
        format!(", guaranteed {guaranteed}{most}")
    });
    let room = shares.map_or(String::new(), |shares| format!("; room for a page of {}", catalogue.room(house, shares)));
    Some(format!("house {house}: {used} bytes{guaranteed}{room}\n"))
}

/// All pages, or one; where the file is damaged, all, and the place.
fn shown(file: &str, name: Option<u32>, whole: bool) -> Result<String, Failure> {
    let catalogue = CatalogueFile::open(file).map_err(failed)?;
    let catalogue = catalogue.catalogue();
    let Some(name) = name else { return Ok(show::show(catalogue.bytes(), Input::Catalogue, whole).0) };
    let page = catalogue.page(name).map(|page| show::page(&page, whole));
    page.ok_or_else(|| failed_in(file, FileError::Refused(CatalogueError::NameAbsent { name })))
}
