//! A catalogue in a file: whenever the program ends or the machine stops, the file has the catalogue as it was before a
//! call or as it is behind it.

use super::{Catalogue, CatalogueError, Shares};
use crate::check::Fault;
use std::ffi::OsString;
use std::fmt;
use std::fs::{self, File};
use std::io::{self, ErrorKind, Write};
use std::path::{Path, PathBuf};

/// A catalogue in a file. Each arrival and leaving is written to a file beside it, NAME.new, synced, and renamed to its
/// name; so the file is whole at any moment, and what a call returned is in it. One program writes it at a time: that is
/// the caller's part.
///
/// ```
/// use jsx_precompile::catalogue::{CatalogueFile, Shares};
///
/// let folder = std::env::temp_dir().join(format!("jsx-precompile-{}", std::process::id()));
/// std::fs::create_dir_all(&folder)?;
/// let mut file = CatalogueFile::create(folder.join("hall.catalogue"), 100)?;
/// file.add(5, 1, &Shares::new(), &[], b"\x13\0\0")?;
///
/// let mut again = CatalogueFile::open(folder.join("hall.catalogue"))?;
/// assert_eq!(again.catalogue(), file.catalogue());
/// again.remove(5)?;
/// assert_eq!(std::fs::read(folder.join("hall.catalogue"))?, [0; 100]);
/// # std::fs::remove_dir_all(folder)?;
/// # Ok::<(), Box<dyn std::error::Error>>(())
/// ```
#[derive(Debug)]
pub struct CatalogueFile {
    file: PathBuf,
    catalogue: Catalogue,
}

impl CatalogueFile {
    /// A new file with an empty catalogue of so many bytes.
    ///
    /// ```
    /// use jsx_precompile::catalogue::{CatalogueFile, FileError};
    ///
    /// let error = CatalogueFile::create("no/such/folder/hall.catalogue", 100).unwrap_err();
    /// assert!(matches!(error, FileError::Io { .. }));
    /// ```
    ///
    /// # Errors
    ///
    /// [`FileError::Io`], also where a file of that name is there.
    pub fn create(file: impl Into<PathBuf>, length: usize) -> Result<CatalogueFile, FileError> {
        let file = file.into();
        let catalogue = Catalogue::new(length);
        let created = || {
            let beside = write_beside(&file, catalogue.bytes())?;
            // Unlike a rename this does not take the place of a file that is there.
            let linked = fs::hard_link(&beside, &file);
            fs::remove_file(&beside)?;
            linked?;
            sync_folder(&file)
        };
        match created().and_then(|()| fs::canonicalize(&file)) {
            Ok(whole) => Ok(CatalogueFile { file: whole, catalogue }),
            Err(error) => Err(FileError::io(&file, error)),
        }
    }

    /// The catalogue of a file.
    ///
    /// ```
    /// use jsx_precompile::catalogue::CatalogueFile;
    ///
    /// let error = CatalogueFile::open("no/such/file").unwrap_err();
    /// assert!(error.to_string().starts_with("no/such/file: "));
    /// ```
    ///
    /// # Errors
    ///
    /// [`FileError::Io`], and [`FileError::Unsound`] where its bytes are no catalogue.
    pub fn open(file: impl Into<PathBuf>) -> Result<CatalogueFile, FileError> {
        let file = file.into();
        // A rename to a link would take the link's place.
        let read = fs::canonicalize(&file).and_then(|whole| Ok((fs::read(&whole)?, whole)));
        let (bytes, whole) = read.map_err(|error| FileError::io(&file, error))?;
        match Catalogue::over(bytes) {
            Ok(catalogue) => Ok(CatalogueFile { file: whole, catalogue }),
            Err(fault) => Err(FileError::Unsound { file, fault }),
        }
    }

    /// What the file has.
    ///
    /// ```
    /// use jsx_precompile::catalogue::CatalogueFile;
    ///
    /// let examples = concat!(env!("CARGO_MANIFEST_DIR"), "/../examples");
    /// let file = CatalogueFile::open(format!("{examples}/festival.catalogue"))?;
    /// assert!(file.catalogue().count() > 1);
    /// # Ok::<(), jsx_precompile::catalogue::FileError>(())
    /// ```
    pub fn catalogue(&self) -> &Catalogue {
        &self.catalogue
    }

    /// A page arrives, as in [`Catalogue::add`].
    ///
    /// ```
    /// use jsx_precompile::catalogue::{CatalogueError, CatalogueFile, FileError, Shares};
    ///
    /// let examples = concat!(env!("CARGO_MANIFEST_DIR"), "/../examples");
    /// let mut file = CatalogueFile::open(format!("{examples}/festival.catalogue"))?;
    /// let error = file.add(5, 17, &Shares::new(), &[], &[]).unwrap_err();
    /// assert!(matches!(error, FileError::Refused(CatalogueError::Shares(_))));
    /// # Ok::<(), FileError>(())
    /// ```
    ///
    /// # Errors
    ///
    /// [`FileError::Refused`] and [`FileError::Io`]: the file and the catalogue are then as they were; of an error behind
    /// the rename the file may have the page already.
    pub fn add(
        &mut self,
        name: u32,
        house: u32,
        shares: &Shares,
        templates: &[u8],
        page: &[u8],
    ) -> Result<(), FileError> {
        self.change(|catalogue| catalogue.add(name, house, shares, templates, page))
    }

    /// A page leaves, as in [`Catalogue::remove`].
    ///
    /// ```
    /// use jsx_precompile::catalogue::CatalogueFile;
    ///
    /// let examples = concat!(env!("CARGO_MANIFEST_DIR"), "/../examples");
    /// let mut file = CatalogueFile::open(format!("{examples}/festival.catalogue"))?;
    /// let error = file.remove(99).unwrap_err();
    /// assert_eq!(error.to_string(), "catalogue: 22 (name absent): there is no page 99");
    /// # Ok::<(), jsx_precompile::catalogue::FileError>(())
    /// ```
    ///
    /// # Errors
    ///
    /// As for [`add`](CatalogueFile::add).
    pub fn remove(&mut self, name: u32) -> Result<(), FileError> {
        self.change(|catalogue| catalogue.remove(name))
    }

    /// The change is made on a copy, which takes the catalogue's place once it is in the file.
    fn change(&mut self, change: impl Fn(&mut Catalogue) -> Result<(), CatalogueError>) -> Result<(), FileError> {
        let mut changed = self.catalogue.clone();
        change(&mut changed).map_err(FileError::Refused)?;
        replace(&self.file, changed.bytes()).map_err(|error| FileError::io(&self.file, error))?;
        self.catalogue = changed;
        Ok(())
    }
}

/// The file has its old bytes until the rename, and from then on the new ones, which are on the disk by then.
fn replace(file: &Path, bytes: &[u8]) -> io::Result<()> {
    let beside = write_beside(file, bytes)?;
    fs::set_permissions(&beside, fs::metadata(file)?.permissions())?;
    fs::rename(&beside, file)?;
    sync_folder(file)
}

/// The name of the file with these bytes. One that an earlier program left is not written into, since it may be the file
/// itself by another name, where that program ended while it was created.
fn write_beside(file: &Path, bytes: &[u8]) -> io::Result<PathBuf> {
    let beside = PathBuf::from([file.as_os_str(), &OsString::from(".new")].into_iter().collect::<OsString>());
    match fs::remove_file(&beside) {
        Err(error) if error.kind() != ErrorKind::NotFound => return Err(error),
        _ => {}
    }
    let mut new = File::create_new(&beside)?;
    new.write_all(bytes)?;
    new.sync_all()?;
    Ok(beside)
}

/// A new name is on the disk once its folder is.
fn sync_folder(file: &Path) -> io::Result<()> {
    let folder = file.parent().filter(|folder| !folder.as_os_str().is_empty());
    File::open(folder.unwrap_or(Path::new(".")))?.sync_all()
}

/// Why a file's catalogue is not read or not changed.
///
/// ```
/// use jsx_precompile::catalogue::{CatalogueFile, FileError};
///
/// let examples = concat!(env!("CARGO_MANIFEST_DIR"), "/../examples");
/// let error = CatalogueFile::open(format!("{examples}/worked.page")).unwrap_err();
/// assert!(matches!(error, FileError::Unsound { fault, .. } if fault.at == 0));
/// ```
#[derive(Debug)]
pub enum FileError {
    /// The file, or the one beside it, cannot be read or written.
    Io {
        /// Its name.
        file: PathBuf,
        /// Why.
        error: io::Error,
    },
    /// The bytes of the file are no catalogue.
    Unsound {
        /// Its name.
        file: PathBuf,
        /// Where and why.
        fault: Fault,
    },
    /// The page does not come or leave.
    Refused(CatalogueError),
}

impl FileError {
    fn io(file: &Path, error: io::Error) -> FileError {
        FileError::Io { file: file.to_path_buf(), error }
    }
}

impl fmt::Display for FileError {
    fn fmt(&self, f: &mut fmt::Formatter<'_>) -> fmt::Result {
        match self {
            FileError::Io { file, error } => write!(f, "{}: {error}", file.display()),
            FileError::Unsound { file, fault } => write!(f, "{}: {fault}", file.display()),
            FileError::Refused(error) => write!(f, "{error}"),
        }
    }
}

impl std::error::Error for FileError {
    fn source(&self) -> Option<&(dyn std::error::Error + 'static)> {
        match self {
            FileError::Io { error, .. } => Some(error),
            FileError::Unsound { fault, .. } => Some(fault),
            FileError::Refused(error) => Some(error),
        }
    }
}
