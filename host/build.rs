//! Links libjsx_precompile.a, from where JSX_PRECOMPILE_LIB says, else from target/staticlib of the repository. The
//! library is made for one target; a build for another is refused here, in words, and not by the linker.

use std::env;
use std::path::{Path, PathBuf};

const VARIABLE: &str = "JSX_PRECOMPILE_LIB";
const ARCHIVE: &str = "libjsx_precompile.a";

/// What `rt lib` makes the library for.
const ARCHITECTURE: &str = "x86_64";
const SYSTEM: &str = "linux";

fn main() {
    println!("cargo::rerun-if-changed=build.rs");
    println!("cargo::rerun-if-env-changed={VARIABLE}");
    match right_target().and_then(|()| archive()) {
        Ok(archive) => {
            let folder = archive.parent().expect("a file stands in a folder").display();
            println!("cargo::rustc-link-search=native={folder}");
            println!("cargo::rustc-link-lib=static=jsx_precompile");
            // For the tests that link a C program.
            println!("cargo::rustc-env={VARIABLE}={folder}");
        }
        Err(words) => println!("cargo::error={words}"),
    }
}

fn given(name: &str) -> String {
    env::var(name).unwrap_or_else(|_| panic!("cargo gives {name}"))
}

fn right_target() -> Result<(), String> {
    if given("CARGO_CFG_TARGET_ARCH") == ARCHITECTURE && given("CARGO_CFG_TARGET_OS") == SYSTEM {
        return Ok(());
    }
    Err(format!("{ARCHIVE} is made for {ARCHITECTURE} {SYSTEM} alone, and this build is for {}", given("TARGET")))
}

fn archive() -> Result<PathBuf, String> {
    let named = match env::var_os(VARIABLE) {
        Some(word) => from_caller(Path::new(&word)),
        None => Path::new(&given("CARGO_MANIFEST_DIR")).join("../target/staticlib"),
    };
    let named = if named.ends_with(ARCHIVE) { named } else { named.join(ARCHIVE) };
    println!("cargo::rerun-if-changed={}", named.display());
    named.canonicalize().map_err(|error| {
        let place = named.display();
        format!(
            "{place}: {error}; make it by `tools/build.sh library` in the repository, or say in {VARIABLE} where it is"
        )
    })
}

/// A path as the one who calls cargo sees it. Build scripts run in their crate's folder; the shell's is in PWD.
fn from_caller(path: &Path) -> PathBuf {
    if path.is_absolute() {
        return path.to_path_buf();
    }
    println!("cargo::rerun-if-env-changed=PWD");
    env::var_os("PWD").map_or_else(PathBuf::new, PathBuf::from).join(path)
}
