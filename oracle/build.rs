// Takes jsx_precompile.rs from where it is and puts it into OUT_DIR, never into the repository: once as it is (this
// copy is the judge), once with its `todo!` filled in (this copy judges the pages on which the first stops), and twice
// more made from the second: with a note of each element that is serialized, and with a counter in each arm (this copy
// only shows how much of the Rust was reached).
#[path = "build/count_arms.rs"]
mod count_arms;
#[path = "build/fill_todo.rs"]
mod fill_todo;
#[path = "build/note_serialized.rs"]
mod note_serialized;

use std::path::{Path, PathBuf};
use std::{env, fs};

const VARIABLE: &str = "JSX_PRECOMPILE_RS";
const PLACES: [&str; 2] =
    ["../shared/docs/src/src/transpiling/jsx_precompile.rs", "../shared/src--src--transpiling--jsx_precompile.rs.txt"];

fn main() {
    println!("cargo::rustc-check-cfg=cfg(jsx_source)");
    println!("cargo::rerun-if-changed=build.rs");
    println!("cargo::rerun-if-changed=build/count_arms.rs");
    println!("cargo::rerun-if-changed=build/fill_todo.rs");
    println!("cargo::rerun-if-changed=build/note_serialized.rs");
    println!("cargo::rerun-if-env-changed={VARIABLE}");
    let places = places();
    // Only what is there is watched: cargo would build anew each time for the sake of a file that is not.
    match places.iter().find(|p| p.is_file()) {
        Some(place) => take(place),
        None => {
            let place = places[0].display();
            println!("cargo::rerun-if-changed={place}");
            println!(
                "cargo::warning=jsx_precompile.rs is not there ({place}): built without it, its tests are ignored"
            );
        }
    }
}

fn places() -> Vec<PathBuf> {
    if let Some(named) = env::var_os(VARIABLE) {
        return vec![PathBuf::from(named)];
    }
    let here = env::var("CARGO_MANIFEST_DIR").expect("cargo gives it");
    let root = Path::new(&here).parent().expect("oracle/ stands in the repository").to_path_buf();
    PLACES.iter().map(|p| root.join(p)).collect()
}

fn take(place: &Path) {
    println!("cargo::rerun-if-changed={}", place.display());
    let source = fs::read_to_string(place).expect("jsx_precompile.rs is text");
    let made =
        fill_todo::filled(&source).and_then(|patched| note_serialized::noting(&patched).map(|noted| (patched, noted)));
    let (patched, noted) = match made {
        Ok(both) => both,
        Err(words) => return println!("cargo::error={words}"),
    };
    let (counted, arms) = count_arms::with_counters(&patched);
    let out = PathBuf::from(env::var("OUT_DIR").expect("cargo gives it"));
    let copies = [
        ("jsx_precompile.rs", source),
        ("jsx_precompile_patched.rs", patched),
        ("jsx_precompile_noted.rs", noted),
        ("jsx_precompile_counted.rs", counted),
        ("arms.rs", arms),
    ];
    for (name, text) in copies {
        fs::write(out.join(name), text).expect("OUT_DIR can be written");
    }
    println!("cargo::rustc-cfg=jsx_source");
}
