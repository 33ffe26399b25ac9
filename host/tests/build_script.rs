//! build.rs as a program of its own: what it says for another target, and where it looks for the library.

mod common;

use common::say;
use std::path::{Path, PathBuf};
use std::process::Command;
use std::sync::OnceLock;

/// build.rs, compiled; none where there is no compiler.
fn script() -> Option<&'static PathBuf> {
    static SCRIPT: OnceLock<Option<PathBuf>> = OnceLock::new();
    let compile = || {
        let program = Path::new(env!("CARGO_TARGET_TMPDIR")).join("build_script");
        let source = Path::new(env!("CARGO_MANIFEST_DIR")).join("build.rs");
        let mut rustc = Command::new(std::env::var_os("RUSTC").unwrap_or_else(|| "rustc".into()));
        rustc.args(["--edition", "2024", "-o"]).arg(&program).arg(source);
        let Ok(output) = rustc.output() else {
            say("skipped: no rustc here");
            return None;
        };
        assert!(output.status.success(), "{}", String::from_utf8_lossy(&output.stderr));
        Some(program)
    };
    SCRIPT.get_or_init(compile).as_ref()
}

/// What it tells cargo, called in `folder` for that target, with the variable as given.
fn told(folder: &Path, target: [&str; 3], library: Option<&str>) -> Option<String> {
    let [architecture, system, name] = target;
    let mut script = Command::new(script()?);
    script
        .env("CARGO_MANIFEST_DIR", env!("CARGO_MANIFEST_DIR"))
        .env("CARGO_CFG_TARGET_ARCH", architecture)
        .env("CARGO_CFG_TARGET_OS", system)
        .env("TARGET", name)
        .env("PWD", folder)
        .env_remove("JSX_PRECOMPILE_LIB")
        .current_dir(env!("CARGO_MANIFEST_DIR"));
    if let Some(library) = library {
        script.env("JSX_PRECOMPILE_LIB", library);
    }
    let output = script.output().expect("it runs");
    assert!(output.status.success(), "{output:?}");
    Some(String::from_utf8(output.stdout).expect("text"))
}

const OURS: [&str; 3] = ["x86_64", "linux", "x86_64-unknown-linux-gnu"];

#[test]
fn targets() {
    let here = Path::new(env!("CARGO_MANIFEST_DIR"));
    for other in [
        ["aarch64", "linux", "aarch64-unknown-linux-gnu"],
        ["x86_64", "macos", "x86_64-apple-darwin"],
        ["x86_64", "windows", "x86_64-pc-windows-msvc"],
    ] {
        let Some(told) = told(here, other, Some(env!("JSX_PRECOMPILE_LIB"))) else { return };
        let expected = format!(
            "cargo::error=libjsx_precompile.a is made for x86_64 linux alone, and this build is for {}\n",
            other[2]
        );
        assert!(told.ends_with(&expected) && !told.contains("rustc-link"), "{told}");
    }
    say("build script: three other targets refused");
}

#[test]
fn places() {
    let folder = Path::new(env!("JSX_PRECOMPILE_LIB"));
    let archive = folder.join("libjsx_precompile.a");
    let links = format!("cargo::rustc-link-search=native={}\n", folder.display());
    let (parent, name) = (folder.parent().expect("a folder"), folder.file_name().expect("a name"));
    let name = name.to_str().expect("text");
    // a folder, the file itself, and both as seen from the caller's folder
    for (caller, word) in [
        (Path::new("/"), folder.to_str().expect("text").to_string()),
        (Path::new("/"), archive.to_str().expect("text").to_string()),
        (parent, name.to_string()),
        (parent, format!("./{name}/libjsx_precompile.a")),
        (folder, ".".to_string()),
    ] {
        let Some(told) = told(caller, OURS, Some(&word)) else { return };
        assert!(told.contains(&links) && !told.contains("cargo::error"), "{word}: {told}");
    }
    let Some(told) = told(parent, OURS, Some("no/such/folder")) else { return };
    let expected = format!("cargo::error={}/no/such/folder/libjsx_precompile.a: ", parent.display());
    assert!(told.contains(&expected) && told.contains("JSX_PRECOMPILE_LIB"), "{told}");
}
