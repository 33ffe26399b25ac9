//! A catalogue in a file: a program that changes it is killed at random moments, and the file has the catalogue as it was
//! before a call or as it is behind it, never less than what was said to be done.

mod common;

use common::say;
use jsx_precompile::catalogue::{Catalogue, CatalogueError, CatalogueFile, FileError, Shares};
use oracle::generate::rng::Rng;
use oracle::make::field;
use std::fs;
use std::io::Read;
use std::os::unix::fs::{PermissionsExt, symlink};
use std::path::{Path, PathBuf};
use std::process::{Command, Stdio};
use std::time::Duration;

/// What a program that is to be killed is told by: the file, the seed, and how many calls were made before.
const VARIABLE: &str = "CATALOGUE_TO_BE_KILLED";

/// Large enough to be written for a while.
const LENGTH: usize = 1 << 20;

/// More than are made before the last kill.
const CALLS: usize = 20_000;

/// A folder of its own, empty.
fn folder(name: &str) -> PathBuf {
    let folder = Path::new(env!("CARGO_TARGET_TMPDIR")).join(name);
    let _ = fs::remove_dir_all(&folder);
    fs::create_dir_all(&folder).expect("a folder");
    folder
}

fn beside(file: &Path) -> PathBuf {
    PathBuf::from(format!("{}.new", file.display()))
}

/// The call behind so many others: what arrives, or the name of what leaves.
enum Change {
    Arrives { name: u32, house: u32, bytes: usize },
    Leaves { name: u32 },
}

/// A page out with a source of so many bytes.
fn page_of(bytes: usize) -> Vec<u8> {
    field(0x12, &field(0x20, &vec![b's'; bytes]))
}

/// The same whenever it is asked for: pages of all sizes arrive, and a third of them leave again.
fn changes(seed: u64) -> Vec<Change> {
    let rng = &mut Rng::new(seed);
    let mut there = vec![];
    let mut change = |name: u32| {
        if there.len() > 3 && rng.chance(if there.len() > 12 { 90 } else { 33 }) {
            return Change::Leaves { name: there.swap_remove(rng.below(there.len())) };
        }
        there.push(name);
        Change::Arrives { name, house: rng.within(1, 16) as u32, bytes: rng.below(60_000) }
    };
    (0..CALLS as u32).map(&mut change).collect()
}

fn change(catalogue: &mut Catalogue, change: &Change) -> Result<(), CatalogueError> {
    match change {
        Change::Arrives { name, house, bytes } => catalogue.add(*name, *house, &Shares::new(), &[], &page_of(*bytes)),
        Change::Leaves { name } => catalogue.remove(*name),
    }
}

/// No test of its own: where it is told to, it changes a file until it is killed, and says each change that is done.
#[test]
fn changes_until_it_is_killed() {
    let Ok(told) = std::env::var(VARIABLE) else { return };
    let [file, seed, made] = told.split('\n').collect::<Vec<_>>()[..] else { panic!("{told}") };
    let (seed, made): (u64, usize) = (seed.parse().expect("a seed"), made.parse().expect("a count"));
    let mut catalogue = CatalogueFile::open(file).expect("a catalogue");
    for (at, change) in changes(seed).iter().enumerate().skip(made) {
        let done = match change {
            Change::Arrives { name, house, bytes } => {
                catalogue.add(*name, *house, &Shares::new(), &[], &page_of(*bytes))
            }
            Change::Leaves { name } => catalogue.remove(*name),
        };
        done.expect("there is room");
        println!("\ndone {}", at + 1);
    }
}

/// Starts it, kills it after a while, and gives the last change that it said to be done.
fn killed(file: &Path, seed: u64, made: usize, after: Duration) -> usize {
    let mut child = Command::new(std::env::current_exe().expect("this program"))
        .args(["--exact", "changes_until_it_is_killed", "--nocapture"])
        .env(VARIABLE, format!("{}\n{seed}\n{made}", file.display()))
        .stdout(Stdio::piped())
        .stderr(Stdio::null())
        .spawn()
        .expect("it runs");
    std::thread::sleep(after);
    child.kill().expect("it is killed");
    let mut said = String::new();
    child.stdout.take().expect("piped").read_to_string(&mut said).expect("text");
    child.wait().expect("it ends");
    // A line that was cut off is no change that was said.
    let whole = said.rfind('\n').map_or("", |end| &said[..end]);
    let mut done = whole.lines().rev().filter_map(|line| line.strip_prefix("done ")?.parse().ok());
    done.next().unwrap_or(made)
}

#[test]
fn killed_at_random_moments() {
    let kills = std::env::var("HOST_CATALOGUE_KILLS").map_or(120, |word| word.parse().expect("a number"));
    let (seed, file) = (1_997, folder("killed").join("hall.catalogue"));
    let changes = changes(seed);
    drop(CatalogueFile::create(&file, LENGTH).expect("it is created"));
    let mut now = Catalogue::new(LENGTH);
    let (mut made, mut ahead, mut half) = (0, 0, 0);
    let rng = &mut Rng::new(seed);
    for kill in 0..kills {
        let done = killed(&file, seed, made, Duration::from_micros(rng.below(60_000) as u64));
        assert!(done < CALLS, "more calls are needed");
        for one in &changes[made..done] {
            change(&mut now, one).expect("there is room");
        }
        made = done;
        half += usize::from(beside(&file).exists());
        let found = fs::read(&file).expect("the file is there");
        if found != now.bytes() {
            // The rename was made, and there was no time to say so.
            change(&mut now, &changes[made]).expect("there is room");
            assert!(found == now.bytes(), "kill {kill}: behind {made} changes the file has neither of two catalogues");
            made += 1;
            ahead += 1;
        }
        assert_eq!(CatalogueFile::open(&file).expect("it is sound").catalogue(), &now);
    }
    say(&format!(
        "catalogue: {kills} kills within {made} changes: the file has the last change that was said, {ahead} times the next; {half} times a file beside it was left"
    ));
    assert!(made > kills / 4 && half > 0, "{made} changes, {half} files beside");
}

/// What the program does to a file in this order matters at each of these.
const SYSTEM_CALLS: [&str; 11] =
    ["openat", "read", "write", "fsync", "unlink", "chmod", "link,linkat", "rename", "statx", "close", "exit_group"];

/// Runs the program, and kills it as it is about to make a system call for the nth time; whether it was killed.
fn killed_at(system_call: &str, nth: usize, words: &[&str]) -> bool {
    let inject = format!("inject={system_call}:signal=KILL:when={nth}");
    let mut command = Command::new("strace");
    command.args(["-f", "-o", "/dev/null", "-e", &format!("trace={system_call}"), "-e", &inject]);
    let output = command.arg(env!("CARGO_BIN_EXE_jsx-precompile")).args(words).output().expect("strace runs");
    // strace ends by the signal by which the program ended.
    output.status.code() != Some(0)
}

fn can_trace() -> bool {
    let traced = Command::new("strace").args(["-f", "-o", "/dev/null", "true"]).output();
    let can = traced.is_ok_and(|output| output.status.success());
    if !can {
        say("skipped: no strace here, or it may not trace");
    }
    can
}

/// The bytes are on the disk before the name is theirs, and the name before the program ends: a kill loses nothing that was
/// not synced, a machine that stops does.
#[test]
fn synced_before_and_behind_the_name() {
    if !can_trace() {
        return;
    }
    let folder = folder("synced");
    let [file, traced] = ["hall.catalogue", "traced"].map(|name| folder.join(name).to_str().expect("text").to_string());
    for (words, due) in [
        (&["new", &file, "100"][..], &["openat", "write", "fsync", "link", "fsync"][..]),
        (&["add", &file, "1", "1", "/dev/null", "/dev/null"], &["openat", "write", "fsync", "rename", "fsync"]),
        (&["remove", &file, "1"], &["openat", "write", "fsync", "rename", "fsync"]),
    ] {
        let mut command = Command::new("strace");
        command.args(["-y", "-o", &traced, "-e", "trace=openat,write,fsync,link,linkat,rename"]);
        command.arg(env!("CARGO_BIN_EXE_jsx-precompile")).arg("catalogue").args(words);
        assert!(command.output().expect("strace runs").status.success());
        let text = fs::read_to_string(&traced).expect("text");
        // From the file beside it on; what is printed is none of it.
        let lines = text.lines().skip_while(|line| !line.contains("hall.catalogue.new"));
        let lines = lines.filter(|line| line.contains("hall.catalogue") || line.starts_with("fsync"));
        let calls: Vec<&str> = lines.map(|line| line.split('(').next().unwrap_or_default()).collect();
        let calls: Vec<&str> =
            calls.iter().map(|call| call.strip_suffix("at").filter(|call| *call == "link").unwrap_or(call)).collect();
        assert_eq!(calls, due, "{words:?}\n{text}");
    }
}

/// Kills the program before each of these system calls, one run for each, until it comes to its end: how often it was
/// killed. The file is as it was or as it is to be, and the same command then does what is left to be done.
fn killed_at_each(
    system_call: &str,
    file: &Path,
    words: &[&str],
    before: Option<&Catalogue>,
    after: &Catalogue,
) -> usize {
    for nth in 1..100 {
        let _ = (fs::remove_file(file), fs::remove_file(beside(file)));
        if let Some(before) = before {
            fs::write(file, before.bytes()).expect("it is written");
        }
        let is_killed = killed_at(system_call, nth, words);
        let found = fs::read(file).ok();
        let is = |catalogue: Option<&Catalogue>| found.as_deref() == catalogue.map(Catalogue::bytes);
        let what = format!("{words:?}, {system_call} {nth}");
        assert!(is(Some(after)) || is_killed && is(before), "{what}: the file has neither of two catalogues");
        if !is_killed {
            return nth - 1;
        }
        if is(before) {
            let again = Command::new(env!("CARGO_BIN_EXE_jsx-precompile")).args(words).output();
            assert!(again.is_ok_and(|output| output.status.success()), "{what}: it cannot be done again");
            assert_eq!(fs::read(file).ok().as_deref(), Some(after.bytes()), "{what}, and again");
        }
    }
    panic!("{system_call}: no end")
}

#[test]
fn killed_at_each_system_call() {
    if !can_trace() {
        return;
    }
    let folder = folder("calls");
    let [file, page] = ["hall.catalogue", "page"].map(|name| folder.join(name));
    fs::write(&page, page_of(200)).expect("it is written");
    let mut before = Catalogue::new(3_000);
    for name in [1, 2] {
        before.add(name, 1, &Shares::new(), &[], &page_of(300)).expect("there is room");
    }
    let (mut added, mut removed) = (before.clone(), before.clone());
    added.add(3, 2, &Shares::new(), &[], &page_of(200)).expect("there is room");
    removed.remove(1).expect("it is there");
    let (name, page) = (file.to_str().expect("text"), page.to_str().expect("text"));
    let mut kills = 0;
    for (words, before, after) in [
        (&["catalogue", "new", name, "3000"][..], None, Catalogue::new(3_000)),
        (&["catalogue", "add", name, "3", "2", "/dev/null", page], Some(&before), added),
        (&["catalogue", "remove", name, "1"], Some(&before), removed),
    ] {
        kills += SYSTEM_CALLS.map(|call| killed_at_each(call, &file, words, before, &after)).iter().sum::<usize>();
    }
    say(&format!("catalogue: {kills} kills before a system call, the file as it was or as it is to be"));
    assert!(kills > 60, "{kills}");
}

#[test]
fn created_once() {
    let file = folder("created").join("hall.catalogue");
    drop(CatalogueFile::create(&file, 100).expect("it is created"));
    assert_eq!(fs::read(&file).expect("it is there"), [0; 100]);
    assert!(!beside(&file).exists());
    let mut catalogue = CatalogueFile::open(&file).expect("a catalogue");
    catalogue.add(5, 1, &Shares::new(), &[], b"\x13\0\0").expect("there is room");
    let error = CatalogueFile::create(&file, 50).expect_err("it is there");
    assert!(matches!(error, FileError::Io { .. }), "{error}");
    assert_eq!(fs::read(&file).expect("it is there"), catalogue.catalogue().bytes());
    assert!(!beside(&file).exists());
}

/// A program that was killed while it created the file may have left both names of it.
#[test]
fn a_second_name_is_not_written_into() {
    let folder = folder("names");
    let [file, third] = ["hall.catalogue", "third"].map(|name| folder.join(name));
    let mut catalogue = CatalogueFile::create(&file, 100).expect("it is created");
    fs::hard_link(&file, beside(&file)).expect("a second name");
    fs::hard_link(&file, &third).expect("a third name");
    catalogue.add(5, 1, &Shares::new(), &[], b"\x13\0\0").expect("there is room");
    assert_eq!(fs::read(&third).expect("it is there"), [0; 100]);
    assert_eq!(fs::read(&file).expect("it is there"), catalogue.catalogue().bytes());
    assert!(!beside(&file).exists());
}

#[test]
fn what_is_refused_writes_nothing() {
    let file = folder("refused").join("hall.catalogue");
    let mut catalogue = CatalogueFile::create(&file, 100).expect("it is created");
    catalogue.add(5, 1, &Shares::new(), &[], b"\x13\0\0").expect("there is room");
    let (bytes, written) = (fs::read(&file).expect("bytes"), fs::metadata(&file).expect("it is there").modified().ok());
    for (name, due) in [(5, 21), (6, 25)] {
        let error = catalogue.add(name, 1, &Shares::new(), &[], &field(0x12, &field(0x20, &[b's'; 80])));
        assert!(matches!(error, Err(FileError::Refused(error)) if error.refusal().number() == due));
    }
    assert!(matches!(catalogue.remove(6), Err(FileError::Refused(CatalogueError::NameAbsent { name: 6 }))));
    assert_eq!(fs::read(&file).expect("it is there"), bytes);
    assert_eq!(fs::metadata(&file).expect("it is there").modified().ok(), written);
    // Where it cannot be written, neither the file nor the catalogue has the page.
    fs::create_dir(beside(&file)).expect("a folder in the way");
    assert!(matches!(catalogue.remove(5), Err(FileError::Io { .. })));
    assert_eq!((fs::read(&file).expect("it is there"), catalogue.catalogue().count()), (bytes, 1));
    fs::remove_dir(beside(&file)).expect("it is empty");
    catalogue.remove(5).expect("it is there");
    assert_eq!(fs::read(&file).expect("it is there"), [0; 100]);
}

#[test]
fn links_and_permissions_stay() {
    let folder = folder("links");
    let [file, link] = ["hall.catalogue", "link"].map(|name| folder.join(name));
    drop(CatalogueFile::create(&file, 100).expect("it is created"));
    fs::set_permissions(&file, fs::Permissions::from_mode(0o640)).expect("permissions");
    symlink("hall.catalogue", &link).expect("a link");
    let mut catalogue = CatalogueFile::open(&link).expect("a catalogue");
    catalogue.add(5, 1, &Shares::new(), &[], &[]).expect("there is room");
    assert!(fs::symlink_metadata(&link).expect("it is there").file_type().is_symlink());
    assert_eq!(fs::metadata(&file).expect("it is there").permissions().mode() & 0o777, 0o640);
    assert_eq!(fs::read(&link).expect("it is there"), catalogue.catalogue().bytes());
}

#[test]
fn damaged_files_are_not_opened() {
    let file = folder("damaged").join("hall.catalogue");
    for bytes in [&b"\x97"[..], b"\0\0\x05", b"\x97\0\0\0\x05\x11\0\0\0\0\0\0\0\0"] {
        fs::write(&file, bytes).expect("it is written");
        let error = CatalogueFile::open(&file).expect_err("it is damaged");
        assert!(matches!(error, FileError::Unsound { .. }), "{error}");
        assert_eq!(fs::read(&file).expect("it is there"), bytes);
    }
    assert!(matches!(CatalogueFile::open(file.with_file_name("none")), Err(FileError::Io { .. })));
}
