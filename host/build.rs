//! Has the library proved and links it.
//!
//! Runs `tools/archive sheet`, which has `rt` prove every crate that changed and writes
//! `target/staticlib/libsheet.a`: some minutes from nothing, under a minute afterwards. Where the
//! Rattle kit is not at hand, the environment variable `SHEET_ARCHIVE` takes its place: the path of
//! a `libsheet.a` that was made elsewhere (a relative path counts from `host/`).

use std::env;
use std::fs;
use std::path::{Path, PathBuf};
use std::process::{exit, Command};

fn main() {
    let host =
        PathBuf::from(env::var_os("CARGO_MANIFEST_DIR").expect("cargo sets CARGO_MANIFEST_DIR"));
    println!("cargo:rerun-if-changed=build.rs");
    println!("cargo:rerun-if-changed=../include");
    println!("cargo:rerun-if-env-changed=SHEET_ARCHIVE");
    let out = PathBuf::from(env::var_os("OUT_DIR").expect("cargo sets OUT_DIR"));
    let archive = match env::var_os("SHEET_ARCHIVE") {
        Some(path) => ready(&host, Path::new(&path)),
        None => {
            watch_crates(&host);
            proved(host.parent().expect("host/ is in the project"))
        }
    };
    // A copy of our own, so that what is linked stays as it is while the project is proved anew.
    let linked = out.join("libsheet.a");
    if let Err(error) = fs::copy(&archive, &linked) {
        stop(&format!(
            "{}: cannot be copied to {}: {error}",
            archive.display(),
            linked.display()
        ));
    }
    println!("cargo:rustc-link-search=native={}", out.display());
    println!("cargo:rustc-link-lib=static=sheet");
    // The test that compiles the C example links the same archive.
    println!("cargo:rustc-env=SHEET_LINKED_ARCHIVE={}", linked.display());
}

/// The archive that `SHEET_ARCHIVE` names.
fn ready(host: &Path, path: &Path) -> PathBuf {
    let path = host.join(path);
    println!("cargo:rerun-if-changed={}", path.display());
    if !path.is_file() {
        stop(&format!(
            "SHEET_ARCHIVE names {}, which is not a file: give the path of a libsheet.a, or unset \
             it to have rt make one",
            path.display()
        ));
    }
    path
}

/// Has cargo look at what the archive is made of. Not at the crates' folders `out`, in which `rt`
/// keeps its work.
fn watch_crates(host: &Path) {
    println!("cargo:rerun-if-changed=../crates.txt");
    println!("cargo:rerun-if-changed=../tools/archive");
    let crates = match fs::read_dir(host.join("../crates")) {
        Ok(crates) => crates,
        Err(error) => stop(&format!("the folder crates cannot be read: {error}")),
    };
    for path in crates.flatten().map(|entry| entry.path()) {
        for part in ["src", "specs", "proofs"].map(|part| path.join(part)) {
            if part.is_dir() {
                println!("cargo:rerun-if-changed={}", part.display());
            }
        }
    }
}

/// The archive that `rt` proves and `tools/archive` writes.
fn proved(root: &Path) -> PathBuf {
    // What it ends with where rt is not on the path.
    const NO_RT: Option<i32> = Some(127);
    let run = Command::new(root.join("tools/archive"))
        .arg("sheet")
        .output();
    let run = match run {
        Ok(run) => run,
        Err(error) => stop(&format!("tools/archive could not be run: {error}")),
    };
    if run.status.code() == NO_RT {
        stop(
            "rt is not on the path. It proves the library and writes libsheet.a: put the Rattle \
             kit's bin folder on PATH, or set SHEET_ARCHIVE to the path of a libsheet.a that was \
             made elsewhere",
        );
    }
    if !run.status.success() {
        eprint!(
            "{}{}",
            String::from_utf8_lossy(&run.stdout),
            String::from_utf8_lossy(&run.stderr)
        );
        stop(&format!(
            "`tools/archive sheet` in {} ended with {}; what it printed is shown with this",
            root.display(),
            run.status
        ));
    }
    let archive = root.join("target/staticlib/libsheet.a");
    if !archive.is_file() {
        stop(&format!(
            "`tools/archive sheet` wrote no {}",
            archive.display()
        ));
    }
    archive
}

/// Ends the build with a message.
fn stop(message: &str) -> ! {
    println!("cargo:warning={message}");
    eprintln!("{message}");
    exit(1)
}
