//! The library and the command, installed below a prefix, and the C examples over them.

use std::ffi::OsStr;
use std::fs;
use std::path::{Path, PathBuf};
use std::process::{Command, Output, Stdio};

use super::folder::Folder;
use super::process;

/// A file of the project.
pub fn file(path: &str) -> PathBuf {
    Path::new(env!("CARGO_MANIFEST_DIR")).join("..").join(path)
}

/// Has a program install what these tests are built with, or take it away.
pub fn install(program: &mut Command, prefix: &Path, stage: &Path) -> Output {
    program
        .env("PREFIX", prefix)
        .env("DESTDIR", stage)
        .env("ARCHIVE", env!("SHEET_LINKED_ARCHIVE"))
        .env("COMMAND", env!("CARGO_BIN_EXE_sheet"))
        .stdin(Stdio::null());
    process::run(program)
}

/// The same, which has to succeed without a word.
#[track_caller]
pub fn install_silently(program: &mut Command, prefix: &Path, stage: &Path) {
    let run = install(program, prefix, stage);
    let said = [run.stdout, run.stderr].concat();
    let said = String::from_utf8_lossy(&said);
    assert!(run.status.success() && said.is_empty(), "{said}");
}

/// Compiles the C examples with the flags that find the library, strictly and without a warning,
/// runs them on the sample, and sees that they do what they say.
#[track_caller]
pub fn try_examples<Flag: AsRef<OsStr>>(folder: &Folder, flags: &[Flag]) {
    let program = |name: &str| {
        let program = folder.join(name);
        let mut gcc = Command::new("gcc");
        gcc.args(["-std=c99", "-Wall", "-Wextra", "-Wpedantic", "-Werror"])
            .arg(file(&format!("host/examples/{name}.c")))
            .args(flags)
            .arg("-o")
            .arg(&program)
            .stdin(Stdio::null());
        let run = process::run(&mut gcc);
        let said = String::from_utf8_lossy(&run.stderr);
        assert!(run.status.success() && said.is_empty(), "{name}: {said}");
        program
    };
    let [open, seal, directory] = ["open", "seal", "directory"].map(program);
    // What a program printed, and its exit status.
    let run = |program: &Path, words: &[&Path]| {
        let run = process::run(Command::new(program).args(words).stdin(Stdio::null()));
        let said = [run.stdout, run.stderr].concat();
        (run.status.code(), String::from_utf8(said).unwrap())
    };
    let done = |said: &str| (Some(0), said.to_string());

    let sample = file("host/examples/calibres.bin");
    let password = file("host/examples/calibres.password");
    let [plain, sealed, again] = ["plain", "sealed", "again"].map(|name| folder.join(name));
    let opened = done("186 records, 3435 bytes\n");
    assert_eq!(run(&open, &[&sample, &password, &plain]), opened);
    let said = done("186 records, 2533 enciphered bytes\n");
    assert_eq!(run(&seal, &[&plain, &password, &sealed]), said);
    assert_eq!(run(&open, &[&sealed, &password, &again]), opened);
    let bytes = fs::read(&plain).unwrap();
    assert_eq!(fs::read(&again).unwrap(), bytes);
    assert_ne!(fs::read(&sealed).unwrap(), bytes);
    for book in [&sample, &plain, &sealed] {
        assert_eq!(run(&directory, &[book]), done("0\t170\n"));
    }

    // The end of the password's line is taken off once.
    let word = fs::read(&password).unwrap();
    let word = word.strip_suffix(b"\n").unwrap_or(&word);
    for (end, passes) in [("", true), ("\r\n", true), ("\n\n", false), ("\r", false)] {
        let password = folder.write("password", &[word, end.as_bytes()].concat());
        let said = if passes {
            opened.clone()
        } else {
            let said = "refused, 27: the password is not correct (details 0, 0)\n";
            (Some(1), said.to_string())
        };
        assert_eq!(run(&open, &[&sample, &password, &plain]), said, "{end:?}");
    }

    // Refusals, and arguments that are none.
    let (status, said) = run(&seal, &[&sample, &password, &again]);
    assert!(
        status == Some(1) && said.starts_with("refused, 30: "),
        "{said}"
    );
    let none = folder.join("none");
    let (status, said) = run(&directory, &[&password]);
    assert!(status == Some(1) && said.starts_with("refused, "), "{said}");
    for (program, words) in [(&open, 3), (&seal, 3), (&directory, 1)] {
        for words in [words, 0] {
            let (status, said) = run(program, &vec![none.as_path(); words]);
            assert!(status == Some(2) && said.starts_with("usage: "), "{said}");
        }
    }
    let long = folder.write("long", &[b'x'; 1027]);
    for (program, book) in [(&open, &sample), (&seal, &plain)] {
        let (status, said) = run(program, &[book, &long, &again]);
        assert!(status == Some(2) && said.starts_with("usage: "), "{said}");
        let (status, said) = run(program, &[book, &password, folder.path()]);
        assert!(
            status == Some(2) && said.contains("can't be written"),
            "{said}"
        );
    }
    assert_eq!(fs::read(&again).unwrap(), bytes);
}
