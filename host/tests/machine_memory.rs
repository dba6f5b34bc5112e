//! The command's memory while it writes: nothing of the password is left in it.
//!
//! The stream goes to a pipe that nobody empties, so the command stands still after it has opened or
//! sealed it, and its memory can be read.

mod common;

use std::collections::HashSet;
use std::fs::{self, File};
use std::os::unix::fs::FileExt;
use std::process::{Command, Stdio};

use common::book::{Book, Kind, BOF, FILEPASS, KINDS};
use common::folder::Folder;
use common::process::Process;
use common::pty::Terminal;
use common::{utf16, xor};

/// A run of this many bytes of a secret counts as found.
const RUN: usize = 8;

/// A book that is longer than a pipe holds. Its bodies have no pattern: under XOR a body of zeros
/// would show the array.
fn book(kind: Kind) -> Book {
    let mut state: u32 = 7;
    let mut byte = || {
        state = state.wrapping_mul(1_664_525).wrapping_add(1_013_904_223);
        (state >> 24) as u8
    };
    let mut records = vec![(BOF, vec![]), (FILEPASS, vec![])];
    for _ in 0..100 {
        records.push((0x0204, (0..4000).map(|_| byte()).collect()));
    }
    Book::new(kind, kind.password(), &records)
}

/// Every run of what a sealing of the book's plain stream knows: the salt, and so the keys, are others.
fn text_runs(book: &Book) -> HashSet<[u8; RUN]> {
    let mut secrets = vec![book.password.as_bytes().to_vec(), utf16(book.password)];
    if book.kind == Kind::Xor {
        secrets.push(xor::array(book.password.as_bytes()).to_vec());
    }
    runs_of(&secrets)
}

/// Every run of the secrets.
fn runs(book: &Book) -> HashSet<[u8; RUN]> {
    let mut secrets = vec![book.password.as_bytes().to_vec(), utf16(book.password)];
    match book.kind {
        Kind::Xor => secrets.push(xor::array(book.password.as_bytes()).to_vec()),
        kind => {
            secrets.push(kind.digest(book.password));
            // Of 40 bits, which the key is made of, a run would be zeros for the greater part.
            if kind != Kind::CryptoApi(40, false) {
                secrets.push(kind.block_key(book.password, 0));
            }
        }
    }
    runs_of(&secrets)
}

fn runs_of(secrets: &[Vec<u8>]) -> HashSet<[u8; RUN]> {
    secrets
        .iter()
        .flat_map(|secret| secret.windows(RUN))
        .map(|run| run.try_into().unwrap())
        .collect()
}

/// The parts of a process's memory that it may write to and where a run stands.
fn found(process: &Process, runs: &HashSet<[u8; RUN]>) -> Vec<String> {
    let id = process.id();
    let memory = File::open(format!("/proc/{id}/mem")).unwrap();
    let starts: HashSet<u8> = runs.iter().map(|run| run[0]).collect();
    let maps = fs::read_to_string(format!("/proc/{id}/maps")).unwrap();
    let mut parts = Vec::new();
    for line in maps.lines() {
        let mut columns = line.split_whitespace();
        let (range, rights) = (columns.next().unwrap(), columns.next().unwrap());
        if !rights.starts_with("rw") {
            continue;
        }
        let (start, end) = range.split_once('-').unwrap();
        let [start, end] = [start, end].map(|hex| u64::from_str_radix(hex, 16).unwrap());
        let mut bytes = vec![0; (end - start) as usize];
        if memory.read_exact_at(&mut bytes, start).is_err() {
            continue;
        }
        let there = bytes
            .windows(RUN)
            .any(|run| starts.contains(&run[0]) && runs.contains(run));
        if there {
            parts.push(line.to_string());
        }
    }
    parts
}

/// The command, opening a book to a pipe.
fn command(folder: &Folder, book: &Book) -> Command {
    folder.write("book", &book.locked);
    folder.write("password", book.password.as_bytes());
    let mut command = Command::new(env!("CARGO_BIN_EXE_sheet"));
    command
        .args(["open", "book", "-o", "-"])
        .current_dir(folder.path())
        .env_remove("SHEET_PASSWORD")
        .stdin(Stdio::null())
        .stdout(Stdio::piped())
        .stderr(Stdio::null());
    command
}

/// Looks for runs once the plain stream has begun to come, and sees that it comes whole.
#[track_caller]
fn look_while_it_writes(mut process: Process, book: &Book) -> Vec<String> {
    let first = process.first_byte();
    let parts = found(&process, &runs(book));
    let output = process.end();
    assert!(output.status.success());
    assert!([&[first], &output.stdout[..]].concat() == book.plain);
    parts
}

#[test]
fn a_password_from_a_file_is_wiped() {
    for kind in KINDS {
        let (folder, book) = (Folder::new(), book(kind));
        let mut command = command(&folder, &book);
        let process = Process::start(command.args(["--password-file", "password"]));
        assert_eq!(look_while_it_writes(process, &book), [""; 0], "{kind:?}");
    }
}

#[test]
fn a_password_from_the_terminal_is_wiped() {
    for kind in [Kind::Xor, Kind::CryptoApi(128, true)] {
        let (folder, book) = (Folder::new(), book(kind));
        let mut terminal = Terminal::open();
        let mut command = command(&folder, &book);
        terminal.attach(&mut command);
        let process = Process::start(&mut command);
        terminal.wait_for("Password for book: ");
        terminal.write(format!("{}\n", book.password).as_bytes());
        assert_eq!(look_while_it_writes(process, &book), [""; 0], "{kind:?}");
    }
}

#[test]
fn a_password_that_sealed_is_wiped() {
    for (kind, lock) in
        KINDS
            .into_iter()
            .zip(["xor", "office97", "cryptoapi", "cryptoapi --key-size 40"])
    {
        let (folder, book) = (Folder::new(), book(kind));
        folder.write("sheet", &book.plain);
        folder.write("password", book.password.as_bytes());
        let seal = || {
            let mut command = Command::new(env!("CARGO_BIN_EXE_sheet"));
            command
                .args(["seal", "sheet", "-o", "-", "--lock"])
                .args(lock.split_whitespace())
                .current_dir(folder.path())
                .env_remove("SHEET_PASSWORD")
                .stdin(Stdio::null())
                .stdout(Stdio::piped())
                .stderr(Stdio::null());
            command
        };
        let check = |mut process: Process| {
            let first = process.first_byte();
            let parts = found(&process, &text_runs(&book));
            let output = process.end();
            assert!(output.status.success());
            let sealed = [&[first], &output.stdout[..]].concat();
            let mut plain = vec![0; sealed.len()];
            let mut scratch = [0; sheet::SCRATCH_LEN];
            sheet::open(&sealed, book.password.as_bytes(), &mut scratch, &mut plain).unwrap();
            assert!(plain == book.plain);
            assert_eq!(parts, [""; 0], "{kind:?}");
        };
        check(Process::start(seal().args(["--password-file", "password"])));
        // At the terminal it is typed twice.
        let mut terminal = Terminal::open();
        let mut command = seal();
        terminal.attach(&mut command);
        let process = Process::start(&mut command);
        for prompt in ["New password for sheet: ", "The same password again: "] {
            terminal.wait_for(prompt);
            terminal.write(format!("{}\n", book.password).as_bytes());
        }
        check(process);
    }
}

#[test]
fn a_password_from_the_environment_stays_there_and_nowhere_else() {
    for kind in [Kind::Xor, Kind::CryptoApi(128, true)] {
        let (folder, book) = (Folder::new(), book(kind));
        let mut command = command(&folder, &book);
        let process = Process::start(command.env("SHEET_PASSWORD", book.password));
        // This shows too that the search finds what is there.
        let parts = look_while_it_writes(process, &book);
        assert_eq!(parts.len(), 1, "{parts:?}");
        assert!(parts[0].ends_with("[stack]"), "{parts:?}");
    }
}
