//! The command on files that are not what it expects: other kinds of files, books that look takes for
//! plain ones, passwords with bytes that were not meant, closed streams, and names that a terminal
//! would obey.

mod common;

use std::ffi::OsStr;
use std::fs::{self, File};
use std::io::{Seek, Write};
use std::os::unix::ffi::OsStrExt;
use std::os::unix::fs::PermissionsExt;
use std::process::{Command, Stdio};

use common::bench::{Bench, Ran, PASSWORD};
use common::book::{joined, Book, Kind, BOF, FILEPASS, ROW};
use common::process;

/// The commands for which a file of another kind is an error.
const STRICT: [&str; 6] = [
    "same-lock calibres.bin",
    "list",
    "directory",
    "forecast",
    "open -o out",
    "seal --lock cryptoapi -o out",
];

const WRITE_PROTECT: u16 = 0x0086;

#[test]
fn other_kinds_of_files_are_named_before_anything_else() {
    let bench = Bench::new();
    let utf16: Vec<u8> = "\u{FEFF}Kaliber\t50\r\n"
        .encode_utf16()
        .flat_map(u16::to_le_bytes)
        .collect();
    for (bytes, kind) in [
        (&b""[..], "this file is empty"),
        (b"PK\x03\x04\x14\0\x08\x08\x08\0", "a zip file"),
        (b"%PDF-1.7\n%\xE2\xE3\xCF\xD3\n", "a PDF file"),
        (b"Kaliber;Hebungswinkel\r\n2824;50\r\n", "a text file"),
        (&utf16, "a text file"),
        (b"{\\rtf1\\ansi Kaliber}", "an RTF text file"),
        (b"<html><table>", "HTML or XML"),
        (
            b"gsf: archive has no member Workbook\n",
            "an error message of gsf, and not a workbook stream: 'gsf: archive has no member \
             Workbook'",
        ),
    ] {
        bench.write("file", bytes);
        for command in STRICT {
            let ran = bench.run_with(&format!("{command} file"), PASSWORD);
            ran.failed(2, &["sheet: file: this ", kind]);
            assert_eq!((ran.err.lines().count(), &ran.out[..]), (1, ""));
            let mut command = bench.command_with(&format!("{command} -"), PASSWORD);
            Ran::of(command.stdin(bench.file("file")))
                .failed(2, &["sheet: standard input: this ", kind]);
        }
        // A look says that it is unknown, and what it is.
        let ran = bench.run("look file");
        assert_eq!((ran.status, &ran.out[..]), (Some(0), "locked\tunknown\n"));
        assert!(ran.err.contains(kind), "{}", ran.err);
        let ran = bench.run("look --quiet file");
        assert_eq!((ran.status, &ran.out[..]), (Some(3), ""));
    }
    bench.has_only(&["file"]);
}

#[test]
fn a_compound_file_is_named_with_the_commands_to_type() {
    let bench = Bench::new();
    let name = "Kaliber 2824's.xls";
    bench.write(name, b"\xD0\xCF\x11\xE0\xA1\xB1\x1A\xE1 and more");
    for quiet in [&[][..], &["--quiet"]] {
        let mut command = bench.command("look");
        let ran = Ran::of(command.args(quiet).arg(name));
        ran.failed(
            2,
            &[
                r"gsf list 'Kaliber 2824'\''s.xls'",
                r"gsf cat 'Kaliber 2824'\''s.xls' Workbook > 'Kaliber 2824'\''s.bin'",
                "EncryptedPackage, this is a protected .xlsx",
            ],
        );
    }
}

/// A book whose lock comes behind a WriteProtect record.
fn protected() -> Vec<u8> {
    let lock = Kind::Xor.filepass("A");
    joined(&[
        (BOF, vec![]),
        (WRITE_PROTECT, vec![]),
        (FILEPASS, lock),
        (ROW, vec![7; 30]),
    ])
}

#[test]
fn look_warns_of_a_lock_that_it_does_not_find() {
    let bench = Bench::new();
    bench.write("book", &protected());
    let ran = bench.run("look book");
    assert_eq!((ran.status, &ran.out[..]), (Some(0), "locked\tno\n"));
    assert_eq!(
        ran.err,
        "sheet: warning: book: look says no, but a FILEPASS record follows at offset 8, after a \
         WriteProtect record (id 0086) at offset 4: the workbook may be locked all the same, and \
         its figures enciphered; it was also saved as \"read-only recommended\" or with a password \
         to modify\n"
    );
    let quiet = bench.run("look -q book");
    assert_eq!(
        (quiet.status, &quiet.out[..], &quiet.err[..]),
        (Some(3), "", &ran.err[..])
    );
    // Another record than WriteProtect.
    let lock = Kind::Xor.filepass("A");
    bench.write(
        "book",
        &joined(&[(BOF, vec![]), (0x42, vec![]), (FILEPASS, lock)]),
    );
    let ran = bench.run("look book");
    assert_eq!((ran.status, &ran.out[..]), (Some(0), "locked\tno\n"));
    assert!(ran
        .err
        .contains("offset 8, after another record (id 0042) at offset 4: "));
    assert!(!ran.err.contains("read-only"));
    // Without a lock there is nothing to warn of.
    bench.write(
        "book",
        &joined(&[(BOF, vec![]), (WRITE_PROTECT, vec![]), (ROW, vec![7; 30])]),
    );
    let ran = bench.run("look book");
    assert_eq!((ran.status, &ran.err[..]), (Some(0), ""));
    assert_eq!(bench.run("look -q book").status, Some(1));
}

#[test]
fn look_reads_one_mebibyte_and_no_more() {
    const MEBIBYTE: usize = 1 << 20;
    let bench = Bench::new();
    let start = joined(&[(BOF, vec![]), (WRITE_PROTECT, vec![])]);
    let lock = joined(&[(FILEPASS, Kind::Xor.filepass("A"))]);
    // Rows up to where the header of the lock ends or does not end within the mebibyte.
    for (at, warned) in [
        (MEBIBYTE - 10, true),
        (MEBIBYTE - 4, true),
        (MEBIBYTE - 3, false),
        (MEBIBYTE, false),
    ] {
        let mut book = start.clone();
        while book.len() < at {
            let len = (at - book.len() - 4).min(8000);
            // What is left for the next row is none, or has room for a header.
            let len = if (1..4).contains(&(at - book.len() - 4 - len)) {
                len - 4
            } else {
                len
            };
            book.extend(joined(&[(ROW, vec![7; len])]));
        }
        assert_eq!(book.len(), at);
        book.extend_from_slice(&lock);
        book.resize(2 * MEBIBYTE, 0);
        bench.write("book", &book);
        let ran = bench.run("look book");
        assert_eq!((ran.status, &ran.out[..]), (Some(0), "locked\tno\n"));
        assert_eq!(ran.err.contains("warning"), warned, "{at} {}", ran.err);
        // What was read of an open file shows where it stands afterwards.
        for line in ["look -", "look --quiet -"] {
            let mut file = bench.file("book");
            let mut command = bench.command(line);
            process::run(command.stdin(file.try_clone().unwrap()));
            assert_eq!(file.stream_position().unwrap(), MEBIBYTE as u64);
        }
    }
    // A stream that no other command would read is looked at too.
    let long = File::create(bench.folder.join("long")).unwrap();
    (&long)
        .write_all(&joined(&[(BOF, vec![]), (FILEPASS, vec![])]))
        .unwrap();
    long.set_len((1 << 30) + 1).unwrap();
    assert_eq!(bench.run("look long").out, "locked\tyes\n");
    bench.run("list long").failed(2, &["longer than 1 GiB"]);
}

#[test]
fn a_quiet_look_says_it_by_its_status() {
    let bench = Bench::new();
    let book = Book::small(Kind::Office97);
    bench.write("locked", &book.locked);
    bench.write("plain", &bench.plain());
    bench.write("cut", &book.locked[..book.filepass().0 + 2]);
    for (file, status) in [("locked", 0), ("plain", 1), ("cut", 3), ("calibres.bin", 0)] {
        for option in ["-q", "--quiet"] {
            let ran = bench.run(&format!("look {option} {file}"));
            assert_eq!(
                (ran.status, &ran.out[..], &ran.err[..]),
                (Some(status), "", ""),
                "{file}"
            );
        }
    }
    bench.run("look -q none").failed(2, &["no such file"]);
    bench.run("look -q").failed(2, &["name of a file"]);
}

#[test]
fn bytes_of_a_password_that_were_not_meant_are_named() {
    let bench = Bench::new();
    let named = "the password file ";
    for (bytes, number, words) in [
        (
            format!("\u{FEFF}{PASSWORD}\n").into_bytes(),
            27,
            &["begins with a byte order mark (EF BB BF)"][..],
        ),
        (
            format!("{PASSWORD} \n").into_bytes(),
            27,
            &["ends with a blank"],
        ),
        (
            format!("{PASSWORD}\t").into_bytes(),
            27,
            &["ends with a blank"],
        ),
        (
            format!(" {PASSWORD}\n").into_bytes(),
            27,
            &["begins with a blank"],
        ),
        (
            format!("{PASSWORD}\n\n").into_bytes(),
            27,
            &["ends with an extra line end"],
        ),
        (
            format!("{PASSWORD}\r\n\r\n").into_bytes(),
            27,
            &["ends with an extra line end"],
        ),
        (
            format!("{PASSWORD}\nx\n").into_bytes(),
            27,
            &["has more than one line"],
        ),
        (
            format!("\u{FEFF}{PASSWORD} \n\n").into_bytes(),
            27,
            &["byte order mark", "extra line end", "ends with a blank"],
        ),
        (b"\xFF\xFEU\0n\0\n\0".to_vec(), 2, &["is UTF-16"]),
        (b"U\0n\0".to_vec(), 27, &["zero bytes"]),
        (b"Unruh".to_vec(), 27, &[]),
    ] {
        bench.write("password", &bytes);
        let ran = bench.run("open calibres.bin -o plain --password-file password");
        ran.failed(1, &[&format!("refused, {number}: ")]);
        let lines: Vec<&str> = ran.err.lines().collect();
        assert_eq!(lines.len(), 2 + words.len(), "{}", ran.err);
        for (line, words) in lines[1..].iter().zip(words) {
            assert!(line.starts_with(&format!("sheet: {named}")), "{line}");
            assert!(line.contains(words), "{line}");
        }
        assert!(!ran.err.contains("Hebungswinkel"));
    }
    // From the environment, of which nothing is removed.
    let ran = bench.run_with("open calibres.bin -o plain", &format!("{PASSWORD}\n"));
    ran.failed(1, &["\nsheet: SHEET_PASSWORD ends with an extra line end"]);
    // A refusal that is not about the password says nothing of it.
    bench.write("book", &bench.plain());
    bench.write("password", b"Unruh \n");
    let ran = bench.run("open book -o plain --password-file password");
    ran.failed(1, &["refused, 8: "]);
    assert!(!ran.err.contains("password file"));
    bench.has_only(&["book", "password"]);
}

#[test]
fn sealing_warns_of_bytes_that_were_not_meant() {
    let bench = Bench::new();
    bench.write("plain", &bench.plain());
    for (password, words) in [
        ("Unruh\n", None),
        ("\u{FEFF}Unruh\n", Some("byte order mark")),
        ("Unruh \n", Some("ends with a blank")),
        ("Unruh\n\n", Some("extra line end")),
    ] {
        bench.write("password", password.as_bytes());
        let ran = bench.run("seal plain -o sealed --lock cryptoapi --password-file password");
        assert_eq!(ran.status, Some(0), "{}", ran.err);
        match words {
            None => assert_eq!(ran.err, ""),
            Some(words) => {
                assert!(ran.err.starts_with("sheet: warning: the password file "));
                assert!(ran.err.contains(words), "{}", ran.err);
            }
        }
    }
}

#[test]
fn advice_depends_on_the_lock() {
    let bench = Bench::new();
    for kind in [Kind::Xor, Kind::Office97, Kind::CryptoApi(128, false)] {
        let book = Book::small(kind);
        bench.write("book", &book.locked);
        let ran = bench.run_with("open book -o plain", "wrong");
        ran.failed(1, &["refused, 27: ", "VelvetSweatshop"]);
        assert_eq!(
            ran.err.contains("15 characters"),
            kind == Kind::Xor,
            "{}",
            ran.err
        );
    }
    let ran = bench.run("refusals");
    let line = ran
        .out
        .lines()
        .find(|line| line.starts_with("27\t"))
        .unwrap();
    assert!(line.contains("VelvetSweatshop") && line.contains("under XOR"));
    // The fixed password is known to the advice alone: it is never tried.
    let book = Book::new(
        Kind::Office97,
        "VelvetSweatshop",
        &[(BOF, vec![]), (FILEPASS, vec![])],
    );
    bench.write("book", &book.locked);
    bench
        .run_with("open book -o plain", "")
        .failed(1, &["refused, 27: "]);
    bench.run("open book -o plain").failed(2, &["no terminal"]);
    let ran = bench.run_with("open book -o plain", "VelvetSweatshop");
    assert_eq!(ran.status, Some(0));
}

#[test]
fn a_book_of_excel_5_or_95_is_recognised() {
    let bench = Bench::new();
    let bof5 = [0x00, 0x05, 0x05, 0x00, 0x5A, 0x0D, 0xCC, 0x07];
    let bof8 = [0x00, 0x06, 0x05, 0x00];
    // Key and verifier, without a type before them.
    let lock5 = [0x15, 0xB9, 0xC8, 0xCE];
    for (bof, lock, number, said) in [
        (&bof5[..], &lock5[..], 11, true),
        (&bof8, &lock5, 11, true),
        // A key that reads as a type that is known.
        (&bof5, &[0, 0, 0xC8, 0xCE], 10, true),
        (&bof5, &[1, 0, 0xC8, 0xCE], 12, true),
        (&bof8, &[2, 0, 0, 0, 0, 0], 11, false),
        (&bof8, &[0, 0, 0], 10, false),
    ] {
        bench.write(
            "book",
            &joined(&[(BOF, bof.to_vec()), (FILEPASS, lock.to_vec())]),
        );
        for line in ["open book -o plain", "forecast book"] {
            let ran = bench.run_with(line, PASSWORD);
            ran.failed(1, &[&format!("refused, {number}: ")]);
            assert_eq!(
                ran.err
                    .contains("\nsheet: the book may have been saved by Excel 5 or 95"),
                said
            );
        }
    }
}

/// Runs the command by a shell that closes standard streams.
fn closed(bench: &Bench, line: &str) -> Ran {
    let sheet = env!("CARGO_BIN_EXE_sheet");
    let mut shell = Command::new("bash");
    shell
        .args(["-c", &format!("'{sheet}' {line}")])
        .current_dir(bench.folder.path())
        .env("SHEET_PASSWORD", PASSWORD)
        .stdin(Stdio::null());
    Ran::of(&mut shell)
}

#[test]
fn a_closed_standard_output_is_an_error() {
    let bench = Bench::new();
    for line in [
        "--help",
        "--version",
        "refusals",
        "look calibres.bin",
        "same-lock calibres.bin calibres.bin",
        "list calibres.bin",
        "directory calibres.bin",
        "forecast calibres.bin",
        "open calibres.bin -o -",
    ] {
        let ran = closed(&bench, &format!("{line} >&-"));
        ran.failed(2, &["sheet: standard output: it is closed"]);
    }
    let ran = closed(&bench, "open calibres.bin -o plain >&-");
    ran.failed(2, &["it is closed", "plain is written and whole"]);
    assert_eq!(bench.read("plain"), bench.plain());
    closed(&bench, "look - <&-").failed(2, &["sheet: standard input: it is closed"]);
    let ran = closed(&bench, "open calibres.bin -o out --password-file - <&-");
    ran.failed(2, &["sheet: password file standard input: it is closed"]);
    // A quiet look prints nothing, so that it needs no standard output, nor does a quiet comparison.
    assert_eq!(closed(&bench, "look -q calibres.bin >&-").status, Some(0));
    let line = "same-lock -q calibres.bin calibres.bin >&-";
    assert_eq!(closed(&bench, line).status, Some(0));
    assert_eq!(closed(&bench, "look calibres.bin 2>&-").status, Some(0));
}

#[test]
fn a_new_plain_output_is_for_its_owner_alone() {
    let bench = Bench::new();
    let mode = |name: &str| {
        let metadata = fs::metadata(bench.folder.join(name)).unwrap();
        metadata.permissions().mode() & 0o7777
    };
    for umask in ["000", "022", "077"] {
        let ran = closed(&bench, &format!("look -q calibres.bin; umask {umask}; '{}' open calibres.bin -o plain; '{0}' seal plain -o sealed --lock cryptoapi", env!("CARGO_BIN_EXE_sheet")));
        assert_eq!(ran.status, Some(0), "{}", ran.err);
        assert_eq!(mode("plain"), 0o600);
        assert_eq!(
            mode("sealed"),
            0o666 & !u32::from_str_radix(umask, 8).unwrap()
        );
        fs::remove_file(bench.folder.join("plain")).unwrap();
        fs::remove_file(bench.folder.join("sealed")).unwrap();
    }
    // A file that is there keeps its permissions.
    bench.write("plain", b"");
    let shared = fs::Permissions::from_mode(0o644);
    fs::set_permissions(bench.folder.join("plain"), shared).unwrap();
    let ran = bench.run_with("open calibres.bin -o plain", PASSWORD);
    assert_eq!((ran.status, mode("plain")), (Some(0), 0o644));
}

#[test]
fn names_are_shown_without_their_control_characters() {
    let bench = Bench::new();
    let name = "a\x1b[31m\nb";
    let shown = r"a\u{1b}[31m\nb";
    let run = |words: &[&str]| {
        let mut command = bench.command_with("", PASSWORD);
        Ran::of(command.args(words))
    };
    run(&["look", name]).failed(2, &[&format!("sheet: {shown}: there is no such file")]);
    run(&["open", "calibres.bin", "-o", &format!("none/{name}")])
        .failed(2, &[&format!("none/{shown}: ")]);
    run(&["open", "calibres.bin", "-o", &format!("{name}/out")])
        .failed(2, &[&format!("there is no folder {shown}: ")]);
    run(&["open", "calibres.bin", "-o", "out", "--password-file", name])
        .failed(2, &[&format!("sheet: password file {shown}: ")]);
    run(&[name]).failed(2, &[&format!("there is no command '{shown}'")]);
    run(&["look", &format!("--{name}"), "x"]).failed(2, &[&format!("'--{shown}'")]);
    run(&["seal", "x", "-o", "y", "--lock", name]).failed(2, &[&format!("'{shown}'")]);
    bench.write(name, &protected());
    let ran = run(&["look", name]);
    assert!(ran.err.starts_with(&format!("sheet: warning: {shown}: ")));
    run(&["forecast", name]).failed(1, &[&format!("forecast of opening {shown}\n")]);
    bench.write(name, b"\xD0\xCF\x11\xE0\xA1\xB1\x1A\xE1");
    run(&["list", name]).failed(2, &[shown, r"gsf list $'a\x1b[31m\x0ab'"]);
    // Bytes that are no text.
    let mut command = bench.command("look");
    let ran = Ran::of(command.arg(OsStr::from_bytes(b"a\xFF\x07")));
    ran.failed(2, &["sheet: a\u{FFFD}\\u{7}: "]);
}

#[test]
fn an_output_may_follow_its_option_at_once() {
    let bench = Bench::new();
    for line in [
        "open calibres.bin -oplain",
        "open -oplain calibres.bin",
        "open calibres.bin --output plain",
        "open calibres.bin --output=plain",
    ] {
        let ran = bench.run_with(line, PASSWORD);
        assert_eq!(ran.status, Some(0), "{line}: {}", ran.err);
        assert_eq!(bench.read("plain"), bench.plain());
        fs::remove_file(bench.folder.join("plain")).unwrap();
    }
    bench
        .run_with("open calibres.bin -o=plain", PASSWORD)
        .failed(2, &["without ="]);
    bench.has_only(&[]);
}
