//! The command `sheet same-lock`: its answer in words and by the exit status, why it says no, and what
//! it warns of.

mod common;

use std::fs::File;
use std::io::{Seek, Write};

use common::bench::{Bench, Ran, PASSWORD};
use common::book::{clear_front, header, joined, Book, Kind, BOF, FILEPASS, KINDS, ROW};
use common::process;

/// The first bytes of a stream that are compared.
const MEBIBYTE: usize = 1 << 20;

const WRITE_PROTECT: u16 = 0x0086;

const DIFFER: &str =
    "why\tboth are locked, but their FILEPASS records differ: the password of one need \
    not be that of the other\n";

/// Sees that the locks are the same, in both orders, and that a quiet comparison says so too.
#[track_caller]
fn same(bench: &Bench, [a, b]: [&str; 2]) {
    for (a, b) in [(a, b), (b, a)] {
        let ran = bench.run(&format!("same-lock {a} {b}"));
        let told = (ran.status, &ran.out[..], &ran.err[..]);
        assert_eq!(told, (Some(0), "same lock\tyes\n", ""), "{a} {b}");
        check_quiet(bench, &ran, a, b);
    }
}

/// Sees that the locks are not the same, and why.
#[track_caller]
fn not_same(bench: &Bench, a: &str, b: &str, why: &str) {
    let ran = bench.run(&format!("same-lock {a} {b}"));
    let told = (ran.status, &ran.out[..], &ran.err[..]);
    let expected = format!("same lock\tno\n{why}");
    assert_eq!(told, (Some(1), &expected[..], ""), "{a} {b}");
    check_quiet(bench, &ran, a, b);
}

/// Sees that a quiet comparison ends as this one did, without its words.
#[track_caller]
fn check_quiet(bench: &Bench, ran: &Ran, a: &str, b: &str) {
    for line in [
        format!("same-lock -q {a} {b}"),
        format!("same-lock {a} {b} --quiet"),
    ] {
        let quiet = bench.run(&line);
        let told = (quiet.status, &quiet.out[..], &quiet.err[..]);
        assert_eq!(told, (ran.status, "", &ran.err[..]), "{line}");
    }
}

#[test]
fn books_under_one_lock_have_the_same() {
    let bench = Bench::new();
    same(&bench, ["calibres.bin", "calibres.bin"]);
    for kind in KINDS {
        bench.write("small", &Book::small(kind).locked);
        bench.write("long", &Book::long(kind).locked);
        same(&bench, ["small", "long"]);
        not_same(&bench, "small", "calibres.bin", DIFFER);
    }
    // The lock is compared, and nothing after it.
    let book = bench.read("calibres.bin");
    bench.write("cut", &book[..1000]);
    same(&bench, ["calibres.bin", "cut"]);
    bench.has_only(&["cut", "long", "small"]);
}

#[test]
fn another_salt_is_another_lock() {
    let bench = Bench::new();
    bench.write("plain", &bench.plain());
    // The same stream under the same password, twice.
    for out in ["one", "two"] {
        let line = format!("seal plain -o {out} --lock cryptoapi");
        assert_eq!(bench.run_with(&line, PASSWORD).status, Some(0));
    }
    not_same(&bench, "one", "two", DIFFER);
    not_same(&bench, "two", "one", DIFFER);
    bench.write("copy", &bench.read("one"));
    same(&bench, ["one", "copy"]);
    // A last byte of a lock that is another.
    let kind = Kind::Office97;
    let book = Book::small(kind);
    let mut other = book.locked.clone();
    other[book.filepass().1 - 1] ^= 1;
    bench.write("book", &book.locked);
    bench.write("other", &other);
    not_same(&bench, "book", "other", DIFFER);
}

#[test]
fn key_sizes_0_and_40_are_different_locks() {
    let bench = Bench::new();
    let book = Book::small(Kind::CryptoApi(40, false));
    let mut zero = book.locked.clone();
    zero[book.filepass().0 + 4 + 30] = 0;
    bench.write("forty", &book.locked);
    bench.write("zero", &zero);
    // A look shows no difference.
    assert_eq!(bench.run("look forty"), bench.run("look zero"));
    not_same(&bench, "forty", "zero", DIFFER);
    not_same(&bench, "zero", "forty", DIFFER);
}

#[test]
fn a_book_that_is_not_found_to_be_locked_is_named() {
    let bench = Bench::new();
    let book = Book::small(Kind::Xor);
    bench.write("book", &book.locked);
    // An opened book, and not more of it than comes before a second FILEPASS.
    bench.write("plain", &book.plain[..book.filepass().1]);
    bench.write("cut", &book.locked[..book.filepass().0 + 2]);
    bench.write("other", &header(ROW, 0));
    let unlocked = |name: &str| format!("why\tlook finds no lock in {name}\n");
    let unknown = |name: &str| {
        format!(
            "why\tlook can't tell whether {name} is locked: it is not a workbook stream, or is cut \
             off too early\n"
        )
    };
    let (plain, cut, other) = (unlocked("plain"), unknown("cut"), unknown("other"));
    not_same(&bench, "book", "plain", &plain);
    not_same(&bench, "plain", "book", &plain);
    not_same(&bench, "book", "cut", &cut);
    not_same(&bench, "other", "book", &other);
    not_same(&bench, "plain", "cut", &format!("{plain}{cut}"));
    not_same(&bench, "cut", "plain", &format!("{cut}{plain}"));
    // Nor is a book that is not locked the same as itself.
    not_same(&bench, "plain", "plain", &plain.repeat(2));
    not_same(&bench, "cut", "cut", &cut.repeat(2));
}

#[test]
fn a_lock_that_look_does_not_find_is_warned_of() {
    let bench = Bench::new();
    let lock = Kind::Xor.filepass("A");
    let records = [
        (BOF, vec![]),
        (WRITE_PROTECT, vec![]),
        (FILEPASS, lock),
        (ROW, vec![7; 30]),
    ];
    bench.write("protected", &joined(&records));
    let warning = bench.run("look protected").err;
    assert!(warning.starts_with("sheet: warning: protected: look says no, but a FILEPASS record"));
    let ran = bench.run("same-lock calibres.bin protected");
    assert_eq!((ran.status, &ran.err), (Some(1), &warning));
    assert_eq!(
        ran.out,
        "same lock\tno\nwhy\tlook finds no lock in protected\n"
    );
    check_quiet(&bench, &ran, "calibres.bin", "protected");
}

#[test]
fn one_of_the_two_may_be_standard_input() {
    let bench = Bench::new();
    bench.write("plain", &bench.plain());
    for (line, status, said) in [
        ("same-lock - calibres.bin", 0, "same lock\tyes\n"),
        ("same-lock calibres.bin -", 0, "same lock\tyes\n"),
        ("same-lock -q - calibres.bin", 0, ""),
        (
            "same-lock - plain",
            1,
            "same lock\tno\nwhy\tlook finds no lock in plain\n",
        ),
    ] {
        let ran = bench.run_on(line, bench.file("calibres.bin"));
        let told = (ran.status, &ran.out[..], &ran.err[..]);
        assert_eq!(told, (Some(status), said, ""), "{line}");
    }
    let ran = bench.run_on("same-lock calibres.bin -", bench.file("plain"));
    assert!(ran
        .out
        .ends_with("\nwhy\tlook finds no lock in standard input\n"));
    bench
        .run_on("same-lock - -", bench.file("calibres.bin"))
        .failed(2, &["only one of the two files can be standard input"]);
}

#[test]
fn a_file_that_can_t_be_read_is_named() {
    let bench = Bench::new();
    bench.write("book.xls", b"\xD0\xCF\x11\xE0\xA1\xB1\x1A\xE1 and more");
    bench.write("text", b"Kaliber;Hebungswinkel\r\n");
    bench.write("empty", b"");
    for (file, words) in [
        ("none", "sheet: none: there is no such file"),
        ("book.xls", "gsf cat book.xls Workbook > book.bin"),
        ("text", "sheet: text: this is a text file"),
        ("empty", "sheet: empty: this file is empty"),
    ] {
        for line in [
            format!("same-lock {file} calibres.bin"),
            format!("same-lock calibres.bin {file}"),
            format!("same-lock {file} {file}"),
            format!("same-lock -q calibres.bin {file}"),
        ] {
            bench.run(&line).failed(2, &[words]);
        }
    }
    // The first of two is named.
    let ran = bench.run("same-lock none text");
    ran.failed(2, &["sheet: none: "]);
    assert!(!ran.err.contains("text"), "{}", ran.err);
}

#[test]
fn the_first_mebibyte_is_read_and_no_more() {
    let bench = Bench::new();
    let book = bench.read("calibres.bin");
    let mut long = book.clone();
    long.resize(2 * MEBIBYTE, 0);
    bench.write("long", &long);
    for line in ["same-lock - calibres.bin", "same-lock -q calibres.bin -"] {
        // What was read of an open file shows where it stands afterwards.
        let mut file = bench.file("long");
        let mut command = bench.command(line);
        let ran = process::run(command.stdin(file.try_clone().unwrap()));
        assert_eq!(ran.status.code(), Some(0));
        assert_eq!(file.stream_position().unwrap(), MEBIBYTE as u64);
    }
    // A stream that can't be opened for its length is compared too.
    let longer = File::create(bench.folder.join("longer")).unwrap();
    (&longer).write_all(&book).unwrap();
    longer.set_len((1 << 30) + 1).unwrap();
    same(&bench, ["longer", "calibres.bin"]);
}

#[test]
fn locks_that_go_on_after_the_first_mebibyte_are_warned_of() {
    let bench = Bench::new();
    let body = Kind::Office97.filepass("A");
    // A book whose lock starts so many bytes before the mebibyte's end, and has so many bytes more.
    let book = |before: usize, more: &[u8]| {
        let mut records = clear_front(MEBIBYTE - before);
        records.push((FILEPASS, [&body, more].concat()));
        joined(&records)
    };
    let whole = 4 + body.len();
    bench.write("whole", &book(whole, &[]));
    bench.write("one more", &book(whole, &[1]));
    bench.write("another", &book(whole, &[2, 3]));
    let run = |a: &str, b: &str| Ran::of(bench.command("same-lock").args([a, b]));
    let yes = |err: &str| Ran {
        status: Some(0),
        out: "same lock\tyes\n".into(),
        err: err.into(),
    };
    let warning = "sheet: warning: by their headers both FILEPASS records go on after the first \
                   mebibyte, which is all that is compared: their locks may differ there, and so \
                   may their passwords\n";
    assert_eq!(run("whole", "whole"), yes(""));
    for more in ["one more", "another"] {
        assert_eq!(run("whole", more), yes(""));
        assert_eq!(run(more, "whole"), yes(""));
        assert_eq!(run(more, more), yes(warning));
    }
    assert_eq!(run("one more", "another"), yes(warning));
    let quiet = Ran::of(bench.command("same-lock -q").args(["one more", "another"]));
    assert_eq!((quiet.status, &quiet.out[..]), (Some(0), ""));
    assert_eq!(quiet.err, warning);
    // What differs is warned of by nothing.
    bench.write("cut", &book(whole - 1, &[1]));
    let ran = run("cut", "one more");
    assert_eq!((ran.status, &ran.err[..]), (Some(1), ""));
}

#[test]
fn names_are_shown_without_their_control_characters() {
    let bench = Bench::new();
    let name = "a\x1b[31m\tb";
    bench.write(name, &bench.plain());
    let ran = Ran::of(bench.command("same-lock calibres.bin").arg(name));
    assert_eq!(ran.status, Some(1));
    let line = r"why	look finds no lock in a\u{1b}[31m\tb";
    assert_eq!(ran.out, format!("same lock\tno\n{line}\n"));
}
