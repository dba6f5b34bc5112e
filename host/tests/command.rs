//! The command, as a user meets it.

mod common;

use std::fs::{self, OpenOptions};
use std::io::Read;
use std::os::unix::fs::{symlink, PermissionsExt};
use std::process::Stdio;

use common::bench::{Bench, Ran, FORECAST, PASSWORD, REPORT};
use common::book::{clear_len, header, Book, Kind, BOF, FILEPASS, KINDS, ROW};
use common::passwords::longest;
use common::process::{run, Process};
use common::walk::walk;

/// Every command that reads a stream.
const COMMANDS: [&str; 7] = [
    "look",
    "same-lock calibres.bin",
    "list",
    "directory",
    "forecast",
    "open -o plain",
    "seal -o plain --lock cryptoapi",
];

#[test]
fn look_tells_the_lock() {
    let bench = Bench::new();
    let ran = bench.run("look calibres.bin");
    assert_eq!((ran.status, &ran.err[..]), (Some(0), ""));
    assert_eq!(
        ran.out,
        "locked\tyes\nlock\tRC4 CryptoAPI\nversion\t2.2\nkey size\t128\n"
    );
    for (kind, told) in [
        (Kind::Xor, "lock\tXOR\n"),
        (Kind::Office97, "lock\tOffice 97 RC4\nversion\t1.1\n"),
        (
            Kind::CryptoApi(40, true),
            "lock\tRC4 CryptoAPI\nversion\t4.2\nkey size\t40\n",
        ),
    ] {
        let book = Book::small(kind);
        bench.write("book", &book.locked);
        // An opened book, and not more of it than comes before a second FILEPASS.
        bench.write("plain", &book.plain[..book.filepass().1]);
        bench.write("cut", &book.locked[..book.filepass().0 + 2]);
        let told = format!("locked\tyes\n{told}");
        for (name, told) in [
            ("book", &told[..]),
            ("plain", "locked\tno\n"),
            ("cut", "locked\tunknown\n"),
        ] {
            let ran = bench.run(&format!("look {name}"));
            assert_eq!(
                (ran.status, &ran.out[..], &ran.err[..]),
                (Some(0), told, "")
            );
        }
    }
    let ran = bench.run_on("look -", bench.file("plain"));
    assert_eq!((ran.status, &ran.out[..]), (Some(0), "locked\tno\n"));
    // A lock of an unknown kind, and one whose version is not there.
    bench.write("strange", b"\x09\x08\0\0\x2F\0\x06\0\x01\0\x07\0\x03\0");
    let ran = bench.run("look strange");
    assert_eq!(ran.out, "locked\tyes\nversion\t7.3\n");
    bench.write("strange", b"\x09\x08\0\0\x2F\0\0\0");
    assert_eq!(bench.run("look strange").out, "locked\tyes\n");
}

#[test]
fn list_lists_the_records() {
    let bench = Bench::new();
    // Document 01's example.
    bench.write(
        "book",
        b"\x09\x08\0\0\x2F\0\0\0\x85\0\x06\0\x01\x02\x03\x04\x05\x06\xE1\0\x02\0\x07\x08",
    );
    let expected =
        "at\tid\tlength\tclear\n0\t0809\t0\t0\n4\t002f\t0\t0\n8\t0085\t6\t4\n18\t00e1\t2\t2\n";
    let ran = bench.run("list book");
    assert_eq!(
        (ran.status, &ran.out[..], &ran.err[..]),
        (Some(0), expected, "")
    );
    let ran = bench.run_on("list -", bench.file("book"));
    assert_eq!((ran.status, &ran.out[..]), (Some(0), expected));
    assert_eq!(bench.run("list calibres.bin").out.lines().count(), 187);
}

#[test]
fn list_ends_at_a_record_that_is_cut_off() {
    let bench = Bench::new();
    bench.write("cut", &bench.read("calibres.bin")[..100]);
    let ran = bench.run("list cut");
    assert_eq!(ran.status, Some(1));
    assert_eq!(
        ran.out,
        "at\tid\tlength\tclear\n0\t0809\t16\t16\nunreadable\t20\n"
    );
    assert!(ran
        .err
        .starts_with("sheet: cut: the record at offset 20 can't be read"));
}

#[test]
fn directory_lists_the_sheets() {
    let bench = Bench::new();
    bench.write("plain", &bench.plain());
    for name in ["calibres.bin", "plain"] {
        let ran = bench.run(&format!("directory {name}"));
        let told = (ran.status, &ran.out[..], &ran.err[..]);
        assert_eq!(told, (Some(0), "place\tstart\n0\t170\n", ""));
    }
    for kind in KINDS {
        for (sheets, falling) in [(0, false), (1, false), (300, false), (300, true)] {
            let order = |place: usize| match falling {
                true => sheets - 1 - place,
                false => place,
            };
            let (book, starts) = Book::of_sheets(kind, &vec![8; sheets], order);
            let lines = starts.iter().enumerate();
            let lines = lines.map(|(place, start)| format!("{place}\t{start}\n"));
            let expected = format!("place\tstart\n{}", lines.collect::<String>());
            bench.write("book", &book.locked);
            bench.write("plain", &book.plain);
            for ran in [
                bench.run("directory book"),
                bench.run("directory plain"),
                bench.run_on("directory -", bench.file("book")),
            ] {
                let told = (ran.status, &ran.out[..], &ran.err[..]);
                assert_eq!(told, (Some(0), &expected[..], ""));
            }
        }
    }
    bench.has_only(&["book", "plain"]);
}

#[test]
fn directory_refuses_by_number() {
    let bench = Bench::new();
    let locked = bench.read("calibres.bin");
    let mut moved = locked.clone();
    moved[150] = 166;
    for (stream, words) in [
        (
            locked[..1000].to_vec(),
            "refused, 6: a record can't be read: its header or its body is cut off, and what is left \
             is not padding, at offset ",
        ),
        (
            header(ROW, 0),
            "refused, 7: the stream does not start with a BOF record; this is not a workbook ",
        ),
        (
            moved,
            "refused, 28: a sheet's entry does not name a sheet: the body of its BoundSheet8 record is \
             shorter than 4 bytes, or the start in it is not the header of a BOF record: the record \
             at offset 146; the stream is damaged: ",
        ),
        (
            locked[..3431].to_vec(),
            "refused, 29: BOF and EOF records do not pair up: at offset 3431, where an EOF record \
             has no BOF to close or, if that is the end of the stream, a BOF is left open; the \
             stream is damaged: ",
        ),
        (
            [&locked[..], &locked[3431..]].concat(),
            "refused, 29: BOF and EOF records do not pair up: at offset 3435, ",
        ),
    ] {
        bench.write("book", &stream);
        let ran = bench.run("directory book");
        ran.failed(1, &["\nsheet: the sheets of book were not listed\n"]);
        assert!(ran.err.starts_with(words), "{}", ran.err);
        assert_eq!(ran.err.lines().count(), 2);
    }
    bench.has_only(&["book"]);
}

#[test]
fn forecast_tells_what_opening_takes() {
    let bench = Bench::new();
    let before = bench.read("calibres.bin");
    for ran in [
        bench.run("forecast calibres.bin"),
        bench.run_on("forecast -", bench.file("calibres.bin")),
        // A password is no concern of it.
        bench.run_with("forecast calibres.bin", "another"),
    ] {
        let told = (ran.status, &ran.out[..], &ran.err[..]);
        assert_eq!(told, (Some(0), FORECAST, ""));
    }
    assert!(bench.read("calibres.bin") == before);
    for kind in KINDS {
        for book in [Book::small(kind), Book::long(kind)] {
            bench.write("book", &book.locked);
            let told = book.forecast_in(book.locked.len());
            let lines = [
                format!("output bytes\t{}", told.output_bytes),
                format!("records\t{}", told.records),
                format!("enciphered body bytes\t{}", told.enciphered_body_bytes),
                format!("block keys\t{}", told.block_keys),
            ];
            for ran in [
                bench.run("forecast book"),
                bench.run_on("forecast -", bench.file("book")),
            ] {
                assert_eq!((ran.status, &ran.err[..]), (Some(0), ""));
                assert_eq!(ran.out, lines.join("\n") + "\n");
            }
            // The same lines stand in the report.
            let ran = bench.run_with("open book -o plain", book.password);
            assert_eq!((ran.status, &ran.err[..]), (Some(0), ""));
            for line in &lines {
                assert_eq!(ran.out.lines().filter(|told| told == line).count(), 1);
            }
        }
    }
    bench.has_only(&["book", "plain"]);
}

#[test]
fn forecast_refuses_by_number() {
    let bench = Bench::new();
    let locked = bench.read("calibres.bin");
    let protected = [(BOF, vec![]), (0x0086, vec![]), (FILEPASS, vec![])];
    // The key size of the sample's lock.
    let mut odd = locked.clone();
    odd[54] = 44;
    for (stream, words) in [
        (
            locked[..3433].to_vec(),
            "refused, 6: a record can't be read: its header or its body is cut off, and what is left \
             is not padding, at offset 3431; ",
        ),
        (
            header(ROW, 0),
            "refused, 7: the stream does not start with a BOF record; this is not a workbook ",
        ),
        (
            bench.plain(),
            "refused, 8: there is no FILEPASS record, so the workbook is not locked; there is \
             nothing to open: use the stream as it is\n",
        ),
        (
            Book::new(Kind::Xor, "A", &protected).locked,
            "refused, 9: a record that the format does not allow there comes before FILEPASS: \
             WriteProtect, id 0086; ",
        ),
        (
            odd,
            "refused, 23: the CryptoAPI lock's key size is not 40 to 128 bits in steps of 8, nor 0 \
             in a book that is opened: it states 44; ",
        ),
    ] {
        bench.write("book", &stream);
        let ran = bench.run("forecast book");
        ran.failed(1, &["\nsheet: there is no forecast of opening book\n"]);
        assert!(ran.err.starts_with(words), "{}", ran.err);
        assert_eq!(ran.err.lines().count(), 2);
        // An opening is refused in the same words.
        let opened = bench.run_with("open book -o plain", PASSWORD);
        opened.failed(1, &["\nsheet: book was not opened, and nothing was written\n"]);
        assert_eq!(opened.err.lines().next(), ran.err.lines().next());
    }
    let ran = bench.run_on("forecast -", bench.file("book"));
    ran.failed(
        1,
        &["\nsheet: there is no forecast of opening standard input\n"],
    );
    bench.has_only(&["book"]);
}

#[test]
fn open_writes_the_plain_stream() {
    let bench = Bench::new();
    let ran = bench.run("open calibres.bin -o plain --password-file calibres.password");
    assert_eq!(
        (ran.status, &ran.out[..], &ran.err[..]),
        (Some(0), REPORT, "")
    );
    assert!(bench.read("plain") == bench.plain());
    let ran = bench.run_with("open -o other calibres.bin", PASSWORD);
    assert_eq!(
        (ran.status, &ran.out[..], &ran.err[..]),
        (Some(0), REPORT, "")
    );
    assert!(bench.read("other") == bench.plain());
    bench.has_only(&["plain", "other"]);
}

#[test]
fn look_tells_the_key_size_that_open_reports() {
    let bench = Bench::new();
    let mut book = Book::small(Kind::CryptoApi(40, false));
    let at = book.filepass().0 + 4 + 30;
    book.locked[at..at + 4].copy_from_slice(&[0; 4]);
    bench.write("book", &book.locked);
    let line = |ran: Ran| {
        assert_eq!((ran.status, &ran.err[..]), (Some(0), ""));
        let mut lines = ran.out.lines().filter(|line| line.starts_with("key size"));
        (lines.next().map(str::to_string), lines.count())
    };
    let told = (Some("key size\t40".to_string()), 0);
    assert_eq!(line(bench.run("look book")), told);
    assert_eq!(
        line(bench.run_with("open book -o plain", book.password)),
        told
    );
    assert!(bench.read("plain") == book.plain);
}

/// What is told when a book is opened.
fn report_of(book: &Book) -> String {
    let report = book.report_in(book.locked.len());
    let sealed = if report.summary_sealed { "yes" } else { "no" };
    format!(
        "records\t{}\nlock\t{}\nkey size\t{}\nsummary sealed\t{sealed}\noutput bytes\t{}\n\
         enciphered body bytes\t{}\nblock keys\t{}\n",
        report.records,
        report.lock,
        report.key_bits.unwrap_or(0),
        report.output_bytes,
        report.enciphered_body_bytes,
        report.block_keys
    )
}

#[test]
fn open_reports_every_lock() {
    let bench = Bench::new();
    for kind in KINDS {
        let book = Book::long(kind);
        bench.write("book", &book.locked);
        let ran = bench.run_with("open book -o plain", book.password);
        let expected = report_of(&book);
        assert_eq!((ran.status, ran.out, &ran.err[..]), (Some(0), expected, ""));
        assert!(bench.read("plain") == book.plain);
    }
}

#[test]
fn a_password_of_1024_bytes_opens() {
    let bench = Bench::new();
    for kind in [Kind::Office97, Kind::CryptoApi(128, true)] {
        for password in longest() {
            let book = Book::long_under(kind, password);
            bench.write("book", &book.locked);
            bench.write("password", format!("{password}\r\n").as_bytes());
            let by_file = bench.run("open book -o one --password-file password");
            let by_variable = bench.run_with("open book -o two", password);
            for (ran, output) in [(by_file, "one"), (by_variable, "two")] {
                let expected = report_of(&book);
                assert_eq!((ran.status, ran.out, &ran.err[..]), (Some(0), expected, ""));
                assert!(bench.read(output) == book.plain);
            }
        }
    }
    bench.has_only(&["book", "one", "password", "two"]);
}

#[test]
fn padding_has_no_line_and_is_written_through() {
    let bench = Bench::new();
    for kind in KINDS {
        for zeros in 1..=3 {
            let (book, starts) = Book::of_sheets(kind, &[1000, 0], |place| place);
            let book = book.padded(zeros);
            bench.write("book", &book.locked);

            let (records, _) = walk(&book.locked);
            assert_eq!(records.len(), book.headers.len());
            let lines = records.iter().map(|(at, id, body)| {
                let (len, clear) = (body.len(), clear_len(*id, body.len()));
                format!("{at}\t{id:04x}\t{len}\t{clear}\n")
            });
            let list = format!("at\tid\tlength\tclear\n{}", lines.collect::<String>());
            let directory = format!("place\tstart\n0\t{}\n1\t{}\n", starts[0], starts[1]);
            for (line, expected) in [
                ("list book", list),
                ("directory book", directory),
                ("open book -o plain", report_of(&book)),
            ] {
                let ran = bench.run_with(line, book.password);
                assert_eq!((ran.status, ran.out, &ran.err[..]), (Some(0), expected, ""));
            }
            assert!(bench.read("plain") == book.plain);
        }
    }
    bench.has_only(&["book", "plain"]);
}

#[test]
fn the_password_file_comes_before_the_environment() {
    let bench = Bench::new();
    let line = "open calibres.bin -o plain --password-file calibres.password";
    assert_eq!(bench.run_with(line, "another").status, Some(0));
    bench.write("wrong", b"another");
    let line = "open calibres.bin -o plain --password-file wrong";
    assert_eq!(bench.run_with(line, PASSWORD).status, Some(1));
}

#[test]
fn one_newline_of_a_password_file_is_taken_off() {
    let bench = Bench::new();
    for (end, status) in [
        ("", 0),
        ("\n", 0),
        ("\r\n", 0),
        ("\n\n", 1),
        ("\r", 1),
        (" \n", 1),
    ] {
        bench.write("password", format!("{PASSWORD}{end}").as_bytes());
        let ran = bench.run("open calibres.bin -o plain --password-file password");
        assert_eq!(ran.status, Some(status), "{end:?}");
    }
    let line = "open calibres.bin -o plain --password-file -";
    let ran = bench.run_on(line, bench.file("calibres.password"));
    assert_eq!(ran.status, Some(0));
}

#[test]
fn a_wrong_password_is_refused_by_number() {
    let bench = Bench::new();
    let ran = bench.run_with("open calibres.bin -o plain", "hebungswinkel 50°");
    ran.failed(1, &["keyboard layout", "calibres.bin was not opened"]);
    assert!(ran
        .err
        .starts_with("refused, 27: the password is not correct"));
    assert!(!ran.err.contains("hebungswinkel"));
    bench
        .run_with("open calibres.bin -o plain", "")
        .failed(1, &["refused, 27: "]);
    bench.has_only(&[]);
}

#[test]
fn passwords_that_no_book_has_are_refused_by_number() {
    let bench = Bench::new();
    for (bytes, number) in [
        (vec![b'x'; 1024], 27),
        (vec![b'x'; 1025], 1),
        (vec![b'x'; 100_000], 1),
        (b"Gr\xFC\xDFe".to_vec(), 2),
        // The mark that a Windows editor puts before "Unicode".
        (b"\xFF\xFEU".to_vec(), 2),
    ] {
        let refused = format!("refused, {number}: ");
        for end in [&b""[..], b"\n", b"\r\n"] {
            bench.write("password", &[&bytes, end].concat());
            let ran = bench.run("open calibres.bin -o plain --password-file password");
            ran.failed(1, &[&refused]);
        }
        let mut command = bench.command("open calibres.bin -o plain");
        let value: std::ffi::OsString = std::os::unix::ffi::OsStringExt::from_vec(bytes);
        Ran::of(command.env("SHEET_PASSWORD", value)).failed(1, &[&refused]);
    }
    bench.has_only(&["password"]);
}

#[test]
fn streams_that_are_not_in_order_are_refused_by_number() {
    let bench = Bench::new();
    let locked = bench.read("calibres.bin");
    let protected = [(BOF, vec![]), (0x0086, vec![]), (FILEPASS, vec![])];
    for (stream, words) in [
        (locked[..1000].to_vec(), "refused, 6: "),
        ([&locked[..], &[0, 0, 1]].concat(), "at offset 3435; "),
        (header(ROW, 0), "refused, 7: "),
        (bench.plain(), "refused, 8: "),
        (
            Book::new(Kind::Xor, "A", &protected).locked,
            "WriteProtect, id 0086",
        ),
    ] {
        bench.write("book", &stream);
        bench
            .run_with("open book -o plain", PASSWORD)
            .failed(1, &[words]);
        // Without a password the same is said, and none is asked for.
        bench.run("open book -o plain").failed(1, &[words]);
    }
    bench.has_only(&["book"]);
}

#[test]
fn no_terminal_and_no_password() {
    let bench = Bench::new();
    let ran = bench.run("open calibres.bin -o plain");
    ran.failed(2, &["no terminal", "--password-file", "SHEET_PASSWORD"]);
    bench.has_only(&[]);
}

#[test]
fn files_that_can_t_be_read() {
    let bench = Bench::new();
    fs::create_dir(bench.folder.join("drawer")).unwrap();
    for command in COMMANDS {
        bench
            .run_with(&format!("{command} drawer"), PASSWORD)
            .failed(2, &["sheet: drawer: ", "folder"]);
        bench
            .run_with(&format!("{command} none"), PASSWORD)
            .failed(2, &["sheet: none: ", "no such file"]);
        bench
            .run_with(&format!("{command} calibres.bin/x"), PASSWORD)
            .failed(2, &["sheet: calibres.bin/x: ", "not a folder"]);
        let mut command = bench.command_with(&format!("{command} -"), PASSWORD);
        Ran::of(command.stdin(bench.file("drawer"))).failed(2, &["standard input", "folder"]);
    }
    for (file, words) in [("none", "no such file"), ("drawer", "folder")] {
        let line = format!("open calibres.bin -o plain --password-file {file}");
        bench
            .run(&line)
            .failed(2, &["sheet: password file ", file, words]);
    }
    bench.has_only(&["drawer"]);
}

#[test]
fn compound_files_are_told_from_streams() {
    let bench = Bench::new();
    bench.write("book.xls", b"\xD0\xCF\x11\xE0\xA1\xB1\x1A\xE1 and more");
    for command in COMMANDS {
        let ran = bench.run_with(&format!("{command} book.xls"), PASSWORD);
        ran.failed(
            2,
            &[
                "sheet: book.xls: ",
                "a compound file (.xls, .doc, .ppt, or a protected .xlsx)",
                "libgsf-bin",
                "\n  gsf list book.xls\n",
                "\n  gsf cat book.xls Workbook > book.bin\n",
                "EncryptedPackage",
            ],
        );
        assert_eq!(ran.err.lines().count(), 6);
        let mut command = bench.command_with(&format!("{command} -"), PASSWORD);
        Ran::of(command.stdin(bench.file("book.xls")))
            .failed(2, &["sheet: standard input: ", "gsf cat"]);
    }
    bench.has_only(&["book.xls"]);
}

#[test]
fn outputs_that_can_t_be_written() {
    let bench = Bench::new();
    fs::create_dir(bench.folder.join("drawer")).unwrap();
    symlink("nowhere", bench.folder.join("dangling")).unwrap();
    for (out, words) in [
        ("none/plain", "no folder none"),
        ("none/", "no such folder"),
        ("drawer", "folder"),
        ("drawer/", "folder"),
        ("calibres.password/plain", "not a folder"),
        ("dangling", "link"),
        ("/dev/null", "device"),
    ] {
        let ran = bench.run_with(&format!("open calibres.bin -o {out}"), PASSWORD);
        ran.failed(2, &[&format!("sheet: {out}: "), words]);
        // It is said before a password is asked for.
        let ran = bench.run(&format!("open calibres.bin -o {out}"));
        ran.failed(2, &[&format!("sheet: {out}: "), words]);
    }
    bench.has_only(&["drawer", "dangling"]);
    assert_eq!(
        fs::read_dir(bench.folder.join("drawer")).unwrap().count(),
        0
    );
}

#[test]
fn the_input_is_never_the_output() {
    let bench = Bench::new();
    let before = bench.read("calibres.bin");
    fs::hard_link(bench.folder.join("calibres.bin"), bench.folder.join("hard")).unwrap();
    symlink("calibres.bin", bench.folder.join("soft")).unwrap();
    let same = "this is the input file";
    for file in ["calibres.bin", "hard", "soft", "./calibres.bin"] {
        for out in ["calibres.bin", "hard", "soft", "./calibres.bin"] {
            let ran = bench.run_with(&format!("open {file} -o {out}"), PASSWORD);
            ran.failed(2, &[&format!("sheet: {out}: "), same]);
        }
    }
    let mut command = bench.command_with("open - -o hard", PASSWORD);
    Ran::of(command.stdin(bench.file("calibres.bin"))).failed(2, &["sheet: hard: ", same]);
    let appended = OpenOptions::new()
        .append(true)
        .open(bench.folder.join("hard"))
        .unwrap();
    let mut command = bench.command_with("open calibres.bin -o -", PASSWORD);
    Ran::to(appended, &mut command).failed(2, &["sheet: standard output: ", same]);
    bench.has_only(&["hard", "soft"]);
    assert!(bench.read("calibres.bin") == before);
}

#[test]
fn an_output_that_is_there_is_replaced_when_the_new_one_is_whole() {
    let bench = Bench::new();
    bench.write("plain", b"old");
    let mut old = bench.file("plain");
    bench
        .run_with("open calibres.bin -o plain", "another")
        .failed(1, &["refused, 27"]);
    assert_eq!(bench.read("plain"), b"old");
    assert_eq!(
        bench
            .run_with("open calibres.bin -o plain", PASSWORD)
            .status,
        Some(0)
    );
    assert!(bench.read("plain") == bench.plain());
    // The old one was not written to: it is another file.
    let mut text = String::new();
    old.read_to_string(&mut text).unwrap();
    assert_eq!(text, "old");
    // Through a link the file behind it is replaced, and the link stays.
    bench.write("target", b"old");
    symlink("target", bench.folder.join("link")).unwrap();
    assert_eq!(
        bench.run_with("open calibres.bin -o link", PASSWORD).status,
        Some(0)
    );
    assert!(bench.read("target") == bench.plain());
    assert!(fs::symlink_metadata(bench.folder.join("link"))
        .unwrap()
        .is_symlink());
    bench.has_only(&["link", "plain", "target"]);
}

#[test]
fn an_output_that_is_replaced_keeps_its_permissions() {
    let bench = Bench::new();
    let old = bench.write("plain", b"old");
    for mode in [0o640, 0o600] {
        fs::set_permissions(&old, fs::Permissions::from_mode(mode)).unwrap();
        let ran = bench.run_with("open calibres.bin -o plain", PASSWORD);
        assert_eq!(ran.status, Some(0));
        assert!(bench.read("plain") == bench.plain());
        let after = fs::metadata(&old).unwrap().permissions();
        assert_eq!(after.mode() & 0o777, mode);
    }
}

#[test]
fn standard_input_and_standard_output() {
    let bench = Bench::new();
    for line in ["open - -o -", "open calibres.bin -o -"] {
        let mut command = bench.command_with(line, PASSWORD);
        let output = run(command.stdin(bench.file("calibres.bin")));
        assert_eq!(output.status.code(), Some(0));
        assert!(output.stdout == bench.plain());
        assert_eq!(String::from_utf8(output.stderr).unwrap(), REPORT);
    }
    let mut command = bench.command_with("open - -o plain", PASSWORD);
    let ran = Ran::of(command.stdin(bench.file("calibres.bin")));
    assert_eq!(ran.out, REPORT);
    assert!(bench.read("plain") == bench.plain());
    // From a pipe, whose length nobody knows beforehand.
    let mut command = bench.command_with("open - -o -", PASSWORD);
    command
        .stdin(Stdio::piped())
        .stdout(Stdio::piped())
        .stderr(Stdio::piped());
    let mut process = Process::start(&mut command);
    process.write(&bench.read("calibres.bin"));
    assert!(process.end().stdout == bench.plain());
    bench
        .run("open - -o plain --password-file -")
        .failed(2, &["both", "standard input"]);
    bench.has_only(&["plain"]);
}

#[test]
fn mistakes_in_the_arguments() {
    let bench = Bench::new();
    let password = "not taken as an argument";
    for (line, words) in [
        (
            "",
            "look, same-lock, list, directory, forecast, open, seal or refusals",
        ),
        ("opne calibres.bin", "'opne'"),
        ("directory calibres.bin 0", "'0'"),
        ("forecast", "name of a file"),
        ("forecast calibres.bin other", "'other'"),
        ("forecast calibres.bin -o plain", "neither -o"),
        ("forecast calibres.bin --password Geheim", password),
        ("open calibres.bin", "-o"),
        ("open -o plain", "name of a file"),
        ("open calibres.bin -o plain --password Geheim", password),
        ("open calibres.bin -o plain --password=Geheim", password),
        ("open calibres.bin -o plain -pGeheim", password),
        ("open calibres.bin Geheim -o plain", password),
        ("look calibres.bin other", "'other'"),
        ("same-lock calibres.bin", "names of two files"),
        ("same-lock calibres.bin other third", "'third'"),
        ("same-lock calibres.bin other --password Geheim", password),
        ("list --quiet calibres.bin", "'sheet same-lock' alone"),
    ] {
        let ran = bench.run(line);
        ran.failed(2, &["sheet: ", words, "sheet --help"]);
        assert!(!ran.err.contains("Geheim"));
    }
    bench.has_only(&[]);
}

#[test]
fn help_and_version() {
    let bench = Bench::new();
    for line in ["--help", "-h", "help", "open --help", "seal --help"] {
        let ran = bench.run(line);
        assert_eq!((ran.status, &ran.err[..]), (Some(0), ""));
        for words in [
            "sheet look FILE",
            "sheet same-lock A B",
            "sheet list FILE",
            "sheet directory FILE",
            "sheet forecast FILE",
            "sheet open FILE -o OUT",
            "sheet seal FILE -o OUT --lock LOCK",
            "--lock cryptoapi",
            "--key-size N",
            "--major N",
            "--lock office97",
            "--lock xor",
            "sheet refusals",
            "--password-file",
            "SHEET_PASSWORD",
            "process list",
            "history",
            "environment's own copy",
            "gsf cat book.xls Workbook > book.bin",
            "enciphered body bytes",
            "block keys",
            "EXIT STATUS",
        ] {
            assert!(ran.out.contains(words), "{words}");
        }
        assert!(ran.out.lines().all(|line| line.chars().count() < 80));
    }
    let version = format!("sheet {}\n", env!("CARGO_PKG_VERSION"));
    assert_eq!(bench.run("--version").out, version);
}
