//! `sheet seal`, as a user meets it. The prompt, which asks twice, is in machine_terminal.rs.

mod common;

use std::fs::{self, OpenOptions};
use std::io::Read;
use std::os::unix::fs::{symlink, PermissionsExt};
use std::process::Stdio;

use common::bench::{Bench, Ran, PASSWORD, REPORT};
use common::book::{header, joined, Book, Kind, BOF, BOUND_SHEET, EOF, ROW};
use common::passwords::longest;
use common::process::{run, Process};
use common::rc4::Rc4;
use common::sealing::{sheet_with, ZERO};

/// What the warnings have in common.
const WARNING: &str = "sheet: warning: ";

/// The locks by name, the length of a zero record that each fits, what is told of them, and whether
/// a warning comes with them.
const LOCKS: [(&str, usize, &str, bool); 6] = [
    ("xor", 6, "lock\tXOR\nkey size\t0\n", true),
    ("office97", 54, "lock\tOffice 97 RC4\nkey size\t40\n", true),
    (
        "cryptoapi",
        106,
        "lock\tRC4 CryptoAPI\nkey size\t128\n",
        false,
    ),
    (
        "cryptoapi --key-size 40 --major 2",
        1098,
        "lock\tRC4 CryptoAPI\nkey size\t40\n",
        true,
    ),
    (
        "cryptoapi --key-size 48 --major 3",
        300,
        "lock\tRC4 CryptoAPI\nkey size\t48\n",
        true,
    ),
    (
        "cryptoapi --key-size 128 --major 4",
        122,
        "lock\tRC4 CryptoAPI\nkey size\t128\n",
        false,
    ),
];

/// A plain stream with a zero record of so many bytes, of several blocks, with padding.
fn sheet(len: usize) -> Vec<u8> {
    let rows = [
        (BOUND_SHEET, vec![0; 12]),
        (EOF, vec![]),
        (ROW, (0..3000).map(|k| (k % 251) as u8).collect()),
    ];
    [sheet_with(len, &rows), vec![0; 2]].concat()
}

/// A folder with the sample's plain stream.
fn bench() -> Bench {
    let bench = Bench::new();
    bench.write("plain", &bench.plain());
    bench
}

#[test]
fn seal_writes_a_stream_that_opens_again() {
    let bench = bench();
    let by_file = "seal plain -o sealed --lock cryptoapi --password-file calibres.password";
    for ran in [
        bench.run(by_file),
        bench.run_with("seal -o sealed plain --lock=cryptoapi", PASSWORD),
    ] {
        let told = (ran.status, &ran.out[..], &ran.err[..]);
        assert_eq!(told, (Some(0), REPORT, ""));
        // It is not the plain stream, and opens to it, with the same report.
        assert!(bench.read("sealed") != bench.plain());
        let ran = bench.run_with("open sealed -o again", PASSWORD);
        let told = (ran.status, &ran.out[..], &ran.err[..]);
        assert_eq!(told, (Some(0), REPORT, ""));
        assert!(bench.read("again") == bench.plain());
        let ran = bench.run("look sealed");
        assert_eq!(
            ran.out,
            "locked\tyes\nlock\tRC4 CryptoAPI\nversion\t4.2\nkey size\t128\n"
        );
    }
    assert!(bench.read("plain") == bench.plain());
    bench.has_only(&["again", "plain", "sealed"]);
}

#[test]
fn every_lock_seals_with_its_report_and_its_warning() {
    let bench = Bench::new();
    for (lock, len, told, warned) in LOCKS {
        let plain = sheet(len);
        bench.write("plain", &plain);
        let ran = bench.run_with(&format!("seal plain -o sealed --lock {lock}"), "Unruh");
        assert_eq!(ran.status, Some(0), "{ran:?}");
        assert!(ran.out.contains(told), "{}", ran.out);
        assert_eq!(ran.err.starts_with(WARNING), warned, "{}", ran.err);
        assert_eq!(ran.err.lines().count(), usize::from(warned));
        let opened = bench.run_with("open sealed -o again", "Unruh");
        let expected = (Some(0), &ran.out[..], "");
        assert_eq!((opened.status, &opened.out[..], &opened.err[..]), expected);
        assert!(bench.read("again") == plain);
        bench
            .run_with("open sealed -o again", "unruh")
            .failed(1, &["refused, 27"]);
        if let Some((_, major)) = lock.split_once("--major ") {
            let version = format!("version\t{major}.2\n");
            assert!(bench.run("look sealed").out.contains(&version));
        }
    }
    bench.has_only(&["again", "plain", "sealed"]);
}

#[test]
fn the_warnings_say_what_is_weak() {
    let bench = Bench::new();
    for (lock, len, words) in [
        ("xor", 6, &["XOR does not protect", "anyone who tries"][..]),
        (
            "office97",
            54,
            &[
                "Office 97 RC4 with a key of 40 bits does not protect",
                "anyone who tries",
                "whatever the password is",
            ],
        ),
        (
            "cryptoapi --key-size 40",
            106,
            &["RC4 CryptoAPI with a key of 40 bits does not protect"],
        ),
        (
            "cryptoapi --key-size 48",
            106,
            &[
                "a key of 48 bits is found by trying them all",
                "128 bits are",
            ],
        ),
        (
            "cryptoapi --key-size 64",
            106,
            &["a key of 64 bits is found by trying them all"],
        ),
    ] {
        bench.write("plain", &sheet(len));
        let ran = bench.run_with(&format!("seal plain -o sealed --lock {lock}"), "Unruh");
        assert_eq!(ran.status, Some(0));
        for word in words {
            assert!(ran.err.contains(word), "{}", ran.err);
        }
        assert!(ran.err.contains("128 bits"));
        // What is refused is not warned of.
        let line = format!("seal plain -o sealed --lock {lock}");
        let ran = bench.run_with(&line, &"x".repeat(1025));
        ran.failed(1, &["refused, 1: "]);
        assert!(!ran.err.contains("warning"));
    }
    bench.write("plain", &sheet(106));
    let ran = bench.run_with(
        "seal plain -o sealed --lock cryptoapi --key-size 72",
        "Unruh",
    );
    assert_eq!((ran.status, &ran.err[..]), (Some(0), ""));
    // An empty password is taken, where the lock takes it.
    let ran = bench.run_with("seal plain -o sealed --lock cryptoapi", "");
    assert_eq!(ran.status, Some(0));
    assert_eq!(ran.err.lines().count(), 1);
    assert!(ran.err.starts_with("sheet: warning: the password is empty"));
    bench.write("plain", &sheet(54));
    let ran = bench.run_with("seal plain -o sealed --lock office97", "");
    assert_eq!((ran.status, ran.err.lines().count()), (Some(0), 2));
}

#[test]
fn each_sealing_has_a_salt_and_a_verifier_of_its_own() {
    let bench = Bench::new();
    for (lock, len, kind) in [
        ("cryptoapi", 106, Kind::CryptoApi(128, false)),
        ("office97", 54, Kind::Office97),
    ] {
        let plain = sheet(len);
        bench.write("plain", &plain);
        let mut seen: Vec<Vec<u8>> = Vec::new();
        for count in 0..8 {
            let line = format!("seal plain -o sealed{count} --lock {lock}");
            assert_eq!(bench.run_with(&line, "Unruh").status, Some(0));
            let sealed = bench.read(&format!("sealed{count}"));
            // Salt and enciphered verifier of 16 bytes, before the digest of 20 bytes and its size
            // or of 16 bytes.
            let end = 18 + len - if len == 106 { 24 } else { 16 };
            let salt: [u8; 16] = sealed[end - 32..end - 16].try_into().unwrap();
            // The verifier as it was drawn: enciphered it differs with the salt alone.
            let key = kind.salted_block_key(&salt, "Unruh", 0);
            let verifier = Rc4::new(&key).apply(&sealed[end - 16..end]);
            for bytes in [salt.to_vec(), verifier] {
                assert!(bytes.iter().any(|byte| *byte != 0));
                assert!(!seen.contains(&bytes), "{lock}");
                seen.push(bytes);
            }
            // The enciphered rows have nothing in common either.
            seen.push(sealed[18 + len + 40..].to_vec());
            assert_eq!(
                seen.iter().filter(|bytes| bytes.len() > 16).count(),
                count + 1
            );
            let rows: Vec<_> = seen.iter().filter(|bytes| bytes.len() > 16).collect();
            assert!(rows[..count].iter().all(|row| row != &rows[count]));
        }
    }
    // XOR has neither: the same comes each time.
    bench.write("plain", &sheet(6));
    for out in ["a", "b"] {
        let line = format!("seal plain -o {out} --lock xor");
        assert_eq!(bench.run_with(&line, "Unruh").status, Some(0));
    }
    assert!(bench.read("a") == bench.read("b"));
}

#[test]
fn seal_refuses_by_number() {
    let bench = bench();
    let plain = bench.plain();
    let mut marked = plain.clone();
    marked[30] = 1;
    for (stream, line, words) in [
        (
            plain[..3433].to_vec(),
            "cryptoapi",
            "refused, 6: a record can't be read: its header or its body is cut off, and what is left \
             is not padding, at offset 3431; ",
        ),
        (
            header(ROW, 0),
            "cryptoapi",
            "refused, 7: the stream does not start with a BOF record; this is not a workbook ",
        ),
        (
            plain.clone(),
            "cryptoapi --major 5",
            "refused, 13: --major 5 can't be sealed: choose 2, 3 or 4",
        ),
        (
            plain.clone(),
            "cryptoapi --key-size 0",
            "refused, 23: --key-size 0 can't be sealed: choose 40 to 128 in steps of 8",
        ),
        (
            plain.clone(),
            "cryptoapi --key-size 44",
            "refused, 23: --key-size 44 can't be sealed: ",
        ),
        (
            bench.read("calibres.bin"),
            "cryptoapi",
            "refused, 30: there is no zero record to put the lock in (id 0000, a body of zeros, and \
             only records before it that are never enciphered), or a FILEPASS record comes before it; \
             if it is still locked, open it first; ",
        ),
        (marked, "cryptoapi", "refused, 30: "),
        (joined(&[(BOF, vec![])]), "xor", "refused, 30: "),
        (
            plain.clone(),
            "office97",
            "refused, 31: the length of the zero record's body does not fit the lock: it is 6 bytes \
             for XOR, 54 for Office 97 RC4, 106 to 1,098 for CryptoAPI: it has 122 bytes, which fit \
             RC4 CryptoAPI (cryptoapi) alone; ",
        ),
        (
            plain.clone(),
            "xor",
            "refused, 31: the length of the zero record's body does not fit the lock: it is 6 bytes \
             for XOR, 54 for Office 97 RC4, 106 to 1,098 for CryptoAPI: it has 122 bytes, which fit \
             RC4 CryptoAPI (cryptoapi) alone; ",
        ),
    ] {
        bench.write("book", &stream);
        let line = format!("seal book -o sealed --lock {line}");
        let ran = bench.run_with(&line, "Unruh");
        ran.failed(1, &["\nsheet: book was not sealed, and nothing was written\n"]);
        assert!(ran.err.starts_with(words), "{}", ran.err);
        assert_eq!(ran.err.lines().count(), 2);
        // Without a password the same is said, and none is asked for.
        assert_eq!(bench.run(&line), ran);
    }
    bench.has_only(&["book", "plain"]);
}

#[test]
fn refusal_31_names_the_lock_that_fits() {
    let bench = Bench::new();
    for (len, fit) in [
        (0, "no lock"),
        (5, "no lock"),
        (6, "XOR (xor) alone"),
        (7, "no lock"),
        (53, "no lock"),
        (54, "Office 97 RC4 (office97) alone"),
        (55, "no lock"),
        (105, "no lock"),
        (106, "RC4 CryptoAPI (cryptoapi) alone"),
        (1098, "RC4 CryptoAPI (cryptoapi) alone"),
        (1099, "no lock"),
    ] {
        bench.write("plain", &joined(&[(BOF, vec![]), (ZERO, vec![0; len])]));
        for lock in ["xor", "office97", "cryptoapi"] {
            let ran = bench.run_with(&format!("seal plain -o sealed --lock {lock}"), "Unruh");
            if fit.contains(&format!("({lock})")) {
                assert_eq!(ran.status, Some(0), "{len} {lock}");
                fs::remove_file(bench.folder.join("sealed")).unwrap();
            } else {
                let detail =
                    format!(": it has {len} bytes, which fit {fit}; choose a lock that fits, ");
                ran.failed(1, &["refused, 31: ", &detail]);
            }
        }
    }
    bench.has_only(&["plain"]);
}

#[test]
fn passwords_that_xor_does_not_take() {
    let bench = Bench::new();
    bench.write("plain", &sheet(6));
    for (password, sealed) in [
        ("", false),
        ("Ä", true),
        ("Grüße aus Biel!", true),
        ("sixteen letters!", false),
        ("№ 7", false),
    ] {
        let ran = bench.run_with("seal plain -o sealed --lock xor", password);
        match sealed {
            true => {
                assert_eq!(ran.status, Some(0), "{password}");
                fs::remove_file(bench.folder.join("sealed")).unwrap();
            }
            false => ran.failed(
                1,
                &["refused, 32: the password is not one that XOR takes: 1 to 15 characters"],
            ),
        }
        bench.has_only(&["plain"]);
        assert!(password.is_empty() || !ran.err.contains(password));
    }
}

#[test]
fn passwords_come_from_where_open_has_them_from() {
    let bench = bench();
    for end in ["", "\n", "\r\n"] {
        bench.write("password", format!("{PASSWORD}{end}").as_bytes());
        let line = "seal plain -o sealed --lock cryptoapi --password-file password";
        // The file comes before the environment.
        assert_eq!(bench.run_with(line, "another").status, Some(0));
        let ran = bench.run_with("open sealed -o again", PASSWORD);
        assert_eq!(ran.status, Some(0), "{end:?}");
    }
    let line = "seal plain -o sealed --lock cryptoapi --password-file -";
    let ran = bench.run_on(line, bench.file("calibres.password"));
    assert_eq!(ran.status, Some(0));
    let ran = bench.run_with("open sealed -o again", PASSWORD);
    assert_eq!(ran.status, Some(0));
    for password in longest() {
        let ran = bench.run_with("seal plain -o sealed --lock cryptoapi", password);
        assert_eq!(ran.status, Some(0));
        let ran = bench.run_with("open sealed -o again", password);
        assert_eq!(ran.status, Some(0));
        assert!(bench.read("again") == bench.plain());
    }
    for (bytes, words) in [
        (vec![b'x'; 1025], "refused, 1: "),
        (b"Gr\xFC\xDFe".to_vec(), "refused, 2: "),
    ] {
        bench.write("password", &bytes);
        let line = "seal plain -o other --lock cryptoapi --password-file password";
        bench.run(line).failed(1, &[words]);
    }
    let ran = bench.run("seal plain -o other --lock cryptoapi");
    ran.failed(2, &["no terminal", "--password-file", "SHEET_PASSWORD"]);
    let ran = bench.run("seal plain -o other --lock cryptoapi --password-file none");
    ran.failed(2, &["sheet: password file none: ", "no such file"]);
    bench.has_only(&["again", "password", "plain", "sealed"]);
}

#[test]
fn outputs_that_can_t_be_written() {
    let bench = bench();
    fs::create_dir(bench.folder.join("drawer")).unwrap();
    symlink("nowhere", bench.folder.join("dangling")).unwrap();
    for (out, words) in [
        ("none/sealed", "no folder none"),
        ("none/", "no such folder"),
        ("drawer", "folder"),
        ("drawer/", "folder"),
        ("calibres.password/sealed", "not a folder"),
        ("dangling", "link"),
        ("/dev/null", "device"),
    ] {
        let line = format!("seal plain -o {out} --lock cryptoapi");
        let ran = bench.run_with(&line, PASSWORD);
        ran.failed(2, &[&format!("sheet: {out}: "), words]);
        // It is said before a password is asked for.
        let ran = bench.run(&line);
        ran.failed(2, &[&format!("sheet: {out}: "), words]);
    }
    bench.has_only(&["dangling", "drawer", "plain"]);
    assert_eq!(
        fs::read_dir(bench.folder.join("drawer")).unwrap().count(),
        0
    );
}

#[test]
fn the_input_is_never_the_output() {
    let bench = bench();
    fs::hard_link(bench.folder.join("plain"), bench.folder.join("hard")).unwrap();
    symlink("plain", bench.folder.join("soft")).unwrap();
    let same = "this is the input file";
    for file in ["plain", "hard", "soft", "./plain"] {
        for out in ["plain", "hard", "soft", "./plain"] {
            let line = format!("seal {file} -o {out} --lock cryptoapi");
            let ran = bench.run_with(&line, PASSWORD);
            ran.failed(2, &[&format!("sheet: {out}: "), same]);
        }
    }
    let mut command = bench.command_with("seal - -o hard --lock cryptoapi", PASSWORD);
    Ran::of(command.stdin(bench.file("plain"))).failed(2, &["sheet: hard: ", same]);
    let appended = OpenOptions::new()
        .append(true)
        .open(bench.folder.join("hard"))
        .unwrap();
    let mut command = bench.command_with("seal plain -o - --lock cryptoapi", PASSWORD);
    Ran::to(appended, &mut command).failed(2, &["sheet: standard output: ", same]);
    bench.has_only(&["hard", "plain", "soft"]);
    assert!(bench.read("plain") == bench.plain());
}

#[test]
fn the_password_file_is_never_the_output() {
    let bench = bench();
    bench.write("password", PASSWORD.as_bytes());
    fs::hard_link(bench.folder.join("password"), bench.folder.join("hard")).unwrap();
    symlink("password", bench.folder.join("soft")).unwrap();
    let same = "this is the password file";
    for file in ["password", "hard", "soft", "./password"] {
        for out in ["password", "hard", "soft", "./password"] {
            for line in ["seal plain --lock cryptoapi", "open calibres.bin"] {
                let ran = bench.run(&format!("{line} -o {out} --password-file {file}"));
                ran.failed(2, &[&format!("sheet: {out}: "), same]);
            }
        }
    }
    let line = "seal plain -o hard --lock cryptoapi --password-file -";
    let ran = bench.run_on(line, bench.file("password"));
    ran.failed(2, &["sheet: hard: ", same]);
    let appended = OpenOptions::new()
        .append(true)
        .open(bench.folder.join("hard"))
        .unwrap();
    let mut command = bench.command("seal plain -o - --lock cryptoapi --password-file soft");
    Ran::to(appended, &mut command).failed(2, &["sheet: standard output: ", same]);
    bench.has_only(&["hard", "password", "plain", "soft"]);
    assert!(bench.read("password") == PASSWORD.as_bytes());
    // Any other file is replaced.
    bench.write("other", PASSWORD.as_bytes());
    let ran = bench.run("seal plain -o other --lock cryptoapi --password-file password");
    assert_eq!(ran.status, Some(0));
}

#[test]
fn an_output_that_is_there_is_replaced_when_the_new_one_is_whole() {
    let bench = bench();
    let path = bench.write("sealed", b"old");
    fs::set_permissions(&path, fs::Permissions::from_mode(0o640)).unwrap();
    let mut old = bench.file("sealed");
    bench
        .run_with("seal plain -o sealed --lock xor", PASSWORD)
        .failed(1, &["refused, 31"]);
    assert_eq!(bench.read("sealed"), b"old");
    let ran = bench.run_with("seal plain -o sealed --lock cryptoapi", PASSWORD);
    assert_eq!(ran.status, Some(0));
    // The old one was not written to: it is another file. The new one has its permissions.
    let mut text = String::new();
    old.read_to_string(&mut text).unwrap();
    assert_eq!(text, "old");
    let after = fs::metadata(&path).unwrap().permissions();
    assert_eq!(after.mode() & 0o777, 0o640);
    // Through a link the file behind it is replaced, and the link stays.
    bench.write("target", b"old");
    symlink("target", bench.folder.join("link")).unwrap();
    let ran = bench.run_with("seal plain -o link --lock cryptoapi", PASSWORD);
    assert_eq!(ran.status, Some(0));
    assert!(fs::symlink_metadata(bench.folder.join("link"))
        .unwrap()
        .is_symlink());
    for name in ["sealed", "target"] {
        let ran = bench.run_with(&format!("open {name} -o again"), PASSWORD);
        assert_eq!(ran.status, Some(0));
        assert!(bench.read("again") == bench.plain());
    }
    bench.has_only(&["again", "link", "plain", "sealed", "target"]);
}

#[test]
fn standard_input_and_standard_output() {
    let bench = bench();
    for line in ["seal - -o -", "seal plain -o -"] {
        let mut command = bench.command_with(&format!("{line} --lock cryptoapi"), PASSWORD);
        let output = run(command.stdin(bench.file("plain")));
        assert_eq!(output.status.code(), Some(0));
        assert_eq!(String::from_utf8(output.stderr).unwrap(), REPORT);
        bench.write("sealed", &output.stdout);
        let ran = bench.run_with("open sealed -o again", PASSWORD);
        assert_eq!((ran.status, &ran.out[..]), (Some(0), REPORT));
        assert!(bench.read("again") == bench.plain());
    }
    // From a pipe, whose length nobody knows beforehand, and with a warning before the report.
    bench.write("plain", &sheet(6));
    let mut command = bench.command_with("seal - -o - --lock xor", "Unruh");
    command
        .stdin(Stdio::piped())
        .stdout(Stdio::piped())
        .stderr(Stdio::piped());
    let mut process = Process::start(&mut command);
    process.write(&sheet(6));
    let output = process.end();
    let said = String::from_utf8(output.stderr).unwrap();
    assert!(said.starts_with(WARNING) && said.contains("\nrecords\t"));
    bench.write("sealed", &output.stdout);
    let ran = bench.run_with("open sealed -o again", "Unruh");
    assert_eq!(ran.status, Some(0));
    assert!(bench.read("again") == sheet(6));
    bench
        .run("seal - -o sealed --lock xor --password-file -")
        .failed(2, &["both", "standard input"]);
    bench.has_only(&["again", "plain", "sealed"]);
}

#[test]
fn mistakes_in_the_arguments() {
    let bench = bench();
    let password = "not taken as an argument";
    for (line, words) in [
        ("seal", "--lock"),
        ("seal plain -o sealed", "'sheet seal' needs --lock"),
        ("seal plain --lock cryptoapi", "'sheet seal' needs -o"),
        ("seal -o sealed --lock cryptoapi", "name of a file"),
        ("seal plain -o sealed --lock rc4", "there is no lock 'rc4'"),
        ("seal plain -o sealed --lock", "--lock needs"),
        (
            "seal plain -o sealed --lock xor --key-size 40",
            "--key-size and --major are for --lock cryptoapi",
        ),
        (
            "seal plain -o sealed --lock office97 --major 4",
            "--key-size and --major are for --lock cryptoapi",
        ),
        (
            "seal plain -o sealed --lock cryptoapi --key-size strong",
            "--key-size needs a number of bits",
        ),
        (
            "seal plain -o sealed --lock cryptoapi --major 4.2",
            "--major needs a number",
        ),
        ("open plain -o sealed --lock xor", "for 'sheet seal'"),
        ("look plain --key-size 128", "for 'sheet seal'"),
        (
            "seal plain -o sealed --lock xor --password Geheim",
            password,
        ),
        (
            "seal plain -o sealed --lock xor --password=Geheim",
            password,
        ),
        ("seal plain -o sealed --lock xor -pGeheim", password),
        ("seal plain Geheim -o sealed --lock xor", password),
    ] {
        let ran = bench.run_with(line, PASSWORD);
        ran.failed(2, &["sheet: ", words, "sheet --help"]);
        assert!(!ran.err.contains("Geheim"));
    }
    bench.has_only(&["plain"]);
}

#[test]
fn a_book_goes_round() {
    // Opened, sealed under another password, and opened again, under each lock.
    let bench = Bench::new();
    for (kind, lock) in [
        (Kind::Xor, "xor"),
        (Kind::Office97, "office97"),
        (Kind::CryptoApi(128, true), "cryptoapi"),
        (Kind::CryptoApi(40, false), "cryptoapi --key-size 56"),
    ] {
        let book = Book::long(kind);
        bench.write("book", &book.locked);
        for (line, password) in [
            ("open book -o plain".to_string(), book.password),
            (format!("seal plain -o sealed --lock {lock}"), "Spirale"),
            ("open sealed -o again".to_string(), "Spirale"),
        ] {
            let ran = bench.run_with(&line, password);
            assert_eq!(ran.status, Some(0), "{line}: {ran:?}");
        }
        assert!(bench.read("again") == book.plain);
    }
    bench.has_only(&["again", "book", "plain", "sealed"]);
}
