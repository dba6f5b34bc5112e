//! The C example, also with a longer scratch, and three smaller programs, compiled as a C host would
//! compile them, and run.

mod common;

use std::fs::{self, File};
use std::path::{Path, PathBuf};
use std::process::{Command, Output, Stdio};

use common::book::{header, Book, Kind, BOF, FILEPASS, KINDS, ROW};
use common::folder::Folder;
use common::process;
use common::sealing::sheet_with;
use sheet::Refusal;

/// A file of this crate.
fn file(path: &str) -> PathBuf {
    Path::new(env!("CARGO_MANIFEST_DIR")).join(path)
}

fn compile(folder: &Folder, source: &Path, level: &str) -> PathBuf {
    let program = folder.join(&format!("program{level}"));
    let mut gcc = Command::new("gcc");
    gcc.args(["-Wall", "-Wextra", "-Werror", level, "-Wl,-z,now", "-I"])
        .arg(file("../include"))
        .arg(source)
        .arg(env!("SHEET_LINKED_ARCHIVE"))
        .arg("-o")
        .arg(&program)
        .stdin(Stdio::null());
    let run = process::run(&mut gcc);
    let said = String::from_utf8_lossy(&run.stderr);
    assert!(run.status.success() && said.is_empty(), "{said}");
    program
}

fn run(program: &Path, stream: &Path, password: &Path) -> Output {
    let mut command = Command::new(program);
    process::run(command.arg(stream).stdin(File::open(password).unwrap()))
}

fn words(bytes: &[u8]) -> &str {
    std::str::from_utf8(bytes).unwrap()
}

/// What the example prints of the sample.
const SAMPLE: &str = "lock: RC4 CryptoAPI, 128 bits\n\
    document summary: not enciphered\n\
    186 records, 3435 bytes, 2533 of them enciphered\n\
    sealed and opened again: the same\n";

#[test]
fn the_c_example_opens_the_sample_and_seals_it() {
    let folder = Folder::new();
    let stream = file("examples/calibres.bin");
    let password = file("examples/calibres.password");
    let wrong = folder.write("wrong", b"Hebungswinkel 52\n");
    let long = folder.write("long", &[b'x'; 2000]);
    let bytes = fs::read(&stream).unwrap();
    let cut = folder.write("cut", &bytes[..100]);
    for level in ["-O0", "-O2"] {
        let program = compile(&folder, &file("examples/embed.c"), level);

        let opened = run(&program, &stream, &password);
        assert_eq!(opened.status.code(), Some(0));
        assert_eq!(words(&opened.stdout), SAMPLE);

        let refused = run(&program, &stream, &wrong);
        assert_eq!(refused.status.code(), Some(1));
        let said = words(&refused.stderr);
        assert_eq!(said, "refused, 27: the password is not correct (0, 0)\n");

        let refused = run(&program, &cut, &password);
        assert_eq!(refused.status.code(), Some(1));
        let said = words(&refused.stderr);
        let meaning = Refusal::from_number(6, [20, 0]).meaning();
        assert_eq!(said, format!("refused, 6: {meaning} (20, 0)\n"));

        // A newline of either kind, or none, ends the password; a second one is part of it.
        let text = fs::read(&password).unwrap();
        let bare = text.strip_suffix(b"\n").unwrap();
        for (end, code) in [("", 0), ("\r\n", 0), ("\n\n", 1), ("\r", 1)] {
            let ended = folder.write("ended", &[bare, end.as_bytes()].concat());
            assert_eq!(run(&program, &stream, &ended).status.code(), Some(code));
        }

        for (stream, password) in [(&folder.join("none"), &password), (&stream, &long)] {
            let unread = run(&program, stream, password);
            assert_eq!(unread.status.code(), Some(2));
            assert!(words(&unread.stderr).starts_with("usage: "));
        }
    }
}

#[test]
fn a_c_host_that_lends_a_longer_scratch() {
    let folder = Folder::new();
    let example = fs::read_to_string(file("examples/embed.c")).unwrap();
    let longer = example.replace("scratch[SHEET_SCRATCH_LEN]", "scratch[2064]");
    assert_ne!(longer, example);
    let source = folder.write("longer.c", longer.as_bytes());
    for level in ["-O0", "-O2"] {
        let program = compile(&folder, &source, level);
        let password = file("examples/calibres.password");
        let opened = run(&program, &file("examples/calibres.bin"), &password);
        assert_eq!(opened.status.code(), Some(0));
        assert_eq!(words(&opened.stdout), SAMPLE);
    }
}

#[test]
fn the_c_example_seals_under_the_lock_that_it_opened() {
    let folder = Folder::new();
    let program = compile(&folder, &file("examples/embed.c"), "-O2");
    for kind in KINDS {
        let book = Book::long(kind);
        let stream = folder.write("book", &book.locked);
        let password = folder.write("password", book.password.as_bytes());
        let ran = run(&program, &stream, &password);
        assert_eq!(ran.status.code(), Some(0), "{}", words(&ran.stderr));
        let report = book.report_in(book.locked.len());
        let expected = format!(
            "lock: {}, {} bits\ndocument summary: {}\n{} records, {} bytes, {} of them enciphered\n\
             sealed and opened again: the same\n",
            report.lock,
            report.key_bits.unwrap_or(0),
            match report.summary_sealed {
                true => "enciphered too",
                false => "not enciphered",
            },
            report.records,
            report.output_bytes,
            report.enciphered_body_bytes
        );
        assert_eq!(words(&ran.stdout), expected, "{kind:?}");
    }
    // A lock with bytes behind it opens, and leaves a record that is too long for this lock.
    let lock = [Kind::Xor.filepass("A"), vec![0]].concat();
    let stream = [header(BOF, 0), header(FILEPASS, 7), lock].concat();
    let stream = folder.write("book", &stream);
    let ran = run(&program, &stream, &folder.write("password", b"A\n"));
    assert_eq!(ran.status.code(), Some(1));
    let meaning = Refusal::ZeroRecordLength { len: 7 }.meaning();
    let said = format!("refused, 31: {meaning} (7, 0)\n");
    assert_eq!(words(&ran.stderr), said);
    assert!(!words(&ran.stdout).contains("sealed and opened again"));
}

/// Seals a plain stream from standard input under each lock, and prints the answers and all eight
/// facts.
const SEAL: &str = r#"
#include <stdio.h>
#include "sheet.h"

static uint8_t plain[1 << 16], output[1 << 16], scratch[SHEET_SCRATCH_LEN];
static uint64_t facts[8];

static void tell(uint32_t number)
{
    printf("%u:", number);
    for (int k = 0; k < 8; k++) {
        printf(" %llu", (unsigned long long)facts[k]);
        facts[k] = 9;
    }
    printf("\n");
}

int main(void)
{
    static const uint8_t salt[16] = {1}, verifier[16] = {2}, password[] = "Unruh";
    size_t len = fread(plain, 1, sizeof plain, stdin);
    tell(sheet_seal_xor(plain, len, password, 5, scratch, sizeof scratch, output, sizeof output, facts));
    tell(sheet_seal_office97(plain, len, password, 5, salt, verifier, scratch, sizeof scratch, output, sizeof output, facts));
    for (uint16_t major = 1; major < 6; major += 3)
        for (uint32_t key_size = 44; key_size < 49; key_size += 4)
            tell(sheet_seal_cryptoapi(plain, len, password, 5, salt, verifier, major, key_size, scratch, sizeof scratch, output,
                                      sizeof output, facts));
    return 0;
}
"#;

#[test]
fn a_c_program_seals() {
    let folder = Folder::new();
    let source = folder.write("seal.c", SEAL.as_bytes());
    let refused = [
        "13: 1 2 0 0 0 0 0 0",
        "13: 1 2 0 0 0 0 0 0",
        "23: 44 0 0 0 0 0 0 0",
    ];
    for level in ["-O0", "-O2"] {
        let program = compile(&folder, &source, level);
        // 18 bytes before the zero record's body, and a row of 1,014 behind it.
        for (len, told) in [
            (6, ["0: 4 0 0 0 1038 1010 0 0", "31: 6 0 0", "31: 6 0 0"]),
            (
                54,
                ["31: 54 0 0", "0: 4 1 40 0 1086 1010 3 0", "31: 54 0 0"],
            ),
            (
                106,
                ["31: 106 0 0", "31: 106 0 0", "0: 4 2 48 0 1138 1010 3 0"],
            ),
        ] {
            let plain = sheet_with(len, &[(ROW, vec![7; 1010])]);
            let plain = folder.write("plain", &plain);
            let mut command = Command::new(&program);
            let ran = process::run(command.stdin(File::open(&plain).unwrap()));
            assert_eq!((ran.status.code(), words(&ran.stderr)), (Some(0), ""));
            let lines: Vec<&str> = words(&ran.stdout).lines().collect();
            assert_eq!(lines[2..5], refused, "{len}");
            for (line, told) in [lines[0], lines[1], lines[5]].iter().zip(told) {
                let rest = if told.starts_with("31") {
                    " 0 0 0 0 0"
                } else {
                    ""
                };
                assert_eq!(*line, format!("{told}{rest}"), "{len}");
            }
        }
    }
}

/// Prints the answer and all eight facts of the directory at a place, for a stream from standard
/// input.
const DIRECTORY: &str = r#"
#include <stdio.h>
#include <stdlib.h>
#include "sheet.h"

static uint8_t stream[1 << 16];

int main(int count, char **arguments)
{
    uint64_t facts[8] = {9, 9, 9, 9, 9, 9, 9, 9};
    size_t len = fread(stream, 1, sizeof stream, stdin);
    size_t place = count == 2 ? strtoull(arguments[1], NULL, 10) : 0;
    printf("%u:", sheet_directory(stream, len, place, facts));
    for (int k = 0; k < 8; k++)
        printf(" %llu", (unsigned long long)facts[k]);
    return 0;
}
"#;

#[test]
fn a_c_program_reads_the_directory() {
    let folder = Folder::new();
    let source = folder.write("directory.c", DIRECTORY.as_bytes());
    let (book, starts) = Book::of_sheets(Kind::Office97, &[9, 0, 70], |place| 2 - place);
    let stream = folder.write("book", &book.locked);
    let open = folder.write("open", &book.locked[..book.locked.len() - 4]);
    for level in ["-O0", "-O2"] {
        let program = compile(&folder, &source, level);
        let told = |stream: &Path, place: usize| {
            let mut command = Command::new(&program);
            command.arg(place.to_string());
            let ran = process::run(command.stdin(File::open(stream).unwrap()));
            assert_eq!((ran.status.code(), words(&ran.stderr)), (Some(0), ""));
            words(&ran.stdout).to_string()
        };
        for (place, start) in starts.iter().enumerate() {
            assert_eq!(told(&stream, place), format!("0: 3 1 {start} 0 0 0 0 0"));
        }
        for place in [3, usize::MAX] {
            assert_eq!(told(&stream, place), "0: 3 0 0 0 0 0 0 0");
        }
        let len = book.locked.len() - 4;
        assert_eq!(told(&open, 0), format!("29: {len} 0 0 0 0 0 0 0"));
    }
}

/// Prints the answer and all eight facts of the forecast for a stream from standard input.
const FORECAST: &str = r#"
#include <stdio.h>
#include "sheet.h"

static uint8_t stream[1 << 16];

int main(void)
{
    uint64_t facts[8] = {9, 9, 9, 9, 9, 9, 9, 9};
    size_t len = fread(stream, 1, sizeof stream, stdin);
    printf("%u:", sheet_forecast(stream, len, facts));
    for (int k = 0; k < 8; k++)
        printf(" %llu", (unsigned long long)facts[k]);
    return 0;
}
"#;

#[test]
fn a_c_program_reads_the_forecast() {
    let folder = Folder::new();
    let source = folder.write("forecast.c", FORECAST.as_bytes());
    let sample = file("examples/calibres.bin");
    let bytes = fs::read(&sample).unwrap();
    let cut = folder.write("cut", &bytes[..100]);
    // The first three bytes of a CryptoAPI lock, two of its type and one of its version.
    let short = [header(BOF, 0), header(FILEPASS, 3), bytes[24..27].to_vec()];
    let short = folder.write("short", &short.concat());
    for level in ["-O0", "-O2"] {
        let program = compile(&folder, &source, level);
        for (stream, told) in [
            (&sample, "0: 3435 186 2533 5 0 0 0 0"),
            (&cut, "6: 20 0 0 0 0 0 0 0"),
            (&short, "12: 1 4 0 0 0 0 0 0"),
        ] {
            let mut command = Command::new(&program);
            let ran = process::run(command.stdin(File::open(stream).unwrap()));
            assert_eq!((ran.status.code(), words(&ran.stderr)), (Some(0), ""));
            assert_eq!(words(&ran.stdout), told);
        }
    }
}

/// Calls every function with lengths of 0, with NULL beside them or with a pointer, and prints what
/// comes of it: a stream from standard input whose password is empty, and parts that are empty.
const NOTHING: &str = r#"
#include <stdio.h>
#include <string.h>
#include "sheet.h"

static uint8_t stream[1 << 12], output[1 << 12], sealed[1 << 12], scratch[SHEET_SCRATCH_LEN];
static uint64_t facts[8];

static void show(uint32_t number)
{
    printf("%u:", number);
    for (int k = 0; k < 8; k++) {
        printf(" %llu", (unsigned long long)facts[k]);
        facts[k] = 9;
    }
    printf("\n");
}

int main(int count, char **arguments)
{
    static const uint8_t salt[16] = {1}, verifier[16] = {2};
    static uint8_t there[1];
    uint8_t *none = count == 2 && strcmp(arguments[1], "null") == 0 ? NULL : there;
    size_t len = fread(stream, 1, sizeof stream, stdin), room = sizeof scratch;
    show(sheet_look(none, 0, facts));
    printf("%d %d\n", sheet_same_lock(none, 0, none, 0), sheet_same_lock(stream, len, none, 0));
    show(sheet_record(none, 0, 0, facts));
    show(sheet_record(none, 0, SIZE_MAX, facts));
    show(sheet_directory(none, 0, 0, facts));
    show(sheet_forecast(none, 0, facts));
    show(sheet_open(stream, len, none, 0, scratch, room, output, len, facts));
    show(sheet_open(stream, len, none, 0, none, 0, output, len, facts));
    show(sheet_open(stream, len, none, 0, scratch, room, none, 0, facts));
    show(sheet_open(none, 0, none, 0, scratch, room, none, 0, facts));
    show(sheet_open(none, 0, none, 0, none, 0, none, 0, facts));
    show(sheet_seal_xor(output, len, none, 0, scratch, room, sealed, len, facts));
    show(sheet_seal_xor(none, 0, none, 0, scratch, room, none, 0, facts));
    show(sheet_seal_office97(output, len, none, 0, salt, verifier, scratch, room, sealed, len, facts));
    show(sheet_seal_office97(none, 0, none, 0, salt, verifier, none, 0, none, 0, facts));
    show(sheet_seal_cryptoapi(output, len, none, 0, salt, verifier, 4, 128, scratch, room, sealed, len, facts));
    show(sheet_seal_cryptoapi(none, 0, none, 0, salt, verifier, 4, 128, scratch, room, none, 0, facts));
    fwrite(output, 1, len, stdout);
    fwrite(sealed, 1, len, stdout);
    return 0;
}
"#;

#[test]
fn null_goes_with_a_length_of_0() {
    let folder = Folder::new();
    let source = folder.write("nothing.c", NOTHING.as_bytes());
    let records = [(BOF, vec![]), (FILEPASS, vec![]), (ROW, vec![7; 1010])];
    let book = Book::new(Kind::Office97, "", &records);
    let stream = folder.write("book", &book.locked);
    let len = book.locked.len();
    for level in ["-O0", "-O2"] {
        let program = compile(&folder, &source, level);
        let [null, pointer] = ["null", "pointer"].map(|kind| {
            let mut command = Command::new(&program);
            let ran = process::run(command.arg(kind).stdin(File::open(&stream).unwrap()));
            assert_eq!((ran.status.code(), words(&ran.stderr)), (Some(0), ""));
            ran.stdout
        });
        assert!(null == pointer);
        let (text, streams) = null.split_at(null.len() - 2 * len);
        let lines: Vec<&str> = words(text).lines().collect();
        let refused = |number: u32, detail: usize| format!("{number}: {detail} 0 0 0 0 0 0 0");
        assert_eq!(lines.len(), 17);
        assert_eq!(lines[..2], ["0: 0 0 0 0 0 0 0 0", "0 0"]);
        assert_eq!(lines[2..4], [refused(0, 0), refused(0, 0)]);
        assert_eq!(lines[4..6], [refused(7, 0), refused(7, 0)]);
        // The book opens with its empty password, and is sealed under it again.
        let opened = format!("0: 3 1 40 0 {len} 1010 3 0");
        assert_eq!(lines[6], opened);
        assert_eq!(
            lines[7..11],
            [refused(3, 0), refused(5, 0), refused(7, 0), refused(3, 0)]
        );
        assert_eq!(lines[11..13], [refused(31, 54), refused(7, 0)]);
        assert_eq!(lines[13..15], [opened, refused(3, 0)]);
        assert_eq!(lines[15..], [refused(31, 54), refused(7, 0)]);
        assert!(streams[..len] == book.plain);
    }
}
