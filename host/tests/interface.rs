//! The texts that must agree: the Rattle signatures and refusals, the C header and its words, the Rust
//! declarations and the Rust words.

mod common;

use std::fs;
use std::path::Path;
use std::process::{Command, Stdio};

use common::folder::Folder;
use common::process::run;
use sheet::Refusal;

/// The kind of a parameter or of an answer, as the machine sees it.
#[derive(Clone, Copy, Debug, PartialEq)]
enum Kind {
    /// A pointer to bytes that are read.
    Read,
    /// A pointer to bytes that are written.
    Written,
    /// A pointer to 16 bytes that are read.
    Sixteen,
    /// A number of bytes or an offset.
    Size,
    /// A pointer to eight numbers of 64 bits that are written.
    Facts,
    /// An unsigned number of 16 bits.
    U16,
    /// An unsigned number of 32 bits.
    U32,
    Bool,
}

/// A function: its name, its parameters by name and kind, and the kind of its answer.
#[derive(Debug, PartialEq)]
struct Function {
    name: String,
    parameters: Vec<(String, Kind)>,
    answer: Kind,
}

fn text(path: &str) -> String {
    let path = Path::new(env!("CARGO_MANIFEST_DIR")).join(path);
    fs::read_to_string(&path).unwrap_or_else(|error| panic!("{}: {error}", path.display()))
}

/// The text with every run of white space made one space.
fn squeezed(text: &str) -> String {
    text.split_whitespace().collect::<Vec<_>>().join(" ")
}

/// What stands between two marks, and what follows.
fn between<'a>(text: &'a str, from: &str, to: &str) -> Option<(&'a str, &'a str)> {
    let (_, rest) = text.split_once(from)?;
    rest.split_once(to)
}

/// The C header without its comments.
fn header_code() -> String {
    let mut header = text("../include/sheet.h");
    while let Some(start) = header.find("/*") {
        let end = start + header[start..].find("*/").expect("a comment's end") + 2;
        header.replace_range(start..end, " ");
    }
    header
}

/// The declarations of the C header.
fn header_functions() -> Vec<Function> {
    let header = header_code();
    let lines = header
        .lines()
        .filter(|line| !line.trim_start().starts_with('#') && !line.contains("extern \"C\""));
    let declarations = squeezed(&lines.collect::<Vec<_>>().join(" "));
    declarations
        .split(';')
        .filter(|part| part.contains('('))
        .map(|declaration| {
            let (head, rest) = declaration.split_once('(').unwrap();
            let (answer, name) = head.trim().rsplit_once(' ').unwrap();
            // The compiler warns where the result of any of them is ignored.
            let (_, answer) = answer.split_once("SHEET_MUST_CHECK ").expect(name);
            let parameters = rest.trim_end().strip_suffix(')').unwrap();
            Function {
                name: name.to_string(),
                parameters: parameters.split(", ").map(header_parameter).collect(),
                answer: match answer {
                    "uint32_t" => Kind::U32,
                    "bool" => Kind::Bool,
                    other => panic!("sheet.h: an answer of {other}"),
                },
            }
        })
        .collect()
}

fn header_parameter(parameter: &str) -> (String, Kind) {
    let (kind, name) = parameter.rsplit_once(' ').unwrap();
    let (kind, name) = match (kind, name) {
        ("const uint8_t", name) if name.starts_with('*') => (Kind::Read, &name[1..]),
        ("const uint8_t", name) if name.ends_with("[16]") => {
            (Kind::Sixteen, &name[..name.len() - 4])
        }
        ("uint8_t", name) if name.starts_with('*') => (Kind::Written, &name[1..]),
        ("size_t", name) => (Kind::Size, name),
        ("uint16_t", name) => (Kind::U16, name),
        ("uint32_t", name) => (Kind::U32, name),
        ("uint64_t", name) if name.ends_with("[8]") => (Kind::Facts, &name[..name.len() - 3]),
        _ => panic!("sheet.h: a parameter {parameter}"),
    };
    (name.to_string(), kind)
}

/// The exports of the Rattle crate `sheet_c`. A slice is a pointer and a length.
fn rattle_functions() -> Vec<Function> {
    let source = text("../crates/sheet_c/src/lib.rt");
    let mut rest = &source[..];
    let mut functions = Vec::new();
    while let Some((signature, behind)) = between(rest, "pub extern \"C\" fn ", "\n    ensures") {
        rest = behind;
        let signature = squeezed(signature);
        let (name, parameters) = signature.split_once('(').unwrap();
        let (parameters, answer) = parameters.rsplit_once(") -> ").unwrap();
        functions.push(Function {
            name: name.to_string(),
            parameters: parameters
                .trim()
                .trim_end_matches(',')
                .split(", ")
                .flat_map(rattle_parameter)
                .collect(),
            answer: match answer {
                "u32" => Kind::U32,
                "bool" => Kind::Bool,
                other => panic!("lib.rt: an answer of {other}"),
            },
        });
    }
    functions
}

fn rattle_parameter(parameter: &str) -> Vec<(String, Kind)> {
    let (name, kind) = parameter.trim().split_once(": ").unwrap();
    let slice = |kind| {
        vec![
            (name.to_string(), kind),
            (format!("{name}_len"), Kind::Size),
        ]
    };
    match kind {
        "&[u8]" => slice(Kind::Read),
        "&mut [u8]" => slice(Kind::Written),
        "&[u8; 16]" => vec![(name.to_string(), Kind::Sixteen)],
        "usize" => vec![(name.to_string(), Kind::Size)],
        "u16" => vec![(name.to_string(), Kind::U16)],
        "u32" => vec![(name.to_string(), Kind::U32)],
        // In the Rattle crate `facts` is the name of a function.
        "&mut [u64; 8]" if name == "told" => vec![("facts".to_string(), Kind::Facts)],
        _ => panic!("lib.rt: a parameter {parameter}"),
    }
}

/// The declarations of a Rust `extern "C"` block.
fn rust_functions(path: &str) -> Vec<Function> {
    let source = text(path);
    let (block, _) = between(&source, "extern \"C\" {", "\n}").expect("an extern block");
    let block = squeezed(block);
    block
        .split(';')
        // The semicolons of `[u64; 8]` and `[u8; 16]` end no declaration.
        .fold(vec![String::new()], |mut parts, part| {
            let last = parts.last_mut().unwrap();
            last.push_str(part);
            match last.ends_with("[u64") || last.ends_with("[u8") {
                true => last.push(';'),
                false => parts.push(String::new()),
            }
            parts
        })
        .iter()
        .filter(|part| part.contains("fn "))
        .map(|declaration| {
            let (_, signature) = declaration.split_once("fn ").unwrap();
            let (name, parameters) = signature.split_once('(').unwrap();
            let (parameters, answer) = parameters.rsplit_once(") -> ").unwrap();
            Function {
                name: name.to_string(),
                parameters: parameters
                    .trim()
                    .trim_end_matches(',')
                    .split(", ")
                    .map(|parameter| {
                        let (name, kind) = parameter.trim().split_once(": ").unwrap();
                        let kind = match kind {
                            "*const u8" => Kind::Read,
                            "*mut u8" => Kind::Written,
                            "*const [u8; 16]" => Kind::Sixteen,
                            "usize" => Kind::Size,
                            "u16" => Kind::U16,
                            "u32" => Kind::U32,
                            "*mut [u64; 8]" => Kind::Facts,
                            other => panic!("{path}: a parameter of {other}"),
                        };
                        (name.to_string(), kind)
                    })
                    .collect(),
                answer: match answer {
                    "u32" => Kind::U32,
                    "bool" => Kind::Bool,
                    other => panic!("{path}: an answer of {other}"),
                },
            }
        })
        .collect()
}

#[test]
fn header_rattle_and_rust_declare_the_same() {
    let rattle = rattle_functions();
    let names: Vec<&str> = rattle.iter().map(|function| &function.name[..]).collect();
    let nine = [
        "sheet_look",
        "sheet_same_lock",
        "sheet_record",
        "sheet_directory",
        "sheet_forecast",
        "sheet_open",
        "sheet_seal_xor",
        "sheet_seal_office97",
        "sheet_seal_cryptoapi",
    ];
    assert_eq!(names, nine);
    assert_eq!(rattle[3].parameters.len(), 4);
    assert_eq!(rattle[4].parameters.len(), 3);
    assert_eq!(rattle[5].parameters.len(), 9);
    assert_eq!(rattle[6].parameters.len(), 9);
    assert_eq!(rattle[7].parameters.len(), 11);
    assert_eq!(rattle[8].parameters.len(), 13);
    assert_eq!(header_functions(), rattle);
    assert_eq!(rust_functions("src/ffi.rs"), rattle);
    assert_eq!(rust_functions("tests/common/bare.rs")[..], rattle[1..]);
}

#[test]
fn the_archive_exports_what_is_declared() {
    // Nm comes with gcc, of binutils.
    let mut nm = Command::new("nm");
    nm.args(["--extern-only", "--defined-only", "--format=posix"])
        .arg(env!("SHEET_LINKED_ARCHIVE"))
        .stdin(Stdio::null());
    let ran = run(&mut nm);
    assert!(ran.status.success());
    let symbols = String::from_utf8(ran.stdout).unwrap();
    let mut exported: Vec<&str> = symbols
        .lines()
        .filter_map(|line| line.split_once(" T "))
        .map(|(name, _)| name)
        .collect();
    let functions = header_functions();
    let mut declared: Vec<&str> = functions.iter().map(|f| &f.name[..]).collect();
    exported.sort_unstable();
    declared.sort_unstable();
    assert_eq!(exported, declared);
}

#[test]
fn the_constants_agree() {
    let header = text("../include/sheet.h");
    for (name, value) in [
        ("SHEET_SCRATCH_LEN", sheet::SCRATCH_LEN),
        ("SHEET_PASSWORD_MAX_LEN", sheet::PASSWORD_MAX_LEN),
        ("SHEET_STREAM_MAX_LEN", sheet::STREAM_MAX_LEN),
    ] {
        let line = format!("#define {name} {value}\n");
        assert!(header.contains(&line), "{line}");
    }
    assert_eq!(sheet::STREAM_MAX_LEN, 1_073_741_824);
    let version = env!("CARGO_PKG_VERSION");
    let numbers: Vec<u32> = version.split('.').map(|n| n.parse().unwrap()).collect();
    let number = numbers[0] * 10_000 + numbers[1] * 100 + numbers[2];
    assert!(header.contains(&format!("#define SHEET_VERSION \"{version}\"\n")));
    assert!(header.contains(&format!("#define SHEET_VERSION_NUMBER {number}\n")));
    let changes = text("../CHANGELOG.md");
    let first = changes
        .lines()
        .find(|line| line.starts_with("## "))
        .unwrap();
    assert!(first.starts_with(&format!("## {version}")), "{first}");
}

/// The enumerators of an enum of the header: name and value.
fn enumerators(name: &str) -> Vec<(String, u32)> {
    let header = header_code();
    let (body, _) = between(&header, &format!("enum {name} {{"), "}").expect(name);
    body.split(',')
        .map(|part| {
            let (name, value) = part.trim().split_once(" = ").unwrap();
            (name.to_string(), value.parse().unwrap())
        })
        .collect()
}

/// The header's list of refusals: number, name and the comment before it.
fn header_refusals() -> Vec<(u32, String, String)> {
    let header = text("../include/sheet.h");
    let (list, _) = between(&header, "SHEET_DONE = 0,", "};").expect("a list of refusals");
    list.split("/*")
        .skip(1)
        .map(|part| {
            let (words, rest) = part.split_once("*/").unwrap();
            let (name, number) = rest.trim().split_once(" = ").unwrap();
            let name = name.strip_prefix("SHEET_REFUSED_").unwrap();
            let number = number.trim_end_matches(',').parse().unwrap();
            (
                number,
                name.to_string(),
                squeezed(&words.replace("\n     * ", " ")),
            )
        })
        .collect()
}

/// A name in capitals, with underscores between its words.
fn in_capitals(name: &str) -> String {
    let mut capitals = String::new();
    for (k, letter) in name.char_indices() {
        if letter.is_ascii_uppercase() && k > 0 {
            capitals.push('_');
        }
        capitals.push(letter.to_ascii_uppercase());
    }
    capitals
}

/// The cases of the refusals in the Rattle crate, in their order.
fn rattle_refusals() -> Vec<String> {
    let source = text("../crates/file_params/src/lib.rt");
    let (cases, _) = between(&source, "pub enum Refusal {", "\n}").unwrap();
    cases
        .split(",\n")
        .map(|case| case.trim().trim_end_matches(','))
        .map(|case| case.split('(').next().unwrap().to_string())
        .filter(|case| !case.is_empty())
        .collect()
}

/// What `sheet refusals` prints: a line for each refusal.
fn refusals_table() -> String {
    let mut refusals = Command::new(env!("CARGO_BIN_EXE_sheet"));
    let ran = run(refusals.arg("refusals").stdin(Stdio::null()));
    assert!(ran.status.success());
    String::from_utf8(ran.stdout).unwrap()
}

#[test]
fn every_refusal_has_one_name_and_one_number() {
    let rattle = rattle_refusals();
    assert_eq!(rattle.len(), 32);
    let header = header_refusals();
    assert_eq!(header.len(), 32);
    let all: Vec<Refusal> = Refusal::all().collect();
    assert_eq!((all.len(), sheet::REFUSALS), (32, 32));
    for (k, refusal) in all.iter().enumerate() {
        let number = k as u32 + 1;
        let name = format!("{refusal:?}");
        let name = name.split(' ').next().unwrap();
        assert_eq!(name, rattle[k]);
        assert_eq!(
            (header[k].0, &header[k].1[..]),
            (number, &in_capitals(name)[..])
        );
        assert_eq!(refusal.number(), number);
        assert_eq!(Refusal::from_number(number, refusal.details()), *refusal);
    }
    assert_eq!(enumerators("sheet_refusal").len(), 33);
}

#[test]
fn numbers_and_details_that_no_library_gives_are_kept() {
    for (number, details) in [
        (0, [0, 0]),
        (33, [5, 6]),
        (u32::MAX, [0, 0]),
        (27, [1, 0]),
        (6, [1, 1]),
        (9, [0x1_0000, 0]),
        (12, [3, 5]),
        (16, [1 << 32, 0]),
    ] {
        let refusal = Refusal::from_number(number, details);
        assert_eq!(refusal, Refusal::Unknown { number, details });
        assert_eq!((refusal.number(), refusal.details()), (number, details));
        let said = refusal.to_string();
        assert!(said.starts_with(&format!("refused, {number}: ")), "{said}");
        let [first, second] = details;
        assert!(
            said.contains(&format!("details {first} and {second}")),
            "{said}"
        );
    }
}

#[test]
fn every_refusal_has_the_same_words_everywhere() {
    let table = refusals_table();
    assert_eq!(table.lines().count(), 32);
    let unknown = Refusal::from_number(99, [0, 0]);
    for ((line, refusal), (number, _, comment)) in
        table.lines().zip(Refusal::all()).zip(header_refusals())
    {
        assert_ne!(refusal.meaning(), unknown.meaning(), "{number}");
        assert_ne!(refusal.advice(), unknown.advice(), "{number}");
        let said = refusal.to_string();
        assert!(said.starts_with(&format!("refused, {number}: {}", refusal.meaning())));
        assert!(said.ends_with(refusal.advice()));
        let words = format!("{number}\t{}; {}", refusal.meaning(), refusal.advice());
        assert!(line.starts_with(&words), "{line}");
        // The header's comment has the details in square brackets behind the words, and writes flags
        // as C does.
        let words = comment.split(" [").next().unwrap();
        assert_eq!(words.replace("flag 0x", "flag "), refusal.meaning());
    }
}

/// Prints the words of the numbers 0 to 33.
const WORDS: &str = r#"
#include <stdio.h>
#include "sheet_words.h"

int main(void)
{
    for (uint32_t number = 0; number < 34; number++)
        printf("%s\n", sheet_refusal_words(number));
    return 0;
}
"#;

#[test]
fn the_words_for_c_are_those_of_the_command() {
    let folder = Folder::new();
    let source = folder.write("words.c", WORDS.as_bytes());
    let program = folder.join("words");
    let mut gcc = Command::new("gcc");
    // No archive is linked: the words are in the header alone.
    gcc.args([
        "-std=c99",
        "-Wall",
        "-Wextra",
        "-Wpedantic",
        "-Werror",
        "-I",
    ])
    .arg(Path::new(env!("CARGO_MANIFEST_DIR")).join("../include"))
    .arg(&source)
    .arg("-o")
    .arg(&program)
    .stdin(Stdio::null());
    let compiled = run(&mut gcc);
    assert!(compiled.status.success());
    let ran = run(Command::new(&program).stdin(Stdio::null()));
    let printed = String::from_utf8(ran.stdout).unwrap();
    let lines: Vec<&str> = printed.lines().collect();
    assert_eq!((lines.len(), lines[0]), (34, "done"));
    for refusal in Refusal::all() {
        assert_eq!(lines[refusal.number() as usize], refusal.meaning());
    }
    assert!(lines[33].contains("no words"));
}

#[test]
fn the_facts_have_the_places_that_the_wrapper_reads() {
    for (name, expected) in [
        ("sheet_detail", &["DETAIL_1", "DETAIL_2"][..]),
        (
            "sheet_look_result",
            &["LOOK_UNKNOWN", "LOOK_NO", "LOOK_YES"],
        ),
        (
            "sheet_look_fact",
            &[
                "LOOK_XOR",
                "LOOK_HAS_VERSION",
                "LOOK_MAJOR",
                "LOOK_MINOR",
                "LOOK_KEY_BITS",
            ],
        ),
        (
            "sheet_record_result",
            &["RECORD_END", "RECORD_FOUND", "RECORD_UNREADABLE"],
        ),
        (
            "sheet_directory_fact",
            &["DIRECTORY_SHEETS", "DIRECTORY_HAS_START", "DIRECTORY_START"],
        ),
        (
            "sheet_forecast_fact",
            &[
                "FORECAST_OUTPUT_BYTES",
                "FORECAST_RECORDS",
                "FORECAST_ENCIPHERED_BODY_BYTES",
                "FORECAST_BLOCK_KEYS",
            ],
        ),
        (
            "sheet_report_fact",
            &[
                "REPORT_RECORDS",
                "REPORT_LOCK",
                "REPORT_KEY_BITS",
                "REPORT_SUMMARY_SEALED",
                "REPORT_OUTPUT_BYTES",
                "REPORT_ENCIPHERED_BODY_BYTES",
                "REPORT_BLOCK_KEYS",
            ],
        ),
        (
            "sheet_lock",
            &["LOCK_XOR", "LOCK_OFFICE97", "LOCK_CRYPTOAPI"],
        ),
    ] {
        let expected: Vec<(String, u32)> = (0..)
            .zip(expected)
            .map(|(place, name)| (format!("SHEET_{name}"), place))
            .collect();
        assert_eq!(enumerators(name), expected);
    }
    let record = [
        ("SHEET_RECORD_AT", 0),
        ("SHEET_RECORD_ID", 0),
        ("SHEET_RECORD_BODY_LEN", 1),
        ("SHEET_RECORD_CLEAR_LEN", 2),
    ];
    assert_eq!(
        enumerators("sheet_record_fact"),
        record.map(|(name, place)| (name.to_string(), place))
    );
}

#[test]
fn every_detail_is_said() {
    // The details that documents 01 and 02 name, with the words that they are said in.
    for (number, details, words) in [
        (6, [3412, 0], "at offset 3412"),
        (9, [0x42, 0], "id 0042"),
        (9, [0x86, 0], "WriteProtect, id 0086"),
        (10, [1, 4], "1 of 4 bytes are there"),
        (11, [2, 0], "type 2"),
        (12, [3, 4], "3 of 4 bytes are there"),
        (13, [1, 2], "1.2"),
        (14, [51, 52], "51 of 52 bytes are there"),
        (15, [11, 12], "11 of 12 bytes are there"),
        (16, [31, 0], "31"),
        (
            17,
            [48, 59],
            "it states 48 bytes, from the 13th of a lock of 59",
        ),
        (18, [0x1C, 0], "flags 0000001c"),
        (19, [0x2C, 0], "flags 0000002c"),
        (20, [0x08, 0], "flags 00000008"),
        (21, [0x6602, 0], "AlgID 00006602"),
        (22, [0x8003, 0], "AlgIDHash 00008003"),
        (23, [44, 0], "44"),
        (24, [59, 60], "59 of 60 bytes are there"),
        (25, [17, 0], "17"),
        (26, [16, 0], "16"),
        (28, [146, 0], "the record at offset 146"),
        (29, [3431, 0], "at offset 3431, where an EOF record"),
        (31, [6, 0], "it has 6 bytes, which fit XOR (xor) alone"),
        (
            31,
            [54, 0],
            "it has 54 bytes, which fit Office 97 RC4 (office97) alone",
        ),
        (
            31,
            [106, 0],
            "it has 106 bytes, which fit RC4 CryptoAPI (cryptoapi) alone",
        ),
        (31, [1098, 0], "which fit RC4 CryptoAPI (cryptoapi) alone"),
        (31, [0, 0], "it has 0 bytes, which fit no lock"),
        (31, [7, 0], "it has 7 bytes, which fit no lock"),
        (31, [105, 0], "which fit no lock"),
        (31, [1099, 0], "which fit no lock"),
    ] {
        let refusal = Refusal::from_number(number, details);
        let said = refusal.to_string();
        let place = refusal.meaning();
        let behind = said.split_once(place).unwrap().1;
        let (detail, _) = behind.split_once(';').unwrap();
        assert!(detail.contains(words), "{said}");
        assert_eq!(refusal.details(), details);
    }
    for number in [1, 2, 3, 4, 5, 7, 8, 27, 30, 32] {
        let refusal = Refusal::from_number(number, [0, 0]);
        let expected = format!(
            "refused, {number}: {}; {}",
            refusal.meaning(),
            refusal.advice()
        );
        assert_eq!(refusal.to_string(), expected);
    }
}

#[test]
fn the_words_say_what_to_try() {
    for (number, detail, words) in [
        (2, 0, &["UTF-8"][..]),
        (6, 12, &["cut short", "not a workbook stream", "offset 12"]),
        (7, 0, &["not a workbook stream", "gsf cat"]),
        (
            8,
            0,
            &["not locked", "nothing to open", "use the stream as it is"],
        ),
        (
            9,
            0x86,
            &[
                "WriteProtect",
                "read-only recommended",
                "password to modify",
                "other programs",
                "saving the book again",
            ],
        ),
        (
            27,
            0,
            &[
                "upper and lower case",
                "keyboard layout",
                "opens without asking",
                "VelvetSweatshop",
            ],
        ),
        (
            28,
            146,
            &[
                "BoundSheet8",
                "4 bytes",
                "BOF",
                "offset 146",
                "save it again",
            ],
        ),
        (
            29,
            3431,
            &["BOF and EOF", "pair up", "left open", "save it again"],
        ),
        (13, 5, &["opened or sealed", "to seal, choose 2, 3 or 4"]),
        (
            23,
            0,
            &[
                "40 to 128 bits in steps of 8",
                "nor 0 in a book that is opened",
                "to seal, choose 40 to 128",
            ],
        ),
        (
            30,
            0,
            &[
                "zero record",
                "id 0000",
                "a body of zeros",
                "FILEPASS",
                "still locked, open it first",
            ],
        ),
        (
            31,
            70,
            &[
                "zero record's body",
                "6 bytes for XOR",
                "54 for Office 97 RC4",
                "106 to 1,098 for CryptoAPI",
            ],
        ),
        (
            32,
            0,
            &[
                "XOR",
                "1 to 15 characters",
                "none above U+00FF",
                "another lock",
            ],
        ),
    ] {
        let second = if number == 13 { 2 } else { 0 };
        let said = Refusal::from_number(number, [detail, second]).to_string();
        for word in words {
            assert!(said.contains(word), "{word}: {said}");
        }
    }
    // The lock is not known here, so nothing is said of XOR's passwords.
    assert!(!Refusal::WrongPassword.to_string().contains("XOR"));
    assert!(Refusal::from_number(9, [0x86, 0]).is_write_protect());
    assert!(!Refusal::from_number(9, [0x42, 0]).is_write_protect());
}
