//! The archive's machine code: no division of integers, which the processor of the older machines is
//! slow at, neither as an instruction nor by a function that is called.

mod common;

use std::path::Path;
use std::process::{Command, Stdio};

use common::folder::Folder;
use common::process::run;

/// The instructions of an object file or an archive, each behind the name of its function.
fn instructions(object: &Path) -> Vec<(String, String)> {
    // Objdump is part of binutils, which gcc needs.
    let mut objdump = Command::new("objdump");
    objdump
        .args(["-d", "--no-show-raw-insn", "--wide"])
        .arg(object)
        .stdin(Stdio::null());
    let ran = run(&mut objdump);
    assert!(ran.status.success());
    let listing = String::from_utf8(ran.stdout).unwrap();
    let mut function = String::new();
    let mut found = Vec::new();
    for line in listing.lines() {
        if let Some((_, instruction)) = line.split_once(":\t") {
            found.push((function.clone(), instruction.trim_end().to_string()));
        } else if let Some((_, name)) = line.split_once(" <") {
            function = name.trim_end_matches(">:").to_string();
        }
    }
    found
}

/// Whether an instruction divides integers: div or idiv, behind whatever prefix, with the operand's
/// width as a letter or without.
fn divides(instruction: &str) -> bool {
    instruction.split_whitespace().any(|word| {
        let name = word.strip_prefix('i').unwrap_or(word);
        matches!(name, "div" | "divb" | "divw" | "divl" | "divq")
    })
}

#[test]
fn a_division_is_found() {
    let folder = Folder::new();
    let names = ["div", "idiv"];
    let operands = ["%cl", "%cx", "%ecx", "%rcx", "%r9"];
    let widths = ["b", "w", "l", "q"];
    let mut source = String::from("divided:\n");
    for name in names {
        for operand in operands {
            source += &format!("{name} {operand}\n");
        }
        for width in widths {
            source += &format!("{name}{width} (%rdi)\n");
        }
    }
    // What is no division of integers: a product, a division of floats, a call of a function by such a name.
    source += "kept:\nimul %rcx\nfdiv %st(1)\ndivsd %xmm1, %xmm0\ncall div\nret\ndiv:\nret\n";
    let source = folder.write("divided.s", source.as_bytes());
    let object = folder.join("divided.o");
    let mut gcc = Command::new("gcc");
    gcc.arg("-c")
        .arg(&source)
        .arg("-o")
        .arg(&object)
        .stdin(Stdio::null());
    let ran = run(&mut gcc);
    assert!(
        ran.status.success(),
        "{}",
        String::from_utf8_lossy(&ran.stderr)
    );
    let all = instructions(&object);
    assert_eq!(all.len(), names.len() * (operands.len() + widths.len()) + 6);
    for (function, instruction) in &all {
        assert_eq!(
            divides(instruction),
            function == "divided",
            "{function}: {instruction}"
        );
    }
}

#[test]
fn no_division_is_in_the_archive() {
    let all = instructions(Path::new(env!("SHEET_LINKED_ARCHIVE")));
    // The listing is whole: each export is in it.
    for export in [
        "sheet_look",
        "sheet_same_lock",
        "sheet_record",
        "sheet_directory",
        "sheet_forecast",
        "sheet_open",
        "sheet_seal_xor",
        "sheet_seal_office97",
        "sheet_seal_cryptoapi",
    ] {
        let own = all.iter().filter(|(function, _)| function == export);
        assert!(own.count() > 10, "{export}");
    }
    let divisions: Vec<_> = all.iter().filter(|(_, i)| divides(i)).collect();
    assert!(divisions.is_empty(), "{divisions:?}");
}

#[test]
fn the_archive_calls_two_functions_of_its_host() {
    let mut nm = Command::new("nm");
    nm.args(["--undefined-only", "--format=posix"])
        .arg(env!("SHEET_LINKED_ARCHIVE"))
        .stdin(Stdio::null());
    let ran = run(&mut nm);
    assert!(ran.status.success());
    let symbols = String::from_utf8(ran.stdout).unwrap();
    let called: Vec<&str> = symbols
        .lines()
        .filter_map(|line| line.split_once(" U"))
        .map(|(name, _)| name)
        .collect();
    assert_eq!(called, ["memcpy", "memset"]);
}
