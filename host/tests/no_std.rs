//! The wrapper without its features, in a program that has no standard library and no heap.

mod common;

use std::process::{Command, Stdio};

use common::folder::Folder;
use common::process::run;

const MANIFEST: &str = r#"
[package]
name = "bare"
version = "0.0.0"
edition = "2021"

[dependencies]
sheet = { path = "@", default-features = false }

[profile.release]
panic = "abort"
lto = true

[workspace]
"#;

/// Opens the sample into a static buffer. A crate that brought the standard library in would have a
/// panic handler of its own, and this would not compile.
const PROGRAM: &str = r#"
#![no_std]
#![no_main]

use sheet::{Lock, Refusal};

#[link(name = "c")]
extern "C" {
    fn abort() -> !;
}

#[panic_handler]
fn panic(_: &core::panic::PanicInfo) -> ! {
    unsafe { abort() }
}

static STREAM: &[u8] = include_bytes!("@/examples/calibres.bin");

#[no_mangle]
pub extern "C" fn main() -> i32 {
    let mut scratch = [0; sheet::SCRATCH_LEN];
    let mut plain = [0; 4096];
    let wrong = sheet::open(STREAM, b"Unruh", &mut scratch, &mut plain);
    if wrong != Err(Refusal::WrongPassword) || plain != [0; 4096] {
        return 1;
    }
    let password = "Hebungswinkel 50°".as_bytes();
    match sheet::open(STREAM, password, &mut scratch, &mut plain) {
        Ok(report) if report.lock == Lock::CryptoApi && report.records == 186 => 0,
        _ => 2,
    }
}
"#;

#[test]
fn a_program_without_the_standard_library_opens_the_sample() {
    let folder = Folder::new();
    let host = env!("CARGO_MANIFEST_DIR");
    std::fs::create_dir(folder.join("src")).unwrap();
    folder.write("Cargo.toml", MANIFEST.replace('@', host).as_bytes());
    folder.write("src/main.rs", PROGRAM.replace('@', host).as_bytes());
    let mut cargo = Command::new(env!("CARGO"));
    cargo
        .args(["build", "--release", "--offline", "--quiet", "--target-dir"])
        .arg(folder.join("target"))
        .current_dir(folder.path())
        .env("SHEET_ARCHIVE", env!("SHEET_LINKED_ARCHIVE"))
        .env_remove("RUSTFLAGS")
        .stdin(Stdio::null());
    let built = run(&mut cargo);
    let said = String::from_utf8_lossy(&built.stderr);
    assert!(built.status.success(), "{said}");
    let program = folder.join("target/release/bare");
    let ran = run(Command::new(&program).stdin(Stdio::null()));
    assert_eq!(ran.status.code(), Some(0));
}
