//! The command, where more of the machine comes into it than files: devices, users, limits, files
//! with holes, readers that go away.

mod common;

use std::fs::{self, File, OpenOptions};
use std::os::unix::fs::{FileTypeExt, PermissionsExt};
use std::os::unix::process::CommandExt;
use std::process::{Command, Stdio};
use std::time::Duration;

use common::bench::{Bench, Ran, PASSWORD, SHEET};
use common::process::Process;

extern "C" {
    fn geteuid() -> u32;
    fn setrlimit(what: i32, limit: *const [u64; 2]) -> i32;
}

/// The resource limit of a file's size.
const RLIMIT_FSIZE: i32 = 1;

#[test]
#[should_panic(expected = "killed, as it did not end within 100ms")]
fn a_command_that_waits_for_ever_is_killed() {
    let bench = Bench::new();
    let mut command = bench.command("look -");
    // Nothing comes, and the pipe stays open.
    let process = Process::start(command.stdin(Stdio::piped()));
    process.within(Duration::from_millis(100)).end();
}

#[test]
fn a_file_above_a_gibibyte_is_not_read() {
    let bench = Bench::new();
    // A hole, which takes no room on the disk.
    let file = File::create(bench.folder.join("huge")).unwrap();
    file.set_len(sheet::STREAM_MAX_LEN as u64 + 1).unwrap();
    for command in [
        "list",
        "directory",
        "forecast",
        "open -o plain",
        "seal -o sealed --lock cryptoapi",
    ] {
        let ran = bench.run_with(&format!("{command} huge"), PASSWORD);
        ran.failed(2, &["sheet: huge: ", "1 GiB"]);
    }
    bench.has_only(&["huge"]);
}

#[test]
fn a_device_is_not_written_to() {
    let bench = Bench::new();
    let device = fs::metadata("/dev/full").unwrap();
    assert!(device.file_type().is_char_device());
    let ran = bench.run_with("open calibres.bin -o /dev/full", PASSWORD);
    ran.failed(2, &["sheet: /dev/full: ", "device"]);
    bench.write("plain", &bench.plain());
    let ran = bench.run_with("seal plain -o /dev/full --lock cryptoapi", PASSWORD);
    ran.failed(2, &["sheet: /dev/full: ", "device"]);
    bench.has_only(&["plain"]);
}

/// What a user has in place of the random source, by a shell that runs as the root of a name space of
/// its own, and what the command says of it. The test needs a machine that lets users have such name
/// spaces.
const SOURCES: [(&str, &str); 4] = [
    (
        "mount --bind /dev/zero /dev/urandom",
        "it gives zeros and nothing else",
    ),
    ("mount --bind /dev/null /dev/urandom", "it ended too early"),
    (
        "mount --bind calibres.bin /dev/urandom",
        "this is not a device",
    ),
    ("mount -t tmpfs none /dev", "No such file"),
];

#[test]
fn nothing_is_sealed_without_a_random_source() {
    let bench = Bench::new();
    bench.write("plain", &bench.plain());
    let run = |first: &str, line: &str| {
        let script = format!("{first} && exec \"$@\"");
        let mut command = Command::new("unshare");
        command
            .args(["--user", "--map-root-user", "--mount", "sh", "-c", &script])
            .args(["sh", SHEET])
            .args(line.split_whitespace())
            .current_dir(bench.folder.path())
            .env("SHEET_PASSWORD", PASSWORD)
            .stdin(Stdio::null());
        Ran::of(&mut command)
    };
    let seal = "seal plain -o sealed --lock cryptoapi";
    for (first, words) in SOURCES {
        let tried = run(first, "--version");
        assert_eq!(tried.status, Some(0), "no such device: {}", tried.err);
        let ran = run(first, seal);
        let whole = format!("the system's random source gave no salt ({words}");
        ran.failed(2, &["sheet: /dev/urandom: ", &whole, "nothing is sealed"]);
        // What takes no salt does without.
        assert_eq!(run(first, "open calibres.bin -o other").status, Some(0));
        fs::remove_file(bench.folder.join("other")).unwrap();
    }
    bench.has_only(&["plain"]);
    assert_eq!(bench.run_with(seal, PASSWORD).status, Some(0));
}

#[test]
fn a_full_disk_is_told() {
    let bench = Bench::new();
    let full = || OpenOptions::new().write(true).open("/dev/full").unwrap();
    bench.write("sheet", &bench.plain());
    for line in [
        "open calibres.bin -o -",
        "seal sheet -o - --lock cryptoapi",
        "look calibres.bin",
        "same-lock calibres.bin calibres.bin",
        "list calibres.bin",
        "directory calibres.bin",
        "forecast calibres.bin",
        "refusals",
        "--help",
        "--version",
    ] {
        Ran::to(full(), &mut bench.command_with(line, PASSWORD))
            .failed(2, &["sheet: standard output: the disk is full"]);
    }
    bench.has_only(&["sheet"]);
    // The stream is written, and only the report is lost.
    for (line, out) in [
        ("open calibres.bin -o plain", "plain"),
        ("seal sheet -o sealed --lock cryptoapi", "sealed"),
    ] {
        let mut command = bench.command_with(line, PASSWORD);
        let whole = format!("{out} is written and whole");
        Ran::to(full(), &mut command).failed(2, &["the disk is full", &whole]);
    }
    assert!(bench.read("plain") == bench.plain());
    let ran = bench.run_with("open sealed -o plain", PASSWORD);
    assert_eq!(ran.status, Some(0));
    assert!(bench.read("plain") == bench.plain());
    bench.has_only(&["plain", "sealed", "sheet"]);
}

#[test]
fn an_output_that_grows_too_large_is_not_left_half_written() {
    let bench = Bench::new();
    bench.write("old", b"old");
    bench.write("sheet", &bench.plain());
    for (line, out) in [
        ("open calibres.bin -o new", "new"),
        ("open calibres.bin -o old", "old"),
        ("seal sheet -o new --lock cryptoapi", "new"),
        ("seal sheet -o old --lock cryptoapi", "old"),
    ] {
        let mut command = bench.command_with(line, PASSWORD);
        // SAFETY: setrlimit may be called between fork and exec.
        unsafe {
            command.pre_exec(|| {
                setrlimit(RLIMIT_FSIZE, &[1000, 1000]);
                Ok(())
            })
        };
        Ran::of(&mut command).failed(
            2,
            &[&format!("sheet: {out}: "), "larger than is allowed there"],
        );
    }
    assert_eq!(bench.read("old"), b"old");
    bench.has_only(&["old", "sheet"]);
}

#[test]
fn no_permission_is_told() {
    let bench = Bench::new();
    // Root may do everything, so the command runs as nobody then, from a copy that nobody may run.
    let program = bench.folder.join("sheet");
    fs::copy(SHEET, &program).unwrap();
    fs::create_dir(bench.folder.join("locked")).unwrap();
    bench.write("secret", b"");
    bench.write("kept", b"old");
    bench.write("plain", &bench.plain());
    for (name, mode) in [
        ("secret", 0o000),
        ("kept", 0o444),
        ("locked", 0o555),
        ("sheet", 0o755),
        ("calibres.bin", 0o644),
        ("plain", 0o644),
    ] {
        fs::set_permissions(bench.folder.join(name), fs::Permissions::from_mode(mode)).unwrap();
    }
    for (line, words) in [
        ("look secret", &["sheet: secret: ", "no permission to read"]),
        (
            "same-lock calibres.bin secret",
            &["sheet: secret: ", "no permission to read"],
        ),
        (
            "open calibres.bin -o kept",
            &["sheet: kept: ", "no permission to write"],
        ),
        (
            "open calibres.bin -o locked/plain",
            &["sheet: locked/plain: ", "no permission to write"],
        ),
        (
            "seal plain -o kept --lock cryptoapi",
            &["sheet: kept: ", "no permission to write"],
        ),
        (
            "seal plain -o locked/sealed --lock cryptoapi",
            &["sheet: locked/sealed: ", "no permission to write"],
        ),
    ] {
        let mut command = Command::new(&program);
        command
            .args(line.split_whitespace())
            .current_dir(bench.folder.path());
        command
            .env("SHEET_PASSWORD", PASSWORD)
            .stdin(Stdio::null())
            .stdout(Stdio::piped())
            .stderr(Stdio::piped());
        // SAFETY: geteuid only tells a number.
        if unsafe { geteuid() } == 0 {
            command.uid(65534).gid(65534);
        }
        // Nobody must be able to enter the folders above.
        let process = Process::try_start(&mut command).expect("nobody can run the command");
        Ran::from(process.end()).failed(2, words);
    }
    assert_eq!(bench.read("kept"), b"old");
    assert_eq!(
        fs::read_dir(bench.folder.join("locked")).unwrap().count(),
        0
    );
    bench.has_only(&["kept", "locked", "plain", "secret", "sheet"]);
}

#[test]
fn a_reader_that_has_enough_is_no_error_worth_words() {
    let bench = Bench::new();
    for line in [
        "same-lock calibres.bin calibres.bin",
        "list calibres.bin",
        "directory calibres.bin",
        "forecast calibres.bin",
    ] {
        let mut command = bench.command(line);
        command.stdout(Stdio::piped()).stderr(Stdio::piped());
        let mut process = Process::start(&mut command);
        process.close_output();
        let ran = Ran::from(process.end());
        // The listing may be out before the pipe is closed.
        assert!(matches!(ran.status, Some(0 | 2)), "{ran:?}");
        assert_eq!(ran.err, "");
    }
}
