//! The script `./sheet`, with scripts in place of rt and cargo: what it says, when it builds, and
//! that it passes everything on to the command. Needs flock, signals and a terminal.

mod common;

use std::ffi::c_int;
use std::fs;
use std::os::unix::fs::{symlink, PermissionsExt};
use std::os::unix::process::ExitStatusExt;
use std::path::{Path, PathBuf};
use std::process::{Command, Output, Stdio};
use std::thread;
use std::time::Duration;

use common::folder::Folder;
use common::installed::file;
use common::process::{self, wait_until, Process};
use common::pty::Terminal;

const SIGINT: c_int = 2;

/// Notes that it runs, takes all of standard input, says at which crates it begins, of which one is
/// proved already, keeps its work and writes an archive. It waits where a file `wait` is, and fails
/// where a file `fail` is.
const RT: &str = r#"#!/usr/bin/env bash
[ "$*" = "lib --cpu x86-64" ] && [ "${PWD##*/}" = sheet_c ] && [ -z "${SHEET_PASSWORD+set}" ] || exit 9
echo run >>"$TRIES/rt"
cat >/dev/null
for name in laws limits word sensitive file_params; do
    mkdir -p ../laws/out/rlib
    echo "rt: chose --jobs 2 for $name"
    echo "crate $name: some words of the prover" >&2
done
while [ -e "$TRIES/wait" ]; do sleep 0.1; done
if [ -e "$TRIES/fail" ]; then
    echo "logic=not-proved"
    exit 1
fi
mkdir -p out
echo archive >out/libsheet_c.a
"#;

/// Makes a command that prints the archive, where it is, its arguments and its standard input.
const CARGO: &str = r#"#!/usr/bin/env bash
echo run >>"$TRIES/cargo"
cat >/dev/null
[ ! -e "$TRIES/fail-cargo" ] || { echo "error: cargo's own words" >&2; exit 101; }
mkdir -p target/release
{
    echo '#!/usr/bin/env bash'
    echo "echo archive \"$(cat "$SHEET_ARCHIVE")\""
    echo 'echo "at $PWD"; printf "<%s>" "$@"; cat; [ ! -e /dev/fd/9 ] || echo "the lock is open"; exit 7'
} >target/release/sheet
chmod +x target/release/sheet
echo "words for standard error"
"#;

/// A clone with what the script looks at, and a folder of tools.
struct Clone {
    folder: Folder,
    tools: PathBuf,
}

impl Clone {
    fn new() -> Clone {
        let folder = Folder::new();
        let root = folder.join("a clone");
        for part in [
            "crates/laws/src",
            "crates/sheet_c",
            "include",
            "host/src",
            "tools",
        ] {
            fs::create_dir_all(root.join(part)).unwrap();
        }
        for part in ["host/build.rs", "host/Cargo.toml", "host/Cargo.lock"] {
            fs::write(root.join(part), "").unwrap();
        }
        for part in ["sheet", "crates.txt", "tools/archive"] {
            fs::copy(file(part), root.join(part)).unwrap();
        }
        let tools = folder.join("tools");
        fs::create_dir(&tools).unwrap();
        for (name, text) in [("rt", RT), ("cargo", CARGO), ("cc", "#!/bin/sh\n")] {
            let tool = tools.join(name);
            fs::write(&tool, text).unwrap();
            fs::set_permissions(&tool, fs::Permissions::from_mode(0o755)).unwrap();
        }
        Clone { folder, tools }
    }

    fn root(&self) -> PathBuf {
        self.folder.join("a clone")
    }

    /// The script, started elsewhere.
    fn command(&self) -> Command {
        self.command_by(&self.root().join("sheet"))
    }

    /// The same, by another name.
    fn command_by(&self, name: &Path) -> Command {
        let path = std::env::var("PATH").unwrap();
        let mut command = Command::new(name);
        command
            .args(["one word", "", "-x"])
            .current_dir(self.folder.path())
            .env("PATH", format!("{}:{path}", self.tools.display()))
            .env("TRIES", self.folder.path())
            .env("SHEET_PASSWORD", "Unruh")
            .env_remove("SHEET_ARCHIVE")
            .stdin(Stdio::null());
        command
    }

    fn run(&self) -> Output {
        process::run(&mut self.command())
    }

    /// How often rt and cargo ran.
    fn runs(&self) -> [usize; 2] {
        ["rt", "cargo"].map(|name| {
            let runs = fs::read_to_string(self.folder.join(name)).unwrap_or_default();
            runs.lines().count()
        })
    }

    /// What the command prints, started elsewhere.
    fn printed(&self, archive: &str, input: &str) -> String {
        let at = fs::canonicalize(self.folder.path()).unwrap();
        format!(
            "archive {archive}\nat {}\n<one word><><-x>{input}",
            at.display()
        )
    }

    #[track_caller]
    fn check(&self, run: &Output) -> String {
        assert_eq!(text(&run.stdout), self.printed("archive", ""));
        assert_eq!(run.status.code(), Some(7));
        text(&run.stderr)
    }
}

fn text(bytes: &[u8]) -> String {
    String::from_utf8_lossy(bytes).into_owned()
}

#[test]
fn builds_once_and_says_so() {
    let clone = Clone::new();
    let said = clone.check(&clone.run());
    let lines: Vec<&str> = said.lines().collect();
    let expected = "sheet: the first use here: the command is built first; this needs rt, cargo ";
    assert!(lines[0].starts_with(expected), "{said}");
    assert!(lines[1].starts_with("sheet: proving the library, 24 crates: 9 minutes"));
    let begun = ["laws", "limits", "word", "sensitive", "file_params"];
    for (line, name) in lines[2..].iter().zip(begun) {
        assert!(
            line.starts_with(&format!("sheet: proving {name}, ")),
            "{said}"
        );
        assert!(
            line.contains(" of 24; 0:0") && line.ends_with(" left"),
            "{said}"
        );
    }
    let last = lines.len() - 3;
    assert_eq!(lines[last], "sheet: building the command");
    assert_eq!(lines[last + 1], "words for standard error");
    assert!(lines[last + 2].starts_with("sheet: done in 0:0"));
    assert_eq!(clone.runs(), [1, 1]);

    // From then on not a word, and through a link, with standard input passed on.
    assert_eq!(clone.check(&clone.run()), "");
    let link = clone.folder.join("link");
    symlink(clone.root().join("sheet"), &link).unwrap();
    let input = clone.folder.write("input", b"of standard input");
    let with_input =
        |mut command: Command| process::run(command.stdin(fs::File::open(&input).unwrap()));
    let run = with_input(clone.command_by(&link));
    let printed = clone.printed("archive", "of standard input");
    assert_eq!(
        (text(&run.stdout), text(&run.stderr)),
        (printed.clone(), String::new())
    );
    assert_eq!(clone.runs(), [1, 1]);

    // Standard input is not taken by what builds.
    fs::write(clone.root().join("crates/laws/src/new"), "").unwrap();
    let run = with_input(clone.command());
    assert_eq!(text(&run.stdout), printed);
    assert_eq!(clone.runs(), [2, 2]);
}

#[test]
fn builds_again_where_a_source_changed() {
    let clone = Clone::new();
    clone.check(&clone.run());
    let mut runs = 1;
    for part in [
        "crates/laws/src/new",
        "crates.txt",
        "tools/archive",
        "include/sheet.h",
        "host/src/main.rs",
        "host/build.rs",
        "host/Cargo.toml",
        "host/Cargo.lock",
    ] {
        let path = clone.root().join(part);
        let old = fs::read(&path).unwrap_or_default();
        fs::write(&path, old).unwrap();
        let said = clone.check(&clone.run());
        let expected = "sheet: the first use since something changed: ";
        assert!(said.starts_with(expected), "{part}: {said}");
        runs += 1;
        assert_eq!(clone.check(&clone.run()), "", "{part}");
        assert_eq!(clone.runs(), [runs, runs]);
    }
    fs::remove_file(clone.root().join("crates/laws/src/new")).unwrap();
    assert_ne!(clone.check(&clone.run()), "");
    // The command, and the archive, which tools/install needs.
    for part in ["host/target/release/sheet", "target/staticlib/libsheet.a"] {
        fs::remove_file(clone.root().join(part)).unwrap();
        assert_ne!(clone.check(&clone.run()), "", "{part}");
        assert!(clone.root().join(part).is_file());
        assert_eq!(clone.check(&clone.run()), "");
    }
}

#[test]
fn links_an_archive_that_was_made_elsewhere() {
    let clone = Clone::new();
    fs::remove_file(clone.tools.join("rt")).unwrap();
    // A relative path counts from host/.
    fs::write(clone.root().join("other.a"), "other").unwrap();
    let with = |archive: &str| process::run(clone.command().env("SHEET_ARCHIVE", archive));
    let run = with("../other.a");
    assert_eq!(text(&run.stdout), clone.printed("other", ""));
    assert!(text(&run.stderr).contains("; with SHEET_ARCHIVE set, this needs cargo and "));
    assert_eq!(text(&with("../other.a").stderr), "");
    fs::write(clone.root().join("other.a"), "another").unwrap();
    assert_eq!(
        text(&with("../other.a").stdout),
        clone.printed("another", "")
    );
    assert_eq!(clone.runs(), [0, 2]);
    let run = with("../none.a");
    assert_eq!(
        (run.status.code(), text(&run.stdout)),
        (Some(2), String::new())
    );
    assert!(text(&run.stderr).starts_with("sheet: SHEET_ARCHIVE names /"));
}

#[test]
fn says_which_tools_are_missing() {
    let clone = Clone::new();
    // A path with what the script itself needs.
    let tools = clone.folder.join("few");
    fs::create_dir(&tools).unwrap();
    for name in ["bash", "env", "dirname", "readlink", "find", "realpath"] {
        let from = ["/usr/bin", "/bin"].map(|folder| Path::new(folder).join(name));
        let from = from.iter().find(|path| path.exists()).unwrap();
        symlink(from, tools.join(name)).unwrap();
    }
    let run = process::run(clone.command().env("PATH", &tools));
    assert_eq!(
        (run.status.code(), text(&run.stdout)),
        (Some(2), String::new())
    );
    let said = text(&run.stderr);
    let lines: Vec<&str> = said.lines().collect();
    assert_eq!(lines.len(), 3, "{said}");
    assert!(lines[0].starts_with("sheet: rt is not on the path. "));
    assert!(lines[0].contains("Rattle kit") && lines[0].contains("SHEET_ARCHIVE"));
    assert!(lines[1].starts_with("sheet: cargo is not on the path. "));
    assert!(lines[2].starts_with("sheet: cc is not on the path. "));
}

#[test]
fn prints_what_failed() {
    let clone = Clone::new();
    let fail = clone.folder.write("fail", b"");
    for _ in 0..2 {
        let run = clone.run();
        assert_eq!(
            (run.status.code(), text(&run.stdout)),
            (Some(2), String::new())
        );
        let said = text(&run.stderr);
        assert!(
            said.contains("\ncrate word: some words of the prover\n"),
            "{said}"
        );
        assert!(said.contains("\nlogic=not-proved\n"));
        assert!(said.ends_with("printed is above\n"), "{said}");
    }
    assert_eq!(clone.runs(), [2, 0]);
    fs::remove_file(fail).unwrap();
    let fail = clone.folder.write("fail-cargo", b"");
    let run = clone.run();
    assert_eq!(
        (run.status.code(), text(&run.stdout)),
        (Some(2), String::new())
    );
    let said = text(&run.stderr);
    assert!(
        said.contains("\nerror: cargo's own words\nsheet: cargo could not build"),
        "{said}"
    );
    fs::remove_file(fail).unwrap();
    clone.check(&clone.run());
    assert_eq!(clone.check(&clone.run()), "");
}

#[test]
fn two_at_once_build_once() {
    let clone = Clone::new();
    let wait = clone.folder.write("wait", b"");
    let start = || {
        let mut command = clone.command();
        Process::start(command.stdout(Stdio::piped()).stderr(Stdio::piped()))
    };
    let first = start();
    wait_until("rt", || clone.runs() == [1, 0]);
    let second = start();
    // Long enough for it to come to the lock.
    thread::sleep(Duration::from_millis(500));
    fs::remove_file(wait).unwrap();
    clone.check(&first.end());
    let said = clone.check(&second.end());
    assert_eq!(
        said,
        "sheet: waiting for another ./sheet, which is building the command\n"
    );
    assert_eq!(clone.runs(), [1, 1]);
}

#[test]
fn shows_one_line_at_a_terminal_and_can_be_interrupted() {
    let clone = Clone::new();
    let wait = clone.folder.write("wait", b"");
    let mut terminal = Terminal::open();
    let mut command = clone.command();
    terminal.attach(&mut command);
    let slave = || terminal.slave.try_clone().unwrap();
    command.stdin(slave()).stdout(slave()).stderr(slave());
    let run = Process::start(&mut command);
    terminal.wait_for("\rsheet: proving file_params, 6 of 24; 0:0");
    terminal.write(b"\x03");
    let status = run.end().status;
    assert_eq!(status.signal(), Some(SIGINT));
    // It keeps the terminal open.
    drop(command);
    let shown = terminal.end();
    assert!(
        shown.contains("sheet: stopped; what is proved is kept"),
        "{shown}"
    );
    let lines = shown.split(['\r', '\n']);
    for line in lines.filter(|line| line.contains(" of 24; ")) {
        assert_eq!(line.trim_end_matches("^C").len(), 79, "{line}");
    }

    // The next use goes on.
    fs::remove_file(wait).unwrap();
    clone.check(&clone.run());
    assert_eq!(clone.runs(), [2, 1]);
}
