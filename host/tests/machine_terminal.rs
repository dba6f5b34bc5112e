//! The prompts of open and of seal, which asks twice: nothing is echoed, and the terminal gets its
//! settings back however the command ends.

mod common;

use std::fs;
use std::path::Path;
use std::process::{Command, Output, Stdio};

use common::folder::Folder;
use common::process::Process;
use common::pty::Terminal;

const SHEET: &str = env!("CARGO_BIN_EXE_sheet");
const PASSWORD: &str = "Hebungswinkel 50°";
const PROMPT: &str = "Password for calibres.bin: ";
const NEW: &str = "New password for sheet.bin: ";
const AGAIN: &str = "The same password again: ";

const SIGHUP: i32 = 1;
const SIGINT: i32 = 2;
const SIGQUIT: i32 = 3;
const SIGTERM: i32 = 15;

extern "C" {
    fn kill(pid: i32, number: i32) -> i32;
}

/// A shell at a terminal, which runs the command and tells how the terminal was set before and
/// after.
struct Session {
    folder: Folder,
    terminal: Terminal,
    shell: Process,
}

/// The shell has job control, and catches what ends the command, so that it can look at the
/// terminal afterwards, and at what is left to be read there.
const SCRIPT: &str = "set -m
trap : HUP INT QUIT TERM
stty -a > before < /dev/tty
\"$@\"
echo $? > status
stty -a > after < /dev/tty
stty -icanon min 0 time 0 < /dev/tty
head -c 4096 < /dev/tty > rest
";

impl Session {
    fn start(arguments: &str) -> Session {
        let folder = Folder::new();
        let sample = Path::new(env!("CARGO_MANIFEST_DIR")).join("examples/calibres.bin");
        fs::copy(sample, folder.join("calibres.bin")).unwrap();
        folder.write("sheet.bin", &plain());
        let terminal = Terminal::open();
        let mut command = Command::new("sh");
        command
            .args(["-c", SCRIPT, "sh", SHEET])
            .args(arguments.split_whitespace())
            .current_dir(folder.path())
            .env_remove("SHEET_PASSWORD")
            .stdin(Stdio::null())
            .stdout(Stdio::piped())
            .stderr(Stdio::piped());
        terminal.attach(&mut command);
        let shell = Process::start(&mut command);
        Session {
            folder,
            terminal,
            shell,
        }
    }

    /// At the prompt for the sample's password.
    fn at_prompt() -> Session {
        let session = Session::start("open calibres.bin -o plain");
        session.terminal.wait_for(PROMPT);
        session
    }

    /// At the first prompt for a new password.
    fn at_first_prompt() -> Session {
        let session = Session::start("seal sheet.bin -o sealed --lock cryptoapi");
        session.terminal.wait_for(NEW);
        session
    }

    /// At the second, where this was typed at the first.
    fn at_second_prompt(typed: &str) -> Session {
        let mut session = Session::at_first_prompt();
        session.terminal.write(format!("{typed}\n").as_bytes());
        session.terminal.wait_for(AGAIN);
        session
    }

    /// The command's process.
    fn command(&self) -> i32 {
        let id = self.shell.id();
        let children = format!("/proc/{id}/task/{id}/children");
        fs::read_to_string(children)
            .unwrap()
            .trim()
            .parse()
            .unwrap()
    }

    /// Waits until the command ends, sees that the terminal has its settings back, and gives the
    /// status, what was printed and what was shown.
    #[track_caller]
    fn end(self) -> (String, Output, String) {
        let output = self.shell.end();
        let read = |name: &str| fs::read_to_string(self.folder.join(name)).unwrap();
        assert!(read("before").contains(" echo "));
        assert_eq!(read("before"), read("after"));
        assert_eq!(read("rest"), "");
        let names = self.folder.names();
        assert!(names.iter().all(|name| !name.ends_with(".part")));
        let status = read("status").trim().to_string();
        let written = names
            .iter()
            .find(|name| ["plain", "sealed"].contains(&&name[..]));
        assert_eq!(written.is_some(), status == "0");
        if written.is_some_and(|name| name == "sealed") {
            let sealed = fs::read(self.folder.join("sealed")).unwrap();
            assert!(opened(&sealed, PASSWORD) == plain());
        }
        (status, output, self.terminal.end())
    }
}

/// What a stream opens to.
#[track_caller]
fn opened(stream: &[u8], password: &str) -> Vec<u8> {
    let mut plain = vec![0; stream.len()];
    let mut scratch = [0; sheet::SCRATCH_LEN];
    sheet::open(stream, password.as_bytes(), &mut scratch, &mut plain).unwrap();
    plain
}

/// The plain stream of the sample.
fn plain() -> Vec<u8> {
    opened(include_bytes!("../examples/calibres.bin"), PASSWORD)
}

#[test]
fn what_is_typed_is_not_shown() {
    let mut session = Session::at_prompt();
    session.terminal.write(format!("{PASSWORD}\n").as_bytes());
    let (status, output, shown) = session.end();
    assert_eq!(status, "0");
    assert!(output.stdout.starts_with(b"records\t186\n"));
    assert_eq!(output.stderr, b"");
    assert_eq!(shown, format!("{PROMPT}\r\n"));
}

#[test]
fn mistakes_in_typing_can_be_put_right() {
    let mut session = Session::at_prompt();
    // A line taken back with ctrl-U, and a character with backspace. Ctrl-Z does nothing.
    session.terminal.write(b"wrong\x15\x1a");
    session
        .terminal
        .write(format!("{PASSWORD}x\x7f\n").as_bytes());
    assert_eq!(session.end().0, "0");
}

#[test]
fn a_wrong_password_is_refused() {
    let mut session = Session::at_prompt();
    session.terminal.write(b"\n");
    let (status, output, _) = session.end();
    assert_eq!(status, "1");
    assert!(output.stderr.starts_with(b"refused, 27: "));
}

#[test]
fn a_line_that_is_too_long_is_refused_and_all_of_it_is_taken() {
    let mut session = Session::at_prompt();
    let line = "x".repeat(3000) + "\n";
    session.terminal.write(line.as_bytes());
    let (status, output, shown) = session.end();
    assert_eq!(status, "1");
    assert!(output.stderr.starts_with(b"refused, 1: "));
    assert!(!shown.contains('x'));
}

#[test]
fn an_end_of_input_is_no_password() {
    let mut session = Session::at_prompt();
    session.terminal.write(b"\x04");
    let (status, output, _) = session.end();
    assert_eq!(status, "2");
    assert!(output.stderr.starts_with(b"sheet: no password was typed"));
}

#[test]
fn the_keys_that_interrupt_leave_the_terminal_as_it_was() {
    for (key, number) in [(b"\x03", SIGINT), (b"\x1c", SIGQUIT)] {
        let mut session = Session::at_prompt();
        session.terminal.write(b"half a pass");
        session.terminal.write(key);
        let (status, _, shown) = session.end();
        assert_eq!(status, (128 + number).to_string());
        assert!(!shown.contains("half"));
    }
}

#[test]
fn signals_leave_the_terminal_as_it_was() {
    for number in [SIGHUP, SIGINT, SIGTERM] {
        let session = Session::at_prompt();
        // SAFETY: the process is the one that this test had started, and has not ended yet.
        assert_eq!(unsafe { kill(session.command(), number) }, 0);
        assert_eq!(session.end().0, (128 + number).to_string());
    }
}

#[test]
fn a_new_password_is_asked_for_twice_and_not_shown() {
    let mut session = Session::at_second_prompt(PASSWORD);
    session.terminal.write(format!("{PASSWORD}\n").as_bytes());
    let (status, output, shown) = session.end();
    assert_eq!(status, "0");
    assert!(output.stdout.starts_with(b"records\t186\n"));
    assert_eq!(output.stderr, b"");
    assert_eq!(shown, format!("{NEW}\r\n{AGAIN}\r\n"));
}

#[test]
fn two_passwords_that_differ_seal_nothing() {
    for (first, second) in [
        (PASSWORD, "Hebungswinkel 50"),
        ("Hebungswinkel 50", PASSWORD),
        (PASSWORD, ""),
        ("", PASSWORD),
    ] {
        let mut session = Session::at_second_prompt(first);
        session.terminal.write(format!("{second}\n").as_bytes());
        let (status, output, shown) = session.end();
        assert_eq!(status, "2");
        let said = String::from_utf8(output.stderr).unwrap();
        assert!(said.starts_with("sheet: the two passwords are not the same, and nothing was"));
        assert!(!said.contains("Hebungswinkel") && !shown.contains("Hebungswinkel"));
        assert_eq!(output.stdout, b"");
    }
}

#[test]
fn mistakes_in_typing_a_new_password_can_be_put_right() {
    let mut session = Session::at_second_prompt(&format!("wrong\x15{PASSWORD}"));
    session
        .terminal
        .write(format!("{PASSWORD}x\x7f\n").as_bytes());
    assert_eq!(session.end().0, "0");
}

#[test]
fn an_end_of_input_at_either_prompt_is_no_password() {
    for session in [
        Session::at_first_prompt(),
        Session::at_second_prompt(PASSWORD),
    ] {
        let mut session = session;
        session.terminal.write(b"\x04");
        let (status, output, _) = session.end();
        assert_eq!(status, "2");
        assert!(output.stderr.starts_with(b"sheet: no password was typed"));
    }
}

#[test]
fn interrupts_at_either_prompt_leave_the_terminal_as_it_was() {
    for (key, number) in [(b"\x03", SIGINT), (b"\x1c", SIGQUIT)] {
        for session in [
            Session::at_first_prompt(),
            Session::at_second_prompt(PASSWORD),
        ] {
            let mut session = session;
            session.terminal.write(b"half a pass");
            session.terminal.write(key);
            let (status, _, shown) = session.end();
            assert_eq!(status, (128 + number).to_string());
            assert!(!shown.contains("half"));
        }
    }
    for number in [SIGHUP, SIGINT, SIGTERM] {
        let session = Session::at_second_prompt(PASSWORD);
        // SAFETY: the process is the one that this test had started, and has not ended yet.
        assert_eq!(unsafe { kill(session.command(), number) }, 0);
        assert_eq!(session.end().0, (128 + number).to_string());
    }
}

#[test]
fn a_new_password_that_is_too_long_is_refused_and_all_of_it_is_taken() {
    let line = "x".repeat(3000);
    let mut session = Session::at_second_prompt(&line);
    session.terminal.write(format!("{line}\n").as_bytes());
    let (status, output, shown) = session.end();
    assert_eq!(status, "1");
    assert!(output.stderr.starts_with(b"refused, 1: "));
    assert!(!shown.contains("xx"));
}

#[test]
fn what_can_t_be_sealed_needs_no_password() {
    for (line, said) in [
        (
            "calibres.bin -o sealed --lock cryptoapi",
            &b"refused, 30: "[..],
        ),
        ("sheet.bin -o sealed --lock xor", b"refused, 31: "),
        (
            "sheet.bin -o sealed --lock cryptoapi --key-size 0",
            b"refused, 23: ",
        ),
        (
            "sheet.bin -o sheet.bin --lock cryptoapi",
            b"sheet: sheet.bin: this is the input file",
        ),
    ] {
        let session = Session::start(&format!("seal {line}"));
        let (_, output, shown) = session.end();
        assert!(output.stderr.starts_with(said), "{line}");
        assert_eq!(shown, "");
    }
}

#[test]
fn a_book_that_is_not_locked_needs_no_password() {
    for (file, status, said) in [
        ("sheet.bin", "1", &b"refused, 8: "[..]),
        ("before", "2", b"sheet: before: this is a text file"),
    ] {
        let session = Session::start(&format!("open {file} -o plain"));
        let (ended, output, shown) = session.end();
        assert_eq!((&ended[..], &shown[..]), (status, ""));
        assert!(output.stderr.starts_with(said));
    }
}

#[test]
fn a_workbook_is_not_written_to_a_terminal() {
    let folder = Folder::new();
    let sample = Path::new(env!("CARGO_MANIFEST_DIR")).join("examples/calibres.bin");
    fs::copy(sample, folder.join("calibres.bin")).unwrap();
    let terminal = Terminal::open();
    let mut command = Command::new(SHEET);
    command
        .args(["open", "calibres.bin", "-o", "-"])
        .current_dir(folder.path())
        .env("SHEET_PASSWORD", PASSWORD)
        .stdin(Stdio::null())
        .stdout(terminal.slave.try_clone().unwrap())
        .stderr(Stdio::piped());
    let mut seal = Command::new(SHEET);
    folder.write("sheet.bin", &plain());
    seal.args(["seal", "sheet.bin", "-o", "-", "--lock", "cryptoapi"])
        .current_dir(folder.path())
        .env("SHEET_PASSWORD", PASSWORD)
        .stdin(Stdio::null())
        .stdout(terminal.slave.try_clone().unwrap())
        .stderr(Stdio::piped());
    for mut command in [command, seal] {
        let output = Process::start(&mut command).end();
        assert_eq!(output.status.code(), Some(2));
        assert!(output
            .stderr
            .starts_with(b"sheet: standard output: this is a terminal"));
    }
    assert_eq!(terminal.end(), "");
}
