//! The command, run in a folder with the sample book.

use std::fs::{self, File};
use std::path::{Path, PathBuf};
use std::process::{Command, Output, Stdio};

use super::folder::Folder;
use super::process::{run, Process};

pub const SHEET: &str = env!("CARGO_BIN_EXE_sheet");

/// The sample's password, and what is told when it is opened.
pub const PASSWORD: &str = "Hebungswinkel 50°";
pub const REPORT: &str = "records\t186\nlock\tRC4 CryptoAPI\nkey size\t128\nsummary sealed\tno\n\
    output bytes\t3435\nenciphered body bytes\t2533\nblock keys\t5\n";

/// What is told of the sample beforehand.
pub const FORECAST: &str =
    "output bytes\t3435\nrecords\t186\nenciphered body bytes\t2533\nblock keys\t5\n";

/// What came of a run.
#[derive(Debug, PartialEq)]
pub struct Ran {
    pub status: Option<i32>,
    pub out: String,
    pub err: String,
}

impl Ran {
    pub fn from(output: Output) -> Ran {
        Ran {
            status: output.status.code(),
            out: String::from_utf8(output.stdout).unwrap(),
            err: String::from_utf8(output.stderr).unwrap(),
        }
    }

    /// Runs a command.
    #[track_caller]
    pub fn of(command: &mut Command) -> Ran {
        Ran::from(run(command))
    }

    /// Runs a command whose standard output is a file.
    #[track_caller]
    pub fn to(file: File, command: &mut Command) -> Ran {
        Ran::from(Process::start(command.stdout(file).stderr(Stdio::piped())).end())
    }

    /// Sees that it ended with a status and words on standard error, and printed nothing else.
    #[track_caller]
    pub fn failed(&self, status: i32, words: &[&str]) {
        assert_eq!(self.status, Some(status), "{self:?}");
        assert_eq!(self.out, "");
        for word in words {
            assert!(self.err.contains(word), "{word:?} in {:?}", self.err);
        }
    }
}

/// A folder with the sample book, and the command run in it.
pub struct Bench {
    pub folder: Folder,
}

impl Bench {
    pub fn new() -> Bench {
        let folder = Folder::new();
        for name in ["calibres.bin", "calibres.password"] {
            let sample = Path::new(env!("CARGO_MANIFEST_DIR"))
                .join("examples")
                .join(name);
            fs::copy(sample, folder.join(name)).unwrap();
        }
        Bench { folder }
    }

    /// The command with these arguments, with no password in the environment.
    pub fn command(&self, line: &str) -> Command {
        let mut command = Command::new(SHEET);
        command
            .args(line.split_whitespace())
            .current_dir(self.folder.path())
            .env_remove("SHEET_PASSWORD")
            .stdin(Stdio::null());
        command
    }

    /// The same, with a password in the environment.
    pub fn command_with(&self, line: &str, password: &str) -> Command {
        let mut command = self.command(line);
        command.env("SHEET_PASSWORD", password);
        command
    }

    #[track_caller]
    pub fn run(&self, line: &str) -> Ran {
        Ran::of(&mut self.command(line))
    }

    #[track_caller]
    pub fn run_with(&self, line: &str, password: &str) -> Ran {
        Ran::of(&mut self.command_with(line, password))
    }

    #[track_caller]
    pub fn run_on(&self, line: &str, input: File) -> Ran {
        Ran::of(self.command(line).stdin(input))
    }

    pub fn file(&self, name: &str) -> File {
        File::open(self.folder.join(name)).unwrap()
    }

    pub fn read(&self, name: &str) -> Vec<u8> {
        fs::read(self.folder.join(name)).unwrap()
    }

    pub fn write(&self, name: &str, bytes: &[u8]) -> PathBuf {
        self.folder.write(name, bytes)
    }

    /// The plain stream of the sample.
    pub fn plain(&self) -> Vec<u8> {
        let stream = self.read("calibres.bin");
        let mut plain = vec![0; stream.len()];
        let mut scratch = [0; sheet::SCRATCH_LEN];
        sheet::open(&stream, PASSWORD.as_bytes(), &mut scratch, &mut plain).unwrap();
        plain
    }

    /// Sees that the folder has these files beside the sample, and no others.
    #[track_caller]
    pub fn has_only(&self, others: &[&str]) {
        let mut expected = [&["calibres.bin", "calibres.password"], others].concat();
        expected.sort_unstable();
        assert_eq!(self.folder.names(), expected);
    }
}
