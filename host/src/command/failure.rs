//! Why the command did not do what was asked, in words and as an exit status.

use std::io::{self, ErrorKind, Write};
use std::process::ExitCode;

use sheet::Refusal;

/// Why the command did not do what was asked.
#[derive(Debug)]
pub enum Failure {
    /// The library refused a stream. Each of the lines adds to that, the last one says what was not
    /// done.
    Refused(Refusal, Vec<String>),
    /// The library refused what an argument asked for, by this number. The words say which argument,
    /// and what was not done.
    RefusedArgument(u32, String),
    /// The listing ended at a record that can't be read.
    Unreadable(String),
    /// The arguments, the input, the output, the password that was typed, or what the machine lacks.
    Other(String),
    /// The reader of what is printed has gone, as `head` does when it has enough.
    ReaderGone,
}

impl Failure {
    /// A mistake in the arguments.
    pub fn usage(words: &str) -> Failure {
        Failure::Other(format!("{words}\n'sheet --help' says more"))
    }

    /// Something is wrong with a file or stream.
    pub fn at(name: &str, words: &str) -> Failure {
        Failure::Other(format!("{name}: {words}"))
    }

    /// A file could not be read.
    pub fn reading(name: &str, error: &io::Error) -> Failure {
        Failure::at(
            name,
            &match error.kind() {
                ErrorKind::NotFound => "there is no such file: check its name and folder".into(),
                ErrorKind::PermissionDenied => {
                    "you have no permission to read it: ask its owner for that".into()
                }
                ErrorKind::IsADirectory => "this is a folder: name a file in it".into(),
                ErrorKind::NotADirectory => {
                    "part of this path is a file and not a folder: check its name and folder".into()
                }
                ErrorKind::OutOfMemory => "there is not enough memory to read it".into(),
                _ => format!("it can't be read: {error}"),
            },
        )
    }

    /// A file or standard output could not be written.
    pub fn writing(name: &str, error: &io::Error) -> Failure {
        let words = match error.kind() {
            ErrorKind::NotFound => "there is no such folder: make it first, or name another".into(),
            ErrorKind::PermissionDenied => {
                "you have no permission to write there: name a file in a folder of your own".into()
            }
            ErrorKind::StorageFull => {
                "the disk is full: make room there, or write to another disk".into()
            }
            ErrorKind::QuotaExceeded => {
                "your share of the disk is used up: make room there, or write to another disk"
                    .into()
            }
            ErrorKind::FileTooLarge => {
                "the file would be larger than is allowed there: write to another disk, or raise \
                 the limit (ulimit -f)"
                    .into()
            }
            ErrorKind::ReadOnlyFilesystem => "the disk is read-only: write to another disk".into(),
            ErrorKind::BrokenPipe => "its reader has gone".into(),
            ErrorKind::NotADirectory => {
                "part of this path is a file and not a folder: check its name and folder".into()
            }
            ErrorKind::InvalidFilename => "the name is too long: name another file".into(),
            _ => format!("it can't be written: {error}"),
        };
        Failure::at(name, &words)
    }

    /// The same, with more words after it.
    pub fn and(self, more: &str) -> Failure {
        match self {
            Failure::Other(words) => Failure::Other(format!("{words}; {more}")),
            other => other,
        }
    }

    /// The same, with what the file is in front of its name.
    pub fn of(self, what: &str) -> Failure {
        match self {
            Failure::Other(words) => Failure::Other(format!("{what} {words}")),
            other => other,
        }
    }

    /// What is said of it.
    pub fn words(&self) -> String {
        match self {
            Failure::Refused(refusal, lines) => {
                let lines: String = lines
                    .iter()
                    .map(|line| format!("\nsheet: {line}"))
                    .collect();
                format!("{refusal}{lines}")
            }
            Failure::RefusedArgument(number, words) => format!("refused, {number}: {words}"),
            Failure::Unreadable(words) | Failure::Other(words) => format!("sheet: {words}"),
            Failure::ReaderGone => String::new(),
        }
    }

    /// Says it on standard error and gives the exit status.
    pub fn report(self) -> ExitCode {
        let words = self.words();
        if !words.is_empty() {
            // If standard error does not take it, there is nobody else to tell.
            let _ = writeln!(io::stderr(), "{words}");
        }
        match self {
            Failure::Refused(..) | Failure::RefusedArgument(..) | Failure::Unreadable(_) => {
                ExitCode::from(1)
            }
            Failure::Other(_) | Failure::ReaderGone => ExitCode::from(2),
        }
    }
}
