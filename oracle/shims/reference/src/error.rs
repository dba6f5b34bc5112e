//! Stands in for error.rs: the errors that the files built here can give, with what they carry.
//! Left out: the other variants, and the texts.

use crate::file_params::{AlgorithmName, FileField, FileProblem, Invariant};

#[derive(Debug)]
pub enum Error {
    NotACfbFile,
    MissingStream(&'static str),
    StreamTooLarge(&'static str),
    Io(std::io::Error),
    NotEncrypted,
    UnsupportedEncryptionVersion(u16, u16),
    UnsupportedAlgorithm { what: &'static str, name: AlgorithmName },
    UnsupportedEncryptedContent(&'static str),
    BadParameters { field: FileField, problem: FileProblem },
    WrongPassword,
    InvariantViolated(Invariant),
}

impl From<std::io::Error> for Error {
    fn from(error: std::io::Error) -> Self {
        Self::Io(error)
    }
}
