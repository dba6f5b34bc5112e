//! The stream that is read.

use std::ffi::OsStr;
use std::fs::{File, Metadata};
use std::io::{self, Read};
use std::os::fd::AsFd;
use std::os::unix::fs::MetadataExt;

use super::failure::Failure;
use super::kind::Kind;
use super::names::shown;
use super::standard;

/// What standard input is called in messages.
pub const STANDARD: &str = "standard input";

/// The bytes that a look reads at most, and of each stream a comparison of locks.
pub const LOOK_LEN: usize = 1 << 20;

/// What tells one regular file from another: device and inode.
pub type Identity = (u64, u64);

/// A stream with its name, and which file it is.
pub struct Input {
    pub name: String,
    pub stream: Vec<u8>,
    pub identity: Option<Identity>,
    /// What is said if it is not a workbook stream.
    pub other: Option<String>,
}

impl Input {
    /// Reads a stream: a file, or standard input for `-`. A file that is something else is an error.
    pub fn read(file: &OsStr) -> Result<Input, Failure> {
        let (name, mut source) = open(file)?;
        let failed = |error: io::Error| Failure::reading(&name, &error);
        let metadata = source.metadata().map_err(failed)?;
        if metadata.is_dir() {
            return Err(failed(io::ErrorKind::IsADirectory.into()));
        }
        if metadata.len() > sheet::STREAM_MAX_LEN as u64 {
            return Err(too_long(&name));
        }
        let most = sheet::STREAM_MAX_LEN + 1;
        let stream = up_to(&mut source, most, metadata.len() as usize).map_err(failed)?;
        if stream.len() > sheet::STREAM_MAX_LEN {
            return Err(too_long(&name));
        }
        match Kind::of(&stream) {
            Some(kind) => Err(Failure::at(&name, &kind.words(named(file)))),
            None => Ok(Input {
                stream,
                identity: identity(&metadata),
                name,
                other: None,
            }),
        }
    }

    /// Reads as much as a look takes, and no more. Only a compound file is an error: of any other
    /// file that is not a workbook stream, a look can say that it is unknown.
    pub fn read_for_look(file: &OsStr) -> Result<Input, Failure> {
        let (name, mut source) = open(file)?;
        let failed = |error: io::Error| Failure::reading(&name, &error);
        let metadata = source.metadata().map_err(failed)?;
        if metadata.is_dir() {
            return Err(failed(io::ErrorKind::IsADirectory.into()));
        }
        let expected = metadata.len().min(LOOK_LEN as u64) as usize;
        let stream = up_to(&mut source, LOOK_LEN, expected).map_err(failed)?;
        let other = match Kind::of(&stream) {
            Some(Kind::Compound) => {
                return Err(Failure::at(&name, &Kind::Compound.words(named(file))))
            }
            Some(kind) => Some(kind.words(named(file))),
            None => None,
        };
        Ok(Input {
            stream,
            identity: identity(&metadata),
            name,
            other,
        })
    }

    /// The same for a comparison of locks, for which a file that is something else is an error.
    pub fn read_to_compare(file: &OsStr) -> Result<Input, Failure> {
        let input = Input::read_for_look(file)?;
        match &input.other {
            Some(words) => Err(Failure::at(&input.name, words)),
            None => Ok(input),
        }
    }
}

/// The name that the user gave.
fn named(file: &OsStr) -> Option<&OsStr> {
    (file != "-").then_some(file)
}

/// Opens a file, or standard input for `-`, and gives what it is called in messages.
pub fn open(file: &OsStr) -> Result<(String, File), Failure> {
    let (name, opened) = if file != "-" {
        (shown(file), File::open(file))
    } else if standard::input_is_closed() {
        return Err(Failure::at(STANDARD, "it is closed: name a file"));
    } else {
        let opened = io::stdin().as_fd().try_clone_to_owned().map(File::from);
        (STANDARD.to_string(), opened)
    };
    match opened {
        Ok(opened) => Ok((name, opened)),
        Err(error) => Err(Failure::reading(&name, &error)),
    }
}

/// Reads to the end, or so many bytes.
fn up_to(source: &mut File, most: usize, expected: usize) -> io::Result<Vec<u8>> {
    let mut stream = Vec::new();
    stream.try_reserve_exact(expected)?;
    source.take(most as u64).read_to_end(&mut stream)?;
    Ok(stream)
}

fn too_long(name: &str) -> Failure {
    Failure::at(
        name,
        "this is longer than 1 GiB (1,073,741,824 bytes), which no workbook is: check that this is \
         the Workbook stream",
    )
}

/// Which regular file it is. Terminals, pipes and devices are none.
pub fn identity(metadata: &Metadata) -> Option<Identity> {
    metadata
        .is_file()
        .then_some((metadata.dev(), metadata.ino()))
}
