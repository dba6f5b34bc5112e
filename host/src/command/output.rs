//! The stream that is written.

use std::ffi::{OsStr, OsString};
use std::fs::{self, File, Metadata, OpenOptions, Permissions};
use std::io::{self, ErrorKind, IsTerminal, Write};
use std::os::fd::AsFd;
use std::os::unix::ffi::OsStrExt;
use std::os::unix::fs::OpenOptionsExt;
use std::path::{Path, PathBuf};
use std::process;

use super::arguments::PasswordFrom;
use super::failure::Failure;
use super::input::{identity, Identity, Input};
use super::names::shown;
use super::{interrupt, password, standard};

/// What standard output is called in messages.
pub const STANDARD: &str = "standard output";

/// The files that are read and stay as they are: which they are, and what is said of an output that
/// is one of them.
type Kept = [(Option<Identity>, &'static str); 2];

const SAME_AS_INPUT: &str =
    "this is the input file, which is never changed: name another file to write";

const SAME_AS_PASSWORD: &str =
    "this is the password file, which is never changed: name another file to write";

/// Where the stream goes.
pub enum Output {
    Standard,
    File {
        /// As the user wrote it.
        name: String,
        /// The file itself, behind all links.
        path: PathBuf,
        permissions: Mode,
    },
}

/// The permissions of a file that is written.
pub enum Mode {
    /// Those of the file that is replaced, which the new one keeps.
    Kept(Permissions),
    /// A new file's.
    New(Readers),
}

/// Who may read a new file.
#[derive(Clone, Copy)]
pub enum Readers {
    /// Its owner alone: a plain stream.
    Owner,
    /// Those that the user's umask allows: a sealed stream.
    Umask,
}

impl Readers {
    /// The permissions that a file is created with, less the umask.
    fn mode(self) -> u32 {
        match self {
            Readers::Owner => 0o600,
            Readers::Umask => 0o666,
        }
    }
}

impl Output {
    /// Checks that the output can be written, as far as this shows beforehand, and that it is neither
    /// the input nor the password file.
    pub fn prepare(
        out: &OsStr,
        input: &Input,
        from: &PasswordFrom,
        readers: Readers,
    ) -> Result<Output, Failure> {
        let kept = [
            (input.identity, SAME_AS_INPUT),
            (password::identity_of(from), SAME_AS_PASSWORD),
        ];
        if out == "-" {
            return standard(&kept);
        }
        let name = shown(out);
        let path = Path::new(out);
        match fs::symlink_metadata(path) {
            Ok(_) => existing(name, path, &kept),
            Err(error) if error.kind() == ErrorKind::NotFound => new(name, out, readers),
            Err(error) => Err(Failure::writing(&name, &error)),
        }
    }

    /// Whether it is standard output.
    pub fn is_standard(&self) -> bool {
        matches!(self, Output::Standard)
    }

    /// Writes all of it. A file gets its name when it is whole, and not before.
    pub fn write(&self, stream: &[u8]) -> Result<(), Failure> {
        match self {
            Output::Standard => {
                let mut out = open_standard()?;
                out.write_all(stream)
                    .and_then(|()| out.flush())
                    .map_err(|error| {
                        Failure::writing(STANDARD, &error).and("what came out is not whole")
                    })
            }
            Output::File {
                name,
                path,
                permissions,
            } => replace(path, permissions, stream).map_err(|error| Failure::writing(name, &error)),
        }
    }
}

/// Memory for the stream that is written.
pub fn room(len: usize) -> Result<Vec<u8>, Failure> {
    let mut room = Vec::new();
    if room.try_reserve_exact(len).is_err() {
        return Err(Failure::at(
            "out of memory",
            &format!("the stream to be written needs {len} bytes"),
        ));
    }
    room.resize(len, 0);
    Ok(room)
}

/// Standard output, if it is open.
pub fn open_standard() -> Result<io::StdoutLock<'static>, Failure> {
    if standard::output_is_closed() {
        return Err(Failure::at(
            STANDARD,
            "it is closed, so nothing can be written there",
        ));
    }
    Ok(io::stdout().lock())
}

fn standard(kept: &Kept) -> Result<Output, Failure> {
    drop(open_standard()?);
    if io::stdout().is_terminal() {
        return Err(Failure::at(
            STANDARD,
            "this is a terminal, which can't show a workbook: write to a file with -o FILE",
        ));
    }
    let metadata = io::stdout()
        .as_fd()
        .try_clone_to_owned()
        .and_then(|out| File::from(out).metadata());
    if let Ok(metadata) = metadata {
        see_that_it_is_none(STANDARD, &metadata, kept)?;
    }
    Ok(Output::Standard)
}

/// An output that is there already.
fn existing(name: String, path: &Path, kept: &Kept) -> Result<Output, Failure> {
    let metadata = match fs::metadata(path) {
        Ok(metadata) => metadata,
        Err(error) if error.kind() == ErrorKind::NotFound => {
            return Err(Failure::at(
                &name,
                "this is a link to a file that is not there: name the file itself",
            ))
        }
        Err(error) => return Err(Failure::writing(&name, &error)),
    };
    if metadata.is_dir() {
        return Err(Failure::at(
            &name,
            "this is a folder: name the file to write in it",
        ));
    }
    if !metadata.is_file() {
        return Err(Failure::at(
            &name,
            "this is a device or a pipe and not a file: name a file, or use -o - for standard \
             output",
        ));
    }
    see_that_it_is_none(&name, &metadata, kept)?;
    // A file that could not be written to is not replaced either.
    OpenOptions::new()
        .write(true)
        .open(path)
        .and_then(|_| fs::canonicalize(path))
        .map(|path| Output::File {
            name: name.clone(),
            path,
            permissions: Mode::Kept(metadata.permissions()),
        })
        .map_err(|error| Failure::writing(&name, &error))
}

/// An output that is not there yet.
fn new(name: String, out: &OsStr, readers: Readers) -> Result<Output, Failure> {
    let path = Path::new(out);
    if out.as_bytes().ends_with(b"/") || path.file_name().is_none() {
        return Err(Failure::at(
            &name,
            "there is no such folder: make it first, and name the file to write in it",
        ));
    }
    let folder = folder_of(path);
    match fs::metadata(folder) {
        Ok(metadata) if metadata.is_dir() => Ok(Output::File {
            name,
            path: path.to_path_buf(),
            permissions: Mode::New(readers),
        }),
        Err(error) if error.kind() != ErrorKind::NotFound => Err(Failure::writing(&name, &error)),
        _ => Err(Failure::at(
            &name,
            &format!(
                "there is no folder {}: make it first, or name another",
                shown(folder.as_os_str())
            ),
        )),
    }
}

/// Checks that an output is none of the files that are kept.
fn see_that_it_is_none(name: &str, out: &Metadata, kept: &Kept) -> Result<(), Failure> {
    let out = identity(out);
    match kept.iter().find(|(file, _)| out.is_some() && *file == out) {
        Some((_, words)) => Err(Failure::at(name, words)),
        None => Ok(()),
    }
}

/// The folder that a file is in.
fn folder_of(path: &Path) -> &Path {
    match path.parent() {
        Some(folder) if !folder.as_os_str().is_empty() => folder,
        _ => Path::new("."),
    }
}

/// Writes a file under another name beside it, and gives it its name when all of it is on the disk.
fn replace(path: &Path, permissions: &Mode, stream: &[u8]) -> io::Result<()> {
    let folder = folder_of(path);
    let (mut file, part) = match permissions {
        Mode::New(readers) => Part::create(folder, *readers)?,
        // Until it has the permissions of the file that it replaces, nobody else reads it.
        Mode::Kept(permissions) => {
            let (file, part) = Part::create(folder, Readers::Owner)?;
            file.set_permissions(permissions.clone())?;
            (file, part)
        }
    };
    file.write_all(stream)?;
    file.sync_all()?;
    part.rename(path)?;
    // The name is kept over a power cut too, where the disk can promise it.
    if let Ok(folder) = File::open(folder) {
        let _ = folder.sync_all();
    }
    Ok(())
}

/// A file that is not whole yet. It is removed unless it gets its name, also when the command is
/// interrupted.
struct Part {
    path: PathBuf,
    named: bool,
}

impl Part {
    fn create(folder: &Path, readers: Readers) -> io::Result<(File, Part)> {
        let mut options = OpenOptions::new();
        options.write(true).create_new(true).mode(readers.mode());
        let mut count = 0;
        loop {
            let name = OsString::from(format!(".sheet-{}-{count}.part", process::id()));
            let path = folder.join(name);
            match options.open(&path) {
                Ok(file) => {
                    interrupt::remove_when_interrupted(&path);
                    return Ok((file, Part { path, named: false }));
                }
                Err(error) if error.kind() == ErrorKind::AlreadyExists && count < 100 => count += 1,
                Err(error) => return Err(error),
            }
        }
    }

    fn rename(mut self, path: &Path) -> io::Result<()> {
        fs::rename(&self.path, path)?;
        self.named = true;
        Ok(())
    }
}

impl Drop for Part {
    fn drop(&mut self) {
        if !self.named {
            let _ = fs::remove_file(&self.path);
        }
        interrupt::keep_when_interrupted();
    }
}
