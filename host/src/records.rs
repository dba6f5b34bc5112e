//! The records of a stream.

use core::error::Error;
use core::fmt;
use core::iter::FusedIterator;
use core::ops::Range;

use crate::ffi;

/// The bytes of a record's header: id and length, two bytes each.
const HEADER_LEN: usize = 4;

/// A record of a stream.
#[derive(Clone, Copy, Debug, PartialEq, Eq)]
pub struct Record {
    /// The offset of its header in the stream.
    pub at: usize,
    /// Its id.
    pub id: u16,
    /// The length of its body.
    pub len: usize,
    /// How many of the body's first bytes are not enciphered in a locked workbook.
    pub clear: usize,
}

impl Record {
    /// Where its body is in the stream.
    #[must_use]
    pub fn body(&self) -> Range<usize> {
        let start = self.at + HEADER_LEN;
        start..start + self.len
    }
}

/// A header or a body that is cut off, where padding is not all that is left: the records of a
/// stream end here.
#[derive(Clone, Copy, Debug, PartialEq, Eq)]
pub struct Fault {
    /// The offset of the header.
    pub at: usize,
}

impl fmt::Display for Fault {
    fn fmt(&self, f: &mut fmt::Formatter<'_>) -> fmt::Result {
        write!(
            f,
            "the record at offset {} can't be read: its header or its body is cut off",
            self.at
        )
    }
}

impl Error for Fault {}

/// The records of a stream in order, ended by the first [`Fault`] if there is one. Nothing comes for
/// padding, one to three zero bytes after the last record. Made by [`records`].
#[derive(Clone, Debug)]
#[must_use = "nothing is read before the first record is asked for"]
pub struct Records<'a> {
    stream: &'a [u8],
    at: usize,
    faulty: bool,
}

/// Lists the records of a stream.
///
/// ```
/// # fn main() -> std::io::Result<()> {
/// let stream = std::fs::read("examples/calibres.bin")?;
/// let locked = sheet::records(&stream)
///     .filter_map(Result::ok)
///     .find(|record| record.id == 0x002F)
///     .expect("a FILEPASS record");
/// assert_eq!((locked.at, locked.len), (20, 122));
///
/// // An EOF record of no bytes, and padding.
/// assert_eq!(sheet::records(&[0x0A, 0, 0, 0, 0, 0, 0]).count(), 1);
/// # Ok(())
/// # }
/// ```
pub fn records(stream: &[u8]) -> Records<'_> {
    Records {
        stream,
        at: 0,
        faulty: false,
    }
}

impl Iterator for Records<'_> {
    type Item = Result<Record, Fault>;

    fn next(&mut self) -> Option<Self::Item> {
        if self.faulty {
            return None;
        }
        let mut facts = [0; 8];
        // SAFETY: a slice's pointer points to `len` bytes; `facts` is a local of eight numbers, which
        // overlaps nothing. Any offset may be asked for.
        let answer = unsafe {
            ffi::sheet_record(self.stream.as_ptr(), self.stream.len(), self.at, &mut facts)
        };
        let [first, len, clear, ..] = facts;
        match answer {
            1 => {
                let record = Record {
                    at: self.at,
                    // Read from two bytes, as the lengths are.
                    id: first as u16,
                    len: len as usize,
                    clear: clear as usize,
                };
                self.at = record.body().end;
                Some(Ok(record))
            }
            2 => {
                self.faulty = true;
                Some(Err(Fault { at: first as usize }))
            }
            _ => None,
        }
    }
}

impl FusedIterator for Records<'_> {}
