//! Open: the plain stream of a locked workbook.

use core::fmt;

#[cfg(feature = "alloc")]
use alloc::{vec, vec::Vec};

use crate::ffi;
use crate::refusal::Refusal;
use crate::scrub::scrub;

/// The bytes of scratch that [`open`] and [`seal`](crate::seal()) need. A longer one is fine.
pub const SCRATCH_LEN: usize = 64;

/// The most bytes of a password.
pub const PASSWORD_MAX_LEN: usize = 1024;

/// The most bytes of a stream: 1 GiB.
pub const STREAM_MAX_LEN: usize = 1 << 30;

/// The lock of a workbook.
#[derive(Clone, Copy, Debug, PartialEq, Eq)]
pub enum Lock {
    /// XOR obfuscation.
    Xor,
    /// Office 97 RC4, version 1.1, whose keys have 40 bits.
    Office97,
    /// RC4 CryptoAPI, version 2.2, 3.2 or 4.2.
    CryptoApi,
}

impl fmt::Display for Lock {
    fn fmt(&self, f: &mut fmt::Formatter<'_>) -> fmt::Result {
        f.write_str(match self {
            Lock::Xor => "XOR",
            Lock::Office97 => "Office 97 RC4",
            Lock::CryptoApi => "RC4 CryptoAPI",
        })
    }
}

/// The report of a stream that was opened, or of one that was sealed and will be opened.
///
/// The records and the last three are what [`forecast`](crate::forecast()) gives beforehand.
#[derive(Clone, Copy, Debug, PartialEq, Eq)]
pub struct Report {
    /// How many records the stream has.
    pub records: usize,
    /// The lock.
    pub lock: Lock,
    /// The key size in bits: 40 for Office 97 RC4, none for XOR.
    pub key_bits: Option<u32>,
    /// Whether the document summary, which is not in this stream, is enciphered too.
    pub summary_sealed: bool,
    /// How many bytes of output an opening writes: the stream's length.
    pub output_bytes: usize,
    /// How many bytes of the records' bodies are enciphered: the lengths of the bodies less their
    /// clear parts.
    pub enciphered_body_bytes: usize,
    /// How many block keys an opening derives: none under XOR; under RC4 one for the check of the
    /// password, and one for each started 1,024 bytes of the stream.
    pub block_keys: usize,
}

/// Opens a locked workbook stream.
///
/// The password is UTF-8. The output has room for the stream, and on success
/// `output[..stream.len()]` is the plain stream, in which every record is where it was and padding,
/// one to three zero bytes after the last record, is unchanged; so is the rest of the output. On a
/// refusal the whole output is unchanged. The scratch has [`SCRATCH_LEN`] bytes or more. Its first
/// [`SCRATCH_LEN`] bytes end zero, except on refusals 1 to 5, which leave it unchanged; the rest is
/// unchanged, however long it is. `open_to_vec`, with the feature `alloc`, takes care of both.
///
/// What the call leaves of the password in registers and on the stack is overwritten before this
/// returns, for which the thread needs 16 KiB of stack. The caller's own copy stays: `Secret`, with
/// the feature `std`, is one that wipes itself.
///
/// ```
/// use sheet::{open, Lock, Refusal, SCRATCH_LEN};
///
/// # fn main() -> Result<(), Box<dyn std::error::Error>> {
/// let stream = std::fs::read("examples/calibres.bin")?;
/// let mut scratch = [0; SCRATCH_LEN];
/// let mut plain = vec![0; stream.len()];
///
/// let refusal = open(&stream, b"Hebungswinkel 52", &mut scratch, &mut plain).unwrap_err();
/// assert_eq!(refusal, Refusal::WrongPassword);
/// assert_eq!(refusal.number(), 27);
///
/// let password = "Hebungswinkel 50°".as_bytes();
/// let report = open(&stream, password, &mut scratch, &mut plain)?;
/// assert_eq!((report.lock, report.key_bits), (Lock::CryptoApi, Some(128)));
/// assert_eq!(report.records, 186);
/// assert_eq!(&plain[..4], [0x09, 0x08, 0x10, 0x00]);
/// # Ok(())
/// # }
/// ```
///
/// # Errors
///
/// A [`Refusal`], whose number and words say what is wrong and what to try.
pub fn open(
    stream: &[u8],
    password: &[u8],
    scratch: &mut [u8],
    output: &mut [u8],
) -> Result<Report, Refusal> {
    let mut facts = [0; 8];
    let number = call(stream, password, scratch, output, &mut facts);
    scrub();
    answer(number, facts)
}

/// Opens a locked workbook stream into a vector of its own.
///
/// As [`open`], with a scratch and an output that are made here.
///
/// ```
/// # fn main() -> Result<(), Box<dyn std::error::Error>> {
/// let stream = std::fs::read("examples/calibres.bin")?;
/// let (plain, report) = sheet::open_to_vec(&stream, "Hebungswinkel 50°".as_bytes())?;
/// assert_eq!(plain.len(), report.output_bytes);
/// # Ok(())
/// # }
/// ```
///
/// # Errors
///
/// A [`Refusal`]; 3 and 5 can't occur.
#[cfg(feature = "alloc")]
pub fn open_to_vec(stream: &[u8], password: &[u8]) -> Result<(Vec<u8>, Report), Refusal> {
    let mut scratch = [0; SCRATCH_LEN];
    let mut plain = room(stream);
    let report = open(stream, password, &mut scratch, &mut plain)?;
    Ok((plain, report))
}

/// An output for a stream. One that is too long is refused before its output is looked at.
#[cfg(feature = "alloc")]
pub fn room(stream: &[u8]) -> Vec<u8> {
    match stream.len() {
        len @ 0..=STREAM_MAX_LEN => vec![0; len],
        _ => Vec::new(),
    }
}

/// The report or the refusal of an opening or a sealing, from its number and facts.
pub fn answer(number: u32, facts: [u64; 8]) -> Result<Report, Refusal> {
    let [first, second, key_bits, sealed, output_bytes, enciphered, keys, _] = facts;
    if number != 0 {
        return Err(Refusal::from_number(number, [first, second]));
    }
    Ok(Report {
        // No more than the stream has bytes.
        records: first as usize,
        lock: match second {
            0 => Lock::Xor,
            1 => Lock::Office97,
            _ => Lock::CryptoApi,
        },
        // At most 128.
        key_bits: (key_bits != 0).then_some(key_bits as u32),
        summary_sealed: sealed == 1,
        // None of the three is more than the stream has bytes.
        output_bytes: output_bytes as usize,
        enciphered_body_bytes: enciphered as usize,
        block_keys: keys as usize,
    })
}

/// The call, in a function of its own so that its part of the stack begins where that of [`scrub`]
/// does.
#[inline(never)]
fn call(
    stream: &[u8],
    password: &[u8],
    scratch: &mut [u8],
    output: &mut [u8],
    facts: &mut [u64; 8],
) -> u32 {
    // SAFETY: a slice's pointer points to `len` bytes.
    // What is written is borrowed by `&mut`, so it overlaps nothing else here, and what is read by
    // `&`, so no other thread writes to it.
    unsafe {
        ffi::sheet_open(
            stream.as_ptr(),
            stream.len(),
            password.as_ptr(),
            password.len(),
            scratch.as_mut_ptr(),
            scratch.len(),
            output.as_mut_ptr(),
            output.len(),
            facts,
        )
    }
}
