//! Seal: a plain workbook stream put under a password.

use core::fmt;

#[cfg(feature = "alloc")]
use alloc::vec::Vec;

use crate::ffi;
use crate::open::{answer, Report};
#[cfg(feature = "alloc")]
use crate::open::{room, SCRATCH_LEN};
use crate::refusal::Refusal;
use crate::scrub::scrub;

/// The lock that a stream is sealed under, with what it takes beside the password.
///
/// Salt and verifier must be fresh for each sealing, from a random source that nobody can predict:
/// never fixed, counted, or taken from another sheet. The salt is in the sealed stream as it is; the
/// verifier is given plain, and is enciphered. The same password and salt give the same keystream:
/// the exclusive-or of two sheets that are sealed so is that of their plain streams, from which most
/// of both can be worked out. Anyone who knows the verifier knows the first bytes of block 0's
/// keystream; it is not printed by `Debug`.
#[derive(Clone, Copy, PartialEq, Eq)]
pub enum Choice {
    /// XOR obfuscation, in a zero record of 6 bytes. It does not protect a sheet from anyone who
    /// tries.
    Xor,
    /// Office 97 RC4, version 1.1, in a zero record of 54 bytes. Its keys have 40 bits, which can be
    /// tried one by one, whatever the password is.
    Office97 {
        /// Fresh for each sealing.
        salt: [u8; 16],
        /// Fresh for each sealing, and plain.
        verifier: [u8; 16],
    },
    /// RC4 CryptoAPI, in a zero record of 106 to 1,098 bytes. The lock says that the document
    /// summary, which is not in this stream, is not enciphered: where [`open`](crate::open())
    /// reported otherwise for the book, the summary still is, under the old password.
    CryptoApi {
        /// Fresh for each sealing.
        salt: [u8; 16],
        /// Fresh for each sealing, and plain.
        verifier: [u8; 16],
        /// The version's major number: 2, 3 or 4. Its minor number is 2.
        major: u16,
        /// The key size in bits: 40 to 128 in steps of 8, of which 128 is the strongest. 40 can be
        /// tried one by one.
        key_bits: u32,
    },
}

impl fmt::Debug for Choice {
    fn fmt(&self, f: &mut fmt::Formatter<'_>) -> fmt::Result {
        match self {
            Choice::Xor => f.write_str("Xor"),
            Choice::Office97 { .. } => f.write_str("Office97 { .. }"),
            Choice::CryptoApi {
                major, key_bits, ..
            } => write!(
                f,
                "CryptoApi {{ major: {major}, key_bits: {key_bits}, .. }}"
            ),
        }
    }
}

/// Seals a plain workbook stream under a password.
///
/// The lock goes into a zero record: the first record whose id is not one of the seven that are
/// never enciphered. Its id is 0 and its body all zero, and no FILEPASS comes before it. A stream that
/// [`open`](crate::open()) wrote has one, where its FILEPASS was. `open` with the same password gives
/// the plain stream again, bit for bit, and the [`Report`] is the one that it will give then.
///
/// The password is UTF-8. The output has room for the stream, and on success
/// `output[..plain.len()]` is the sealed stream; the rest of the output is unchanged. On a refusal the
/// whole output is unchanged. The scratch has [`SCRATCH_LEN`](crate::SCRATCH_LEN) bytes or more; its
/// first [`SCRATCH_LEN`](crate::SCRATCH_LEN) bytes end zero, except on refusals 1 to 5, which leave it
/// unchanged; the rest is unchanged, however long it is. `seal_to_vec`, with the feature `alloc`,
/// takes care of both.
///
/// What the call leaves of the password in registers and on the stack is overwritten before this
/// returns, as [`open`](crate::open()) does it.
///
/// ```
/// use std::io::Read;
///
/// use sheet::{open, seal, Choice, SCRATCH_LEN};
///
/// # fn main() -> Result<(), Box<dyn std::error::Error>> {
/// let stream = std::fs::read("examples/calibres.bin")?;
/// let password = "Hebungswinkel 50°".as_bytes();
/// let mut scratch = [0; SCRATCH_LEN];
/// let mut plain = vec![0; stream.len()];
/// open(&stream, password, &mut scratch, &mut plain)?;
///
/// let mut random = std::fs::File::open("/dev/urandom")?;
/// let (mut salt, mut verifier) = ([0; 16], [0; 16]);
/// random.read_exact(&mut salt)?;
/// random.read_exact(&mut verifier)?;
/// let choice = Choice::CryptoApi { salt, verifier, major: 4, key_bits: 128 };
///
/// let mut sealed = vec![0; plain.len()];
/// let expected = seal(&plain, b"Unruh 28800", &choice, &mut scratch, &mut sealed)?;
///
/// let mut again = vec![0; sealed.len()];
/// let report = open(&sealed, b"Unruh 28800", &mut scratch, &mut again)?;
/// assert!(again == plain);
/// assert_eq!(report, expected);
/// # Ok(())
/// # }
/// ```
///
/// # Errors
///
/// A [`Refusal`], for the first of these that applies: 1 to 7; 13 and 23, of CryptoAPI's major number
/// and key size; 30, 31, and 32, of an XOR password.
pub fn seal(
    plain: &[u8],
    password: &[u8],
    choice: &Choice,
    scratch: &mut [u8],
    output: &mut [u8],
) -> Result<Report, Refusal> {
    let mut facts = [0; 8];
    let number = call(plain, password, choice, scratch, output, &mut facts);
    scrub();
    answer(number, facts)
}

/// Seals a plain workbook stream into a vector of its own.
///
/// As [`seal`], with a scratch and an output that are made here. Opened and sealed again under
/// another password:
///
/// ```
/// use std::io::Read;
///
/// # fn main() -> Result<(), Box<dyn std::error::Error>> {
/// let stream = std::fs::read("examples/calibres.bin")?;
/// let (plain, _) = sheet::open_to_vec(&stream, "Hebungswinkel 50°".as_bytes())?;
///
/// let mut random = std::fs::File::open("/dev/urandom")?;
/// let (mut salt, mut verifier) = ([0; 16], [0; 16]);
/// random.read_exact(&mut salt)?;
/// random.read_exact(&mut verifier)?;
/// let choice = sheet::Choice::CryptoApi { salt, verifier, major: 4, key_bits: 128 };
/// let (sealed, _) = sheet::seal_to_vec(&plain, b"Unruh 28800", &choice)?;
/// assert_eq!(sheet::open_to_vec(&sealed, b"Unruh 28800")?.0, plain);
/// # Ok(())
/// # }
/// ```
///
/// # Errors
///
/// A [`Refusal`]; 3 and 5 can't occur.
#[cfg(feature = "alloc")]
pub fn seal_to_vec(
    plain: &[u8],
    password: &[u8],
    choice: &Choice,
) -> Result<(Vec<u8>, Report), Refusal> {
    let mut scratch = [0; SCRATCH_LEN];
    let mut sealed = room(plain);
    let report = seal(plain, password, choice, &mut scratch, &mut sealed)?;
    Ok((sealed, report))
}

/// The call, in a function of its own so that its part of the stack begins where that of [`scrub`]
/// does.
#[inline(never)]
fn call(
    plain: &[u8],
    password: &[u8],
    choice: &Choice,
    scratch: &mut [u8],
    output: &mut [u8],
    facts: &mut [u64; 8],
) -> u32 {
    // SAFETY: a slice's pointer is not null, also where it is empty, and points to `len` bytes, as
    // those of salt and verifier do to 16. What is written is borrowed by `&mut`, so it overlaps
    // nothing else here, and what is read by `&`, so no other thread writes to it.
    unsafe {
        match choice {
            Choice::Xor => ffi::sheet_seal_xor(
                plain.as_ptr(),
                plain.len(),
                password.as_ptr(),
                password.len(),
                scratch.as_mut_ptr(),
                scratch.len(),
                output.as_mut_ptr(),
                output.len(),
                facts,
            ),
            Choice::Office97 { salt, verifier } => ffi::sheet_seal_office97(
                plain.as_ptr(),
                plain.len(),
                password.as_ptr(),
                password.len(),
                salt,
                verifier,
                scratch.as_mut_ptr(),
                scratch.len(),
                output.as_mut_ptr(),
                output.len(),
                facts,
            ),
            Choice::CryptoApi {
                salt,
                verifier,
                major,
                key_bits,
            } => ffi::sheet_seal_cryptoapi(
                plain.as_ptr(),
                plain.len(),
                password.as_ptr(),
                password.len(),
                salt,
                verifier,
                *major,
                *key_bits,
                scratch.as_mut_ptr(),
                scratch.len(),
                output.as_mut_ptr(),
                output.len(),
                facts,
            ),
        }
    }
}
