//! Look: whether a workbook is locked, and how; and whether two have the same lock.

use crate::ffi;
use crate::open::Lock;

/// What a look at a stream shows.
#[derive(Clone, Copy, Debug, PartialEq, Eq)]
#[must_use]
pub enum Verdict {
    /// Not a workbook stream, or cut off before it shows.
    Unknown,
    /// No FILEPASS record was found before the first record that can be enciphered. This does not
    /// mean that the stream is plain: [`look`] says why.
    No,
    /// The workbook is locked.
    Yes(Facts),
}

/// What a locked workbook shows of its lock without a password.
#[derive(Clone, Copy, Debug, PartialEq, Eq)]
pub struct Facts {
    /// The lock, where the FILEPASS record says XOR or its version is that of a lock that
    /// [`open`](crate::open()) knows. Its type is not looked at beyond that, so that `open` may still
    /// refuse it.
    pub lock: Option<Lock>,
    /// The lock's version, major and minor, where it is there. XOR has none.
    pub version: Option<(u16, u16)>,
    /// The key size in bits, of an RC4 CryptoAPI lock alone: what it states from 1 to 4,096, and 40
    /// where it states 0, as [`open`](crate::open()) takes it. Where such a lock opens it is that of
    /// the [`Report`](crate::Report), if its four bytes are among those that are read.
    pub key_bits: Option<u32>,
}

/// Looks whether a workbook is locked, by its first 1,048,576 bytes at most.
///
/// **[`Verdict::No`] does not mean that the stream is plain.** A book that was saved with a password
/// and also as "read-only recommended" or with a password to modify has a WriteProtect record (0086)
/// before FILEPASS. It is locked, its figures are enciphered, and the verdict is `No`. Before figures
/// are read from a stream as plain ones, ask [`forecast`](crate::forecast()):
/// [`NotEncrypted`](crate::Refusal::NotEncrypted) means that the stream is in order and has no FILEPASS
/// record anywhere, and [`FilepassOutOfOrder`](crate::Refusal::FilepassOutOfOrder) that it is such a
/// book.
///
/// ```
/// use sheet::{forecast, look, Lock, Refusal, Verdict};
///
/// assert_eq!(look(b"no workbook"), Verdict::Unknown);
/// // BOF, then a record that would be enciphered if the book were locked.
/// assert_eq!(look(&[0x09, 0x08, 0, 0, 0x42, 0, 0, 0]), Verdict::No);
/// // BOF, then FILEPASS with an XOR lock.
/// let xor = [0x09, 0x08, 0, 0, 0x2F, 0, 6, 0, 0, 0, 0x15, 0xB9, 0xC8, 0xCE];
/// assert!(matches!(look(&xor), Verdict::Yes(facts) if facts.lock == Some(Lock::Xor)));
/// // The same with WriteProtect before FILEPASS: locked, and not found to be.
/// let protected = [&xor[..4], &[0x86, 0, 0, 0], &xor[4..]].concat();
/// assert_eq!(look(&protected), Verdict::No);
/// assert_eq!(forecast(&protected), Err(Refusal::FilepassOutOfOrder { id: 0x0086 }));
/// ```
pub fn look(stream: &[u8]) -> Verdict {
    let mut facts = [0; 8];
    // SAFETY: a slice's pointer points to `len` bytes; `facts` is a local of eight numbers, which
    // overlaps nothing.
    let answer = unsafe { ffi::sheet_look(stream.as_ptr(), stream.len(), &mut facts) };
    let [xor, there, major, minor, bits, ..] = facts;
    match answer {
        2 => {
            // Both numbers are read from two bytes.
            let version = (there == 1).then_some((major as u16, minor as u16));
            Verdict::Yes(Facts {
                lock: match (xor, version) {
                    (1, _) => Some(Lock::Xor),
                    (_, Some((1, 1))) => Some(Lock::Office97),
                    (_, Some((2..=4, 2))) => Some(Lock::CryptoApi),
                    _ => None,
                },
                version,
                // 1 to 4,096.
                key_bits: (bits != 0).then_some(bits as u32),
            })
        }
        1 => Verdict::No,
        _ => Verdict::Unknown,
    }
}

/// Whether two workbooks have the same lock, by the first 1,048,576 bytes of each at most: [`look`] says
/// [`Verdict::Yes`] of both, and the bodies of their FILEPASS records are equal, byte for byte. Of a
/// body, all its bytes count that are there within those first bytes, whatever length its header
/// states. Where the bodies are equal, so are the [`Facts`]. Locks whose salts differ within those
/// bytes are different, and so are those that state key sizes of 0 and of 40 there.
///
/// ```
/// // BOF, then FILEPASS with an XOR lock.
/// let xor = [0x09, 0x08, 0, 0, 0x2F, 0, 6, 0, 0, 0, 0x15, 0xB9, 0xC8, 0xCE];
/// assert!(sheet::same_lock(&xor, &xor));
/// assert!(!sheet::same_lock(&xor, b"no workbook"));
/// // The lock alone counts, wherever it is and whatever comes after it.
/// let other = [&xor[..4], &[0xE1, 0, 1, 0, 7], &xor[4..], &[0x42, 0, 0, 0]].concat();
/// assert!(sheet::same_lock(&xor, &other));
/// // Another byte in the lock.
/// let mut other = xor;
/// other[13] ^= 1;
/// assert!(!sheet::same_lock(&xor, &other));
/// // What is there of a body counts, and not the length that is stated.
/// let mut longer = xor;
/// longer[6] = 7;
/// assert!(sheet::same_lock(&xor, &longer));
/// ```
///
/// # Offering the last password again
///
/// The password that opened one workbook is the one to offer for the next that has the same lock. Two
/// streams with the same lock are proved to take the same passwords: if
/// [`forecast`](crate::forecast()) refuses neither, and enough scratch and output is lent,
/// [`open`](crate::open()) with any one password of UTF-8, of at most 1,024 bytes, opens both or refuses
/// both by [`WrongPassword`](crate::Refusal::WrongPassword).
///
/// ```
/// # fn main() -> std::io::Result<()> {
/// let last = std::fs::read("examples/calibres.bin")?;
/// let password = "Hebungswinkel 50°".as_bytes();
/// assert!(sheet::open_to_vec(&last, password).is_ok());
///
/// // The same workbook without its last record.
/// let next = &last[..3431];
/// assert!(sheet::same_lock(&last, next));
/// assert!(sheet::forecast(next).is_ok());
/// assert!(sheet::open_to_vec(next, password).is_ok());
/// # Ok(())
/// # }
/// ```
///
/// This holds if the FILEPASS body of at least one of the two ends within its first 1,048,576 bytes.
/// Where both go on after that, the bytes that follow are not compared, and the passwords may differ.
///
/// `false` says nothing about the passwords: except under XOR, workbooks that were locked with the
/// same password usually have different salts, and so different locks.
#[must_use]
pub fn same_lock(a: &[u8], b: &[u8]) -> bool {
    // SAFETY: a slice's pointer points to `len` bytes; nothing is written.
    unsafe { ffi::sheet_same_lock(a.as_ptr(), a.len(), b.as_ptr(), b.len()) }
}
