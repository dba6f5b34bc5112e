//! Why a stream was refused.

use core::error::Error;
use core::fmt;

/// How many refusals there are: their numbers are 1 to this.
pub const REFUSALS: u32 = 32;

/// The id of the WriteProtect record.
const WRITE_PROTECT: u16 = 0x0086;

/// Why a stream was refused, with the details that the library gives: `enum sheet_refusal` of
/// `include/sheet.h`.
///
/// `Display` says what is wrong, where, and what to try:
///
/// ```
/// use sheet::Refusal;
///
/// let refusal = Refusal::BiffRecordUnreadable { offset: 3412 };
/// assert_eq!(refusal.number(), 6);
/// assert!(refusal.to_string().starts_with("refused, 6: a record can't be read: "));
/// assert!(refusal.to_string().contains(", at offset 3412; "));
/// ```
#[derive(Clone, Copy, Debug, PartialEq, Eq)]
#[non_exhaustive]
pub enum Refusal {
    /// 1: the password is longer than 1,024 bytes.
    PasswordTooLong,
    /// 2: the password is not well-formed UTF-8.
    PasswordMalformed,
    /// 3: the scratch is shorter than 64 bytes.
    ScratchShort,
    /// 4: the stream is longer than 1,073,741,824 bytes.
    StreamTooLarge,
    /// 5: the output is shorter than the stream.
    OutputShort,
    /// 6: a record can't be read: its header or its body is cut off, and what is left is not
    /// padding.
    BiffRecordUnreadable {
        /// The offset of its header.
        offset: usize,
    },
    /// 7: the stream does not start with a BOF record.
    WorkbookBofMissing,
    /// 8: there is no FILEPASS record, so the workbook is not locked.
    NotEncrypted,
    /// 9: a record that the format does not allow there comes before FILEPASS.
    FilepassOutOfOrder {
        /// Its id. 0086 is WriteProtect.
        id: u16,
    },
    /// 10: the FILEPASS record is cut off.
    FilepassTruncated {
        /// The bytes that are there.
        have: usize,
        /// The bytes that it needs.
        need: usize,
    },
    /// 11: the FILEPASS record names a lock that is not known.
    FilepassEncryptionType {
        /// Its type.
        got: u16,
    },
    /// 12: the lock's version is cut off.
    EncryptionVersionInfoTruncated {
        /// The bytes that are there, of 4.
        have: usize,
    },
    /// 13: the lock's version is not one that can be opened or sealed.
    UnsupportedEncryptionVersion {
        /// The major number.
        major: u16,
        /// The minor number.
        minor: u16,
    },
    /// 14: the Office 97 RC4 lock is cut off.
    Rc4Office97HeaderTruncated {
        /// The bytes that are there, of 52.
        have: usize,
    },
    /// 15: the CryptoAPI lock is cut off.
    EncryptionInfoTruncated {
        /// The bytes that are there, of 12.
        have: usize,
    },
    /// 16: the CryptoAPI lock's header does not have 32 to 1,024 bytes.
    EncryptionHeaderSizeOutOfRange {
        /// The size that it states.
        size: u32,
    },
    /// 17: the CryptoAPI lock's header is cut off.
    EncryptionHeaderSizeOutOfBounds {
        /// The size that it states.
        size: u32,
        /// The bytes of the lock.
        len: usize,
    },
    /// 18: the CryptoAPI lock uses an external provider (flag 10).
    FlagExternal {
        /// The flags.
        flags: u32,
    },
    /// 19: the CryptoAPI lock uses AES (flag 20), which no .xls workbook does.
    FlagAes {
        /// The flags.
        flags: u32,
    },
    /// 20: the CryptoAPI lock does not use CryptoAPI (flag 04).
    FlagCryptoApiClear {
        /// The flags.
        flags: u32,
    },
    /// 21: the CryptoAPI lock's cipher is not RC4.
    UnsupportedAlgId {
        /// AlgID.
        got: u32,
    },
    /// 22: the CryptoAPI lock's hash is not SHA-1.
    UnsupportedAlgIdHash {
        /// AlgIDHash.
        got: u32,
    },
    /// 23: the CryptoAPI lock's key size is not 40 to 128 bits in steps of 8, nor 0 in a book that
    /// is opened.
    EncryptionHeaderKeySize {
        /// The size in bits.
        bits: u32,
    },
    /// 24: the CryptoAPI lock's verifier is cut off.
    EncryptionVerifierTruncated {
        /// The bytes that are there, of 60.
        have: usize,
    },
    /// 25: the CryptoAPI lock's salt does not have 16 bytes.
    VerifierSaltSize {
        /// The size that it states.
        size: u32,
    },
    /// 26: the CryptoAPI lock's verifier hash does not have 20 bytes.
    VerifierHashSize {
        /// The size that it states.
        size: u32,
    },
    /// 27: the password is not correct.
    WrongPassword,
    /// 28: a sheet's entry does not name a sheet: the body of its BoundSheet8 record is shorter
    /// than 4 bytes, or the start in it is not the header of a BOF record.
    BoundSheetStart {
        /// The offset of the BoundSheet8 record's header.
        offset: usize,
    },
    /// 29: BOF and EOF records do not pair up.
    BofEofUnpaired {
        /// The offset of the header of an EOF record with no BOF open; or, if a BOF is left open at
        /// the end, the length of the stream, padding included.
        offset: usize,
    },
    /// 30: there is no zero record to put the lock in (id 0000, a body of zeros, and only records
    /// before it that are never enciphered), or a FILEPASS record comes before it.
    ZeroRecordMissing,
    /// 31: the length of the zero record's body does not fit the lock: it is 6 bytes for XOR, 54
    /// for Office 97 RC4, 106 to 1,098 for CryptoAPI.
    ZeroRecordLength {
        /// The length.
        len: u16,
    },
    /// 32: the password is not one that XOR takes: 1 to 15 characters, none above U+00FF.
    XorPasswordUnfit,
    /// A refusal that this version of the crate has no words for.
    Unknown {
        /// Its number.
        number: u32,
        /// Its two details.
        details: [u64; 2],
    },
}

impl Refusal {
    /// The refusal that the library reports by a number and two details.
    #[must_use]
    pub fn from_number(number: u32, details: [u64; 2]) -> Self {
        known(number, details).unwrap_or(Refusal::Unknown { number, details })
    }

    /// Every refusal that has words, in the order of the numbers, with details of 0.
    pub fn all() -> impl Iterator<Item = Refusal> {
        (1..=REFUSALS).map(|number| {
            // Four of them have a second detail that is always the same.
            let needed = match number {
                12 => 4,
                14 => 52,
                15 => 12,
                24 => 60,
                _ => 0,
            };
            Refusal::from_number(number, [0, needed])
        })
    }

    /// Its number: 1 to [`REFUSALS`], or that of an unknown one.
    #[must_use]
    pub fn number(&self) -> u32 {
        match *self {
            Refusal::PasswordTooLong => 1,
            Refusal::PasswordMalformed => 2,
            Refusal::ScratchShort => 3,
            Refusal::StreamTooLarge => 4,
            Refusal::OutputShort => 5,
            Refusal::BiffRecordUnreadable { .. } => 6,
            Refusal::WorkbookBofMissing => 7,
            Refusal::NotEncrypted => 8,
            Refusal::FilepassOutOfOrder { .. } => 9,
            Refusal::FilepassTruncated { .. } => 10,
            Refusal::FilepassEncryptionType { .. } => 11,
            Refusal::EncryptionVersionInfoTruncated { .. } => 12,
            Refusal::UnsupportedEncryptionVersion { .. } => 13,
            Refusal::Rc4Office97HeaderTruncated { .. } => 14,
            Refusal::EncryptionInfoTruncated { .. } => 15,
            Refusal::EncryptionHeaderSizeOutOfRange { .. } => 16,
            Refusal::EncryptionHeaderSizeOutOfBounds { .. } => 17,
            Refusal::FlagExternal { .. } => 18,
            Refusal::FlagAes { .. } => 19,
            Refusal::FlagCryptoApiClear { .. } => 20,
            Refusal::UnsupportedAlgId { .. } => 21,
            Refusal::UnsupportedAlgIdHash { .. } => 22,
            Refusal::EncryptionHeaderKeySize { .. } => 23,
            Refusal::EncryptionVerifierTruncated { .. } => 24,
            Refusal::VerifierSaltSize { .. } => 25,
            Refusal::VerifierHashSize { .. } => 26,
            Refusal::WrongPassword => 27,
            Refusal::BoundSheetStart { .. } => 28,
            Refusal::BofEofUnpaired { .. } => 29,
            Refusal::ZeroRecordMissing => 30,
            Refusal::ZeroRecordLength { .. } => 31,
            Refusal::XorPasswordUnfit => 32,
            Refusal::Unknown { number, .. } => number,
        }
    }

    /// Its two details, as the library gives them: 0 where none is named.
    #[must_use]
    pub fn details(&self) -> [u64; 2] {
        match *self {
            Refusal::BiffRecordUnreadable { offset } => [offset as u64, 0],
            Refusal::FilepassOutOfOrder { id } => [id as u64, 0],
            Refusal::FilepassTruncated { have, need } => [have as u64, need as u64],
            Refusal::FilepassEncryptionType { got } => [got as u64, 0],
            Refusal::EncryptionVersionInfoTruncated { have } => [have as u64, 4],
            Refusal::UnsupportedEncryptionVersion { major, minor } => [major as u64, minor as u64],
            Refusal::Rc4Office97HeaderTruncated { have } => [have as u64, 52],
            Refusal::EncryptionInfoTruncated { have } => [have as u64, 12],
            Refusal::EncryptionHeaderSizeOutOfRange { size } => [size as u64, 0],
            Refusal::EncryptionHeaderSizeOutOfBounds { size, len } => [size as u64, len as u64],
            Refusal::FlagExternal { flags } => [flags as u64, 0],
            Refusal::FlagAes { flags } => [flags as u64, 0],
            Refusal::FlagCryptoApiClear { flags } => [flags as u64, 0],
            Refusal::UnsupportedAlgId { got } => [got as u64, 0],
            Refusal::UnsupportedAlgIdHash { got } => [got as u64, 0],
            Refusal::EncryptionHeaderKeySize { bits } => [bits as u64, 0],
            Refusal::EncryptionVerifierTruncated { have } => [have as u64, 60],
            Refusal::VerifierSaltSize { size } => [size as u64, 0],
            Refusal::VerifierHashSize { size } => [size as u64, 0],
            Refusal::BoundSheetStart { offset } => [offset as u64, 0],
            Refusal::BofEofUnpaired { offset } => [offset as u64, 0],
            Refusal::ZeroRecordLength { len } => [len as u64, 0],
            Refusal::Unknown { details, .. } => details,
            Refusal::PasswordTooLong
            | Refusal::PasswordMalformed
            | Refusal::ScratchShort
            | Refusal::StreamTooLarge
            | Refusal::OutputShort
            | Refusal::WorkbookBofMissing
            | Refusal::NotEncrypted
            | Refusal::WrongPassword
            | Refusal::ZeroRecordMissing
            | Refusal::XorPasswordUnfit => [0, 0],
        }
    }

    /// Whether a WriteProtect record comes before FILEPASS: the book was also saved as "read-only
    /// recommended" or with a password to modify.
    #[must_use]
    pub fn is_write_protect(&self) -> bool {
        *self == Refusal::FilepassOutOfOrder { id: WRITE_PROTECT }
    }

    /// What is wrong, without the details.
    #[must_use]
    pub fn meaning(&self) -> &'static str {
        match self {
            Refusal::PasswordTooLong => "the password is longer than 1,024 bytes",
            Refusal::PasswordMalformed => "the password is not well-formed UTF-8",
            Refusal::ScratchShort => "the scratch is shorter than 64 bytes",
            Refusal::StreamTooLarge => "the stream is longer than 1,073,741,824 bytes",
            Refusal::OutputShort => "the output is shorter than the stream",
            Refusal::BiffRecordUnreadable { .. } => "a record can't be read: its header or its body is cut off, and what is left is not padding",
            Refusal::WorkbookBofMissing => "the stream does not start with a BOF record",
            Refusal::NotEncrypted => "there is no FILEPASS record, so the workbook is not locked",
            Refusal::FilepassOutOfOrder { .. } => "a record that the format does not allow there comes before FILEPASS",
            Refusal::FilepassTruncated { .. } => "the FILEPASS record is cut off",
            Refusal::FilepassEncryptionType { .. } => "the FILEPASS record names a lock that is not known",
            Refusal::EncryptionVersionInfoTruncated { .. } => "the lock's version is cut off",
            Refusal::UnsupportedEncryptionVersion { .. } => "the lock's version is not one that can be opened or sealed",
            Refusal::Rc4Office97HeaderTruncated { .. } => "the Office 97 RC4 lock is cut off",
            Refusal::EncryptionInfoTruncated { .. } => "the CryptoAPI lock is cut off",
            Refusal::EncryptionHeaderSizeOutOfRange { .. } => "the CryptoAPI lock's header does not have 32 to 1,024 bytes",
            Refusal::EncryptionHeaderSizeOutOfBounds { .. } => "the CryptoAPI lock's header is cut off",
            Refusal::FlagExternal { .. } => "the CryptoAPI lock uses an external provider (flag 10)",
            Refusal::FlagAes { .. } => "the CryptoAPI lock uses AES (flag 20), which no .xls workbook does",
            Refusal::FlagCryptoApiClear { .. } => "the CryptoAPI lock does not use CryptoAPI (flag 04)",
            Refusal::UnsupportedAlgId { .. } => "the CryptoAPI lock's cipher is not RC4",
            Refusal::UnsupportedAlgIdHash { .. } => "the CryptoAPI lock's hash is not SHA-1",
            Refusal::EncryptionHeaderKeySize { .. } => "the CryptoAPI lock's key size is not 40 to 128 bits in steps of 8, nor 0 in a book that is opened",
            Refusal::EncryptionVerifierTruncated { .. } => "the CryptoAPI lock's verifier is cut off",
            Refusal::VerifierSaltSize { .. } => "the CryptoAPI lock's salt does not have 16 bytes",
            Refusal::VerifierHashSize { .. } => "the CryptoAPI lock's verifier hash does not have 20 bytes",
            Refusal::WrongPassword => "the password is not correct",
            Refusal::BoundSheetStart { .. } => "a sheet's entry does not name a sheet: the body of its BoundSheet8 record is shorter than 4 bytes, or the start in it is not the header of a BOF record",
            Refusal::BofEofUnpaired { .. } => "BOF and EOF records do not pair up",
            Refusal::ZeroRecordMissing => "there is no zero record to put the lock in (id 0000, a body of zeros, and only records before it that are never enciphered), or a FILEPASS record comes before it",
            Refusal::ZeroRecordLength { .. } => "the length of the zero record's body does not fit the lock: it is 6 bytes for XOR, 54 for Office 97 RC4, 106 to 1,098 for CryptoAPI",
            Refusal::XorPasswordUnfit => "the password is not one that XOR takes: 1 to 15 characters, none above U+00FF",
            Refusal::Unknown { .. } => "a refusal that this version has no words for",
        }
    }

    /// What to try.
    #[must_use]
    pub fn advice(&self) -> &'static str {
        match self {
            Refusal::PasswordTooLong => {
                "check that the password file holds the password and nothing else"
            }
            Refusal::PasswordMalformed => {
                "save the password file as UTF-8, or set the terminal to UTF-8"
            }
            Refusal::ScratchShort => {
                "the calling program must provide a scratch of at least that many bytes"
            }
            Refusal::StreamTooLarge => {
                "no workbook is that large: check that this is the stream named Workbook"
            }
            Refusal::OutputShort => {
                "the calling program must provide an output at least as long as the stream"
            }
            Refusal::BiffRecordUnreadable { .. } => {
                "the stream is cut short or is not a workbook stream: take it out of the .xls file \
                 again, or get another copy"
            }
            Refusal::WorkbookBofMissing => {
                "this is not a workbook stream: take the stream named Workbook out of the .xls \
                 file (gsf cat book.xls Workbook > book.bin)"
            }
            Refusal::NotEncrypted => "there is nothing to open: use the stream as it is",
            Refusal::FilepassOutOfOrder { id: WRITE_PROTECT } => {
                "the book was also saved as \"read-only recommended\" or with a password to \
                 modify; other programs do open such books, and saving the book again without it \
                 helps"
            }
            Refusal::FilepassOutOfOrder { .. } => {
                "open the book in a spreadsheet program and save it again, or get another copy"
            }
            Refusal::FilepassEncryptionType { .. } => {
                "known are 0 (XOR) and 1 (RC4), so the stream is damaged, or the book was not saved \
                 as an Excel 97-2003 workbook: get another copy of the book"
            }
            Refusal::UnsupportedEncryptionVersion { .. } => {
                "1.1, 2.2, 3.2 and 4.2 can be opened: open the book in the program that locked it, \
                 and save it again as an Excel 97-2003 workbook; to seal, choose 2, 3 or 4 for the \
                 major number"
            }
            Refusal::FilepassTruncated { .. }
            | Refusal::EncryptionVersionInfoTruncated { .. }
            | Refusal::Rc4Office97HeaderTruncated { .. }
            | Refusal::EncryptionInfoTruncated { .. }
            | Refusal::EncryptionVerifierTruncated { .. } => {
                "the stream is damaged: get another copy of the book"
            }
            Refusal::EncryptionHeaderKeySize { .. } => {
                "the book was locked in a way that is not supported, or is damaged: open it in the \
                 program that locked it and save it again, or get another copy; to seal, choose 40 \
                 to 128, best 128"
            }
            Refusal::EncryptionHeaderSizeOutOfRange { .. }
            | Refusal::EncryptionHeaderSizeOutOfBounds { .. }
            | Refusal::FlagExternal { .. }
            | Refusal::FlagAes { .. }
            | Refusal::FlagCryptoApiClear { .. }
            | Refusal::UnsupportedAlgId { .. }
            | Refusal::UnsupportedAlgIdHash { .. }
            | Refusal::VerifierSaltSize { .. }
            | Refusal::VerifierHashSize { .. } => {
                "the book was locked in a way that is not supported, or is damaged: open it in the \
                 program that locked it and save it again, or get another copy"
            }
            Refusal::WrongPassword => {
                "check upper and lower case, the keyboard layout, accents and special characters; a \
                 book that opens without asking for a password has the fixed password \
                 VelvetSweatshop"
            }
            Refusal::BoundSheetStart { .. } | Refusal::BofEofUnpaired { .. } => {
                "the stream is damaged: open the book in a spreadsheet program and save it again, \
                 or get another copy"
            }
            Refusal::ZeroRecordMissing => {
                "if it is still locked, open it first; if it was opened here, seal that output; any \
                 other stream has no room for a lock: ask the maker of the sheet for one that has"
            }
            Refusal::ZeroRecordLength { .. } => {
                "choose a lock that fits, if there is one, or ask the maker of the sheet for one with \
                 room for the lock that you want"
            }
            Refusal::XorPasswordUnfit => "choose another password, or another lock",
            Refusal::Unknown { .. } => {
                "look the number up in the documentation of the library that was linked"
            }
        }
    }

    /// Writes the details in words, where there are any.
    fn write_details(&self, f: &mut fmt::Formatter<'_>) -> fmt::Result {
        let [first, second] = self.details();
        match *self {
            Refusal::BiffRecordUnreadable { offset } => write!(f, ", at offset {offset}"),
            Refusal::FilepassOutOfOrder { id: WRITE_PROTECT } => {
                f.write_str(": WriteProtect, id 0086")
            }
            Refusal::FilepassOutOfOrder { id } => write!(f, ": id {id:04x}"),
            Refusal::FilepassTruncated { .. }
            | Refusal::EncryptionVersionInfoTruncated { .. }
            | Refusal::Rc4Office97HeaderTruncated { .. }
            | Refusal::EncryptionInfoTruncated { .. }
            | Refusal::EncryptionVerifierTruncated { .. } => {
                write!(f, ": {first} of {second} bytes are there")
            }
            Refusal::FilepassEncryptionType { got } => write!(f, ": type {got}"),
            Refusal::UnsupportedEncryptionVersion { major, minor } => {
                write!(f, ": {major}.{minor}")
            }
            Refusal::EncryptionHeaderSizeOutOfBounds { size, len } => {
                write!(
                    f,
                    ": it states {size} bytes, from the 13th of a lock of {len}"
                )
            }
            Refusal::FlagExternal { flags }
            | Refusal::FlagAes { flags }
            | Refusal::FlagCryptoApiClear { flags } => write!(f, ": flags {flags:08x}"),
            Refusal::UnsupportedAlgId { got } => write!(f, ": AlgID {got:08x}"),
            Refusal::UnsupportedAlgIdHash { got } => write!(f, ": AlgIDHash {got:08x}"),
            Refusal::EncryptionHeaderSizeOutOfRange { size }
            | Refusal::VerifierSaltSize { size }
            | Refusal::VerifierHashSize { size } => write!(f, ": it states {size}"),
            Refusal::EncryptionHeaderKeySize { bits } => write!(f, ": it states {bits}"),
            Refusal::BoundSheetStart { offset } => write!(f, ": the record at offset {offset}"),
            Refusal::BofEofUnpaired { offset } => write!(
                f,
                ": at offset {offset}, where an EOF record has no BOF to close or, if that is the \
                 end of the stream, a BOF is left open"
            ),
            Refusal::ZeroRecordLength { len } => match lock_that_fits(len) {
                Some(lock) => write!(f, ": it has {len} bytes, which fit {lock} alone"),
                None => write!(f, ": it has {len} bytes, which fit no lock"),
            },
            Refusal::Unknown { .. } => write!(f, ": details {first} and {second}"),
            Refusal::PasswordTooLong
            | Refusal::PasswordMalformed
            | Refusal::ScratchShort
            | Refusal::StreamTooLarge
            | Refusal::OutputShort
            | Refusal::WorkbookBofMissing
            | Refusal::NotEncrypted
            | Refusal::WrongPassword
            | Refusal::ZeroRecordMissing
            | Refusal::XorPasswordUnfit => Ok(()),
        }
    }
}

/// The refusal of a number that has words, if the details are such as the library gives.
fn known(number: u32, details: [u64; 2]) -> Option<Refusal> {
    Some(match (number, details) {
        (1, [0, 0]) => Refusal::PasswordTooLong,
        (2, [0, 0]) => Refusal::PasswordMalformed,
        (3, [0, 0]) => Refusal::ScratchShort,
        (4, [0, 0]) => Refusal::StreamTooLarge,
        (5, [0, 0]) => Refusal::OutputShort,
        (6, [first, 0]) => Refusal::BiffRecordUnreadable {
            offset: first.try_into().ok()?,
        },
        (7, [0, 0]) => Refusal::WorkbookBofMissing,
        (8, [0, 0]) => Refusal::NotEncrypted,
        (9, [first, 0]) => Refusal::FilepassOutOfOrder {
            id: first.try_into().ok()?,
        },
        (10, [first, second]) => Refusal::FilepassTruncated {
            have: first.try_into().ok()?,
            need: second.try_into().ok()?,
        },
        (11, [first, 0]) => Refusal::FilepassEncryptionType {
            got: first.try_into().ok()?,
        },
        (12, [first, 4]) => Refusal::EncryptionVersionInfoTruncated {
            have: first.try_into().ok()?,
        },
        (13, [first, second]) => Refusal::UnsupportedEncryptionVersion {
            major: first.try_into().ok()?,
            minor: second.try_into().ok()?,
        },
        (14, [first, 52]) => Refusal::Rc4Office97HeaderTruncated {
            have: first.try_into().ok()?,
        },
        (15, [first, 12]) => Refusal::EncryptionInfoTruncated {
            have: first.try_into().ok()?,
        },
        (16, [first, 0]) => Refusal::EncryptionHeaderSizeOutOfRange {
            size: first.try_into().ok()?,
        },
        (17, [first, second]) => Refusal::EncryptionHeaderSizeOutOfBounds {
            size: first.try_into().ok()?,
            len: second.try_into().ok()?,
        },
        (18, [first, 0]) => Refusal::FlagExternal {
            flags: first.try_into().ok()?,
        },
        (19, [first, 0]) => Refusal::FlagAes {
            flags: first.try_into().ok()?,
        },
        (20, [first, 0]) => Refusal::FlagCryptoApiClear {
            flags: first.try_into().ok()?,
        },
        (21, [first, 0]) => Refusal::UnsupportedAlgId {
            got: first.try_into().ok()?,
        },
        (22, [first, 0]) => Refusal::UnsupportedAlgIdHash {
            got: first.try_into().ok()?,
        },
        (23, [first, 0]) => Refusal::EncryptionHeaderKeySize {
            bits: first.try_into().ok()?,
        },
        (24, [first, 60]) => Refusal::EncryptionVerifierTruncated {
            have: first.try_into().ok()?,
        },
        (25, [first, 0]) => Refusal::VerifierSaltSize {
            size: first.try_into().ok()?,
        },
        (26, [first, 0]) => Refusal::VerifierHashSize {
            size: first.try_into().ok()?,
        },
        (27, [0, 0]) => Refusal::WrongPassword,
        (28, [first, 0]) => Refusal::BoundSheetStart {
            offset: first.try_into().ok()?,
        },
        (29, [first, 0]) => Refusal::BofEofUnpaired {
            offset: first.try_into().ok()?,
        },
        (30, [0, 0]) => Refusal::ZeroRecordMissing,
        (31, [first, 0]) => Refusal::ZeroRecordLength {
            len: first.try_into().ok()?,
        },
        (32, [0, 0]) => Refusal::XorPasswordUnfit,
        _ => return None,
    })
}

/// The lock that a zero record's body of so many bytes fits, with its name on the command line.
fn lock_that_fits(len: u16) -> Option<&'static str> {
    match len {
        6 => Some("XOR (xor)"),
        54 => Some("Office 97 RC4 (office97)"),
        106..=1098 => Some("RC4 CryptoAPI (cryptoapi)"),
        _ => None,
    }
}

impl fmt::Display for Refusal {
    fn fmt(&self, f: &mut fmt::Formatter<'_>) -> fmt::Result {
        write!(f, "refused, {}: {}", self.number(), self.meaning())?;
        self.write_details(f)?;
        write!(f, "; {}", self.advice())
    }
}

impl Error for Refusal {}
