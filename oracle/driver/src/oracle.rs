//! The oracle: the Rust source's answers, in document 01's numbers.

use crate::lock::cryptoapi_keys;
use crate::paper::{self, u16_at, u32_at};
use rc4::StreamCipher;
use reference::file_params::{AlgorithmName, AllowedSet, FileField, FileProblem};
use reference::{Container, Error};
use std::panic::{catch_unwind, AssertUnwindSafe};

const WORKBOOK: &str = "/Workbook";
const SUMMARY: &str = "/encryption";

/// What Open comes to: a number with its two details, or 0 with the report and the plain stream.
#[derive(Clone, PartialEq, Eq)]
pub struct Answer {
    pub number: u32,
    pub facts: [u64; 7],
    pub plain: Vec<u8>,
}

impl Answer {
    pub fn refusal(number: u32, details: [u64; 2]) -> Self {
        Self { number, facts: [details[0], details[1], 0, 0, 0, 0, 0], plain: Vec::new() }
    }
}

/// A sound container for a stream: the stream, and a summary stream that this password opens if the lock seals one.
pub fn container(stream: &[u8], password: &str) -> Vec<u8> {
    let summary = sealed_summary(stream, password).unwrap_or_default();
    cfb::file_of(&[(WORKBOOK, stream), (SUMMARY, &summary)])
}

/// Look, as the Rust has it: 0 unknown, 1 no, 2 yes, and five facts: XOR mark, whether the version is there, major, minor, key size.
pub fn look(container: &[u8]) -> Result<(u32, [u64; 5]), String> {
    let verdict = guarded(|| reference::look(container))?.ok_or("no verdict")?;
    let number = match verdict.encrypted {
        None => 0,
        Some(false) => 1,
        Some(true) => 2,
    };
    let (major, minor) = verdict.version.unwrap_or((0, 0));
    let there = verdict.version.is_some();
    let key_bits = verdict.key_bits.unwrap_or(0);
    Ok((number, [verdict.xor_obfuscated.into(), there.into(), major.into(), minor.into(), key_bits.into()]))
}

/// Whether the facts agree that Same lock compared before T-08: both verdicts are yes, with the same XOR mark, version and key size.
pub fn same_facts(a: &Looked, b: &Looked) -> bool {
    a.verdict.0 == 2 && a.verdict == b.verdict
}

/// Same lock, in the words of document 02 (T-08): these facts agree, which are the Rust's, and the FILEPASS bodies are equal byte for byte.
pub fn same_lock(a: &Looked, b: &Looked) -> bool {
    same_facts(a, b) && paper::seen_body(a.stream) == paper::seen_body(b.stream)
}

/// A stream, and what Look says of it.
#[derive(Clone, Copy)]
pub struct Looked<'a> {
    pub stream: &'a [u8],
    pub verdict: (u32, [u64; 5]),
}

impl<'a> Looked<'a> {
    /// What Look must say of a stream in this container: what the Rust says, with the standard's key size where that decides. And whether it decides.
    pub fn at(stream: &'a [u8], container: &[u8]) -> Result<(Self, bool), String> {
        let mut verdict = look(container)?;
        let instead = paper::instead(stream, verdict);
        if let Some(key_size) = instead {
            verdict.1[4] = key_size;
        }
        Ok((Self { stream, verdict }, instead.is_some()))
    }
}

/// A container for a stream that is only looked at.
pub fn bare_container(stream: &[u8]) -> Vec<u8> {
    cfb::file_of(&[(WORKBOOK, stream)])
}

/// Open, of the container of a stream. An error that is none of document 01's, and a panic, are given as text.
pub fn open(container: &[u8], stream: &[u8], password: &str) -> Result<Answer, String> {
    let mut container = Container::open(container).map_err(|error| format!("{error:?}"))?;
    let result = guarded(|| container.decrypt(password))?;
    answer(result, container, stream)
}

/// What the port's Open must come to. Of a stream without padding that is the Rust's answer. Of a padded one it is the Rust's answer to the stream
/// without its padding, changed by document 02's words (T-05), and the Rust's own must be 6 at the padding's offset: it asks that before all else.
pub fn judged(container: &[u8], stream: &[u8], password: &str) -> Result<Answer, String> {
    let own = open(container, stream, password)?;
    let padding = paper::padding(stream);
    if padding == 0 {
        return Ok(own);
    }
    let records = &stream[..stream.len() - padding];
    unreadable_at(&own, records.len())?;
    padded(open(&self::container(records, password), records, password)?, stream)
}

/// Whether the Rust's own answer to a padded stream is 6 at this offset.
pub fn unreadable_at(own: &Answer, offset: usize) -> Result<(), String> {
    if *own == Answer::refusal(6, [offset as u64, 0]) {
        Ok(())
    } else {
        Err(format!("{} {:?} for a stream that is padded at {offset}", own.number, own.facts))
    }
}

/// The answer to a stream with padding, from the one without: a refusal is the same, with the same details; a report has the output bytes and block
/// keys of the whole stream, and the plain stream ends in the padding.
pub fn padded(mut answer: Answer, stream: &[u8]) -> Result<Answer, String> {
    if answer.number == 0 {
        let [bytes, _, _, keys] = paper::counts(stream).ok_or("opened, but no lock is stated")?;
        (answer.facts[4], answer.facts[6]) = (bytes, keys);
        answer.plain.extend(&stream[stream.len() - paper::padding(stream)..]);
    }
    Ok(answer)
}

/// What decrypting the container of a stream came to.
pub fn answer(result: Result<(), Error>, mut container: Container, stream: &[u8]) -> Result<Answer, String> {
    if let Err(error) = result {
        let (number, details) = number_of(&error, stream).ok_or_else(|| format!("{error:?}, which has no number"))?;
        return Ok(Answer::refusal(number, details));
    }
    let plain = container.read(WORKBOOK).map_err(|error| format!("{error:?}"))?;
    let [count, lock, key_bits] = paper::report(stream).ok_or("opened, but no lock is stated")?;
    let [bytes, _, enciphered, keys] = paper::counts(stream).ok_or("opened, but no lock is stated")?;
    let sealed = !container.exists(SUMMARY);
    Ok(Answer { number: 0, facts: [count, lock, key_bits, sealed.into(), bytes, enciphered, keys], plain })
}

fn guarded<T>(call: impl FnOnce() -> T) -> Result<T, String> {
    catch_unwind(AssertUnwindSafe(call)).map_err(|_| "a panic".to_string())
}

/// Document 01's number and details for an error of the Rust's. None for an error that document 01 does not have.
fn number_of(error: &Error, stream: &[u8]) -> Option<(u32, [u64; 2])> {
    use FileField as Field;
    use FileProblem as Problem;
    let flags = || paper::flags(stream).map(u64::from);
    Some(match *error {
        Error::BadParameters { field, problem } => match (field, problem) {
            (Field::BiffRecord, Problem::Unreadable { offset }) => (6, [offset, 0]),
            (Field::WorkbookBof, Problem::Missing) => (7, [0, 0]),
            (Field::Filepass, Problem::OutOfOrder { after_record }) => (9, [after_record.into(), 0]),
            (Field::Filepass, Problem::Truncated { have, need }) => (10, [have, need]),
            (Field::FilepassEncryptionType, Problem::NotInSet { got, allowed: AllowedSet::XorOrRc4, .. }) => (11, [got, 0]),
            (Field::EncryptionVersionInfo, Problem::Truncated { have, need }) => (12, [have, need]),
            (Field::Rc4Office97Header, Problem::Truncated { have, need }) => (14, [have, need]),
            (Field::EncryptionInfo, Problem::Truncated { have, need }) => (15, [have, need]),
            (Field::EncryptionHeaderSize, Problem::OutOfRange { got, min: 32, max: 1024, .. }) => (16, [got, 0]),
            (Field::EncryptionHeaderSize, Problem::OutOfBounds { offset: 12, len, end }) => (17, [len, end]),
            (Field::EncryptionHeaderFlags, Problem::FlagClear) => (20, [flags()?, 0]),
            (Field::EncryptionHeaderKeySize, Problem::NotInSet { got, allowed: AllowedSet::Rc4KeyBits, .. }) => (23, [got, 0]),
            (Field::EncryptionVerifier, Problem::Truncated { have, need }) => (24, [have, need]),
            (Field::VerifierSaltSize, Problem::NotRequiredValue { got, required: 16, .. }) => (25, [got, 0]),
            (Field::VerifierHashSize, Problem::NotRequiredValue { got, required: 20, .. }) => (26, [got, 0]),
            _ => return None,
        },
        Error::NotEncrypted => (8, [0, 0]),
        Error::UnsupportedEncryptionVersion(major, minor) => (13, [major.into(), minor.into()]),
        Error::UnsupportedAlgorithm { what, name } => match (what, name) {
            ("EncryptionHeader.Flags", AlgorithmName::Fixed(text)) if text.starts_with("fExternal") => (18, [flags()?, 0]),
            ("EncryptionHeader.Flags", AlgorithmName::Fixed(text)) if text.starts_with("fAES") => (19, [flags()?, 0]),
            ("EncryptionHeader.AlgID", AlgorithmName::AlgId(id)) => (21, [id.into(), 0]),
            ("EncryptionHeader.AlgIDHash", AlgorithmName::AlgId(id)) => (22, [id.into(), 0]),
            _ => return None,
        },
        Error::WrongPassword => (27, [0, 0]),
        Error::NotACfbFile
        | Error::MissingStream(_)
        | Error::StreamTooLarge(_)
        | Error::Io(_)
        | Error::UnsupportedEncryptedContent(_)
        | Error::InvariantViolated(_) => return None,
    })
}

/// The summary stream of MS-OFFCRYPTO 2.3.5.4, as Excel writes it: its prefix, two property sets under blocks 0 and 1, and their
/// descriptors. Made with the password's own keys, where the first FILEPASS is a CryptoAPI lock with flag 08 clear.
fn sealed_summary(stream: &[u8], password: &str) -> Option<Vec<u8>> {
    const SETS: [(&str, &[u8]); 2] = [("\u{5}SummaryInformation", b"summary"), ("\u{5}DocumentSummaryInformation", b"document")];
    let structure = paper::filepass(stream)?.get(2..)?;
    let version = (u16_at(structure, 0)?, u16_at(structure, 2)?);
    let (header_size, flags, key_size) = (u32_at(structure, 8)?, u32_at(structure, 12)?, u32_at(structure, 28)?);
    if !matches!(version, (2..=4, 2)) || flags & 8 != 0 || !(key_size == 0 || (40..=128).contains(&key_size)) {
        return None;
    }
    let salt_at = usize::try_from(header_size).ok()?.checked_add(16)?;
    let keys = cryptoapi_keys(password, structure.get(salt_at..)?.get(..16)?, key_size);
    let under = |block: u32, mut bytes: Vec<u8>| {
        keys.keystream(block).apply_keystream(&mut bytes);
        bytes
    };
    let (mut sealed, mut array) = (Vec::new(), (SETS.len() as u32).to_le_bytes().to_vec());
    for (block, (name, data)) in SETS.iter().enumerate() {
        array.extend((8 + sealed.len() as u32).to_le_bytes());
        array.extend((data.len() as u32).to_le_bytes());
        array.extend([block as u8, 0, name.len() as u8, 1, 0, 0, 0, 0]);
        array.extend(name.encode_utf16().chain([0]).flat_map(u16::to_le_bytes));
        sealed.extend(under(block as u32, data.to_vec()));
    }
    let prefix = [8 + sealed.len() as u32, array.len() as u32].map(u32::to_le_bytes).concat();
    Some([under(0, prefix), sealed, under(0, array)].concat())
}
