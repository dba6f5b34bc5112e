//! Sealing by document 02: plain streams with room for a lock, and what they are sealed into.

use sheet::{Choice, Lock, Refusal, Report};

use super::book::{clear_len, header, Kind, BLOCK, BOF, CLEAR, FILEPASS, SALT, SEVEN, VERIFIER};
use super::digest::{md5, sha1};
use super::opening::refused;
use super::rc4::Rc4;
use super::walk::{walk, Walked};
use super::{bare, lent::Lent, xor};

/// The id of a zero record.
pub const ZERO: u16 = 0x0000;

/// One of each lock, with the strongest and the weakest key.
pub const CHOICES: [Choice; 4] = [
    Choice::Xor,
    Choice::Office97 {
        salt: SALT,
        verifier: VERIFIER,
    },
    crypto_api(4, 128),
    crypto_api(2, 40),
];

/// CryptoAPI with a major number and a key size.
pub const fn crypto_api(major: u16, key_bits: u32) -> Choice {
    Choice::CryptoApi {
        salt: SALT,
        verifier: VERIFIER,
        major,
        key_bits,
    }
}

/// The same lock with another salt and another verifier.
pub fn with(choice: Choice, salt: [u8; 16], verifier: [u8; 16]) -> Choice {
    match choice {
        Choice::Xor => Choice::Xor,
        Choice::Office97 { .. } => Choice::Office97 { salt, verifier },
        Choice::CryptoApi {
            major, key_bits, ..
        } => Choice::CryptoApi {
            salt,
            verifier,
            major,
            key_bits,
        },
    }
}

/// The kind of books under the lock.
pub fn kind(choice: &Choice) -> Kind {
    match choice {
        Choice::Xor => Kind::Xor,
        Choice::Office97 { .. } => Kind::Office97,
        Choice::CryptoApi { key_bits, .. } => Kind::CryptoApi(*key_bits, false),
    }
}

/// The shortest body of a zero record that the lock fits into.
pub fn room(choice: &Choice) -> usize {
    match choice {
        Choice::Xor => 6,
        Choice::Office97 { .. } => 54,
        Choice::CryptoApi { .. } => 106,
    }
}

/// A plain stream of BOF, a clear record, a zero record of so many bytes, and these records.
pub fn sheet_with(len: usize, behind: &[(u16, Vec<u8>)]) -> Vec<u8> {
    let front = [
        (BOF, vec![0, 6, 5, 0]),
        (CLEAR, vec![0xB0, 0x04]),
        (ZERO, vec![0; len]),
    ];
    super::book::joined(&[&front, behind].concat())
}

/// The bytes of these streams before the records behind the zero record.
pub fn front(len: usize) -> usize {
    8 + 6 + 4 + len
}

/// The body of the FILEPASS that sealing writes.
pub fn filepass(choice: &Choice, password: &str, len: usize) -> Vec<u8> {
    let enciphered = |salt: &[u8; 16], verifier: &[u8; 16], hash: &[u8]| {
        let key = kind(choice).salted_block_key(salt, password, 0);
        Rc4::new(&key).apply(&[&verifier[..], hash].concat())
    };
    match choice {
        Choice::Xor => {
            let bytes = latin(password);
            [0, xor::key(&bytes), xor::verifier(&bytes)]
                .map(u16::to_le_bytes)
                .concat()
        }
        Choice::Office97 { salt, verifier } => {
            let version = [1_u16, 1, 1].map(u16::to_le_bytes).concat();
            let check = enciphered(salt, verifier, &md5(verifier));
            [&version[..], salt, &check].concat()
        }
        Choice::CryptoApi {
            salt,
            verifier,
            major,
            key_bits,
        } => {
            let version = [1, *major, 2].map(u16::to_le_bytes).concat();
            let size = len as u32 - 2 - 12 - 60;
            let fields = [0x0C, size, 0x0C, 0, 0x6801, 0x8004, *key_bits, 1, 0, 0];
            let check = enciphered(salt, verifier, &sha1(verifier));
            [
                &version[..],
                &fields.map(u32::to_le_bytes).concat(),
                &vec![0; size as usize - 32],
                &16_u32.to_le_bytes(),
                salt,
                &check[..16],
                &20_u32.to_le_bytes(),
                &check[16..],
            ]
            .concat()
        }
    }
}

/// The bytes of a password that XOR takes, one for each character.
fn latin(password: &str) -> Vec<u8> {
    password
        .chars()
        .map(|character| u8::try_from(u32::from(character)).expect("up to U+00FF"))
        .collect()
}

/// The place of the zero record among the records of a stream.
fn zero_place(records: &[Walked<'_>]) -> Option<usize> {
    let place = records
        .iter()
        .position(|(_, id, _)| *id == FILEPASS || !SEVEN.contains(id))?;
    let (_, id, body) = records[place];
    (id == ZERO && body.iter().all(|byte| *byte == 0)).then_some(place)
}

/// What comes of sealing a stream with buffers that suffice and a password that is not too long: the
/// sealed stream and what is told, or a refusal.
pub fn expected(
    plain: &[u8],
    password: &str,
    choice: &Choice,
) -> Result<(Vec<u8>, Report), Refusal> {
    let (records, fault) = walk(plain);
    if let Some(at) = fault {
        return refused(6, [at as u64, 0]);
    }
    if records.first().map(|record| record.1) != Some(BOF) {
        return refused(7, [0, 0]);
    }
    if let Choice::CryptoApi {
        major, key_bits, ..
    } = choice
    {
        if ![2, 3, 4].contains(major) {
            return refused(13, [(*major).into(), 2]);
        }
        if !(40..=128).step_by(8).any(|size| size == *key_bits) {
            return refused(23, [(*key_bits).into(), 0]);
        }
    }
    let Some(place) = zero_place(&records) else {
        return refused(30, [0, 0]);
    };
    let len = records[place].2.len();
    let fits = match choice {
        Choice::Xor => len == 6,
        Choice::Office97 { .. } => len == 54,
        Choice::CryptoApi { .. } => (106..=1098).contains(&len),
    };
    if !fits {
        return refused(31, [len as u64, 0]);
    }
    let characters = password.chars().count();
    let narrow = password.chars().all(|character| character <= '\u{FF}');
    if *choice == Choice::Xor && !(narrow && (1..=15).contains(&characters)) {
        return refused(32, [0, 0]);
    }
    Ok(sealed(plain, &records, place, password, choice))
}

fn sealed(
    plain: &[u8],
    records: &[Walked<'_>],
    place: usize,
    password: &str,
    choice: &Choice,
) -> (Vec<u8>, Report) {
    let (lock, bits, salt) = match choice {
        Choice::Xor => (Lock::Xor, None, None),
        Choice::Office97 { salt, .. } => (Lock::Office97, Some(40), Some(salt)),
        Choice::CryptoApi { salt, key_bits, .. } => (Lock::CryptoApi, Some(*key_bits), Some(salt)),
    };
    // The whole stream put through the ciphers, of which each record takes its part.
    let mut keys = 0;
    let streamed: Vec<u8> = match salt {
        None => Vec::new(),
        Some(salt) => {
            let blocks = plain.chunks(BLOCK).zip(0..);
            let blocks: Vec<Vec<u8>> = blocks
                .map(|(part, block)| {
                    let key = kind(choice).salted_block_key(salt, password, block);
                    Rc4::new(&key).apply(part)
                })
                .collect();
            keys = 1 + blocks.len();
            blocks.concat()
        }
    };
    let mut stream = plain.to_vec();
    let mut enciphered = 0;
    for (k, (at, id, body)) in records.iter().enumerate() {
        let (start, end) = (at + 4, at + 4 + body.len());
        if k == place {
            stream[*at..start].copy_from_slice(&header(FILEPASS, body.len()));
            stream[start..end].copy_from_slice(&filepass(choice, password, body.len()));
            continue;
        }
        let clear = clear_len(*id, body.len());
        enciphered += body.len() - clear;
        if salt.is_some() {
            stream[start + clear..end].copy_from_slice(&streamed[start + clear..end]);
        } else {
            let body = xor::seal(body, clear, end, &latin(password));
            stream[start..end].copy_from_slice(&body);
        }
    }
    let report = Report {
        records: records.len(),
        lock,
        key_bits: bits,
        summary_sealed: false,
        output_bytes: plain.len(),
        enciphered_body_bytes: enciphered,
        block_keys: keys,
    };
    (stream, report)
}

/// All eight facts of an answer.
pub fn facts(answer: &Result<Report, Refusal>) -> bare::Answer {
    match answer {
        Err(refusal) => {
            let [first, second] = refusal.details();
            (refusal.number(), [first, second, 0, 0, 0, 0, 0, 0])
        }
        Ok(report) => {
            let lock = match report.lock {
                Lock::Xor => 0,
                Lock::Office97 => 1,
                Lock::CryptoApi => 2,
            };
            let facts = [
                report.records,
                lock,
                report.key_bits.unwrap_or(0) as usize,
                report.summary_sealed.into(),
                report.output_bytes,
                report.enciphered_body_bytes,
                report.block_keys,
                0,
            ];
            (0, facts.map(|fact| fact as u64))
        }
    }
}

/// Buffers that are longer than they need be.
fn lent(stream: &[u8], password: &str) -> Lent {
    Lent::new(stream, password.as_bytes(), 64 + 40, stream.len() + 9)
}

/// Sees that a stream is sealed, or refused, as document 02 says, with every fact; that what was
/// sealed opens to the plain stream with the same report, and that the plain stream is sealed to the
/// same again.
#[track_caller]
pub fn check(plain: &[u8], password: &str, choice: &Choice) -> Result<Vec<u8>, Refusal> {
    let expected = expected(plain, password, choice);
    let mut first = lent(plain, password);
    let answer = first.seal(choice);
    assert_eq!(answer, expected.clone().map(|(_, report)| report));
    let bare = bare::seal(plain, password.as_bytes(), choice);
    assert_eq!(bare, facts(&answer));
    let (sealed, report) = expected?;
    assert!(first.written() == sealed);
    let mut opened = lent(&sealed, password);
    assert_eq!(opened.open_to(plain), report);
    assert_eq!(bare::open(&sealed, password.as_bytes()), facts(&Ok(report)));
    let mut again = lent(opened.written(), password);
    assert_eq!(again.seal_to(choice, &sealed), report);
    Ok(sealed)
}
