//! What a case is, and the random cases: books, sound, padded and damaged, and short noise.

use crate::lock::{filepass, put_record, CryptoApi, Keys, Lock};
use crate::paper::{self, records, BOF, BOUND_SHEET, FILEPASS, LOOK_CAP, SEVEN};
use crate::port::{LONG_SCRATCH_LEN, PASSWORD_MAX_LEN, SCRATCH_LEN};
use crate::random::Random;

/// One input, and where it comes from.
#[derive(Clone)]
pub struct Case {
    pub part: &'static str,
    pub index: u64,
    pub stream: Vec<u8>,
    pub password: Vec<u8>,
    pub scratch_len: usize,
    pub output_len: usize,
    /// The plain stream that Open must give, where the book was sealed from one and this is its password.
    pub plain: Option<Vec<u8>>,
}

/// One case of so many lends a long scratch. A prime, so that among the fixed cases it meets every turn of their inner loops.
const LONG_SCRATCH_ONE_IN: usize = 11;

impl Case {
    /// A case that lends enough: how much follows from its index, and takes no random number.
    pub fn new(part: &'static str, index: u64, stream: Vec<u8>, password: &str) -> Self {
        let turn = index as usize;
        let scratch_len = if turn % LONG_SCRATCH_ONE_IN == 0 {
            LONG_SCRATCH_LEN + turn / LONG_SCRATCH_ONE_IN % (LONG_SCRATCH_LEN + 1)
        } else {
            SCRATCH_LEN + turn % 3
        };
        let output_len = stream.len() + turn % 5;
        Self { part, index, stream, password: password.into(), scratch_len, output_len, plain: None }
    }
}

/// The bytes that short streams are made of.
pub const ALPHABET: [u8; 12] = [0x00, 0x01, 0x02, 0x04, 0x06, 0x08, 0x09, 0x2F, 0x42, 0x85, 0xE1, 0xFF];

// ---- random books ----

/// The random case of this number: a pure function of both arguments.
pub fn random(seed: u64, index: u64) -> Case {
    let random = &mut Random::new(seed, index);
    if random.one_in(25) {
        return noise(index, random);
    }
    let lock = random_lock(random);
    let password = random_password(random);
    let (body, keys) = filepass(&lock, &password, random);
    let (mut stream, mut plain) = random_book(body, &keys, random);
    let kind = random.below(100);
    let part = if kind < 45 {
        "damaged"
    } else if kind < 60 {
        "wrong password"
    } else {
        "sound"
    };
    let mut asked = password.clone();
    if part == "damaged" {
        for _ in 0..random.pick(&[1, 1, 1, 2, 2, 3, 4]) {
            damage(&mut stream, random);
        }
        if random.one_in(8) {
            asked = random_password(random);
        }
    } else if part == "wrong password" {
        asked = wrong_password(&password, random);
    }
    let remainder = random_remainder(random);
    stream.extend(&remainder);
    plain.extend(&remainder);
    let unreadable = remainder.iter().any(|byte| *byte != 0);
    if part != "sound" || unreadable || matches!(lock, Lock::Xor) && !xor_takes(&password) {
        plain.clear();
    }
    let mut case = Case::new(part, index, stream, &asked);
    if !plain.is_empty() {
        case.plain = Some(plain);
    }
    if random.one_in(20) {
        lend_badly(&mut case, random);
    }
    case
}

/// What comes after the last record: usually nothing, else one to three bytes, which are usually padding.
fn random_remainder(random: &mut Random) -> Vec<u8> {
    if !random.one_in(10) {
        return Vec::new();
    }
    let mut remainder = vec![0; random.between(1, 3)];
    if random.one_in(4) {
        let at = random.below(remainder.len());
        remainder[at] = random.next() as u8;
    }
    remainder
}

/// Characters that the XOR lock takes: 1 to 15, up to U+00FF.
pub fn xor_takes(password: &str) -> bool {
    (1..=15).contains(&password.chars().count()) && password.chars().all(|c| c as u32 <= 0xFF)
}

/// A short stream of bytes of the alphabet, after a few records.
fn noise(index: u64, random: &mut Random) -> Case {
    let mut stream = Vec::new();
    if !random.one_in(6) {
        let len = random.pick(&[0, 0, 2]);
        put_record(&mut stream, BOF, &random.bytes(len));
    }
    for _ in 0..random.pick(&[0, 0, 1, 2, 3]) {
        let len = random.below(4);
        let other = random.next() as u16;
        put_record(&mut stream, random.pick(&[BOF, 0x00E1, 0x0138, 0x0194, 0x0042, 0x0086, other]), &random.bytes(len));
    }
    if random.one_in(2) {
        let len = random.below(8);
        let body: Vec<u8> = (0..len).map(|_| random.pick(&ALPHABET)).collect();
        put_record(&mut stream, FILEPASS, &body);
    }
    if random.one_in(2) {
        let len = random.between(1, 8);
        stream.extend((0..len).map(|_| random.pick(&ALPHABET)));
    }
    let password = random_password(random);
    Case::new("noise", index, stream, &password)
}

/// A lock of any family, with any of the 12 key sizes or 0 as stated.
fn random_lock(random: &mut Random) -> Lock {
    match random.below(20) {
        0..=3 => Lock::Xor,
        4..=7 => Lock::Office97,
        _ => {
            let key_size = random.below(13) as u32;
            let key_size = if key_size == 12 { 0 } else { 40 + 8 * key_size };
            let other_flags = if random.one_in(4) { random.next() as u32 & !0x30 } else { 0 };
            let flags = 0x04 | random.pick(&[0, 0x08]) | other_flags;
            let name_len = random.pick(&[0, 0, 0, 1, 2, 16, 94]);
            let name_len = if random.one_in(60) { random.between(900, 992) } else { name_len };
            Lock::CryptoApi(CryptoApi {
                major: random.between(2, 4) as u16,
                flags,
                alg_id: random.pick(&[0x6801, 0x6801, 0]),
                alg_id_hash: random.pick(&[0x8004, 0x8004, 0]),
                key_size,
                name: random.bytes(name_len),
            })
        }
    }
}

fn text(len: usize, random: &mut Random, mut character: impl FnMut(&mut Random) -> u32) -> String {
    (0..len).map(|_| char::from_u32(character(random)).unwrap()).collect()
}

/// A password: empty, ASCII, Latin-1, any plane, about as long as the XOR lock takes, or as long as any may be.
fn random_password(random: &mut Random) -> String {
    const EDGES: [u32; 14] = [0, 0x7F, 0x80, 0xFF, 0x100, 0x7FF, 0x800, 0xD7FF, 0xE000, 0xFFFD, 0xFFFF, 0x10000, 0x1D11E, 0x10FFFF];
    let ascii = |random: &mut Random| random.between(0x20, 0x7E) as u32;
    let latin = |random: &mut Random| random.below(0x100) as u32;
    let beyond = |random: &mut Random| random.between(0x10000, 0x10FFFF) as u32;
    match random.below(40) {
        0..=1 => String::new(),
        2..=15 => text(random.between(1, 12), random, ascii),
        16..=21 => text(random.between(1, 15), random, latin),
        22..=24 => text(15, random, latin),
        25..=26 => text(16, random, latin),
        27..=29 => text(random.between(1, 8), random, beyond),
        30..=33 => text(random.between(1, 10), random, |random| random.pick(&EDGES)),
        34..=38 => text(random.between(16, 70), random, ascii),
        _ => {
            let mut long = String::new();
            let wide = random.one_in(2);
            while long.len() < PASSWORD_MAX_LEN {
                let left = PASSWORD_MAX_LEN - long.len();
                let next = if wide && left >= 4 { random.pick(&EDGES) } else { ascii(random) };
                long.push(char::from_u32(next).unwrap());
            }
            long
        }
    }
}

/// Another password, most often a close one.
fn wrong_password(right: &str, random: &mut Random) -> String {
    let mut letters: Vec<char> = right.chars().collect();
    match random.below(5) {
        0 if !letters.is_empty() => {
            letters.pop();
        }
        1 if right.len() < PASSWORD_MAX_LEN => letters.push(random.pick(&['\0', 'a', ' '])),
        2 if !letters.is_empty() => {
            let at = random.below(letters.len());
            letters[at] = char::from_u32(letters[at] as u32 ^ 1).filter(|c| c.len_utf8() == letters[at].len_utf8()).unwrap_or('x');
        }
        3 if letters.len() > 1 => letters.reverse(),
        _ => return random_password(random),
    }
    letters.into_iter().collect()
}

/// A locked book with this FILEPASS body, and its plain stream.
fn random_book(mut body: Vec<u8>, keys: &Keys, random: &mut Random) -> (Vec<u8>, Vec<u8>) {
    if random.one_in(6) {
        let more = random.pick(&[1, 2, 7, 40]);
        body.extend(random.bytes(more));
    }
    let mut stream = Vec::new();
    let bof_len = random.pick(&[0, 2, 16]);
    put_record(&mut stream, BOF, &random.bytes(bof_len));
    for _ in 0..random.pick(&[0, 0, 0, 1, 2, 4]) {
        let len = random.below(12);
        put_record(&mut stream, random.pick(&[BOF, 0x00E1, 0x0138, 0x0194, 0x0195, 0x0196]), &random.bytes(len));
    }
    let filepass_at = stream.len();
    put_record(&mut stream, FILEPASS, &body);
    let rest = stream.len();
    random_records(&mut stream, random);
    let mut plain = stream.clone();
    keys.seal(&mut stream);
    plain[filepass_at..filepass_at + 2].fill(0);
    plain[filepass_at + 4..rest].fill(0);
    (stream, plain)
}

/// The records after FILEPASS: all seven ids, BoundSheet8 of every length around 4, others; now and then up to a block's end, seldom long.
fn random_records(stream: &mut Vec<u8>, random: &mut Random) {
    let about_cap = random.one_in(20_000);
    for _ in 0..random.pick(&[0, 1, 2, 3, 5, 9]) {
        let other = random.next() as u16;
        let id = match random.below(10) {
            0..=2 => random.pick(&SEVEN),
            3..=5 => BOUND_SHEET,
            _ => random.pick(&[0x0042, 0x000A, 0x00FC, 0x0203, 0x003C, 0x0000, 0x0086, other]),
        };
        let to_block_end = (2 * 1024 - (stream.len() + 4) % 1024) % 1024;
        let len = match random.below(40) {
            0..=29 => random.below(if id == BOUND_SHEET { 7 } else { 24 }),
            30..=32 => to_block_end + random.below(6),
            33 => (to_block_end + 1024).saturating_sub(random.below(6)),
            34 => 1024 * random.between(1, 2) + random.below(9) - 4,
            35 if random.one_in(40) => random.pick(&[8224, 65_535]),
            _ => random.below(200),
        };
        put_record(stream, id, &random.bytes(len));
    }
    if about_cap {
        let end = LOOK_CAP + random.below(12) - 6;
        while stream.len() + 4 < end {
            let len = (end - stream.len() - 4).min(random.pick(&[65_535, 8224, 14]));
            put_record(stream, random.pick(&[0x003C, 0x0203, BOUND_SHEET]), &random.bytes(len));
        }
    }
}

// ---- damage ----

/// Values close to the ones a field admits.
fn near(values: &[u32], random: &mut Random) -> u32 {
    let value = random.pick(values);
    match random.below(8) {
        0 => value.wrapping_add(1),
        1 => value.wrapping_sub(1),
        2 => value ^ 1 << random.below(32),
        3 => random.next() as u32,
        _ => value,
    }
}

/// One fault, at a random place.
fn damage(stream: &mut Vec<u8>, random: &mut Random) {
    let filepass = records(stream).find(|record| record.id == FILEPASS);
    let Some(filepass) = filepass else {
        return damage_bytes(stream, random);
    };
    let (at, start, end) = (filepass.at, filepass.start, filepass.end);
    match random.below(20) {
        0..=8 => damage_field(&mut stream[start..end], random),
        // the body cut or lengthened, with the length that fits
        9..=11 => {
            let len = random.below(end - start + 1);
            stream.drain(start + len..end);
            stream[at + 2..at + 4].copy_from_slice(&(len as u16).to_le_bytes());
        }
        12 => {
            let more = random.pick(&[1, 2, 4, 60]);
            stream.splice(end..end, random.bytes(more));
            stream[at + 2..at + 4].copy_from_slice(&((end - start + more) as u16).to_le_bytes());
        }
        // another first record, another record before FILEPASS, no FILEPASS
        13 => {
            let other = random.next() as u16;
            stream[..2].copy_from_slice(&random.pick(&[0x0009, 0x0209, 0x0409, 0x0808, other]).to_le_bytes());
        }
        14..=15 => {
            let other = random.next() as u16;
            let mut record = Vec::new();
            put_record(&mut record, random.pick(&[0x0086, 0x0042, 0x0085, 0x0000, 0x005C, other]), &[0, 0][..random.below(3)]);
            stream.splice(at..at, record);
        }
        16 => {
            let other = random.next() as u16;
            stream[at..at + 2].copy_from_slice(&random.pick(&[0x0000, 0x00E1, 0x002E, 0x012F, other]).to_le_bytes());
        }
        _ => damage_bytes(stream, random),
    }
}

/// A value near the admitted ones in one field of a FILEPASS body; where the body is too short for it, nothing.
fn damage_field(body: &mut [u8], random: &mut Random) {
    let verifier = 14 + paper::u32_at(body, 10).unwrap_or(0).min(65_535) as usize;
    let len = body.len() as u32;
    let (at, wide, value) = match random.below(14) {
        0 => (0, 2, near(&[0, 1, 2, 0x100], random)),
        1 => (2, 2, near(&[1, 2, 3, 4, 5, 0x102], random)),
        2 => (4, 2, near(&[1, 2, 3, 0x201], random)),
        3 => (6, 4, random.next() as u32),
        4..=5 => (10, 4, near(&[0, 32, 33, 1024, 1023, len.saturating_sub(14), len.saturating_sub(73), len.saturating_sub(74)], random)),
        6..=7 => (14, 4, near(&[0x04, 0x0C, 0x14, 0x24, 0x34, 0x08, 0x00, 0x10, 0x20, 0x30], random)),
        8 => (22, 4, near(&[0, 0x6801, 0x6802, 0x660E], random)),
        9 => (26, 4, near(&[0, 0x8004, 0x8003, 0x800C], random)),
        10 => (30, 4, near(&[0, 40, 48, 56, 64, 72, 80, 88, 96, 104, 112, 120, 128, 136, 32, 44, 4096, 8], random)),
        11 => (verifier, 4, near(&[16, 0, 20], random)),
        12 => (verifier + 36, 4, near(&[20, 0, 16, 32], random)),
        _ => (random.between(14, 14 + 92), 4, random.next() as u32),
    };
    if let Some(field) = body.get_mut(at..at + wide) {
        field.copy_from_slice(&value.to_le_bytes()[..wide]);
    }
}

/// Bytes changed, cut off, left out or added, most often in headers.
fn damage_bytes(stream: &mut Vec<u8>, random: &mut Random) {
    if stream.is_empty() {
        return;
    }
    let headers: Vec<usize> = records(stream).map(|record| record.at).take(100).collect();
    let at = match headers.len() {
        0 => random.below(stream.len()),
        count => (headers[random.below(count)] + random.below(4)).min(stream.len() - 1),
    };
    let anywhere = random.below(stream.len());
    match random.below(6) {
        0 => stream[at] = random.next() as u8,
        1 => stream[at] ^= 1 << random.below(8),
        2 => stream[anywhere] = random.next() as u8,
        3 => stream.truncate(random.pick(&[at, anywhere, stream.len() - 1])),
        4 => drop(stream.drain(at..(at + random.between(1, 4)).min(stream.len()))),
        _ => {
            let more = random.between(1, 6);
            let place = random.pick(&[at, stream.len()]);
            stream.splice(place..place, random.bytes(more));
        }
    }
}

/// A password, a scratch or an output that questions 1, 2, 3 and 5 refuse, one or several.
fn lend_badly(case: &mut Case, random: &mut Random) {
    let faults = random.between(1, 15);
    if faults & 1 != 0 {
        let len = PASSWORD_MAX_LEN + random.pick(&[1, 2, 100]);
        case.password.resize(len.max(case.password.len()), b'x');
    }
    if faults & 2 != 0 {
        let len = random.between(1, 4);
        let bad = random.pick(&[[0xFF, 0, 0, 0], [0xC0, 0x80, 0, 0], [0xED, 0xA0, 0x80, 0], [0xF4, 0x90, 0x80, 0x80], [0xE2, 0x82, 0, 0]]);
        let place = if random.one_in(2) { 0 } else { case.password.len() };
        case.password.splice(place..place, bad[..len].iter().copied());
    }
    if faults & 4 != 0 {
        case.scratch_len = random.pick(&[0, 1, SCRATCH_LEN / 2, SCRATCH_LEN - 1]);
    }
    if faults & 8 != 0 && !case.stream.is_empty() {
        case.output_len = random.pick(&[0, case.stream.len() / 2, case.stream.len() - 1]);
    }
    if paper::lent(case.stream.len(), &case.password, case.scratch_len, case.output_len).is_some() {
        case.plain = None;
    }
}
