//! The fixed cases, which every run starts with: every short stream over a small alphabet, sweeps over small books, passwords of every length, books
//! around Look's cap, and padded books.

use crate::generate::{xor_takes, Case, ALPHABET};
use crate::lock::{filepass, put_record, CryptoApi, Lock};
use crate::paper::{filepass as filepass_of, records, BOF, BOUND_SHEET, FILEPASS, LOOK_CAP};
use crate::port::{LONG_SCRATCH_LEN, PASSWORD_MAX_LEN, SCRATCH_LEN};
use crate::random::Random;

pub fn all(give: &mut dyn FnMut(Case)) {
    exhaustive(give);
    damaged_bytes(give);
    fields(give);
    several_faults(give);
    lendings(give);
    texts(give);
    around_cap(give);
    padded(give);
    padded_blocks(give);
    padded_lendings(give);
    padded_cap(give);
}

/// Every tail of up to 4 bytes of the alphabet, after nothing, after a BOF and perhaps one more record, and after a BOF and the
/// start of a FILEPASS.
fn exhaustive(give: &mut dyn FnMut(Case)) {
    let bof = vec![0x09, 0x08, 0, 0];
    let mut heads = vec![Vec::new(), bof.clone()];
    for record in [&[0x42, 0, 0, 0][..], &[0xE1, 0, 0, 0], &[0x85, 0, 1, 0, 0x2F], &[0x09, 0x08, 1, 0, 0x2F]] {
        heads.push([&bof[..], record].concat());
    }
    for len in [0, 1, 2, 3, 4, 6, 8, 0xFF] {
        heads.push([&bof[..], &[0x2F, 0, len, 0]].concat());
    }
    for body in [&[0, 0][..], &[1, 0], &[1, 0, 1], &[1, 0, 2, 0], &[1, 0, 1, 0, 1, 0]] {
        for len in [6, 8] {
            heads.push([&bof[..], &[0x2F, 0, len, 0], body].concat());
        }
    }
    let mut index = 0;
    for head in heads {
        for len in 0..=4 {
            for number in 0..ALPHABET.len().pow(len) {
                let tail = (0..len).map(|k| ALPHABET[number / ALPHABET.len().pow(k) % ALPHABET.len()]);
                let stream = head.iter().copied().chain(tail).collect();
                give(Case::new("short", index, stream, "A"));
                index += 1;
            }
        }
    }
}

/// Two locks under XOR, one under 1.1, and CryptoAPI with every key size that may be stated, summary clear and sealed; each with a password.
fn small_locks() -> Vec<(Lock, &'static str)> {
    let mut locks = vec![(Lock::Xor, "A"), (Lock::Xor, "\u{E9}t\u{E9}"), (Lock::Office97, "lift angle")];
    for key_size in [128, 40, 0, 56, 48, 64, 72, 80, 88, 96, 104, 112, 120] {
        for flags in [0x0C, 0x04] {
            locks.push((Lock::CryptoApi(CryptoApi::plain(key_size, flags)), "lift angle"));
        }
    }
    locks
}

/// A book of a few records under each of the small locks.
fn small_books(random: &mut Random) -> Vec<(Vec<u8>, &'static str)> {
    let mut books = Vec::new();
    for (lock, password) in small_locks() {
        let (body, keys) = filepass(&lock, password, random);
        let mut stream = Vec::new();
        put_record(&mut stream, BOF, &[]);
        put_record(&mut stream, FILEPASS, &body);
        put_record(&mut stream, BOUND_SHEET, &[1, 2, 3, 4, 5]);
        put_record(&mut stream, 0x0042, &[7, 8]);
        keys.seal(&mut stream);
        books.push((stream, password));
    }
    books
}

/// How many of the small books have every byte changed.
const FLIPPED: usize = 9;

/// Of each small book: itself and every truncation. Of the first ones also every other value of every byte but those of enciphered bodies.
fn damaged_bytes(give: &mut dyn FnMut(Case)) {
    let mut index = 0;
    let mut next = |part: &'static str, stream: Vec<u8>, password: &str| {
        give(Case::new(part, index, stream, password));
        index += 1;
    };
    for (number, (stream, password)) in small_books(&mut Random::new(0, 0)).into_iter().enumerate() {
        next("small", stream.clone(), password);
        for len in 0..stream.len() {
            next("truncated", stream[..len].to_vec(), password);
        }
        if number >= FLIPPED {
            continue;
        }
        for record in records(&stream) {
            for at in record.at..record.start + record.clear() {
                for change in 1..=255 {
                    let mut flipped = stream.clone();
                    flipped[at] ^= change;
                    next("flipped", flipped, password);
                }
            }
        }
    }
}

/// A CryptoAPI lock with every value of every field up to the greatest that means anything, and around the AlgIDs; and a FILEPASS of every
/// length under the three families.
fn fields(give: &mut dyn FnMut(Case)) {
    const LONG_BODY: usize = 1200;
    // type, major, minor, header size, flags, AlgID, AlgIDHash, key size, salt size, hash size: offset in the body, width
    const FIELDS: [(usize, usize); 10] = [(0, 2), (2, 2), (4, 2), (10, 4), (14, 4), (22, 4), (26, 4), (30, 4), (46, 4), (82, 4)];
    let random = &mut Random::new(0, 2);
    let mut index = 0;
    let mut next = |part: &'static str, body: &[u8], password: &str| {
        let mut stream = Vec::new();
        put_record(&mut stream, BOF, &[]);
        put_record(&mut stream, FILEPASS, body);
        put_record(&mut stream, 0x0042, &[7, 8]);
        give(Case::new(part, index, stream, password));
        index += 1;
    };
    let long_body = |lock: Lock, password: &str, random: &mut Random| {
        let (body, _) = filepass(&lock, password, random);
        let rest = random.bytes(LONG_BODY - body.len());
        [body, rest].concat()
    };
    let api = || Lock::CryptoApi(CryptoApi::plain(128, 0x04));
    let body = long_body(api(), "lift angle", random);
    for (at, width) in FIELDS {
        for value in (0..=4200u32).chain(0x6780..=0x6880).chain(0x7F80..=0x8080) {
            let mut changed = body.clone();
            changed[at..at + width].copy_from_slice(&value.to_le_bytes()[..width]);
            next("field", &changed, "lift angle");
        }
    }
    for (lock, password) in [(Lock::Xor, "A"), (Lock::Office97, "lift angle"), (api(), "lift angle")] {
        let body = long_body(lock, password, random);
        for len in 0..=LONG_BODY {
            next("length", &body[..len], password);
        }
    }
}

/// Under each family, every set of up to four of these faults at once, so that the order of the questions shows. The last is no fault but padding.
fn several_faults(give: &mut dyn FnMut(Case)) {
    const FAULTS: u32 = 25;
    const MOST: u32 = 4;
    let random = &mut Random::new(0, 3);
    let mut index = 0;
    for lock in [Lock::Xor, Lock::Office97, Lock::CryptoApi(CryptoApi::plain(128, 0x0C))] {
        let (sound, _) = filepass(&lock, "A", random);
        for set in (0..1u32 << FAULTS).filter(|set| set.count_ones() <= MOST) {
            let fault = |number: u32| set >> number & 1 != 0;
            let mut body = sound.clone();
            // bits turned in the body, by offset: questions 11, 13, 16, 17, 18, 19, 20, 21, 22, 23, 25, 26
            let bits = [(0, 2), (4, 1), (10, 0x3F), (11, 3), (14, 0x10), (14, 0x20), (14, 0x04), (22, 3), (26, 1), (30, 0xA7), (46, 0x1F), (82, 1)];
            for (number, (at, turned)) in (0..).zip(bits) {
                if let Some(byte) = body.get_mut(at).filter(|_| fault(number)) {
                    *byte ^= turned;
                }
            }
            // a body that is cut: questions 10, 12, 15 and, by family, 10, 14 and 24
            for (number, len) in (12..).zip([1, 5, 13, sound.len() - 1]) {
                if fault(number) {
                    body.truncate(len);
                }
            }
            // the stream around it: questions 7, 9, 8, 6
            let mut stream = Vec::new();
            put_record(&mut stream, if fault(16) { 0x0009 } else { BOF }, &[]);
            if fault(17) {
                put_record(&mut stream, 0x0086, &[]);
            }
            put_record(&mut stream, if fault(18) { 0x00E1 } else { FILEPASS }, &body);
            put_record(&mut stream, 0x0042, &[7, 8]);
            if fault(19) {
                stream.pop();
            }
            if fault(24) {
                stream.resize(stream.len() + 1 + index as usize % 3, 0);
            }
            // the password, the scratch and the output: questions 27, 2, 3, 5; question 1 is swept with the lendings
            let mut case = Case::new("several faults", index, stream, if fault(20) { "B" } else { "A" });
            if fault(21) {
                case.password.push(0x80);
            }
            if fault(22) {
                case.scratch_len = SCRATCH_LEN - 1;
            }
            if fault(23) {
                case.output_len = case.stream.len() - 1;
            }
            give(case);
            index += 1;
        }
    }
}

/// Bytes on both sides of every bound in RFC 3629's table.
#[rustfmt::skip]
const UTF8_BOUNDS: [u8; 22] = [
    0x00, 0x7F, 0x80, 0x8F, 0x90, 0x9F, 0xA0, 0xBF, 0xC0, 0xC1, 0xC2, 0xDF, 0xE0, 0xE1, 0xEC, 0xED, 0xEE, 0xEF, 0xF0, 0xF3, 0xF4, 0xF5,
];

/// None, too little, as much as is needed, more, and around and beyond what is long.
#[rustfmt::skip]
const SCRATCH_LENS: [usize; 10] = [
    0, 1, SCRATCH_LEN - 1, SCRATCH_LEN, SCRATCH_LEN + 1, 2 * SCRATCH_LEN,
    LONG_SCRATCH_LEN - 1, LONG_SCRATCH_LEN, LONG_SCRATCH_LEN + 1, 2 * LONG_SCRATCH_LEN,
];

/// Questions 1 to 3 and 5: every password of one or two bytes, and those of three and four bytes at RFC 3629's bounds; under each family, passwords
/// around the greatest length, every scratch of the list, and every output up to more than is needed, also several at once.
fn lendings(give: &mut dyn FnMut(Case)) {
    let books = small_books(&mut Random::new(0, 0));
    let mut index = 0;
    let mut next = |stream: &[u8], password: Vec<u8>, scratch_len: usize, output_len: usize| {
        let case = Case::new("lent", index, stream.to_vec(), "");
        give(Case { password, scratch_len, output_len, ..case });
        index += 1;
    };
    let stream = &books[0].0;
    for first in 0..=255 {
        next(stream, vec![first], SCRATCH_LEN, stream.len());
        for second in 0..=255 {
            next(stream, vec![first, second], SCRATCH_LEN, stream.len());
        }
    }
    let bounds = UTF8_BOUNDS.len();
    for len in [3, 4] {
        for number in 0..bounds.pow(len) {
            let password = (0..len).map(|k| UTF8_BOUNDS[number / bounds.pow(k) % bounds]).collect();
            next(stream, password, SCRATCH_LEN, stream.len());
        }
    }
    let long = "x".repeat(PASSWORD_MAX_LEN);
    let cut = [long.as_bytes(), &[0xC3]].concat();
    // one book of each family
    for (stream, right) in [&books[0], &books[2], &books[3]] {
        let passwords = [right.to_string(), long.clone(), long.clone() + "x", long.clone() + "\u{E9}"].map(String::into_bytes);
        for password in passwords.into_iter().chain([vec![0xC3], cut.clone()]) {
            for scratch_len in SCRATCH_LENS {
                for output_len in 0..stream.len() + 4 {
                    next(stream, password.clone(), scratch_len, output_len);
                }
            }
        }
    }
}

/// Under each family, and CryptoAPI with 40 bits too: passwords of every length there is, of characters of one, two, three and four bytes, and of
/// letters with one of four bytes after them; and each with its last character changed. The longest of each also with every scratch of the list.
fn texts(give: &mut dyn FnMut(Case)) {
    // the bytes of a character in UTF-8, the first such character, how many there are, and what is added
    const KINDS: [(usize, u32, u32, &str); 5] =
        [(1, 0x21, 94, ""), (2, 0x80, 0x780, ""), (3, 0x800, 0xD000, ""), (4, 0x10000, 0x100000, ""), (1, 0x21, 94, "\u{1D11E}")];
    const BOOK_LEN: usize = 160;
    let random = &mut Random::new(0, 8);
    let mut index = 0;
    let api = |key_size| Lock::CryptoApi(CryptoApi::plain(key_size, 0x0C));
    for lock in [Lock::Xor, Lock::Office97, api(128), api(40)] {
        for (width, first, room, added) in KINDS {
            let most = (PASSWORD_MAX_LEN - added.len()) / width;
            for count in 0..=most {
                // by a step that has no divisor in common with any room, so that no two blocks of a text are equal
                let characters = (0..count as u32).map(|k| char::from_u32(first + 1009 * k % room).unwrap());
                let right: String = characters.chain(added.chars()).collect();
                let mut wrong = right.clone();
                let last = wrong.pop().map_or('x', |last| char::from_u32(last as u32 ^ 1).unwrap());
                wrong.push(last);
                let (stream, plain) = book_of_three(&lock, &right, BOOK_LEN, random);
                for asked in [&right, &wrong] {
                    let case = Case::new("text", index, stream.clone(), asked);
                    let swept = if count == most { &SCRATCH_LENS[..] } else { &[] };
                    for scratch_len in swept.iter().copied().chain([case.scratch_len]) {
                        let opens = asked == &right && scratch_len >= SCRATCH_LEN && (!matches!(lock, Lock::Xor) || xor_takes(asked));
                        give(Case { index, scratch_len, plain: opens.then(|| plain.clone()), ..case.clone() });
                        index += 1;
                    }
                }
            }
        }
    }
}

/// A book of this length under a lock, BOF, FILEPASS and one more record, and its plain stream.
fn book_of_three(lock: &Lock, password: &str, len: usize, random: &mut Random) -> (Vec<u8>, Vec<u8>) {
    let (body, keys) = filepass(lock, password, random);
    let mut plain = Vec::new();
    put_record(&mut plain, BOF, &[]);
    put_record(&mut plain, FILEPASS, &body);
    let zeroed = 4..plain.len();
    let rest = random.bytes(len - plain.len() - 4);
    put_record(&mut plain, 0x0042, &rest);
    let mut stream = plain.clone();
    keys.seal(&mut stream);
    plain[zeroed.start..zeroed.start + 2].fill(0);
    plain[zeroed.start + 4..zeroed.end].fill(0);
    (stream, plain)
}

/// Books whose FILEPASS is around Look's cap, at every offset from well before to just after, and where it ends there, with only clear records before it.
fn around_cap(give: &mut dyn FnMut(Case)) {
    const FIRST: usize = LOOK_CAP - 42;
    let mut random = Random::new(0, 1);
    let mut index = 0;
    let books = small_books(&mut random);
    // one book of each family, and one that states a key size of 0
    for (stream, password) in [&books[0], &books[2], &books[4], &books[7]] {
        let record_len = 4 + filepass_of(stream).map_or(0, <[u8]>::len);
        let ends = (LOOK_CAP - record_len - 1..LOOK_CAP - record_len + 2).filter(|at| *at < FIRST);
        for at in (FIRST..LOOK_CAP + 3).chain(ends) {
            for longest in [65_535, 3] {
                let mut book = clear_chain(at, longest, &mut random);
                book.extend(&stream[4..]);
                give(Case::new("around the cap", index, book, password));
                index += 1;
            }
        }
    }
}

/// BOF and records of clear ids but FILEPASS, of this many bytes in all: bodies of up to `longest` bytes, which is at least 3.
fn clear_chain(len: usize, longest: usize, random: &mut Random) -> Vec<u8> {
    let mut chain = Vec::with_capacity(len);
    put_record(&mut chain, BOF, &[]);
    while chain.len() < len {
        let left = len - chain.len() - 4;
        let body = if left <= longest { left } else { longest.min(left - 4) };
        put_record(&mut chain, random.pick(&[BOF, 0x00E1, 0x0138, 0x0194, 0x0195, 0x0196]), &random.bytes(body));
    }
    chain
}

/// Not the password of any small book.
const WRONG: &str = "amplitude";

/// Remainders of one to three bytes, every pattern of 0 and a few other bytes: those of zeros are padding.
fn remainders() -> Vec<Vec<u8>> {
    const BYTES: [u8; 4] = [0x00, 0x01, 0x2F, 0xFF];
    let mut remainders = Vec::new();
    for len in 1..=3 {
        for number in 0..BYTES.len().pow(len) {
            remainders.push((0..len).map(|k| BYTES[number / BYTES.len().pow(k) % BYTES.len()]).collect());
        }
    }
    remainders
}

/// Of each small book: every remainder, with the right password and a wrong one; and one to eight zeros after it and after every truncation.
fn padded(give: &mut dyn FnMut(Case)) {
    let mut index = 0;
    let mut next = |part: &'static str, stream: Vec<u8>, password: &str| {
        give(Case::new(part, index, stream, password));
        index += 1;
    };
    for (stream, password) in small_books(&mut Random::new(0, 4)) {
        for remainder in remainders() {
            for asked in [password, WRONG] {
                next("remainder", [&stream[..], &remainder].concat(), asked);
            }
        }
        for len in 0..=stream.len() {
            for zeros in 1..=8 {
                next("zeros", [&stream[..len], &vec![0; zeros]].concat(), password);
            }
        }
    }
}

/// Under each small lock, books whose whole length lies about the end of the first or the second block, with up to three bytes of padding or a
/// remainder that is none, the right password and a wrong one.
fn padded_blocks(give: &mut dyn FnMut(Case)) {
    let random = &mut Random::new(0, 5);
    let mut index = 0;
    for (lock, password) in small_locks() {
        for len in (1021..=1027).chain(2045..=2051) {
            for remainder in [&[][..], &[0], &[0, 0], &[0, 0, 0], &[1], &[0, 1], &[1, 0, 0]] {
                let (mut stream, mut plain) = book_of_three(&lock, password, len - remainder.len(), random);
                for bytes in [&mut stream, &mut plain] {
                    bytes.extend(remainder);
                }
                for asked in [password, WRONG] {
                    let mut case = Case::new("padded block", index, stream.clone(), asked);
                    case.plain = (asked == password && remainder.iter().all(|byte| *byte == 0)).then(|| plain.clone());
                    give(case);
                    index += 1;
                }
            }
        }
    }
}

/// Questions 1 to 3 and 5 of padded books: passwords of each kind, every scratch of the list, and every output around what is needed.
fn padded_lendings(give: &mut dyn FnMut(Case)) {
    let mut index = 0;
    for (stream, right) in small_books(&mut Random::new(0, 6)) {
        for padding in 1..=3 {
            let padded = [&stream[..], &vec![0; padding]].concat();
            for password in [right.into(), vec![b'x'; PASSWORD_MAX_LEN + 1], vec![0xC3], Vec::new()] {
                for scratch_len in SCRATCH_LENS {
                    for output_len in padded.len() - 5..padded.len() + 3 {
                        let case = Case::new("padded, lent", index, padded.clone(), "");
                        give(Case { password: password.clone(), scratch_len, output_len, ..case });
                        index += 1;
                    }
                }
            }
        }
    }
}

/// Padding around Look's cap, after clear records, with a lock among them and without.
fn padded_cap(give: &mut dyn FnMut(Case)) {
    let mut random = Random::new(0, 7);
    let mut index = 0;
    for end in LOOK_CAP - 4..LOOK_CAP + 3 {
        for padding in 1..=3 {
            let chain = clear_chain(end, 65_535, &mut random);
            let mut locked = chain[..4].to_vec();
            put_record(&mut locked, FILEPASS, &filepass(&Lock::Office97, "lift angle", &mut random).0);
            locked.extend(&clear_chain(end - locked.len(), 65_535, &mut random));
            for mut stream in [chain, locked] {
                stream.resize(end + padding, 0);
                give(Case::new("padded around the cap", index, stream, "lift angle"));
                index += 1;
            }
        }
    }
}
