//! The key size that a look tells: every case of it, that Same lock goes by what is stated, and that it
//! is the one that an opening tells, as far as a look reads.

mod common;

use common::book::{clear_front, Book, Kind, BOF, EOF, FILEPASS};
use common::guarded::Guarded;
use sheet::{Facts, Lock, Refusal, Report, Verdict, SCRATCH_LEN};

/// Where a look ends.
const LOOK_LEN: usize = 1 << 20;

/// Where the key size stands in a FILEPASS body, behind the record's header of four bytes.
const KEY_SIZE: usize = 30;

/// A book under CryptoAPI whose key has so many bits, and whose header states this key size.
fn book(bits: u32, stated: u32, before: &[(u16, Vec<u8>)]) -> Book {
    let row = (0x0203, b"Unruh 50".to_vec());
    let lock = [(FILEPASS, Vec::new()), row, (EOF, Vec::new())];
    let kind = Kind::CryptoApi(bits, false);
    let mut book = Book::new(kind, kind.password(), &[before, &lock].concat());
    let at = book.headers[before.len()] + 4 + KEY_SIZE;
    book.locked[at..at + 4].copy_from_slice(&stated.to_le_bytes());
    book
}

fn small(bits: u32, stated: u32) -> Book {
    book(bits, stated, &[(BOF, Vec::new())])
}

/// A look, with guard bytes around the stream.
fn look(stream: &[u8]) -> Verdict {
    let lent = Guarded::with(stream);
    let verdict = sheet::look(lent.get());
    lent.check_untouched();
    verdict
}

fn yes(version: Option<(u16, u16)>, key_bits: Option<u32>) -> Verdict {
    Verdict::Yes(Facts {
        lock: match version {
            Some((1, 1)) => Some(Lock::Office97),
            Some((2, 2) | (3, 2) | (4, 2)) => Some(Lock::CryptoApi),
            _ => None,
        },
        version,
        key_bits,
    })
}

fn open(book: &Book) -> Result<Report, Refusal> {
    let mut scratch = [0; SCRATCH_LEN];
    let mut output = vec![0; book.locked.len()];
    let password = book.password.as_bytes();
    let answer = sheet::open(&book.locked, password, &mut scratch, &mut output);
    if answer.is_ok() {
        assert!(output == book.plain);
    }
    answer
}

#[test]
fn a_key_size_of_0_is_told_as_40() {
    for (stated, told) in [
        (0, Some(40)),
        (1, Some(1)),
        (39, Some(39)),
        (40, Some(40)),
        (128, Some(128)),
        (4095, Some(4095)),
        (4096, Some(4096)),
        (4097, None),
        (1 << 8 | 40, Some(296)),
        (1 << 16, None),
        (1 << 16 | 40, None),
        (1 << 31, None),
        (u32::MAX, None),
    ] {
        let verdict = look(&small(40, stated).locked);
        assert_eq!(verdict, yes(Some((4, 2)), told), "{stated}");
    }
}

#[test]
fn no_other_version_tells_a_key_size() {
    let locked = small(40, 0).locked;
    let body = 4 + 4;
    for major in [0, 1, 2, 3, 4, 5, 6, 0x0102, 0xFFFF] {
        for minor in [0, 1, 2, 3, 0x0202, 0xFFFF] {
            let mut stream = locked.clone();
            stream[body + 2..body + 4].copy_from_slice(&u16::to_le_bytes(major));
            stream[body + 4..body + 6].copy_from_slice(&u16::to_le_bytes(minor));
            let sized = (2..=4).contains(&major) && minor == 2;
            let told = yes(Some((major, minor)), sized.then_some(40));
            assert_eq!(look(&stream), told, "{major}.{minor}");
        }
    }
}

#[test]
fn any_type_but_0_tells_a_key_size() {
    let locked = small(40, 0).locked;
    for kind in [1, 2, 3, 0x0100, 0xFFFF] {
        let mut stream = locked.clone();
        stream[8..10].copy_from_slice(&u16::to_le_bytes(kind));
        assert_eq!(look(&stream), yes(Some((4, 2)), Some(40)), "{kind}");
    }
    let mut stream = locked;
    stream[8..10].copy_from_slice(&[0, 0]);
    let xor = Facts {
        lock: Some(Lock::Xor),
        version: None,
        key_bits: None,
    };
    assert_eq!(look(&stream), Verdict::Yes(xor));
}

#[test]
fn a_key_size_that_is_cut_is_none() {
    for stated in [0, 40] {
        let locked = small(40, stated).locked;
        // A body that the stream ends in, and one that is stated to end there.
        for len in 0..KEY_SIZE + 8 {
            let told = match len {
                0..=5 => yes(None, None),
                6..=33 => yes(Some((4, 2)), None),
                _ => yes(Some((4, 2)), Some(40)),
            };
            let cut = &locked[..8 + len];
            assert_eq!(look(cut), told, "{stated} cut at {len}");
            let mut ends = locked.clone();
            ends[6..8].copy_from_slice(&u16::to_le_bytes(len as u16));
            assert_eq!(look(&ends), told, "{stated} of {len}");
        }
    }
}

#[test]
fn key_sizes_0_and_40_are_different_locks() {
    let with = |stated: u32, major: u16, kind: u16| {
        let mut stream = small(40, stated).locked;
        stream[8..10].copy_from_slice(&kind.to_le_bytes());
        stream[10..12].copy_from_slice(&major.to_le_bytes());
        stream
    };
    let same = |a: &[u8], b: &[u8]| {
        let (a, b) = (Guarded::with(a), Guarded::with(b));
        let answer = sheet::same_lock(a.get(), b.get());
        assert_eq!(answer, sheet::same_lock(b.get(), a.get()));
        a.check_untouched();
        b.check_untouched();
        answer
    };
    // Whatever the version, and whatever the type other than 0, of which a look says the same.
    for major in 2..=5 {
        for kind in [1, 2, 0xFFFF] {
            let (zero, forty) = (with(0, major, kind), with(40, major, kind));
            assert_eq!(look(&zero), look(&forty), "{major} {kind}");
            assert!(!same(&zero, &forty), "{major} {kind}");
            assert!(same(&zero, &with(0, major, kind)), "{major} {kind}");
            assert!(same(&forty, &with(40, major, kind)), "{major} {kind}");
        }
    }
    // Other versions and other types are other locks, with the same key size too.
    for stated in [0, 40] {
        assert!(!same(&with(stated, 2, 1), &with(stated, 3, 1)), "{stated}");
        assert!(!same(&with(stated, 4, 1), &with(stated, 4, 2)), "{stated}");
        assert!(!same(&with(stated, 4, 1), &with(stated, 4, 0)), "{stated}");
    }
    // Key sizes of which a look reports none are told apart too.
    let sizes = [0, 1, 39, 40, 41, 48, 128, 4096, 4097, 1 << 24, u32::MAX];
    for a in sizes {
        for b in sizes {
            let (first, second) = (with(a, 4, 1), with(b, 4, 1));
            assert_eq!(same(&first, &second), a == b, "{a} {b}");
            // The streams end before the last byte of the key size.
            let end = 8 + KEY_SIZE + 3;
            let there = |size: u32| size & 0xFF_FFFF;
            let alike = there(a) == there(b);
            assert_eq!(same(&first[..end], &second[..end]), alike, "{a} {b}");
            assert!(!same(&first[..end], &second), "{a} {b}");
        }
    }
}

#[test]
fn a_look_tells_the_key_size_of_an_opening_up_to_its_last_byte() {
    // The offset of the lock's header by what a look still reads: the key size, all but its last byte and
    // less, the version, the type, the header, a part of it, nothing.
    for (behind, told) in [
        (39, yes(Some((4, 2)), Some(40))),
        (38, yes(Some((4, 2)), Some(40))),
        (37, yes(Some((4, 2)), None)),
        (35, yes(Some((4, 2)), None)),
        (34, yes(Some((4, 2)), None)),
        (10, yes(Some((4, 2)), None)),
        (9, yes(None, None)),
        (6, yes(None, None)),
        (4, yes(None, None)),
        (3, Verdict::Unknown),
        (1, Verdict::Unknown),
        (0, Verdict::Unknown),
    ] {
        let before = clear_front(LOOK_LEN - behind);
        for (bits, stated) in [(40, 0), (40, 40), (128, 128)] {
            let book = book(bits, stated, &before);
            assert_eq!(book.headers[before.len()], LOOK_LEN - behind);
            let report = open(&book).expect("the book opens");
            assert_eq!(
                (report.lock, report.key_bits),
                (Lock::CryptoApi, Some(bits))
            );
            let mut told = told;
            if let Verdict::Yes(facts) = &mut told {
                facts.key_bits = facts.key_bits.and(Some(bits));
            }
            assert_eq!(look(&book.locked), told, "{behind} {stated}");
        }
    }
}
