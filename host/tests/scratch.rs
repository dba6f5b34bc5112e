//! The scratch of an opening: 64 bytes suffice, exactly the first 64 end zero, and how many more are
//! lent makes no difference to reports, refusals and output.
//!
//! All lengths here are written out, as hosts know them: 64, and the 2,064 that they may lend too.

mod common;

use std::collections::BTreeSet;

use common::book::{joined, Book, Kind, BOF, EOF, FILEPASS, KINDS};
use common::guarded::Guarded;
use common::lent::Lent;
use common::opening::refused;
use common::parts::{PARTS, QUESTIONS};
use common::passwords::{last_changed, longest};
use common::{bare, draws, utf16};
use sheet::{Refusal, SCRATCH_LEN, STREAM_MAX_LEN};

/// Lengths that are too short.
const SHORT: [usize; 3] = [0, 1, 63];

/// Lengths that suffice.
const ENOUGH: [usize; 9] = [64, 65, 127, 128, 2063, 2064, 2065, 2070, 5000];

/// The least that suffices, and a length that hosts lend.
const BOTH: [usize; 2] = [64, 2064];

/// The locks that hash the password.
fn hashed() -> impl Iterator<Item = Kind> {
    KINDS.into_iter().filter(|kind| *kind != Kind::Xor)
}

/// Buffers for an opening, of which the scratch has so many bytes and the output suffices.
fn lent(stream: &[u8], password: &[u8], scratch: usize) -> Lent {
    Lent::new(stream, password, scratch, stream.len())
}

/// A stream, a password, and the refusal of an opening that is lent enough.
type Refused = (Vec<u8>, &'static str, Refusal);

/// Each refusal from 6 to 27: of a CryptoAPI lock with one field changed, and for every kind of a book
/// and of a lock that are cut anywhere, of another record before the lock, and of another password.
fn refused_streams() -> Vec<Refused> {
    let mut cases: Vec<Refused> = Vec::new();
    for number in QUESTIONS {
        let mut parts = PARTS;
        parts.spoil(number);
        let refusal = Refusal::from_number(number, parts.details(number));
        cases.push((parts.stream(), "A", refusal));
    }
    for kind in KINDS {
        let book = Book::small(kind);
        for len in 0..book.locked.len() {
            if let Some(refusal) = book.refusal_in(len) {
                cases.push((book.locked[..len].to_vec(), book.password, refusal));
            }
        }
        let lock = kind.filepass(book.password);
        for len in 0..lock.len() {
            let stream = joined(&[(BOF, vec![]), (FILEPASS, lock[..len].to_vec())]);
            let (number, details) = kind.cut_at(len);
            cases.push((stream, book.password, Refusal::from_number(number, details)));
        }
        let stream = joined(&[(BOF, vec![]), (EOF, vec![]), (FILEPASS, lock)]);
        let other_record = Refusal::from_number(9, [EOF.into(), 0]);
        cases.push((stream, book.password, other_record));
        for password in ["", "unruh", last_changed(book.password).leak()] {
            cases.push((
                book.locked.clone(),
                password,
                Refusal::from_number(27, [0, 0]),
            ));
        }
    }
    let numbers: BTreeSet<u32> = cases.iter().map(|case| case.2.number()).collect();
    assert!(numbers.into_iter().eq(6..=27));
    cases
}

#[test]
fn the_wrapper_asks_for_64_bytes() {
    assert_eq!(SCRATCH_LEN, 64);
}

#[test]
fn a_book_opens_alike_with_any_scratch_of_64_bytes_or_more() {
    for kind in KINDS {
        for book in [Book::small(kind), Book::long(kind)] {
            let (stream, password) = (&book.locked[..], book.password.as_bytes());
            let (number, facts) = bare::open_lent(stream, password, 64);
            assert_eq!(number, 0);
            for len in SHORT {
                let answer = lent(stream, password, len).open();
                assert_eq!(answer, refused(3, [0, 0]), "{kind:?} {len}");
                assert_eq!(bare::open_lent(stream, password, len), (3, [0; 8]));
            }
            for len in ENOUGH {
                let report = lent(stream, password, len).open_to(&book.plain);
                assert_eq!(report, book.report_in(stream.len()), "{kind:?} {len}");
                assert_eq!(bare::open_lent(stream, password, len), (0, facts));
            }
        }
    }
}

#[test]
fn what_stands_in_the_scratch_makes_no_difference() {
    for kind in KINDS {
        let book = Book::long(kind);
        for fill in [0x00, 0x36, 0x80, 0xFF] {
            let mut scratch = vec![fill; 2064];
            let mut output = vec![fill; book.locked.len()];
            let password = book.password.as_bytes();
            let report = sheet::open(&book.locked, password, &mut scratch, &mut output);
            assert_eq!(report, Ok(book.report_in(book.locked.len())));
            assert!(output == book.plain, "{kind:?} {fill:x}");
            assert_eq!(scratch, [vec![0; 64], vec![fill; 2000]].concat());
        }
    }
}

#[test]
fn refusals_from_6_on_are_the_same_with_64_bytes_and_with_more() {
    for (stream, password, refusal) in refused_streams() {
        let password = password.as_bytes();
        for len in BOTH {
            assert_eq!(lent(&stream, password, len).open(), Err(refusal), "{len}");
        }
        let answers = BOTH.map(|len| bare::open_lent(&stream, password, len));
        assert_eq!(answers[0], answers[1]);
    }
}

#[test]
fn refusals_up_to_5_leave_a_scratch_of_either_length_as_it_was() {
    for kind in KINDS {
        let book = Book::small(kind);
        let (stream, password) = (&book.locked[..], book.password.as_bytes());
        for len in BOTH {
            let answer = lent(stream, &[b'A'; 1025], len).open();
            assert_eq!(answer, refused(1, [0, 0]), "{kind:?} {len}");
            let answer = lent(stream, b"\xC3", len).open();
            assert_eq!(answer, refused(2, [0, 0]), "{kind:?} {len}");
            for output in [0, stream.len() - 1] {
                let answer = Lent::new(stream, password, len, output).open();
                assert_eq!(answer, refused(5, [0, 0]), "{kind:?} {len}");
            }
        }
    }
}

#[test]
fn question_3_comes_behind_1_and_2_and_before_the_others() {
    for kind in KINDS {
        let book = Book::small(kind);
        let (stream, password) = (&book.locked[..], book.password.as_bytes());
        let answer = lent(stream, &[b'A'; 1025], 63).open();
        assert_eq!(answer, refused(1, [0, 0]), "{kind:?}");
        let answer = lent(stream, b"\xC3", 63).open();
        assert_eq!(answer, refused(2, [0, 0]), "{kind:?}");
        let answer = Lent::new(stream, password, 63, stream.len() - 1).open();
        assert_eq!(answer, refused(3, [0, 0]), "{kind:?}");
    }
    for (stream, password, refusal) in refused_streams() {
        let answer = lent(&stream, password.as_bytes(), 63).open();
        assert_eq!(answer, refused(3, [0, 0]), "before {refusal:?}");
    }
}

#[test]
fn question_3_comes_before_4() {
    // A book, and zeros behind it, each four of them a record of no bytes: nothing but the length is
    // wrong with it. The zeros and the output are never touched, so they take no memory.
    let book = Book::small(Kind::Xor);
    let mut stream = vec![0; STREAM_MAX_LEN + 1];
    stream[..book.locked.len()].copy_from_slice(&book.locked);
    let mut output = vec![0; STREAM_MAX_LEN + 1];
    for (len, number) in [(0, 3), (63, 3), (64, 4), (2064, 4)] {
        let mut scratch = Guarded::filled(len);
        let password = book.password.as_bytes();
        let answer = sheet::open(&stream, password, scratch.get_mut(), &mut output);
        assert_eq!(answer, refused(number, [0, 0]), "{len}");
        scratch.check_untouched();
    }
}

#[test]
fn passwords_of_1024_bytes() {
    let encoded = longest().map(|password| utf16(password).len());
    assert_eq!(encoded, [2048, 1024, 684, 1024]);
    for password in longest() {
        assert_eq!(password.len(), 1024);
        let other = last_changed(password);
        for len in BOTH {
            for kind in hashed() {
                let book = Book::long_under(kind, password);
                let all = book.locked.len();
                let report = lent(&book.locked, password.as_bytes(), len).open_to(&book.plain);
                assert_eq!(report, book.report_in(all), "{kind:?} {len}");
                let answer = lent(&book.locked, other.as_bytes(), len).open();
                assert_eq!(answer, refused(27, [0, 0]), "{kind:?} {len}");
            }
            let book = Book::long(Kind::Xor);
            for password in [password, &other] {
                let answer = lent(&book.locked, password.as_bytes(), len).open();
                assert_eq!(answer, refused(27, [0, 0]), "{len}");
            }
        }
    }
}

/// Sees that a password opens its book under each lock that hashes it, with 64 bytes of scratch, and
/// that it does not with another last character.
#[track_caller]
fn check_password(password: &'static str) {
    for kind in hashed() {
        let book = Book::least(kind, password);
        lent(&book.locked, password.as_bytes(), 64).open_to(&book.plain);
        if !password.is_empty() {
            let other = last_changed(password);
            let answer = lent(&book.locked, other.as_bytes(), 64).open();
            assert_eq!(answer, refused(27, [0, 0]), "{kind:?} {password:?}");
        }
    }
}

#[test]
fn passwords_that_end_at_each_place_of_a_hash_s_blocks() {
    // Characters of one byte to four. Those of four are two units of UTF-16, which begin at an even
    // place or, behind a letter, at an odd one.
    for (front, first) in [("", 'A'), ("", 'à'), ("", '一'), ("", '🕐'), ("z", '🕐')] {
        let character = |place: u32| {
            let scalar = u32::from(first) + place * 7 % 23;
            char::from_u32(scalar).expect("no surrogate")
        };
        // More than three blocks of 32 units, whatever stands before the text in the first.
        for count in 0..=108 {
            let text: String = (0..count).map(character).collect();
            check_password((front.to_string() + &text).leak());
        }
    }
}

#[test]
fn passwords_of_drawn_characters() {
    let mut draw = draws(64);
    // How many passwords have a pair of UTF-16 units that one block of 64 bytes ends in the middle
    // of, under 1.1 and under CryptoAPI, where 16 bytes of salt come first.
    let mut halved = [0; 2];
    for _ in 0..400 {
        let limit = [30, 130, 400, 1024][draw(4)];
        let mut password = String::new();
        loop {
            let (first, count) = [
                (0x20, 0x5F),
                (0x80, 0x780),
                (0x800, 0xD000),
                (0xE000, 0x2000),
                (0x1_0000, 0x10_0000),
                (0x1_0000, 0x10_0000),
            ][draw(6)];
            let scalar = first + draw(count) as u32;
            let character = char::from_u32(scalar).expect("no surrogate");
            if password.len() + character.len_utf8() > limit {
                break;
            }
            password.push(character);
        }
        let units: Vec<u16> = password.encode_utf16().collect();
        for (count, salt) in halved.iter_mut().zip([0, 8]) {
            let first_of_pair = |unit: u16| (0xD800..0xDC00).contains(&unit);
            let mut last = (31 - salt..units.len()).step_by(32);
            *count += usize::from(last.any(|place| first_of_pair(units[place])));
        }
        check_password(password.leak());
    }
    assert!(halved.iter().all(|count| *count > 50), "{halved:?}");
}
