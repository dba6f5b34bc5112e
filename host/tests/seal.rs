//! Sealing: what is written, byte for byte, and that it opens again; every check on both sides, their
//! order, and every fact and buffer.

mod common;

use std::collections::BTreeMap;

use common::bare;
use common::book::{
    clear_len, header, joined, Book, BOF, BOUND_SHEET, CLEAR, EOF, FILEPASS, KINDS, ROW, SALT,
    SEVEN, VERIFIER,
};
use common::guarded::Guarded;
use common::lent::Lent;
use common::opening::refused;
use common::passwords::{last_changed, longest};
use common::sealing::{
    check, crypto_api, expected, facts, filepass, front, kind, room, sheet_with, with, CHOICES,
    ZERO,
};
use common::walk::walk;
use sheet::{Choice, Lock, Refusal, Verdict};
use sheet::{PASSWORD_MAX_LEN, SCRATCH_LEN, STREAM_MAX_LEN};

/// The stream's length at which a look ends, which sealing does not mind.
const MEBIBYTE: usize = 1 << 20;

/// A password that the lock takes.
fn password(choice: &Choice) -> &'static str {
    kind(choice).password()
}

/// Records of every kind that is treated apart, with rows of up to so many bytes.
fn records(rows: usize, longest: usize) -> Vec<(u16, Vec<u8>)> {
    let mut records = vec![
        (BOUND_SHEET, b"\0\0\0\0\0\0\x05\0Werke".to_vec()),
        (BOUND_SHEET, b"\0\0".to_vec()),
        (EOF, Vec::new()),
        (BOF, vec![0, 6, 16, 0]),
        // A FILEPASS behind the zero record stays, and so does a second zero record's id.
        (FILEPASS, vec![7; 9]),
        (ZERO, vec![0; 54]),
    ];
    for row in 0..rows {
        let body = (0..row * 31 % longest).map(|k| (row * 7 + k * 3) as u8);
        records.push((ROW, body.collect()));
    }
    records.push((EOF, Vec::new()));
    records
}

/// A plain stream of some hundred bytes with room for the lock.
fn small(choice: &Choice) -> Vec<u8> {
    sheet_with(room(choice), &records(8, 20))
}

/// A plain stream of several blocks.
fn long(choice: &Choice) -> Vec<u8> {
    sheet_with(room(choice), &records(40, 200))
}

/// Sees that a sealing with buffers that suffice is refused so, with every fact.
#[track_caller]
fn check_refused(plain: &[u8], password: &str, choice: &Choice, refusal: Refusal) {
    let bytes = password.as_bytes();
    assert_eq!(Lent::enough(plain, bytes).seal(choice), Err(refusal));
    assert_eq!(check(plain, password, choice), Err(refusal));
}

#[test]
fn every_lock_seals_and_opens_again() {
    for choice in CHOICES {
        for plain in [
            small(&choice),
            long(&choice),
            sheet_with(room(&choice), &[]),
        ] {
            for zeros in 0..=3 {
                let plain = [&plain[..], &vec![0; zeros]].concat();
                let sealed = check(&plain, password(&choice), &choice).unwrap();
                // Padding is copied.
                assert_eq!(sealed[plain.len() - zeros..], vec![0; zeros]);
                let body = room(&choice);
                let expected = Verdict::Yes(sheet::Facts {
                    version: match choice {
                        Choice::CryptoApi { major, .. } => Some((major, 2)),
                        _ => kind(&choice).facts(body).version,
                    },
                    ..kind(&choice).facts(body)
                });
                assert_eq!(sheet::look(&sealed), expected, "{choice:?}");
                assert_eq!(sheet::look(&plain), Verdict::No);
            }
        }
    }
}

#[test]
fn another_password_does_not_open_what_was_sealed() {
    for choice in CHOICES {
        let plain = long(&choice);
        let sealed = check(&plain, password(&choice), &choice).unwrap();
        for other in ["", "unruh", &last_changed(password(&choice)), "№"] {
            let answer = Lent::enough(&sealed, other.as_bytes()).open();
            assert_eq!(answer, refused(27, [0, 0]), "{choice:?} {other}");
        }
    }
}

#[test]
fn document_01_s_short_book() {
    // Its plain body BE 19 is 00 00 under XOR with the password A.
    let plain = joined(&[
        (BOF, vec![]),
        (ZERO, vec![0; 6]),
        (0x0042, vec![0xBE, 0x19]),
    ]);
    let sealed = check(&plain, "A", &Choice::Xor).unwrap();
    let locked = [
        0x09, 0x08, 0, 0, 0x2F, 0, 6, 0, 0, 0, 0x15, 0xB9, 0xC8, 0xCE, 0x42, 0, 2, 0, 0, 0,
    ];
    assert_eq!(sealed, locked);
}

#[test]
fn the_sample_comes_out_again_but_for_the_provider_s_name() {
    let stream = include_bytes!("../examples/calibres.bin");
    let text = include_str!("../examples/calibres.password");
    let password = text.trim_end();
    let mut opened = Lent::enough(stream, password.as_bytes());
    opened.open().unwrap();
    let sealed = check(opened.written(), password, &crypto_api(2, 128)).unwrap();
    let mut locked = stream.to_vec();
    // The name, behind 20 bytes of BOF, the header, the type and 44 bytes of the lock.
    let name = 20 + 4 + 2 + 44;
    assert_eq!(locked[name..name + 16], common::utf16("Provider"));
    locked[name..name + 16].fill(0);
    assert!(sealed == locked);
}

#[test]
fn a_book_that_was_opened_is_sealed_to_itself_outside_its_lock() {
    for choice in CHOICES {
        for book in [Book::small(kind(&choice)), Book::long(kind(&choice))] {
            let sealed = check(&book.plain, book.password, &choice).unwrap();
            let (at, end) = book.filepass();
            assert!(sealed[..at + 4] == book.locked[..at + 4]);
            assert!(sealed[end..] == book.locked[end..], "{choice:?}");
            if !matches!(choice, Choice::CryptoApi { .. }) {
                // There the lock has no choices of its own either.
                assert!(sealed == book.locked);
            }
        }
    }
}

#[test]
fn every_body_length_that_fits_is_filled() {
    for len in [106, 107, 108, 122, 255, 256, 1023, 1024, 1025, 1097, 1098] {
        for choice in [crypto_api(4, 128), crypto_api(3, 40)] {
            let plain = sheet_with(len, &records(8, 200));
            let sealed = check(&plain, password(&choice), &choice).unwrap();
            let body = &sealed[front(len) - len..front(len)];
            assert_eq!(body, filepass(&choice, password(&choice), len));
            let size = u32::from_le_bytes(body[10..14].try_into().unwrap());
            assert_eq!(size as usize, len - 74);
            // The provider's name.
            assert_eq!(body[46..len - 60], vec![0; len - 106]);
        }
    }
}

#[test]
fn every_major_number_and_every_key_size() {
    for major in (0..=300).chain([0x0102, 0x0200, 0x0402, 0xFFFF]) {
        let choice = crypto_api(major, 128);
        let answer = check(&small(&choice), password(&choice), &choice);
        match major {
            2..=4 => assert!(answer.is_ok(), "{major}"),
            _ => assert_eq!(answer, refused(13, [major.into(), 2]), "{major}"),
        }
    }
    let mut sizes = Vec::new();
    for key_size in (0..=300).chain([1024, 0x0001_0080, 0x8000_0028, u32::MAX]) {
        let choice = crypto_api(4, key_size);
        let answer = check(&small(&choice), password(&choice), &choice);
        match answer {
            Ok(_) => sizes.push(key_size),
            Err(_) => assert_eq!(answer, refused(23, [key_size.into(), 0]), "{key_size}"),
        }
    }
    assert_eq!(sizes, [40, 48, 56, 64, 72, 80, 88, 96, 104, 112, 120, 128]);
}

#[test]
fn every_body_length_of_the_zero_record() {
    for choice in CHOICES {
        for len in (0..=1200).chain([2048, 65_535]) {
            let plain = sheet_with(len, &[(ROW, vec![1, 2, 3])]);
            let answer = Lent::enough(&plain, password(&choice).as_bytes()).seal(&choice);
            let fits = match choice {
                Choice::Xor => len == 6,
                Choice::Office97 { .. } => len == 54,
                Choice::CryptoApi { .. } => (106..=1098).contains(&len),
            };
            match fits {
                true => assert!(answer.is_ok(), "{choice:?} {len}"),
                false => assert_eq!(answer, refused(31, [len as u64, 0]), "{choice:?}"),
            }
        }
        for len in [0, 5, 7, 53, 55, 105, 1099] {
            let refusal = Refusal::from_number(31, [len as u64, 0]);
            check_refused(&sheet_with(len, &[]), password(&choice), &choice, refusal);
        }
    }
}

#[test]
fn every_record_in_the_place_of_the_zero_record() {
    // All ids to well past those that may stand before it, and some whose bytes are swapped.
    for choice in [CHOICES[0], CHOICES[2]] {
        let zero = (ZERO, vec![0; room(&choice)]);
        for id in (0..=0x09FF).chain([0x2F00, 0xE100, 0x0100, 0xFF00, 0xFFFF]) {
            let plain = joined(&[(BOF, vec![]), (id, vec![0; 3]), zero.clone()]);
            let answer = Lent::enough(&plain, b"A").seal(&choice);
            let expected = match id {
                // It is the zero record, and its body does not fit.
                ZERO => refused(31, [3, 0]),
                FILEPASS => refused(30, [0, 0]),
                _ if SEVEN.contains(&id) => {
                    assert!(answer.is_ok(), "{id:04x}");
                    continue;
                }
                _ => refused(30, [0, 0]),
            };
            assert_eq!(answer, expected, "{id:04x}");
        }
    }
}

#[test]
fn a_body_with_any_other_byte_is_no_zero_record() {
    for choice in CHOICES {
        let len = room(&choice);
        let plain = sheet_with(len, &[(ZERO, vec![0; len]), (EOF, vec![])]);
        for place in 0..len {
            for byte in [0x01, 0x80] {
                let mut other = plain.clone();
                other[front(len) - len + place] = byte;
                // The zero record behind it is not the first of its id.
                let refusal = Refusal::from_number(30, [0, 0]);
                check_refused(&other, password(&choice), &choice, refusal);
            }
        }
        check(&plain, password(&choice), &choice).unwrap();
    }
}

#[test]
fn streams_without_a_zero_record() {
    for choice in CHOICES {
        let zero = (ZERO, vec![0; room(&choice)]);
        let lock = (FILEPASS, vec![0; room(&choice)]);
        for records in [
            vec![(BOF, vec![])],
            vec![(BOF, vec![]), (CLEAR, vec![2; 9])],
            vec![(BOF, vec![]), (EOF, vec![])],
            vec![(BOF, vec![]), (EOF, vec![]), zero.clone()],
            vec![(BOF, vec![]), (BOUND_SHEET, vec![0; 4]), zero.clone()],
            vec![(BOF, vec![]), lock.clone(), zero.clone()],
            vec![(BOF, vec![]), (FILEPASS, vec![]), zero.clone()],
            vec![(BOF, vec![]), (CLEAR, vec![]), lock.clone(), zero.clone()],
        ] {
            let refusal = Refusal::from_number(30, [0, 0]);
            check_refused(&joined(&records), password(&choice), &choice, refusal);
        }
        // What is sealed already, and what is locked otherwise.
        let plain = small(&choice);
        let sealed = check(&plain, password(&choice), &choice).unwrap();
        for stream in [sealed, Book::small(kind(&choice)).locked] {
            let refusal = Refusal::from_number(30, [0, 0]);
            check_refused(&stream, password(&choice), &choice, refusal);
        }
        // Behind all of the others that are never enciphered, and before a FILEPASS.
        let mut records = vec![];
        records.extend([BOF, CLEAR, 0x0138, 0x0194, 0x0195, 0x0196].map(|id| (id, vec![9; 5])));
        records.extend([zero, lock, (ROW, vec![8; 8])]);
        check(&joined(&records), password(&choice), &choice).unwrap();
    }
}

#[test]
fn a_stream_cut_at_every_length() {
    for choice in CHOICES {
        let plain = small(&choice);
        let mut numbers = BTreeMap::new();
        for len in 0..=plain.len() {
            let answer = check(&plain[..len], password(&choice), &choice);
            let number = answer.err().map_or(0, |refusal| refusal.number());
            // A cut behind one or two zeros of a header leaves padding.
            let expected = match walk(&plain[..len]).1 {
                Some(_) => 6,
                None if len == 0 => 7,
                None if len < front(room(&choice)) => 30,
                None => 0,
            };
            assert_eq!(number, expected, "{choice:?} {len}");
            *numbers.entry(number).or_insert(0) += 1;
        }
        assert!(numbers.into_keys().eq([0, 6, 7, 30]));
    }
}

#[test]
fn passwords_for_xor() {
    let plain = small(&Choice::Xor);
    let refusal = Refusal::from_number(32, [0, 0]);
    for character in ['A', '\u{0}', '\u{7F}', '\u{80}', 'ß', '\u{FF}'] {
        for count in 0..=17 {
            let password = String::from(character).repeat(count);
            match count {
                1..=15 => drop(check(&plain, &password, &Choice::Xor).unwrap()),
                _ => check_refused(&plain, &password, &Choice::Xor, refusal),
            }
        }
    }
    for wide in ['\u{100}', '\u{141}', '№', '🕰'] {
        for count in 0..15 {
            for place in 0..=count {
                let mut password: Vec<char> = "Ankerhemmung 7"[..count].chars().collect();
                password.insert(place, wide);
                let password: String = password.into_iter().collect();
                check_refused(&plain, &password, &Choice::Xor, refusal);
            }
        }
    }
    for password in longest() {
        check_refused(&plain, password, &Choice::Xor, refusal);
    }
}

#[test]
fn passwords_for_the_others() {
    for choice in &CHOICES[1..] {
        for password in ["", "A", "№", "🕰", "sixteen letters!"] {
            check(&small(choice), password, choice).unwrap();
        }
        for password in longest() {
            assert_eq!(password.len(), PASSWORD_MAX_LEN);
            let sealed = check(&long(choice), password, choice).unwrap();
            let other = last_changed(password);
            let answer = Lent::enough(&sealed, other.as_bytes()).open();
            assert_eq!(answer, refused(27, [0, 0]));
        }
    }
}

#[test]
fn passwords_that_are_too_long_or_not_utf8() {
    for choice in CHOICES {
        let plain = small(&choice);
        let seal = |password: &[u8]| {
            let answer = Lent::enough(&plain, password).seal(&choice);
            assert_eq!(bare::seal(&plain, password, &choice), facts(&answer));
            answer
        };
        for len in [1025, 1026, 4096] {
            assert_eq!(seal(&vec![b'x'; len]), refused(1, [0, 0]));
        }
        for bytes in [
            &b"\xFF"[..],
            b"\xC3",
            b"\xC0\x80",
            b"\xED\xA0\x80",
            b"Unruh\xF4\x90\x80\x80",
        ] {
            assert_eq!(seal(bytes), refused(2, [0, 0]));
        }
    }
}

#[test]
fn scratch_of_every_length_around_its_limit() {
    for choice in CHOICES {
        let plain = small(&choice);
        let password = password(&choice);
        let (sealed, report) = expected(&plain, password, &choice).unwrap();
        for len in (0..=130).chain([2063, 2064, 2065, 5000]) {
            let mut lent = Lent::new(&plain, password.as_bytes(), len, plain.len());
            let bare = bare::seal_lent(&plain, password.as_bytes(), &choice, len);
            if len < 64 {
                assert_eq!(lent.seal(&choice), refused(3, [0, 0]), "{choice:?} {len}");
                assert_eq!(bare, (3, [0; 8]));
            } else {
                assert_eq!(lent.seal_to(&choice, &sealed), report, "{choice:?} {len}");
                assert_eq!(bare, facts(&Ok(report)));
            }
        }
    }
}

#[test]
fn what_stands_in_the_buffers_makes_no_difference() {
    for choice in CHOICES {
        let plain = long(&choice);
        let (sealed, report) = expected(&plain, password(&choice), &choice).unwrap();
        for fill in [0x00, 0x36, 0x80, 0xFF] {
            let mut scratch = vec![fill; 2064];
            let mut output = vec![fill; plain.len() + 5];
            let bytes = password(&choice).as_bytes();
            let answer = sheet::seal(&plain, bytes, &choice, &mut scratch, &mut output);
            assert_eq!(answer, Ok(report));
            assert!(output == [&sealed[..], &[fill; 5]].concat());
            assert_eq!(scratch, [vec![0; 64], vec![fill; 2000]].concat());
        }
    }
}

#[test]
fn output_of_every_length_around_the_stream() {
    for choice in CHOICES {
        for zeros in 0..=3 {
            let plain = [small(&choice), vec![0; zeros]].concat();
            let password = password(&choice);
            let (sealed, report) = expected(&plain, password, &choice).unwrap();
            let all = plain.len();
            for len in [0, 1, all - 4, all - 1, all, all + 1, all + 4000] {
                let mut lent = Lent::new(&plain, password.as_bytes(), SCRATCH_LEN, len);
                if len < all {
                    assert_eq!(lent.seal(&choice), refused(5, [0, 0]), "{choice:?} {len}");
                } else {
                    assert_eq!(lent.seal_to(&choice, &sealed), report);
                }
            }
        }
    }
}

#[test]
fn empty_slices() {
    for choice in CHOICES {
        let answer = sheet::seal(&[], &[], &choice, &mut [], &mut []);
        assert_eq!(answer, refused(3, [0, 0]));
        assert_eq!(Lent::enough(&[], &[]).seal(&choice), refused(7, [0, 0]));
        let plain = small(&choice);
        let mut lent = Lent::new(&plain, b"A", SCRATCH_LEN, 0);
        assert_eq!(lent.seal(&choice), refused(5, [0, 0]));
        // An empty password is one that RC4 takes.
        let answer = Lent::enough(&plain, &[]).seal(&choice);
        match choice {
            Choice::Xor => assert_eq!(answer, refused(32, [0, 0])),
            _ => assert!(answer.is_ok()),
        }
    }
}

#[test]
fn a_stream_longer_than_its_limit() {
    // Zeros that are never touched take no memory. Each four of them are a record of no bytes.
    let mut plain = vec![0; STREAM_MAX_LEN + 4];
    let mut output = vec![0; STREAM_MAX_LEN + 4];
    plain[..2].copy_from_slice(&BOF.to_le_bytes());
    for choice in CHOICES {
        let mut scratch = Guarded::filled(SCRATCH_LEN);
        for len in [STREAM_MAX_LEN + 1, STREAM_MAX_LEN + 4] {
            for room in [0, len - 1, len] {
                let output = &mut output[..room];
                let answer = sheet::seal(&plain[..len], b"A", &choice, scratch.get_mut(), output);
                assert_eq!(answer, refused(4, [0, 0]), "{choice:?} {len}");
                scratch.check_untouched();
            }
            // 3 comes before it.
            let answer = sheet::seal(&plain[..len], b"A", &choice, &mut [0; 63], &mut []);
            assert_eq!(answer, refused(3, [0, 0]));
        }
        let plain = &plain[..STREAM_MAX_LEN];
        let short = &mut output[..STREAM_MAX_LEN - 1];
        let answer = sheet::seal(plain, b"A", &choice, scratch.get_mut(), short);
        assert_eq!(answer, refused(5, [0, 0]));
        scratch.check_untouched();
        // A gibibyte is walked, and its zero record has no room.
        let output = &mut output[..STREAM_MAX_LEN];
        let answer = sheet::seal(plain, b"A", &choice, scratch.get_mut(), output);
        assert_eq!(answer, refused(31, [0, 0]));
        scratch.check_guards();
        assert_eq!(scratch.get(), [0; SCRATCH_LEN]);
    }
}

#[test]
fn streams_around_a_mebibyte() {
    for choice in CHOICES {
        for len in [MEBIBYTE - 1, MEBIBYTE, MEBIBYTE + 1] {
            for zeros in [0, 3] {
                let mut rows = vec![(ROW, vec![5; 49_996]); 20];
                let last = len - zeros - front(room(&choice)) - 20 * 50_000 - 4;
                rows.push((ROW, vec![6; last]));
                let plain = [sheet_with(room(&choice), &rows), vec![0; zeros]].concat();
                assert_eq!(plain.len(), len);
                let sealed = check(&plain, password(&choice), &choice).unwrap();
                assert_eq!(sealed.len(), len);
            }
        }
        // The zero record stands behind the first mebibyte.
        let mut records = vec![(BOF, vec![0, 6, 5, 0])];
        records.extend(vec![(CLEAR, vec![0; 65_532]); 16]);
        records.extend([(ZERO, vec![0; room(&choice)]), (ROW, vec![7; 3000])]);
        let plain = joined(&records);
        assert_eq!(walk(&plain).0[17].0, MEBIBYTE + 8);
        check(&plain, password(&choice), &choice).unwrap();
        // And it is looked for there, where it is not in order.
        records[17].1[3] = 1;
        let refusal = Refusal::from_number(30, [0, 0]);
        check_refused(&joined(&records), password(&choice), &choice, refusal);
        records[17].1 = vec![0; 5];
        let refusal = Refusal::from_number(31, [5, 0]);
        check_refused(&joined(&records), password(&choice), &choice, refusal);
    }
}

#[test]
fn a_block_s_end_in_every_part_of_a_record() {
    for choice in CHOICES {
        // The first block ends in a row's body, in the header behind it, in a body, and in padding.
        for len in 1000..=1030 {
            for zeros in 0..=3 {
                let row = len - front(room(&choice)) - 4;
                let records = [(ROW, vec![9; row]), (ROW, vec![3; 5])];
                let plain = [sheet_with(room(&choice), &records), vec![0; zeros]].concat();
                check(&plain, password(&choice), &choice).unwrap();
            }
        }
    }
}

/// What is checked, in this order. 4, which takes a gibibyte, has a test of its own.
const CHECKS: [u32; 11] = [1, 2, 3, 5, 6, 7, 13, 23, 30, 31, 32];

/// Sees that of these, all wrong, the first is told.
#[track_caller]
fn check_first(numbers: &[u32], xor: bool) {
    let wrong = |number: u32| numbers.contains(&number);
    let choice = match xor {
        true => Choice::Xor,
        false => crypto_api(
            if wrong(13) { 5 } else { 4 },
            if wrong(23) { 44 } else { 128 },
        ),
    };
    let (mut first, mut len) = (BOF, room(&choice));
    if wrong(7) {
        first = CLEAR;
    }
    if wrong(31) {
        len = 7;
    }
    let before = if wrong(30) { EOF } else { CLEAR };
    let mut plain = joined(&[
        (first, vec![]),
        (before, vec![]),
        (ZERO, vec![0; len]),
        (ROW, vec![1, 2, 3]),
    ]);
    let whole = plain.len() as u64;
    if wrong(6) {
        plain.extend([0, 0, 1]);
    }
    let password: Vec<u8> = match (wrong(1), wrong(2), wrong(32)) {
        (true, true, _) => vec![0xFF; 1025],
        (true, false, _) => vec![b'x'; 1025],
        (false, true, _) => vec![0xFF; 16],
        (false, false, true) => vec![b'x'; 16],
        (false, false, false) => vec![b'x'],
    };
    let scratch = if wrong(3) { 63 } else { SCRATCH_LEN };
    let output = if wrong(5) {
        plain.len() - 1
    } else {
        plain.len()
    };
    let number = numbers[0];
    let details = match number {
        6 => [whole, 0],
        13 => [5, 2],
        23 => [44, 0],
        31 => [7, 0],
        _ => [0, 0],
    };
    let answer = Lent::new(&plain, &password, scratch, output).seal(&choice);
    assert_eq!(answer, refused(number, details), "of {numbers:?} the first");
}

#[test]
fn every_refusal_comes_alone_and_before_all_that_are_behind_it() {
    for xor in [true, false] {
        let arises = |number: &u32| match number {
            13 | 23 => !xor,
            32 => xor,
            _ => true,
        };
        let numbers: Vec<u32> = CHECKS.into_iter().filter(arises).collect();
        for (k, first) in numbers.iter().enumerate() {
            check_first(&[*first], xor);
            for second in &numbers[k + 1..] {
                check_first(&[*first, *second], xor);
            }
            check_first(&numbers[k..], xor);
        }
    }
}

#[test]
fn two_passwords_give_equal_bytes_wherever_nothing_is_enciphered() {
    for choice in CHOICES {
        let plain = [long(&choice), vec![0; 3]].concat();
        let [a, b] = ["Unruh", "Spirale"].map(|text| check(&plain, text, &choice).unwrap());
        let mut clear = plain.clone();
        for (at, id, body) in walk(&plain).0 {
            let kept = at + 4 + clear_len(id, body.len());
            clear[kept..at + 4 + body.len()].fill(0xEE);
        }
        let lock = front(0)..front(room(&choice));
        let id = lock.start - 4..lock.start - 2;
        let mut differ = 0;
        for place in 0..plain.len() {
            if lock.contains(&place) {
                continue;
            }
            if id.contains(&place) {
                assert_eq!(a[place], b[place]);
            } else if a[place] == b[place] {
                continue;
            } else {
                // Only what is enciphered can differ.
                assert_eq!(clear[place], 0xEE, "{choice:?} {place}");
                differ += 1;
            }
        }
        assert!(differ > 1000, "{differ}");
        assert_eq!(a[id.clone()], FILEPASS.to_le_bytes());
    }
}

#[test]
fn each_salt_and_each_verifier_makes_a_difference() {
    let others = [*b"another salt, 16", *b"another verifier"];
    for choice in &CHOICES[1..] {
        let plain = long(choice);
        let len = room(choice);
        let sealed = |salt, verifier| {
            let choice = with(*choice, salt, verifier);
            check(&plain, password(&choice), &choice).unwrap()
        };
        let first = sealed(SALT, VERIFIER);
        let other_verifier = sealed(SALT, others[1]);
        let other_salt = sealed(others[0], VERIFIER);
        let lock = front(0)..front(len);
        // The keystream is that of the password and the salt.
        assert!(first[lock.end..] == other_verifier[lock.end..]);
        assert!(first[lock.clone()] != other_verifier[lock.clone()]);
        assert!(first[lock.end..] != other_salt[lock.end..]);
        // The salt stands there, and the verifier does not.
        let body = |sealed: &[u8]| sealed[lock.clone()].to_vec();
        let stands =
            |sealed: &[u8], bytes: [u8; 16]| body(sealed).windows(16).any(|window| window == bytes);
        assert!(stands(&first, SALT) && stands(&other_salt, others[0]));
        assert!(!stands(&first, VERIFIER) && !stands(&other_verifier, others[1]));
        for salt in [[0; 16], [0xFF; 16], SALT] {
            for verifier in [[0; 16], [0xFF; 16], VERIFIER] {
                sealed(salt, verifier);
            }
        }
    }
}

#[test]
fn two_sheets_under_one_password_and_salt_give_away_their_exclusive_or() {
    // What the header warns of.
    for choice in &CHOICES[1..] {
        let sheet = |byte: u8| sheet_with(room(choice), &[(ROW, vec![byte; 3000])]);
        let [a, b] = [0x11, 0x5C].map(sheet);
        let [sealed_a, sealed_b] =
            [&a, &b].map(|plain| check(plain, password(choice), choice).unwrap());
        for place in front(room(choice)) + 4..a.len() {
            assert_eq!(
                sealed_a[place] ^ sealed_b[place],
                a[place] ^ b[place],
                "{place}"
            );
        }
    }
}

#[test]
fn a_report_is_what_was_forecast_of_the_sealed_stream() {
    for choice in CHOICES {
        let plain = long(&choice);
        let mut lent = Lent::enough(&plain, password(&choice).as_bytes());
        let report = lent.seal(&choice).unwrap();
        let told = sheet::forecast(lent.written()).unwrap();
        assert_eq!(
            [told.output_bytes, told.records],
            [report.output_bytes, report.records]
        );
        assert_eq!(
            [told.enciphered_body_bytes, told.block_keys],
            [report.enciphered_body_bytes, report.block_keys]
        );
        let (lock, bits) = match choice {
            Choice::Xor => (Lock::Xor, None),
            Choice::Office97 { .. } => (Lock::Office97, Some(40)),
            Choice::CryptoApi { key_bits, .. } => (Lock::CryptoApi, Some(key_bits)),
        };
        assert_eq!(
            (report.lock, report.key_bits, report.summary_sealed),
            (lock, bits, false)
        );
    }
}

#[test]
fn a_sheet_moves_from_lock_to_lock_where_its_record_fits() {
    // Opened from one lock and sealed under each: 31 tells the length that is there.
    for book in KINDS.map(Book::small) {
        let len = book.kind.filepass(book.password).len();
        for choice in CHOICES {
            let answer = check(&book.plain, password(&choice), &choice);
            let fits = matches!(
                (len, choice),
                (6, Choice::Xor)
                    | (54, Choice::Office97 { .. })
                    | (106..=1098, Choice::CryptoApi { .. })
            );
            match fits {
                true => assert!(answer.is_ok()),
                false => assert_eq!(answer, refused(31, [len as u64, 0])),
            }
        }
    }
}

#[test]
fn random_sheets_are_answered_as_the_documents_say() {
    let mut draw = common::draws(7);
    // How often each came: 0 is sealed.
    let mut counts = BTreeMap::new();
    let mut padded = 0;
    for _ in 0..6_000 {
        let choice = match draw(8) {
            0 => CHOICES[0],
            1 => CHOICES[1],
            2 => crypto_api(draw(7) as u16, 128),
            3 => crypto_api(3, draw(140) as u32),
            _ => crypto_api(2 + draw(3) as u16, 40 + 8 * draw(12) as u32),
        };
        let mut bytes = || std::array::from_fn(|_| draw(256) as u8);
        let (salt, verifier) = (bytes(), bytes());
        let choice = with(choice, salt, verifier);
        let mut records = vec![(if draw(30) == 0 { EOF } else { BOF }, vec![7; draw(5)])];
        for _ in 0..draw(3) {
            let id = [CLEAR, 0x0138, 0x0194, 0x0195, 0x0196, BOF, FILEPASS, ROW][draw(8)];
            records.push((id, vec![0; draw(9)]));
        }
        let len = match draw(10) {
            0 => draw(1200),
            _ => room(&choice) + usize::from(room(&choice) == 106) * draw(993),
        };
        let mut body = vec![0; len];
        if draw(10) == 0 && len > 0 {
            body[draw(len)] = 1;
        }
        records.push((if draw(20) == 0 { ROW } else { ZERO }, body));
        for _ in 0..draw(9) {
            let id = [ROW, BOUND_SHEET, EOF, BOF, CLEAR, FILEPASS, ZERO][draw(7)];
            let longest = [1, 7, 40, 900][draw(4)];
            let body = (0..draw(longest)).map(|_| draw(256) as u8).collect();
            records.push((id, body));
        }
        let mut plain = joined(&records);
        if draw(20) == 0 {
            plain.truncate(draw(plain.len() + 1));
        }
        let zeros = draw(4);
        plain.resize(plain.len() + zeros, 0);
        let most = [3, 15, 18, 200][draw(4)];
        let limit = [0x80, 0x100, 0x180, 0x3000][draw(4)];
        let character = |draw: &mut dyn FnMut(usize) -> usize| {
            char::from_u32(draw(limit) as u32).expect("no surrogate")
        };
        let password: String = (0..draw(most)).map(|_| character(&mut draw)).collect();
        let answer = check(&plain, &password, &choice);
        let number = answer.as_ref().err().map_or(0, Refusal::number);
        *counts.entry(number).or_insert(0) += 1;
        padded += usize::from(number == 0 && zeros > 0);
    }
    for number in [0, 6, 7, 13, 23, 30, 31, 32] {
        assert!(counts.get(&number).is_some_and(|n| *n > 50), "{counts:?}");
    }
    assert!(padded > 500, "{padded}");
}

#[test]
fn four_zeros_are_a_record_and_what_is_left_of_more_is_padding() {
    for choice in CHOICES {
        for zeros in 0..=13 {
            let plain = [small(&choice), vec![0; zeros]].concat();
            let sealed = check(&plain, password(&choice), &choice).unwrap();
            assert_eq!(sealed[plain.len() - zeros..], vec![0; zeros]);
            assert_eq!(
                walk(&sealed).0.len(),
                walk(&small(&choice)).0.len() + zeros / 4
            );
        }
        // Four zeros where the lock should go are a zero record without a body.
        let plain = [header(BOF, 0), vec![0; 4]].concat();
        let refusal = Refusal::from_number(31, [0, 0]);
        check_refused(&plain, password(&choice), &choice, refusal);
    }
}
