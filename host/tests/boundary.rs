//! Every function through the wrapper, on buffers of every length around each limit, with guard
//! bytes around each buffer. The directory, the forecast, padding, the scratch and sealing have their
//! own tests, in directory.rs, forecast.rs, padding.rs, scratch.rs and seal.rs.

mod common;

use common::book::{clear_len, Book, Kind, BOF, FILEPASS, KINDS};
use common::guarded::Guarded;
use common::lent::Lent;
use common::opening::refused;
use sheet::{Choice, Fault, Record, Refusal, Verdict};
use sheet::{PASSWORD_MAX_LEN, SCRATCH_LEN, STREAM_MAX_LEN};

#[test]
fn every_lock_opens() {
    for kind in KINDS {
        for book in [Book::small(kind), Book::long(kind)] {
            let mut lent = Lent::enough(&book.locked, book.password.as_bytes());
            let report = lent.open_to(&book.plain);
            assert_eq!(report, book.report_in(book.locked.len()));
        }
    }
}

#[test]
fn another_password_is_refused() {
    for kind in KINDS {
        let book = Book::small(kind);
        for password in ["", "unruh", "Unruh & 28800/H", "Unruh & 28800/h!", "№"] {
            let answer = Lent::enough(&book.locked, password.as_bytes()).open();
            assert_eq!(answer, refused(27, [0, 0]), "{kind:?} {password}");
        }
    }
}

#[test]
fn scratch_of_every_length_around_its_limit() {
    for kind in KINDS {
        let book = Book::small(kind);
        for len in (0..=130).chain([2063, 2064, 2065, 5000]) {
            let password = book.password.as_bytes();
            let mut lent = Lent::new(&book.locked, password, len, book.locked.len());
            if len < 64 {
                assert_eq!(lent.open(), refused(3, [0, 0]), "{kind:?} {len}");
            } else {
                lent.open_to(&book.plain);
            }
        }
    }
}

#[test]
fn output_of_every_length_around_the_stream() {
    for kind in KINDS {
        let book = Book::small(kind);
        let all = book.locked.len();
        for len in [0, 1, all - 1, all, all + 1, all + 4000] {
            let password = book.password.as_bytes();
            let mut lent = Lent::new(&book.locked, password, SCRATCH_LEN, len);
            if len < all {
                assert_eq!(lent.open(), refused(5, [0, 0]), "{kind:?} {len}");
            } else {
                lent.open_to(&book.plain);
            }
        }
    }
}

#[test]
fn passwords_of_every_length_around_the_limit() {
    // Passwords of one byte and of two bytes a character.
    for (text, bytes) in [("x", 1), ("é", 2), ("№", 3), ("🕰", 4)] {
        for len in 1020..=1030_usize {
            let password: &'static str =
                (text.repeat(len / bytes) + &"y".repeat(len % bytes)).leak();
            assert_eq!(password.len(), len);
            for kind in [Kind::Office97, Kind::CryptoApi(128, true)] {
                let book = Book::least(kind, password);
                let mut lent = Lent::enough(&book.locked, password.as_bytes());
                if len > PASSWORD_MAX_LEN {
                    assert_eq!(lent.open(), refused(1, [0, 0]), "{kind:?} {len}");
                } else {
                    lent.open_to(&book.plain);
                }
            }
            let book = Book::small(Kind::Xor);
            let number = if len > PASSWORD_MAX_LEN { 1 } else { 27 };
            let answer = Lent::enough(&book.locked, password.as_bytes()).open();
            assert_eq!(answer, refused(number, [0, 0]), "{len}");
        }
    }
}

#[test]
fn passwords_of_every_length_for_xor() {
    for len in 1..=15 {
        let password = &"Ankerhemmung 7!"[..len];
        let book = Book::least(Kind::Xor, password);
        Lent::enough(&book.locked, password.as_bytes()).open_to(&book.plain);
    }
}

#[test]
fn passwords_that_are_not_utf8() {
    let book = Book::small(Kind::CryptoApi(128, true));
    for bytes in [
        &b"\xFF"[..],
        b"\xC3",
        b"\xC0\x80",
        b"\xED\xA0\x80",
        b"Unruh\xF4\x90\x80\x80",
    ] {
        assert_eq!(Lent::enough(&book.locked, bytes).open(), refused(2, [0, 0]));
    }
}

#[test]
fn the_lowest_number_is_given() {
    let stream = b"no book";
    let mut lent = Lent::new(stream, &[0xFF; 1025], 0, 0);
    assert_eq!(lent.open(), refused(1, [0, 0]));
    let mut lent = Lent::new(stream, &[0xFF; 1024], 0, 0);
    assert_eq!(lent.open(), refused(2, [0, 0]));
    let mut lent = Lent::new(stream, b"", 0, 0);
    assert_eq!(lent.open(), refused(3, [0, 0]));
    let mut lent = Lent::new(stream, b"", SCRATCH_LEN, 0);
    assert_eq!(lent.open(), refused(5, [0, 0]));
    assert_eq!(Lent::enough(stream, b"").open(), refused(6, [0, 0]));
}

#[test]
fn a_stream_longer_than_its_limit() {
    // Zeros that are never touched take no memory.
    let stream = vec![0; STREAM_MAX_LEN + 1];
    let mut scratch = Guarded::filled(SCRATCH_LEN);
    let answer = sheet::open(&stream, b"", scratch.get_mut(), &mut []);
    assert_eq!(answer, refused(4, [0, 0]));
    scratch.check_untouched();
    let answer = sheet::open(&stream[1..], b"", scratch.get_mut(), &mut []);
    assert_eq!(answer, refused(5, [0, 0]));
    scratch.check_untouched();
    assert_eq!(sheet::look(&stream), Verdict::Unknown);
}

#[test]
fn empty_slices() {
    assert_eq!(sheet::look(&[]), Verdict::Unknown);
    assert!(!sheet::same_lock(&[], &[]));
    assert_eq!(sheet::records(&[]).next(), None);
    assert_eq!(sheet::open(&[], &[], &mut [], &mut []), refused(3, [0, 0]));
    assert_eq!(Lent::enough(&[], &[]).open(), refused(7, [0, 0]));
}

#[test]
fn a_book_cut_at_every_length_is_opened_as_far_as_it_goes() {
    for kind in KINDS {
        let book = Book::small(kind);
        for len in 0..=book.locked.len() {
            let mut lent = Lent::enough(&book.locked[..len], book.password.as_bytes());
            if let Some(refusal) = book.refusal_in(len) {
                assert_eq!(lent.open(), Err(refusal), "{kind:?} {len}");
            } else {
                let report = lent.open_to(&book.plain[..len]);
                assert_eq!(report, book.report_in(len), "{kind:?} {len}");
            }
        }
    }
}

#[test]
fn a_lock_cut_at_every_length_is_refused() {
    for kind in KINDS {
        let book = Book::small(kind);
        let body = kind.filepass(book.password);
        for len in 0..body.len() {
            let stream = [
                common::book::header(BOF, 0),
                common::book::header(FILEPASS, len),
                body[..len].to_vec(),
            ]
            .concat();
            let expected = kind.cut_at(len);
            let answer = Lent::enough(&stream, book.password.as_bytes()).open();
            assert_eq!(answer, refused(expected.0, expected.1), "{kind:?} {len}");
        }
    }
}

#[test]
fn a_lock_with_one_field_changed_is_refused() {
    let kind = Kind::CryptoApi(128, true);
    let password = kind.password().as_bytes();
    // The place in the FILEPASS body, what is put there, and what comes of it.
    let changes: [(usize, u32, u32, [u64; 2]); 13] = [
        (0, 0x0004_0002, 11, [2, 0]),
        (2, 0x0002_0005, 13, [5, 2]),
        (2, 0x0001_0002, 13, [2, 1]),
        (10, 31, 16, [31, 0]),
        (10, 1025, 16, [1025, 0]),
        (14, 0x14, 18, [0x14, 0]),
        (14, 0x24, 19, [0x24, 0]),
        (14, 0x08, 20, [0x08, 0]),
        (22, 0x6802, 21, [0x6802, 0]),
        (26, 0x8003, 22, [0x8003, 0]),
        (30, 44, 23, [44, 0]),
        (62, 17, 25, [17, 0]),
        (98, 16, 26, [16, 0]),
    ];
    for (place, value, number, details) in changes {
        let mut book = Book::small(kind);
        let at = book.filepass().0 + 4 + place;
        book.locked[at..at + 4].copy_from_slice(&value.to_le_bytes());
        let answer = Lent::enough(&book.locked, password).open();
        assert_eq!(answer, refused(number, details), "{place} {value:x}");
    }
}

#[test]
fn another_record_before_the_lock_is_named() {
    for id in [0x0042, 0x0086] {
        let records = [(BOF, vec![]), (id, vec![]), (FILEPASS, vec![])];
        let book = Book::new(Kind::Xor, "A", &records);
        let answer = Lent::enough(&book.locked, b"A").open();
        assert_eq!(answer, refused(9, [id.into(), 0]));
    }
}

#[test]
fn a_look_at_a_book_cut_at_every_length() {
    for kind in KINDS {
        let book = Book::small(kind);
        let (header, _) = book.filepass();
        for len in 0..=book.locked.len() {
            let stream = Guarded::with(&book.locked[..len]);
            let verdict = sheet::look(stream.get());
            stream.check_untouched();
            let expected = match len.checked_sub(header + 4) {
                None => Verdict::Unknown,
                Some(body) => Verdict::Yes(kind.facts(body)),
            };
            assert_eq!(verdict, expected, "{kind:?} {len}");
        }
        let plain = Guarded::with(&book.plain);
        assert_eq!(sheet::look(plain.get()), Verdict::No);
        plain.check_untouched();
    }
}

#[test]
fn same_lock_of_every_pair() {
    for a in KINDS {
        for b in KINDS {
            let left = Guarded::with(&Book::small(a).locked);
            let right = Guarded::with(&Book::long(b).locked);
            assert_eq!(
                sheet::same_lock(left.get(), right.get()),
                a == b,
                "{a:?} {b:?}"
            );
            assert!(!sheet::same_lock(left.get(), &[]));
            assert!(!sheet::same_lock(&[], left.get()));
            left.check_untouched();
            right.check_untouched();
        }
    }
}

#[test]
fn the_records_of_a_book_cut_at_every_length() {
    let book = Book::small(Kind::Office97);
    let whole: Vec<Record> = sheet::records(&book.locked).map(Result::unwrap).collect();
    let offsets: Vec<usize> = whole.iter().map(|record| record.at).collect();
    assert_eq!(offsets, book.headers);
    for record in &whole {
        let header = &book.locked[record.at..record.at + 4];
        assert_eq!(header, common::book::header(record.id, record.len));
        assert_eq!(record.clear, clear_len(record.id, record.len));
        assert_eq!(record.body().len(), record.len);
    }
    for len in 0..=book.locked.len() {
        let stream = Guarded::with(&book.locked[..len]);
        let mut steps = sheet::records(stream.get());
        let fault = book.cut_record(len);
        let before = book.records_in(len) - usize::from(fault.is_some());
        for record in &whole[..before] {
            assert_eq!(steps.next(), Some(Ok(*record)));
        }
        if let Some(at) = fault {
            assert_eq!(steps.next(), Some(Err(Fault { at })));
        }
        assert_eq!(steps.next(), None);
        assert_eq!(steps.next(), None);
        stream.check_untouched();
    }
}

#[test]
fn document_01_s_listing() {
    let stream = [
        0x09, 0x08, 0x00, 0x00, 0x2F, 0x00, 0x00, 0x00, 0x85, 0x00, 0x06, 0x00, 0x01, 0x02, 0x03,
        0x04, 0x05, 0x06, 0xE1, 0x00, 0x02, 0x00, 0x07, 0x08,
    ];
    let listing: Vec<_> = sheet::records(&stream)
        .map(|step| step.map(|record| (record.at, record.id, record.len, record.clear)))
        .collect();
    assert_eq!(
        listing,
        [
            Ok((0, 0x0809, 0, 0)),
            Ok((4, 0x002F, 0, 0)),
            Ok((8, 0x0085, 6, 4)),
            Ok((18, 0x00E1, 2, 2)),
        ]
    );
}

#[test]
fn vectors_are_as_long_as_the_stream() {
    for kind in KINDS {
        let book = Book::long(kind);
        let (plain, report) = sheet::open_to_vec(&book.locked, book.password.as_bytes()).unwrap();
        assert!(plain == book.plain);
        assert_eq!(report, book.report_in(book.locked.len()));
        let answer = sheet::open_to_vec(&book.locked, b"unruh");
        assert_eq!(answer, Err(Refusal::WrongPassword));
    }
    // A stream that is too long is refused as by open, and needs no room.
    let long = vec![0; STREAM_MAX_LEN + 1];
    let choice = Choice::Xor;
    for (password, refusal) in [
        (&b"A"[..], Refusal::StreamTooLarge),
        (b"\xFF", Refusal::PasswordMalformed),
        (&[b'x'; PASSWORD_MAX_LEN + 1], Refusal::PasswordTooLong),
    ] {
        assert_eq!(sheet::open_to_vec(&long, password), Err(refusal));
        assert_eq!(sheet::seal_to_vec(&long, password, &choice), Err(refusal));
    }
    let xor = [0x09, 0x08, 0, 0, 0, 0, 6, 0, 0, 0, 0, 0, 0, 0];
    let (sealed, told) = sheet::seal_to_vec(&xor, b"A", &choice).unwrap();
    assert_eq!(sheet::open_to_vec(&sealed, b"A"), Ok((xor.to_vec(), told)));
}
