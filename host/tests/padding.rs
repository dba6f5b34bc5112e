//! Padding: one to three zero bytes behind the last record. It is no record, it comes through as it
//! is, and any other remainder of that length is refused.

mod common;

use common::bare;
use common::book::{
    book, clear_len, front, header, joined, keys, rows_in, Book, BOF, BOUND_SHEET, EOF, FILEPASS,
    KINDS, ROW,
};
use common::lent::Lent;
use common::opening::{check, check_book, refused};
use common::walk::walk;
use sheet::{Fault, Record, Refusal, Verdict, SCRATCH_LEN};

/// The stream's length at which a look ends.
const MEBIBYTE: usize = 1 << 20;

/// All streams of so many bytes, each of them one of these.
fn streams_of(bytes: &[u8], len: usize) -> Vec<Vec<u8>> {
    (0..len).fold(vec![vec![]], |shorter, _| {
        let longer = |stream: &Vec<u8>| {
            let stream = stream.clone();
            bytes
                .iter()
                .map(move |byte| [&stream[..], &[*byte]].concat())
        };
        shorter.iter().flat_map(longer).collect()
    })
}

/// Every remainder of one to three bytes, each of them 0 or one of two others, and whether it is
/// padding.
fn remainders() -> Vec<(Vec<u8>, bool)> {
    (1..=3)
        .flat_map(|len| streams_of(&[0x00, 0x01, 0x80], len))
        .map(|remainder| {
            let zero = remainder.iter().all(|byte| *byte == 0);
            (remainder, zero)
        })
        .collect()
}

/// An answer of the library with so many facts, the others being 0.
fn answer<const N: usize>(number: u32, first: [usize; N]) -> bare::Answer {
    let mut facts = [0; 8];
    for (fact, value) in facts.iter_mut().zip(first) {
        *fact = value as u64;
    }
    (number, facts)
}

/// Sees that these are the sheets of a stream.
#[track_caller]
fn check_sheets(stream: &[u8], starts: &[usize]) {
    let sheets = starts.len();
    for (place, start) in starts.iter().enumerate() {
        let told = answer(0, [sheets, 1, *start]);
        assert_eq!(bare::directory(stream, place), told, "{place}");
    }
    assert_eq!(bare::directory(stream, sheets), answer(0, [sheets]));
}

/// Sees that a stream is listed as the walk goes, and that this is what stands at each offset.
#[track_caller]
fn check_records(stream: &[u8]) {
    let record = |at: usize, id: u16, body: &[u8]| Record {
        at,
        id,
        len: body.len(),
        clear: clear_len(id, body.len()),
    };
    let (records, fault) = walk(stream);
    let records = records
        .iter()
        .map(|(at, id, body)| Ok(record(*at, *id, body)));
    let expected: Vec<_> = records.chain(fault.map(|at| Err(Fault { at }))).collect();
    assert_eq!(sheet::records(stream).collect::<Vec<_>>(), expected);
    let last = stream.len() + 5;
    for at in (0..last).chain([1 << 32, usize::MAX - 3, usize::MAX]) {
        let (records, fault) = walk(stream.get(at..).unwrap_or(&[]));
        let expected = match (records.first(), fault) {
            (Some((_, id, body)), _) => {
                let record = record(at, *id, body);
                answer(1, [record.id.into(), record.len, record.clear])
            }
            (None, Some(_)) => answer(2, [at]),
            (None, None) => answer(0, []),
        };
        assert_eq!(bare::record(stream, at), expected, "{at}");
    }
}

#[test]
fn a_remainder_behind_a_record() {
    for kind in KINDS {
        for (remainder, zero) in remainders() {
            let (whole, starts) = Book::of_sheets(kind, &[30, 0, 9], |place| 2 - place);
            let (len, told) = (whole.locked.len(), whole.forecast_in(whole.locked.len()));
            let stream = [&whole.locked[..], &remainder].concat();
            check_records(&stream);
            if !zero {
                check(&stream, refused(6, [len as u64, 0]));
                assert_eq!(bare::directory(&stream, 1), answer(6, [len]));
                continue;
            }
            let book = whole.padded(remainder.len());
            assert!(book.locked == stream);
            let all = stream.len();
            let keys = keys(kind, 1 + all.div_ceil(1024));
            check_book(&book, [all, told.records, told.enciphered_body_bytes, keys]);
            check_sheets(&book.locked, &starts);
            check_sheets(&book.plain, &starts);
        }
    }
}

#[test]
fn a_remainder_behind_nothing() {
    for (remainder, zero) in remainders() {
        let number = if zero { 7 } else { 6 };
        check(&remainder, refused(number, [0, 0]));
        assert_eq!(bare::directory(&remainder, 0), answer(number, [0]));
        let fault = (!zero).then_some(Err(Fault { at: 0 }));
        assert_eq!(sheet::records(&remainder).next(), fault);
    }
}

#[test]
fn a_remainder_in_a_body_that_is_cut() {
    for kind in KINDS {
        let whole = book(kind, &[(EOF, vec![])]).locked;
        let at = whole.len();
        // Also behind headers of zeros but for the length.
        for header in [header(ROW, 4), header(0, 4), header(0, 0x0100)] {
            for (remainder, _) in remainders() {
                let stream = [&whole[..], &header, &remainder].concat();
                check(&stream, refused(6, [at as u64, 0]));
                assert_eq!(bare::directory(&stream, 0), answer(6, [at]));
                check_records(&stream);
            }
        }
    }
}

#[test]
fn four_zeros_are_a_record_and_what_is_left_of_more_is_padding() {
    for kind in KINDS {
        for zeros in 0..=13 {
            let mut records = vec![(ROW, vec![0; 5]), (EOF, vec![])];
            records.extend(vec![(0, vec![]); zeros / 4]);
            let book = book(kind, &records).padded(zeros % 4);
            let len = front(kind) + 9 + 4;
            let (all, count) = (len + zeros, 4 + zeros / 4);
            assert_eq!(&book.locked[len..], vec![0; zeros]);
            assert_eq!(&book.plain[len..], vec![0; zeros]);
            check_book(&book, [all, count, 5, keys(kind, 2)]);
            check_sheets(&book.locked, &[]);
            check_records(&book.locked);
            assert_eq!(sheet::records(&book.locked).count(), count);
        }
    }
}

#[test]
fn padding_across_the_end_of_a_block() {
    for kind in KINDS {
        for (all, rc4) in [
            (1023, 2),
            (1024, 2),
            (1025, 3),
            (1026, 3),
            (2047, 3),
            (2048, 3),
            (2049, 4),
            (2050, 4),
        ] {
            for zeros in 1..=3 {
                let row = all - zeros - front(kind) - 4;
                let book = book(kind, &[(ROW, vec![7; row])]).padded(zeros);
                assert_eq!(book.locked.len(), all);
                check_book(&book, [all, 3, row, keys(kind, rc4)]);
            }
        }
    }
}

#[test]
fn padding_behind_the_lock() {
    for kind in KINDS {
        for zeros in 1..=3 {
            let book = book(kind, &[]).padded(zeros);
            check_book(&book, [front(kind) + zeros, 2, 0, keys(kind, 2)]);
            // It does not take the place of bytes that the lock lacks.
            let body = kind.filepass(kind.password());
            let short = body.len() - zeros;
            let records = [(BOF, vec![]), (FILEPASS, body[..short].to_vec())];
            let stream = [joined(&records), vec![0; zeros]].concat();
            let (number, details) = kind.cut_at(short);
            check(&stream, refused(number, details));
        }
    }
}

#[test]
fn padding_takes_room_in_the_output() {
    for kind in KINDS {
        for zeros in 1..=3 {
            let book = Book::small(kind).padded(zeros);
            let (password, all) = (book.password.as_bytes(), book.locked.len());
            for len in all - zeros..all {
                let mut lent = Lent::new(&book.locked, password, SCRATCH_LEN, len);
                assert_eq!(lent.open(), Err(Refusal::from_number(5, [0, 0])));
            }
            for len in all..all + 5 {
                let mut lent = Lent::new(&book.locked, password, SCRATCH_LEN, len);
                assert_eq!(lent.open_to(&book.plain), book.report_in(all));
            }
        }
    }
}

#[test]
fn the_directory_counts_padding_in_the_stream_s_length_alone() {
    for zeros in 1..=3 {
        let padded = |records: &[(u16, Vec<u8>)]| [joined(records), vec![0; zeros]].concat();
        for (ids, number, detail) in [
            // A BOF is left open: the length with the padding.
            (&[BOF][..], 29, 4 + zeros),
            (&[BOF, EOF, BOF], 29, 12 + zeros),
            // An EOF too many: its header.
            (&[BOF, EOF, EOF], 29, 8),
            (&[EOF, BOF], 7, 0),
        ] {
            let records: Vec<_> = ids.iter().map(|id| (*id, vec![])).collect();
            let told = answer(number, [detail]);
            assert_eq!(bare::directory(&padded(&records), 0), told, "{ids:x?}");
        }
        // An entry that names the padding, or the stream's end.
        for start in 16..=16 + zeros {
            let entry = (BOUND_SHEET, (start as u32).to_le_bytes().to_vec());
            let stream = padded(&[(BOF, vec![]), entry, (EOF, vec![])]);
            assert_eq!(stream.len(), 16 + zeros);
            assert_eq!(bare::directory(&stream, 0), answer(28, [4]), "{start}");
        }
    }
}

#[test]
fn a_record_at_each_offset_of_the_end() {
    // An EOF record without a body, and up to three zeros.
    let stream = [0x0A, 0, 0, 0, 0, 0, 0];
    for len in 4..=7 {
        let stream = &stream[..len];
        assert_eq!(bare::record(stream, 0), answer(1, [0x000A, 0, 0]));
        for at in 1..len + 5 {
            // Four zeros are a record, also in the middle of another.
            let number = u32::from(at + 4 <= len);
            assert_eq!(bare::record(stream, at), answer(number, []), "{len} {at}");
        }
        for at in [1 << 32, usize::MAX] {
            assert_eq!(bare::record(stream, at), answer(0, []));
        }
    }
    // Any other byte among the last three is a header that is cut off.
    for (end, last) in [([9, 0, 0], 1), ([0, 9, 0], 2), ([0, 0, 9], 3)] {
        let stream = [&[0x0A, 0, 3, 0][..], &end].concat();
        assert_eq!(bare::record(&stream, 0), answer(1, [0x000A, 3, 0]));
        for at in 4..8 {
            let expected = match at - 4 < last {
                true => answer(2, [at]),
                false => answer(0, []),
            };
            assert_eq!(bare::record(&stream, at), expected, "{last} {at}");
        }
    }
}

#[test]
fn every_short_stream_of_zeros_and_ones() {
    // How many of them end in padding, and how many are cut.
    let (mut padded, mut cut) = (0, 0);
    for tail in (0..=8).flat_map(|len| streams_of(&[0, 1], len)) {
        for first in [vec![], header(BOF, 0)] {
            let stream = [&first[..], &tail].concat();
            check_records(&stream);
            let (records, fault) = walk(&stream);
            let (forecast, directory) = match fault {
                Some(at) => ((6, at), (6, at)),
                None if first.is_empty() => ((7, 0), (7, 0)),
                None => ((8, 0), (29, stream.len())),
            };
            check(&stream, refused(forecast.0, [forecast.1 as u64, 0]));
            let told = answer(directory.0, [directory.1]);
            assert_eq!(bare::directory(&stream, 0), told, "{stream:?}");
            let walked: usize = records.iter().map(|(_, _, body)| 4 + body.len()).sum();
            cut += usize::from(fault.is_some());
            padded += usize::from(fault.is_none() && walked < stream.len());
        }
    }
    assert!(padded > 20 && cut > 500, "{padded} {cut}");
}

#[test]
fn a_look_keeps_its_own_scan() {
    for kind in KINDS {
        let book = Book::small(kind);
        let (at, end) = book.filepass();
        let locked = Verdict::Yes(kind.facts(end - at - 4));
        for zeros in 0..=3 {
            for len in [end, book.locked.len()] {
                let padded = [&book.locked[..len], &vec![0; zeros]].concat();
                assert_eq!(sheet::look(&padded), locked, "{kind:?} {len} {zeros}");
                assert!(sheet::same_lock(&padded, &book.locked));
            }
        }
    }
    // Behind a BOF record, padding and nothing at all are the same to it.
    for zeros in 0..=8 {
        let stream = [header(BOF, 0), vec![0; zeros]].concat();
        let expected = match zeros {
            0..=3 => Verdict::Unknown,
            _ => Verdict::No,
        };
        assert_eq!(sheet::look(&stream), expected, "{zeros}");
    }
}

#[test]
fn a_padded_book_of_a_mebibyte() {
    for kind in KINDS {
        for zeros in 1..=3 {
            let rows = rows_in(kind, 300, MEBIBYTE - zeros);
            let (book, starts) = Book::of_sheets(kind, &rows, |place| place);
            let told = book.forecast_in(book.locked.len());
            let book = book.padded(zeros);
            assert_eq!(book.locked.len(), MEBIBYTE);
            let (records, bytes) = (told.records, told.enciphered_body_bytes);
            check_book(&book, [MEBIBYTE, records, bytes, keys(kind, 1025)]);
            assert_eq!(sheet::records(&book.locked).count(), records);
            for place in [0, 1, 299] {
                let told = answer(0, [300, 1, starts[place]]);
                assert_eq!(bare::directory(&book.locked, place), told);
                assert_eq!(bare::directory(&book.plain, place), told);
            }
            assert_eq!(bare::directory(&book.locked, 300), answer(0, [300]));
            // Another byte in place of the last zero.
            let mut stream = book.locked;
            stream[MEBIBYTE - 1] = 1;
            let at = MEBIBYTE - zeros;
            check(&stream, refused(6, [at as u64, 0]));
            assert_eq!(bare::directory(&stream, 0), answer(6, [at]));
        }
    }
}
