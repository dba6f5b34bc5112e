//! The directory of sheets: every check on both sides, their order, and every fact that is written.

mod common;

use common::bare::sheet_directory;
use common::book::{entry, joined, rows_in, Book, Kind, BOF, BOUND_SHEET, EOF, FILEPASS, KINDS};
use common::guarded::Guarded;
use common::walk::walk;
use sheet::{Directory, Refusal, STREAM_MAX_LEN};

/// The stream's length at which a look ends, which a directory does not mind.
const MEBIBYTE: usize = 1 << 20;

/// A record that is neither an entry nor a bracket.
const ROW: u16 = 0x0204;

/// The directory, asked for with guard bytes around the stream.
#[track_caller]
fn directory(stream: &[u8], place: usize) -> Result<Directory, Refusal> {
    let lent = Guarded::with(stream);
    let answer = sheet::directory(lent.get(), place);
    lent.check_untouched();
    answer
}

fn told(sheets: usize, start: Option<usize>) -> Result<Directory, Refusal> {
    Ok(Directory { sheets, start })
}

fn refused(number: u32, detail: usize) -> Result<Directory, Refusal> {
    Err(Refusal::from_number(number, [detail as u64, 0]))
}

/// Sees that the sheets start here, and that there are no others.
#[track_caller]
fn check_places(stream: &[u8], starts: &[usize]) {
    let lent = Guarded::with(stream);
    let sheets = starts.len();
    for (place, start) in starts.iter().enumerate() {
        let answer = sheet::directory(lent.get(), place);
        assert_eq!(answer, told(sheets, Some(*start)), "{place}");
    }
    // A place of more than 32 bits is not taken for another.
    for place in [sheets, sheets + 1, 1 << 32, usize::MAX - 1, usize::MAX] {
        let answer = sheet::directory(lent.get(), place);
        assert_eq!(answer, told(sheets, None), "{place}");
    }
    lent.check_untouched();
}

/// A stream with entries that name these starts, and where the entries stand. Its BOF records are at
/// `BOFS`, whatever they name.
fn of_starts(starts: [usize; 3]) -> (Vec<u8>, [usize; 3]) {
    let mut records = vec![(BOF, vec![0, 6, 5, 0])];
    records.extend(starts.map(|start| (BOUND_SHEET, entry(start))));
    records.extend([
        (EOF, vec![]),
        // A body that looks like a BOF record.
        (ROW, joined(&[(BOF, vec![])])),
        (BOF, vec![0, 6, 16, 0]),
        (BOF, vec![0, 6, 32, 0]),
        (EOF, vec![]),
        (EOF, vec![]),
        (BOF, vec![]),
        (EOF, vec![]),
    ]);
    (joined(&records), [8, 25, 42])
}

/// The BOF records of these streams: the workbook's, a sheet's, its chart's, and another sheet's.
const BOFS: [usize; 4] = [0, 71, 79, 95];

/// The length of these streams.
const LEN: usize = 103;

#[test]
fn every_place_of_a_locked_book_and_of_its_plain_one() {
    for kind in KINDS {
        for rows in [&[][..], &[0], &[4, 0], &[300, 5, 0, 1200, 0, 44, 7]] {
            let (book, starts) = Book::of_sheets(kind, rows, |place| place);
            assert!(starts.is_sorted() && starts.len() == rows.len());
            check_places(&book.locked, &starts);
            check_places(&book.plain, &starts);
            let (book, starts) = Book::of_sheets(kind, rows, |place| rows.len() - 1 - place);
            check_places(&book.locked, &starts);
            check_places(&book.plain, &starts);
        }
    }
}

#[test]
fn a_book_cut_at_every_length() {
    for kind in KINDS {
        let (book, starts) = Book::of_sheets(kind, &[30, 0, 9], |place| place);
        // The entries stand behind BOF and FILEPASS.
        let entries = &book.headers[2..5];
        let whole = book.locked.len();
        for len in 0..=whole {
            let mut there = entries.iter().zip(&starts).filter(|(at, _)| **at < len);
            let answer = directory(&book.locked[..len], 1);
            let expected = if let Some(at) = book.cut_record(len) {
                refused(6, at)
            } else if len == 0 {
                refused(7, 0)
            } else if let Some((at, _)) = there.find(|(_, start)| **start >= len) {
                refused(28, *at)
            } else if len < whole {
                refused(29, len)
            } else {
                told(3, Some(starts[1]))
            };
            assert_eq!(answer, expected, "{kind:?} {len}");
        }
    }
}

#[test]
fn entries_name_any_bof_record_in_any_order() {
    for a in BOFS {
        for b in BOFS {
            for c in BOFS {
                let (stream, _) = of_starts([a, b, c]);
                assert_eq!(stream.len(), LEN);
                check_places(&stream, &[a, b, c]);
            }
        }
    }
}

#[test]
fn an_entry_that_names_no_bof_record_is_refused() {
    // Every offset of the stream, its end, and what lies behind it.
    let wrong = (0..=LEN).chain([LEN + 1, LEN + 4, 1 << 16, 1 << 30, 0xFFFF_FFFF]);
    for start in wrong.filter(|start| !BOFS.contains(start)) {
        for first in 0..3 {
            let mut starts = [71, 95, 79];
            starts[first] = start;
            let (stream, entries) = of_starts(starts);
            for place in [0, 1, 2, 3, usize::MAX] {
                let answer = directory(&stream, place);
                assert_eq!(answer, refused(28, entries[first]), "{start} {place}");
            }
        }
    }
}

#[test]
fn the_first_wrong_entry_is_told_whatever_the_place() {
    for (starts, first) in [
        ([4, 4, 4], 0),
        ([95, 4, 5], 1),
        ([79, 103, 4], 1),
        ([4, 71, 4], 0),
    ] {
        let (stream, entries) = of_starts(starts);
        for place in 0..4 {
            assert_eq!(directory(&stream, place), refused(28, entries[first]));
        }
    }
}

#[test]
fn an_entry_of_every_length() {
    for len in 0..8 {
        let entries = [vec![0; 4], vec![0; len]];
        let [right, short] = entries.map(|body| (BOUND_SHEET, body));
        // Zeros follow, so that four bytes would name a BOF record however short the body is.
        let stream = joined(&[(BOF, vec![]), right, short, (0, vec![]), (EOF, vec![])]);
        for place in 0..3 {
            let expected = match len {
                0..4 => refused(28, 12),
                _ => told(2, (place < 2).then_some(0)),
            };
            assert_eq!(directory(&stream, place), expected, "{len} {place}");
        }
    }
}

#[test]
fn an_entry_stands_anywhere_in_the_stream() {
    let stream = joined(&[
        (BOF, vec![]),
        (EOF, vec![]),
        (BOUND_SHEET, 20_u32.to_le_bytes().to_vec()),
        (ROW, vec![]),
        (BOF, vec![]),
        (BOUND_SHEET, 0_u32.to_le_bytes().to_vec()),
        (EOF, vec![]),
        (BOUND_SHEET, 20_u32.to_le_bytes().to_vec()),
    ]);
    check_places(&stream, &[20, 0, 20]);
}

#[test]
fn a_lock_is_no_reason_to_refuse() {
    // A FILEPASS record that no lock fits in, and one behind another record.
    for records in [
        [(BOF, vec![]), (FILEPASS, vec![]), (EOF, vec![])],
        [(BOF, vec![]), (FILEPASS, vec![9; 70]), (EOF, vec![])],
        [(BOF, vec![]), (EOF, vec![]), (FILEPASS, vec![0; 6])],
    ] {
        check_places(&joined(&records), &[]);
    }
}

/// A stream of brackets: `(` is a BOF, `)` an EOF, both without a body; `[` and `]` have one; `.` is
/// another record.
fn brackets(text: &str) -> Vec<u8> {
    let records = text.chars().map(|sign| match sign {
        '(' => (BOF, vec![]),
        ')' => (EOF, vec![]),
        '[' => (BOF, vec![0x0A; 16]),
        ']' => (EOF, vec![0x09; 3]),
        _ => (ROW, vec![]),
    });
    joined(&records.collect::<Vec<_>>())
}

#[test]
fn bof_and_eof_pair_up_like_brackets() {
    for text in [
        "()",
        "(())",
        "()()",
        "(.(.).)..()",
        "[]",
        "[()]()",
        "(([]))",
        "(]",
        "[)",
        "(((((((((())))))))))",
        "().",
    ] {
        assert_eq!(directory(&brackets(text), 0), told(0, None), "{text}");
    }
    for (text, at) in [
        ("(", 4),
        ("((", 8),
        ("(()", 12),
        ("()(", 12),
        ("([)", 28),
        ("(.", 8),
        ("())", 8),
        ("())(", 8),
        ("())()", 8),
        ("()]", 8),
        ("[])(", 27),
        ("()))((", 8),
        ("(()))((", 16),
        ("().).", 12),
    ] {
        assert_eq!(directory(&brackets(text), 0), refused(29, at), "{text}");
    }
    // Deeper than a byte or a word of 16 bits counts.
    for depth in [255, 256, 257, 65_535, 65_536, 65_537] {
        let stream = brackets(&["(".repeat(depth), ")".repeat(depth)].concat());
        assert_eq!(directory(&stream, 0), told(0, None), "{depth}");
        let left = stream.len() - 4;
        assert_eq!(directory(&stream[..left], 0), refused(29, left), "{depth}");
        let one_more = [&stream[..], &brackets(")")].concat();
        assert_eq!(directory(&one_more, 0), refused(29, left + 4), "{depth}");
    }
}

#[test]
fn the_checks_come_in_their_order() {
    let short = || (BOUND_SHEET, vec![0; 3]);
    let cut = |records: &[(u16, Vec<u8>)]| [joined(records), vec![0, 0, 1]].concat();
    for (stream, expected) in [
        // 6 before all others but 4, though they stand before it.
        (cut(&[(ROW, vec![])]), refused(6, 4)),
        (cut(&[(BOF, vec![]), short()]), refused(6, 11)),
        (cut(&[(BOF, vec![])]), refused(6, 4)),
        (cut(&[(EOF, vec![])]), refused(6, 4)),
        // 7 before 28 and 29.
        (joined(&[short(), (BOF, vec![])]), refused(7, 0)),
        (joined(&[(EOF, vec![]), (BOF, vec![])]), refused(7, 0)),
        (
            joined(&[(ROW, vec![]), (BOF, vec![]), short()]),
            refused(7, 0),
        ),
        // 28 before 29, on both sides of it.
        (joined(&[(BOF, vec![]), short()]), refused(28, 4)),
        (
            joined(&[(BOF, vec![]), (EOF, vec![]), (EOF, vec![]), short()]),
            refused(28, 12),
        ),
        (
            joined(&[(BOF, vec![]), short(), (EOF, vec![]), (EOF, vec![])]),
            refused(28, 4),
        ),
    ] {
        for place in [0, 1, usize::MAX] {
            assert_eq!(directory(&stream, place), expected);
        }
    }
}

#[test]
fn an_empty_stream() {
    for place in [0, 1, usize::MAX] {
        assert_eq!(sheet::directory(&[], place), refused(7, 0));
    }
}

#[test]
fn all_eight_facts_are_written_whatever_the_answer() {
    let (right, _) = of_starts([95, 71, 79]);
    let (wrong, _) = of_starts([95, 71, 72]);
    let (cut, not_paired) = (&right[..LEN - 1], &right[..LEN - 4]);
    let huge = vec![0; STREAM_MAX_LEN + 1];
    for (stream, place, answer, facts) in [
        (&right[..], 0, 0, [3, 1, 95]),
        (&right, 2, 0, [3, 1, 79]),
        (&right, 3, 0, [3, 0, 0]),
        (&right, usize::MAX, 0, [3, 0, 0]),
        (&brackets("()"), 0, 0, [0, 0, 0]),
        (&huge, 0, 4, [0, 0, 0]),
        (cut, 0, 6, [99, 0, 0]),
        (&[], 0, 7, [0, 0, 0]),
        (&right[8..], 0, 7, [0, 0, 0]),
        (&wrong, 0, 28, [42, 0, 0]),
        (not_paired, 0, 29, [99, 0, 0]),
        (&brackets("())"), 0, 29, [8, 0, 0]),
    ] {
        for junk in [0, 1, 0xA5A5_A5A5_A5A5_A5A5, u64::MAX] {
            let mut lent = [[junk; 8]; 3];
            // SAFETY: the stream is lent with its length, and the eight numbers overlap nothing.
            let given =
                unsafe { sheet_directory(stream.as_ptr(), stream.len(), place, &mut lent[1]) };
            let [a, b, c] = facts;
            assert_eq!(given, answer, "{place}");
            assert_eq!(lent[1], [a, b, c, 0, 0, 0, 0, 0], "{answer} {place}");
            // Nothing is written beside them.
            assert_eq!((lent[0], lent[2]), ([junk; 8], [junk; 8]));
        }
    }
}

#[test]
fn a_book_of_a_mebibyte() {
    for kind in [Kind::Xor, Kind::CryptoApi(128, true)] {
        let rows = rows_in(kind, 300, MEBIBYTE);
        let (book, starts) = Book::of_sheets(kind, &rows, |place| place);
        let (back, falling) = Book::of_sheets(kind, &rows, |place| 299 - place);
        assert!(falling.iter().rev().eq(&starts));
        for stream in [&book.locked, &book.plain, &back.locked, &back.plain] {
            assert_eq!(stream.len(), MEBIBYTE);
        }
        check_places(&book.locked, &starts);
        for place in [0, 1, 150, 299] {
            let expected = told(300, Some(falling[place]));
            assert_eq!(directory(&back.locked, place), expected);
            assert_eq!(directory(&back.plain, place), expected);
        }

        // The last record, and the one before it, cut off.
        let end = MEBIBYTE - 4;
        for len in end + 1..MEBIBYTE {
            assert_eq!(directory(&book.locked[..len], 0), refused(6, end));
        }
        assert_eq!(directory(&book.locked[..end], 0), refused(29, end));
        // The last record made a BOF, and an entry whose start can't be there.
        let mut stream = book.locked;
        stream[end..].copy_from_slice(&brackets("("));
        assert_eq!(directory(&stream, 7), refused(29, MEBIBYTE));
        stream[end..].copy_from_slice(&joined(&[(BOUND_SHEET, vec![])]));
        assert_eq!(directory(&stream, 7), refused(28, end));
    }
}

#[test]
fn a_sheet_that_starts_behind_the_first_mebibyte() {
    let rows = [MEBIBYTE, 0, 0];
    let (book, starts) = Book::of_sheets(Kind::Office97, &rows, |place| place);
    assert!(starts[1] > MEBIBYTE);
    check_places(&book.locked, &starts);
    check_places(&book.plain, &starts);
    // One EOF record more, behind it all.
    let end = book.locked.len();
    let more = [&book.locked[..], &brackets(")")].concat();
    assert_eq!(directory(&more, 2), refused(29, end));
}

#[test]
fn a_stream_of_a_gibibyte() {
    // Zeros that are never touched take no memory. Each four of them are a record of no bytes.
    let mut stream = vec![0; STREAM_MAX_LEN + 4];
    let at_both_sides = |stream: &[u8], expected| {
        assert_eq!(sheet::directory(stream, 0), refused(4, 0));
        assert_eq!(
            sheet::directory(&stream[..STREAM_MAX_LEN + 1], 0),
            refused(4, 0)
        );
        assert_eq!(sheet::directory(&stream[..STREAM_MAX_LEN], 0), expected);
    };
    at_both_sides(&stream, refused(7, 0));
    // An entry that names no BOF, then a BOF that is left open, then a sheet at the very end.
    let start = STREAM_MAX_LEN - 8;
    let head = joined(&[
        (BOF, vec![]),
        (BOUND_SHEET, (start as u32).to_le_bytes().to_vec()),
        (EOF, vec![]),
    ]);
    stream[..head.len()].copy_from_slice(&head);
    at_both_sides(&stream, refused(28, 4));
    stream[start..start + 4].copy_from_slice(&brackets("("));
    at_both_sides(&stream, refused(29, STREAM_MAX_LEN));
    stream[start + 4..STREAM_MAX_LEN].copy_from_slice(&brackets(")"));
    at_both_sides(&stream, told(1, Some(start)));
}

/// What the request's sentences give, from a list of all records.
fn expected(stream: &[u8], place: usize) -> Result<Directory, Refusal> {
    let (records, fault) = walk(stream);
    if let Some(at) = fault {
        return refused(6, at);
    }
    if records.first().map(|record| record.1) != Some(BOF) {
        return refused(7, 0);
    }
    let mut starts = Vec::new();
    for (at, _, body) in records.iter().filter(|record| record.1 == BOUND_SHEET) {
        let start = body.get(..4).map(|four| {
            let four = <[u8; 4]>::try_from(four).unwrap();
            u32::from_le_bytes(four) as usize
        });
        let named = |start| records.iter().any(|r| (r.0, r.1) == (start, BOF));
        match start {
            Some(start) if named(start) => starts.push(start),
            _ => return refused(28, *at),
        }
    }
    let mut open = 0;
    for (at, id, _) in &records {
        match *id {
            BOF => open += 1,
            EOF if open == 0 => return refused(29, *at),
            EOF => open -= 1,
            _ => {}
        }
    }
    if open > 0 {
        return refused(29, stream.len());
    }
    told(starts.len(), starts.get(place).copied())
}

#[test]
fn random_streams_are_answered_as_the_request_says() {
    let mut draw = common::draws(11);
    // How often each came: sheets found, places without one, and the refusals.
    let mut counts = std::collections::BTreeMap::new();
    for _ in 0..40_000 {
        let mut records = vec![(BOF, vec![])];
        let mut open = 1;
        for _ in 0..draw(9) {
            records.push(match draw(6) {
                0 | 1 => (BOUND_SHEET, vec![0; 4 + draw(2)]),
                2 => (BOF, vec![0; draw(3)]),
                3 if open > 0 || draw(8) == 0 => (EOF, vec![0; draw(2)]),
                _ => (0, vec![0; draw(4)]),
            });
            match records[records.len() - 1].0 {
                BOF => open += 1,
                EOF => open -= 1,
                _ => {}
            }
        }
        for _ in 0..open {
            records.push((EOF, vec![]));
        }
        match draw(12) {
            0 => drop(records.pop()),
            1 => drop(records.remove(0)),
            2 => records.push((EOF, vec![])),
            _ => {}
        }
        // Entries name BOF records, seldom something else.
        let mut ats = Vec::new();
        let mut at = 0;
        for (id, body) in &records {
            if *id == BOF || draw(12) == 0 {
                ats.push(at);
            }
            at += 4 + body.len();
        }
        for (id, body) in &mut records {
            if *id == BOUND_SHEET && !ats.is_empty() {
                let start = ats[draw(ats.len())] as u32;
                body[..4].copy_from_slice(&start.to_le_bytes());
                body.truncate(if draw(20) == 0 { 3 } else { 5 });
            }
        }
        let mut stream = joined(&records);
        if draw(16) == 0 {
            stream.truncate(draw(stream.len() + 1));
        }
        stream.resize(stream.len() + draw(4), 0);
        let place = draw(4);
        let answer = directory(&stream, place);
        assert_eq!(answer, expected(&stream, place), "{place} {stream:02x?}");
        let key = match answer {
            Ok(told) => u32::from(told.start.is_none()),
            Err(refusal) => refusal.number(),
        };
        *counts.entry(key).or_insert(0) += 1;
    }
    for key in [0, 1, 6, 7, 28, 29] {
        assert!(counts.get(&key).is_some_and(|n| *n > 500), "{counts:?}");
    }
}
