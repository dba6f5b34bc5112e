//! What opening a stream will take: the four counts around each of their steps, every refusal and
//! their order, that an opening reports and refuses the same, and every fact that is written.

mod common;

use common::bare;
use common::book::{
    book, front, joined, keys, Book, Kind, BOF, BOUND_SHEET, CLEAR, EOF, FILEPASS, KINDS, ROW,
};
use common::opening::{check, check_book, counts, forecast, open, refused, told};
use common::parts::{Lock, LOCK, PARTS, QUESTIONS};
use common::walk::walk;
use sheet::{Forecast, Refusal, SCRATCH_LEN, STREAM_MAX_LEN};

#[test]
fn a_key_for_each_started_block_and_one_for_the_check() {
    for kind in KINDS {
        for (len, rc4) in [
            (1023, 2),
            (1024, 2),
            (1025, 3),
            (2047, 3),
            (2048, 3),
            (2049, 4),
            (65_535, 65),
            (65_536, 65),
            (65_537, 66),
        ] {
            let row = len - front(kind) - 4;
            let book = book(kind, &[(ROW, vec![7; row])]);
            assert_eq!(book.locked.len(), len);
            check_book(&book, [len, 3, row, keys(kind, rc4)]);
        }
        let least = front(kind);
        check_book(&book(kind, &[]), [least, 2, 0, keys(kind, 2)]);
    }
}

#[test]
fn a_clear_part_is_not_counted() {
    let mut cases = vec![
        // A sheet's entry is clear in its first four bytes.
        (BOUND_SHEET, 0, 0),
        (BOUND_SHEET, 1, 0),
        (BOUND_SHEET, 2, 0),
        (BOUND_SHEET, 3, 0),
        (BOUND_SHEET, 4, 0),
        (BOUND_SHEET, 5, 1),
        (BOUND_SHEET, 6, 2),
        (BOUND_SHEET, 300, 296),
        (BOUND_SHEET, 65_535, 65_531),
        // Ids that are nearly that of an entry.
        (0x0084, 5, 5),
        (0x0086, 5, 5),
        (0x0185, 5, 5),
        (0x8500, 5, 5),
        // All others are enciphered whole.
        (EOF, 0, 0),
        (EOF, 3, 3),
        (ROW, 1, 1),
        (ROW, 65_535, 65_535),
        (0x0000, 9, 9),
        (0xFFFF, 9, 9),
    ];
    // Those of the seven are clear whole, a second FILEPASS too. Their neighbours are not.
    for id in [BOF, FILEPASS, CLEAR, 0x0138, 0x0194, 0x0195, 0x0196] {
        cases.extend([(id, 0, 0), (id, 1, 0), (id, 300, 0), (id, 65_535, 0)]);
    }
    for id in [
        0x0808, 0x080A, 0x0908, 0x002E, 0x0030, 0x00E0, 0x00E2, 0x0137, 0x0139, 0x0193, 0x0197,
    ] {
        cases.push((id, 9, 9));
    }
    for kind in KINDS {
        for (id, len, enciphered) in &cases {
            let book = book(kind, &[(*id, vec![3; *len]), (ROW, vec![1; 10])]);
            let all = front(kind) + 4 + len + 14;
            let counts = [all, 4, enciphered + 10, keys(kind, 1 + all.div_ceil(1024))];
            check_book(&book, counts);
        }
    }
}

#[test]
fn a_book_of_nothing_but_clear_records() {
    for kind in KINDS {
        let clear = [BOF, FILEPASS, CLEAR, 0x0138, 0x0194, 0x0195, 0x0196];
        let records = clear.map(|id| (id, vec![0x2F; 96]));
        let book = book(kind, &records);
        let all = front(kind) + 700;
        assert!(all < 1024 && book.locked.len() == all);
        check_book(&book, [all, 9, 0, keys(kind, 2)]);
    }
}

#[test]
fn the_first_lock_alone_counts() {
    // Locks of the other kinds, and what is no lock, behind the first.
    let mut others: Vec<_> = KINDS.map(|kind| kind.filepass(kind.password())).into();
    others.extend([vec![], vec![0], vec![9; 70]]);
    for kind in KINDS {
        for other in &others {
            let book = book(kind, &[(ROW, vec![1; 5]), (FILEPASS, other.clone())]);
            let all = front(kind) + 9 + 4 + other.len();
            check_book(&book, [all, 4, 5, keys(kind, 2)]);
        }
    }
}

#[test]
fn counts_of_more_than_16_bits() {
    for kind in [Kind::Xor, Kind::Office97] {
        let rows = vec![(ROW, vec![5; 65_535]); 3];
        let all = front(kind) + 3 * 65_539;
        // 196,617 bytes and the front start 193 blocks.
        check_book(&book(kind, &rows), [all, 5, 196_605, keys(kind, 194)]);
        let rows = vec![(ROW, vec![]); 70_000];
        let all = front(kind) + 280_000;
        // 280,000 bytes and the front start 274 blocks.
        check_book(&book(kind, &rows), [all, 70_002, 0, keys(kind, 275)]);
    }
}

#[test]
fn a_forecast_goes_on_where_a_look_ends() {
    for kind in [Kind::Xor, Kind::CryptoApi(128, true)] {
        for (len, rc4) in [(1_048_575, 1025), (1_048_576, 1025), (1_048_577, 1026)] {
            let last = len - front(kind) - 20 * 50_000 - 4;
            let mut rows = vec![(ROW, vec![5; 49_996]); 20];
            rows.push((ROW, vec![6; last]));
            let book = book(kind, &rows);
            assert_eq!(book.locked.len(), len);
            check_book(&book, [len, 23, 20 * 49_996 + last, keys(kind, rc4)]);
        }
        // The lock stands behind the first mebibyte, and a row behind it.
        let mut records = vec![(BOF, vec![0, 6, 5, 0])];
        records.extend(vec![(CLEAR, vec![0x2F; 65_532]); 16]);
        records.extend([(FILEPASS, vec![]), (ROW, vec![7; 100])]);
        let book = Book::new(kind, kind.password(), &records);
        assert_eq!(book.headers[17], 1_048_584);
        let all = front(kind) + 1_048_576 + 104;
        check_book(&book, [all, 19, 100, keys(kind, 1026)]);
    }
}

#[test]
fn a_book_cut_at_every_length() {
    for kind in KINDS {
        let whole = Book::small(kind);
        for len in 0..=whole.locked.len() {
            let stream = &whole.locked[..len];
            if let Some(refusal) = whole.refusal_in(len) {
                check(stream, Err(refusal));
            } else {
                check(stream, Ok(whole.forecast_in(len)));
                let answer = open(stream, whole.password.as_bytes());
                assert_eq!(answer, Ok(whole.report_in(len)));
            }
        }
        let (sheets, _) = Book::of_sheets(kind, &[300, 5, 0, 1200], |place| place);
        for book in [Book::long(kind), sheets] {
            check_book(&book, counts(book.forecast_in(book.locked.len())));
        }
    }
}

#[test]
fn bodies_make_no_difference() {
    for kind in KINDS {
        let book = Book::long(kind);
        let told = Ok(book.forecast_in(book.locked.len()));
        assert_eq!(forecast(&book.locked), told);
        // Every byte that is neither in a header nor in the lock is another.
        let (_, lock_end) = book.filepass();
        let mut stream = book.locked.clone();
        for (at, next) in book.headers.iter().zip(&book.headers[1..]) {
            if *next != lock_end {
                stream[at + 4..*next]
                    .iter_mut()
                    .for_each(|byte| *byte ^= 0xFF);
            }
        }
        assert!(stream != book.locked);
        assert_eq!(forecast(&stream), told);
    }
}

#[test]
fn an_empty_stream() {
    assert_eq!(sheet::forecast(&[]), refused(7, [0, 0]));
    assert_eq!(bare::forecast(&[]), (7, [0; 8]));
    check(&[], refused(7, [0, 0]));
}

/// Sees that of these questions, all answered by no, the first is told.
#[track_caller]
fn check_first(numbers: &[u32]) {
    let mut parts = PARTS;
    for number in numbers {
        parts.spoil(*number);
    }
    let first = numbers[0];
    let (stream, details) = (parts.stream(), parts.details(first));
    assert_eq!(
        forecast(&stream),
        refused(first, details),
        "of {numbers:?} the first"
    );
    check(&stream, refused(first, details));
}

#[test]
fn every_refusal_comes_alone_and_before_all_that_are_behind_it() {
    // BOF, a clear record, the lock of 106 bytes and a row of three.
    check(&PARTS.stream(), told([125, 4, 3, 2]));
    for (k, first) in QUESTIONS.iter().enumerate() {
        check_first(&[*first]);
        for second in &QUESTIONS[k + 1..] {
            check_first(&[*first, *second]);
        }
        check_first(&QUESTIONS[k..]);
    }
}

#[test]
fn a_lock_of_version_1_1_or_of_xor_that_is_cut() {
    let records = |first: u16, before: u16, lock: &[u8]| {
        let lock = (FILEPASS, lock.to_vec());
        joined(&[(first, vec![]), (before, vec![]), lock])
    };
    // The lock's body, how much of it is there, and the refusal.
    for (kind, len, number, details) in [
        (Kind::Xor, 5, 10, [3, 4]),
        (Kind::Office97, 53, 14, [51, 52]),
    ] {
        let body = &kind.filepass("A")[..len];
        check(&records(BOF, CLEAR, body), refused(number, details));
        check(&records(CLEAR, CLEAR, body), refused(7, [0, 0]));
        check(&records(BOF, EOF, body), refused(9, [0x000A, 0]));
        let cut = [records(CLEAR, EOF, body), vec![0, 1]].concat();
        check(&cut, refused(6, [cut.len() as u64 - 2, 0]));
    }
}

#[test]
fn a_lock_cut_at_every_length() {
    for kind in KINDS {
        let body = kind.filepass(kind.password());
        for len in 0..body.len() {
            let stream = joined(&[(BOF, vec![]), (FILEPASS, body[..len].to_vec())]);
            let (number, details) = kind.cut_at(len);
            check(&stream, refused(number, details));
        }
    }
}

#[test]
fn each_field_of_a_lock_on_both_sides_of_what_is_read() {
    let mut fine = vec![LOCK];
    fine.extend([2, 3].map(|major| Lock { major, ..LOCK }));
    fine.extend([33, 1023, 1024].map(|size| Lock { size, ..LOCK }));
    fine.extend([0x04, 0x0C, 0xFFFF_FFCF].map(|flags| Lock { flags, ..LOCK }));
    fine.push(Lock { cipher: 0, ..LOCK });
    fine.push(Lock { hash: 0, ..LOCK });
    fine.extend([0, 40, 48, 56, 120].map(|bits| Lock { bits, ..LOCK }));
    for lock in fine {
        let stream = lock.stream();
        let len = 125 + lock.size as usize - 32;
        assert_eq!(stream.len(), len);
        check(&stream, told([len, 4, 3, 1 + len.div_ceil(1024)]));
    }
    let mut wrong = Vec::new();
    wrong.extend([2, 3, 0x0100, 0xFFFF].map(|kind| (Lock { kind, ..LOCK }, 11, kind.into(), 0)));
    for (major, minor) in [
        (0, 2),
        (1, 2),
        (5, 2),
        (4, 1),
        (4, 3),
        (0x0104, 2),
        (4, 0x0102),
    ] {
        let lock = Lock {
            major,
            minor,
            ..LOCK
        };
        wrong.push((lock, 13, major.into(), minor.into()));
    }
    for size in [0, 31, 1025, 0x0001_0020, u32::MAX] {
        wrong.push((Lock { size, ..LOCK }, 16, size.into(), 0));
    }
    for (flags, number) in [
        (0x14, 18),
        (0x30, 18),
        (0x24, 19),
        (0x20, 19),
        (0x00, 20),
        (0x08, 20),
        (0xFFFF_FFCB, 20),
        (u32::MAX, 18),
    ] {
        wrong.push((Lock { flags, ..LOCK }, number, flags.into(), 0));
    }
    for cipher in [1, 0x6800, 0x6802, 0x660E, 0x0001_6801] {
        wrong.push((Lock { cipher, ..LOCK }, 21, cipher.into(), 0));
    }
    for hash in [1, 0x8003, 0x8005, 0x0001_8004] {
        wrong.push((Lock { hash, ..LOCK }, 22, hash.into(), 0));
    }
    for bits in [1, 8, 32, 39, 41, 44, 127, 129, 136, 0x0001_0080, u32::MAX] {
        wrong.push((Lock { bits, ..LOCK }, 23, bits.into(), 0));
    }
    for salt_size in [0, 15, 17, 0x0001_0010] {
        let lock = Lock { salt_size, ..LOCK };
        wrong.push((lock, 25, salt_size.into(), 0));
    }
    for hash_size in [0, 16, 19, 21, 0x0001_0014] {
        let lock = Lock { hash_size, ..LOCK };
        wrong.push((lock, 26, hash_size.into(), 0));
    }
    for (lock, number, first, second) in wrong {
        check(&lock.stream(), refused(number, [first, second]));
    }
}

#[test]
fn every_record_before_the_lock() {
    // All ids to well past those that are allowed there, and some whose bytes are swapped.
    let seven = [BOF, FILEPASS, CLEAR, 0x0138, 0x0194, 0x0195, 0x0196];
    for id in (0..=0x09FF).chain([0x2F00, 0xE100, 0xFFFF]) {
        let stream = joined(&[
            (BOF, vec![]),
            (id, vec![]),
            (EOF, vec![]),
            (FILEPASS, LOCK.body()),
        ]);
        let expected = match id {
            // Then this is the first, and has no body.
            FILEPASS => refused(10, [0, 2]),
            _ if seven.contains(&id) => refused(9, [EOF.into(), 0]),
            _ => refused(9, [id.into(), 0]),
        };
        assert_eq!(forecast(&stream), expected, "{id:04x}");
        assert_eq!(open(&stream, b"").err(), expected.err(), "{id:04x}");
    }
}

#[test]
fn a_stream_of_a_gibibyte() {
    // Zeros that are never touched take no memory. Each four of them are a record of no bytes.
    let mut stream = vec![0; STREAM_MAX_LEN + 4];
    let mut output = vec![0; STREAM_MAX_LEN + 4];
    let mut at_both_sides = |stream: &[u8], expected: Result<Forecast, Refusal>| {
        let mut open = |len: usize| {
            let mut scratch = [0; SCRATCH_LEN];
            sheet::open(&stream[..len], b"", &mut scratch, &mut output[..len]).err()
        };
        for len in [STREAM_MAX_LEN + 4, STREAM_MAX_LEN + 1] {
            assert_eq!(bare::forecast(&stream[..len]), (4, [0; 8]));
            assert_eq!(sheet::forecast(&stream[..len]), refused(4, [0, 0]));
            assert_eq!(open(len), Some(Refusal::from_number(4, [0, 0])));
        }
        assert_eq!(sheet::forecast(&stream[..STREAM_MAX_LEN]), expected);
        let refusal = expected.err().unwrap_or(Refusal::from_number(27, [0, 0]));
        assert_eq!(open(STREAM_MAX_LEN), Some(refusal));
    };
    at_both_sides(&stream, refused(7, [0, 0]));
    stream[..2].copy_from_slice(&BOF.to_le_bytes());
    at_both_sides(&stream, refused(8, [0, 0]));
    // The lock, then 1,024 rows of 65,532 bytes, then records of no bytes.
    for (kind, lock_end, keys) in [(Kind::Office97, 64, 1_048_577), (Kind::Xor, 16, 0)] {
        stream[..64].fill(0);
        let front = [(BOF, vec![0; 2]), (FILEPASS, kind.filepass("A"))];
        stream[..lock_end].copy_from_slice(&joined(&front));
        for row in 0..1024 {
            let at = 64 + row * 65_536;
            stream[at..at + 4].copy_from_slice(&[0x04, 0x02, 0xFC, 0xFF]);
        }
        let records = 2 + (64 - lock_end) / 4 + 1024 + 251_658_224;
        let counts = [1_073_741_824, records, 67_104_768, keys];
        at_both_sides(&stream, told(counts));
        // A byte less, and the last record is padding; or it is cut, if one of its bytes is not zero.
        let len = STREAM_MAX_LEN - 1;
        let padded = told([len, records - 1, 67_104_768, keys]);
        assert_eq!(sheet::forecast(&stream[..len]), padded);
        stream[len - 1] = 1;
        let cut = refused(6, [1_073_741_820, 0]);
        assert_eq!(sheet::forecast(&stream[..len]), cut);
        stream[len - 1] = 0;
    }
}

/// What documents 01 and 02 give, from a list of all records.
fn expected(stream: &[u8]) -> Result<Forecast, Refusal> {
    let (records, fault) = walk(stream);
    if let Some(at) = fault {
        return refused(6, [at as u64, 0]);
    }
    if records.first().map(|record| record.1) != Some(BOF) {
        return refused(7, [0, 0]);
    }
    let Some(place) = records.iter().position(|(_, id, _)| *id == FILEPASS) else {
        return refused(8, [0, 0]);
    };
    let clear = [BOF, FILEPASS, 0x00E1, 0x0138, 0x0194, 0x0195, 0x0196];
    let mut before = records[..place].iter();
    if let Some((_, id, _)) = before.find(|(_, id, _)| !clear.contains(id)) {
        return refused(9, [(*id).into(), 0]);
    }
    let xor = expected_lock(records[place].2)?;
    let enciphered = records.iter().map(|(_, id, body)| match id {
        _ if clear.contains(id) => 0,
        0x0085 => body.len().saturating_sub(4),
        _ => body.len(),
    });
    let keys = match xor {
        true => 0,
        false => 1 + stream.len().div_ceil(1024),
    };
    told([stream.len(), records.len(), enciphered.sum(), keys])
}

/// Whether a lock is XOR, or its refusal.
fn expected_lock(body: &[u8]) -> Result<bool, Refusal> {
    let no = |number, first: usize, second: usize| {
        Err(Refusal::from_number(number, [first as u64, second as u64]))
    };
    let word =
        |bytes: &[u8], at: usize| usize::from(u16::from_le_bytes([bytes[at], bytes[at + 1]]));
    if body.len() < 2 {
        return no(10, body.len(), 2);
    }
    let (kind, lock) = (word(body, 0), &body[2..]);
    let len = lock.len();
    match kind {
        0 if len < 4 => return no(10, len, 4),
        0 => return Ok(true),
        1 => {}
        _ => return no(11, kind, 0),
    }
    if len < 4 {
        return no(12, len, 4);
    }
    match (word(lock, 0), word(lock, 2)) {
        (1, 1) if len < 52 => return no(14, len, 52),
        (1, 1) => return Ok(false),
        (2..=4, 2) => {}
        (major, minor) => return no(13, major, minor),
    }
    if len < 12 {
        return no(15, len, 12);
    }
    let field = |at: usize| word(lock, at) | word(lock, at + 2) << 16;
    let size = field(8);
    if !(32..=1024).contains(&size) {
        return no(16, size, 0);
    }
    if len < 12 + size {
        return no(17, size, len);
    }
    let [flags, cipher, hash, bits] = [12, 20, 24, 28].map(field);
    if flags & 0x10 != 0 {
        return no(18, flags, 0);
    }
    if flags & 0x20 != 0 {
        return no(19, flags, 0);
    }
    if flags & 0x04 == 0 {
        return no(20, flags, 0);
    }
    if ![0, 0x6801].contains(&cipher) {
        return no(21, cipher, 0);
    }
    if ![0, 0x8004].contains(&hash) {
        return no(22, hash, 0);
    }
    let sizes = (40..=128).step_by(8);
    if !sizes.chain([0]).any(|size| size == bits) {
        return no(23, bits, 0);
    }
    let left = len - 12 - size;
    if left < 60 {
        return no(24, left, 60);
    }
    let [salt_size, hash_size] = [12 + size, 12 + size + 36].map(field);
    match (salt_size, hash_size) {
        (16, 20) => Ok(false),
        (16, _) => no(26, hash_size, 0),
        _ => no(25, salt_size, 0),
    }
}

#[test]
fn random_streams_are_answered_as_the_documents_say() {
    let mut draw = common::draws(4);
    // How often each came: streams that are told of, and the refusals; and those told of with padding.
    let mut counts = std::collections::BTreeMap::new();
    let mut padded = 0;
    for _ in 0..20_000 {
        let mut parts = PARTS;
        // None to three questions are answered by no.
        for _ in 0..draw(4) {
            parts.spoil(QUESTIONS[draw(QUESTIONS.len())]);
        }
        let mut lock = parts.lock.body();
        match draw(8) {
            0 => lock = Kind::Xor.filepass("A"),
            1 => lock = Kind::Office97.filepass("A"),
            _ => {}
        }
        if draw(6) == 0 {
            lock.truncate(draw(lock.len() + 1));
        }
        let mut records = vec![
            (parts.first, vec![0; draw(3)]),
            (parts.before, vec![0; draw(3)]),
            (parts.filepass, lock),
        ];
        for _ in 0..draw(9) {
            let id = [ROW, BOUND_SHEET, EOF, BOF, CLEAR, FILEPASS, 0x0086][draw(7)];
            let longest = [1, 7, 40, 900][draw(4)];
            records.push((id, vec![id as u8; draw(longest)]));
        }
        let mut stream = joined(&records);
        stream.extend(parts.behind);
        if draw(16) == 0 {
            stream.truncate(draw(stream.len() + 1));
        }
        let zeros = draw(4);
        stream.resize(stream.len() + zeros, 0);
        let answer = forecast(&stream);
        assert_eq!(answer, expected(&stream), "{stream:02x?}");
        let refusal = answer.err().unwrap_or(Refusal::from_number(27, [0, 0]));
        assert_eq!(open(&stream, b""), Err(refusal), "{stream:02x?}");
        *counts.entry(refusal.number()).or_insert(0) += 1;
        padded += usize::from(answer.is_ok() && zeros > 0);
    }
    for number in 6..=27 {
        assert!(counts.get(&number).is_some_and(|n| *n > 50), "{counts:?}");
    }
    assert!(padded > 500, "{padded}");
}
