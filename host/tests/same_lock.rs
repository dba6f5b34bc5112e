//! Same lock: two streams have it exactly if a look finds both locked and the bodies of their FILEPASS
//! records are equal, byte for byte, as far as these are in the first 1,048,576 bytes (document 02,
//! T-08). And what follows for passwords: two such streams take the same ones, unless both bodies go on
//! after those bytes.

mod common;

use common::book::{
    clear_front, header, joined, Book, Kind, BOF, CLEAR, EOF, FILEPASS, KINDS, ROW, SALT, SEVEN,
};
use common::draws;
use common::guarded::Guarded;
use common::lent::Lent;
use common::passwords::{last_changed, longest};
use common::{sealing, xor};
use sheet::{Choice, Refusal, Verdict};

/// The first bytes of a stream, which alone are compared.
const CAP: usize = 1 << 20;

/// Same lock of two streams, with guard bytes around each. It is the same in both orders, and nothing is
/// written.
#[track_caller]
fn same(a: &[u8], b: &[u8]) -> bool {
    let (a, b) = (Guarded::with(a), Guarded::with(b));
    let answer = sheet::same_lock(a.get(), b.get());
    assert_eq!(answer, sheet::same_lock(b.get(), a.get()), "not symmetric");
    a.check_untouched();
    b.check_untouched();
    answer
}

/// BOF, and a FILEPASS header that states a length, with these bytes behind it.
fn stated(len: usize, bytes: &[u8]) -> Vec<u8> {
    [&header(BOF, 0)[..], &header(FILEPASS, len), bytes].concat()
}

/// The bytes of a stream with another one at an offset.
fn changed(stream: &[u8], at: usize, change: u8) -> Vec<u8> {
    let mut stream = stream.to_vec();
    stream[at] ^= change;
    stream
}

#[test]
fn every_byte_of_a_body_counts() {
    for kind in KINDS {
        let book = Book::small(kind);
        let (at, end) = book.filepass();
        let body = at + 4..end;
        assert_eq!(body.len(), kind.filepass(book.password).len());
        // The first, the last, one in the middle, and all others.
        for place in body.clone() {
            for change in [0x01, 0x80, 0xFF] {
                let other = changed(&book.locked, place, change);
                assert!(!same(&book.locked, &other), "{kind:?} {place} {change}");
                assert!(same(&other, &other), "{kind:?} {place} {change}");
            }
        }
        // The bytes before and after it are no part of it: the length is stated higher here, and cut.
        let alone = &book.locked[..end];
        assert!(same(alone, &changed(alone, at + 3, 0x40)), "{kind:?}");
        assert!(same(&book.locked, &changed(&book.locked, end, 0xFF)));
    }
}

#[test]
fn two_bytes_that_make_up_for_each_other_are_not_the_same() {
    // Neither a sum of the bytes nor their order alone is compared.
    let bodies: [&[u8]; 6] = [
        &[1, 2, 3],
        &[3, 2, 1],
        &[2, 1, 3],
        &[1, 3, 2],
        &[0, 3, 3],
        &[1, 2, 3, 0],
    ];
    for (j, a) in bodies.iter().enumerate() {
        for (k, b) in bodies.iter().enumerate() {
            let [a, b] = [a, b].map(|body| stated(body.len(), body));
            assert_eq!(same(&a, &b), j == k, "{j} {k}");
        }
    }
}

#[test]
fn a_body_that_the_stream_ends_in_is_what_is_there() {
    for kind in KINDS {
        let body = kind.filepass(kind.password());
        for len in 0..=body.len() {
            let there = &body[..len];
            // The lengths that are stated, of which the first is that of a whole record.
            let lens = [len, len + 1, len + 2, body.len(), 0x1000, 0xFFFF];
            for first in lens {
                for second in lens {
                    let (a, b) = (stated(first, there), stated(second, there));
                    assert!(same(&a, &b), "{kind:?} {len}: {first} {second}");
                }
                // One byte more in one, and one changed.
                for more in [0x00, 0x07] {
                    let more = [there, &[more]].concat();
                    let (a, b) = (stated(first, there), stated(0xFFFF, &more));
                    assert!(!same(&a, &b), "{kind:?} {len} {first}");
                }
                if let Some(last) = len.checked_sub(1) {
                    let (a, b) = (stated(first, there), stated(first, there));
                    let b = changed(&b, 8 + last, 1);
                    assert!(!same(&a, &b), "{kind:?} {len} {first}");
                }
            }
        }
    }
}

#[test]
fn a_body_ends_at_the_length_that_is_stated() {
    for kind in KINDS {
        let body = kind.filepass(kind.password());
        for len in 0..body.len() {
            // What comes after is no part of it.
            let whole = stated(len, &body[..len]);
            assert!(same(&whole, &stated(len, &body)), "{kind:?} {len}");
            assert!(!same(&whole, &stated(len + 1, &body)), "{kind:?} {len}");
            let other = changed(&stated(len, &body), 8 + len, 0xFF);
            assert!(same(&whole, &other), "{kind:?} {len}");
        }
    }
}

#[test]
fn empty_bodies_are_equal() {
    let row = joined(&[(ROW, vec![7; 9])]);
    let empty = [
        stated(0, &[]),
        stated(1, &[]),
        stated(0xFFFF, &[]),
        stated(0, &row),
        joined(&[(BOF, vec![1, 2]), (CLEAR, vec![3]), (FILEPASS, vec![])]),
        joined(&[(BOF, vec![]), (FILEPASS, vec![]), (FILEPASS, vec![1; 6])]),
    ];
    let others = [
        stated(1, &[0]),
        stated(2, &[0]),
        stated(1, &row),
        stated(6, &[0; 6]),
    ];
    for a in &empty {
        for b in &empty {
            assert!(same(a, b));
        }
        for b in &others {
            assert!(!same(a, b));
        }
    }
}

#[test]
fn what_is_around_a_body_does_not_matter() {
    let all: Vec<(u16, Vec<u8>)> = SEVEN
        .iter()
        .filter(|id| **id != FILEPASS)
        .enumerate()
        .map(|(k, id)| (*id, vec![0x2F; 7 * k]))
        .collect();
    let fronts = [
        vec![(BOF, vec![])],
        vec![(BOF, vec![0, 6, 5, 0])],
        vec![(BOF, vec![]), (CLEAR, vec![0x2F, 0, 6, 0])],
        vec![(BOF, vec![]), (BOF, vec![]), (CLEAR, vec![9; 3000])],
        all,
    ];
    let behind = [
        vec![],
        vec![(ROW, vec![1; 5])],
        vec![(0x0086, vec![]), (ROW, vec![])],
        vec![(FILEPASS, vec![8; 20]), (EOF, vec![])],
        vec![(CLEAR, vec![5; 70_000 - 5000])],
    ];
    for kind in [Kind::Xor, Kind::Office97, Kind::CryptoApi(128, true)] {
        let body = kind.filepass(kind.password());
        let mut other = body.clone();
        *other.last_mut().unwrap() ^= 1;
        let mut streams = Vec::new();
        for front in &fronts {
            for behind in &behind {
                let with = |body: &Vec<u8>| {
                    let lock = [(FILEPASS, body.clone())];
                    joined(&[&front[..], &lock, behind].concat())
                };
                streams.push((with(&body), with(&other)));
            }
        }
        for (a, other) in &streams {
            for (b, _) in &streams {
                assert!(same(a, b), "{kind:?}");
                assert!(!same(other, b), "{kind:?}");
            }
        }
    }
}

/// Streams of which a look does not say yes, and what it says.
fn not_locked() -> Vec<(Vec<u8>, Verdict)> {
    let lock = (FILEPASS, Kind::Xor.filepass("A"));
    let bof = (BOF, vec![]);
    let book = joined(&[bof.clone(), lock.clone()]);
    let after = |id: u16| joined(&[bof.clone(), (id, vec![]), lock.clone()]);
    vec![
        (vec![], Verdict::Unknown),
        (book[..1].to_vec(), Verdict::Unknown),
        (book[..4].to_vec(), Verdict::Unknown),
        (book[..7].to_vec(), Verdict::Unknown),
        (book[4..].to_vec(), Verdict::Unknown),
        // A clear record that the stream ends in.
        (
            joined(&[(BOF, vec![1; 40])])[..30].to_vec(),
            Verdict::Unknown,
        ),
        (joined(&[(0x0009, vec![]), lock.clone()]), Verdict::Unknown),
        (joined(&[bof.clone(), (CLEAR, vec![])]), Verdict::Unknown),
        (joined(&[bof.clone(), (ROW, vec![])]), Verdict::No),
        (after(0x0086), Verdict::No),
        (after(0x0000), Verdict::No),
        (Book::small(Kind::Office97).plain, Verdict::No),
    ]
}

#[test]
fn a_stream_that_is_not_locked_has_no_lock() {
    let streams = not_locked();
    for (a, verdict) in &streams {
        assert_eq!(sheet::look(a), *verdict, "{a:?}");
        for (b, _) in &streams {
            assert!(!same(a, b), "{a:?} {b:?}");
        }
        for kind in KINDS {
            assert!(!same(a, &Book::small(kind).locked), "{a:?}");
        }
        assert!(!same(a, &stated(0, &[])), "{a:?}");
    }
}

/// Streams with many locks in common.
fn various() -> Vec<Vec<u8>> {
    let mut streams: Vec<Vec<u8>> = not_locked().into_iter().map(|(stream, _)| stream).collect();
    for kind in KINDS {
        let (small, long) = (Book::small(kind), Book::long(kind));
        let (at, end) = small.filepass();
        streams.push(small.locked[..end].to_vec());
        streams.push(changed(&small.locked, end - 1, 1));
        streams.push(changed(&long.locked, end - 1, 1));
        streams.push(changed(&small.locked, at + 4, 0x80));
        for len in [0, 1, 2, 6, 34, 54] {
            streams.push(small.locked[..end.min(at + 4 + len)].to_vec());
        }
        streams.extend([small.locked, long.locked]);
    }
    streams
}

#[test]
fn it_is_symmetric_and_transitive_and_of_itself_where_a_look_says_yes() {
    let streams = various();
    let count = streams.len();
    let mut alike = vec![vec![false; count]; count];
    for (j, a) in streams.iter().enumerate() {
        for (k, b) in streams.iter().enumerate() {
            // The answer of one order alone.
            alike[j][k] = sheet::same_lock(a, b);
        }
        let locked = matches!(sheet::look(a), Verdict::Yes(_));
        assert_eq!(alike[j][j], locked, "{j}");
    }
    let (mut pairs, mut triples) = (0, 0);
    for j in 0..count {
        for k in 0..count {
            assert_eq!(alike[j][k], alike[k][j], "{j} {k}");
            if !alike[j][k] {
                continue;
            }
            pairs += usize::from(j != k);
            for l in (0..count).filter(|l| alike[k][*l]) {
                assert!(alike[j][l], "{j} {k} {l}");
                triples += usize::from(j != k && k != l && j != l);
            }
        }
    }
    assert!(pairs > 50 && triples > 50, "{pairs} {triples}");
}

/// The body of a FILEPASS, all its bytes within the stream's first 1,048,576, whatever length its header
/// states; none where a look does not say yes.
fn body_by_request(stream: &[u8]) -> Option<&[u8]> {
    let mut rest = &stream[..stream.len().min(CAP)];
    if !rest.starts_with(&BOF.to_le_bytes()) {
        return None;
    }
    loop {
        let (header, behind) = rest.split_first_chunk::<4>()?;
        let id = u16::from_le_bytes([header[0], header[1]]);
        let len = usize::from(u16::from_le_bytes([header[2], header[3]]));
        if id == FILEPASS {
            return Some(&behind[..len.min(behind.len())]);
        }
        if !SEVEN.contains(&id) {
            return None;
        }
        rest = behind.get(len..)?;
    }
}

/// The facts that were compared before: XOR mark, version and key size.
type Compared = (bool, Option<[u16; 2]>, Option<u32>);

fn facts_by_request(body: &[u8]) -> Compared {
    let two = |at: usize| Some(u16::from_le_bytes(*body.get(at..)?.first_chunk()?));
    let four = |at: usize| Some(u32::from_le_bytes(*body.get(at..)?.first_chunk()?));
    let (major, minor) = match (two(0), two(2), two(4)) {
        (Some(0), ..) => return (true, None, None),
        (Some(_), Some(major), Some(minor)) => (major, minor),
        _ => return (false, None, None),
    };
    let size = match (major, minor, four(30)) {
        (2..=4, 2, Some(0)) => Some(40),
        (2..=4, 2, Some(size @ 1..=4096)) => Some(size),
        _ => None,
    };
    (false, Some([major, minor]), size)
}

/// "Two locks shall be the same exactly when the facts compared so far agree and their FILEPASS bodies
/// are equal byte for byte": the facts, and then the bodies.
fn same_by_request(a: &[u8], b: &[u8]) -> [bool; 2] {
    match (body_by_request(a), body_by_request(b)) {
        (Some(a), Some(b)) => [facts_by_request(a) == facts_by_request(b), a == b],
        _ => [false, false],
    }
}

/// A small stream, by its parts.
#[derive(Clone)]
struct Made {
    front: Vec<(u16, Vec<u8>)>,
    body: Vec<u8>,
    /// How many bytes more are stated than there are. Where there are any, nothing follows.
    more: usize,
    behind: Vec<(u16, Vec<u8>)>,
    /// How many bytes are cut off at the end.
    cut: usize,
}

impl Made {
    fn draw(draw: &mut impl FnMut(usize) -> usize) -> Made {
        let mut made = Made {
            front: Vec::new(),
            body: Vec::new(),
            more: 0,
            behind: Vec::new(),
            cut: 0,
        };
        made.draw_around(draw);
        made.body = match draw(3) {
            // The start of a CryptoAPI lock, around its key size.
            0 => {
                let head = [1, 2 + draw(4) as u16, 2].map(u16::to_le_bytes).concat();
                let size = [0, 40, 128, 4096, 4097][draw(5)];
                let size = u32::to_le_bytes(size);
                let body = [&head[..], &[draw(2) as u8; 24], &size, &[0, 0]].concat();
                body[..body.len() - draw(6)].to_vec()
            }
            _ => (0..draw(5)).map(|_| draw(3) as u8).collect(),
        };
        made
    }

    /// Draws everything but the body.
    fn draw_around(&mut self, draw: &mut impl FnMut(usize) -> usize) {
        let some = |draw: &mut dyn FnMut(usize) -> usize| vec![0x2F; draw(5)];
        let first = if draw(20) == 0 { CLEAR } else { BOF };
        self.front = vec![(first, some(draw))];
        for _ in 0..draw(3) {
            let id = match draw(30) {
                0 => ROW,
                // Any of the seven but FILEPASS.
                k => [BOF, CLEAR, 0x0138, 0x0194, 0x0195, 0x0196][k % 6],
            };
            self.front.push((id, some(draw)));
        }
        self.more = [0, 0, 1, 2, 700][draw(5)];
        self.behind.clear();
        for _ in 0..draw(3) {
            let id = [ROW, FILEPASS, CLEAR, EOF][draw(4)];
            self.behind.push((id, some(draw)));
        }
        self.cut = if draw(8) == 0 { draw(12) } else { 0 };
    }

    /// Draws a body that is close to this one: a byte changed, added or left out.
    fn draw_close(&mut self, draw: &mut impl FnMut(usize) -> usize) {
        let at = draw(self.body.len() + 1);
        match draw(3) {
            0 if at < self.body.len() => self.body[at] ^= 1 << draw(8),
            1 if at < self.body.len() => drop(self.body.remove(at)),
            _ => self.body.insert(at, draw(3) as u8),
        }
    }

    fn stream(&self) -> Vec<u8> {
        let mut stream = joined(&self.front);
        stream.extend(header(FILEPASS, self.body.len() + self.more));
        stream.extend(&self.body);
        if self.more == 0 {
            stream.extend(joined(&self.behind));
        }
        stream.truncate(stream.len().saturating_sub(self.cut));
        stream
    }
}

#[test]
fn random_streams_are_compared_as_the_request_says() {
    let mut draw = draws(8);
    // By what the request says: the same; other bodies whose facts agree; other facts; not both locked.
    let mut counts = [0; 4];
    for number in 0..300_000 {
        let first = Made::draw(&mut draw);
        let mut second = first.clone();
        match draw(4) {
            0 => second = Made::draw(&mut draw),
            1 => second.draw_close(&mut draw),
            _ => {}
        }
        if draw(8) > 0 {
            second.draw_around(&mut draw);
        }
        let (a, b) = (first.stream(), second.stream());
        let [facts, bodies] = same_by_request(&a, &b);
        assert_eq!(same(&a, &b), facts && bodies, "{number}: {a:02x?} {b:02x?}");
        let locked = |stream: &[u8]| body_by_request(stream).is_some();
        for stream in [&a, &b] {
            let yes = matches!(sheet::look(stream), Verdict::Yes(_));
            assert_eq!(yes, locked(stream), "{number}: {stream:02x?}");
            assert_eq!(sheet::same_lock(stream, stream), yes, "{number}");
        }
        counts[match (facts, bodies) {
            (true, true) => 0,
            (true, false) => 1,
            // Equal bodies have equal facts.
            (false, true) => unreachable!(),
            (false, false) if locked(&a) && locked(&b) => 2,
            (false, false) => 3,
        }] += 1;
    }
    println!("same, other bodies, other facts, not locked: {counts:?}");
    assert!(counts.iter().all(|count| *count > 10_000), "{counts:?}");
}

/// A stream whose FILEPASS body ends at an offset, with a row behind it.
fn ending_at(end: usize, body: &[u8]) -> Vec<u8> {
    let mut records = clear_front(end - body.len() - 4);
    records.push((FILEPASS, body.to_vec()));
    records.push((ROW, vec![7; 30]));
    joined(&records)
}

#[test]
fn a_body_is_compared_up_to_the_cap() {
    for kind in [Kind::Xor, Kind::Office97, Kind::CryptoApi(128, true)] {
        let body = kind.filepass(kind.password());
        for end in [CAP - 1, CAP, CAP + 1] {
            let stream = ending_at(end, &body);
            let start = end - body.len();
            assert_eq!(stream[start..end], body);
            // The last bytes before the cap and the first past it, in the body or behind it.
            for at in CAP - 3..CAP + 3 {
                let other = changed(&stream, at, 0xFF);
                let in_body = (start..end.min(CAP)).contains(&at);
                assert_eq!(same(&stream, &other), !in_body, "{kind:?} {end} {at}");
            }
            // The first byte, which is well before.
            assert!(
                !same(&stream, &changed(&stream, start, 1)),
                "{kind:?} {end}"
            );
            // A short stream with the same lock, whose body ends there or is cut by one byte.
            let short = |len: usize| stated(len, &body[..len]);
            let (whole, less) = (body.len(), body.len() - 1);
            assert_eq!(same(&stream, &short(whole)), end <= CAP, "{kind:?} {end}");
            assert_eq!(same(&stream, &short(less)), end > CAP, "{kind:?} {end}");
        }
        // Bodies that end on both sides of the cap: of the second, the last byte is not seen.
        let [before, at, past] = [CAP - 1, CAP, CAP + 1].map(|end| ending_at(end, &body));
        assert!(same(&before, &at), "{kind:?}");
        assert!(!same(&at, &past), "{kind:?}");
        assert!(!same(&before, &past), "{kind:?}");
        // One byte less is stated, and the same bytes are seen.
        let less = ending_at(CAP, &body[..body.len() - 1]);
        assert!(same(&less, &past), "{kind:?}");
        assert!(!same(&less, &at), "{kind:?}");
        // Bytes past the cap, however many are stated, add nothing.
        let long = ending_at(CAP + 5000, &[&body[..], &[9; 5000]].concat());
        assert!(same(&long, &at), "{kind:?}");
        assert!(same(&long, &stated(0xFFFF, &body)), "{kind:?}");
    }
}

#[test]
fn a_header_is_found_up_to_the_cap() {
    let [a, b] = ["A", "B"].map(|password| Kind::Office97.filepass(password));
    assert_ne!(a, b);
    for before in 0..=5 {
        // The header is whole from four bytes before the cap on; of the body one byte is seen at the most.
        let [first, second] = [&a, &b].map(|body| ending_at(CAP - before + 4 + body.len(), body));
        for stream in [&first, &second] {
            let yes = matches!(sheet::look(stream), Verdict::Yes(_));
            assert_eq!(yes, before >= 4, "{before}");
        }
        // That byte is the first of the type, the same in both.
        assert_eq!(same(&first, &second), before >= 4, "{before}");
        assert_eq!(same(&first, &first), before >= 4, "{before}");
        // An empty body, wherever it is.
        let empty = stated(0, &[]);
        assert_eq!(same(&first, &empty), before == 4, "{before}");
        assert_eq!(same(&first, &stated(9, &[1])), before == 5, "{before}");
    }
}

/// Passwords that are tried on locks.
fn passwords(kind: Kind) -> Vec<String> {
    let own = kind.password();
    let mut list: Vec<String> = [own, "", "A", "a", "Unruh", COLLIDING[0], COLLIDING[1]]
        .map(str::to_string)
        .to_vec();
    list.push(own[1..].to_string());
    list.push(own.to_string() + " ");
    list.push(own.to_uppercase());
    list.push(last_changed("Unruh"));
    list.extend(longest().map(str::to_string));
    list
}

/// Two passwords with the same key and verifier under XOR, so that each passes where the other does.
const COLLIDING: [&str; 2] = ["dbocwlx", "hlwiers"];

/// Whether a password passes the check of a stream that is otherwise in order.
#[track_caller]
fn passes(stream: &[u8], password: &str) -> bool {
    match Lent::enough(stream, password.as_bytes()).open() {
        Ok(_) => true,
        Err(Refusal::WrongPassword) => false,
        Err(refusal) => panic!("refused, {refusal}"),
    }
}

/// Sees that each password of a list passes in both streams or in neither, and gives how many do.
#[track_caller]
fn passing(a: &[u8], b: &[u8], list: &[String]) -> usize {
    assert!(same(a, b));
    let mut passing = 0;
    for password in list {
        let [first, second] = [a, b].map(|stream| passes(stream, password));
        assert_eq!(first, second, "{password}");
        passing += usize::from(first);
    }
    passing
}

#[test]
fn books_with_the_same_lock_take_the_same_passwords() {
    for kind in KINDS {
        let (small, long) = (Book::small(kind), Book::long(kind));
        assert_ne!(small.plain, long.plain);
        let list = passwords(kind);
        assert_eq!(passing(&small.locked, &long.locked, &list), 1, "{kind:?}");
        let report = Lent::enough(&small.locked, kind.password().as_bytes()).open_to(&small.plain);
        assert_eq!(report, small.report_in(small.locked.len()));
    }
    // Under XOR, also a password that passes and is not the one that the book was locked with.
    let [key, verifier] = [xor::key, xor::verifier].map(|of| COLLIDING.map(|p| of(p.as_bytes())));
    assert!(key[0] == key[1] && verifier[0] == verifier[1]);
    let [first, second] = COLLIDING.map(|password| Book::long_under(Kind::Xor, password));
    assert_ne!(first.locked, second.locked);
    let list = passwords(Kind::Xor);
    assert_eq!(passing(&first.locked, &second.locked, &list), 2);
}

#[test]
fn one_body_that_ends_within_the_cap_is_enough() {
    let rows = [(ROW, b"Unruh 50".to_vec()), (EOF, vec![])];
    for kind in [Kind::Xor, Kind::Office97, Kind::CryptoApi(128, true)] {
        let password = kind.password();
        let body = kind.filepass(password);
        let longer = [&body[..], b"and more than is needed"].concat();
        let front = clear_front(CAP - body.len() - 4);
        let book = |front: &[(u16, Vec<u8>)], body: &[u8]| {
            let lock = [(FILEPASS, body.to_vec())];
            let records = [front, &lock, &rows].concat();
            Book::with_body(kind, password, body.to_vec(), &records)
        };
        // A body that ends at the cap, and one of the same bytes that goes on.
        let (ends, goes_on) = (book(&front, &body), book(&front, &longer));
        let list = passwords(kind);
        assert_eq!(passing(&ends.locked, &goes_on.locked, &list), 1, "{kind:?}");
        let small = Book::small(kind);
        let passed = passing(&small.locked, &goes_on.locked, &list);
        assert_eq!(passed, 1, "{kind:?}");
        for book in [&ends, &goes_on] {
            Lent::enough(&book.locked, password.as_bytes()).open_to(&book.plain);
        }
        // Within the cap the further bytes are another lock.
        let near = [(BOF, vec![])];
        let near = book(&near, &longer);
        assert!(!same(&near.locked, &small.locked), "{kind:?}");
        assert!(!same(&near.locked, &goes_on.locked), "{kind:?}");
    }
}

/// Two CryptoAPI locks with one salt, and with passwords and verifiers of their own.
fn one_salt() -> [(&'static str, Vec<u8>); 2] {
    let lock = |password, verifier| {
        let choice = Choice::CryptoApi {
            salt: SALT,
            verifier,
            major: 4,
            key_bits: 128,
        };
        (password, sealing::filepass(&choice, password, 106))
    };
    [
        lock("Unruh 28800", [0x11; 16]),
        lock("Anker 21600", [0x22; 16]),
    ]
}

/// Where the salt ends in both.
const SALT_END: usize = 66;

#[test]
fn bodies_that_both_go_on_past_the_cap_may_take_different_passwords() {
    let locks = one_salt();
    let [first, second] = [&locks[0].1, &locks[1].1];
    assert_eq!(first[..SALT_END], second[..SALT_END]);
    assert!(first[..SALT_END].ends_with(&SALT));
    assert_ne!(first[SALT_END], second[SALT_END]);
    // The two books, with so many bytes of their locks before the cap.
    let books = |seen: usize| {
        locks.clone().map(|(password, body)| {
            let mut records = clear_front(CAP - seen - 4);
            records.push((FILEPASS, Vec::new()));
            records.push((ROW, b"Unruh 50".to_vec()));
            records.push((EOF, Vec::new()));
            Book::with_body(Kind::CryptoApi(128, false), password, body, &records)
        })
    };
    for (seen, alike) in [(SALT_END, true), (first.len(), false)] {
        let [a, b] = books(seen);
        assert_eq!(same(&a.locked, &b.locked), alike, "{seen}");
        // Each opens with its own password, and is refused the other's.
        for (book, other) in [(&a, &b), (&b, &a)] {
            let report = Lent::enough(&book.locked, book.password.as_bytes()).open_to(&book.plain);
            assert_eq!(report, book.report_in(book.locked.len()));
            assert!(!passes(&book.locked, other.password));
        }
    }
    // They part with the first byte of the verifier that is seen.
    for seen in [
        0,
        1,
        SALT_END - 1,
        SALT_END,
        SALT_END + 1,
        first.len() - 1,
        first.len(),
    ] {
        let [a, b] = [first, second].map(|body| ending_at(CAP - seen + body.len(), body));
        assert_eq!(same(&a, &b), seen <= SALT_END, "{seen}");
    }
}
