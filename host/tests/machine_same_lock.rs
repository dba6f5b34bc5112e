//! What a comparison of two locks reads: headers, and the bodies of the two locks as far as they decide.
//! What it must not read lies in pages without access.

mod common;

use std::ffi::{c_int, c_void};
use std::fs::File;
use std::io;
use std::os::fd::AsRawFd;

use common::bare::sheet_same_lock;
use common::book::{clear_front, header, joined, Kind, BOF, FILEPASS, ROW};
use common::fenced::Fenced;
use common::folder::Folder;

/// The first bytes of a stream, which alone are compared.
const CAP: usize = 1 << 20;

/// The error of a system call that is given memory which can't be read.
const EFAULT: i32 = 14;

extern "C" {
    fn write(file: c_int, bytes: *const c_void, len: usize) -> isize;
}

/// Same lock of two streams, in both orders.
#[track_caller]
fn same(a: &Fenced, b: &Fenced) -> bool {
    let ((a, a_len), (b, b_len)) = (a.lend(), b.lend());
    // SAFETY: both are as long as that. What of them can't be read is not read, which is what is tested.
    let [one, other] = unsafe {
        [
            sheet_same_lock(a, a_len, b, b_len),
            sheet_same_lock(b, b_len, a, a_len),
        ]
    };
    assert_eq!(one, other);
    one
}

/// A stream with a FILEPASS header at an offset that states a length, and these bytes behind it.
fn stated(at: usize, len: usize, bytes: &[u8]) -> Vec<u8> {
    [&joined(&clear_front(at)), &header(FILEPASS, len), bytes].concat()
}

#[test]
fn bytes_behind_a_fence_can_t_be_read() {
    let folder = Folder::new();
    let file = File::create(folder.join("file")).unwrap();
    for offset in [0, 1, 7, 4095, 4096, 5000] {
        let fenced = Fenced::new(&[7; 5000], offset);
        let (bytes, len) = fenced.lend();
        assert_eq!(len, 5000);
        // The system reads the bytes to write them, and says so where it can't.
        let readable = |at: usize| {
            let place = bytes.wrapping_add(at).cast();
            // SAFETY: the system looks after itself.
            let wrote = unsafe { write(file.as_raw_fd(), place, 1) };
            if wrote < 0 {
                assert_eq!(io::Error::last_os_error().raw_os_error(), Some(EFAULT));
            }
            wrote == 1
        };
        for at in 0..5000 {
            assert_eq!(readable(at), at < offset, "{offset} {at}");
        }
    }
}

#[test]
fn nothing_past_the_cap_is_read() {
    let body = Kind::Office97.filepass("A");
    let more = [&body[..], &[7; 9000]].concat();
    // So many bytes of the body are before the cap.
    for seen in [0, 1, body.len() - 1, body.len()] {
        let stream = stated(CAP - 4 - seen, body.len(), &more);
        let fenced = Fenced::new(&stream, CAP);
        let longer = Fenced::new(&stated(CAP - 4 - seen, 9000, &more), CAP);
        assert!(same(&fenced, &fenced), "{seen}");
        assert!(same(&fenced, &longer), "{seen}");
        let short = stated(4, 9000, &body[..seen]);
        assert!(same(&fenced, &Fenced::new(&short, short.len())), "{seen}");
        let other = stated(4, body.len(), &more);
        let other = Fenced::new(&other, 8 + body.len());
        assert_eq!(same(&fenced, &other), seen == body.len(), "{seen}");
    }
    // A header that the cap cuts, and none before it.
    for before in 0..4 {
        let fenced = Fenced::new(&stated(CAP - before, 54, &more), CAP);
        assert!(!same(&fenced, &fenced), "{before}");
    }
}

#[test]
fn nothing_behind_a_body_is_read() {
    let rows = joined(&[(ROW, vec![7; 5000])]);
    for kind in [Kind::Xor, Kind::Office97, Kind::CryptoApi(128, true)] {
        let body = kind.filepass(kind.password());
        let stream = stated(4, body.len(), &[&body, &rows[..]].concat());
        let fenced = Fenced::new(&stream, 8 + body.len());
        let further = stated(3000, body.len(), &[&body, &rows[..]].concat());
        let further = Fenced::new(&further, 3004 + body.len());
        assert!(same(&fenced, &fenced), "{kind:?}");
        assert!(same(&fenced, &further), "{kind:?}");
    }
    // Of a body without bytes there is nothing to read at all.
    let empty = Fenced::new(&stated(4, 0, &rows), 8);
    assert!(same(&empty, &empty));
}

#[test]
fn bodies_of_different_lengths_are_not_read() {
    let rows = [7; 9000];
    // Lengths that are stated, and those that the end of the stream, or the cap, leaves.
    let of_stated = |len: usize| Fenced::new(&stated(4, len, &rows), 8);
    let of_cut = |len: usize| Fenced::new(&stated(4, 0xFFFF, &rows[..len]), 8);
    let of_cap = |len: usize| {
        let at = CAP - 4 - len;
        Fenced::new(&stated(at, 9000, &rows), at + 4)
    };
    let lens = [0, 1, 2, 6, 54, 122, 4000];
    for a in lens {
        for b in lens.into_iter().filter(|b| *b != a) {
            for (a, b) in [
                (of_stated(a), of_stated(b)),
                (of_stated(a), of_cut(b)),
                (of_cut(a), of_cut(b)),
            ] {
                assert!(!same(&a, &b));
            }
        }
    }
    for a in [0, 6, 122] {
        for b in [1, 5, 7, 54] {
            assert!(!same(&of_cap(a), &of_stated(b)), "{a} {b}");
            assert!(!same(&of_cut(a), &of_cap(b)), "{a} {b}");
        }
    }
}

#[test]
fn nothing_behind_the_first_byte_that_differs_is_read() {
    let body: Vec<u8> = (0..1200).map(|k| k as u8).collect();
    for at in [0, 1, 5, 15, 16, 31, 32, 63, 64, 100, 1000, 1199] {
        let mut other = body.clone();
        other[at] ^= 1;
        let [a, b] = [&body, &other].map(|body| {
            let stream = stated(4, body.len(), body);
            Fenced::new(&stream, 8 + at + 1)
        });
        assert!(!same(&a, &b), "{at}");
    }
}

#[test]
fn the_body_of_one_alone_is_not_read() {
    let body = Kind::Office97.filepass("A");
    let fenced = Fenced::new(&stated(4, body.len(), &body), 8);
    for other in [
        vec![],
        header(BOF, 0),
        header(ROW, 0),
        joined(&[(BOF, vec![]), (ROW, vec![])]),
    ] {
        let other = Fenced::new(&other, other.len());
        assert!(!same(&fenced, &other));
    }
}
