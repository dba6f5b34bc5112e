//! What a call to open or to seal leaves on the stack and in vector registers: nothing of the
//! password, nor of what is made from it.
//!
//! A trial paints the stack below it, opens a book or seals its plain stream, and reads the same stack
//! again, with machine instructions: what stands below the stack pointer is nobody's, and only the
//! machine can speak of it.

mod common;

use std::arch::asm;
use std::thread;

use common::bare::{seal_into, sheet_open};
use common::book::{Book, Kind, BLOCK, KINDS, SALT, VERIFIER};
use common::passwords::longest;
use common::rc4::Rc4;
use common::{digest, utf16, xor};
use sheet::Choice;

/// How much of the stack is painted and read, in bytes, and with what.
const REGION: usize = 128 * 1024;
const PAINT: u8 = 0xA5;

/// A run of this many bytes of a secret counts as found, if this many of them are not zero: keys of
/// 40 bits end in zeros, and with one or two bytes of a key they are any small number.
const RUN: usize = 8;
const TELLING: usize = 3;

/// How the names of tables in words begin.
const WORDS: &str = "in words: ";

/// Paints the stack below the stack pointer of the function that this stands in.
macro_rules! paint {
    () => {
        // SAFETY: the thread's stack has room for the region, no function that runs has its frame
        // there, and without the option `nostack` the compiler keeps nothing there either.
        unsafe {
            asm!(
                "lea rdi, [rsp - {region}]",
                "rep stosb",
                region = const REGION,
                inout("rcx") REGION => _,
                out("rdi") _,
                in("al") PAINT,
            )
        }
    };
}

/// Copies what stands below the stack pointer of the function that this stands in.
macro_rules! copy {
    ($to:expr) => {
        // SAFETY: as for painting, and the copy has room for the region.
        unsafe {
            assert!($to.len() == REGION);
            asm!(
                "lea rsi, [rsp - {region}]",
                "rep movsb",
                region = const REGION,
                inout("rcx") REGION => _,
                inout("rdi") $to.as_mut_ptr() => _,
                out("rsi") _,
            )
        }
    };
}

/// The bytes of all vector registers, where there are 32 of 64 bytes.
const VECTORS: usize = 32 * 64;

/// Copies the vector registers, as many and as wide as the machine has them.
macro_rules! copy_vectors {
    ($to:expr) => {
        // SAFETY: the instructions are those of the features that were detected, and the copy has
        // room for all registers.
        unsafe {
            assert!($to.len() == VECTORS);
            let to = $to.as_mut_ptr();
            if is_x86_feature_detected!("avx512f") {
                asm!(
                    ".irp n, 0, 1, 2, 3, 4, 5, 6, 7, 8, 9, 10, 11, 12, 13, 14, 15",
                    "vmovdqu64 [{to} + 64 * \\n], zmm\\n",
                    ".endr",
                    ".irp n, 16, 17, 18, 19, 20, 21, 22, 23, 24, 25, 26, 27, 28, 29, 30, 31",
                    "vmovdqu64 [{to} + 64 * \\n], zmm\\n",
                    ".endr",
                    to = in(reg) to,
                )
            } else if is_x86_feature_detected!("avx") {
                asm!(
                    ".irp n, 0, 1, 2, 3, 4, 5, 6, 7, 8, 9, 10, 11, 12, 13, 14, 15",
                    "vmovdqu [{to} + 64 * \\n], ymm\\n",
                    ".endr",
                    to = in(reg) to,
                )
            } else {
                asm!(
                    ".irp n, 0, 1, 2, 3, 4, 5, 6, 7, 8, 9, 10, 11, 12, 13, 14, 15",
                    "movdqu [{to} + 64 * \\n], xmm\\n",
                    ".endr",
                    to = in(reg) to,
                )
            }
        }
    };
}

/// The call without the wrapper: nothing is scrubbed.
#[inline(never)]
fn bare_open(stream: &[u8], password: &[u8], scratch: &mut [u8], output: &mut [u8]) -> u32 {
    let mut facts = [0; 8];
    // SAFETY: as the wrapper has it.
    unsafe {
        sheet_open(
            stream.as_ptr(),
            stream.len(),
            password.as_ptr(),
            password.len(),
            scratch.as_mut_ptr(),
            scratch.len(),
            output.as_mut_ptr(),
            output.len(),
            &mut facts,
        )
    }
}

fn wrapped_open(stream: &[u8], password: &[u8], scratch: &mut [u8], output: &mut [u8]) -> u32 {
    match sheet::open(stream, password, scratch, output) {
        Ok(_) => 0,
        Err(refusal) => refusal.number(),
    }
}

/// The lock of a book, to seal its plain stream under: with its salt, so that the same keys and tables
/// are made.
fn choice(kind: Kind) -> Choice {
    let (salt, verifier) = (SALT, VERIFIER);
    match kind {
        Kind::Xor => Choice::Xor,
        Kind::Office97 => Choice::Office97 { salt, verifier },
        Kind::CryptoApi(key_size, _) => Choice::CryptoApi {
            salt,
            verifier,
            major: 4,
            key_bits: key_size,
        },
    }
}

/// A sealing without the wrapper.
#[inline(never)]
fn bare_seal<const LOCK: usize>(
    plain: &[u8],
    password: &[u8],
    scratch: &mut [u8],
    output: &mut [u8],
) -> u32 {
    let mut facts = [0; 8];
    let choice = choice(KINDS[LOCK]);
    seal_into(plain, password, &choice, scratch, output, &mut facts)
}

fn wrapped_seal<const LOCK: usize>(
    plain: &[u8],
    password: &[u8],
    scratch: &mut [u8],
    output: &mut [u8],
) -> u32 {
    match sheet::seal(plain, password, &choice(KINDS[LOCK]), scratch, output) {
        Ok(_) => 0,
        Err(refusal) => refusal.number(),
    }
}

/// A call that takes a stream, a password, a scratch and an output.
type Call = fn(&[u8], &[u8], &mut [u8], &mut [u8]) -> u32;

/// The calls that seal under a lock, without the wrapper and with it.
fn seals(kind: Kind) -> [Call; 2] {
    match KINDS.iter().position(|other| *other == kind) {
        Some(0) => [bare_seal::<0>, wrapped_seal::<0>],
        Some(1) => [bare_seal::<1>, wrapped_seal::<1>],
        Some(2) => [bare_seal::<2>, wrapped_seal::<2>],
        _ => [bare_seal::<3>, wrapped_seal::<3>],
    }
}

/// Makes a call, and gives the answer and what stands afterwards on the stack, whose last byte is the
/// one nearest to the caller's frame, and in the vector registers.
#[inline(never)]
fn trial(call: Call, stream: &[u8], password: &[u8]) -> (u32, Vec<u8>, Vec<u8>) {
    let mut scratch = vec![0; sheet::SCRATCH_LEN];
    let mut output = vec![0; stream.len()];
    let mut region = vec![0; REGION];
    let mut vectors = vec![0; VECTORS];
    paint!();
    let number = call(stream, password, &mut scratch, &mut output);
    copy_vectors!(vectors);
    copy!(region);
    (number, region, vectors)
}

/// A trial on a thread of its own, whose stack has room for it.
fn left_behind(call: Call, stream: &[u8], password: &str) -> (u32, Vec<u8>, Vec<u8>) {
    thread::scope(|scope| {
        thread::Builder::new()
            .stack_size(4 * REGION)
            .spawn_scoped(scope, || trial(call, stream, password.as_bytes()))
            .unwrap()
            .join()
            .unwrap()
    })
}

/// What must not be left behind: a name and the bytes.
type Secrets = Vec<(String, Vec<u8>)>;

/// Bytes as they are, and as the words that SHA-1 computes with, the lower byte first.
fn both_forms(name: &str, bytes: &[u8], secrets: &mut Secrets) {
    let words = bytes
        .chunks(4)
        .flat_map(|word| word.iter().rev().copied())
        .collect();
    secrets.push((name.to_string(), bytes.to_vec()));
    secrets.push((format!("{name}, in words"), words));
}

/// The text of a password, as it is given and as it is hashed.
fn text_of(password: &str) -> Secrets {
    let mut secrets = Vec::new();
    both_forms("password, UTF-8", password.as_bytes(), &mut secrets);
    both_forms("password, UTF-16LE", &utf16(password), &mut secrets);
    secrets
}

/// A table as the password check has it, in bytes, and as the blocks have it, in words of 32 bits.
fn tables(name: &str, table: &[u8; 256], secrets: &mut Secrets) {
    secrets.push((name.to_string(), table.to_vec()));
    let words = table.iter().flat_map(|entry| [*entry, 0, 0, 0]).collect();
    secrets.push((format!("{WORDS}{name}"), words));
}

/// All that a book's password is made into.
fn secrets(book: &Book) -> Secrets {
    let mut secrets = text_of(book.password);
    if book.kind == Kind::Xor {
        let array = xor::array(book.password.as_bytes());
        // The array goes round.
        secrets.push(("XOR array".to_string(), array.repeat(2)));
        return secrets;
    }
    if book.kind == Kind::Office97 {
        let first = digest::md5(&utf16(book.password));
        secrets.push(("MD5 of the password".to_string(), first.to_vec()));
    }
    both_forms("H0", &book.kind.digest(book.password), &mut secrets);
    for (part, block) in book.locked.chunks(BLOCK).zip(0..) {
        let key = book.kind.block_key(book.password, block);
        let mut rc4 = Rc4::new(&key);
        both_forms(&format!("key of block {block}"), &key, &mut secrets);
        tables(&format!("table of block {block}"), &rc4.table, &mut secrets);
        for used in 1..=part.len() {
            rc4.byte();
            // After the check of the password, and at the end of the block.
            if [32, 36, part.len()].contains(&used) {
                let name = format!("table of block {block} after {used} bytes");
                tables(&name, &rc4.table, &mut secrets);
            }
        }
    }
    secrets
}

/// The names of the secrets of which a run of bytes stands in the region.
fn found(secrets: &Secrets, region: &[u8]) -> Vec<String> {
    let runs: std::collections::HashSet<&[u8]> = region.windows(RUN).collect();
    let shorter = |secret: &[u8]| region.windows(secret.len()).any(|window| window == secret);
    let telling = |run: &&[u8]| run.iter().filter(|byte| **byte != 0).count() >= TELLING;
    // Of a table in words a run of bytes has two entries; a longer one is asked for.
    let words: std::collections::HashSet<&[u8]> = region.windows(2 * RUN).collect();
    secrets
        .iter()
        .filter(|(name, secret)| match secret.len() {
            _ if name.starts_with(WORDS) => secret
                .windows(2 * RUN)
                .filter(telling)
                .any(|run| words.contains(run)),
            0..RUN => shorter(secret),
            _ => secret
                .windows(RUN)
                .filter(telling)
                .any(|run| runs.contains(run)),
        })
        .map(|(name, _)| name.clone())
        .collect()
}

/// How deep the stack was written to.
fn depth(region: &[u8]) -> usize {
    let untouched = region.iter().take_while(|byte| **byte == PAINT).count();
    region.len() - untouched
}

/// Books under each lock: a small one, a long one, and such under passwords of 1,024 bytes, where the
/// lock takes these.
fn books() -> Vec<Book> {
    let mut books = Vec::new();
    for kind in KINDS {
        books.extend([Book::small(kind), Book::long(kind)]);
        if kind != Kind::Xor {
            books.extend(longest().map(|password| Book::long_under(kind, password)));
        }
    }
    books
}

/// What a book is called in a message.
fn name(book: &Book) -> String {
    let (kind, len) = (book.kind, book.locked.len());
    let password = book.password.len();
    format!("{kind:?}, {len} bytes, password of {password}")
}

/// Sees that a call through the wrapper is answered by a number, and that none of the secrets is left
/// behind.
#[track_caller]
fn check_nothing_left(call: Call, stream: &[u8], password: &str, secrets: &Secrets, expected: u32) {
    let (number, region, vectors) = left_behind(call, stream, password);
    assert_eq!(number, expected);
    assert_eq!(found(secrets, &region), [""; 0]);
    assert_eq!(found(secrets, &vectors), [""; 0]);
}

#[test]
fn the_search_finds_a_key_of_40_bits_and_no_small_number() {
    let key = [
        0x91, 0x0D, 0xE2, 0x75, 0x06, 0, 0, 0, 0, 0, 0, 0, 0, 0, 0, 0,
    ];
    let secrets = vec![("key".to_string(), key.to_vec())];
    let painted = [PAINT; 20];
    for (from, expected) in [(0, 1), (1, 1), (2, 1), (3, 0), (4, 0), (5, 0)] {
        let region = [&painted, &key[from..], &painted].concat();
        assert_eq!(found(&secrets, &region).len(), expected, "{from}");
    }
}

/// No call leaves this text where nothing is scrubbed, so it is put there.
#[test]
fn the_search_finds_the_text_of_a_password_in_every_form() {
    for book in books() {
        let secrets = text_of(book.password);
        for (name, secret) in &secrets {
            let region = [&[PAINT; 20][..], secret, &[PAINT; 20]].concat();
            assert!(found(&secrets, &region).contains(name), "{name}");
        }
    }
}

#[test]
fn nothing_of_the_password_is_left_behind() {
    for book in books() {
        let secrets = secrets(&book);
        check_nothing_left(wrapped_open, &book.locked, book.password, &secrets, 0);
        let [_, seal] = seals(book.kind);
        check_nothing_left(seal, &book.plain, book.password, &secrets, 0);
    }
}

#[test]
fn nothing_of_a_password_that_seals_nothing_is_left_behind_either() {
    for book in books() {
        let [_, seal] = seals(book.kind);
        // Locked already, and cut in its last record.
        let cut = &book.plain[..book.plain.len() - 1];
        check_nothing_left(seal, &book.locked, book.password, &secrets(&book), 30);
        check_nothing_left(seal, cut, book.password, &secrets(&book), 6);
    }
    // Under XOR none of 1,024 bytes is taken.
    let book = Book::long(Kind::Xor);
    let [_, seal] = seals(Kind::Xor);
    for password in longest() {
        check_nothing_left(seal, &book.plain, password, &text_of(password), 32);
    }
}

#[test]
fn nothing_of_a_password_that_does_not_pass_is_left_behind_either() {
    for book in books() {
        // The right one for a book like it, so that its secrets are known.
        let mut stream = book.locked.clone();
        let (_, lock_end) = book.filepass();
        stream[lock_end - 1] ^= 1;
        check_nothing_left(wrapped_open, &stream, book.password, &secrets(&book), 27);
    }
    // Under XOR none of 1,024 bytes passes.
    let book = Book::long(Kind::Xor);
    for password in longest() {
        check_nothing_left(wrapped_open, &book.locked, password, &text_of(password), 27);
    }
}

#[test]
fn the_same_search_finds_secrets_where_nothing_is_scrubbed() {
    for book in books() {
        let [seal, _] = seals(book.kind);
        for (what, call, stream) in [
            ("open", bare_open as Call, &book.locked),
            ("seal", seal, &book.plain),
        ] {
            let (number, region, vectors) = left_behind(call, stream, book.password);
            assert_eq!(number, 0);
            let names = found(&secrets(&book), &region);
            println!("{what}, {}: {names:?}", name(&book));
            // What is left in which registers depends on the machine, so nothing is expected of them.
            println!("in registers: {:?}", found(&secrets(&book), &vectors));
            let sort = |word: &str| names.iter().any(|name| name.starts_with(word));
            match book.kind {
                Kind::Xor => assert!(sort("XOR array")),
                _ => assert!(sort("H0") && sort("key") && sort("table") && sort(WORDS)),
            }
        }
    }
}

#[test]
fn a_call_uses_far_less_of_the_stack_than_is_scrubbed() {
    for book in books() {
        for (what, [bare, wrapped], stream) in [
            ("open", [bare_open as Call, wrapped_open], &book.locked),
            ("seal", seals(book.kind), &book.plain),
        ] {
            let (first, bare, _) = left_behind(bare, stream, book.password);
            let (second, wrapped, _) = left_behind(wrapped, stream, book.password);
            assert_eq!((first, second), (0, 0));
            let (used, all) = (depth(&bare), depth(&wrapped));
            println!("{what}, {}: {used} of {all}", name(&book));
            assert!(used < 8 * 1024);
            assert!(all >= 16 * 1024);
        }
    }
}
