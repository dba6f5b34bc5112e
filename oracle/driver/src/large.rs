//! Large books: the greatest that are opened, and how long both sides take.

use crate::lock::{filepass, put_record, CryptoApi, Lock};
use crate::oracle;
use crate::paper::{self, BOF, FILEPASS};
use crate::port::{self, LONG_SCRATCH_LEN, SCRATCH_LEN, STREAM_MAX_LEN};
use crate::random::Random;
use reference::Container;
use std::time::Instant;

const PASSWORD: &str = "lift angle";
const MIB: usize = 1 << 20;

fn locks() -> [(&'static str, Lock); 3] {
    [("XOR", Lock::Xor), ("1.1", Lock::Office97), ("CryptoAPI 128", Lock::CryptoApi(CryptoApi::plain(128, 0x0C)))]
}

/// A locked book of exactly this length: BOF, FILEPASS, and records of one id and body length, the last one shorter or longer.
/// Bodies are random: any bytes decipher to something.
fn book(lock: &Lock, len: usize, id: u16, body: usize) -> Vec<u8> {
    let mut random = Random::new(len as u64, body as u64);
    let mut stream = Vec::with_capacity(len + 1);
    put_record(&mut stream, BOF, &[0; 16]);
    put_record(&mut stream, FILEPASS, &filepass(lock, PASSWORD, &mut random).0);
    let mut at = stream.len();
    stream.resize(len, 0);
    random.fill(&mut stream[at..]);
    while at < len {
        let left = len - at - 4;
        let body = if left < body + 4 { left } else { body };
        stream[at..at + 2].copy_from_slice(&id.to_le_bytes());
        stream[at + 2..at + 4].copy_from_slice(&(body as u16).to_le_bytes());
        at += 4 + body;
    }
    stream
}

fn seconds<T>(call: impl FnOnce() -> T) -> (f64, T) {
    let start = Instant::now();
    let value = call();
    (start.elapsed().as_secs_f64(), value)
}

/// Books of the greatest length under each lock, without padding and with three bytes of it, compared byte for byte, the padded ones with a long
/// scratch; and question 4 one byte further, with question 3 before it. The times are of one call each, as `best` takes them, the Rust's without the
/// padding.
pub fn large() -> bool {
    let mut sound = true;
    for (name, lock) in locks() {
        for padding in [0, 3] {
            let records = STREAM_MAX_LEN - padding;
            let mut stream = book(&lock, records, 0x003C, 8224);
            stream.resize(STREAM_MAX_LEN, 0);
            let mut own_as_expected = true;
            if padding > 0 {
                let own = oracle::open(&oracle::container(&stream, PASSWORD), &stream, PASSWORD).expect("an error maps to nothing");
                own_as_expected = oracle::unreadable_at(&own, records).is_ok();
            }
            let mut container = Container::open(&oracle::container(&stream[..records], PASSWORD)).unwrap();
            let (rust, result) = seconds(|| container.decrypt(PASSWORD));
            let answer = oracle::answer(result, container, &stream[..records]).expect("an error maps to nothing");
            let answer = oracle::padded(answer, &stream).expect("it has a lock");
            let mut scratch = vec![0x5A; if padding > 0 { LONG_SCRATCH_LEN } else { SCRATCH_LEN }];
            let mut output = vec![0x5A; STREAM_MAX_LEN];
            let (port, (number, facts)) = seconds(|| port::open(&stream, PASSWORD.as_bytes(), &mut scratch, &mut output));
            let same = answer.number == 0 && number == 0 && facts[..7] == answer.facts && facts[7] == 0 && output == answer.plain;
            let foretold = port::forecast(&stream) == paper::forecast(&stream, 0, [0; 2]);
            let (wiped, untouched) = scratch.split_at(SCRATCH_LEN);
            let left = wiped.iter().all(|byte| *byte == 0) && untouched.iter().all(|byte| *byte == 0x5A);
            let all = own_as_expected && same && foretold && left;
            sound &= all;
            println!(
                "{name}\t{} bytes{}\t{} records\t{}\tport {port:.2} s\tRust {rust:.2} s",
                stream.len(),
                if padding > 0 { format!(", {padding} of them padding") } else { String::new() },
                answer.facts[0],
                if all { "same" } else { "DIFFERENT" }
            );
            drop(answer);
            stream.push(0);
            scratch.fill(0x5A);
            let (less, _) = port::open(&stream, PASSWORD.as_bytes(), &mut scratch[..SCRATCH_LEN - 1], &mut output);
            let (number, facts) = port::open(&stream, PASSWORD.as_bytes(), &mut scratch, &mut output);
            sound &= less == 3 && (number, facts) == (4, [0; 8]) && port::forecast(&stream) == (4, [0; 8]);
            sound &= scratch.iter().all(|byte| *byte == 0x5A);
            println!("{name}\t{} bytes\tport {number}, and {less} with less scratch", stream.len());
        }
    }
    sound
}

/// The best of some rounds in which both sides take turns, in seconds: the port's and the Rust's.
///
/// Inside the Rust's time: excel97::decrypt, which copies the stream out of the container, clones it, and writes it back.
/// Outside: making the container. Inside the port's time: sheet_open, into an output that was written to before.
fn best(stream: &[u8], rounds: usize) -> [f64; 2] {
    let mut scratch = vec![0; SCRATCH_LEN];
    let mut output = vec![0x5A; stream.len()];
    let mut best = [f64::INFINITY; 2];
    for _ in 0..rounds {
        let (port, (number, _)) = seconds(|| port::open(stream, PASSWORD.as_bytes(), &mut scratch, &mut output));
        let mut container = Container::open(&oracle::container(stream, PASSWORD)).unwrap();
        let (rust, result) = seconds(|| container.decrypt(PASSWORD));
        assert!(number == 0 && result.is_ok());
        best = [best[0].min(port), best[1].min(rust)];
        assert!(container.read("/Workbook").unwrap() == output, "the two sides differ");
    }
    best
}

/// 64 MiB under each lock, in large and in small records.
pub fn speed() -> bool {
    println!("lock\trecord bodies\tport MB/s\tRust MB/s\tport to Rust");
    for (name, lock) in locks() {
        for (id, body) in [(0x003C, 8224), (0x0203, 14)] {
            let stream = book(&lock, 64 * MIB, id, body);
            let [port, rust] = best(&stream, 5).map(|seconds| stream.len() as f64 / 1e6 / seconds);
            println!("{name}\t{body} bytes\t{port:.0}\t{rust:.0}\t{:.2}", port / rust);
        }
    }
    true
}

/// Seconds by size under CryptoAPI with 128 bits.
pub fn growth() -> bool {
    println!("MiB\tport\tRust");
    for size in [1, 16, 64, 256, 1024] {
        let [port, rust] = best(&book(&locks()[2].1, size * MIB, 0x003C, 8224), 3);
        println!("{size}\t{port:.4}\t{rust:.4}");
    }
    true
}
