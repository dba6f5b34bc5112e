//! Feeds a case to both sides, compares all that comes of it, and keeps count.

use crate::copies::{self, Kind};
use crate::generate::Case;
use crate::oracle::{self, Answer, Looked};
use crate::paper;
use crate::port::{self, LONG_SCRATCH_LEN, PASSWORD_MAX_LEN, SCRATCH_LEN};
use std::collections::BTreeMap;
use std::time::{Duration, Instant};

/// Bytes after what is lent, which nobody may write to.
const GUARD: usize = 64;
/// How many differences are printed.
const PRINTED: usize = 20;
/// The most bytes of an input that are printed.
const HEX: usize = 4096;
/// How long the smallest difference is reduced.
const REDUCING: Duration = Duration::from_secs(10);

type Look = (u32, [u64; 5]);
/// What was compared before: a stream and what Look says of it.
type Before = Option<(Vec<u8>, Look)>;

#[derive(Default)]
pub struct Compare {
    scratch: Vec<u8>,
    output: Vec<u8>,
    before: Before,
    cases: u64,
    looks: [u64; 3],
    /// How many of the looks are judged by MS-OFFCRYPTO 2.3.5.1 and not by the Rust.
    by_standard: u64,
    /// How many pairs of streams do not have the same lock, and how many do; and of the first, how many have the same facts and other bodies.
    pairs: [u64; 2],
    other_bodies: u64,
    /// The same of streams and copies of them, by what is different in the copy.
    copies: BTreeMap<Kind, [u64; 2]>,
    /// How many forecasts give the counts, and how many refuse.
    forecasts: [u64; 2],
    numbers: BTreeMap<u32, u64>,
    /// By lock, key bits and whether the summary is sealed.
    opened: BTreeMap<[u64; 3], u64>,
    /// How many streams are padded, which the Rust refuses and T-05 decides; and how many of them opened, by lock.
    padded: u64,
    padded_opened: [u64; 3],
    /// Of the cases that are lent enough, how many have a scratch of exactly what is needed, of more that is not long, and a long one.
    scratches: [u64; 3],
    /// How many passwords of the greatest length opened, by lock: none does under XOR.
    longest_opened: [u64; 3],
    sealed_from_plain: u64,
    differences: u64,
    first: Vec<String>,
    /// The shortest stream that differs, with what was compared before it.
    smallest: Option<(Case, Before)>,
}

/// Whether all bytes are this one.
fn all(bytes: &[u8], byte: u8) -> bool {
    bytes.is_empty() || bytes[0] == byte && bytes[1..] == bytes[..bytes.len() - 1]
}

fn first_unequal(a: &[u8], b: &[u8]) -> usize {
    a.iter().zip(b).position(|(a, b)| a != b).unwrap_or(a.len().min(b.len()))
}

/// Whether two streams, of which one may be a copy, have the same lock by the oracle; and a fault if the port differs.
fn compare_locks(a: Looked, b: Looked, copy: Option<Kind>, faults: &mut Vec<String>) -> bool {
    let same = oracle::same_lock(&a, &b);
    let ours = port::same_lock(a.stream, b.stream);
    if ours != u8::from(same) {
        let copy = copy.map_or(String::new(), |kind| format!(" of a copy, {kind:?}"));
        faults.push(format!("same lock{copy}: port {ours}, oracle {same} of {:?} and {:?}", a.verdict, b.verdict));
    }
    same
}

impl Compare {
    /// Compares one case, counts it, and keeps it if it is a difference.
    pub fn case(&mut self, case: Case) {
        let mut faults = Vec::new();
        let (look, answer) = self.faults(&case, &mut faults);
        let padded = u64::from(paper::padding(&case.stream) > 0);
        self.cases += 1;
        self.padded += padded;
        if let Ok((number, _)) = look {
            self.looks[number as usize] += 1;
        }
        if let Ok(answer) = answer {
            *self.numbers.entry(answer.number).or_default() += 1;
            if !(1..=5).contains(&answer.number) {
                self.scratches[usize::from(case.scratch_len > SCRATCH_LEN) + usize::from(case.scratch_len >= LONG_SCRATCH_LEN)] += 1;
            }
            if answer.number == 0 {
                let [_, lock, key_bits, sealed, ..] = answer.facts;
                *self.opened.entry([lock, key_bits, sealed]).or_default() += 1;
                self.padded_opened[lock as usize] += padded;
                self.longest_opened[lock as usize] += u64::from(case.password.len() == PASSWORD_MAX_LEN);
                self.sealed_from_plain += u64::from(case.plain.is_some());
            }
        }
        if !faults.is_empty() {
            self.differences += 1;
            if self.first.len() < PRINTED {
                self.first.push(format!("{} {}, {} bytes: {}", case.part, case.index, case.stream.len(), faults.join("; ")));
            }
            if self.smallest.as_ref().is_none_or(|(smallest, _)| case.stream.len() < smallest.stream.len()) {
                self.smallest = Some((case.clone(), self.before.clone()));
            }
        }
        self.before = look.ok().map(|look| (case.stream, look));
    }

    /// The oracle's answers, with the standard's key size and T-05's words where those decide, and in what the port's differ.
    fn faults(&mut self, case: &Case, faults: &mut Vec<String>) -> (Result<Look, String>, Result<Answer, String>) {
        let stream = &case.stream[..];
        let password = std::str::from_utf8(&case.password).unwrap_or("");
        let container = oracle::container(stream, password);

        let look = Looked::at(stream, &container).map(|(looked, by_standard)| {
            self.by_standard += u64::from(by_standard);
            self.compare_looks(looked, faults);
            self.compare_copies(looked, case.index, faults);
            looked.verdict
        });
        if let Err(text) = &look {
            faults.push(format!("look: the oracle gives {text}"));
        }

        // the oracle is asked also where what is lent is refused: the forecast is lent nothing
        let judged = oracle::judged(&container, stream, password);
        match &judged {
            Err(text) => faults.push(format!("open: the oracle gives {text}")),
            Ok(answer) => self.compare_forecasts(stream, answer, faults),
        }
        let answer = match paper::lent(stream.len(), &case.password, case.scratch_len, case.output_len) {
            Some(number) => Ok(Answer::refusal(number, [0, 0])),
            None => judged,
        };
        if let Ok(answer) = &answer {
            self.compare_opens(case, answer, faults);
        }
        (look, answer)
    }

    fn compare_looks(&mut self, this: Looked, faults: &mut Vec<String>) {
        let (number, five) = this.verdict;
        let mut facts = [0; 8];
        facts[..5].copy_from_slice(&five);
        let ours = port::look(this.stream);
        if ours != (number, facts) {
            faults.push(format!("look: port {ours:?}, oracle {:?}", this.verdict));
        }
        let before = self.before.as_ref().map_or(this, |(stream, verdict)| Looked { stream, verdict: *verdict });
        for (a, b) in [(this, this), (before, this), (this, before)] {
            let same = compare_locks(a, b, None, faults);
            self.pairs[usize::from(same)] += 1;
            self.other_bodies += u64::from(!same && oracle::same_facts(&a, &b));
        }
    }

    /// Same lock of a stream that is locked and each copy of it, both ways.
    fn compare_copies(&mut self, this: Looked, number: u64, faults: &mut Vec<String>) {
        if this.verdict.0 != 2 {
            return;
        }
        let Some(filepass) = paper::seen_filepass(this.stream) else {
            return faults.push("look: yes, but there is no FILEPASS".to_string());
        };
        for kind in copies::KINDS {
            let Some(copy) = copies::copy(kind, this.stream, filepass.clone(), number) else {
                continue;
            };
            let other = match Looked::at(&copy, &oracle::bare_container(&copy)) {
                Ok((other, _)) => other,
                Err(text) => {
                    faults.push(format!("look at a copy, {kind:?}: the oracle gives {text}"));
                    continue;
                }
            };
            for (a, b) in [(this, other), (other, this)] {
                let same = compare_locks(a, b, Some(kind), faults);
                self.copies.entry(kind).or_default()[usize::from(same)] += 1;
                if !kind.possible()[usize::from(same)] {
                    faults.push(format!("same lock: the oracle gives {same} of a copy, {kind:?}"));
                }
            }
        }
    }

    fn compare_forecasts(&mut self, stream: &[u8], answer: &Answer, faults: &mut Vec<String>) {
        let theirs = paper::forecast(stream, answer.number, [answer.facts[0], answer.facts[1]]);
        let ours = port::forecast(stream);
        if ours != theirs {
            faults.push(format!("forecast: port {ours:?}, oracle {theirs:?}"));
        }
        self.forecasts[usize::from(theirs.0 != 0)] += 1;
    }

    fn compare_opens(&mut self, case: &Case, answer: &Answer, faults: &mut Vec<String>) {
        // a byte that changes from case to case, and is not 0
        let mark = (case.index % 255) as u8 + 1;
        self.scratch.clear();
        self.scratch.resize(case.scratch_len + GUARD, mark);
        self.output.clear();
        self.output.resize(case.output_len + GUARD, mark);
        let (scratch, output) = (&mut self.scratch[..case.scratch_len], &mut self.output[..case.output_len]);
        let (number, facts) = port::open(&case.stream, &case.password, scratch, output);

        if number != answer.number || facts[..7] != answer.facts || facts[7] != 0 {
            faults.push(format!("open: port {number} {facts:?}, oracle {} {:?}", answer.number, answer.facts));
        }
        let (plain, rest) = self.output.split_at(answer.plain.len());
        if plain != answer.plain {
            let at = first_unequal(plain, &answer.plain);
            faults.push(format!("open: byte {at} of the output is {:02x}, the oracle's {:02x}", plain[at], answer.plain[at]));
        }
        if !all(rest, mark) {
            faults.push("open: the output is written to beyond the plain stream".to_string());
        }
        // exactly so many bytes end zero, and all others, however many, are as they were lent
        let wiped = if (1..=5).contains(&answer.number) { 0 } else { SCRATCH_LEN };
        if !all(&self.scratch[..wiped], 0) || !all(&self.scratch[wiped..], mark) {
            faults.push("open: the scratch is not as it should be".to_string());
        }
        if case.plain.as_ref().is_some_and(|plain| answer.number != 0 || *plain != answer.plain) {
            faults.push(format!("open: the oracle does not give back what was sealed, but {} {:?}", answer.number, answer.facts));
        }
    }

    /// Leaves out what a difference does not need, as long as it stays one and the time is not up.
    fn reduce(&mut self, mut case: Case) -> Case {
        case.plain = None;
        let mut differs = |case: &Case| {
            let mut faults = Vec::new();
            let _ = self.faults(case, &mut faults);
            !faults.is_empty()
        };
        if !differs(&case) {
            return case;
        }
        let start = Instant::now();
        let room = case.output_len as isize - case.stream.len() as isize;
        let mut leave_out = |case: &mut Case, from: usize, to: usize| {
            if start.elapsed() > REDUCING {
                return false;
            }
            let mut less = case.clone();
            less.stream.drain(from..to);
            less.output_len = (less.stream.len() as isize + room).max(0) as usize;
            let differs = differs(&less);
            if differs {
                *case = less;
            }
            differs
        };
        // whole records, the last first; then fewer and fewer bytes
        for record in paper::records(&case.stream.clone()).collect::<Vec<_>>().iter().rev() {
            leave_out(&mut case, record.at, record.end);
        }
        let mut step = case.stream.len() / 2;
        while step > 0 {
            let mut at = 0;
            while at + step <= case.stream.len() {
                if !leave_out(&mut case, at, at + step) {
                    at += step;
                }
            }
            step /= 2;
        }
        case
    }

    /// Prints the counts and the differences; whether there is none, and every outcome that can occur did.
    pub fn summary(mut self, seed: u64) -> bool {
        println!("cases\t{}", self.cases);
        println!("look\tunknown {}, no {}, yes {}", self.looks[0], self.looks[1], self.looks[2]);
        println!("of them judged by MS-OFFCRYPTO 2.3.5.1, key size 0 as 40\t{}", self.by_standard);
        println!("same lock\tno {}, of them with the same facts {}, yes {}", self.pairs[0], self.other_bodies, self.pairs[1]);
        for (kind, [no, yes]) in &self.copies {
            println!("same lock of a copy, {kind:?}\tno {no}, yes {yes}");
        }
        println!("forecast\ttold {}, refused {}", self.forecasts[0], self.forecasts[1]);
        println!("number\tcases");
        for (number, count) in &self.numbers {
            println!("{number}\t{count}");
        }
        println!("opened, by lock, key bits and summary\tcases");
        for ([lock, key_bits, sealed], count) in &self.opened {
            let lock = ["XOR", "1.1", "CryptoAPI"][*lock as usize];
            println!("{lock} {key_bits}{}\t{count}", if *sealed == 1 { " sealed" } else { "" });
        }
        println!("of them compared with what was sealed\t{}", self.sealed_from_plain);
        let [xor, old, api] = self.padded_opened;
        println!("padded, judged by T-05\t{}, of them opened {}: XOR {xor}, 1.1 {old}, CryptoAPI {api}", self.padded, xor + old + api);
        let [exact, more, long] = self.scratches;
        println!("lent enough, with a scratch of {SCRATCH_LEN}\t{exact}, of more but below {LONG_SCRATCH_LEN} {more}, of {LONG_SCRATCH_LEN} or more {long}");
        let [_, old, api] = self.longest_opened;
        println!("opened with a password of {PASSWORD_MAX_LEN} bytes\t{}: 1.1 {old}, CryptoAPI {api}", old + api);
        let never = self.never();
        println!("outcomes that never occurred\t{}", if never.is_empty() { "none".to_string() } else { never.join(", ") });
        println!("differences\t{}", self.differences);
        for line in &self.first {
            println!("  {line}");
        }
        if let Some((case, before)) = self.smallest.take() {
            println!("the smallest: seed {seed}, {} {}", case.part, case.index);
            print_input(&case);
            if let Some((stream, _)) = &before {
                println!("  after stream {}", hex(stream));
            }
            self.before = before;
            let reduced = self.reduce(case);
            println!("reduced:");
            print_input(&reduced);
        }
        self.differences == 0 && never.is_empty()
    }

    /// Of what can occur in a run: questions 1 to 3 and 5 to 27, every lock with each of its key sizes, a key size of 0 in Look, locks that only their
    /// bodies part, each answer of Same lock about copies, forecasts of both kinds, padded books that open under each lock, each kind of scratch, and
    /// passwords of the greatest length that open under each RC4 lock.
    fn never(&self) -> Vec<String> {
        let numbers = (0..=27).filter(|number| *number != 4 && !self.numbers.contains_key(number)).map(|number| number.to_string());
        let mut reports = vec![[0, 0, 0], [1, 40, 0]];
        for key_bits in (40..=128).step_by(8) {
            reports.extend([[2, key_bits, 0], [2, key_bits, 1]]);
        }
        let reports = reports.iter().filter(|report| !self.opened.contains_key(*report)).map(|report| format!("opened {report:?}"));
        let by_standard = (self.by_standard == 0).then(|| "look at a key size of 0".to_string());
        let other_bodies = (self.other_bodies == 0).then(|| "locks that differ by their bodies alone".to_string());
        let copies = copies::KINDS.iter().filter(|kind| {
            let counts = self.copies.get(kind).copied().unwrap_or_default();
            kind.possible().into_iter().zip(counts).any(|(possible, count)| possible && count == 0)
        });
        let copies = copies.map(|kind| format!("a copy, {kind:?}, with each answer that it can have"));
        let forecasts = self.forecasts.contains(&0).then(|| "a forecast that tells, or one that refuses".to_string());
        let padded = self.padded_opened.contains(&0).then(|| "a padded book opened under each lock".to_string());
        let scratches = self.scratches.contains(&0).then(|| "a scratch of just enough, of more, or a long one".to_string());
        let longest = self.longest_opened[1..].contains(&0).then(|| "a password of the greatest length under each RC4 lock".to_string());
        numbers
            .chain(reports)
            .chain(by_standard)
            .chain(other_bodies)
            .chain(copies)
            .chain(forecasts)
            .chain(padded)
            .chain(scratches)
            .chain(longest)
            .collect()
    }
}

fn print_input(case: &Case) {
    println!("  password {} (scratch of {}, output of {})", hex(&case.password), case.scratch_len, case.output_len);
    println!("  stream {}", hex(&case.stream));
}

fn hex(bytes: &[u8]) -> String {
    let digits: String = bytes.iter().take(HEX).map(|byte| format!("{byte:02x}")).collect();
    digits + if bytes.len() > HEX { " and more" } else { "" }
}
