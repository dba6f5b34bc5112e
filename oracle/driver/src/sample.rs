//! Writes a fixed list of cases with the oracle's answers, for a program that runs without the Rust.

use crate::generate::{self, Case};
use crate::oracle;
use crate::paper;
use std::collections::{BTreeMap, BTreeSet};
use std::io::Write;

/// The seed of the list.
const SEED: u64 = 1;
/// What is short of streams and of passwords. All cases are, save that of so many that are opened under a lock one has a stream of more than a
/// block, and one a long password.
const SHORT_STREAM: usize = 160;
const SHORT_PASSWORD: usize = 70;
const BLOCK: usize = 1024;
const LONGEST_STREAM: usize = 2200;
const LONG_ONE_IN: usize = 20;
/// One of every so many that are opened under a lock, and of every so many whose password is wrong, is padded at least. Among the others some are too.
const PADDED_ONE_IN: usize = 8;
/// How many outcomes there are: questions 6 to 27, and each lock opened.
const OUTCOMES: usize = 25;
/// More random cases than any list needs.
const MOST_CASES: u64 = 20_000_000;

struct Sample {
    stream: Vec<u8>,
    password: Vec<u8>,
    expected: Vec<u8>,
}

/// Adds a case, unless the list has it or has enough of its outcome.
fn add(case: Case, quota: usize, seen: &mut BTreeSet<(Vec<u8>, Vec<u8>)>, filled: &mut BTreeMap<(u32, u64), usize>, list: &mut Vec<Sample>) {
    if case.stream.len() > LONGEST_STREAM || paper::lent(case.stream.len(), &case.password, case.scratch_len, case.output_len).is_some() {
        return;
    }
    let password = std::str::from_utf8(&case.password).unwrap();
    let container = oracle::container(&case.stream, password);
    let (look, look_facts) = oracle::look(&container).expect("Look maps to nothing");
    let answer = oracle::judged(&container, &case.stream, password).expect("an error maps to nothing");
    // by number and, where opened, by lock
    let outcome = (answer.number, if answer.number == 0 { answer.facts[1] } else { 0 });
    let count = filled.entry(outcome).or_default();
    let (short_stream, short_password) = (case.stream.len() <= SHORT_STREAM, password.len() <= SHORT_PASSWORD);
    let wanted = match (outcome, *count % LONG_ONE_IN) {
        ((0, _), 0) => case.stream.len() > BLOCK && short_password,
        ((0, 1..), 1) => short_stream && !short_password,
        _ => short_stream && short_password,
    };
    let padding = paper::padding(&case.stream);
    let wanted = wanted && (padding > 0 || !matches!((outcome.0, *count % PADDED_ONE_IN), (0 | 27, 0)));
    if *count == quota || !wanted || !seen.insert((case.stream.clone(), case.password.clone())) {
        return;
    }
    *count += 1;
    let mut expected = vec![look as u8];
    expected.extend(look_facts.iter().flat_map(|fact| fact.to_le_bytes()));
    expected.push(paper::instead(&case.stream, (look, look_facts)).unwrap_or(0) as u8);
    expected.push(padding as u8);
    let (forecast, foretold) = paper::forecast(&case.stream, answer.number, [answer.facts[0], answer.facts[1]]);
    expected.push(forecast as u8);
    expected.extend(foretold[..4].iter().flat_map(|fact| fact.to_le_bytes()));
    expected.extend(answer.number.to_le_bytes());
    expected.extend(answer.facts.iter().flat_map(|fact| fact.to_le_bytes()));
    expected.extend(&answer.plain);
    list.push(Sample { stream: case.stream, password: case.password, expected });
}

/// As many cases, small streams first, as many of each outcome as of any other where there are so many.
pub fn write(count: usize) -> bool {
    let quota = count.div_ceil(OUTCOMES);
    let (mut seen, mut filled, mut list) = (BTreeSet::new(), BTreeMap::new(), Vec::new());
    for index in 0..MOST_CASES {
        if list.len() >= count {
            break;
        }
        add(generate::random(SEED, index), quota, &mut seen, &mut filled, &mut list);
    }
    list.sort_by_key(|sample| sample.stream.len());
    let mut bytes = Vec::new();
    for sample in &list {
        for part in [&sample.password, &sample.stream, &sample.expected] {
            bytes.extend((part.len() as u32).to_le_bytes());
            bytes.extend(part);
        }
    }
    std::io::stdout().write_all(&bytes).expect("standard output can't be written");
    eprintln!("{} cases, {} bytes", list.len(), bytes.len());
    for ((number, lock), count) in &filled {
        eprintln!("{number}{}\t{count}", if *number == 0 { [" XOR", " 1.1", " CryptoAPI"][*lock as usize] } else { "" });
    }
    list.len() == count && filled.len() == OUTCOMES
}
