//! Has the Rust open the streams that the program `sealings` seals: each with its password, and with another one.

use crate::oracle::{self, Answer};
use crate::paper::{self, u32_at};

/// What comes before the parts of a case: thirteen numbers, and salt and verifier.
const TERMS: usize = 13 * 4 + 2 * 16;

/// A case of the program's data, as tools/make_sealings.py has it: the answer's number and facts, and five parts.
struct Case<'a> {
    number: u32,
    facts: [u64; 7],
    parts: [&'a [u8]; 5],
}

/// Takes a part, which comes after its length, off the front.
fn behind_length<'a>(data: &mut &'a [u8]) -> &'a [u8] {
    let len = u32_at(data, 0).expect("a length is cut short") as usize;
    let (part, rest) = data[4..].split_at(len);
    *data = rest;
    part
}

fn case_of(mut data: &[u8]) -> Case<'_> {
    let term = |k: usize| u32_at(data, 4 * k).expect("the terms are cut short");
    let (number, facts) = (term(5), std::array::from_fn(|k| term(6 + k).into()));
    data = &data[TERMS..];
    let parts = std::array::from_fn(|_| behind_length(&mut data));
    assert!(data.is_empty(), "bytes behind the parts of a case");
    Case { number, facts, parts }
}

fn opened(stream: &[u8], password: &[u8]) -> Result<Answer, String> {
    let password = std::str::from_utf8(password).expect("it seals, so it is well formed");
    oracle::judged(&oracle::container(stream, password), stream, password)
}

/// Opens every sealed stream of some files; whether each gives back its plain stream with the report that sealing gave, and is refused with another
/// password. A padded stream is judged by T-05, as in `differ run`.
pub fn run(files: &[&str]) -> bool {
    let (mut by_lock, mut padded, mut refused, mut differences) = ([0; 3], 0, 0, 0);
    for file in files {
        let data = std::fs::read(file).unwrap_or_else(|error| panic!("{file}: {error}"));
        let mut rest = &data[..];
        while !rest.is_empty() {
            let Case { number, facts, parts: [name, password, other, plain, sealed] } = case_of(behind_length(&mut rest));
            if number != 0 {
                continue;
            }
            let wanted = Answer { number, facts, plain: plain.to_vec() };
            let (answer, wrong) = (opened(sealed, password), opened(sealed, other));
            by_lock[facts[1] as usize] += 1;
            padded += u32::from(paper::padding(sealed) > 0);
            refused += u32::from(wrong == Ok(Answer::refusal(27, [0, 0])));
            if answer.as_ref() != Ok(&wanted) || wrong != Ok(Answer::refusal(27, [0, 0])) {
                differences += 1;
                let told = |answer: Result<Answer, String>| answer.map(|answer| (answer.number, answer.facts));
                println!("{}: {:?}, with another password {:?}", String::from_utf8_lossy(name), told(answer), told(wrong));
            }
        }
    }
    let [xor, old, api] = by_lock;
    println!("opened\t{}: XOR {xor}, 1.1 {old}, CryptoAPI {api}; of them padded, judged by T-05 {padded}", xor + old + api);
    println!("refused with another password\t{refused}");
    println!("differences\t{differences}");
    differences == 0 && padded > 0 && !by_lock.contains(&0)
}

/// Prints what the Rust makes of XOR passwords: the password's bytes, the key, the verifier and the array; nothing where it takes no such password.
pub fn xor(passwords: &[&str]) -> bool {
    let hex = |bytes: &[u8]| bytes.iter().map(|byte| format!("{byte:02x}")).collect::<String>();
    for password in passwords {
        if let Some((key, verifier, array)) = reference::xor(password) {
            println!("{}\t{key:04x}\t{verifier:04x}\t{}", hex(password.as_bytes()), hex(&array));
        }
    }
    true
}
