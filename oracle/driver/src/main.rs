//! Compares the port with the Rust source. See README.md in the folder above.

mod compare;
mod copies;
mod generate;
mod large;
mod lock;
mod oracle;
mod paper;
mod port;
mod random;
mod sample;
mod sealed;
mod selfcheck;
mod sweeps;

use compare::Compare;
use std::process::ExitCode;

const USAGE: &str =
    "usage: differ run SEED CASES | differ large | differ sealed FILE.. | differ xor PASSWORD.. | differ sample COUNT | differ speed | differ growth";

/// The fixed cases, then this many random ones.
fn run(seed: u64, cases: u64) -> bool {
    let start = std::time::Instant::now();
    let mut compare = Compare::default();
    sweeps::all(&mut |case| compare.case(case));
    for index in 0..cases {
        compare.case(generate::random(seed, index));
    }
    let sound = compare.summary(seed);
    println!("seconds\t{:.1}", start.elapsed().as_secs_f64());
    sound
}

fn main() -> ExitCode {
    selfcheck::run();
    let arguments: Vec<String> = std::env::args().skip(1).collect();
    let number = |text: &str| text.parse::<u64>().unwrap_or_else(|_| panic!("{text} is not a number"));
    let sound = match arguments.iter().map(String::as_str).collect::<Vec<_>>()[..] {
        ["run", seed, cases] => run(number(seed), number(cases)),
        ["large"] => large::large(),
        ["sealed", ref files @ ..] => sealed::run(files),
        ["xor", ref passwords @ ..] => sealed::xor(passwords),
        ["sample", count] => sample::write(number(count) as usize),
        ["speed"] => large::speed(),
        ["growth"] => large::growth(),
        _ => {
            eprintln!("{USAGE}");
            return ExitCode::from(2);
        }
    };
    if sound {
        ExitCode::SUCCESS
    } else {
        ExitCode::FAILURE
    }
}
