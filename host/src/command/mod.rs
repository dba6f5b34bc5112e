//! What the command does, one function for each of its parts.

mod advice;
mod arguments;
mod failure;
mod help;
mod input;
mod interrupt;
mod kind;
mod names;
mod output;
mod password;
mod random;
mod standard;
mod terminal;

use std::ffi::OsString;
use std::io::{self, BufWriter, ErrorKind, Write};
use std::process::ExitCode;

use advice::Hidden;
use arguments::{Order, PasswordFrom, SealUnder};
use failure::Failure;
use input::Input;
use names::shown;
use output::{Output, Readers};
use password::Password;
use sheet::{Choice, Forecast, Lock, Refusal, Report, Verdict};

/// The id of a BoundSheet8 record, a sheet's entry: its body begins with the sheet's start.
const BOUND_SHEET: u16 = 0x0085;

/// The exit statuses of a quiet look: 0, 1 and 3. 2 is for what goes wrong, as in every command.
const LOCKED: u8 = 0;
const NOT_LOCKED: u8 = 1;
const NOT_SURE: u8 = 3;

/// The exit statuses of a comparison of locks: 0 and 1.
const SAME: u8 = 0;
const NOT_SAME: u8 = 1;

/// Does what the arguments ask and gives the exit status.
pub fn run(arguments: impl Iterator<Item = OsString>) -> ExitCode {
    interrupt::ignore_file_size_signal();
    match arguments::parse(arguments).and_then(obey) {
        Ok(status) => status,
        Err(failure) => failure.report(),
    }
}

fn obey(order: Order) -> Result<ExitCode, Failure> {
    match order {
        Order::Look { file, quiet: true } => return look_quietly(&file),
        Order::Look { file, quiet: false } => look(&file),
        Order::SameLock { files, quiet } => return same_lock(&files, quiet),
        Order::Help => print(|out| out.write_all(help::HELP.as_bytes())),
        Order::Version => print(|out| writeln!(out, "sheet {}", env!("CARGO_PKG_VERSION"))),
        Order::Refusals => print(write_refusals),
        Order::List { file } => list(&Input::read(&file)?),
        Order::Directory { file } => directory(&Input::read(&file)?),
        Order::Forecast { file } => forecast(&Input::read(&file)?),
        Order::Open {
            file,
            out,
            password,
        } => open(Input::read(&file)?, &out, &password),
        Order::Seal {
            file,
            out,
            password,
            lock,
        } => seal(Input::read(&file)?, &out, &password, lock),
    }?;
    Ok(ExitCode::SUCCESS)
}

/// Writes to standard output and checks that all of it arrives.
fn print(write: impl FnOnce(&mut dyn Write) -> io::Result<()>) -> Result<(), Failure> {
    let mut out = BufWriter::new(output::open_standard()?);
    write(&mut out)
        .and_then(|()| out.flush())
        .map_err(|error| match error.kind() {
            ErrorKind::BrokenPipe => Failure::ReaderGone,
            _ => Failure::writing(output::STANDARD, &error),
        })
}

/// Says something on standard error that is not a failure. What was asked for is done, whether
/// standard error takes this or not.
fn warn(words: &str) {
    let _ = writeln!(io::stderr(), "sheet: warning: {words}");
}

/// A line for each refusal: its number, a tab, its words.
fn write_refusals(out: &mut dyn Write) -> io::Result<()> {
    for refusal in Refusal::all() {
        let number = refusal.number();
        write!(out, "{number}\t{}; {}", refusal.meaning(), refusal.advice())?;
        match refusal {
            Refusal::FilepassOutOfOrder { .. } => {
                let write_protect = Refusal::FilepassOutOfOrder { id: 0x0086 }.advice();
                write!(out, "; if it is WriteProtect (id 0086): {write_protect}")?;
            }
            Refusal::WrongPassword => write!(out, "; {}", advice::XOR_PASSWORDS)?,
            _ => {}
        }
        writeln!(out)?;
    }
    Ok(())
}

/// Prints whether a workbook is locked, and how.
fn look(file: &OsString) -> Result<(), Failure> {
    let (verdict, _) = looked(file)?;
    print(|out| write_verdict(out, verdict))
}

/// Says whether a workbook is locked by the exit status alone. Where look says no of a book that is
/// locked, it is not sure: a script would take its figures for plain ones.
fn look_quietly(file: &OsString) -> Result<ExitCode, Failure> {
    Ok(ExitCode::from(match looked(file)? {
        (Verdict::Yes(_), _) => LOCKED,
        (Verdict::No, None) => NOT_LOCKED,
        (Verdict::No, Some(_)) | (Verdict::Unknown, _) => NOT_SURE,
    }))
}

/// Looks at a file, and says on standard error what the verdict can't say: that it is another kind of
/// file, or locked all the same.
fn looked(file: &OsString) -> Result<(Verdict, Option<Hidden>), Failure> {
    let input = Input::read_for_look(file)?;
    if let Some(words) = &input.other {
        let _ = writeln!(io::stderr(), "sheet: {}: {words}", input.name);
    }
    Ok(look_into(&input))
}

/// The verdict of a stream that is read, with a warning if it is no and a lock follows.
fn look_into(input: &Input) -> (Verdict, Option<Hidden>) {
    let verdict = sheet::look(&input.stream);
    let hidden = match verdict {
        Verdict::No => Hidden::in_stream(&input.stream),
        _ => None,
    };
    if let Some(hidden) = &hidden {
        warn(&format!("{}: {}", input.name, hidden.words()));
    }
    (verdict, hidden)
}

/// The lines of a verdict: a name, a tab, a value.
fn write_verdict(out: &mut dyn Write, verdict: Verdict) -> io::Result<()> {
    let facts = match verdict {
        Verdict::Unknown => return writeln!(out, "locked\tunknown"),
        Verdict::No => return writeln!(out, "locked\tno"),
        Verdict::Yes(facts) => facts,
    };
    writeln!(out, "locked\tyes")?;
    if let Some(lock) = facts.lock {
        writeln!(out, "lock\t{lock}")?;
    }
    if let Some((major, minor)) = facts.version {
        writeln!(out, "version\t{major}.{minor}")?;
    }
    if let Some(bits) = facts.key_bits {
        writeln!(out, "key size\t{bits}")?;
    }
    Ok(())
}

/// Says whether two workbooks have the same lock, by the exit status and, unless it is to be quiet, in
/// words. A file that is not a workbook stream is an error here: there is no lock of it to compare.
fn same_lock(files: &[OsString; 2], quiet: bool) -> Result<ExitCode, Failure> {
    let [a, b] = files;
    let [a, b] = [Input::read_to_compare(a)?, Input::read_to_compare(b)?];
    let same = sheet::same_lock(&a.stream, &b.stream);
    let reasons = match same {
        true => Vec::new(),
        false => why_not_same(&a, &b),
    };
    if same && advice::lock_goes_on(&a.stream) && advice::lock_goes_on(&b.stream) {
        warn(advice::LOCKS_GO_ON);
    }
    if !quiet {
        print(|out| write_same(out, same, &reasons))?;
    }
    Ok(ExitCode::from(if same { SAME } else { NOT_SAME }))
}

/// Why two workbooks do not have the same lock: which of them is not found to be locked or, if both
/// are, that the locks differ.
fn why_not_same(a: &Input, b: &Input) -> Vec<String> {
    let mut reasons = Vec::new();
    for input in [a, b] {
        let name = &input.name;
        match look_into(input).0 {
            Verdict::Yes(_) => {}
            Verdict::No => reasons.push(format!("look finds no lock in {name}")),
            Verdict::Unknown => reasons.push(format!(
                "look can't tell whether {name} is locked: it is not a workbook stream, or is cut \
                 off too early"
            )),
        }
    }
    if reasons.is_empty() {
        reasons.push(
            "both are locked, but their FILEPASS records differ: the password of one need not be \
             that of the other"
                .to_string(),
        );
    }
    reasons
}

/// The lines of a comparison of locks: a name, a tab, a value.
fn write_same(out: &mut dyn Write, same: bool, reasons: &[String]) -> io::Result<()> {
    writeln!(out, "same lock\t{}", if same { "yes" } else { "no" })?;
    for reason in reasons {
        writeln!(out, "why\t{reason}")?;
    }
    Ok(())
}

/// Lists the records, a line for each.
fn list(input: &Input) -> Result<(), Failure> {
    let mut fault = None;
    print(|out| {
        writeln!(out, "at\tid\tlength\tclear")?;
        for step in sheet::records(&input.stream) {
            match step {
                Ok(record) => writeln!(
                    out,
                    "{}\t{:04x}\t{}\t{}",
                    record.at, record.id, record.len, record.clear
                )?,
                Err(found) => {
                    writeln!(out, "unreadable\t{}", found.at)?;
                    fault = Some(found);
                }
            }
        }
        Ok(())
    })?;
    match fault {
        None => Ok(()),
        Some(fault) => {
            let advice = Refusal::BiffRecordUnreadable { offset: fault.at }.advice();
            Err(Failure::Unreadable(format!(
                "{}: {fault}; {advice}",
                input.name
            )))
        }
    }
}

/// Lists the sheets, a line for each. One call checks that all entries are in order; the starts are
/// then read from the entries, as each further call would read the whole stream again.
fn directory(input: &Input) -> Result<(), Failure> {
    let stream = &input.stream[..];
    let directory = sheet::directory(stream, 0).map_err(|refusal| {
        let words = format!("the sheets of {} were not listed", input.name);
        Failure::Refused(refusal, vec![words])
    })?;
    let starts: Vec<_> = sheet::records(stream)
        .filter_map(Result::ok)
        .filter(|record| record.id == BOUND_SHEET)
        .filter_map(|entry| stream[entry.body()].first_chunk().copied())
        .map(u32::from_le_bytes)
        .collect();
    // None is left out above, or every place after it would be another sheet's.
    assert_eq!(starts.len(), directory.sheets);
    print(|out| {
        writeln!(out, "place\tstart")?;
        for (place, start) in starts.iter().enumerate() {
            writeln!(out, "{place}\t{start}")?;
        }
        Ok(())
    })
}

/// Prints what opening a stream will take.
fn forecast(input: &Input) -> Result<(), Failure> {
    let forecast = sheet::forecast(&input.stream).map_err(|refusal| {
        let words = format!("there is no forecast of opening {}", input.name);
        let lines = advice::of_refusal(&refusal, &input.stream);
        Failure::Refused(refusal, [lines, vec![words]].concat())
    })?;
    print(|out| write_forecast(out, &forecast))
}

/// The lines of a forecast: a name, a tab, a value.
fn write_forecast(out: &mut dyn Write, forecast: &Forecast) -> io::Result<()> {
    writeln!(out, "output bytes\t{}", forecast.output_bytes)?;
    writeln!(out, "records\t{}", forecast.records)?;
    writeln!(
        out,
        "enciphered body bytes\t{}",
        forecast.enciphered_body_bytes
    )?;
    writeln!(out, "block keys\t{}", forecast.block_keys)
}

/// Opens a stream and writes the plain one. What shows without the password is said before it is
/// asked for.
fn open(input: Input, out: &OsString, password_from: &PasswordFrom) -> Result<(), Failure> {
    let output = Output::prepare(out, &input, password_from, Readers::Owner)?;
    let stream = &input.stream[..];
    let refused = |refusal: Refusal, oddities: Vec<String>| {
        let words = format!("{} was not opened, and nothing was written", input.name);
        let lines = advice::of_refusal(&refusal, stream);
        Failure::Refused(refusal, [lines, oddities, vec![words]].concat())
    };
    let mut scratch = [0; sheet::SCRATCH_LEN];
    let mut plain = output::room(stream.len())?;
    let report = {
        let password = password::get(password_from, &input.name, || {
            sheet::forecast(stream)
                .map_err(|refusal| refused(refusal, Vec::new()))
                .map(drop)
        })?;
        sheet::open(stream, password.secret.as_bytes(), &mut scratch, &mut plain)
            .map_err(|refusal| refused(refusal, oddities(&refusal, &password)))?
        // The password is wiped here, before anything is written.
    };
    output.write(&plain)?;
    print_report(&report, &output, out)
}

/// What is unusual about a password, where a refusal is about the password.
fn oddities(refusal: &Refusal, password: &Password) -> Vec<String> {
    match refusal {
        Refusal::PasswordTooLong
        | Refusal::PasswordMalformed
        | Refusal::WrongPassword
        | Refusal::XorPasswordUnfit => password.oddities(),
        _ => Vec::new(),
    }
}

/// Seals a plain stream and writes the sealed one. What shows without the password is said before it
/// is asked for.
fn seal(
    input: Input,
    out: &OsString,
    password_from: &PasswordFrom,
    lock: SealUnder,
) -> Result<(), Failure> {
    let output = Output::prepare(out, &input, password_from, Readers::Umask)?;
    let plain = &input.stream[..];
    let refused = |refusal: Refusal, oddities: Vec<String>| {
        let words = format!("{} was not sealed, and nothing was written", input.name);
        match unfit_argument(lock, &refusal) {
            Some(said) => {
                Failure::RefusedArgument(refusal.number(), format!("{said}\nsheet: {words}"))
            }
            None => Failure::Refused(refusal, [oddities, vec![words]].concat()),
        }
    };
    let choice = fresh(lock)?;
    let mut scratch = [0; sheet::SCRATCH_LEN];
    let mut sealed = output::room(plain.len())?;
    let (report, warnings) = {
        let password = password::get_new(password_from, &input.name, || {
            // With a password that every lock takes, only what is wrong with the rest is refused.
            // What comes of it is never written out.
            let trial = sheet::seal(plain, b"A", &choice, &mut scratch, &mut sealed);
            trial
                .map_err(|refusal| refused(refusal, Vec::new()))
                .map(drop)
        })?;
        let report = sheet::seal(
            plain,
            password.secret.as_bytes(),
            &choice,
            &mut scratch,
            &mut sealed,
        )
        .map_err(|refusal| refused(refusal, oddities(&refusal, &password)))?;
        let empty = password.secret.as_bytes().is_empty();
        // The password is wiped here, before anything is written.
        (
            report,
            [weaknesses(&report, empty), password.oddities()].concat(),
        )
    };
    output.write(&sealed)?;
    for words in warnings {
        warn(&words);
    }
    print_report(&report, &output, out)
}

/// What is wrong with the argument that a sealing was refused for: 13 and 23 are about nothing else
/// here.
fn unfit_argument(lock: SealUnder, refusal: &Refusal) -> Option<String> {
    match (lock, refusal) {
        (SealUnder::CryptoApi { major, .. }, Refusal::UnsupportedEncryptionVersion { .. }) => {
            Some(format!(
                "--major {major} can't be sealed: choose 2, 3 or 4, of which 4 is the usual one"
            ))
        }
        (SealUnder::CryptoApi { key_size, .. }, Refusal::EncryptionHeaderKeySize { .. }) => {
            Some(format!(
                "--key-size {key_size} can't be sealed: choose 40 to 128 in steps of 8, of which 128 \
                 is the strongest"
            ))
        }
        _ => None,
    }
}

/// A lock with a salt and a verifier of its own, where it takes them.
fn fresh(lock: SealUnder) -> Result<Choice, Failure> {
    Ok(match lock {
        SealUnder::Xor => Choice::Xor,
        SealUnder::Office97 => {
            let (salt, verifier) = random::salt_and_verifier()?;
            Choice::Office97 { salt, verifier }
        }
        SealUnder::CryptoApi { major, key_size } => {
            let (salt, verifier) = random::salt_and_verifier()?;
            Choice::CryptoApi {
                salt,
                verifier,
                major,
                key_bits: key_size,
            }
        }
    })
}

/// Why a stream that was sealed is not safe from others, as far as the lock and an empty password
/// show.
fn weaknesses(report: &Report, empty_password: bool) -> Vec<String> {
    let mut words = Vec::new();
    match (report.lock, report.key_bits) {
        (Lock::Xor, _) => words.push(
            "XOR does not protect a sheet from anyone who tries: the sealed stream itself gives \
             away what it was enciphered with; RC4 CryptoAPI with 128 bits is stronger, in a sheet \
             with room for it"
                .to_string(),
        ),
        (lock, Some(..=40)) => words.push(format!(
            "{lock} with a key of 40 bits does not protect a sheet from anyone who tries: the key is \
             found by trying them all, whatever the password is; RC4 CryptoAPI with 128 bits is \
             stronger, in a sheet with room for it"
        )),
        (_, Some(bits @ ..=64)) => words.push(format!(
            "a key of {bits} bits is found by trying them all, whatever the password is, by anyone \
             who has many machines; 128 bits are stronger"
        )),
        _ => {}
    }
    if empty_password {
        words.push("the password is empty, which is the first that anyone tries".to_string());
    }
    words
}

/// Prints the report of a stream that was written.
fn print_report(report: &Report, output: &Output, out: &OsString) -> Result<(), Failure> {
    if output.is_standard() {
        // The stream is out: a report that standard error does not take changes nothing about it.
        let _ = write_report(&mut io::stderr().lock(), report);
        Ok(())
    } else {
        let whole = format!(
            "{} is written and whole, only the report is missing",
            shown(out)
        );
        print(|to| write_report(to, report)).map_err(|failure| failure.and(&whole))
    }
}

/// The lines of a report: a name, a tab, a value.
fn write_report(out: &mut dyn Write, report: &Report) -> io::Result<()> {
    let sealed = if report.summary_sealed { "yes" } else { "no" };
    writeln!(out, "records\t{}", report.records)?;
    writeln!(out, "lock\t{}", report.lock)?;
    writeln!(out, "key size\t{}", report.key_bits.unwrap_or(0))?;
    writeln!(out, "summary sealed\t{sealed}")?;
    writeln!(out, "output bytes\t{}", report.output_bytes)?;
    writeln!(
        out,
        "enciphered body bytes\t{}",
        report.enciphered_body_bytes
    )?;
    writeln!(out, "block keys\t{}", report.block_keys)
}
