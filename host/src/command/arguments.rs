//! The command line.

use std::ffi::{OsStr, OsString};
use std::os::unix::ffi::OsStrExt;
use std::str::FromStr;

use super::failure::Failure;
use super::names::shown;

/// What is asked for.
#[derive(Debug, PartialEq)]
pub enum Order {
    Help,
    Version,
    Refusals,
    Look {
        file: OsString,
        /// Print nothing, and say it by the exit status.
        quiet: bool,
    },
    SameLock {
        files: [OsString; 2],
        /// As for a look.
        quiet: bool,
    },
    List {
        file: OsString,
    },
    Directory {
        file: OsString,
    },
    Forecast {
        file: OsString,
    },
    Open {
        file: OsString,
        out: OsString,
        password: PasswordFrom,
    },
    Seal {
        file: OsString,
        out: OsString,
        password: PasswordFrom,
        lock: SealUnder,
    },
}

/// The lock that `--lock` names, with what CryptoAPI takes.
#[derive(Clone, Copy, Debug, PartialEq)]
pub enum SealUnder {
    Xor,
    Office97,
    CryptoApi { major: u16, key_size: u32 },
}

/// CryptoAPI's version and its key size where nothing is said of them: the latest and the strongest.
const MAJOR: u16 = 4;
const KEY_SIZE: u32 = 128;

/// Where the password comes from, as far as the arguments say.
#[derive(Debug, PartialEq)]
pub enum PasswordFrom {
    /// The file that `--password-file` names.
    File(OsString),
    /// `SHEET_PASSWORD`, or else the terminal.
    Elsewhere,
}

/// Said where a password may have been meant, which is never repeated.
const NO_PASSWORD: &str = "a password is not taken as an argument, which other users see in the \
    process list and the shell keeps in its history: use --password-file, SHEET_PASSWORD or the \
    prompt";

/// Said where names of files are missing.
const EMPTY_NAME: &str = "the name of a file is empty";
const TWO_FILES: &str =
    "'sheet same-lock' needs the names of two files, of which one may be - for \
    standard input";

/// What the options need.
const OUT: &str = "the name of the file to write";
const LOCKS: &str = "the name of a lock, cryptoapi, office97 or xor";
const BITS: &str = "a number of bits, 40 to 128 in steps of 8";
const VERSION: &str = "a number, 2, 3 or 4";

/// What comes after the command: names of files, and options with their values.
#[derive(Default)]
struct Given {
    files: Vec<OsString>,
    out: Option<OsString>,
    password_file: Option<OsString>,
    lock: Option<OsString>,
    key_size: Option<OsString>,
    major: Option<OsString>,
    quiet: bool,
    help: bool,
}

/// Reads the arguments.
pub fn parse(arguments: impl Iterator<Item = OsString>) -> Result<Order, Failure> {
    let mut rest = arguments;
    let Some(command) = rest.next() else {
        return Err(usage(
            "say what to do: sheet look, same-lock, list, directory, forecast, open, seal or refusals",
        ));
    };
    let given = match command.to_str() {
        Some("--help" | "-h" | "help") => return Ok(Order::Help),
        Some("--version" | "-V") => return Ok(Order::Version),
        Some(
            "look" | "same-lock" | "list" | "directory" | "forecast" | "open" | "seal" | "refusals",
        ) => Given::read(rest)?,
        _ => {
            return Err(usage(&format!(
                "there is no command '{}': the commands are look, same-lock, list, directory, \
                 forecast, open, seal and refusals",
                shown(&command)
            )))
        }
    };
    if given.help {
        return Ok(Order::Help);
    }
    if given.quiet && command != "look" && command != "same-lock" {
        return Err(usage(
            "-q and --quiet are for 'sheet look' and 'sheet same-lock' alone",
        ));
    }
    match command.to_str() {
        Some("look") => Ok(Order::Look {
            file: given.only_file("look")?,
            quiet: given.quiet,
        }),
        Some("same-lock") => given.same_lock(),
        Some("list") => Ok(Order::List {
            file: given.only_file("list")?,
        }),
        Some("directory") => Ok(Order::Directory {
            file: given.only_file("directory")?,
        }),
        Some("forecast") => Ok(Order::Forecast {
            file: given.only_file("forecast")?,
        }),
        Some("open") => given.open(),
        Some("seal") => given.seal(),
        _ => match given.files.first() {
            Some(file) => Err(usage(&format!(
                "'{}' is too much: 'sheet refusals' takes no file",
                shown(file)
            ))),
            None => given.no_options("refusals").map(|()| Order::Refusals),
        },
    }
}

impl Given {
    fn read(mut rest: impl Iterator<Item = OsString>) -> Result<Given, Failure> {
        let mut given = Given::default();
        let mut options = true;
        while let Some(word) = rest.next() {
            if !options || word == "-" || !word.as_bytes().starts_with(b"-") {
                given.files.push(word);
                continue;
            }
            let (name, value) = split(&word);
            match name.as_bytes() {
                b"--" if value.is_none() => options = false,
                b"--help" | b"-h" if value.is_none() => given.help = true,
                b"-q" | b"--quiet" if value.is_none() => given.quiet = true,
                b"-o" | b"--output" => {
                    let value = value.or_else(|| rest.next());
                    once(&mut given.out, value, "-o", OUT)?;
                }
                [b'-', b'o', b'=', ..] => {
                    return Err(usage(
                        "write -o FILE or -oFILE, without =, or --output=FILE",
                    ))
                }
                [b'-', b'o', out @ ..] => {
                    let value = OsStr::from_bytes(out).to_owned();
                    once(&mut given.out, Some(value), "-o", OUT)?;
                }
                b"--password-file" => {
                    let value = value.or_else(|| rest.next());
                    once(
                        &mut given.password_file,
                        value,
                        "--password-file",
                        "the name of a file",
                    )?;
                }
                b"--lock" => {
                    let value = value.or_else(|| rest.next());
                    once(&mut given.lock, value, "--lock", LOCKS)?;
                }
                b"--key-size" => {
                    let value = value.or_else(|| rest.next());
                    once(&mut given.key_size, value, "--key-size", BITS)?;
                }
                b"--major" => {
                    let value = value.or_else(|| rest.next());
                    once(&mut given.major, value, "--major", VERSION)?;
                }
                b"--password" => return Err(usage(NO_PASSWORD)),
                [b'-', b'p', ..] => return Err(usage(NO_PASSWORD)),
                _ => return Err(usage(&format!("there is no option '{}'", shown(name)))),
            }
        }
        Ok(given)
    }

    fn same_lock(self) -> Result<Order, Failure> {
        self.no_options("same-lock")?;
        let files = match &self.files[..] {
            [a, b] if a.is_empty() || b.is_empty() => return Err(usage(EMPTY_NAME)),
            [a, b] if a == "-" && b == "-" => {
                return Err(usage("only one of the two files can be standard input"))
            }
            [a, b] => [a.clone(), b.clone()],
            [_, _, third, ..] => {
                return Err(usage(&format!(
                    "'{}' is too much: 'sheet same-lock' takes two files",
                    shown(third)
                )))
            }
            _ => return Err(usage(TWO_FILES)),
        };
        Ok(Order::SameLock {
            files,
            quiet: self.quiet,
        })
    }

    fn open(self) -> Result<Order, Failure> {
        self.no_lock("open")?;
        let (file, out, password) = self.with_password("open")?;
        Ok(Order::Open {
            file,
            out,
            password,
        })
    }

    fn seal(self) -> Result<Order, Failure> {
        let lock = self.lock()?;
        let (file, out, password) = self.with_password("seal")?;
        Ok(Order::Seal {
            file,
            out,
            password,
            lock,
        })
    }

    /// The file, the output and the password of a command that has all three.
    fn with_password(self, command: &str) -> Result<(OsString, OsString, PasswordFrom), Failure> {
        let file = self.file(command)?;
        let Some(out) = self.out else {
            return Err(usage(&format!(
                "'sheet {command}' needs -o and the name of the file to write (- is standard \
                 output)"
            )));
        };
        if file == "-" && self.password_file.as_deref() == Some(OsStr::new("-")) {
            return Err(usage(
                "the stream and the password can't both come from standard input",
            ));
        }
        let password = match self.password_file {
            Some(file) => PasswordFrom::File(file),
            None => PasswordFrom::Elsewhere,
        };
        Ok((file, out, password))
    }

    /// The lock to seal under. The library checks the numbers.
    fn lock(&self) -> Result<SealUnder, Failure> {
        let Some(lock) = &self.lock else {
            return Err(usage(&format!("'sheet seal' needs --lock and {LOCKS}")));
        };
        let under = match lock.to_str() {
            Some("xor") => SealUnder::Xor,
            Some("office97") => SealUnder::Office97,
            Some("cryptoapi") => SealUnder::CryptoApi {
                major: number(&self.major, "--major", VERSION)?.unwrap_or(MAJOR),
                key_size: number(&self.key_size, "--key-size", BITS)?.unwrap_or(KEY_SIZE),
            },
            _ => {
                return Err(usage(&format!(
                    "there is no lock '{}': --lock needs {LOCKS}",
                    shown(lock)
                )))
            }
        };
        let numbers = self.key_size.is_some() || self.major.is_some();
        if numbers && !matches!(under, SealUnder::CryptoApi { .. }) {
            return Err(usage(&format!(
                "--key-size and --major are for --lock cryptoapi: the lock {} has no choice of them",
                shown(lock)
            )));
        }
        Ok(under)
    }

    /// The one file of a command that takes no options.
    fn only_file(&self, command: &str) -> Result<OsString, Failure> {
        self.no_options(command)?;
        self.file(command)
    }

    /// The one file of a command.
    fn file(&self, command: &str) -> Result<OsString, Failure> {
        match &self.files[..] {
            [file] if file.is_empty() => Err(usage(EMPTY_NAME)),
            [file] => Ok(file.clone()),
            [] => Err(usage(&format!(
                "'sheet {command}' needs the name of a file, or - for standard input"
            ))),
            [_, _, ..] if matches!(command, "open" | "seal") => Err(usage(&format!(
                "'sheet {command}' takes one file; {NO_PASSWORD}"
            ))),
            [_, second, ..] => Err(usage(&format!(
                "'{}' is too much: 'sheet {command}' takes one file",
                shown(second)
            ))),
        }
    }

    fn no_options(&self, command: &str) -> Result<(), Failure> {
        if self.out.is_some() || self.password_file.is_some() {
            return Err(usage(&format!(
                "'sheet {command}' takes neither -o nor --password-file"
            )));
        }
        self.no_lock(command)
    }

    fn no_lock(&self, command: &str) -> Result<(), Failure> {
        if self.lock.is_some() || self.key_size.is_some() || self.major.is_some() {
            return Err(usage(&format!(
                "--lock, --key-size and --major are for 'sheet seal', and not for 'sheet {command}'"
            )));
        }
        Ok(())
    }
}

/// An option and the value after its `=`.
fn split(word: &OsStr) -> (&OsStr, Option<OsString>) {
    let bytes = word.as_bytes();
    match bytes.iter().position(|&byte| byte == b'=') {
        Some(at) if bytes.starts_with(b"--") => (
            OsStr::from_bytes(&bytes[..at]),
            Some(OsStr::from_bytes(&bytes[at + 1..]).to_owned()),
        ),
        _ => (word, None),
    }
}

/// The number that is the value of an option, if it is given.
fn number<N: FromStr>(
    option: &Option<OsString>,
    name: &str,
    what: &str,
) -> Result<Option<N>, Failure> {
    let Some(value) = option else {
        return Ok(None);
    };
    match value.to_str().map(str::parse) {
        Some(Ok(number)) => Ok(Some(number)),
        _ => Err(usage(&format!(
            "{name} needs {what}, and not '{}'",
            shown(value)
        ))),
    }
}

/// Sets an option that may be given once and needs a value.
fn once(
    option: &mut Option<OsString>,
    value: Option<OsString>,
    name: &str,
    what: &str,
) -> Result<(), Failure> {
    let Some(value) = value.filter(|value| !value.is_empty()) else {
        return Err(usage(&format!("{name} needs {what}")));
    };
    if option.replace(value).is_some() {
        return Err(usage(&format!("{name} is given twice")));
    }
    Ok(())
}

fn usage(words: &str) -> Failure {
    Failure::usage(words)
}

#[cfg(test)]
mod tests {
    use super::*;

    fn parsed(line: &str) -> Result<Order, String> {
        let words: Vec<OsString> = line.split_whitespace().map(OsString::from).collect();
        parse(words.into_iter()).map_err(|failure| failure.words())
    }

    fn open(file: &str, out: &str, password: PasswordFrom) -> Order {
        Order::Open {
            file: file.into(),
            out: out.into(),
            password,
        }
    }

    #[test]
    fn every_form_of_a_command_line_is_read() {
        let file = || PasswordFrom::File("p".into());
        let look = |file: &str, quiet| {
            let file = file.into();
            Ok(Order::Look { file, quiet })
        };
        assert_eq!(parsed("look a"), look("a", false));
        for line in ["look -q a", "look a --quiet", "look --quiet -- a"] {
            assert_eq!(parsed(line), look("a", true), "{line}");
        }
        let same_lock = |a: &str, b: &str, quiet| {
            let files = [a.into(), b.into()];
            Ok(Order::SameLock { files, quiet })
        };
        assert_eq!(parsed("same-lock a b"), same_lock("a", "b", false));
        assert_eq!(parsed("same-lock a a"), same_lock("a", "a", false));
        assert_eq!(parsed("same-lock - b"), same_lock("-", "b", false));
        assert_eq!(parsed("same-lock -- a -b"), same_lock("a", "-b", false));
        for line in [
            "same-lock -q a -",
            "same-lock a --quiet -",
            "same-lock a - -q",
        ] {
            assert_eq!(parsed(line), same_lock("a", "-", true), "{line}");
        }
        assert_eq!(parsed("list -"), Ok(Order::List { file: "-".into() }));
        assert_eq!(parsed("list -- -a"), Ok(Order::List { file: "-a".into() }));
        let directory = |file: &str| Ok(Order::Directory { file: file.into() });
        assert_eq!(parsed("directory a"), directory("a"));
        assert_eq!(parsed("directory -"), directory("-"));
        let forecast = |file: &str| Ok(Order::Forecast { file: file.into() });
        assert_eq!(parsed("forecast a"), forecast("a"));
        assert_eq!(parsed("forecast -"), forecast("-"));
        assert_eq!(parsed("refusals"), Ok(Order::Refusals));
        for line in [
            "--help",
            "-h",
            "help",
            "open --help",
            "look -h",
            "same-lock --help",
            "directory --help",
            "forecast --help",
            "seal --help",
            "refusals --help",
        ] {
            assert_eq!(parsed(line), Ok(Order::Help), "{line}");
        }
        assert_eq!(parsed("--version"), Ok(Order::Version));
        assert_eq!(
            parsed("open a -o b"),
            Ok(open("a", "b", PasswordFrom::Elsewhere))
        );
        assert_eq!(
            parsed("open -o - -"),
            Ok(open("-", "-", PasswordFrom::Elsewhere))
        );
        for line in [
            "open a -o b --password-file p",
            "open --password-file=p --output=b a",
            "open --password-file p -o b -- a",
            "open a -ob --password-file p",
            "open a --output b --password-file p",
        ] {
            assert_eq!(parsed(line), Ok(open("a", "b", file())), "{line}");
        }
    }

    #[test]
    fn every_lock_to_seal_under_is_read() {
        let crypto_api = |major, key_size| SealUnder::CryptoApi { major, key_size };
        for (line, lock) in [
            ("--lock xor", SealUnder::Xor),
            ("--lock=office97", SealUnder::Office97),
            ("--lock cryptoapi", crypto_api(4, 128)),
            ("--lock=cryptoapi --key-size 40", crypto_api(4, 40)),
            ("--lock cryptoapi --major=2", crypto_api(2, 128)),
            (
                "--major 3 --key-size=56 --lock cryptoapi",
                crypto_api(3, 56),
            ),
            // The library says what it does not take.
            ("--lock cryptoapi --key-size 0", crypto_api(4, 0)),
            ("--lock cryptoapi --major 65535", crypto_api(65535, 128)),
        ] {
            let seal = |password| Order::Seal {
                file: "a".into(),
                out: "b".into(),
                password,
                lock,
            };
            let order = parsed(&format!("seal a -o b {line}"));
            assert_eq!(order, Ok(seal(PasswordFrom::Elsewhere)), "{line}");
            let order = parsed(&format!("seal {line} --password-file p --output b -- a"));
            assert_eq!(order, Ok(seal(PasswordFrom::File("p".into()))), "{line}");
        }
    }

    #[test]
    fn what_is_wrong_is_named() {
        for (line, word) in [
            (
                "",
                "look, same-lock, list, directory, forecast, open, seal or refusals",
            ),
            ("opne a", "'opne'"),
            (
                "opne a",
                "look, same-lock, list, directory, forecast, open, seal and refusals",
            ),
            ("look", "name of a file"),
            ("look a b", "'b'"),
            ("look a -o b", "neither -o"),
            (
                "same-lock",
                "'sheet same-lock' needs the names of two files",
            ),
            (
                "same-lock a",
                "'sheet same-lock' needs the names of two files",
            ),
            ("same-lock a b c", "'c' is too much: 'sheet same-lock'"),
            ("same-lock - -", "only one of the two"),
            ("same-lock a b -o c", "'sheet same-lock' takes neither -o"),
            ("same-lock a b --password-file p", "neither -o"),
            ("same-lock a b --password=x", "not taken as an argument"),
            ("same-lock a b --lock xor", "for 'sheet seal', and not"),
            ("same-lock a b --quiet=1", "'--quiet'"),
            ("list --password-file p a", "neither -o"),
            ("directory", "name of a file"),
            ("directory a 1", "'1'"),
            ("directory a -o b", "'sheet directory' takes neither -o"),
            ("forecast", "'sheet forecast' needs the name of a file"),
            ("forecast a b", "'b' is too much: 'sheet forecast'"),
            ("forecast a -o b", "'sheet forecast' takes neither -o"),
            ("forecast --password-file p a", "neither -o"),
            ("refusals 3", "'3'"),
            (
                "open -q a -o b",
                "for 'sheet look' and 'sheet same-lock' alone",
            ),
            ("refusals --quiet", "'sheet same-lock' alone"),
            ("look --quiet=1 a", "'--quiet'"),
            ("open a -o=b", "without ="),
            ("open a -ob -oc", "twice"),
            ("look a -ob", "neither -o"),
            ("opne\u{1b}[2J a", r"'opne\u{1b}[2J'"),
            ("open a", "needs -o"),
            ("open a -o", "-o needs"),
            ("open a -o b -o c", "twice"),
            ("open a -o b --password-file", "--password-file needs"),
            ("open a -o b --password-file=", "--password-file needs"),
            ("open a -o b --quick", "'--quick'"),
            ("open a -o b --password=x", "not taken as an argument"),
            ("open a -o b -p x", "not taken as an argument"),
            ("open a -o b -px", "not taken as an argument"),
            ("open a x -o b", "not taken as an argument"),
            ("open - -o b --password-file -", "standard input"),
            ("open a -o b --lock xor", "for 'sheet seal', and not"),
            ("open a -o b --key-size 40", "for 'sheet seal', and not"),
            ("look a --major 4", "for 'sheet seal', and not"),
            ("refusals --lock xor", "for 'sheet seal', and not"),
            ("seal a -o b", "'sheet seal' needs --lock"),
            ("seal a -o b --lock", "--lock needs"),
            ("seal a -o b --lock=", "--lock needs"),
            ("seal a -o b --lock rc4", "there is no lock 'rc4'"),
            ("seal a -o b --lock XOR", "there is no lock 'XOR'"),
            ("seal a -o b --lock xor --lock xor", "--lock is given twice"),
            (
                "seal a -o b --lock xor --key-size 40",
                "for --lock cryptoapi",
            ),
            ("seal a -o b --lock xor --major 4", "for --lock cryptoapi"),
            (
                "seal a -o b --lock office97 --key-size 40",
                "for --lock cryptoapi",
            ),
            (
                "seal a -o b --lock office97 --major 4",
                "for --lock cryptoapi",
            ),
            (
                "seal a -o b --lock cryptoapi --key-size",
                "--key-size needs",
            ),
            ("seal a -o b --lock cryptoapi --key-size x", "and not 'x'"),
            (
                "seal a -o b --lock cryptoapi --key-size -40",
                "and not '-40'",
            ),
            (
                "seal a -o b --lock cryptoapi --key-size 4294967296",
                "40 to 128",
            ),
            ("seal a -o b --lock cryptoapi --major 4.2", "and not '4.2'"),
            ("seal a -o b --lock cryptoapi --major 65536", "2, 3 or 4"),
            ("seal --lock xor -o b", "name of a file"),
            ("seal a --lock xor", "'sheet seal' needs -o"),
            ("seal a x -o b --lock xor", "not taken as an argument"),
            ("seal a -o b --lock xor -px", "not taken as an argument"),
            ("seal - -o b --lock xor --password-file -", "standard input"),
        ] {
            let words = parsed(line).unwrap_err();
            assert!(words.contains(word), "{line}: {words}");
        }
    }
}
