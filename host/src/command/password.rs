//! Where the password comes from: `--password-file`, else `SHEET_PASSWORD`, else the terminal.

use std::env;
use std::ffi::OsStr;
use std::fs;
use std::os::unix::ffi::OsStringExt;

use sheet::Secret;

use super::arguments::PasswordFrom;
use super::failure::Failure;
use super::input::{self, identity, Identity};
use super::terminal;

/// The environment variable that may hold the password.
const VARIABLE: &str = "SHEET_PASSWORD";

/// A password, and what it was given in.
pub struct Password {
    pub secret: Secret,
    source: &'static str,
}

impl Password {
    /// What is unusual about it, in words: bytes of a file that were perhaps not meant to be part of
    /// the password.
    pub fn oddities(&self) -> Vec<String> {
        oddities(self.secret.as_bytes())
            .iter()
            .map(|words| format!("{} {words}", self.source))
            .collect()
    }
}

/// What is unusual about the bytes of a password.
fn oddities(password: &[u8]) -> Vec<&'static str> {
    // Of UTF-16 nothing else can be said by its bytes.
    if password.starts_with(&[0xFF, 0xFE]) || password.starts_with(&[0xFE, 0xFF]) {
        return vec!["is UTF-16 (it begins with FF FE or FE FF): save it as UTF-8"];
    }
    if password.contains(&0) {
        return vec!["has zero bytes in it, as UTF-16 has: save it as UTF-8"];
    }
    let mut found = Vec::new();
    if password.starts_with(&[0xEF, 0xBB, 0xBF]) {
        found.push(
            "begins with a byte order mark (EF BB BF), which counts as part of the password: save it \
             as UTF-8 without one",
        );
    }
    let lines = |byte: &u8| matches!(byte, b'\n' | b'\r');
    let end = password
        .iter()
        .rposition(|byte| !lines(byte))
        .map_or(0, |at| at + 1);
    if end < password.len() {
        found.push("ends with an extra line end (LF or CR), which counts as part of the password");
    }
    let inside = &password[..end];
    if inside.iter().any(lines) {
        found.push("has more than one line, and all of them count as the password");
    }
    let text = String::from_utf8_lossy(inside);
    if text.chars().next_back().is_some_and(is_blank) {
        found.push("ends with a blank, which counts as part of the password");
    }
    if text.chars().next().is_some_and(is_blank) {
        found.push("begins with a blank, which counts as part of the password");
    }
    found
}

/// Whether nothing is seen of a character: blanks of all kinds, and characters without a width. A byte
/// order mark at the start has its own words.
fn is_blank(character: char) -> bool {
    character.is_whitespace() || matches!(character, '\u{200B}'..='\u{200D}' | '\u{2060}')
}

/// Gets the password of a stream. Before it is asked for on the terminal, `worth_asking` may say
/// that it is of no use.
pub fn get(
    from: &PasswordFrom,
    stream: &str,
    worth_asking: impl FnOnce() -> Result<(), Failure>,
) -> Result<Password, Failure> {
    given_or_asked(from, || {
        worth_asking()?;
        let [password] = from_terminal([&format!("Password for {stream}: ")])?;
        Ok(password)
    })
}

/// Gets a new password for a stream likewise. The terminal asks for it twice, as nobody sees what is
/// typed, and a slip would lock the stream for good.
pub fn get_new(
    from: &PasswordFrom,
    stream: &str,
    worth_asking: impl FnOnce() -> Result<(), Failure>,
) -> Result<Password, Failure> {
    given_or_asked(from, || {
        worth_asking()?;
        let first = format!("New password for {stream}: ");
        let [password, again] = from_terminal([&first, "The same password again: "])?;
        if password.as_bytes() != again.as_bytes() {
            return Err(Failure::Other(
                "the two passwords are not the same, and nothing was written: start again".into(),
            ));
        }
        Ok(password)
    })
}

/// Which regular file the password is to come from, if it is there.
pub fn identity_of(from: &PasswordFrom) -> Option<Identity> {
    let PasswordFrom::File(file) = from else {
        return None;
    };
    if file == "-" {
        let (_, opened) = input::open(file).ok()?;
        return identity(&opened.metadata().ok()?);
    }
    identity(&fs::metadata(file).ok()?)
}

/// The password from the file or the environment, or else by asking.
fn given_or_asked(
    from: &PasswordFrom,
    ask: impl FnOnce() -> Result<Secret, Failure>,
) -> Result<Password, Failure> {
    let (source, secret) = if let PasswordFrom::File(file) = from {
        ("the password file", from_file(file)?)
    } else if let Some(value) = env::var_os(VARIABLE) {
        (VARIABLE, Secret::from_vec(value.into_vec()))
    } else {
        ("what was typed", ask()?)
    };
    Ok(Password { secret, source })
}

fn from_file(file: &OsStr) -> Result<Secret, Failure> {
    let (name, mut opened) = input::open(file).map_err(|failure| failure.of("password file"))?;
    let mut secret = Secret::new();
    secret
        .read_from(&mut opened)
        .map_err(|error| Failure::reading(&name, &error).of("password file"))?;
    secret.trim_newline();
    Ok(secret)
}

/// What is typed at each of these prompts.
fn from_terminal<const N: usize>(prompts: [&str; N]) -> Result<[Secret; N], Failure> {
    let Ok(mut terminal) = terminal::open() else {
        return Err(Failure::usage(&format!(
            "there is no terminal to ask for the password: give it with --password-file FILE, or \
             in the environment variable {VARIABLE}"
        )));
    };
    let mut typed = [const { None }; N];
    for (secret, prompt) in typed.iter_mut().zip(prompts) {
        match terminal::ask(&mut terminal, prompt) {
            Ok(Some(line)) => *secret = Some(line),
            Ok(None) => return Err(Failure::usage("no password was typed")),
            Err(error) => {
                return Err(Failure::at(
                    "the terminal",
                    &format!(
                        "the password could not be asked for ({error}): give it with \
                         --password-file FILE, or in the environment variable {VARIABLE}"
                    ),
                ))
            }
        }
    }
    Ok(typed.map(|secret| secret.expect("each was asked for")))
}

#[cfg(test)]
mod tests {
    use super::*;

    #[test]
    fn oddities_of_a_password_are_named() {
        for (password, words) in [
            (&b"Unruh"[..], &[][..]),
            (b"", &[]),
            ("Hebungswinkel 50°".as_bytes(), &[]),
            (b"\xEF\xBB\xBFUnruh", &["byte order mark"]),
            (b"\xFF\xFEU\0n\0", &["FF FE"]),
            (b"\xFE\xFF\0U\0n", &["FF FE"]),
            (b"U\0n\0", &["zero bytes"]),
            (b"Unruh\n", &["extra line end"]),
            (b"Unruh\r\n", &["extra line end"]),
            (b"\n", &["extra line end"]),
            (b"Unruh\nSpirale", &["more than one line"]),
            (b"Unruh ", &["ends with a blank"]),
            (b"Unruh\t", &["ends with a blank"]),
            ("Unruh\u{A0}".as_bytes(), &["ends with a blank"]),
            ("Unruh\u{3000}".as_bytes(), &["ends with a blank"]),
            ("\u{200B}Unruh".as_bytes(), &["begins with a blank"]),
            (b"Unruh\r", &["extra line end"]),
            (b" Unruh", &["begins with a blank"]),
            (
                b"\xEF\xBB\xBFUnruh \r\n",
                &["byte order mark", "extra line end", "ends with a blank"],
            ),
        ] {
            let found = oddities(password);
            assert_eq!(found.len(), words.len(), "{password:?}: {found:?}");
            for (found, word) in found.iter().zip(words) {
                assert!(found.contains(word), "{password:?}: {found}");
            }
        }
    }
}
