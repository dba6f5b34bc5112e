//! Names of files, as messages and commands to type have them.

use std::ffi::OsStr;
use std::fmt::Write;
use std::os::unix::ffi::OsStrExt;
use std::path::Path;

/// A name as it is shown: control characters, and those that change the direction of text, are
/// escaped, so that no name can change what a terminal shows of a message.
pub fn shown(name: &OsStr) -> String {
    escaped(&name.to_string_lossy())
}

/// Text with its control characters escaped.
pub fn escaped(text: &str) -> String {
    let mut shown = String::new();
    for character in text.chars() {
        match character {
            // Marks and overrides of direction.
            '\u{061C}'
            | '\u{200E}'..='\u{200F}'
            | '\u{202A}'..='\u{202E}'
            | '\u{2066}'..='\u{2069}' => shown.extend(character.escape_unicode()),
            _ if character.is_control() => shown.extend(character.escape_default()),
            _ => shown.push(character),
        }
    }
    shown
}

/// A name as it is typed in a shell.
pub fn quoted(name: &OsStr) -> String {
    // A name that begins with - would be taken for an option.
    let front = if name.as_bytes().starts_with(b"-") {
        "./"
    } else {
        ""
    };
    let word = |byte: &u8| byte.is_ascii_alphanumeric() || b"_./+,:@%-".contains(byte);
    match name.to_str() {
        Some(text) if !text.is_empty() && text.bytes().all(|byte| word(&byte)) => {
            format!("{front}{text}")
        }
        Some(text) if escaped(text) == text => {
            format!("{front}'{}'", text.replace('\'', r"'\''"))
        }
        _ => {
            let mut quoted = format!("{front}$'");
            for &byte in name.as_bytes() {
                match byte {
                    b'\'' | b'\\' => {
                        quoted.push('\\');
                        quoted.push(byte.into());
                    }
                    b' '..=b'~' => quoted.push(byte.into()),
                    _ => write!(quoted, "\\x{byte:02x}").expect("a string takes all"),
                }
            }
            quoted.push('\'');
            quoted
        }
    }
}

/// A name for the stream of a file, in the folder where the user is, and other than the file's own.
pub fn stream_of(file: &OsStr) -> String {
    let path = Path::new(file);
    let stem = path.file_stem().unwrap_or(OsStr::new("book"));
    let mut name = stem.to_os_string();
    name.push(".bin");
    if path.file_name() == Some(&name) {
        name = stem.to_os_string();
        name.push("-workbook.bin");
    }
    quoted(&name)
}

#[cfg(test)]
mod tests {
    use super::*;

    #[test]
    fn control_characters_are_escaped() {
        for (name, expected) in [
            ("book.bin", "book.bin"),
            ("Kaliber 2824°.bin", "Kaliber 2824°.bin"),
            ("a\nb", r"a\nb"),
            ("a\x1b[31mb", r"a\u{1b}[31mb"),
            ("a\u{9b}31mb", r"a\u{9b}31mb"),
            ("a\u{202e}nib.b", r"a\u{202e}nib.b"),
            ("\x7f", r"\u{7f}"),
        ] {
            assert_eq!(shown(OsStr::new(name)), expected);
        }
        assert_eq!(shown(OsStr::from_bytes(b"a\xFFb")), "a\u{FFFD}b");
    }

    #[test]
    fn a_shell_reads_a_quoted_name_as_it_is() {
        for name in [
            &b"book.xls"[..],
            b"Kaliber 2824.xls",
            b"it's $HOME `ls` \\ \"x\".xls",
            b"-o.xls",
            b"a\nb\tc'd\\.xls",
            b"caf\xE9 \xFF.xls",
            "Unruh 28°.xls".as_bytes(),
            "a\u{202e}b.xls".as_bytes(),
            b"~root",
            b"*",
            b"",
        ] {
            let script = format!("printf %s {}", quoted(OsStr::from_bytes(name)));
            let run = std::process::Command::new("bash")
                .args(["-c", &script])
                .output()
                .unwrap();
            let front: &[u8] = if name.starts_with(b"-") { b"./" } else { b"" };
            assert_eq!(run.stdout, [front, name].concat(), "{script}");
        }
    }

    #[test]
    fn a_stream_never_has_the_name_of_its_file() {
        for (file, name) in [
            ("book.xls", "book.bin"),
            ("/media/usb/Kaliber 2824.xls", "'Kaliber 2824.bin'"),
            ("book", "book.bin"),
            ("book.bin", "book-workbook.bin"),
            ("folder/book.bin", "book-workbook.bin"),
        ] {
            assert_eq!(stream_of(OsStr::new(file)), name);
        }
    }
}
