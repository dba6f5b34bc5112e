//! What a file is that is not a workbook stream, by its first bytes.

use std::ffi::OsStr;

use super::names::{escaped, quoted, stream_of};

/// The first bytes of a compound file, and of two kinds of zip files: one with members, and an empty
/// one.
const COMPOUND: [u8; 8] = [0xD0, 0xCF, 0x11, 0xE0, 0xA1, 0xB1, 0x1A, 0xE1];
const ZIP: [&[u8]; 2] = [b"PK\x03\x04", b"PK\x05\x06"];

/// How many bytes decide whether a file is text.
const SEEN: usize = 4096;

/// What gsf's messages begin with.
const GSF: &str = "gsf: ";

/// A file that is not a workbook stream.
#[derive(Clone, Debug, PartialEq)]
pub enum Kind {
    Compound,
    Empty,
    /// A worksheet of Excel 2, 3 or 4, which has no compound file around it.
    Worksheet,
    /// What gsf printed in place of a stream.
    Gsf(String),
    Zip,
    Pdf,
    Rtf,
    /// HTML or XML.
    Markup,
    Text,
}

impl Kind {
    /// What a file is, if its first bytes show that it is not a workbook stream. Such a stream begins
    /// with the bytes 09 08, which nothing here does.
    pub fn of(file: &[u8]) -> Option<Kind> {
        if file.is_empty() {
            return Some(Kind::Empty);
        }
        if file.starts_with(&COMPOUND) {
            return Some(Kind::Compound);
        }
        if ZIP.iter().any(|zip| file.starts_with(zip)) {
            return Some(Kind::Zip);
        }
        if file.starts_with(b"%PDF-") {
            return Some(Kind::Pdf);
        }
        if let [0x09, 0x00 | 0x02 | 0x04, 4..=16, 0x00, ..] = file {
            return Some(Kind::Worksheet);
        }
        let text = text(&file[..file.len().min(SEEN)])?;
        let first = text.trim_start_matches('\u{FEFF}').trim_start();
        Some(if text.starts_with(GSF) {
            Kind::Gsf(escaped(text.lines().next().unwrap_or_default()))
        } else if first.starts_with("{\\rtf") {
            Kind::Rtf
        } else if first.starts_with('<') {
            Kind::Markup
        } else {
            Kind::Text
        })
    }

    /// What is said of it, and what to do. `file` is the name that the user gave, if there is one.
    pub fn words(&self, file: Option<&OsStr>) -> String {
        match self {
            Kind::Compound => compound(file.unwrap_or(OsStr::new("book.xls"))),
            Kind::Empty => "this file is empty: if gsf should have written it, see what gsf said, and \
                            take the stream out of the .xls file again"
                .into(),
            Kind::Worksheet => "this is a worksheet of Excel 2, 3 or 4: open it in a spreadsheet \
                                program and save it as an Excel 97-2003 workbook"
                .into(),
            Kind::Gsf(said) => format!(
                "this is an error message of gsf, and not a workbook stream: '{said}'; 'gsf list' \
                 and the name of the .xls file show which streams it holds, and one of them must be \
                 Workbook"
            ),
            Kind::Zip => "this is a zip file, as .xlsx, .ods and .docx files without a password are, \
                          and not a workbook stream: only Excel 97-2003 workbooks (.xls) can be read"
                .into(),
            Kind::Pdf => "this is a PDF file, and not a workbook stream: ask for the workbook itself"
                .into(),
            Kind::Rtf => "this is an RTF text file, and not a workbook stream: ask for the workbook \
                          itself"
                .into(),
            Kind::Markup => "this is a text file of HTML or XML, as some programs save it under the \
                             name .xls, and not a workbook stream: open it in a spreadsheet program"
                .into(),
            Kind::Text => "this is a text file, and not a workbook stream: check that this is the \
                           file that you mean"
                .into(),
        }
    }
}

/// What is said of a compound file, with the commands to type.
fn compound(file: &OsStr) -> String {
    let (name, stream) = (quoted(file), stream_of(file));
    format!(
        "this is a compound file (.xls, .doc, .ppt, or a protected .xlsx), and not the stream in it\n\
         See what it holds, with gsf of Debian's package libgsf-bin:\n  \
         gsf list {name}\n\
         If that lists Workbook, take it out, and use {stream}:\n  \
         gsf cat {name} Workbook > {stream}\n\
         If it lists EncryptedPackage, this is a protected .xlsx, .docx or .pptx: these use a different \
         kind of protection, which sheet can't open. Nor can it open Book (Excel 5 or 95), WordDocument (a \
         .doc) or PowerPoint Document (a .ppt)."
    )
}

/// The text that a file begins with, if it is text: UTF-8 or UTF-16 without control characters other
/// than those of layout.
fn text(bytes: &[u8]) -> Option<String> {
    let text = match bytes {
        [0xFF, 0xFE, rest @ ..] => utf16(rest, u16::from_le_bytes),
        [0xFE, 0xFF, rest @ ..] => utf16(rest, u16::from_be_bytes),
        _ => match std::str::from_utf8(bytes) {
            Ok(text) => Some(text.to_string()),
            // A character that is cut by the number of bytes that are seen.
            Err(error) if error.error_len().is_none() && bytes.len() == SEEN => {
                let whole = &bytes[..error.valid_up_to()];
                std::str::from_utf8(whole).ok().map(str::to_string)
            }
            Err(_) => None,
        },
    }?;
    let layout = |character| matches!(character, '\t' | '\n' | '\r' | '\x0C' | '\x1A');
    text.chars()
        .all(|character| !character.is_control() || layout(character))
        .then_some(text)
}

/// UTF-16 as text.
fn utf16(bytes: &[u8], unit: fn([u8; 2]) -> u16) -> Option<String> {
    let units = bytes.chunks_exact(2).map(|pair| unit([pair[0], pair[1]]));
    let mut units: Vec<u16> = units.collect();
    // The first half of a pair that is cut by the number of bytes that are seen.
    if units
        .last()
        .is_some_and(|unit| (0xD800..0xDC00).contains(unit))
    {
        units.pop();
    }
    String::from_utf16(&units).ok()
}

#[cfg(test)]
mod tests {
    use super::*;

    #[test]
    fn kinds_are_told_by_their_first_bytes() {
        let utf16: Vec<u8> = "\u{FEFF}Kaliber\t2824\r\n"
            .encode_utf16()
            .flat_map(u16::to_le_bytes)
            .collect();
        let long = "Unruh °".repeat(2000);
        for (file, kind) in [
            (&b""[..], Kind::Empty),
            (&[&COMPOUND[..], &[0; 504]].concat(), Kind::Compound),
            (b"PK\x03\x04\x14\0\0\0", Kind::Zip),
            (b"PK\x05\x06\0\0", Kind::Zip),
            (b"%PDF-1.4\n%\xE2\xE3\xCF\xD3", Kind::Pdf),
            (&[0x09, 0x00, 4, 0, 2, 0, 0x10, 0], Kind::Worksheet),
            (&[0x09, 0x02, 6, 0, 0, 0, 0x10, 0], Kind::Worksheet),
            (&[0x09, 0x04, 6, 0, 0, 0, 0x10, 0], Kind::Worksheet),
            (b"{\\rtf1\\ansi", Kind::Rtf),
            (b"<html><table>", Kind::Markup),
            ("\u{FEFF}\n<?xml version".as_bytes(), Kind::Markup),
            (b"Kaliber;Hebungswinkel\r\n2824;50\r\n", Kind::Text),
            (&utf16, Kind::Text),
            (long.as_bytes(), Kind::Text),
            (
                b"gsf: archive has no member Workbook\n",
                Kind::Gsf("gsf: archive has no member Workbook".into()),
            ),
        ] {
            assert_eq!(Kind::of(file), Some(kind), "{file:?}");
        }
    }

    #[test]
    fn nothing_else_is_told() {
        for file in [
            // A workbook stream, whole and cut off.
            &[0x09, 0x08, 0x10, 0, 0, 6, 5, 0][..],
            &[0x09, 0x08],
            &[0x09, 0x04],
            &[0x09, 0x04, 6, 1],
            &[0],
            &[0xFF; 5000],
            // No text: a character that is wrong, or cut where nothing was left out.
            b"Unruh \xB0",
            b"Unruh \xC2",
            b"Unruh\x1b[2J",
            // Half a compound file's mark.
            &COMPOUND[..7],
        ] {
            assert_eq!(Kind::of(file), None, "{file:?}");
        }
    }

    #[test]
    fn the_commands_to_type_have_the_name_of_the_file() {
        let words = Kind::Compound.words(Some(OsStr::new("/usb/Kaliber 2824.xls")));
        for line in [
            "gsf list '/usb/Kaliber 2824.xls'",
            "gsf cat '/usb/Kaliber 2824.xls' Workbook > 'Kaliber 2824.bin'",
        ] {
            assert!(words.contains(&format!("\n  {line}\n")), "{words}");
        }
        assert!(Kind::Compound.words(None).contains("gsf list book.xls"));
    }
}
