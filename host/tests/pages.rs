//! The man pages and the completions say what the help and the headers say, and nothing else.

mod common;

use std::collections::{BTreeMap, BTreeSet};
use std::fs;
use std::process::{Command, Stdio};

use common::installed::file;
use common::process;

type Words = BTreeSet<String>;

fn text(path: &str) -> String {
    fs::read_to_string(file(path)).unwrap_or_else(|error| panic!("{path}: {error}"))
}

/// What a program prints, which has to succeed.
#[track_caller]
fn printed(command: &mut Command) -> String {
    let run = process::run(command.stdin(Stdio::null()));
    let said = String::from_utf8_lossy(&run.stderr);
    assert!(run.status.success() && said.is_empty(), "{said}");
    String::from_utf8(run.stdout).unwrap()
}

fn help() -> String {
    printed(Command::new(env!("CARGO_BIN_EXE_sheet")).arg("--help"))
}

fn words(list: &str) -> Words {
    list.split_whitespace().map(str::to_string).collect()
}

/// The option that a word starts with: two dashes and a name, or a dash and a letter.
fn option(word: &str) -> Option<String> {
    let name = word.trim_start_matches('-');
    if !name.starts_with(|first: char| first.is_ascii_alphabetic()) {
        return None;
    }
    let end = name.find(|each: char| !each.is_ascii_lowercase() && each != '-');
    match word.len() - name.len() {
        1 => Some(format!("-{}", &name[..1])),
        2 => Some(format!("--{}", &name[..end.unwrap_or(name.len())])),
        _ => None,
    }
}

/// The options in a text, whatever is around them.
fn options(text: &str) -> Words {
    let parts = text.split(|each: char| !each.is_ascii_alphanumeric() && each != '-');
    parts.filter_map(option).collect()
}

/// The commands of the help: what is behind `sheet` at the start of a line.
fn help_commands() -> Words {
    let help = help();
    let first = |line: &str| {
        let word = line.strip_prefix("  sheet ")?.split_whitespace().next()?;
        (!word.starts_with('-')).then(|| word.to_string())
    };
    help.lines().filter_map(first).collect()
}

/// The options in place of a command.
const FIRST: &str = "-h --help -V --version";

const LOCKS: &str = "cryptoapi office97 xor";
const KEY_SIZES: &str = "40 48 56 64 72 80 88 96 104 112 120 128";
const MAJORS: &str = "2 3 4";

/// The words behind a macro of a page, wherever it is called, up to the next one.
fn behind(page: &str, name: &str) -> Vec<String> {
    let mut found = Vec::new();
    for line in page.lines().filter_map(|line| line.strip_prefix('.')) {
        let mut inside = false;
        for word in line.split_whitespace() {
            let macro_name = word.len() == 2
                && word.starts_with(|first: char| first.is_ascii_uppercase())
                && word.ends_with(|last: char| last.is_ascii_lowercase());
            if macro_name {
                inside = word == name;
            } else if inside && !["|", ",", ".", ":", ";"].contains(&word) {
                found.push(word.to_string());
            }
        }
    }
    found
}

/// A section of a page.
fn section<'a>(page: &'a str, name: &str) -> &'a str {
    let (_, rest) = page.split_once(&format!("\n.Sh {name}\n")).unwrap();
    rest.split("\n.Sh ").next().unwrap()
}

#[test]
fn the_page_of_the_command_has_what_the_help_has() {
    let (page, help) = (text("man/sheet.1"), help());
    let flags = behind(&page, "Fl")
        .into_iter()
        .map(|flag| format!("-{flag}"));
    assert_eq!(flags.collect::<Words>(), options(&help));
    let mut expected = help_commands();
    expected.extend(words(LOCKS));
    let named = behind(&page, "Cm").into_iter().collect::<Words>();
    assert_eq!(named, expected);
    // Each has a paragraph of its own.
    for command in help_commands() {
        let start = format!("\n.It Cm {command}");
        assert_eq!(page.matches(&start).count(), 1, "{command}");
    }

    let (_, rest) = help.split_once("\nEXIT STATUS\n").unwrap();
    let number = |line: &str| line.parse::<u8>().ok();
    let in_help: BTreeSet<u8> = rest
        .lines()
        .take_while(|line| line.is_empty() || line.starts_with(' '))
        .filter_map(|line| number(line.strip_prefix("  ")?.split(' ').next()?))
        .collect();
    let in_page: BTreeSet<u8> = section(&page, "EXIT STATUS")
        .lines()
        .filter_map(|line| number(line.strip_prefix(".It ")?))
        .collect();
    assert!(in_help.len() >= 3);
    assert_eq!(in_page, in_help);
}

/// What bash completes: the words in front, the last of which may be a part of one.
fn completed_by_bash(line: &[&str]) -> Words {
    let script = r#"source "$0"; COMP_WORDS=("$@"); COMP_CWORD=$(($# - 1)); _sheet; printf '%s\n' "${COMPREPLY[@]}""#;
    let mut bash = Command::new("bash");
    bash.args(["--norc", "-c", script])
        .arg(file("completions/sheet.bash"))
        .args(line);
    words(&printed(&mut bash))
}

#[test]
fn bash_completes_what_the_help_has() {
    let commands = help_commands();
    let mut first = commands.clone();
    first.extend(words(FIRST));
    assert_eq!(completed_by_bash(&["sheet", ""]), first);
    assert_eq!(completed_by_bash(&["sheet", "op"]), words("open"));
    let mut all = words(FIRST);
    for command in &commands {
        all.extend(completed_by_bash(&["sheet", command, "-"]));
        assert_eq!(completed_by_bash(&["sheet", command, ""]), words(""));
    }
    assert_eq!(all, options(&help()));
    for (option, values) in [
        ("--lock", LOCKS),
        ("--key-size", KEY_SIZES),
        ("--major", MAJORS),
    ] {
        let line = ["sheet", "seal", "book", option, ""];
        assert_eq!(completed_by_bash(&line), words(values));
        let line = ["sheet", "seal", "book", option, "="];
        assert_eq!(completed_by_bash(&line), words(values));
    }
    let line = ["sheet", "seal", "--lock", "=", "o"];
    assert_eq!(completed_by_bash(&line), words("office97"));
    for option in ["-o", "--output", "--password-file"] {
        let line = ["sheet", "open", "book", option, ""];
        assert_eq!(completed_by_bash(&line), words(""));
    }
}

/// The options of each command, as a completion has them.
type OfCommands = BTreeMap<String, Words>;

fn of_bash() -> OfCommands {
    let commands = help_commands().into_iter();
    commands
        .map(|command| {
            let options = completed_by_bash(&["sheet", &command, "-"]);
            (command, options)
        })
        .collect()
}

#[test]
fn zsh_completes_what_the_help_has() {
    let script = text("completions/_sheet");
    let (_, rest) = script.split_once("\ncommands=(\n").unwrap();
    let (list, rest) = rest.split_once("\n)\n").unwrap();
    let named = |line: &str| {
        let (name, _) = line.trim_start().strip_prefix('\'')?.split_once(':')?;
        Some(name.to_string())
    };
    let commands: Words = list.lines().filter_map(named).collect();
    assert_eq!(commands, help_commands());

    // The lists, and the commands that use them.
    let mut lists = BTreeMap::new();
    for name in ["file", "quiet", "output", "sealing"] {
        let (_, list) = rest
            .split_once(&format!("\n{name}=("))
            .or_else(|| {
                rest.strip_prefix(&format!("{name}=("))
                    .map(|list| ("", list))
            })
            .unwrap();
        lists.insert(name, options(list.split("\n)").next().unwrap()));
    }
    lists.insert("file", Words::new());
    let mut found = OfCommands::new();
    let (_, rest) = rest.split_once("\ncase $words[1] in\n").unwrap();
    for line in rest.lines().take_while(|line| *line != "esac") {
        let (commands, line) = line.split_once(") ").unwrap();
        let mut own = options(line.split('[').next().unwrap());
        for (name, list) in &lists {
            if line.contains(&format!(" ${name}")) {
                own.extend(list.iter().cloned());
            }
        }
        for command in commands.split('|') {
            found.insert(command.to_string(), own.clone());
        }
    }
    found.insert("refusals".to_string(), Words::new());
    assert_eq!(found, of_bash());
    let (_, first) = script
        .split_once("\nif (( CURRENT == 2 )); then\n")
        .unwrap();
    let (_, first) = first.split_once("_arguments ").unwrap();
    let (first, _) = first.split_once("\n").unwrap();
    assert_eq!(options(first), words(FIRST));
    for values in [LOCKS, KEY_SIZES, MAJORS] {
        assert_eq!(script.matches(&format!(":({values})'")).count(), 1);
    }
}

#[test]
fn fish_completes_what_the_help_has() {
    let script = text("completions/sheet.fish");
    let behind = |line: &str, flag: &str| {
        let (_, rest) = line.split_once(&format!(" {flag} "))?;
        Some(rest.split(' ').next().unwrap().to_string())
    };
    let (mut commands, mut first) = (Words::new(), Words::new());
    let mut found = OfCommands::new();
    for line in script.lines().filter(|line| line.starts_with("complete ")) {
        let (line, _) = line.split_once(" -d ").unwrap_or((line, ""));
        let mut own = Words::new();
        own.extend(behind(line, "-s").map(|letter| format!("-{letter}")));
        own.extend(behind(line, "-l").map(|name| format!("--{name}")));
        if line.contains("-n __fish_use_subcommand ") {
            commands.extend(behind(line, "-a"));
            first.extend(own);
        } else if let Some((_, rest)) = line.split_once("'__fish_seen_subcommand_from ") {
            for command in rest.split('\'').next().unwrap().split(' ') {
                let of_command = found.entry(command.to_string()).or_default();
                of_command.extend(own.iter().cloned());
            }
        } else {
            assert_eq!(line, "complete -c sheet -f");
        }
    }
    found.insert("refusals".to_string(), Words::new());
    assert_eq!(commands, help_commands());
    assert_eq!(first, words(FIRST));
    assert_eq!(found, of_bash());
    for values in [LOCKS, KEY_SIZES, MAJORS] {
        assert_eq!(script.matches(&format!(" -x -a '{values}'")).count(), 1);
    }
}

/// A header without its comments.
fn header(path: &str) -> String {
    let mut header = text(path);
    while let Some(start) = header.find("/*") {
        let end = start + header[start..].find("*/").expect("a comment's end") + 2;
        header.replace_range(start..end, " ");
    }
    header
}

fn squeezed(text: &str) -> String {
    text.split_whitespace().collect::<Vec<_>>().join(" ")
}

/// The functions of both headers by name, with their prototypes.
fn functions() -> BTreeMap<String, String> {
    let mut found = BTreeMap::new();
    for path in ["include/sheet.h", "include/sheet_words.h"] {
        let header = header(path);
        let code = header.lines().filter(|line| !line.starts_with('#'));
        let code = squeezed(&code.collect::<Vec<_>>().join(" "));
        for (at, _) in code.match_indices("sheet_") {
            let (name, rest) = match code[at..].split_once('(') {
                Some((name, rest)) if !name.contains(|each: char| !is_of_name(each)) => {
                    (name, rest)
                }
                _ => continue,
            };
            let start = code[..at].rfind([';', '{', '}']).map_or(0, |mark| mark + 1);
            let result = code[start..at]
                .replace("SHEET_MUST_CHECK", "")
                .replace("static inline", "");
            let (parameters, _) = rest.split_once(')').unwrap();
            let prototype = format!("{}{name}({parameters})", result.trim_start());
            found.insert(name.to_string(), prototype);
        }
    }
    found
}

fn is_of_name(each: char) -> bool {
    each.is_ascii_alphanumeric() || each == '_'
}

/// The macros and the enumerators of the header by name, with their values where these are numbers
/// or texts.
fn constants() -> BTreeMap<String, Option<String>> {
    let header = header("include/sheet.h");
    let mut found = BTreeMap::new();
    for line in header.lines() {
        let line = line.trim();
        let (name, value) = if let Some(rest) = line.strip_prefix("#define ") {
            rest.split_once(' ').unwrap_or((rest, ""))
        } else if let Some((name, value)) = line.split_once(" = ") {
            (name, value.trim_end_matches(','))
        } else {
            continue;
        };
        if name == "SHEET_H" {
            continue;
        }
        let value = value.trim_matches('"');
        let plain = value.starts_with(|first: char| first.is_ascii_digit());
        found.insert(name.to_string(), plain.then(|| value.to_string()));
    }
    found
}

/// The refusals of the header, each with what its comment says, as the page has it.
fn refusals() -> BTreeMap<String, String> {
    let header = text("include/sheet.h");
    let (_, rest) = header.split_once("\nenum sheet_refusal {\n").unwrap();
    let (list, _) = rest.split_once("\n};\n").unwrap();
    let mut found = BTreeMap::new();
    for part in list.split("/*").skip(1) {
        let (comment, code) = part.split_once("*/").unwrap();
        let (name, _) = code.trim().split_once(" = ").unwrap();
        let words = squeezed(&comment.replace("\n     *", " "));
        let (words, details) = match words.strip_suffix(']') {
            Some(words) => words.rsplit_once(" [").unwrap(),
            None => (&words[..], ""),
        };
        let (first, others) = words.split_at(1);
        let mut said = format!("{}{others}.", first.to_uppercase());
        if !details.is_empty() {
            said += &format!(" Details: {details}.");
        }
        found.insert(name.to_string(), said);
    }
    found
}

/// The arguments of a line of a page, of which one may be in quotes.
fn argument(line: &str) -> &str {
    line.trim_matches('"')
}

#[test]
fn the_page_of_the_library_has_what_the_headers_have() {
    let page = text("man/libsheet.3");
    let functions = functions();
    assert!(functions.len() >= 10);
    let names = functions.keys().cloned().collect::<Words>();

    // The prototypes.
    let mut found = BTreeMap::new();
    let (mut result, mut name, mut parameters) = (String::new(), String::new(), Vec::new());
    for line in section(&page, "SYNOPSIS").lines() {
        match line.split_once(' ').unwrap_or((line, "")) {
            (".Ft", rest) => result = argument(rest).to_string(),
            (".Fo", rest) => name = rest.to_string(),
            (".Fa", rest) => parameters.push(argument(rest).to_string()),
            (".Fc", _) => {
                let blank = if result.ends_with('*') { "" } else { " " };
                let list = parameters.join(", ");
                found.insert(name.clone(), format!("{result}{blank}{name}({list})"));
                parameters.clear();
            }
            (other, _) => assert_eq!(other, ".In"),
        }
    }
    assert_eq!(found, functions);
    assert_eq!(
        behind(section(&page, "NAME"), "Nm")
            .into_iter()
            .collect::<Words>(),
        names
    );
    for name in behind(&page, "Fn") {
        assert!(names.contains(&name), "{name}");
    }

    // The macros and the enumerators, with their values.
    let constants = constants();
    let mut found = BTreeMap::new();
    for line in page.lines() {
        if let Some(rest) = line.strip_prefix(".It Dv ") {
            let (name, value) = match rest.split_once(" Pq ") {
                Some((name, value)) => (name, Some(value.to_string())),
                None => (rest, None),
            };
            assert_eq!(found.insert(name.to_string(), value), None, "{name}");
        }
    }
    assert_eq!(found, constants);
    let refusals = refusals();
    assert!(refusals.len() >= 32);
    for (name, said) in refusals {
        let (_, rest) = page.split_once(&format!("\n.It Dv {name} Pq ")).unwrap();
        let (_, rest) = rest.split_once('\n').unwrap();
        let paragraph = rest.split("\n.").next().unwrap();
        assert_eq!(squeezed(paragraph), said, "{name}");
    }
    for name in behind(&page, "Dv") {
        assert!(name == "NULL" || constants.contains_key(&name), "{name}");
    }
    let header = header("include/sheet.h");
    for (at, _) in page.match_indices("enum sheet_") {
        let name = page[at..].split('"').next().unwrap();
        assert!(header.contains(&format!("{name} {{")), "{name}");
    }
}
