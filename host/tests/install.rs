//! `tools/install`: what it installs and takes away again, and C programs over an installed prefix.

mod common;

use std::collections::HashMap;
use std::fs;
use std::os::unix::fs::PermissionsExt;
use std::path::Path;
use std::process::{Command, Stdio};

use common::folder::Folder;
use common::installed::{file, install, install_silently, try_examples};
use common::process;

/// The files below the prefix that anyone may read, beside the command.
const FILES: [&str; 14] = [
    "include/sheet.h",
    "include/sheet_words.h",
    "lib/libsheet.a",
    "lib/pkgconfig/sheet.pc",
    "share/bash-completion/completions/sheet",
    "share/doc/sheet/CHANGELOG.md",
    "share/doc/sheet/LICENSE-APACHE",
    "share/doc/sheet/LICENSE-MIT",
    "share/doc/sheet/NOTICE",
    "share/doc/sheet/README.md",
    "share/fish/vendor_completions.d/sheet.fish",
    "share/man/man1/sheet.1",
    "share/man/man3/libsheet.3",
    "share/zsh/site-functions/_sheet",
];

/// `tools/install`, started with few permissions for what it makes.
fn tool() -> Command {
    let mut bash = Command::new("bash");
    bash.args(["-c", "umask 077 && exec bash \"$0\" \"$@\""])
        .arg(file("tools/install"))
        .current_dir("/");
    bash
}

fn mode(path: &Path) -> u32 {
    fs::symlink_metadata(path).unwrap().permissions().mode() & 0o7777
}

/// The files below a folder, sorted, with their modes. Folders can be searched by anyone.
fn files(folder: &Path) -> Vec<(String, u32)> {
    let mut found = Vec::new();
    let mut folders = vec![folder.to_path_buf()];
    while let Some(inner) = folders.pop() {
        for entry in fs::read_dir(&inner).unwrap() {
            let path = entry.unwrap().path();
            if path.is_dir() {
                assert_eq!(mode(&path), 0o755, "{}", path.display());
                folders.push(path);
            } else {
                let name = path.strip_prefix(folder).unwrap().to_str().unwrap();
                found.push((name.to_string(), mode(&path)));
            }
        }
    }
    found.sort();
    found
}

#[test]
fn installs_the_list_and_takes_it_away() {
    let folder = Folder::new();
    let stage = folder.join("a stage");
    let prefix = Path::new("/opt/some-prefix");
    let usr = stage.join("opt/some-prefix");
    // A second time, over what is there.
    for _ in 0..2 {
        install_silently(&mut tool(), prefix, &stage);
        let mut expected = FILES.map(|name| (name.to_string(), 0o644)).to_vec();
        expected.push(("bin/sheet".to_string(), 0o755));
        expected.sort();
        assert_eq!(files(&usr), expected);
        assert_eq!(fs::read_dir(&stage).unwrap().count(), 1);
    }
    for (from, to) in [
        ("include/sheet.h", "include/sheet.h"),
        ("NOTICE", "share/doc/sheet/NOTICE"),
        ("man/sheet.1", "share/man/man1/sheet.1"),
        ("man/libsheet.3", "share/man/man3/libsheet.3"),
    ] {
        assert_eq!(
            fs::read(file(from)).unwrap(),
            fs::read(usr.join(to)).unwrap()
        );
    }

    let mut sheet = Command::new(usr.join("bin/sheet"));
    let run = process::run(sheet.arg("--version").stdin(Stdio::null()));
    let version = env!("CARGO_PKG_VERSION");
    assert_eq!(run.status.code(), Some(0));
    assert_eq!(run.stdout, format!("sheet {version}\n").into_bytes());
    let pc = fs::read_to_string(usr.join("lib/pkgconfig/sheet.pc")).unwrap();
    assert!(pc.starts_with("prefix=/opt/some-prefix\n"), "{pc}");
    assert!(pc.contains(&format!("\nVersion: {version}\n")), "{pc}");
    assert!(!pc.contains('@'), "{pc}");

    // What others put there stays.
    for name in ["lib/libother.a", "share/doc/sheet/notes"] {
        fs::write(usr.join(name), "").unwrap();
    }
    install_silently(tool().arg("--uninstall"), prefix, &stage);
    let names = files(&usr).into_iter().map(|(name, _)| name);
    assert_eq!(
        names.collect::<Vec<_>>(),
        ["lib/libother.a", "share/doc/sheet/notes"]
    );
    fs::remove_file(usr.join("lib/libother.a")).unwrap();
    fs::remove_file(usr.join("share/doc/sheet/notes")).unwrap();
    // A second time, where nothing is left but folders.
    install_silently(tool().arg("--uninstall"), prefix, &stage);
    assert_eq!(files(&usr), []);
    assert!(!usr.join("share/doc/sheet").exists());
    install_silently(tool().arg("--uninstall"), prefix, &folder.join("none"));
    assert!(!folder.join("none").exists());
}

#[test]
fn refuses_what_it_does_not_know() {
    let folder = Folder::new();
    for (words, prefix) in [
        (&["--remove"][..], "/usr"),
        (&["--uninstall", "now"], "/usr"),
        (&[], "usr"),
        (&[], "/opt/some prefix"),
    ] {
        let run = install(tool().args(words), Path::new(prefix), folder.path());
        assert_eq!(run.status.code(), Some(2));
        assert!(run.stderr.starts_with(b"tools/install: "));
        assert_eq!(folder.names(), [""; 0]);
    }
}

/// The flags of a .pc file as pkg-config gives them, with its variables put in.
fn flags(pc: &str) -> Vec<String> {
    let mut variables = HashMap::new();
    let mut flags = Vec::new();
    let put_in = |text: &str, variables: &HashMap<String, String>| {
        let mut text = text.to_string();
        while let Some((before, rest)) = text.split_once("${") {
            let (name, after) = rest.split_once('}').unwrap();
            text = format!("{before}{}{after}", variables[name]);
        }
        text
    };
    for line in pc.lines() {
        if let Some(words) = line
            .strip_prefix("Cflags: ")
            .or_else(|| line.strip_prefix("Libs: "))
        {
            flags.extend(words.split(' ').map(|word| put_in(word, &variables)));
        } else if let Some((name, value)) = line.split_once('=') {
            variables.insert(name.to_string(), put_in(value, &variables));
        }
    }
    flags
}

#[test]
fn c_programs_are_compiled_over_it() {
    let folder = Folder::new();
    let prefix = folder.join("prefix");
    install_silently(&mut tool(), &prefix, Path::new(""));
    let pc = fs::read_to_string(prefix.join("lib/pkgconfig/sheet.pc")).unwrap();
    let flags = flags(&pc);
    let at = prefix.display();
    let expected = [
        format!("-L{at}/lib"),
        "-lsheet".to_string(),
        format!("-I{at}/include"),
    ];
    assert_eq!(flags, expected);
    try_examples(&folder, &flags);
}
