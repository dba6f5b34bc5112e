//! `make install`, and C programs by the flags of `pkg-config` itself. Needs make and pkg-config.

mod common;

use std::path::Path;
use std::process::{Command, Stdio};

use common::folder::Folder;
use common::installed::{file, install, try_examples};
use common::process;

#[track_caller]
fn make(words: &[&str], by_words: bool, prefix: &Path, stage: &Path) {
    let mut make = Command::new("make");
    make.arg("-C").arg(file(".")).args(words);
    let run = match by_words {
        // The variables in its arguments are those that count.
        true => {
            make.arg(format!("PREFIX={}", prefix.display()))
                .arg(format!("DESTDIR={}", stage.display()));
            install(&mut make, Path::new("/none"), Path::new("/none"))
        }
        false => install(&mut make, prefix, stage),
    };
    let said = String::from_utf8_lossy(&run.stderr);
    assert!(run.status.success() && said.is_empty(), "{said}");
}

#[test]
fn make_installs_and_pkg_config_finds_it() {
    let folder = Folder::new();
    let prefix = folder.join("prefix");
    make(&["install"], true, &prefix, Path::new(""));
    let mut command = Command::new("pkg-config");
    command
        .args(["--cflags", "--libs", "sheet"])
        .env("PKG_CONFIG_PATH", prefix.join("lib/pkgconfig"))
        .stdin(Stdio::null());
    let run = process::run(&mut command);
    let said = String::from_utf8_lossy(&run.stderr);
    assert!(run.status.success() && said.is_empty(), "{said}");
    let flags = String::from_utf8(run.stdout).unwrap();
    try_examples(&folder, &flags.split_whitespace().collect::<Vec<_>>());

    for by_words in [true, false] {
        let stage = folder.join("stage");
        make(&["install"], by_words, Path::new("/usr"), &stage);
        assert!(stage.join("usr/lib/libsheet.a").is_file());
        make(&["uninstall"], by_words, Path::new("/usr"), &stage);
        assert!(!stage.join("usr/lib/libsheet.a").exists());
        assert!(!stage.join("usr/bin/sheet").exists());
    }
    assert!(prefix.join("bin/sheet").is_file());
}
