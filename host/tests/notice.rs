//! NOTICE names every crate, as derived from the source or as not derived, and nothing that is not
//! there.

use std::fs;
use std::path::{Path, PathBuf};

/// What stands above each list.
const DERIVED: &str = "The derived crates, under crates/, and the files";
const OWN_CRATES: &str = "The crates that derive from no file of it:";
const OWN_FOLDERS: &str = "The folders that derive from no file of it:";

/// A file or folder of the project.
fn project(path: &str) -> PathBuf {
    let host = Path::new(env!("CARGO_MANIFEST_DIR"));
    host.parent().unwrap().join(path)
}

fn text(path: &str) -> String {
    let path = project(path);
    fs::read_to_string(&path).unwrap_or_else(|error| panic!("{}: {error}", path.display()))
}

/// The crates of crates.txt. Behind the name of a static library stands that it is one.
fn crates(list: &str) -> Vec<&str> {
    list.lines()
        .filter(|line| !line.starts_with('#'))
        .filter_map(|line| line.split_once(':'))
        .map(|(name, _)| name.trim_end_matches(" staticlib"))
        .collect()
}

/// The names of a list of NOTICE: the first words of the lines that are two spaces in. Lines
/// farther in go on with what is said of a name.
fn names<'a>(notice: &'a str, heading: &str) -> Vec<&'a str> {
    let found: Vec<_> = notice.match_indices(heading).collect();
    assert_eq!(found.len(), 1, "NOTICE: '{heading}' must stand there once");
    notice[found[0].0..]
        .lines()
        .skip(2)
        .take_while(|line| line.starts_with("  "))
        .filter(|line| !line.starts_with("   "))
        .map(|line| line.split_whitespace().next().unwrap())
        .collect()
}

#[test]
fn every_crate_is_in_one_list_of_notice() {
    let (list, notice) = (text("crates.txt"), text("NOTICE"));
    let crates = crates(&list);
    assert!(crates.contains(&"excel97") && crates.contains(&"sheet"));
    let lists = [DERIVED, OWN_CRATES].map(|heading| names(&notice, heading));
    for name in &crates {
        let times = lists.iter().flatten().filter(|listed| *listed == name);
        assert_eq!(
            times.count(),
            1,
            "NOTICE must name the crate {name} once, as derived or as not derived"
        );
    }
    for name in lists.iter().flatten() {
        assert!(
            crates.contains(name),
            "NOTICE names {name}, which is no crate of crates.txt"
        );
    }
}

#[test]
fn every_folder_in_notice_is_there() {
    let notice = text("NOTICE");
    let folders = names(&notice, OWN_FOLDERS);
    assert!(folders.contains(&"host/"));
    for (k, name) in folders.iter().enumerate() {
        assert!(
            name.ends_with('/') && project(name).is_dir(),
            "NOTICE names {name}, which is no folder of the project"
        );
        assert!(!folders[..k].contains(name), "NOTICE names {name} twice");
    }
}
