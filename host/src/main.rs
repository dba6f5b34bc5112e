//! The command `sheet`: looks at, lists, opens and seals protected Excel 97-2003 workbook streams,
//! compares their locks, finds their sheets, and shows what opening them will take. `sheet --help` says
//! how.

use std::process::ExitCode;

mod command;

fn main() -> ExitCode {
    command::run(std::env::args_os().skip(1))
}
