//! Prints, for a folder of tests/paths, what its file expected.txt is to say.

use reference::selfcheck::print_path_of;
use std::io::Write;
use std::path::Path;
use std::process::ExitCode;

fn main() -> ExitCode {
    let Some(folder) = std::env::args().nth(1) else {
        eprintln!("usage: path FOLDER");
        return ExitCode::from(2);
    };
    match std::io::stdout().write_all(&print_path_of(Path::new(&folder))) {
        Ok(()) => ExitCode::SUCCESS,
        Err(_) => ExitCode::FAILURE,
    }
}
