//! What programs have in common that write stored answers, for programs that replay them without
//! Rust.

use crate::options::{self, DEFAULT_SEED};
use crate::random::Random;
use std::path::Path;
use std::process::ExitCode;
use std::{fs, io};

/// What stands in a lent byte before the call, and in one that it leaves out still.
pub const UNWRITTEN: u8 = 170;

/// Runs such a program: it writes into the folder of the crates, with the numbers of this row, and
/// says what. Options: `--seed N`, `--out FOLDER`.
#[must_use]
pub fn run(row: u64, written: fn(&Path, &mut Random) -> Result<String, String>) -> ExitCode {
    options::only(&["--seed", "--out"]);
    let random = &mut Random::at(options::option("--seed", DEFAULT_SEED), row, 0);
    let folder = options::option("--out", String::from("../crates"));
    match written(Path::new(&folder), random) {
        Ok(told) => {
            println!("{told} in {folder}");
            ExitCode::SUCCESS
        }
        Err(told) => {
            eprintln!("{told}");
            ExitCode::FAILURE
        }
    }
}

/// Writes a file of a crate.
///
/// # Errors
///
/// Its path, and why it cannot be written.
pub fn write(folder: &Path, name: &str, bytes: &[u8]) -> Result<(), String> {
    let path = folder.join(name);
    let folder = path.parent().unwrap_or(folder);
    let done = fs::create_dir_all(folder).and_then(|()| fs::write(&path, bytes));
    done.map_err(|error: io::Error| format!("{}: {error}", path.display()))
}
