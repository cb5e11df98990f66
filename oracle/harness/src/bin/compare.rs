//! Compares the host calls with the original, all 32 bytes and the number, and the bytes around.
//! The last line counts comparisons, rows and differences. Ends with 1 on any difference, and if a
//! row was not compared, or there is none. Options: `--seed N`, `--random N` (millions), `--only
//! WORD` (the rows whose call and arguments have it in them).

use harness::options::{self, DEFAULT_SEED};
use harness::progress::Progress;
use harness::{rows, run};
use std::process::ExitCode;

const DEFAULT_MILLIONS: f64 = 2.0;

fn main() -> ExitCode {
    options::only(&["--seed", "--random", "--only"]);
    let seed = options::option("--seed", DEFAULT_SEED);
    let millions = options::option("--random", DEFAULT_MILLIONS);
    println!("seed {seed}, {millions} million random questions");
    let only: String = options::option("--only", String::new());
    let mut rows = rows::short(seed, (millions * 1e6) as u64);
    rows.retain(|row| format!("{} {}", row.call(), row.what()).contains(&only));
    println!("{:36} {:32} {:>12} {:>12}", "call", "arguments", "comparisons", "differences");
    let (mut comparisons, mut differences, mut whole) = (0, 0, !rows.is_empty());
    for row in &rows {
        let (call, what) = (row.call(), row.what());
        for outcome in run::run(&[row.as_ref()], &Progress::new(row.places())) {
            println!("{call:36} {what:32} {:12} {:12}", outcome.compared, outcome.differences);
            outcome.shown.iter().for_each(|difference| println!("  {}", difference.text));
            comparisons += outcome.compared;
            differences += outcome.differences;
            whole &= outcome.is_whole(row.as_ref());
        }
    }
    println!("{comparisons} comparisons in {} rows, {differences} differences", rows.len());
    ExitCode::from(u8::from(differences != 0 || !whole))
}
