//! The comparison at scale: every row of `compare`, with more random questions, and for every call
//! arguments of every kind. Prints a table of the calls and, for a difference, how to repeat it;
//! ends with 1 on any, and if a row was not compared. Options: `--seed N`, `--millions N` (random
//! questions), and to put one question again, `--row N --place N`.

use harness::options::{self, DEFAULT_SEED};
use harness::progress::{span, Progress};
use harness::run::{self, Difference, Outcome, Places};
use harness::{portfolio, records, rows};
use mako_fristen_host::Call;
use std::process::ExitCode;
use std::time::Instant;

const DEFAULT_MILLIONS: f64 = 250.0;

fn main() -> ExitCode {
    options::only(&["--seed", "--millions", "--row", "--place"]);
    let (seed, millions) =
        (options::option("--seed", DEFAULT_SEED), options::option("--millions", DEFAULT_MILLIONS));
    println!("seed {seed}, about {millions} million random questions");
    let rows = rows::long(seed, (millions * 1e6) as u64);
    let rows: Vec<&dyn Places> = rows.iter().map(Box::as_ref).collect();
    if let Some(row) = options::given("--row") {
        return put_again(&rows, row, options::option("--place", 0));
    }
    let started = Instant::now();
    let progress = Progress::new(rows.iter().map(|row| row.places()).sum());
    let outcomes = progress.shown(|| run::run(&rows, &progress));
    let differences = table(&rows, &outcomes);
    for (number, (row, outcome)) in rows.iter().zip(&outcomes).enumerate() {
        for Difference { place, text } in &outcome.shown {
            println!("{}, {}: {text}", row.call(), row.what());
            let of_run = format!("--seed {seed} --millions {millions}");
            println!("    again    oracle/long {of_run} --row {number} --place {place}");
        }
    }
    println!("{} rows in {}", rows.len(), span(started.elapsed()));
    let whole = rows.iter().zip(&outcomes).all(|(&row, outcome)| outcome.is_whole(row));
    ExitCode::from(u8::from(differences != 0 || !whole))
}

/// Prints comparisons and differences of every call, and gives the sum of the latter.
fn table(rows: &[&dyn Places], outcomes: &[Outcome]) -> u64 {
    println!("{:36} {:>12} {:>12}", "call", "comparisons", "differences");
    let (mut comparisons, mut differences) = (0, 0);
    let lists = [records::CALL, portfolio::CALL];
    for call in Call::ALL.map(Call::name).into_iter().chain(lists) {
        let of_call = || rows.iter().zip(outcomes).filter(|(row, _)| row.call() == call);
        let compared: u64 = of_call().map(|(_, outcome)| outcome.compared).sum();
        let differing: u64 = of_call().map(|(_, outcome)| outcome.differences).sum();
        println!("{call:36} {compared:12} {differing:12}");
        comparisons += compared;
        differences += differing;
    }
    println!("{:36} {comparisons:12} {differences:12}", "sum");
    differences
}

fn put_again(rows: &[&dyn Places], row: usize, place: u64) -> ExitCode {
    let Some(row) = rows.get(row).filter(|row| place < row.places()) else {
        options::stop("there is no such row or place");
    };
    let put = row.put(place);
    if put.differences == 0 {
        println!("{}: no difference", row.told(place));
        return ExitCode::SUCCESS;
    }
    put.shown.iter().for_each(|text| println!("{text}"));
    ExitCode::FAILURE
}
