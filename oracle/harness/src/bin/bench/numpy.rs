//! numpy's `busday_count`, by a script for the Python of the system.

use harness::days::{self, DAYS};
use mako_fristen::HolidayCalendar::BdewMaKo;
use std::io::Write;
use std::process::{Command, Stdio};
use time::Weekday;

const PYTHON: &str = "/usr/bin/python3";
const SCRIPT: &str = include_str!("busday_count.py");
/// What the script ends with if there is no numpy.
const NO_NUMPY: i32 = 3;

/// What numpy needs for each portfolio, in nanoseconds of its best run, and its counts.
pub struct Numpy {
    pub version: String,
    pub holidays: usize,
    pub counted: Vec<(f64, Vec<u32>)>,
}

impl Numpy {
    /// Of portfolios of first and second days; none if there is no numpy, or no such Python.
    pub fn asked(portfolios: &[[&[u32]; 2]]) -> Option<Numpy> {
        let holidays = holidays();
        let told: String = portfolios.iter().flatten().map(|list| line(list)).collect();
        let told = line(&holidays) + &told;
        let mut python = Command::new(PYTHON);
        let python = python.args(["-B", "-c", SCRIPT]).stdin(Stdio::piped()).stdout(Stdio::piped());
        let mut python = python.spawn().ok()?;
        // A script that has ended already reads nothing: its status then says why.
        let _ = python.stdin.take().map(|mut stdin| stdin.write_all(told.as_bytes()));
        let output = python.wait_with_output().expect("the script's output");
        if output.status.code() == Some(NO_NUMPY) {
            return None;
        }
        assert!(output.status.success(), "the script of busday_count failed");
        Some(Numpy::read(&String::from_utf8_lossy(&output.stdout), holidays.len()))
    }

    fn read(told: &str, holidays: usize) -> Numpy {
        let (version, told) = told.split_once('\n').expect("numpy's version");
        let lines: Vec<&str> = told.lines().collect();
        let counted = lines.chunks_exact(2).map(|lines| {
            let counts = lines[1].split(' ').map(|count| count.parse().expect(lines[1]));
            (lines[0].parse().expect(lines[0]), counts.collect())
        });
        Numpy { version: version.to_owned(), holidays, counted: counted.collect() }
    }
}

fn line(list: &[u32]) -> String {
    let entries: Vec<String> = list.iter().map(u32::to_string).collect();
    entries.join(" ") + "\n"
}

/// The weekdays of the calendar that are no Werktage, by the original's day test.
fn holidays() -> Vec<u32> {
    let is_holiday = |&index: &u32| {
        let day = days::day(index);
        let weekend = matches!(day.weekday(), Weekday::Saturday | Weekday::Sunday);
        !weekend && !mako_fristen::is_werktag(day, BdewMaKo)
    };
    (0..DAYS).filter(is_holiday).map(days::number).collect()
}
