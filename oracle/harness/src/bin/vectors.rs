//! Writes the replay list: a sample of the original's answers, some hundreds for each call, from
//! the rows of the comparison. A line is the question's 64 bytes, a space and the answer's 32, in
//! hexadecimal. The same seed gives the same file. Options: `--seed N`, `--out PATH`.

use harness::days::{self, DAYS};
use harness::options::{self, DEFAULT_SEED};
use harness::original::{self, werktage_before, ENDS};
use harness::random::Random;
use harness::rows::{self, change_days, margins, Row};
use harness::run::hex;
use mako_fristen_host::{Answer, Call, Date, Question};
use std::collections::HashSet;
use std::fs;
use std::process::ExitCode;

const PER_CALENDAR_CALL: usize = 352;
const PER_OTHER_CALL: usize = 200;
/// More of each call that steps over Werktage or counts them, behind those that it always has.
const THROUGH_YEARS: usize = 10;
/// More of each call whose answers have a margin, behind these and those of note.
const BY_MARGIN: usize = 12;
/// Of each random row; how long a row is does not matter here.
const RANDOM: u64 = 1_000_000;

fn main() -> ExitCode {
    options::only(&["--seed", "--out"]);
    let seed = options::option("--seed", DEFAULT_SEED);
    let path = options::option("--out", String::from("vectors.txt"));
    let rows = [rows::rows, rows::through_years, margins::rows].map(|rows| rows(seed, RANDOM));
    let questions: Vec<Question> =
        Call::ALL.into_iter().flat_map(|call| sample(call, &rows, seed)).collect();
    let text = match questions.iter().map(line).collect::<Result<String, String>>() {
        Ok(text) => text,
        Err(told) => {
            eprintln!("{told}");
            return ExitCode::FAILURE;
        }
    };
    if let Err(error) = fs::write(&path, text) {
        eprintln!("{path}: {error}");
        return ExitCode::FAILURE;
    }
    println!("{} answers of {} calls in {path}", questions.len(), Call::ALL.len());
    ExitCode::SUCCESS
}

/// Different questions of the call: those that it always has, then some from its rows in turn; the
/// same through years, and by the margin.
fn sample(
    call: Call,
    [rows, through_years, by_margin]: &[Vec<Row>; 3],
    seed: u64,
) -> Vec<Question> {
    let wanted = if call.number() <= Call::SubtractMonths.number() {
        PER_CALENDAR_CALL
    } else {
        PER_OTHER_CALL
    };
    let random = |by: u64| Random::at(seed, call.number().into(), u64::MAX - by);
    let mut questions = always(call);
    draw(call, rows, wanted, &mut random(0), &mut questions);
    questions.extend(far(call));
    let wanted = questions.len() + THROUGH_YEARS;
    draw(call, through_years, wanted, &mut random(1), &mut questions);
    questions.extend(margins::of_note().into_iter().filter(|question| question.call == call));
    let wanted = questions.len() + BY_MARGIN;
    draw(call, by_margin, wanted, &mut random(2), &mut questions);
    questions
}

/// Draws from the rows of the call, if it has any, until there are so many questions.
fn draw(
    call: Call,
    rows: &[Row],
    wanted: usize,
    random: &mut Random,
    questions: &mut Vec<Question>,
) {
    let rows: Vec<&Row> = rows.iter().filter(|row| row.call == call).collect();
    let mut seen: HashSet<Question> = questions.iter().copied().collect();
    for row in rows.iter().cycle() {
        let probe = (row.probe)(random.number() % row.len);
        if probe.len == Answer::LEN && seen.insert(probe.question) {
            questions.push(probe.question);
        }
        if questions.len() == wanted {
            break;
        }
    }
}

/// For the day test, the ends of each set of days alike. So every reason is there, holidays on a
/// weekend, two holidays on one date, and both edges of the calendar. For a change day, those of note.
fn always(call: Call) -> Vec<Question> {
    match call {
        Call::IsWerktag => {
            ENDS.iter().map(|&index| Question::on(call, days::date(index))).collect()
        }
        Call::ContrlDueAtChange => change_days::of_note(),
        _ => Vec::new(),
    }
}

/// Steps by many Werktage, to the last Werktag and past it; counts over 1, 10, 100 and 900 years and
/// over all, and the one that tests the most days.
fn far(call: Call) -> Vec<Question> {
    let date = Date::new;
    let steps = |dates: [Date; 4], left: fn(u32) -> u32| {
        dates.into_iter().flat_map(move |date| {
            let left = left(days::index(days::given(date).expect("a date")));
            let counts = [250, 2_500, 200_000, left, left + 1, u32::MAX];
            counts.map(|n| Question::on(call, date).with_count(n))
        })
    };
    let to = |(from, to): (Date, Date)| Question::on(call, from).with_second(to);
    let years = |from: Date| {
        [1, 10, 100, 900].map(|years| (from, Date { year: from.year + years, ..from }))
    };
    match call {
        Call::AddWerktage => {
            let dates = [Date::FIRST, date(2000, 2, 29), date(2026, 4, 2), date(2026, 12, 31)];
            steps(dates, |index| werktage_before(DAYS) - werktage_before(index + 1)).collect()
        }
        Call::SubWerktage => {
            let dates = [Date::LAST, date(2896, 2, 29), date(2850, 4, 2), date(2850, 1, 1)];
            steps(dates, werktage_before).collect()
        }
        Call::WerktageBetween => {
            let dates = [Date::FIRST, date(1996, 3, 1), date(1997, 2, 28), date(1999, 12, 31)];
            let most = (date(2024, 12, 31), date(2028, 12, 31));
            let over_all = (Date::FIRST, Date::LAST);
            dates.into_iter().flat_map(years).chain([over_all, most]).map(to).collect()
        }
        _ => Vec::new(),
    }
}

fn line(question: &Question) -> Result<String, String> {
    let answer = original::expected(question).map_err(|panic| format!("{question}: {panic}"))?;
    Ok(format!("{} {answer:x}\n", hex(&question.to_bytes())))
}
