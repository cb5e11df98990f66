//! How often each reason of the day test is given, over all dates of the calendar: as often as the
//! table of README.md says, which was counted apart from both sides.

mod replay;

use harness::days::{self, DAYS};
use harness::original;
use mako_fristen_host::{Answer, Call, Date, Question};
use replay::replayed;

/// Document 02's numbers, 0 to 22. Pfingstsonntag is one of them and is never given: it is a Sunday.
const REASONS: usize = 23;
const PFINGSTSONNTAG: usize = 20;

const HEAD: &str = "| reason | day | dates |\n|---|---|---|\n";

/// How many dates each reason has, from the table.
fn told() -> Vec<u32> {
    let (_, table) = include_str!("../../README.md").split_once(HEAD).expect("the table");
    let rows = table.lines().take_while(|line| line.starts_with("| "));
    let dates = |(number, row): (usize, &str)| {
        let cells: Vec<&str> = row.split('|').map(str::trim).collect();
        assert_eq!(cells[1], number.to_string(), "{row}");
        cells[3].replace(',', "").parse().expect(row)
    };
    rows.enumerate().map(dates).collect()
}

/// The same by the answers of one side, of which none is refused.
fn counted(answer: impl Fn(&Question) -> Answer) -> [u32; REASONS] {
    let mut counts = [0; REASONS];
    for index in 0..DAYS {
        let question = Question::on(Call::IsWerktag, days::date(index));
        let answer = answer(&question);
        assert_eq!(answer, Answer::default().with_kind(answer.kind()), "{question}");
        counts[usize::from(answer.kind())] += 1;
    }
    counts
}

fn host(question: &Question) -> Answer {
    let mut bytes = [u8::MAX; Answer::LEN];
    let number = question.ask(&mut bytes);
    assert_eq!(number, bytes[0], "{question}");
    Answer::from_bytes(bytes)
}

fn original(question: &Question) -> Answer {
    original::expected(question).expect("no unknown panic")
}

#[test]
fn each_reason_is_given_as_often_as_the_table_says() {
    let told = told();
    let never: Vec<usize> = (0..told.len()).filter(|&reason| told[reason] == 0).collect();
    assert_eq!((told.len(), never), (REASONS, vec![PFINGSTSONNTAG]));
    assert_eq!(told.iter().sum::<u32>(), DAYS);
    assert_eq!(counted(original).as_slice(), told, "the original");
    assert_eq!(counted(host).as_slice(), told, "the host call");
}

/// Document 02's own example, a holiday on either day of a weekend, and the days about each.
#[test]
fn a_weekend_goes_before_a_holiday_and_the_lower_number_before_the_higher() {
    let reasons = [
        (Date::new(2008, 4, 30), 0),
        (Date::new(2008, 5, 1), 6),
        (Date::new(2008, 5, 2), 0),
        (Date::new(2022, 1, 1), 1),
        (Date::new(2023, 1, 1), 2),
        (Date::new(2024, 1, 1), 3),
        (Date::new(2026, 5, 23), 1),
        (Date::new(2026, 5, 24), 2),
        (Date::new(2026, 5, 25), 21),
    ];
    for (date, reason) in reasons {
        let question = Question::on(Call::IsWerktag, date);
        assert_eq!(
            (original(&question).kind(), host(&question).kind()),
            (reason, reason),
            "{date}"
        );
    }
}

#[test]
fn the_replay_list_has_every_reason() {
    let mut given = [false; REASONS];
    for (_, answer) in replayed(Call::IsWerktag) {
        given[usize::from(answer.kind())] = true;
    }
    let missing = (0..REASONS).filter(|&reason| !given[reason]);
    assert_eq!(missing.collect::<Vec<_>>(), [PFINGSTSONNTAG]);
}
