//! The days that a count tests, by the words of document 02, F-3, on both sides.

mod replay;

use harness::original;
use mako_fristen_host::{Answer, Call, Date, Question};
use replay::replayed;
use std::array;
use std::collections::BTreeSet;

fn question(from: Date, to: Date) -> Question {
    Question::on(Call::WerktageBetween, from).with_second(to)
}

/// The count and the days tested, of an answer that has nothing else.
fn told(answer: [u8; Answer::LEN], question: &Question) -> (u32, u32) {
    let number = |at: usize| u32::from_le_bytes(array::from_fn(|byte| answer[at + byte]));
    let other = answer.iter().enumerate().filter(|(at, _)| !matches!(at, 4..8 | 24..28));
    assert!(other.into_iter().all(|(_, &byte)| byte == 0), "{question}: {answer:?}");
    (number(4), number(24))
}

fn host(question: &Question) -> (u32, u32) {
    let mut answer = [u8::MAX; Answer::LEN];
    assert_eq!(question.ask(&mut answer), 0, "{question}");
    told(answer, question)
}

fn original(question: &Question) -> (u32, u32) {
    let answer = original::expected_by_list(question).expect("no unknown panic");
    told(*answer.as_bytes(), question)
}

/// The counts were counted apart from both sides, with Python's `datetime`.
#[test]
fn each_date_has_the_days_from_1_january_on() {
    let date = Date::new;
    for (from, to, count, tested) in [
        (date(2026, 4, 2), date(2026, 4, 7), 1, 92 + 97),
        (date(2026, 1, 1), date(2026, 1, 2), 1, 1 + 2),
        (date(2026, 2, 28), date(2026, 3, 1), 0, 59 + 60),
        (date(2024, 2, 28), date(2024, 2, 29), 1, 59 + 60),
        (date(2024, 2, 29), date(2024, 3, 1), 1, 60 + 61),
        (date(2025, 12, 31), date(2026, 1, 1), 0, 365 + 1),
        (Date::FIRST, date(1997, 1, 1), 244, 1 + 1),
        (Date::FIRST, date(2006, 1, 1), 2_456, 1 + 1),
        (Date::FIRST, date(2096, 1, 1), 24_565, 1 + 1),
        (Date::FIRST, date(2896, 1, 1), 221_051, 1 + 1),
        (date(1999, 12, 31), date(2899, 12, 31), 221_045, 365 + 365),
        (date(2024, 12, 31), date(2028, 12, 31), 986, 366 + 366),
        (Date::FIRST, Date::LAST, 222_031, 1 + 365),
        (date(2026, 4, 7), date(2026, 4, 7), 0, 0),
        (date(2026, 4, 7), date(2026, 4, 2), 0, 0),
        (Date::LAST, Date::FIRST, 0, 0),
    ] {
        let question = question(from, to);
        let expected = (count, tested);
        assert_eq!([original(&question), host(&question)], [expected; 2], "{question}");
    }
}

/// Every 31 December to the one four years later. The most is where both years are leap years: of
/// the 226 multiples of 4 from 1996 to 2896 six are none, so of the 225 pairs 213 are left.
#[test]
fn it_is_never_over_732() {
    let mut most = 0;
    for year in 1996..=2895 {
        let question = question(Date::new(year, 12, 31), Date::new(year + 4, 12, 31));
        let (expected, told) = (original(&question), host(&question));
        assert_eq!(expected, told, "{question}");
        assert!((730..=732).contains(&told.1), "{question}: {told:?}");
        most += u32::from(told.1 == 732);
    }
    assert_eq!(most, 213);
}

#[test]
fn the_replay_list_goes_through_years() {
    let counts = replayed(Call::WerktageBetween).into_iter();
    let years = |(Question { date, date2, .. }, answer): (Question, Answer)| {
        (answer.number() == 0 && answer.count() > 0).then(|| date2.year - date.year)
    };
    let years: BTreeSet<u16> = counts.filter_map(years).collect();
    assert!([0, 1, 10, 100, 900].iter().all(|distance| years.contains(distance)), "{years:?}");
    for call in [Call::AddWerktage, Call::SubWerktage] {
        let steps = replayed(call);
        let has = |n: u32, number: u8| {
            steps.iter().any(|(question, answer)| question.n == n && answer.number() == number)
        };
        assert!([250, 2_500, 200_000].into_iter().all(|n| has(n, 0)) && has(u32::MAX, 8));
        let last = steps.iter().filter(|(question, answer)| {
            let more = question.with_count(question.n.saturating_add(1));
            let more = original::expected_by_list(&more).expect("no unknown panic");
            question.n > 200_000 && answer.number() == 0 && more.number() == 8
        });
        assert!(last.count() > 2, "{}: steps to the last Werktag", call.name());
    }
}
