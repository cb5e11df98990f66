//! Whether the archive that is linked answers as documents 01 and 02 have it.

use crate::portfolio::unreadable_count;
use crate::{
    ffi, Answer, Call, Clock, ContrlAnlass, Date, Eeg, Frage, FristShape, Instant, Question,
    Reason, Refusal, Unreadable, VorlaufShape, OUT_OF_RANGE,
};

/// For the start of a service: asks for an answer of every kind, and compares the 32 bytes with those
/// that documents 01 and 02 give; for those of a file too, with a question of every operation, and for
/// the counts and the answer of a portfolio.
///
/// That an answer can be read does not say that it still means the same. An archive from before F-2
/// of document 02, whose day test gives 1 for a Werktag and 0 for every other day, would be read the
/// wrong way round; here it is found, and so is one from before F-3, whose counts do not say how
/// many days they tested, and one from before F-6, whose verdicts have no margin. (One from before F-5
/// has no `mf_portfolio`, one from before F-7 no `mf_contrl_due_at_change`: no program is linked with
/// it.) It takes some microseconds.
///
/// ```
/// assert_eq!(mako_fristen_host::check_archive(), Ok(()));
/// ```
///
/// # Errors
///
/// The first answer that is another.
pub fn check_archive() -> Result<(), Unreadable> {
    checked(&day_tests())?;
    checked(&days())?;
    checked(&gas_due_instants())?;
    checked(&verdicts())?;
    checked(&spans())?;
    checked(&deregistrations())?;
    checked(&announcements())?;
    checked(&refusals())?;
    checked_file(&file())?;
    checked_portfolio(&PORTFOLIO, RUNS)?;
    checked_lists()
}

type Row = (Question, Answer);
type FileRow = (Frage, Answer);
/// Two days and the count.
type Pair = (u32, u32, u32);

fn checked(rows: &[Row]) -> Result<(), Unreadable> {
    for (question, expected) in rows {
        let mut bytes = [u8::MAX; Answer::LEN];
        let number = question.ask(&mut bytes);
        let answer = Answer::from_bytes(bytes);
        if number != expected.number() || answer != *expected {
            return Err(Unreadable { call: question.call, number, answer });
        }
    }
    Ok(())
}

/// All in one file.
fn checked_file<const N: usize>(rows: &[FileRow; N]) -> Result<(), Unreadable> {
    let records = rows.map(|(frage, _)| *frage.fragesatz().unwrap_or_default().as_bytes());
    let mut answers = [[u8::MAX; Answer::LEN]; N];
    let number = ffi::mf_questions(records.as_flattened(), answers.as_flattened_mut());
    for ((frage, expected), bytes) in rows.iter().zip(answers) {
        let answer = Answer::from_bytes(bytes);
        if number != 0 || answer != *expected {
            return Err(Unreadable { call: frage.call(), number, answer });
        }
    }
    Ok(())
}

/// All in one call.
fn checked_portfolio<const N: usize>(pairs: &[Pair; N], runs: u32) -> Result<(), Unreadable> {
    let (from, to) = (pairs.map(|(from, ..)| from), pairs.map(|(_, to, _)| to));
    let mut counts = pairs.map(|(.., count)| !count);
    checked_call(&from, &to, &mut counts, Answer::default().with_count(runs))?;
    let expected = pairs.iter().map(|(.., count)| *count);
    match counts.into_iter().zip(expected).find(|(count, expected)| count != expected) {
        Some((count, _)) => Err(unreadable_count(count)),
        None => Ok(()),
    }
}

/// Refusal 10, which leaves the third list as it was.
fn checked_lists() -> Result<(), Unreadable> {
    let mut counts = [7];
    checked_call(&[], &[], &mut counts, Answer::refused(Refusal::ListLength))?;
    match counts {
        [7] => Ok(()),
        [count] => Err(unreadable_count(count)),
    }
}

fn checked_call(
    from: &[u32],
    to: &[u32],
    counts: &mut [u32],
    expected: Answer,
) -> Result<(), Unreadable> {
    let mut bytes = [u8::MAX; Answer::LEN];
    let number = ffi::mf_portfolio(from, to, counts, &mut bytes);
    let answer = Answer::from_bytes(bytes);
    match number == expected.number() && answer == expected {
        true => Ok(()),
        false => Err(Unreadable { call: Call::WerktageBetween, number, answer }),
    }
}

/// A day of 2026.
const fn date(month: u8, day: u8) -> Date {
    Date::new(2026, month, day)
}

fn kind(kind: u8) -> Answer {
    Answer::default().with_kind(kind)
}

/// Every reason that a date has. 8 March 2026 is Frauentag too and 24 May Pfingstsonntag, but Sundays;
/// 1 May 2008 is also 19, Christi Himmelfahrt.
fn day_tests() -> [Row; 23] {
    let rows = [
        (date(4, 2), 0),
        (date(4, 4), 1),
        (date(3, 8), 2),
        (date(5, 24), 2),
        (date(1, 1), 3),
        (date(1, 6), 4),
        (Date::new(2024, 3, 8), 5),
        (Date::new(2008, 5, 1), 6),
        (Date::new(2025, 8, 15), 7),
        (Date::new(2024, 9, 20), 8),
        (Date::new(2025, 10, 3), 9),
        (Date::new(2025, 10, 31), 10),
        (Date::new(2024, 11, 1), 11),
        (date(12, 24), 12),
        (date(12, 25), 13),
        (Date::new(2025, 12, 26), 14),
        (date(12, 31), 15),
        (date(11, 18), 16),
        (date(4, 3), 17),
        (date(4, 6), 18),
        (date(5, 14), 19),
        (date(5, 25), 21),
        (date(6, 4), 22),
    ];
    rows.map(|(date, number)| (Question::on(Call::IsWerktag, date), kind(number)))
}

/// 2 April is the Thursday before Karfreitag, and the first Werktag after it is the 7th. They are the
/// 92nd and the 97th day of the year.
fn days() -> [Row; 3] {
    let on = |call| Question::on(call, date(4, 2));
    let midnight = Instant::new(1_775_080_800, 0);
    let counted = kind(0).with_count(1).with_days_tested(92 + 97);
    [
        (on(Call::AddWerktage).with_count(1), kind(0).with_date(date(4, 7))),
        (on(Call::WerktageBetween).with_second(date(4, 7)), counted),
        (on(Call::BerlinMidnight), kind(0).with_instant(midnight)),
    ]
}

/// Received on 31 March at 12:00 in Berlin: 1 April at 12:00, and the end of 7 April.
fn gas_due_instants() -> [Row; 2] {
    let of = |pid| {
        let received = Instant::new(1_774_951_200, 0);
        Question::at(Call::AperakGasDueAt, received).with_count(pid)
    };
    [
        (of(44_002), kind(0).with_instant(Instant::new(1_775_037_600, 0))),
        (of(44_001), kind(1).with_instant(Instant::new(1_775_599_199, 999_999_999))),
    ]
}

/// Case F; an anchor three days after 7 April, the first that 2 April allows; case E; a window that is
/// not open yet and closes on the anchor; what has no shape.
fn verdicts() -> [Row; 5] {
    let of =
        |shape, from, to| Question::on(Call::VorlaufCheck, from).with_second(to).with_shape(shape);
    let one_before = VorlaufShape::LatestWerktageBefore(1);
    let one_after = VorlaufShape::EarliestWerktageAfter(1);
    let window = VorlaufShape::WindowWerktageBefore { earliest: 1, latest: 0 };
    let day_before = VorlaufShape::TagVorDemLetztenWerktagVor;
    let (january_10, january_12) = (date(1, 10), date(1, 12));
    let too_late = kind(1).with_date(january_12).with_margin(-1);
    let unshaped = deregistration(Call::AbmeldungCheck, b"ZQ7", Eeg::No);
    [
        (of(day_before, date(1, 8), january_10), kind(0)),
        (of(one_after, date(4, 2), date(4, 10)), kind(0).with_margin(3)),
        (of(one_before, january_10, january_12), too_late),
        (of(window, date(1, 5), date(1, 14)), kind(2).with_count(5).with_margin(9)),
        (Question { date: january_10, ..unshaped }.with_second(january_12), kind(3)),
    ]
}

/// Cases E and H, and a corridor about 7 April.
fn spans() -> [Row; 3] {
    let of = |shape, from| Question::on(Call::VorlaufSpan, from).with_shape(shape);
    let one_before = VorlaufShape::LatestWerktageBefore(1);
    let window = VorlaufShape::WindowWerktageBefore { earliest: 1, latest: 1 };
    let corridor = kind(1).with_date(date(4, 1)).with_last_date(date(4, 9));
    [
        (of(one_before, date(1, 10)), kind(0).with_date(date(1, 13))),
        (of(VorlaufShape::Korridor(2), date(4, 7)), corridor),
        (of(window, date(1, 10)), kind(2)),
    ]
}

fn deregistration(call: Call, reason: &[u8], eeg: Eeg) -> Question {
    let reason = Reason::new(reason).unwrap_or_default();
    Question::new(call).with_reason(reason).with_code(eeg.code())
}

fn deregistrations() -> [Row; 4] {
    let of = |reason, eeg| deregistration(Call::AbmeldungFuer, reason, eeg);
    [
        (of(b"Z33", Eeg::No), kind(0)),
        (of(b"Z33", Eeg::Yes), kind(1)),
        (of(b"Z33", Eeg::Unknown), kind(2)),
        (of(b"ZQ7", Eeg::Yes), kind(3)),
    ]
}

/// Case M: 9 January at 13:00, a nanosecond later, and the midnight of the 12th.
fn announcements() -> [Row; 3] {
    let at = |seconds, nanos| Question {
        date: date(1, 12),
        ..Question::at(Call::EogAnkuendigungFristgerecht, Instant::new(seconds, nanos))
    };
    [
        (at(1_767_960_000, 1), kind(0)),
        (at(1_767_960_000, 0), kind(1)),
        (at(1_768_172_400, 0), kind(2)),
    ]
}

/// 2 to 8; 6 is case J.
fn refusals() -> [Row; 7] {
    let at =
        |hour| Question::on(Call::BerlinAt, date(3, 29)).with_clock(Clock::new(hour, 30, 0, 0));
    let noon = Instant::new(1_774_951_200, 0);
    let rows = [
        (Question::on(Call::TagesbeginnUtc, date(4, 2)).with_code(2), Refusal::UnknownCode),
        (Question::on(Call::IsWerktag, date(2, 29)), Refusal::NoDate),
        (Question::new(Call::BerlinDate), Refusal::InstantOutside),
        (at(24), Refusal::NoClock),
        (at(2), Refusal::LocalTimeAbsent),
        (Question::at(Call::TagDesBeginns, noon), Refusal::NoBeginning),
        (Question::on(Call::NextWerktag, Date::LAST), Refusal::LeavesCalendar),
    ];
    rows.map(|(question, refusal)| (question, Answer::refused(refusal)))
}

/// Cases I, L and E, and a clock that is none.
fn file() -> [FileRow; 5] {
    let at = |seconds| Instant::new(seconds, 0);
    let same_day_at = |hour| Frage::Frist {
        shape: FristShape::SameDayAt(Clock::new(hour, 0, 0, 0)),
        received: at(1_767_956_400),
    };
    let contrl = Frage::Contrl { received: at(1_774_951_199), anlass: ContrlAnlass::Regelfall };
    let shape = VorlaufShape::LatestWerktageBefore(1);
    let (uebertragungstag, anchor) = (date(1, 10), date(1, 12));
    let too_late = kind(1).with_date(anchor).with_margin(-1);
    [
        (contrl, kind(0).with_instant(at(1_774_972_799))),
        (same_day_at(12), kind(0).with_instant(at(1_768_215_600))),
        (same_day_at(24), Answer::refused(Refusal::NoClock)),
        (Frage::Check { shape, uebertragungstag, anchor }, too_late),
        (Frage::Span { shape, uebertragungstag }, kind(0).with_date(date(1, 13))),
    ]
}

/// From 2 to 7 April 2026 and back, twice with a day out of range behind it; ten years from 30 June
/// 2025; the calendar.
const PORTFOLIO: [Pair; 7] = [
    (20_545, 20_550, 1),
    (20_550, 20_545, 0),
    (Date::FIRST_DAY - 1, 20_550, OUT_OF_RANGE),
    (20_545, 20_550, 1),
    (20_545, Date::LAST_DAY + 1, OUT_OF_RANGE),
    (20_269, 23_921, 2_457),
    (Date::FIRST_DAY, Date::LAST_DAY, 222_031),
];

/// Of 2026, of 2026 again, of 2025 and of 1996.
const RUNS: u32 = 4;

#[cfg(test)]
mod tests {
    use super::*;
    use crate::{DayReason, Feiertag};

    /// All kinds but that of Pfingstsonntag, which no date has, and the refusals but 1, which no 32
    /// bytes hold; all operations.
    #[test]
    fn every_kind_and_every_refusal_is_asked_for() {
        let kinds = |rows: &[Row]| rows.iter().map(|(_, answer)| answer.kind()).collect::<Vec<_>>();
        let mut reasons = kinds(&day_tests());
        reasons.dedup();
        let given = |number: &u8| *number != Feiertag::Pfingstsonntag.number();
        let known = (0..=u8::MAX).filter(|number| DayReason::of_number(*number).is_some());
        assert_eq!(reasons, known.filter(given).collect::<Vec<_>>());
        assert_eq!(kinds(&days()), [0, 0, 0]);
        assert_eq!(kinds(&gas_due_instants()), [0, 1]);
        assert_eq!(kinds(&verdicts()), [0, 0, 1, 2, 3]);
        assert_eq!(kinds(&spans()), [0, 1, 2]);
        assert_eq!(kinds(&deregistrations()), [0, 1, 2, 3]);
        assert_eq!(kinds(&announcements()), [0, 1, 2]);
        assert_eq!(refusals().map(|(_, answer)| answer.number()), [2, 3, 4, 5, 6, 7, 8]);
        assert_eq!(file().map(|(frage, _)| frage.operation()), [0, 1, 1, 2, 3]);
        assert!(file().iter().all(|(frage, _)| frage.fragesatz().is_some()));
    }

    /// What an archive gives whose day test says yes or no, 1 or 0, is another answer in every row.
    #[test]
    fn an_answer_that_means_something_else_is_found() {
        for (question, reason) in day_tests() {
            let yes_or_no = kind(u8::from(reason.kind() == 0));
            let turned = checked(&[(question, yes_or_no)]);
            let found = Err(Unreadable { call: Call::IsWerktag, number: 0, answer: reason });
            assert_eq!(turned, found, "{question}");
        }
    }

    /// What an archive gives that walks from one date to the other.
    #[test]
    fn a_count_without_its_days_tested_is_found() {
        let [_, (question, counted), _] = days();
        let untold = checked(&[(question, counted.with_days_tested(0))]);
        let found = Unreadable { call: Call::WerktageBetween, number: 0, answer: counted };
        assert_eq!(untold, Err(found));
    }

    /// What an archive gives that leaves these bytes at zero.
    #[test]
    fn a_verdict_without_its_margin_is_found() {
        let [(on_the_last_day, zero), rows @ .., (unshaped, none)] = verdicts();
        assert_eq!(checked(&[(on_the_last_day, zero), (unshaped, none)]), Ok(()));
        for (question, answer) in rows {
            let untold = checked(&[(question, answer.with_margin(0))]);
            let found = Unreadable { call: Call::VorlaufCheck, number: 0, answer };
            assert_eq!(untold, Err(found), "{question}");
        }
    }

    #[test]
    fn an_answer_at_the_place_of_another_is_found() {
        let [contrl, (frist, due), ..] = file();
        let found = checked_file(&[contrl, (frist, contrl.1)]);
        assert_eq!(found, Err(Unreadable { call: Call::FristDueAt, number: 0, answer: due }));
    }

    #[test]
    fn a_count_or_a_number_of_runs_of_a_portfolio_that_is_another_is_found() {
        let one_more = PORTFOLIO.map(|(from, to, count)| (from, to, count.wrapping_add(1)));
        assert_eq!(checked_portfolio(&one_more, RUNS), Err(unreadable_count(1)));
        let [.., (from, to, _)] = PORTFOLIO;
        let other = checked_portfolio(&[PORTFOLIO[0], (from, to, 222_030)], 2);
        assert_eq!(other, Err(unreadable_count(222_031)));
        let answer = Answer::default().with_count(RUNS);
        let found = Unreadable { call: Call::WerktageBetween, number: 0, answer };
        assert_eq!(checked_portfolio(&PORTFOLIO, RUNS + 1), Err(found));
        assert_eq!(checked_portfolio(&PORTFOLIO, RUNS), Ok(()));
    }

    #[test]
    fn lists_that_are_answered_instead_of_refused_are_found() {
        let expected = Answer::refused(Refusal::ListLength);
        let found =
            Unreadable { call: Call::WerktageBetween, number: 0, answer: Answer::default() };
        assert_eq!(checked_call(&[], &[], &mut [], expected), Err(found));
    }
}
