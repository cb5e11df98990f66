//! The margin of a verdict in calendar days, document 02's F-6: at the last permitted day of each shape
//! and around it, beside the shape's own steps, and in each call that judges. Expected values are
//! document 02's, or counted by a few lines of Python.

#[allow(dead_code)] // An instant is the beginning of a day here, or a clock on it.
mod zufall;

use mako_fristen_host::{
    add_werktage, berlin_at, fragen, sub_werktage, subtract_months, tagesbeginn_utc,
    AbmeldungVorlauf, Answer, Antwort, Call, Clock, Date, Eeg, Error, Frage, Judgement, Question,
    Reason, Refusal, Sparte, VorlaufShape, VorlaufVerdict,
};
use zufall::Random;
use VorlaufShape::{
    EarliestWerktageAfter, Korridor, LatestMonateBefore, LatestMonateUndWerktageBefore,
    LatestWerktageAfter, LatestWerktageBefore, TagVorDemLetztenWerktagVor, WindowWerktageBefore,
};

const ROUNDS: u32 = 5_000;

const fn january(day: u8) -> Date {
    Date::new(2026, 1, day)
}

const fn april(day: u8) -> Date {
    Date::new(2026, 4, day)
}

const fn window(earliest: u32, latest: u32) -> VorlaufShape {
    WindowWerktageBefore { earliest, latest }
}

const fn months_and_werktage(monate: u32, werktage: u32) -> VorlaufShape {
    LatestMonateUndWerktageBefore { monate, werktage }
}

fn days_from(from: Date, to: Date) -> i32 {
    let day = |date: Date| date.day_number().expect("a date");
    (day(to) - day(from)).try_into().expect("few days")
}

fn days_later(date: Date, days: i32) -> Date {
    let day = date.day_number().expect("a date") + i64::from(days);
    Date::of_day_number(day).expect("a date")
}

/// 0 in time, 1 too late, 2 too early: the kind of the answer.
fn kind(verdict: VorlaufVerdict) -> u8 {
    match verdict {
        VorlaufVerdict::Ok => 0,
        VorlaufVerdict::TooLate { .. } => 1,
        VorlaufVerdict::TooEarly { .. } => 2,
    }
}

/// The kind and the margin.
fn found(shape: VorlaufShape, day: Date, anchor: Date) -> (u8, i32) {
    let Judgement { verdict, margin } = shape.check(day, anchor).expect("no refusal");
    (kind(verdict), margin)
}

/// For Tuesday, 7 April, the day after Ostermontag. 2 April is the Thursday before Karfreitag, 7 March
/// a Saturday.
#[test]
fn around_the_last_permitted_day_of_each_shape() {
    let march = |day| Date::new(2026, 3, day);
    let rows = [
        (LatestWerktageBefore(0), april(7)),
        (LatestWerktageBefore(1), april(2)),
        (window(3, 1), april(2)),
        (window(0, 0), april(7)),
        (LatestWerktageAfter(0), april(7)),
        (LatestWerktageAfter(1), april(8)),
        (Korridor(2), april(9)),
        (TagVorDemLetztenWerktagVor, april(1)),
        (LatestMonateBefore(0), april(7)),
        (LatestMonateBefore(1), march(7)),
        (months_and_werktage(1, 0), march(7)),
        (months_and_werktage(1, 1), march(6)),
    ];
    for (shape, last) in rows {
        for days in -40..=40 {
            let (kind, margin) = found(shape, days_later(last, days), april(7));
            assert_eq!(margin, -days, "{shape:?}");
            assert_eq!(kind == 1, days > 0, "{shape:?} {days}");
        }
        assert_eq!(found(shape, last, april(7)), (0, 0), "{shape:?}");
    }
}

/// From 2 April the Werktage after it are 7, 8 and 9 April; under Ok as well.
#[test]
fn around_the_earliest_anchor() {
    for (n, first) in [(0, april(2)), (1, april(7)), (3, april(9))] {
        for days in -40..=40 {
            let kind = u8::from(days < 0);
            let anchor = days_later(first, days);
            assert_eq!(found(EarliestWerktageAfter(n), april(2), anchor), (kind, days), "{n}");
        }
    }
}

/// Case E: too late by the Saturday, and no Werktag is missing. F by a Werktag, G by the three days
/// from 28 to 31 January, H as E.
#[test]
fn the_cases_of_document_01() {
    let late = |shortfall_wt, earliest_possible, margin| {
        let verdict = VorlaufVerdict::TooLate { shortfall_wt, earliest_possible };
        Ok(Judgement { verdict, margin })
    };
    let february = Date::new(2026, 2, 28);
    let rows = [
        (LatestWerktageBefore(1), january(10), january(12), late(0, january(12), -1)),
        (TagVorDemLetztenWerktagVor, january(8), january(9), late(1, january(10), -1)),
        (LatestMonateBefore(1), january(31), february, late(2, february, -3)),
        (window(1, 1), january(10), january(12), late(0, january(12), -1)),
    ];
    for (shape, day, anchor, judgement) in rows {
        assert_eq!(shape.check(day, anchor), judgement, "{shape:?}");
    }
}

#[test]
fn too_early_has_the_days_to_the_last_permitted() {
    assert_eq!(found(window(5, 2), april(13), april(24)), (2, 9));
    assert_eq!(found(Korridor(2), april(21), april(24)), (2, 7));
    assert_eq!(found(Korridor(0), january(10), january(11)), (2, 1));
}

/// Before 12, 16 and 19 January the fifth Werktag is 2, 9 and 12 January.
#[test]
fn a_window_that_closes_before_it_opens_is_too_early_with_any_margin() {
    let margin = |anchor| found(window(0, 5), january(9), january(anchor));
    assert_eq!(margin(9), (1, -10));
    assert_eq!(margin(12), (2, -7));
    assert_eq!(margin(16), (2, 0));
    assert_eq!(margin(19), (2, 3));
}

#[test]
fn the_largest_margins_lie_between_the_edges_of_the_calendar() {
    let largest = Judgement::LARGEST_MARGIN as i32;
    assert_eq!(largest, 330_179);
    let shapes = [LatestWerktageBefore(0), LatestWerktageAfter(0), EarliestWerktageAfter(0)];
    for shape in shapes.into_iter().chain([LatestMonateBefore(0), months_and_werktage(0, 0)]) {
        assert_eq!(found(shape, Date::FIRST, Date::LAST), (0, largest), "{shape:?}");
        assert_eq!(found(shape, Date::LAST, Date::FIRST), (1, -largest), "{shape:?}");
    }
    assert_eq!(found(window(0, 0), Date::FIRST, Date::LAST), (2, largest));
    assert_eq!(found(Korridor(0), Date::LAST, Date::FIRST), (1, -largest));
}

/// The rule in its words.
fn by_steps(shape: VorlaufShape, day: Date, anchor: Date) -> Result<i32, Error> {
    let last = match shape {
        LatestWerktageBefore(n) | WindowWerktageBefore { latest: n, .. } => {
            sub_werktage(anchor, n)?
        }
        LatestWerktageAfter(n) | Korridor(n) => add_werktage(anchor, n)?,
        EarliestWerktageAfter(n) => return Ok(days_from(add_werktage(day, n)?, anchor)),
        TagVorDemLetztenWerktagVor => days_later(sub_werktage(anchor, 1)?, -1),
        LatestMonateBefore(n) => subtract_months(anchor, n)?,
        LatestMonateUndWerktageBefore { monate, werktage } => {
            sub_werktage(subtract_months(anchor, monate)?, werktage)?
        }
    };
    Ok(days_from(day, last))
}

fn closes_before_it_opens(shape: VorlaufShape) -> bool {
    matches!(shape, WindowWerktageBefore { earliest, latest } if earliest < latest)
}

impl Random {
    fn shape(&mut self) -> VorlaufShape {
        let (code, counts) = (self.below(8) as u8, (self.count(), self.count()));
        VorlaufShape::of_code(code, counts).expect("a known code")
    }

    /// A day and an anchor, mostly near it.
    fn days(&mut self) -> (Date, Date) {
        let day = self.date();
        let anchor = match self.below(2) {
            0 => self.date_near(day),
            _ => day.day_number().map_or(day, |_| days_later(day, self.below(240) as i32 - 120)),
        };
        (day, anchor)
    }
}

#[test]
fn each_margin_is_that_of_the_shapes_steps() {
    let mut random = Random(0x6d61_7267);
    let mut kinds = [0; 3];
    for _ in 0..ROUNDS {
        let (shape, (day, anchor)) = (random.shape(), random.days());
        let Ok(Judgement { verdict, margin }) = shape.check(day, anchor) else { continue };
        assert_eq!(by_steps(shape, day, anchor), Ok(margin), "{shape:?} {day} {anchor}");
        let kind = kind(verdict);
        let negative = margin < 0 && !(kind == 2 && closes_before_it_opens(shape));
        assert_eq!(kind == 1, negative, "{shape:?} {day} {anchor}");
        kinds[usize::from(kind)] += 1;
    }
    assert!(kinds.iter().all(|&judged| judged > ROUNDS / 20), "{kinds:?}");
}

/// With two instants in either Sparte, in a file, and of a deregistration.
#[test]
fn every_call_that_judges_has_the_same_margin() {
    let mut random = Random(0x7572_7465);
    let mut answered = 0;
    for _ in 0..ROUNDS {
        let (shape, (day, anchor)) = (random.shape(), random.days());
        let single = shape.check(day, anchor);
        let frage = Frage::Check { shape, uebertragungstag: day, anchor };
        assert_eq!(fragen(&[frage]), [single.map(Antwort::Verdict)], "{frage:?}");
        for (eeg, shape) in
            [(Eeg::No, TagVorDemLetztenWerktagVor), (Eeg::Yes, LatestMonateBefore(1))]
        {
            let deregistration = AbmeldungVorlauf::check(b"Z33", eeg, day, anchor);
            assert_eq!(deregistration, shape.check(day, anchor).map(Some), "{day} {anchor}");
        }
        for sparte in Sparte::ALL {
            let sent = berlin_at(day, random.clock());
            let begin = tagesbeginn_utc(anchor, sparte);
            let (Ok(sent), Ok(begin)) = (sent, begin) else { continue };
            assert_eq!(shape.check_at(sent, begin, sparte), single, "{frage:?} {sparte:?}");
            answered += u32::from(single.is_ok());
        }
    }
    assert!(answered > ROUNDS, "{answered} answered");
}

/// Refused by 2, 3, 4, 7 and 8, and a deregistration that has no shape.
#[test]
fn what_is_no_verdict_has_no_margin() {
    let check = |from, to| Question::on(Call::VorlaufCheck, from).with_second(to).with_count(1);
    let (saturday, monday) = (january(10), january(12));
    let at = berlin_at(saturday, Clock::default()).expect("a midnight");
    let check_at = Question::at(Call::VorlaufCheckAt, at).with_count(1);
    let zq7 = Question { call: Call::AbmeldungCheck, ..check(saturday, monday) };
    let rows = [
        (check(saturday, monday).with_code(8), Answer::refused(Refusal::UnknownCode)),
        (check(saturday, Date::new(2026, 2, 29)), Answer::refused(Refusal::NoDate)),
        (check_at, Answer::refused(Refusal::InstantOutside)),
        (
            check_at.with_second_instant(at).with_second_code(Sparte::Gas.code()),
            Answer::refused(Refusal::NoBeginning),
        ),
        (check(Date::FIRST, Date::FIRST), Answer::refused(Refusal::LeavesCalendar)),
        (zq7.with_reason(Reason::new(b"ZQ7").expect("short")), Answer::default().with_kind(3)),
        (zq7.with_code(Eeg::Unknown.code()), Answer::default().with_kind(3)),
    ];
    for (question, expected) in rows {
        let mut bytes = [0xa5; Answer::LEN];
        assert_eq!(question.ask(&mut bytes), expected.number(), "{question}");
        assert_eq!(Answer::from_bytes(bytes), expected, "{question}");
        assert_eq!(expected.margin(), 0);
    }
}
