//! Answers are read exactly: every number, every kind, every field that is not filled. The bytes are
//! made here, and no call is asked.

use mako_fristen_host::{
    AbmeldungVorlauf, Answer, Call, Date, DayReason, Error, Feiertag, GasDue, GasProzess, Instant,
    Judgement, Refusal, Span, Unreadable, VorlaufVerdict, WerktageBetween,
};
use std::ops::Range;

const DAY: Date = Date::new(2026, 4, 7);
const LAST_DAY: Date = Date::new(2026, 5, 12);
const INSTANT: Instant = Instant::new(1_775_080_799, 999_999_999);
const COUNT: u32 = 249;
/// From 31 December 2025 to 31 December 2026.
const DAYS_TESTED: u32 = 730;
/// More than a byte of it.
const MARGIN: i32 = 362;
const LARGEST_MARGIN: i32 = 330_179;

/// The fields of document 01 behind the kind, where the days that a count tested stand in the last,
/// and the margin of document 02.
const FIELDS: [Range<usize>; 5] = [4..8, 8..20, 20..24, 24..28, 28..32];

fn kind(kind: u8) -> Answer {
    Answer::default().with_kind(kind)
}

fn counted() -> Answer {
    Answer::default().with_count(COUNT)
}

fn dated() -> Answer {
    Answer::default().with_date(DAY)
}

fn too_late() -> Answer {
    counted().with_kind(1).with_date(DAY).with_margin(-MARGIN)
}

fn timed() -> Answer {
    Answer::default().with_instant(INSTANT)
}

/// One answer of each kind that the documents have for the call. No field that it fills is zero.
fn answers(call: Call) -> Vec<Answer> {
    let in_time = kind(0).with_margin(MARGIN);
    let too_early = counted().with_kind(2).with_margin(MARGIN);
    match call {
        Call::IsWerktag => (0..=22).map(kind).collect(),
        Call::NextWerktag
        | Call::AddWerktage
        | Call::SubWerktage
        | Call::AddMonths
        | Call::SubtractMonths
        | Call::BerlinDate
        | Call::TagDesBeginns => vec![dated()],
        Call::WerktageBetween => vec![counted().with_days_tested(DAYS_TESTED)],
        Call::BerlinAt
        | Call::BerlinMidnight
        | Call::EndOfDayBerlin
        | Call::TagesbeginnUtc
        | Call::ContrlDueAt
        | Call::ContrlDueAtChange
        | Call::AperakStromDueAt
        | Call::AperakStromAllgemeinDueAt
        | Call::AddHours
        | Call::DeadlineAtWerktage
        | Call::EndOfWerktagAfter
        | Call::NextWerktagAt
        | Call::NthWerktagAt
        | Call::FristDueAt => vec![timed()],
        Call::AperakGasFolgeprozessDueAt => vec![timed()],
        Call::AperakGasInitialprozessDueAt => vec![timed().with_kind(1)],
        Call::AperakGasDueAt => vec![timed(), timed().with_kind(1)],
        Call::VorlaufCheck | Call::VorlaufCheckAt => vec![in_time, too_late(), too_early],
        Call::AbmeldungCheck => vec![in_time, too_late(), too_early, kind(3)],
        Call::VorlaufSpan => {
            vec![dated(), dated().with_kind(1).with_last_date(LAST_DAY), kind(2)]
        }
        Call::AbmeldungFuer => (0..4).map(kind).collect(),
        Call::EogAnkuendigungFristgerecht => (0..3).map(kind).collect(),
    }
}

/// Each call with each of its answers.
fn all() -> impl Iterator<Item = (Call, Answer)> {
    Call::ALL.into_iter().flat_map(|call| answers(call).into_iter().map(move |a| (call, a)))
}

fn with_byte(answer: Answer, place: usize, byte: u8) -> Answer {
    let mut bytes = *answer.as_bytes();
    bytes[place] = byte;
    Answer::from_bytes(bytes)
}

fn assert_unreadable(call: Call, answer: Answer) {
    let number = answer.number();
    let unreadable = Err(Unreadable { call, number, answer }.into());
    assert_eq!(answer.checked(call), unreadable, "{call:?} {answer:x}");
}

#[test]
fn every_answer_of_document_01_is_read() {
    for (call, answer) in all() {
        assert_eq!(answer.checked(call), Ok(answer), "{call:?} {answer:x}");
    }
}

/// Whatever the fields are that are filled.
#[test]
fn a_kind_that_document_01_does_not_have_is_an_error() {
    for (call, answer) in all() {
        let kinds: Vec<u8> = answers(call).iter().map(Answer::kind).collect();
        for other in (0..=u8::MAX).filter(|kind| !kinds.contains(kind)) {
            assert_unreadable(call, answer.with_kind(other));
        }
    }
}

/// The kind of one answer with the fields of another, unless they differ in a count and a margin
/// alone: both may be 0.
#[test]
fn a_kind_with_the_fields_of_another_is_an_error() {
    for (call, answer) in all() {
        for other in answers(call) {
            let mixed = answer.with_kind(other.kind());
            if mixed.with_count(other.count()).with_margin(other.margin()) != other {
                assert_unreadable(call, mixed);
            }
        }
    }
}

#[test]
fn a_byte_that_is_not_filled_must_be_zero() {
    for (call, answer) in all() {
        let bytes = answer.as_bytes();
        let is_filled = |field: &Range<usize>| bytes[field.clone()].iter().any(|b| *b != 0);
        let filled: Vec<_> = FIELDS.iter().filter(|field| is_filled(field)).collect();
        for place in (2..Answer::LEN).filter(|at| !filled.iter().any(|f| f.contains(at))) {
            for byte in 1..=u8::MAX {
                assert_unreadable(call, with_byte(answer, place, byte));
            }
        }
    }
}

/// 2 and 3 are no field's.
#[test]
fn the_bytes_between_the_fields_are_always_zero() {
    for (call, answer) in all() {
        for place in [2, 3] {
            assert_unreadable(call, with_byte(answer, place, 1));
        }
    }
}

#[test]
fn a_date_of_an_answer_is_one_of_the_calendar() {
    let none = [
        Date::default(),
        Date::new(1995, 12, 31),
        Date::new(2900, 1, 1),
        Date::new(2026, 2, 29),
        Date::new(2100, 2, 29),
        Date::new(2026, 4, 31),
        Date::new(2026, 13, 1),
        Date::new(2026, 1, 0),
        Date::new(u16::MAX, u8::MAX, u8::MAX),
    ];
    for (call, answer) in all() {
        let (date, last) = (answer.date(), answer.last_date());
        for none in none {
            if date == DAY {
                assert_unreadable(call, answer.with_date(none));
            }
            if last == LAST_DAY {
                assert_unreadable(call, answer.with_last_date(none));
            }
        }
        for edge in [Date::FIRST, Date::LAST, Date::new(2024, 2, 29)] {
            // A span ends on its last day.
            let whole = answer.with_last_date(if last == LAST_DAY { Date::LAST } else { last });
            if date == DAY {
                assert!(whole.with_date(edge).checked(call).is_ok(), "{call:?} {edge}");
            }
        }
    }
}

#[test]
fn an_instant_of_an_answer_is_one_of_the_calendar() {
    let (first, last) = (Instant::FIRST, Instant::LAST);
    let outside = [
        Instant::default(),
        Instant::new(first.seconds - 1, 999_999_999),
        Instant::new(last.seconds + 1, 0),
        Instant::new(INSTANT.seconds, 1_000_000_000),
        Instant::new(-1, 0),
        Instant::new(i64::MAX, u32::MAX),
    ];
    for (call, answer) in all().filter(|(_, answer)| answer.instant() == INSTANT) {
        for outside in outside {
            assert_unreadable(call, answer.with_instant(outside));
        }
        for edge in [first, last] {
            assert!(answer.with_instant(edge).checked(call).is_ok(), "{call:?} {edge}");
        }
    }
}

/// An empty span has no days, and its kind is 2.
#[test]
fn a_span_does_not_end_before_it_begins() {
    let between = |first, last| dated().with_kind(1).with_date(first).with_last_date(last);
    let one_day = between(DAY, DAY).read(Call::VorlaufSpan);
    assert_eq!(one_day, Ok(Span::Between(DAY, DAY)));
    assert_unreadable(Call::VorlaufSpan, between(LAST_DAY, DAY));
}

/// At least those of two 1 January, at most two leap years, and none only where nothing is counted.
#[test]
fn the_days_tested_are_those_of_two_dates() {
    let counted = |werktage, days| Answer::default().with_count(werktage).with_days_tested(days);
    let readable = [(0, 0), (0, 2), (0, 3), (COUNT, 2), (COUNT, 189), (0, 731), (COUNT, 732)];
    for (werktage, days_tested) in readable {
        let between = counted(werktage, days_tested).read(Call::WerktageBetween);
        assert_eq!(between, Ok(WerktageBetween { werktage, days_tested }));
    }
    for days in [1, 733, 734, 1_000, 1 << 16, 1 << 24, u32::MAX] {
        assert_unreadable(Call::WerktageBetween, counted(0, days));
        assert_unreadable(Call::WerktageBetween, counted(COUNT, days));
    }
    for werktage in [1, COUNT, u32::MAX] {
        assert_unreadable(Call::WerktageBetween, counted(werktage, 0));
    }
}

/// Negative for TooLate, not so for Ok, either for TooEarly, within the calendar, and 0 for no shape.
#[test]
fn a_margin_is_one_that_its_verdict_can_have() {
    let beyond = [LARGEST_MARGIN + 1, -LARGEST_MARGIN - 1, i32::MAX, i32::MIN];
    let (before, after) = ([1, MARGIN, LARGEST_MARGIN], [-1, -MARGIN, -LARGEST_MARGIN]);
    for call in [Call::VorlaufCheck, Call::VorlaufCheckAt, Call::AbmeldungCheck] {
        for answer in answers(call) {
            for margin in [0].into_iter().chain(before).chain(after).chain(beyond) {
                let readable = match answer.kind() {
                    0 => margin == 0 || before.contains(&margin),
                    1 => after.contains(&margin),
                    2 => !beyond.contains(&margin),
                    _ => margin == 0,
                };
                let answer = answer.with_margin(margin);
                match readable {
                    true => assert_eq!(answer.checked(call), Ok(answer), "{call:?} {margin}"),
                    false => assert_unreadable(call, answer),
                }
            }
        }
    }
}

/// 2 to 8 with nothing behind them. A 1 and a 9 leave the slice as it was, so that they never stand
/// there, and a 10 is no single call's.
#[test]
fn a_number_is_a_refusal_of_document_01_or_an_error() {
    for call in Call::ALL {
        for number in 1..=u8::MAX {
            let answer = with_byte(Answer::default(), 0, number);
            match Refusal::ALL.into_iter().find(|refusal| refusal.number() == number) {
                Some(refusal) if (2..=8).contains(&number) => {
                    assert_eq!(answer, Answer::refused(refusal));
                    assert_eq!(answer.checked(call), Err(Error::Refused(refusal)));
                }
                _ => assert_unreadable(call, answer),
            }
            for place in 1..Answer::LEN {
                assert_unreadable(call, with_byte(answer, place, 1));
            }
        }
    }
}

/// What a call leaves in the 32 bytes that are lent to it, and what it returns.
fn left(bytes: [u8; Answer::LEN], number: u8) -> Result<Answer, Error> {
    Answer::of(Call::IsWerktag, |lent| {
        lent.copy_from_slice(&bytes);
        number
    })
}

#[test]
fn the_number_is_also_returned() {
    let (open, no_date) = (kind(1), Answer::refused(Refusal::NoDate));
    for number in 0..=u8::MAX {
        let unreadable = |answer| Unreadable { call: Call::IsWerktag, number, answer };
        let answered = if number == 0 { Ok(open) } else { Err(unreadable(open).into()) };
        assert_eq!(left(*open.as_bytes(), number), answered);
        let refused = match number {
            3 => Error::Refused(Refusal::NoDate),
            _ => unreadable(no_date).into(),
        };
        assert_eq!(left(*no_date.as_bytes(), number), Err(refused));
    }
}

/// Not for 0 either, nor for 1, which is no answer's: the 32 bytes that are lent are no answer.
#[test]
fn a_slice_that_is_left_untouched_is_no_answer() {
    for call in Call::ALL {
        for number in 0..=u8::MAX {
            let Err(Error::Unreadable(unreadable)) = Answer::of(call, |_| number) else {
                panic!("{call:?} {number}");
            };
            assert_eq!((unreadable.call, unreadable.number), (call, number));
        }
    }
}

#[test]
fn each_content_as_its_type() {
    let judged = |verdict, margin| Judgement { verdict, margin };
    let verdict = VorlaufVerdict::TooLate { shortfall_wt: COUNT, earliest_possible: DAY };
    let late = judged(verdict, -MARGIN);
    let initial = GasDue { kind: GasProzess::Initialprozess, due: INSTANT };
    assert_eq!(kind(0).read(Call::IsWerktag), Ok(DayReason::Werktag));
    assert_eq!(kind(1).read(Call::IsWerktag), Ok(DayReason::Samstag));
    assert_eq!(kind(2).read(Call::IsWerktag), Ok(DayReason::Sonntag));
    for (number, holiday) in (3..).zip(Feiertag::ALL) {
        assert_eq!(kind(number).read(Call::IsWerktag), Ok(DayReason::Feiertag(holiday)));
    }
    assert_eq!(dated().read(Call::AddWerktage), Ok(DAY));
    let between = WerktageBetween { werktage: COUNT, days_tested: DAYS_TESTED };
    assert_eq!(counted().with_days_tested(DAYS_TESTED).read(Call::WerktageBetween), Ok(between));
    assert_eq!(timed().read(Call::ContrlDueAt), Ok(INSTANT));
    assert_eq!(timed().with_kind(1).read(Call::AperakGasDueAt), Ok(initial));
    let in_time = judged(VorlaufVerdict::Ok, MARGIN);
    assert_eq!(kind(0).with_margin(MARGIN).read(Call::VorlaufCheck), Ok(in_time));
    assert_eq!(too_late().read(Call::VorlaufCheckAt), Ok(late));
    for margin in [MARGIN, -MARGIN] {
        let early = judged(VorlaufVerdict::TooEarly { excess_wt: COUNT }, margin);
        let answer = counted().with_kind(2).with_margin(margin);
        assert_eq!(answer.read(Call::VorlaufCheck), Ok(early));
    }
    assert_eq!(too_late().read(Call::AbmeldungCheck), Ok(Some(late)));
    assert_eq!(kind(3).read::<Option<Judgement>>(Call::AbmeldungCheck), Ok(None));
    assert_eq!(dated().read(Call::VorlaufSpan), Ok(Span::From(DAY)));
    assert_eq!(kind(2).read(Call::VorlaufSpan), Ok(Span::Empty));
    for (number, case) in (0..).zip(AbmeldungVorlauf::ALL) {
        assert_eq!(kind(number).read(Call::AbmeldungFuer), Ok(case));
    }
    for (number, in_time) in (0..).zip([Some(false), Some(true), None]) {
        assert_eq!(kind(number).read(Call::EogAnkuendigungFristgerecht), Ok(in_time));
    }
}

/// Their kinds are the same numbers, and mean something else.
#[test]
fn no_answer_is_read_as_another_type() {
    let unreadable = |call, answer| Error::from(Unreadable { call, number: 0, answer });
    let day_test = unreadable(Call::IsWerktag, kind(1));
    assert_eq!(kind(1).read::<Option<bool>>(Call::IsWerktag), Err(day_test));
    assert_eq!(kind(1).read::<AbmeldungVorlauf>(Call::IsWerktag), Err(day_test));
    let verdict = unreadable(Call::AbmeldungCheck, kind(0));
    assert_eq!(kind(0).read::<Judgement>(Call::AbmeldungCheck), Err(verdict));
}

#[test]
fn an_unreadable_answer_has_its_sentence() {
    let error = kind(23).read::<DayReason>(Call::IsWerktag).unwrap_err();
    assert_eq!(error.refusal(), None);
    let Error::Unreadable(unreadable) = error else { panic!("{error}") };
    let sentence = format!(
        "mf_is_werktag returned 0 and an answer that this host cannot read: 0017{}",
        "00".repeat(30)
    );
    assert_eq!(unreadable.to_string(), sentence);
    assert_eq!(error.to_string(), sentence);
    let boxed: Box<dyn std::error::Error + Send + Sync> = error.into();
    assert_eq!(boxed.to_string(), sentence);
}
