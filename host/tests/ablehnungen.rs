//! Refusals: which, in which order, and what they leave in the slice.

use mako_fristen_host::{
    Answer, Call, Clock, Date, Error, Instant, Parameter, Question, Reason, Refusal, VorlaufShape,
};

const GUARD: usize = 40;
const LONGEST: usize = 70;

/// No date of the range: (year, month, day).
const NO_DATES: [(u16, u8, u8); 20] = [
    (2026, 0, 1),
    (2026, 13, 1),
    (2026, 255, 1),
    (2026, 1, 0),
    (2026, 1, 32),
    (2026, 1, 255),
    (2026, 2, 29),
    (2024, 2, 30),
    (2100, 2, 29),
    (2200, 2, 29),
    (2026, 4, 31),
    (2026, 6, 31),
    (2026, 9, 31),
    (2026, 11, 31),
    (1995, 12, 31),
    (1995, 1, 1),
    (2900, 1, 1),
    (0, 0, 0),
    (0, 1, 1),
    (u16::MAX, u8::MAX, u8::MAX),
];

fn no_dates() -> impl Iterator<Item = Date> {
    NO_DATES.into_iter().map(|(year, month, day)| Date::new(year, month, day))
}

/// The call with something good in every place. The instants are 2 and 7 April 2026, 00:00 in
/// Berlin, which begin a day of Strom; the shape of an answer has a clock, that of a verdict two
/// counts.
fn ordinary(call: Call) -> Question {
    let window = VorlaufShape::WindowWerktageBefore { earliest: 1, latest: 1 };
    Question {
        call,
        code: if call.takes(Parameter::VorlaufShape) { window.code() } else { 0 },
        code2: 0,
        date: Date::new(2026, 4, 2),
        date2: Date::new(2026, 4, 7),
        n: 1,
        n2: 1,
        instant: Instant::new(1_775_080_800, 0),
        instant2: Instant::new(1_775_512_800, 0),
        clock: Clock::new(12, 0, 0, 0),
        reason: Reason::new(b"Z33").expect("three bytes"),
    }
}

/// The question with something refused in the place of the parameter. A pid and a reason are never
/// refused.
fn spoiled(question: Question, parameter: Parameter) -> Question {
    match parameter {
        Parameter::Date => Question { date: Date::new(2026, 2, 29), ..question },
        Parameter::SecondDate => question.with_second(Date::new(2900, 1, 1)),
        Parameter::Count | Parameter::Pid => question.with_count(u32::MAX),
        Parameter::SecondCount => question.with_second_count(u32::MAX),
        Parameter::Instant => Question { instant: Instant::new(i64::MIN, 0), ..question },
        Parameter::SecondInstant => question.with_second_instant(Instant::new(i64::MAX, 0)),
        Parameter::Clock => question.with_clock(Clock::new(24, 0, 0, 0)),
        Parameter::Reason => question.with_reason(Reason::default()),
        Parameter::SecondSparte => question.with_second_code(255),
        Parameter::Anlass
        | Parameter::Sparte
        | Parameter::Shape
        | Parameter::VorlaufShape
        | Parameter::Eeg => question.with_code(255),
    }
}

fn refusal_of(parameter: Parameter) -> Option<Refusal> {
    match parameter {
        Parameter::Anlass
        | Parameter::Sparte
        | Parameter::SecondSparte
        | Parameter::Shape
        | Parameter::VorlaufShape
        | Parameter::Eeg => Some(Refusal::UnknownCode),
        Parameter::Date | Parameter::SecondDate => Some(Refusal::NoDate),
        Parameter::Instant | Parameter::SecondInstant => Some(Refusal::InstantOutside),
        Parameter::Clock => Some(Refusal::NoClock),
        Parameter::Count | Parameter::SecondCount => Some(Refusal::LeavesCalendar),
        Parameter::Pid | Parameter::Reason => None,
    }
}

fn taking(parameter: Parameter) -> impl Iterator<Item = Call> {
    Call::ALL.into_iter().filter(move |call| call.takes(parameter))
}

fn refused(question: &Question) -> Option<Refusal> {
    match question.answer() {
        Ok(_) => None,
        Err(Error::Refused(refusal)) => Some(refusal),
        Err(Error::Unreadable(unreadable)) => panic!("{question}: {unreadable}"),
    }
}

/// Puts the question with a slice of `len` bytes inside a filled buffer, and returns the number and
/// the slice after it has seen that the bytes around are what they were.
fn watched(question: &Question, len: usize, fill: u8) -> (u8, Vec<u8>) {
    let mut buffer = vec![fill; GUARD + len + GUARD];
    let number = question.ask(&mut buffer[GUARD..GUARD + len]);
    let around = buffer[..GUARD].iter().chain(&buffer[GUARD + len..]);
    assert!(around.into_iter().all(|&byte| byte == fill), "{question}, {len} bytes: wrote beyond");
    (number, buffer[GUARD..GUARD + len].to_vec())
}

/// Every set of parameters is spoiled, and the lowest number is given.
#[test]
fn refusals_come_in_the_order_of_their_numbers() {
    for call in Call::ALL {
        let parameters = call.parameters();
        for set in 0..1 << parameters.len() {
            let chosen = || (0..).zip(parameters).filter(|(bit, _)| set >> bit & 1 == 1);
            let question = chosen().fold(ordinary(call), |question, (_, &p)| spoiled(question, p));
            let first = chosen().filter_map(|(_, &p)| refusal_of(p)).min_by_key(|r| r.number());
            assert_eq!(refused(&question), first, "{question}");
        }
    }
}

#[test]
fn refusal_2_from_one_past_the_last_code() {
    for call in Call::ALL {
        let Some(codes) = call.codes() else { continue };
        for code in 0..codes {
            let refusal = refused(&ordinary(call).with_code(code));
            assert_ne!(refusal, Some(Refusal::UnknownCode), "{call:?} {code}");
        }
        for code in codes..=u8::MAX {
            let question = ordinary(call).with_code(code);
            assert_eq!(refused(&question), Some(Refusal::UnknownCode), "{question}");
        }
    }
    let codes = [
        (Call::TagesbeginnUtc, 2),
        (Call::TagDesBeginns, 2),
        (Call::ContrlDueAt, 3),
        (Call::FristDueAt, 4),
        (Call::VorlaufCheck, 8),
        (Call::VorlaufCheckAt, 8),
        (Call::VorlaufSpan, 8),
        (Call::AbmeldungFuer, 3),
        (Call::AbmeldungCheck, 3),
        (Call::ContrlDueAtChange, 3),
    ];
    let knowing = |call: Call| Some((call, call.codes()?));
    assert_eq!(Call::ALL.into_iter().filter_map(knowing).collect::<Vec<_>>(), codes);
}

#[test]
fn refusal_2_for_the_sparte_beside_a_shape() {
    let question = ordinary(Call::VorlaufCheckAt);
    assert_eq!(refused(&question.with_second_code(0)), None);
    // The anchor begins a day of Strom and none of Gas.
    assert_eq!(refused(&question.with_second_code(1)), Some(Refusal::NoBeginning));
    for code in 2..=u8::MAX {
        let question = question.with_second_code(code);
        assert_eq!(refused(&question), Some(Refusal::UnknownCode), "{question}");
    }
}

#[test]
fn refusal_3_for_what_is_no_date() {
    for call in taking(Parameter::Date) {
        for date in no_dates() {
            let question = Question { date, ..ordinary(call) };
            assert_eq!(refused(&question), Some(Refusal::NoDate), "{question}");
        }
    }
}

#[test]
fn refusal_3_for_the_second_date() {
    for call in taking(Parameter::SecondDate) {
        for date in no_dates() {
            let question = ordinary(call).with_second(date);
            assert_eq!(refused(&question), Some(Refusal::NoDate), "{question}");
            let both = Question { date, ..question };
            assert_eq!(refused(&both), Some(Refusal::NoDate), "{both}");
        }
    }
}

/// One second and one nanosecond beyond either limit, and the ends of the numbers.
#[test]
fn refusal_4_outside_the_limits() {
    let (first, last) = (Instant::FIRST.seconds, Instant::LAST.seconds);
    let outside = [
        Instant::new(first - 1, 0),
        Instant::new(first - 1, 999_999_999),
        Instant::new(last + 1, 0),
        Instant::new(last + 1, 999_999_999),
        Instant::new(first, 1_000_000_000),
        Instant::new(last, 1_000_000_000),
        Instant::new(1_774_951_200, u32::MAX),
        Instant::new(-1, 0),
        Instant::new(0, 0),
        Instant::new(i64::MIN, 0),
        Instant::new(i64::MIN, u32::MAX),
        Instant::new(i64::MAX, 0),
        Instant::new(i64::MAX, u32::MAX),
    ];
    for call in taking(Parameter::Instant) {
        for instant in outside {
            let question = Question { instant, ..ordinary(call) };
            assert_eq!(refused(&question), Some(Refusal::InstantOutside), "{question}");
        }
        for instant in [Instant::FIRST, Instant::LAST] {
            let question = Question { instant, ..ordinary(call) };
            assert_ne!(refused(&question), Some(Refusal::InstantOutside), "{question}");
        }
    }
    let question = ordinary(Call::VorlaufCheckAt);
    for instant in outside {
        let question = question.with_second_instant(instant);
        assert_eq!(refused(&question), Some(Refusal::InstantOutside), "{question}");
    }
    assert_eq!(refused(&question.with_second_instant(Instant::LAST)), Some(Refusal::NoBeginning));
}

/// After the limits of both instants, before the calendar.
#[test]
fn refusal_7_of_a_verdict_stands_between_4_and_8() {
    let anchor = Instant::new(1_775_512_800, 1);
    let question = ordinary(Call::VorlaufCheckAt).with_second_instant(anchor);
    let far = question.with_count(u32::MAX);
    let outside = Instant::new(i64::MIN, 0);
    assert_eq!(refused(&question), Some(Refusal::NoBeginning));
    assert_eq!(refused(&far), Some(Refusal::NoBeginning));
    let outside = Question { instant: outside, ..far };
    assert_eq!(refused(&outside), Some(Refusal::InstantOutside));
    assert_eq!(refused(&outside.with_second_code(2)), Some(Refusal::UnknownCode));
}

/// Each number of the clock one past its last.
#[test]
fn refusal_5_for_what_is_no_clock() {
    let last = Clock::new(23, 59, 59, 999_999_999);
    let past = [
        Clock { hour: 24, ..last },
        Clock { minute: 60, ..last },
        Clock { second: 60, ..last },
        Clock { nanos: 1_000_000_000, ..last },
        Clock::new(255, 255, 255, u32::MAX),
    ];
    for call in taking(Parameter::Clock) {
        assert_eq!(refused(&ordinary(call).with_clock(last)), None, "{call:?}");
        for clock in past {
            let question = ordinary(call).with_clock(clock);
            assert_eq!(refused(&question), Some(Refusal::NoClock), "{question}");
        }
    }
}

/// `EndOfWerktag` and `SameDay` have no clock, `SameDayAt` and `SameDay` no count.
#[test]
fn what_a_shape_does_not_use_is_not_checked() {
    const END_OF_WERKTAG: u8 = 1;
    const SAME_DAY_AT: u8 = 2;
    const SAME_DAY: u8 = 3;
    let no_clock = Clock::new(255, 255, 255, u32::MAX);
    let question = ordinary(Call::FristDueAt);
    for code in [END_OF_WERKTAG, SAME_DAY] {
        let plain = question.with_code(code);
        assert!(plain.answer().is_ok());
        assert_eq!(plain.with_clock(no_clock).answer(), plain.answer(), "{code}");
    }
    for code in [SAME_DAY_AT, SAME_DAY] {
        let plain = question.with_code(code);
        assert!(plain.answer().is_ok());
        assert_eq!(plain.with_count(u32::MAX).answer(), plain.answer(), "{code}");
    }
    // 29 March 2026 lacks 02:30.
    let sunday = Question { instant: Instant::new(1_774_778_400, 0), ..question };
    let absent = sunday.with_clock(Clock::new(2, 30, 0, 0));
    assert_eq!(refused(&absent.with_code(SAME_DAY_AT)), Some(Refusal::LocalTimeAbsent));
    for code in [0, END_OF_WERKTAG, SAME_DAY] {
        assert_eq!(refused(&absent.with_code(code)), None, "{code}");
    }
}

/// The second count of a shape with one, and both of the shape with none.
#[test]
fn what_a_verdict_does_not_use_is_not_checked() {
    const TWO_COUNTS: [u8; 2] = [1, 7];
    const NO_COUNT: u8 = 5;
    for call in taking(Parameter::VorlaufShape) {
        for code in (0..VorlaufShape::CODES).filter(|code| !TWO_COUNTS.contains(code)) {
            let plain = ordinary(call).with_code(code).with_second_count(0);
            assert!(plain.answer().is_ok(), "{plain}");
            let other = plain.with_second_count(u32::MAX);
            assert_eq!(other.answer(), plain.answer(), "{other}");
            if code == NO_COUNT {
                assert_eq!(other.with_count(u32::MAX).answer(), plain.answer(), "{other}");
            }
        }
    }
}

/// A good question, one at the upper edge with the largest count, and one where all is refused.
fn three_questions(call: Call) -> [Question; 3] {
    let (date, date2, instant, n) = (Date::LAST, Date::LAST, Instant::LAST, u32::MAX);
    let instant2 = Instant::new(Instant::LAST.seconds - 86_399, 0);
    let edge = Question { date, date2, instant, instant2, n, ..ordinary(call) };
    let spoil = |question, &parameter| spoiled(question, parameter);
    let bad = call.parameters().iter().fold(ordinary(call), spoil);
    [ordinary(call), edge, bad]
}

#[test]
fn refusal_1_comes_first_and_leaves_the_slice_untouched() {
    for call in Call::ALL {
        for question in three_questions(call) {
            for len in (0..=LONGEST).filter(|&len| len != Answer::LEN) {
                for fill in [0x00, 0xa5, 0xff] {
                    let (number, slice) = watched(&question, len, fill);
                    assert_eq!(number, 1, "{question}, {len} bytes");
                    assert_eq!(slice, vec![fill; len], "{question}, {len} bytes");
                }
            }
        }
    }
}

/// The answer does not depend on what stood in the slice, and nothing beyond it is written.
#[test]
fn an_answer_of_32_bytes_fills_just_these() {
    for call in Call::ALL {
        for question in three_questions(call) {
            let (number, zero_filled) = watched(&question, Answer::LEN, 0x00);
            assert_eq!(number, zero_filled[0], "{question}");
            if number != 0 {
                assert_eq!(zero_filled[1..], [0; 31], "{question}");
            }
            assert_eq!(watched(&question, Answer::LEN, 0xff), (number, zero_filled), "{question}");
        }
    }
}

#[test]
fn every_number_has_its_sentence() {
    let words = [
        (1, "32 bytes"),
        (2, "code"),
        (3, "no date"),
        (4, "outside the Berlin days"),
        (5, "hour over 23"),
        (6, "absent in Berlin"),
        (7, "beginning of a day"),
        (8, "leaves the calendar"),
        (9, "multiple of 32"),
        (10, "over 4,096 entries"),
    ];
    assert_eq!(Refusal::ALL.len(), words.len());
    for ((number, word), refusal) in words.into_iter().zip(Refusal::ALL) {
        assert_eq!(refusal.number(), number);
        assert!(refusal.to_string().contains(word), "{number}: {refusal}");
        assert_eq!(Error::from(refusal).to_string(), refusal.to_string());
        assert!(refusal.beschreibung().ends_with('.'), "{number}: {}", refusal.beschreibung());
    }
}

#[test]
fn every_call_has_a_number_and_a_name_of_its_own() {
    for (number, call) in (0..).zip(Call::ALL) {
        assert_eq!(call.number(), number);
        assert!(call.name().starts_with("mf_"));
        assert_eq!(Call::ALL.iter().filter(|other| other.name() == call.name()).count(), 1);
    }
}
