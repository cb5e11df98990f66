//! The 32 bytes: one answer of each kind written out, and the fields as they are read.

use mako_fristen_host::{ffi, Answer, Call, Clock, Date, Instant, Question, Reason, Refusal};

/// The answer of a call to a slice that was not zero before.
fn bytes_of(call: impl Fn(&mut [u8]) -> u8) -> [u8; 32] {
    let mut answer = [0xa5; 32];
    let number = call(&mut answer);
    assert_eq!(number, answer[0], "the number is also returned");
    answer
}

/// The byte 1 alone: a Werktag, Saturday, Sunday, Karfreitag.
#[test]
fn a_day_test() {
    for (day, kind) in [(2, 0), (3, 17), (4, 1), (5, 2)] {
        let mut expected = [0; 32];
        expected[1] = kind;
        assert_eq!(bytes_of(|a| ffi::mf_is_werktag(2026, 4, day, a)), expected);
    }
}

/// 7 April 2026: 2026 is 0x07ea.
#[test]
fn a_step() {
    #[rustfmt::skip]
    let seventh_of_april = [
        0, 0, 0, 0,  0, 0, 0, 0,  0, 0, 0, 0, 0, 0, 0, 0,
        0, 0, 0, 0,  0xea, 0x07, 4, 7,  0, 0, 0, 0,  0, 0, 0, 0,
    ];
    assert_eq!(bytes_of(|a| ffi::mf_add_werktage(2026, 4, 2, 1, a)), seventh_of_april);
    assert_eq!(bytes_of(|a| ffi::mf_sub_werktage(2026, 4, 8, 1, a)), seventh_of_april);
    assert_eq!(bytes_of(|a| ffi::mf_next_werktag(2026, 4, 3, a)), seventh_of_april);
    assert_eq!(bytes_of(|a| ffi::mf_add_months(2026, 3, 7, 1, a)), seventh_of_april);
    assert_eq!(bytes_of(|a| ffi::mf_subtract_months(2026, 5, 7, 1, a)), seventh_of_april);
}

/// The Werktage of the whole calendar, 222,031, are 0x00_03_63_4f; 1 and 365 days are tested for them,
/// which are 0x01_6e.
#[test]
fn a_count() {
    #[rustfmt::skip]
    let all_werktage = [
        0, 0, 0, 0,  0x4f, 0x63, 0x03, 0x00,  0, 0, 0, 0, 0, 0, 0, 0,
        0, 0, 0, 0,  0, 0, 0, 0,  0x6e, 0x01, 0, 0,  0, 0, 0, 0,
    ];
    let whole = |a: &mut [u8]| ffi::mf_werktage_between(1996, 1, 1, 2899, 12, 31, a);
    assert_eq!(bytes_of(whole), all_werktage);
}

/// 31 December 2024 is the 366th day of its year, 2 April 2026 the 92nd.
#[test]
fn the_days_that_a_count_tested() {
    let counted = |werktage: u16, days_tested: u16| {
        let mut bytes = [0; 32];
        bytes[4..6].copy_from_slice(&werktage.to_le_bytes());
        bytes[24..26].copy_from_slice(&days_tested.to_le_bytes());
        bytes
    };
    let from_leap_year = |year: u16, month: u8, day: u8| {
        bytes_of(|a| ffi::mf_werktage_between(2024, 12, 31, year, month, day, a))
    };
    assert_eq!(from_leap_year(2024, 12, 30), [0; 32]);
    assert_eq!(from_leap_year(2024, 12, 31), [0; 32]);
    assert_eq!(from_leap_year(2025, 1, 1), counted(0, 367));
    assert_eq!(from_leap_year(2025, 1, 2), counted(1, 368));
    assert_eq!(from_leap_year(2027, 12, 31), counted(742, 731));
    assert_eq!(from_leap_year(2028, 12, 31), counted(986, 732));
    let from_thursday =
        |day: u8| bytes_of(|a| ffi::mf_werktage_between(2026, 4, 2, 2026, 4, day, a));
    assert_eq!(from_thursday(1), [0; 32]);
    assert_eq!(from_thursday(2), [0; 32]);
    assert_eq!(from_thursday(3), counted(0, 185));
    assert_eq!(from_thursday(7), counted(1, 189));
}

/// 300 runs are 0x01_2c: each pair begins in another year than the one before it.
#[test]
fn a_portfolio() {
    #[rustfmt::skip]
    let expected = [
        0, 0, 0, 0,  0x2c, 0x01, 0, 0,  0, 0, 0, 0, 0, 0, 0, 0,
        0, 0, 0, 0,  0, 0, 0, 0,  0, 0, 0, 0,  0, 0, 0, 0,
    ];
    // From 23 December 2025 to 7 January 2026, and from 2 to 7 April 2026.
    let from: [u32; 300] = std::array::from_fn(|i| if i % 2 == 0 { 20_445 } else { 20_545 });
    let to = from.map(|day| if day == 20_445 { 20_460 } else { 20_550 });
    let mut counts = [7; 300];
    let mut answer = [7; 32];
    assert_eq!(ffi::mf_portfolio(&from, &to, &mut counts, &mut answer), 0);
    assert_eq!(answer, expected);
    assert_eq!(counts, std::array::from_fn(|i| if i % 2 == 0 { 5 } else { 1 }));
    let mut refused = [0; 32];
    refused[0] = 10;
    assert_eq!(bytes_of(|a| ffi::mf_portfolio(&from, &from[1..], &mut [7; 300], a)), refused);
    assert_eq!(bytes_of(|a| ffi::mf_portfolio(&[], &[], &mut [], a)), [0; 32]);
}

/// 2026-04-01T22:00:00Z is 1,775,080,800 seconds, 0x69cd_9560.
#[test]
fn an_instant() {
    #[rustfmt::skip]
    let second_of_april = [
        0, 0, 0, 0,  0, 0, 0, 0,  0x60, 0x95, 0xcd, 0x69, 0, 0, 0, 0,
        0, 0, 0, 0,  0, 0, 0, 0,  0, 0, 0, 0,  0, 0, 0, 0,
    ];
    let received = 1_775_080_800 - 36 * 3600;
    assert_eq!(bytes_of(|a| ffi::mf_berlin_midnight(2026, 4, 2, a)), second_of_april);
    assert_eq!(bytes_of(|a| ffi::mf_berlin_at(2026, 4, 2, 0, 0, 0, 0, a)), second_of_april);
    assert_eq!(bytes_of(|a| ffi::mf_tagesbeginn_utc(2026, 4, 2, 0, a)), second_of_april);
    assert_eq!(bytes_of(|a| ffi::mf_contrl_due_at(received, 5, 0, a)), second_of_april);
    assert_eq!(bytes_of(|a| ffi::mf_add_hours(received, 0, 36, a)), second_of_april);
    let mut end = second_of_april;
    end[8..12].copy_from_slice(&[0x5f, 0x95, 0xcd, 0x69]);
    end[16..20].copy_from_slice(&[0xff, 0xc9, 0x9a, 0x3b]);
    assert_eq!(bytes_of(|a| ffi::mf_end_of_day_berlin(2026, 4, 1, a)), end);
    assert_eq!(bytes_of(|a| ffi::mf_deadline_at_werktage(received, 5, 1, a)), end);
    assert_eq!(bytes_of(|a| ffi::mf_frist_due_at(1, 1, 9, 9, 9, 9, received, 5, a)), end);
}

/// The byte 1 of a Gas due instant tells the initial process from the follow-up.
#[test]
fn a_gas_due_instant() {
    // 31 March 2026 at noon in Berlin; the next Werktag's noon, and the end of the third, 7 April.
    let received = 1_774_951_200;
    let follow_up = bytes_of(|a| ffi::mf_aperak_gas_folgeprozess_due_at(received, 0, a));
    assert_eq!(follow_up[..16], [0, 0, 0, 0, 0, 0, 0, 0, 0xa0, 0xec, 0xcc, 0x69, 0, 0, 0, 0]);
    assert_eq!(bytes_of(|a| ffi::mf_aperak_gas_due_at(44_002, received, 0, a)), follow_up);
    let initial = bytes_of(|a| ffi::mf_aperak_gas_initialprozess_due_at(received, 0, a));
    assert_eq!(initial[..8], [0, 1, 0, 0, 0, 0, 0, 0]);
    assert_eq!(initial[16..20], [0xff, 0xc9, 0x9a, 0x3b]);
    assert_eq!(initial[20..], [0; 12]);
    assert_eq!(bytes_of(|a| ffi::mf_aperak_gas_due_at(44_001, received, 0, a)), initial);
}

/// 2 April 2026.
#[test]
fn a_day_of_an_instant() {
    let mut day = [0; 32];
    day[20..24].copy_from_slice(&[0xea, 0x07, 4, 2]);
    assert_eq!(bytes_of(|a| ffi::mf_berlin_date(1_775_080_800, 999_999_999, a)), day);
    assert_eq!(bytes_of(|a| ffi::mf_tag_des_beginns(1_775_080_800, 0, 0, a)), day);
    assert_eq!(bytes_of(|a| ffi::mf_tag_des_beginns(1_775_102_400, 0, 1, a)), day);
}

/// Kind, count, date and margin, by which a Monday is 3 days after the Friday, a Sunday a day before
/// its Monday, and 5 January 9 days before the 14th.
#[test]
fn a_verdict() {
    #[rustfmt::skip]
    let too_late = [
        0, 1, 0, 0,  1, 0, 0, 0,  0, 0, 0, 0, 0, 0, 0, 0,
        0, 0, 0, 0,  0xea, 0x07, 1, 13,  0, 0, 0, 0,  0xfd, 0xff, 0xff, 0xff,
    ];
    let (sunday, monday) = (1_768_172_400 - 86_400, 1_768_172_400);
    assert_eq!(bytes_of(|a| ffi::mf_vorlauf_check(0, 1, 9, 2026, 1, 12, 2026, 1, 12, a)), too_late);
    let at = |a: &mut [u8]| ffi::mf_vorlauf_check_at(0, 1, 9, monday + 3, 5, monday, 0, 0, a);
    assert_eq!(bytes_of(at), too_late);
    let ok = |a: &mut [u8]| ffi::mf_vorlauf_check_at(0, 0, 9, sunday, 5, monday, 0, 0, a);
    let mut in_time = [0; 32];
    in_time[28] = 1;
    assert_eq!(bytes_of(ok), in_time);
    let mut too_early = [0; 32];
    (too_early[1], too_early[4], too_early[28]) = (2, 5, 9);
    let early = |a: &mut [u8]| ffi::mf_vorlauf_check(1, 1, 0, 2026, 1, 5, 2026, 1, 14, a);
    assert_eq!(bytes_of(early), too_early);
}

/// From 6 to 12 January; from 6 January on; empty.
#[test]
fn a_span() {
    #[rustfmt::skip]
    let mut span = [
        0, 1, 0, 0,  0, 0, 0, 0,  0, 0, 0, 0, 0, 0, 0, 0,
        0, 0, 0, 0,  0xea, 0x07, 1, 6,  0xea, 0x07, 1, 12,  0, 0, 0, 0,
    ];
    assert_eq!(bytes_of(|a| ffi::mf_vorlauf_span(1, 8, 5, 2025, 12, 23, a)), span);
    span[1] = 0;
    span[24..28].fill(0);
    assert_eq!(bytes_of(|a| ffi::mf_vorlauf_span(0, 5, 8, 2025, 12, 23, a)), span);
    let mut empty = [0; 32];
    empty[1] = 2;
    assert_eq!(bytes_of(|a| ffi::mf_vorlauf_span(1, 1, 1, 2026, 1, 10, a)), empty);
}

/// The byte 1 has the case, and 3 where a verdict has no shape. Before 8 February the last Werktag is
/// the 6th, and the day before it 28 days after 8 January.
#[test]
fn a_deregistration() {
    let kind = |kind| std::array::from_fn(|place| if place == 1 { kind } else { 0 });
    for (reason, eeg, case) in [(b"Z33", 0, 0), (b"Z33", 1, 1), (b"Z33", 2, 2), (b"ZQ7", 1, 3)] {
        assert_eq!(bytes_of(|a| ffi::mf_abmeldung_fuer(reason, eeg, a)), kind(case));
    }
    let check = |reason: &[u8], eeg| {
        bytes_of(|a| ffi::mf_abmeldung_check(reason, eeg, 2026, 1, 8, 2026, 2, 8, a))
    };
    let mut in_time = [0; 32];
    in_time[28] = 28;
    assert_eq!(check(b"Z33", 0), in_time);
    assert_eq!(check(b"Z33", 1), [0; 32]);
    assert_eq!(check(b"Z33", 2), kind(3));
    assert_eq!(check(b"ZQ7", 0), kind(3));
}

/// The byte 1 alone: no, yes, neither.
#[test]
fn an_announcement() {
    // 9 January 2026, 13:00 in Berlin, and the midnight of the 12th.
    let (one, midnight) = (1_767_960_000, 1_768_172_400);
    for (seconds, nanos, kind) in [(one, 1, 0), (one, 0, 1), (midnight, 0, 2)] {
        let mut expected = [0; 32];
        expected[1] = kind;
        let call =
            |a: &mut [u8]| ffi::mf_eog_ankuendigung_fristgerecht(seconds, nanos, 2026, 1, 12, a);
        assert_eq!(bytes_of(call), expected);
    }
}

#[test]
fn a_refusal_leaves_the_rest_zero() {
    let mut refused = [0; 32];
    refused[0] = 3;
    assert_eq!(bytes_of(|a| ffi::mf_is_werktag(2026, 2, 29, a)), refused);
    assert_eq!(bytes_of(|a| ffi::mf_werktage_between(2026, 2, 29, 2026, 4, 7, a)), refused);
    assert_eq!(bytes_of(|a| ffi::mf_werktage_between(2026, 4, 2, 2900, 1, 1, a)), refused);
    refused[0] = 8;
    assert_eq!(bytes_of(|a| ffi::mf_add_werktage(2899, 12, 31, 1, a)), refused);
    assert_eq!(bytes_of(|a| ffi::mf_add_werktage(2026, 4, 2, u32::MAX, a)), refused);
    assert_eq!(bytes_of(|a| ffi::mf_sub_werktage(2026, 4, 2, u32::MAX, a)), refused);
}

/// Bytes that count up tell each field and its byte order apart.
#[test]
fn the_fields_of_an_answer() {
    let answer = Answer::from_bytes(std::array::from_fn(|i| i as u8));
    assert_eq!(answer.number(), 0);
    assert_eq!(answer.kind(), 1);
    assert_eq!(answer.count(), 0x0706_0504);
    assert_eq!(answer.instant(), Instant::new(0x0f0e_0d0c_0b0a_0908, 0x1312_1110));
    assert_eq!(answer.date(), Date::new(0x1514, 0x16, 0x17));
    assert_eq!(answer.last_date(), Date::new(0x1918, 0x1a, 0x1b));
    assert_eq!(answer.days_tested(), 0x1b1a_1918);
    assert_eq!(answer.margin(), 0x1f1e_1d1c);
}

#[test]
fn seconds_and_a_margin_are_signed() {
    let mut bytes = [0; 32];
    bytes[8..16].fill(0xff);
    bytes[28..].fill(0xff);
    let answer = Answer::from_bytes(bytes);
    assert_eq!((answer.instant().seconds, answer.margin()), (-1, -1));
}

#[test]
fn what_is_put_into_an_answer_is_read_from_it() {
    let (date, last) = (Date::new(2026, 4, 7), Date::new(2899, 12, 31));
    let instant = Instant::new(-5, 999_999_999);
    let answer = Answer::default()
        .with_kind(2)
        .with_count(u32::MAX)
        .with_instant(instant)
        .with_date(date)
        .with_last_date(last);
    assert_eq!((answer.kind(), answer.count()), (2, u32::MAX));
    assert_eq!((answer.instant(), answer.date(), answer.last_date()), (instant, date, last));
    assert_eq!(answer.with_days_tested(732).days_tested(), 732);
    assert_eq!(answer.with_days_tested(732).with_last_date(last), answer, "the same bytes");
    for margin in [0, 1, -1, 330_179, -330_179, i32::MAX, i32::MIN] {
        assert_eq!(answer.with_margin(margin).margin(), margin);
        assert_eq!(answer.with_margin(margin).with_margin(0), answer, "no other bytes");
    }
    assert_eq!(Answer::refused(Refusal::LeavesCalendar).number(), 8);
}

/// Byte for byte as the replay list has it.
#[test]
fn the_bytes_of_a_question() {
    let question = Question::on(Call::WerktageBetween, Date::new(1996, 1, 2))
        .with_second(Date::new(2899, 12, 31))
        .with_count(0x0403_0201);
    #[rustfmt::skip]
    let bytes = [
        4, 0, 0, 0,  0xcc, 0x07, 1, 2,  0x53, 0x0b, 12, 31,  1, 2, 3, 4,
        0, 0, 0, 0,  0, 0, 0, 0,  0, 0, 0, 0,  0, 0, 0, 0,
    ];
    assert_eq!(question.to_bytes(), followed_by(bytes, [0; 32]));
}

/// The two halves of a question.
fn followed_by(first: [u8; 32], second: [u8; 32]) -> [u8; Question::LEN] {
    std::array::from_fn(|place| if place < 32 { first[place] } else { second[place - 32] })
}

/// A call with a clock has no second date, and the clock's nanoseconds stand in its place.
#[test]
fn the_bytes_of_a_question_with_a_clock() {
    let instant = Instant::new(0x1716_1514_1312_1110, 0x1b1a_1918);
    let question = Question::at(Call::FristDueAt, instant)
        .with_code(2)
        .with_count(0x0f0e_0d0c)
        .with_clock(Clock::new(28, 29, 30, 0x0b0a_0908));
    #[rustfmt::skip]
    let bytes = [
        24, 2, 0, 0,  0, 0, 0, 0,  8, 9, 10, 11,  12, 13, 14, 15,
        16, 17, 18, 19,  20, 21, 22, 23,  24, 25, 26, 27,  28, 29, 30, 0,
    ];
    assert_eq!(question.to_bytes(), followed_by(bytes, [0; 32]));
    let question = Question::on(Call::BerlinAt, Date::new(0x0504, 6, 7)).with_clock(Clock::new(
        1,
        2,
        3,
        0x0b0a_0908,
    ));
    #[rustfmt::skip]
    let bytes = [
        7, 0, 0, 0,  4, 5, 6, 7,  8, 9, 10, 11,  0, 0, 0, 0,
        0, 0, 0, 0,  0, 0, 0, 0,  0, 0, 0, 0,  1, 2, 3, 0,
    ];
    assert_eq!(question.to_bytes(), followed_by(bytes, [0; 32]));
}

/// The second half: a count, an instant, a code, a reason.
#[test]
fn the_second_half_of_a_question() {
    let instant = Instant::new(0x1716_1514_1312_1110, 0x1b1a_1918);
    let question = Question::at(Call::VorlaufCheckAt, instant)
        .with_code(1)
        .with_count(0x0f0e_0d0c)
        .with_second_count(0x2322_2120)
        .with_second_instant(Instant::new(0x2b2a_2928_2726_2524, 0x2f2e_2d2c))
        .with_second_code(48);
    #[rustfmt::skip]
    let first = [
        26, 1, 0, 0,  0, 0, 0, 0,  0, 0, 0, 0,  12, 13, 14, 15,
        16, 17, 18, 19,  20, 21, 22, 23,  24, 25, 26, 27,  0, 0, 0, 0,
    ];
    #[rustfmt::skip]
    let second = [
        32, 33, 34, 35,  36, 37, 38, 39,  40, 41, 42, 43,  44, 45, 46, 47,
        48, 0, 0, 0,  0, 0, 0, 0,  0, 0, 0, 0,  0, 0, 0, 0,
    ];
    assert_eq!(question.to_bytes(), followed_by(first, second));
}

#[test]
fn the_reason_of_a_question() {
    let longest: Vec<u8> = (50..64).collect();
    for len in 0..=Reason::LONGEST {
        let reason = Reason::new(&longest[..len]).expect("not too long");
        let question = Question::on(Call::AbmeldungCheck, Date::new(0x0504, 6, 7))
            .with_second(Date::new(0x0908, 10, 11))
            .with_code(2)
            .with_reason(reason);
        let mut first = [0; 32];
        first[..12].copy_from_slice(&[29, 2, 0, 0, 4, 5, 6, 7, 8, 9, 10, 11]);
        let mut second = [0; 32];
        second[17] = len as u8;
        second[18..18 + len].copy_from_slice(&longest[..len]);
        assert_eq!(question.to_bytes(), followed_by(first, second));
    }
    assert_eq!(Reason::new(&[0; Reason::LONGEST + 1]), None);
}
