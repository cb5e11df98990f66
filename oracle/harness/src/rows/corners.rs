//! Corner arguments, what is refused, and answers of any length.

use super::{abmeldung, Probe, Row, LONGEST};
use crate::{days, instants, original};
use mako_fristen::Sparte;
use mako_fristen_host::{Call, Clock, Date, Instant, Parameter, Question, Reason};
use time::macros::datetime;
use time::OffsetDateTime;

pub fn rows(call: Call) -> Vec<Row> {
    let mut rows = vec![Row::listed(call, "corner arguments", corners(call))];
    if call.takes(Parameter::Instant) && call.takes(Parameter::Count) && !has_verdict(call) {
        rows.push(Row::listed(call, "corner instants and far counts", far_counts(call)));
    }
    if call.takes(Parameter::Date) {
        rows.push(Row::listed(call, "what is no date", no_dates(call)));
    }
    if call.takes(Parameter::Instant) || call.takes(Parameter::Clock) || call.codes().is_some() {
        rows.push(Row::listed(call, "refusals and their order", refused(call)));
    }
    rows.push(lengths(call));
    rows
}

/// Whether the call may count the Werktage from one date to another, which takes long if these are
/// far apart.
fn has_verdict(call: Call) -> bool {
    call.takes(Parameter::VorlaufShape) || call == Call::AbmeldungCheck
}

/// Values for the parameters of a call, which takes those that it has.
#[derive(Clone, Copy)]
struct Values<'a> {
    dates: &'a [Date],
    second_dates: &'a [Date],
    counts: &'a [u32],
    second_counts: &'a [u32],
    instants: &'a [Instant],
    second_instants: &'a [Instant],
    clocks: &'a [Clock],
    reasons: &'a [&'a [u8]],
    /// Whether the codes go one past the last, and to 255.
    unknown_codes: bool,
}

/// One good value each, and all reasons. The instant is 2 April 2026, 00:00 in Berlin.
const ORDINARY: Values = Values {
    dates: &[date(2026, 4, 2)],
    second_dates: &[date(2026, 4, 7)],
    counts: &[1],
    second_counts: &[1],
    instants: &[Instant::new(1_775_080_800, 0)],
    second_instants: &[Instant::new(1_775_080_800, 0)],
    clocks: &[Clock::new(12, 0, 0, 0)],
    reasons: &abmeldung::REASONS,
    unknown_codes: false,
};

/// Every question of a call over the values of its parameters.
fn all_of(call: Call, values: &Values) -> Vec<Question> {
    let of_parameter = |questions: Vec<Question>, &parameter: &Parameter| {
        questions.iter().flat_map(|&question| each(question, parameter, values)).collect()
    };
    call.parameters().iter().fold(vec![Question::new(call)], of_parameter)
}

/// The question with each value of the parameter.
fn each(question: Question, parameter: Parameter, values: &Values) -> Vec<Question> {
    match parameter {
        Parameter::Date => values.dates.iter().map(|&date| Question { date, ..question }).collect(),
        Parameter::SecondDate => {
            values.second_dates.iter().map(|&date| question.with_second(date)).collect()
        }
        Parameter::Count => values.counts.iter().map(|&n| question.with_count(n)).collect(),
        Parameter::SecondCount => {
            values.second_counts.iter().map(|&n| question.with_second_count(n)).collect()
        }
        Parameter::Pid => PIDS.iter().map(|&pid| question.with_count(pid)).collect(),
        Parameter::Instant => {
            values.instants.iter().map(|&instant| Question { instant, ..question }).collect()
        }
        Parameter::SecondInstant => {
            let instants = values.second_instants.iter();
            instants.map(|&instant| question.with_second_instant(instant)).collect()
        }
        Parameter::Clock => values.clocks.iter().map(|&at| question.with_clock(at)).collect(),
        Parameter::Reason => {
            let reasons = values.reasons.iter().filter_map(|reason| Reason::new(reason));
            reasons.map(|reason| question.with_reason(reason)).collect()
        }
        Parameter::SecondSparte => {
            codes(parameter, values).map(|code| question.with_second_code(code)).collect()
        }
        Parameter::Anlass
        | Parameter::Sparte
        | Parameter::Shape
        | Parameter::VorlaufShape
        | Parameter::Eeg => codes(parameter, values).map(|code| question.with_code(code)).collect(),
    }
}

fn codes(parameter: Parameter, values: &Values) -> impl Iterator<Item = u8> {
    let codes = 0..parameter.codes().unwrap_or_default();
    let unknown = if values.unknown_codes { vec![codes.end, u8::MAX] } else { vec![] };
    codes.chain(unknown)
}

const fn date(year: u16, month: u8, day: u8) -> Date {
    Date::new(year, month, day)
}

/// Both edges, ends of months and years, holidays and the cases of document 01.
const CORNER_DATES: [Date; 20] = [
    Date::FIRST,
    date(1996, 1, 2),
    date(1996, 1, 3),
    date(1996, 1, 31),
    date(1996, 2, 29),
    date(1999, 12, 31),
    date(2000, 2, 29),
    date(2025, 12, 23),
    date(2026, 1, 31),
    date(2026, 4, 2),
    date(2026, 4, 4),
    date(2026, 11, 18),
    date(2026, 12, 31),
    date(2100, 2, 28),
    date(2285, 3, 22),
    date(2899, 11, 30),
    date(2899, 12, 1),
    date(2899, 12, 29),
    date(2899, 12, 30),
    Date::LAST,
];

const CORNER_COUNTS: [u32; 13] =
    [0, 1, 2, 5, 61, 10_847, 10_848, 222_030, 222_031, 222_032, i32::MAX as u32, 1 << 31, u32::MAX];

/// Without a long walk of the original.
const NEAR_COUNTS: [u32; 5] = [0, 1, 2, 3, 61];

pub(super) const PIDS: [u32; 12] = [
    44_001,
    44_016,
    44_039,
    44_042,
    44_000,
    44_002,
    44_015,
    44_043,
    44_168,
    0,
    (1 << 16) + 44_001,
    u32::MAX,
];

const LAST_NANO: u32 = 999_999_999;

/// Both sides of the absent and the repeated hour, both ends of a day, and clock times in use.
pub(super) const CORNER_CLOCKS: [Clock; 12] = [
    Clock::new(0, 0, 0, 0),
    Clock::new(0, 0, 0, 1),
    Clock::new(1, 59, 59, LAST_NANO),
    Clock::new(2, 0, 0, 0),
    Clock::new(2, 30, 0, 0),
    Clock::new(2, 59, 59, LAST_NANO),
    Clock::new(3, 0, 0, 0),
    Clock::new(6, 0, 0, 0),
    Clock::new(11, 59, 59, LAST_NANO),
    Clock::new(12, 0, 0, 0),
    Clock::new(18, 0, 0, 0),
    Clock::new(23, 59, 59, LAST_NANO),
];

/// Both switches of 2026, the ends of the tolerance with the receipts that lead there, the ends of
/// a Saturday, the cases of document 01.
const CORNER_INSTANTS: [OffsetDateTime; 18] = [
    datetime!(2026-01-08 23:00 UTC),
    datetime!(2026-01-09 11:00 UTC),
    datetime!(2026-01-09 22:59:59.999999999 UTC),
    datetime!(2026-01-09 23:30 UTC),
    datetime!(2026-01-10 23:00 UTC),
    datetime!(2026-03-28 23:00 UTC),
    datetime!(2026-03-29 00:59:59.999999999 UTC),
    datetime!(2026-03-29 01:00 UTC),
    datetime!(2026-03-29 04:00 UTC),
    datetime!(2026-03-31 09:59:59 UTC),
    datetime!(2026-03-31 10:00 UTC),
    datetime!(2026-04-01 16:00 UTC),
    datetime!(2026-04-01 21:59:59.999999999 UTC),
    datetime!(2026-10-25 00:30 UTC),
    datetime!(2026-10-25 01:30 UTC),
    datetime!(2026-12-23 23:00 UTC),
    datetime!(2899-12-29 12:00 UTC),
    datetime!(2899-12-31 16:59:59.999999999 UTC),
];

pub(super) fn corners(call: Call) -> Vec<Question> {
    if has_verdict(call) {
        return corner_verdicts(call);
    }
    let edges = [Instant::FIRST, Instant::LAST];
    let instants: Vec<Instant> =
        CORNER_INSTANTS.into_iter().map(instants::to_host).chain(edges).collect();
    let far = !call.takes(Parameter::Instant);
    all_of(
        call,
        &Values {
            dates: &CORNER_DATES,
            second_dates: &CORNER_DATES,
            counts: if far { &CORNER_COUNTS } else { &NEAR_COUNTS },
            instants: &instants,
            clocks: &CORNER_CLOCKS,
            ..ORDINARY
        },
    )
}

/// Dates by the cases of document 01, and by either edge.
const NEAR_DATES: [[Date; 8]; 3] = [
    [
        date(2026, 1, 8),
        date(2026, 1, 9),
        date(2026, 1, 10),
        date(2026, 1, 12),
        date(2026, 1, 13),
        date(2026, 1, 31),
        date(2026, 2, 28),
        date(2026, 3, 1),
    ],
    [
        Date::FIRST,
        date(1996, 1, 2),
        date(1996, 1, 3),
        date(1996, 1, 4),
        date(1996, 1, 5),
        date(1996, 1, 31),
        date(1996, 2, 1),
        date(1996, 2, 29),
    ],
    [
        date(2899, 11, 30),
        date(2899, 12, 1),
        date(2899, 12, 22),
        date(2899, 12, 27),
        date(2899, 12, 28),
        date(2899, 12, 29),
        date(2899, 12, 30),
        Date::LAST,
    ],
];

/// Dates of each list with each other, and as instants the beginnings of these days in both Sparten
/// and the nanosecond before.
fn corner_verdicts(call: Call) -> Vec<Question> {
    let of_dates = |dates: &[Date; 8]| {
        let days: Vec<_> = dates.iter().filter_map(|&date| days::given(date).ok()).collect();
        let beginnings = days.iter().flat_map(|&day| {
            [Sparte::Strom, Sparte::Gas].map(|sparte| mako_fristen::tagesbeginn_utc(day, sparte))
        });
        let beginnings: Vec<Instant> = beginnings.map(instants::to_host).collect();
        let before = beginnings.iter().step_by(2).map(|&beginning| instants::moved(beginning, -1));
        let instants: Vec<Instant> = beginnings.iter().step_by(2).copied().chain(before).collect();
        let values = Values {
            dates,
            second_dates: dates,
            counts: &NEAR_COUNTS[..4],
            second_counts: &NEAR_COUNTS[..3],
            instants: &instants,
            second_instants: &beginnings,
            ..ORDINARY
        };
        all_of(call, &values)
    };
    NEAR_DATES.iter().flat_map(of_dates).collect()
}

/// Hours and Werktage about as many as the calendar has, and more.
fn far_counts(call: Call) -> Vec<Question> {
    let middle = instants::to_host(datetime!(2500-06-01 12:00 UTC));
    let hours = [7_924_319, 7_924_320];
    let counts: Vec<u32> = CORNER_COUNTS.into_iter().chain(hours).collect();
    all_of(
        call,
        &Values { counts: &counts, instants: &[Instant::FIRST, middle, Instant::LAST], ..ORDINARY },
    )
}

/// Each number of a date on its limits and off them, as far as that makes no date.
fn no_date_list() -> Vec<Date> {
    let years = [0, 1, 1995, 1996, 1999, 2000, 2023, 2024, 2026, 2100, 2899, 2900, 9999, 65_535];
    let months = [0, 1, 2, 4, 6, 9, 11, 12, 13, 14, 255];
    let days = [0, 1, 28, 29, 30, 31, 32, 255];
    let of_year = |year| months.map(|month| days.map(|day| date(year, month, day)));
    let all = years.into_iter().flat_map(of_year).flatten();
    all.filter(|&date| days::given(date).is_err()).collect()
}

/// In the first place, in the second, and in both.
pub(super) fn no_dates(call: Call) -> Vec<Question> {
    let good = [Date::FIRST, date(2026, 4, 2), Date::LAST];
    let none = no_date_list();
    let values = Values {
        dates: &none,
        second_dates: &good,
        counts: &[0, 1, u32::MAX],
        instants: &[ORDINARY.instants[0], Instant::new(i64::MIN, 0)],
        clocks: &[Clock::new(12, 0, 0, 0), Clock::new(24, 0, 0, 0)],
        reasons: &[b"ZQ7", b"Z33"],
        ..ORDINARY
    };
    let mut questions = all_of(call, &values);
    if call.takes(Parameter::SecondDate) {
        questions.extend(all_of(call, &Values { dates: &good, second_dates: &none, ..values }));
        questions.extend(none.iter().map(|&date| Question::on(call, date).with_second(date)));
    }
    questions
}

/// The spring switch of 2899 is on 29 March. Close to the upper edge the original walks not far.
const LAST_SPRING: Date = date(2899, 3, 29);

/// Good and refused values for all parameters, each with each.
pub(super) fn refused(call: Call) -> Vec<Question> {
    const FIRST: i64 = Instant::FIRST.seconds;
    const LAST: i64 = Instant::LAST.seconds;
    let instants = [
        instants::to_host(datetime!(2899-03-28 23:00 UTC)),
        instants::to_host(datetime!(2899-03-29 04:00 UTC)),
        instants::to_host(datetime!(2899-03-30 06:00 UTC)),
        instants::to_host(datetime!(2899-12-30 12:00 UTC)),
        Instant::LAST,
        Instant::new(FIRST - 1, LAST_NANO),
        Instant::new(LAST + 1, 0),
        Instant::new(FIRST, LAST_NANO + 1),
        Instant::new(i64::MIN, 0),
        Instant::new(i64::MAX, u32::MAX),
    ];
    let beginnings = [instants[0], instants[1], instants[4], instants[5], instants[7]];
    let clocks = [
        Clock::new(12, 0, 0, 0),
        Clock::new(2, 30, 0, 0),
        Clock::new(24, 0, 0, 0),
        Clock::new(23, 60, 0, 0),
        Clock::new(2, 30, 60, 0),
        Clock::new(23, 59, 59, LAST_NANO + 1),
        Clock::new(255, 255, 255, u32::MAX),
    ];
    all_of(
        call,
        &Values {
            dates: &[LAST_SPRING, date(2899, 2, 29), date(2900, 1, 1), date(0, 0, 0)],
            second_dates: &[LAST_SPRING, date(2899, 2, 29)],
            counts: if call == Call::VorlaufCheckAt { &[0, 1] } else { &[0, 1, u32::MAX] },
            second_counts: &[0],
            instants: &instants,
            second_instants: &beginnings,
            clocks: &clocks,
            unknown_codes: true,
            ..ORDINARY
        },
    )
}

/// Every length of the answer, for questions that are answered and for refused ones.
fn lengths(call: Call) -> Row {
    const FILLS: [u8; 3] = [0x00, 0xa5, 0xff];
    let dates = [date(2026, 4, 2), date(0, 0, 0), Date::FIRST, Date::LAST];
    let outside = Instant::new(i64::MIN, u32::MAX);
    let instants = [ORDINARY.instants[0], outside, Instant::FIRST, Instant::LAST];
    let near = if has_verdict(call) { 2 } else { dates.len() };
    let questions = all_of(
        call,
        &Values {
            dates: &dates[..near],
            second_dates: &dates[..near],
            instants: &instants[..near],
            second_instants: &instants[..near],
            clocks: &[Clock::new(12, 0, 0, 0), Clock::new(24, 0, 0, 0)],
            reasons: &abmeldung::REASONS[..4],
            unknown_codes: true,
            ..ORDINARY
        },
    );
    let (fills, lens) = (FILLS.len() as u64, LONGEST as u64 + 1);
    let len = questions.len() as u64 * fills * lens;
    let probe = move |place: u64| Probe {
        question: questions[(place / fills / lens) as usize],
        len: (place / fills % lens) as usize,
        fill: FILLS[(place % fills) as usize],
    };
    let what = "answers of 0 to 70 bytes";
    Row { call, what, len, probe: Box::new(probe), expected: original::expected }
}
