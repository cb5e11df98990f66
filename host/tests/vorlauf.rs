//! Verdicts and spans of anchors: the cases E to H of document 01, the corners of each shape, and
//! both edges. Expected values are document 01's, or counted by a few lines of Python.

mod utc;

use mako_fristen_host::{
    Date, Error, Instant, Judgement, Refusal, Span, Sparte, VorlaufShape, VorlaufVerdict,
    VorlaufVerdict::TooEarly, VorlaufVerdict::TooLate,
};
use utc::utc;
use VorlaufShape::{
    EarliestWerktageAfter, Korridor, LatestMonateBefore, LatestMonateUndWerktageBefore,
    LatestWerktageAfter, LatestWerktageBefore, TagVorDemLetztenWerktagVor, WindowWerktageBefore,
};

const OK: Verdict = Ok(VorlaufVerdict::Ok);
const LEAVES: Verdict = Err(Error::Refused(Refusal::LeavesCalendar));
const SPAN_LEAVES: Result<Span, Error> = Err(Error::Refused(Refusal::LeavesCalendar));
const CHRISTMAS: Date = date(2025, 12, 23);

type Verdict = Result<VorlaufVerdict, Error>;

const fn date(year: u16, month: u8, day: u8) -> Date {
    Date::new(year, month, day)
}

const fn january(day: u8) -> Date {
    date(2026, 1, day)
}

const fn late(shortfall_wt: u32, earliest_possible: Date) -> Verdict {
    Ok(TooLate { shortfall_wt, earliest_possible })
}

const fn early(excess_wt: u32) -> Verdict {
    Ok(TooEarly { excess_wt })
}

const fn window(earliest: u32, latest: u32) -> VorlaufShape {
    WindowWerktageBefore { earliest, latest }
}

const fn months_and_werktage(monate: u32, werktage: u32) -> VorlaufShape {
    LatestMonateUndWerktageBefore { monate, werktage }
}

fn verdict(shape: VorlaufShape, day: Date, anchor: Date) -> Verdict {
    without_margin(shape.check(day, anchor))
}

fn without_margin(judgement: Result<Judgement, Error>) -> Verdict {
    judgement.map(|judgement| judgement.verdict)
}

/// The shape has each verdict on its anchor.
fn gives(shape: VorlaufShape, day: Date, cases: &[(Date, Verdict)]) {
    for &(anchor, expected) in cases {
        assert_eq!(verdict(shape, day, anchor), expected, "{shape:?} {day} {anchor}");
    }
}

#[test]
fn case_e_one_werktag_before_monday_from_a_saturday() {
    let shape = LatestWerktageBefore(1);
    assert_eq!(verdict(shape, january(10), january(12)), late(0, january(12)));
    assert_eq!(shape.span(january(10)), Ok(Span::From(january(13))));
    assert_eq!(verdict(shape, january(10), january(13)), OK);
}

#[test]
fn case_f_the_day_before_the_last_werktag_before() {
    let shape = TagVorDemLetztenWerktagVor;
    assert_eq!(verdict(shape, january(8), january(9)), late(1, january(10)));
    assert_eq!(verdict(shape, january(8), january(10)), OK);
    assert_eq!(shape.span(january(8)), Ok(Span::From(january(10))));
}

#[test]
fn case_g_one_month_from_31_january() {
    let shape = LatestMonateBefore(1);
    let february = date(2026, 2, 28);
    assert_eq!(verdict(shape, january(31), february), late(2, february));
    assert_eq!(shape.span(january(31)), Ok(Span::From(date(2026, 3, 1))));
    assert_eq!(verdict(shape, january(31), date(2026, 3, 1)), OK);
}

#[test]
fn case_h_a_window_of_one_werktag_from_a_saturday_is_empty() {
    assert_eq!(window(1, 1).span(january(10)), Ok(Span::Empty));
    gives(
        window(1, 1),
        january(10),
        &[
            (january(9), late(1, january(12))),
            (january(12), late(0, january(12))),
            (january(13), early(1)),
        ],
    );
}

/// From 23 December 2025 the next Werktage are 29 and 30 December, 2, 5, 7 and 8 January.
#[test]
fn verdicts_over_christmas() {
    gives(
        LatestWerktageBefore(5),
        CHRISTMAS,
        &[(january(6), OK), (january(5), late(1, january(7)))],
    );
    let verdicts = [
        (january(5), late(1, january(7))),
        (january(6), OK),
        (january(12), OK),
        (january(13), early(1)),
        (january(20), early(6)),
    ];
    gives(window(8, 5), CHRISTMAS, &verdicts);
    let verdicts =
        [(january(7), OK), (january(6), late(1, january(7))), (CHRISTMAS, late(5, january(7)))];
    gives(EarliestWerktageAfter(5), CHRISTMAS, &verdicts);
    let verdicts = [(date(2025, 12, 29), late(1, date(2025, 12, 30))), (date(2025, 12, 30), OK)];
    gives(TagVorDemLetztenWerktagVor, CHRISTMAS, &verdicts);
    let (sunday, monday) = (date(2026, 2, 22), date(2026, 2, 23));
    gives(LatestMonateBefore(2), CHRISTMAS, &[(sunday, late(1, monday)), (monday, OK)]);
    let verdicts = [(date(2026, 3, 30), late(1, date(2026, 4, 2))), (date(2026, 3, 31), OK)];
    gives(months_and_werktage(3, 3), CHRISTMAS, &verdicts);
}

/// Neither is then an acceptable anchor.
#[test]
fn too_late_names_the_anchor_or_the_opening_day() {
    let verdicts = [
        (date(2025, 12, 16), OK),
        (date(2025, 12, 15), late(1, date(2025, 12, 15))),
        (date(2025, 12, 8), late(6, date(2025, 12, 8))),
    ];
    gives(LatestWerktageAfter(5), CHRISTMAS, &verdicts);
    let verdicts = [
        (january(8), early(1)),
        (january(7), OK),
        (date(2025, 12, 16), OK),
        (date(2025, 12, 15), late(1, date(2025, 12, 8))),
        (date(2025, 12, 1), late(11, date(2025, 11, 24))),
    ];
    gives(Korridor(5), CHRISTMAS, &verdicts);
}

/// Its opening day is after its closing day, and a day between is too early.
#[test]
fn a_window_the_wrong_way_round_accepts_nothing() {
    gives(
        window(0, 5),
        january(9),
        &[
            (january(8), late(6, january(16))),
            (january(9), late(5, january(16))),
            (january(12), early(1)),
            (january(16), early(5)),
        ],
    );
    assert_eq!(window(0, 5).span(january(9)), Ok(Span::Empty));
}

#[test]
fn no_werktage_and_no_months_are_the_day_itself() {
    let saturday = january(10);
    let shapes = [
        LatestWerktageBefore(0),
        LatestWerktageAfter(0),
        EarliestWerktageAfter(0),
        LatestMonateBefore(0),
        months_and_werktage(0, 0),
    ];
    for shape in shapes {
        assert_eq!(verdict(shape, saturday, saturday), OK, "{shape:?}");
        assert_eq!(shape.span(saturday), Ok(Span::From(saturday)), "{shape:?}");
        assert!(matches!(verdict(shape, saturday, january(9)), Ok(TooLate { .. })), "{shape:?}");
    }
    for shape in [window(0, 0), Korridor(0)] {
        assert_eq!(verdict(shape, saturday, saturday), OK, "{shape:?}");
        assert_eq!(shape.span(saturday), Ok(Span::Between(saturday, saturday)), "{shape:?}");
        assert!(matches!(verdict(shape, saturday, january(11)), Ok(TooEarly { .. })), "{shape:?}");
    }
}

#[test]
fn spans_over_christmas() {
    let december = |day| date(2025, 12, day);
    let spans = [
        (LatestWerktageBefore(5), Span::From(january(6))),
        (window(8, 5), Span::Between(january(6), january(12))),
        (window(5, 5), Span::Between(january(6), january(7))),
        (window(5, 0), Span::Between(CHRISTMAS, january(7))),
        (LatestWerktageAfter(5), Span::From(december(16))),
        (EarliestWerktageAfter(5), Span::From(january(7))),
        (Korridor(5), Span::Between(december(16), january(7))),
        (TagVorDemLetztenWerktagVor, Span::From(december(30))),
        (LatestMonateBefore(2), Span::From(date(2026, 2, 23))),
        (months_and_werktage(3, 3), Span::From(date(2026, 3, 31))),
        (months_and_werktage(0, 3), Span::From(december(31))),
        (months_and_werktage(2, 0), Span::From(date(2026, 2, 23))),
    ];
    for (shape, span) in spans {
        assert_eq!(shape.span(CHRISTMAS), Ok(span), "{shape:?}");
    }
}

/// A day that was cut becomes the first of the next month.
#[test]
fn spans_of_months_from_the_ends_of_months() {
    let spans = [
        (1, january(28), date(2026, 2, 28)),
        (1, january(29), date(2026, 3, 1)),
        (1, january(30), date(2026, 3, 1)),
        (3, january(31), date(2026, 5, 1)),
        (2, january(31), date(2026, 3, 31)),
        (12, date(2896, 2, 29), date(2897, 3, 1)),
        (48, date(2896 - 48, 2, 29), date(2852, 2, 29)),
        (1, date(2899, 10, 31), date(2899, 12, 1)),
    ];
    for (months, day, first) in spans {
        let span = LatestMonateBefore(months).span(day);
        assert_eq!(span, Ok(Span::From(first)), "{months} months from {day}");
        assert_eq!(months_and_werktage(months, 0).span(day), span);
    }
}

/// Every anchor of two months lies in the span exactly if its verdict is Ok.
#[test]
fn spans_hold_what_is_accepted() {
    let anchors = (1..=30).map(|day| date(2025, 12, day)).chain((1..=31).map(january));
    let shapes = [
        LatestWerktageBefore(2),
        window(4, 2),
        window(3, 3),
        LatestWerktageAfter(3),
        EarliestWerktageAfter(3),
        Korridor(2),
        TagVorDemLetztenWerktagVor,
        LatestMonateBefore(0),
        months_and_werktage(0, 2),
    ];
    for anchor in anchors {
        for shape in shapes {
            for day in [CHRISTMAS, date(2025, 12, 24), date(2025, 12, 27)] {
                let inside = shape.span(day).map(|span| span.contains(anchor));
                assert_eq!(
                    Ok(verdict(shape, day, anchor) == OK),
                    inside,
                    "{shape:?} {day} {anchor}"
                );
            }
        }
    }
}

#[test]
fn what_lies_in_a_span() {
    let (first, last) = (january(9), january(12));
    for (anchor, from, between) in [
        (january(8), false, false),
        (first, true, true),
        (last, true, true),
        (january(13), true, false),
    ] {
        assert_eq!(Span::From(first).contains(anchor), from);
        assert_eq!(Span::Between(first, last).contains(anchor), between);
        assert!(!Span::Empty.contains(anchor));
    }
}

/// The first Werktag is 2 January 1996.
#[test]
fn verdicts_at_the_lower_edge() {
    let first = |day| date(1996, 1, day);
    let verdicts = [(first(2), LEAVES), (first(3), late(1, first(4))), (first(4), OK)];
    gives(LatestWerktageBefore(1), first(3), &verdicts);
    gives(Korridor(1), first(3), &[(first(2), LEAVES), (first(3), OK), (first(4), OK)]);
    gives(window(1, 0), first(1), &[(first(1), LEAVES), (first(2), LEAVES), (first(3), early(1))]);
    // It closes before it opens, and before the calendar.
    gives(window(0, 1), first(1), &[(first(2), LEAVES), (first(3), early(2))]);
    gives(TagVorDemLetztenWerktagVor, first(1), &[(first(2), LEAVES), (first(3), OK)]);
    let verdicts = [(first(31), LEAVES), (date(1996, 2, 1), OK)];
    gives(LatestMonateBefore(1), first(1), &verdicts);
    gives(LatestWerktageAfter(1), first(3), &[(first(1), late(1, first(1))), (first(2), OK)]);
}

/// The last Werktag is 30 December 2899.
#[test]
fn verdicts_at_the_upper_edge() {
    let last = |day| date(2899, 12, day);
    gives(LatestWerktageBefore(1), last(29), &[(last(29), late(1, last(30))), (last(30), OK)]);
    gives(LatestWerktageBefore(1), last(30), &[(last(30), LEAVES), (last(31), OK)]);
    gives(LatestWerktageAfter(1), last(31), &[(last(29), late(0, last(29))), (last(30), LEAVES)]);
    gives(EarliestWerktageAfter(1), last(30), &[(last(31), LEAVES)]);
    gives(EarliestWerktageAfter(1), last(29), &[(last(29), late(1, last(30))), (last(30), OK)]);
    let verdicts = [(last(29), late(2, last(31))), (last(31), OK)];
    gives(TagVorDemLetztenWerktagVor, last(29), &verdicts);
    gives(TagVorDemLetztenWerktagVor, last(30), &[(last(31), LEAVES)]);
    gives(TagVorDemLetztenWerktagVor, last(31), &[(last(31), LEAVES)]);
    gives(LatestMonateBefore(1), date(2899, 11, 30), &[(last(31), OK)]);
    gives(LatestMonateBefore(1), last(1), &[(last(31), LEAVES)]);
    // Too early, but it closes after the calendar.
    gives(Korridor(1), last(21), &[(last(29), early(3)), (last(30), LEAVES)]);
    gives(window(5, 0), last(22), &[(last(21), late(1, last(22)))]);
    assert_eq!(window(5, 0).span(last(22)), SPAN_LEAVES);
}

/// 31 December and 31 October 2899 are no Werktage, so that as many Werktage forward lead further
/// than they led back, out of the calendar. From the day before they do not.
#[test]
fn the_months_and_werktage_are_refused_although_the_verdict_is_ok() {
    gives(months_and_werktage(0, 1), date(2899, 12, 30), &[(Date::LAST, LEAVES)]);
    gives(months_and_werktage(0, 1), date(2899, 12, 29), &[(Date::LAST, OK)]);
    gives(months_and_werktage(2, 1), date(2899, 10, 30), &[(Date::LAST, LEAVES)]);
    gives(months_and_werktage(2, 1), date(2899, 10, 29), &[(Date::LAST, OK)]);
}

#[test]
fn spans_at_both_edges() {
    let (first, last) = (|day| date(1996, 1, day), |day| date(2899, 12, day));
    let spans = [
        (LatestWerktageBefore(1), last(30), Ok(Span::From(last(31)))),
        (LatestWerktageBefore(1), last(31), SPAN_LEAVES),
        (LatestWerktageBefore(2), last(30), SPAN_LEAVES),
        (LatestWerktageBefore(222_031), first(1), Ok(Span::From(last(31)))),
        (LatestWerktageBefore(222_032), first(1), SPAN_LEAVES),
        (window(0, 0), last(31), Ok(Span::Between(last(31), last(31)))),
        (window(1, 0), last(30), SPAN_LEAVES),
        (window(1, 2), last(29), Ok(Span::Empty)),
        // Either end leaves, where the span would be empty.
        (window(0, 2), last(30), SPAN_LEAVES),
        (window(1, 1), last(30), SPAN_LEAVES),
        (LatestWerktageAfter(1), first(2), SPAN_LEAVES),
        (LatestWerktageAfter(1), first(3), Ok(Span::From(first(2)))),
        (EarliestWerktageAfter(1), last(29), Ok(Span::From(last(30)))),
        (EarliestWerktageAfter(1), last(30), SPAN_LEAVES),
        (Korridor(1), first(2), SPAN_LEAVES),
        (Korridor(1), first(3), Ok(Span::Between(first(2), first(4)))),
        (Korridor(1), last(29), Ok(Span::Between(last(28), last(30)))),
        (Korridor(1), last(30), SPAN_LEAVES),
        (TagVorDemLetztenWerktagVor, last(29), Ok(Span::From(last(31)))),
        (TagVorDemLetztenWerktagVor, last(30), SPAN_LEAVES),
        (TagVorDemLetztenWerktagVor, last(31), SPAN_LEAVES),
        (LatestMonateBefore(1), date(2899, 11, 30), Ok(Span::From(last(30)))),
        (LatestMonateBefore(1), last(1), SPAN_LEAVES),
        (LatestMonateBefore(10_847), first(1), Ok(Span::From(last(1)))),
        (LatestMonateBefore(10_848), first(1), SPAN_LEAVES),
        (months_and_werktage(1, 1), date(2899, 11, 30), SPAN_LEAVES),
    ];
    for (shape, day, span) in spans {
        assert_eq!(shape.span(day), span, "{shape:?} {day}");
    }
}

#[test]
fn the_largest_counts_leave_the_calendar() {
    let day = january(9);
    for n in [u32::MAX, 1 << 31, (1 << 31) - 1] {
        let shapes = [
            LatestWerktageBefore(n),
            window(n, 0),
            window(1, n),
            LatestWerktageAfter(n),
            EarliestWerktageAfter(n),
            Korridor(n),
            LatestMonateBefore(n),
            months_and_werktage(n, 0),
            months_and_werktage(0, n),
            months_and_werktage(n, n),
        ];
        for shape in shapes {
            assert_eq!(verdict(shape, day, day), LEAVES, "{shape:?}");
            assert_eq!(shape.span(day), SPAN_LEAVES, "{shape:?}");
        }
    }
}

/// Case E with the beginnings of 12 January in Berlin.
#[test]
fn a_verdict_at_instants() {
    let shape = LatestWerktageBefore(1);
    let anchors = [(Sparte::Strom, "2026-01-11T23:00:00Z"), (Sparte::Gas, "2026-01-12T05:00:00Z")];
    for (sparte, anchor) in anchors {
        let check = |at| without_margin(shape.check_at(utc(at), utc(anchor), sparte));
        assert_eq!(check("2026-01-09T22:59:59.999999999Z"), OK, "{sparte:?}");
        assert_eq!(check("2026-01-09T23:00:00Z"), late(0, january(12)), "{sparte:?}");
        // 03:00 in Berlin is of that day's calendar day, also for Gas.
        assert_eq!(check("2026-01-10T02:00:00Z"), late(0, january(12)), "{sparte:?}");
        assert_eq!(check("2026-01-10T22:59:59.999999999Z"), late(0, january(12)), "{sparte:?}");
        assert_eq!(check("2026-01-11T23:00:00Z"), late(1, january(13)), "{sparte:?}");
    }
}

/// 29 March 2026 begins at 23:00 UTC and, for Gas, at 04:00 UTC; the day after an hour earlier.
#[test]
fn a_verdict_at_instants_by_a_switch() {
    let shape = EarliestWerktageAfter(0);
    let at = utc("2026-03-28T23:30:00Z");
    let check = |anchor, sparte| without_margin(shape.check_at(at, utc(anchor), sparte));
    assert_eq!(check("2026-03-28T23:00:00Z", Sparte::Strom), OK);
    assert_eq!(check("2026-03-29T04:00:00Z", Sparte::Gas), OK);
    assert_eq!(check("2026-03-29T22:00:00Z", Sparte::Strom), OK);
    let no_beginning = Err(Refusal::NoBeginning.into());
    assert_eq!(check("2026-03-29T05:00:00Z", Sparte::Gas), no_beginning);
    assert_eq!(check("2026-03-29T23:00:00Z", Sparte::Strom), no_beginning);
    assert_eq!(check("2026-03-28T05:00:00Z", Sparte::Gas), late(0, date(2026, 3, 29)));
}

#[test]
fn an_anchor_that_is_no_beginning() {
    let at = utc("2026-01-09T12:00:00Z");
    let shape = LatestWerktageBefore(u32::MAX);
    let check = |at, anchor, sparte| without_margin(shape.check_at(at, anchor, sparte));
    let anchors = [
        ("2026-01-11T23:00:00Z", Sparte::Gas),
        ("2026-01-12T05:00:00Z", Sparte::Strom),
        ("2026-01-11T23:00:00.000000001Z", Sparte::Strom),
        ("2026-01-12T04:59:59.999999999Z", Sparte::Gas),
        ("1995-12-31T23:00:00Z", Sparte::Gas),
    ];
    for (anchor, sparte) in anchors {
        let anchor = utc(anchor);
        assert_eq!(check(at, anchor, sparte), Err(Refusal::NoBeginning.into()), "{anchor}");
        let outside = Instant::new(Instant::FIRST.seconds - 1, 0);
        assert_eq!(check(outside, anchor, sparte), Err(Refusal::InstantOutside.into()), "{anchor}");
    }
    assert_eq!(check(at, utc("2026-01-11T23:00:00Z"), Sparte::Strom), LEAVES);
    assert_eq!(check(at, Instant::LAST, Sparte::Strom), Err(Refusal::NoBeginning.into()));
    let outside = Instant::new(Instant::LAST.seconds + 1, 0);
    assert_eq!(check(at, outside, Sparte::Strom), Err(Refusal::InstantOutside.into()));
}
