//! Due instants: the cases I and L of document 01, and the corners of each call. Expected values
//! are document 01's, the worked examples of the original's comments, or counted on a calendar.

mod utc;

use mako_fristen_host::{
    add_hours, aperak_gas_due_at, aperak_gas_folgeprozess_due_at, aperak_gas_initialprozess_due_at,
    aperak_strom_allgemein_due_at, aperak_strom_due_at, contrl_due_at, deadline_at_werktage,
    end_of_werktag_after, next_werktag_at, nth_werktag_at, Clock, ContrlAnlass, Error, FristShape,
    GasDue, GasProzess, Instant, Refusal,
};
use utc::utc;
use ContrlAnlass::{GasAlocat, Regelfall, StromUtilmdOderOrders};

const fn clock(hour: u8, minute: u8) -> Clock {
    Clock::new(hour, minute, 0, 0)
}

const NOON: Clock = clock(12, 0);

/// The call gives each second instant for its first.
fn gives(call: impl Fn(Instant) -> Result<Instant, Error>, cases: &[(&str, &str)]) {
    for (received, due) in cases {
        assert_eq!(call(utc(received)), Ok(utc(due)), "received {received}");
    }
}

#[test]
fn case_i_contrl_received_31_march() {
    gives(
        |received| contrl_due_at(received, Regelfall),
        &[
            ("2026-03-31T09:59:59Z", "2026-03-31T15:59:59Z"),
            ("2026-03-31T10:00:00Z", "2026-04-01T22:00:00Z"),
        ],
    );
}

#[test]
fn case_l_same_day_at_12_00_received_9_january_12_00() {
    gives(
        |received| FristShape::SameDayAt(NOON).due_at(received),
        &[
            ("2026-01-09T11:00:00Z", "2026-01-12T11:00:00Z"),
            ("2026-01-09T10:59:59.999999999Z", "2026-01-09T11:00:00Z"),
        ],
    );
}

/// The tolerance is from 18:00:00 on and before the midnight, to the nanosecond.
#[test]
fn contrl_at_the_ends_of_the_tolerance() {
    gives(
        |received| contrl_due_at(received, Regelfall),
        &[
            ("2026-03-31T09:59:59.999999999Z", "2026-03-31T15:59:59.999999999Z"),
            ("2026-03-31T10:00:00.000000001Z", "2026-04-01T22:00:00Z"),
            ("2026-04-01T15:59:59.999999999Z", "2026-04-01T22:00:00Z"),
            ("2026-04-01T16:00:00Z", "2026-04-01T22:00:00Z"),
            ("2026-04-01T16:00:00.000000001Z", "2026-04-01T22:00:00.000000001Z"),
            ("2026-09-30T09:59:59Z", "2026-09-30T15:59:59Z"),
            ("2026-09-30T10:00:00Z", "2026-10-01T22:00:00Z"),
            ("2026-10-01T16:00:00Z", "2026-10-01T22:00:00Z"),
            ("2026-10-01T16:00:01Z", "2026-10-01T22:00:01Z"),
        ],
    );
}

/// 31 March 2024 is the Sunday of the switch: the day has 23 hours, and 18:00 is 16:00 UTC.
#[test]
fn contrl_tolerance_on_the_day_of_the_switch() {
    gives(
        |received| contrl_due_at(received, Regelfall),
        &[
            ("2024-03-31T09:59:59Z", "2024-03-31T15:59:59Z"),
            ("2024-03-31T10:00:00Z", "2024-04-01T22:00:00Z"),
        ],
    );
}

/// The tolerance is tested on the due instant, and the receipt may lie before it or in it.
#[test]
fn contrl_of_15_and_45_minutes_in_the_tolerance() {
    gives(
        |received| contrl_due_at(received, StromUtilmdOderOrders),
        &[
            ("2026-03-31T15:44:59Z", "2026-03-31T15:59:59Z"),
            ("2026-03-31T15:45:00Z", "2026-04-01T22:00:00Z"),
            ("2026-04-01T21:45:00Z", "2026-04-01T22:00:00Z"),
            ("2026-04-01T21:45:01Z", "2026-04-01T22:00:01Z"),
        ],
    );
    gives(
        |received| contrl_due_at(received, GasAlocat),
        &[
            ("2026-09-30T15:14:59Z", "2026-09-30T15:59:59Z"),
            ("2026-09-30T15:15:00Z", "2026-10-01T22:00:00Z"),
            ("2026-10-01T21:15:00Z", "2026-10-01T22:00:00Z"),
            ("2026-10-01T21:59:59Z", "2026-10-01T22:44:59Z"),
        ],
    );
}

/// The 10th of January 2026 is a Saturday, and so is the 11th of July.
#[test]
fn contrl_on_a_saturday() {
    gives(
        |received| contrl_due_at(received, StromUtilmdOderOrders),
        &[
            ("2026-01-09T22:59:59.999999999Z", "2026-01-09T23:14:59.999999999Z"),
            ("2026-01-09T23:00:00Z", "2026-01-10T05:00:00Z"),
            ("2026-01-09T23:30:00Z", "2026-01-10T05:30:00Z"),
            ("2026-01-10T22:59:59Z", "2026-01-11T04:59:59Z"),
            ("2026-01-10T23:00:00Z", "2026-01-10T23:15:00Z"),
            ("2026-07-10T22:00:00Z", "2026-07-11T04:00:00Z"),
            ("2026-07-10T23:30:00Z", "2026-07-11T05:30:00Z"),
            ("2026-07-11T22:00:00Z", "2026-07-11T22:15:00Z"),
        ],
    );
    gives(|received| contrl_due_at(received, GasAlocat), &[SATURDAY_45_MINUTES]);
    gives(
        |received| contrl_due_at(received, Regelfall),
        &[("2026-01-10T11:00:00Z", "2026-01-10T17:00:00Z")],
    );
}

const SATURDAY_45_MINUTES: (&str, &str) = ("2026-01-10T11:00:00Z", "2026-01-10T11:45:00Z");

/// Only Saturday is special; 28 March 2026 is the Saturday before the switch.
#[test]
fn aperak_strom() {
    gives(
        aperak_strom_due_at,
        &[
            ("2025-01-06T10:00:00Z", "2025-01-06T10:45:00Z"),
            ("2026-01-09T22:59:59.999999999Z", "2026-01-09T23:44:59.999999999Z"),
            ("2026-01-09T23:00:00Z", "2026-01-11T11:00:00Z"),
            ("2026-01-09T23:30:00Z", "2026-01-11T11:00:00Z"),
            ("2026-01-10T22:59:59Z", "2026-01-11T11:00:00Z"),
            ("2026-01-10T23:00:00Z", "2026-01-10T23:45:00Z"),
            ("2026-01-11T10:30:00Z", "2026-01-11T11:15:00Z"),
            ("2026-07-10T21:59:59Z", "2026-07-10T22:44:59Z"),
            ("2026-07-10T22:00:00Z", "2026-07-12T10:00:00Z"),
            ("2026-07-11T22:00:00Z", "2026-07-11T22:45:00Z"),
            ("2026-12-25T10:30:00Z", "2026-12-25T11:15:00Z"),
            ("2026-03-28T12:00:00Z", "2026-03-29T10:00:00Z"),
            ("2026-10-24T12:00:00Z", "2026-10-25T11:00:00Z"),
        ],
    );
}

/// 12:00 of the first Werktag after: over a weekend, Easter, and from a late evening.
const NEXT_WERKTAG_NOON: [(&str, &str); 9] = [
    ("2025-01-06T10:00:00Z", "2025-01-07T11:00:00Z"),
    ("2026-01-09T22:59:59Z", "2026-01-12T11:00:00Z"),
    ("2026-01-11T12:00:00Z", "2026-01-12T11:00:00Z"),
    ("2026-01-11T23:00:00Z", "2026-01-13T11:00:00Z"),
    ("2026-01-12T22:59:59.999999999Z", "2026-01-13T11:00:00Z"),
    ("2026-07-06T22:00:00Z", "2026-07-08T10:00:00Z"),
    ("2026-04-02T06:00:00Z", "2026-04-07T10:00:00Z"),
    ("2026-12-23T22:59:59Z", "2026-12-28T11:00:00Z"),
    ("2026-12-30T12:00:00Z", "2027-01-04T11:00:00Z"),
];

#[test]
fn aperak_by_noon_of_the_next_werktag() {
    gives(aperak_strom_allgemein_due_at, &NEXT_WERKTAG_NOON);
    gives(|received| next_werktag_at(received, NOON), &NEXT_WERKTAG_NOON);
    for (received, due) in NEXT_WERKTAG_NOON {
        let expected = Ok(GasDue { kind: GasProzess::Folgeprozess, due: utc(due) });
        assert_eq!(aperak_gas_folgeprozess_due_at(utc(received)), expected, "{received}");
        assert_eq!(aperak_gas_due_at(44_002, utc(received)), expected, "{received}");
    }
}

#[test]
fn aperak_gas_by_pid() {
    let received = utc("2025-01-06T10:00:00Z");
    let initial =
        GasDue { kind: GasProzess::Initialprozess, due: utc("2025-01-09T22:59:59.999999999Z") };
    let follow_up = GasDue { kind: GasProzess::Folgeprozess, due: utc("2025-01-07T11:00:00Z") };
    assert_eq!(aperak_gas_initialprozess_due_at(received), Ok(initial));
    for pid in [44_001, 44_016, 44_039, 44_042] {
        assert_eq!(aperak_gas_due_at(pid, received), Ok(initial), "{pid}");
        for beside in [pid - 1, pid + 1] {
            assert_eq!(aperak_gas_due_at(beside, received), Ok(follow_up), "{beside}");
        }
    }
    for pid in [0, 1, 44_051, 44_168, 55_001, u32::MAX, (1 << 16) + 44_001] {
        assert_eq!(aperak_gas_due_at(pid, received), Ok(follow_up), "{pid}");
    }
}

#[test]
fn hours_run_on_any_day() {
    let received = utc("2026-03-28T23:30:00.000000005Z");
    assert_eq!(add_hours(received, 0), Ok(received));
    assert_eq!(add_hours(received, 1), Ok(utc("2026-03-29T00:30:00.000000005Z")));
    assert_eq!(add_hours(received, 24), Ok(utc("2026-03-29T23:30:00.000000005Z")));
}

/// Deadline and end of Werktag are one instant under two names, and one shape.
#[test]
fn the_end_of_a_werktag() {
    let cases = [
        ("2025-01-06T00:00:00Z", 5, "2025-01-13T22:59:59.999999999Z"),
        ("2025-01-07T22:59:59Z", 5, "2025-01-14T22:59:59.999999999Z"),
        ("2025-01-07T23:00:00Z", 5, "2025-01-15T22:59:59.999999999Z"),
        ("2026-04-04T10:00:00Z", 0, "2026-04-04T21:59:59.999999999Z"),
        ("2026-04-04T10:00:00Z", 1, "2026-04-07T21:59:59.999999999Z"),
        ("2026-03-27T12:00:00Z", 1, "2026-03-30T21:59:59.999999999Z"),
        ("2026-10-23T12:00:00Z", 1, "2026-10-26T22:59:59.999999999Z"),
    ];
    for (received, n, due) in cases {
        let expected = Ok(utc(due));
        assert_eq!(deadline_at_werktage(utc(received), n), expected, "{received} {n}");
        assert_eq!(end_of_werktag_after(utc(received), n), expected, "{received} {n}");
        assert_eq!(FristShape::EndOfWerktag(n).due_at(utc(received)), expected, "{received} {n}");
    }
}

#[test]
fn a_clock_on_the_nth_werktag() {
    let cases = [
        ("2025-01-10T13:00:00Z", 1, clock(11, 0), "2025-01-13T10:00:00Z"),
        ("2026-03-27T12:00:00Z", 1, clock(11, 0), "2026-03-30T09:00:00Z"),
        ("2026-04-02T12:00:00Z", 2, clock(2, 30), "2026-04-08T00:30:00Z"),
        ("2025-12-23T10:00:00Z", 61, clock(0, 0), "2026-03-25T23:00:00Z"),
    ];
    for (received, n, at, due) in cases {
        let expected = Ok(utc(due));
        assert_eq!(nth_werktag_at(utc(received), n, at), expected, "{received} {n}");
        let shape = FristShape::WerktagAt { werktage: n, at };
        assert_eq!(shape.due_at(utc(received)), expected, "{received} {n}");
    }
}

#[test]
fn the_0th_werktag_is_the_first() {
    for received in ["2026-01-09T10:00:00Z", "2026-01-10T10:00:00Z", "2026-04-02T22:00:00Z"] {
        let first = next_werktag_at(utc(received), NOON);
        assert!(first.is_ok());
        for n in [0, 1] {
            assert_eq!(nth_werktag_at(utc(received), n, NOON), first, "{received}");
            let shape = FristShape::WerktagAt { werktage: n, at: NOON };
            assert_eq!(shape.due_at(utc(received)), first, "{received}");
        }
    }
}

/// After the clock time, and on any day that is no Werktag, it is the next Werktag's.
#[test]
fn same_day_at() {
    let fifteen = FristShape::SameDayAt(clock(15, 0));
    gives(
        |received| fifteen.due_at(received),
        &[
            ("2026-01-08T23:00:00Z", "2026-01-09T14:00:00Z"),
            ("2026-01-09T13:59:59.999999999Z", "2026-01-09T14:00:00Z"),
            ("2026-01-09T14:00:00Z", "2026-01-12T14:00:00Z"),
            ("2026-01-09T14:00:00.000000001Z", "2026-01-12T14:00:00Z"),
            ("2026-01-10T08:00:00Z", "2026-01-12T14:00:00Z"),
            ("2026-04-03T08:00:00Z", "2026-04-07T13:00:00Z"),
            ("2026-03-28T08:00:00Z", "2026-03-30T13:00:00Z"),
        ],
    );
}

/// 29 March 2026 is a Sunday, and yet the clock is read on it first.
#[test]
fn same_day_at_an_absent_time() {
    for received in ["2026-03-28T23:00:00Z", "2026-03-29T21:59:59.999999999Z"] {
        for at in [clock(2, 0), clock(2, 30), Clock::new(2, 59, 59, 999_999_999)] {
            let due = FristShape::SameDayAt(at).due_at(utc(received));
            assert_eq!(due, Err(Refusal::LocalTimeAbsent.into()), "{received} {at}");
        }
    }
    gives(
        |received| FristShape::SameDayAt(clock(2, 30)).due_at(received),
        &[
            ("2026-03-28T22:59:59Z", "2026-03-30T00:30:00Z"),
            ("2026-03-29T22:00:00Z", "2026-03-30T00:30:00Z"),
            ("2026-10-25T00:00:00Z", "2026-10-26T01:30:00Z"),
        ],
    );
    assert!(FristShape::SameDayAt(clock(3, 0)).due_at(utc("2026-03-29T10:00:00Z")).is_ok());
}

#[test]
fn same_day_runs_to_the_end_of_any_day() {
    gives(
        |received| FristShape::SameDay.due_at(received),
        &[
            ("2026-01-09T22:59:59.999999999Z", "2026-01-09T22:59:59.999999999Z"),
            ("2026-01-09T23:00:00Z", "2026-01-10T22:59:59.999999999Z"),
            ("2026-12-25T12:00:00Z", "2026-12-25T22:59:59.999999999Z"),
            ("2026-03-29T00:00:00Z", "2026-03-29T21:59:59.999999999Z"),
        ],
    );
}

/// The last Werktag is 30 December 2899, the last instant 22:59:59.999999999 UTC of the day after.
#[test]
fn at_the_upper_edge() {
    const LEAVES: Result<Instant, Error> = Err(Error::Refused(Refusal::LeavesCalendar));
    let last = Instant::LAST;
    assert_eq!(FristShape::SameDay.due_at(last), Ok(last));
    assert_eq!(deadline_at_werktage(last, 0), Ok(last));
    assert_eq!(add_hours(last, 0), Ok(last));
    assert_eq!(add_hours(last, 1), LEAVES);
    assert_eq!(deadline_at_werktage(last, 1), LEAVES);
    assert_eq!(next_werktag_at(last, NOON), LEAVES);
    assert_eq!(FristShape::SameDayAt(Clock::new(23, 59, 59, 999_999_999)).due_at(last), LEAVES);
    for anlass in ContrlAnlass::ALL {
        assert_eq!(contrl_due_at(last, anlass), LEAVES, "{anlass:?}");
    }
    gives(
        |received| contrl_due_at(received, GasAlocat),
        &[("2899-12-31T22:14:59.999999999Z", "2899-12-31T22:59:59.999999999Z")],
    );
    assert_eq!(contrl_due_at(utc("2899-12-31T22:15:00Z"), GasAlocat), LEAVES);
    assert_eq!(aperak_strom_due_at(utc("2899-12-31T22:15:00Z")), LEAVES);
    assert!(aperak_strom_allgemein_due_at(utc("2899-12-29T22:59:59Z")).is_ok());
    assert_eq!(aperak_strom_allgemein_due_at(utc("2899-12-29T23:00:00Z")), LEAVES);
}

#[test]
fn at_the_lower_edge() {
    let first = Instant::FIRST;
    assert_eq!(add_hours(first, 1), Ok(utc("1996-01-01T00:00:00Z")));
    assert_eq!(next_werktag_at(first, NOON), Ok(utc("1996-01-02T11:00:00Z")));
    assert_eq!(FristShape::SameDayAt(NOON).due_at(first), Ok(utc("1996-01-02T11:00:00Z")));
    assert_eq!(aperak_strom_due_at(first), Ok(utc("1995-12-31T23:45:00Z")));
    // All Werktage of the calendar lie after its first day, which is none.
    let all = deadline_at_werktage(first, 222_031);
    assert_eq!(all, Ok(utc("2899-12-30T22:59:59.999999999Z")));
    assert_eq!(deadline_at_werktage(first, 222_032), Err(Refusal::LeavesCalendar.into()));
    // Its hours are 7,924,320, the first of them at 0.
    assert_eq!(add_hours(first, 7_924_319), Ok(utc("2899-12-31T22:00:00Z")));
    assert_eq!(add_hours(first, 7_924_320), Err(Refusal::LeavesCalendar.into()));
}

#[test]
fn the_largest_counts_leave_the_calendar() {
    for n in [u32::MAX, u32::MAX - 1, 1 << 31, (1 << 31) - 1] {
        for received in [Instant::FIRST, utc("2026-01-09T11:00:00Z"), Instant::LAST] {
            let due = [
                add_hours(received, n),
                deadline_at_werktage(received, n),
                end_of_werktag_after(received, n),
                nth_werktag_at(received, n, NOON),
                FristShape::WerktagAt { werktage: n, at: NOON }.due_at(received),
                FristShape::EndOfWerktag(n).due_at(received),
            ];
            assert_eq!(due, [Err(Refusal::LeavesCalendar.into()); 6], "{received} {n}");
        }
    }
}
