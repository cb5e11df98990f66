//! The 13:00 announcement: the case M of document 01, both ends of the last Werktag, and the edges.

mod utc;

use mako_fristen_host::{eog_ankuendigung_fristgerecht, Date, Error, Instant, Refusal};
use utc::utc;

const YES: Result<Option<bool>, Error> = Ok(Some(true));
const NO: Result<Option<bool>, Error> = Ok(Some(false));
const NEITHER: Result<Option<bool>, Error> = Ok(None);

fn gives(beginning: Date, cases: &[(&str, Result<Option<bool>, Error>)]) {
    for &(at, kept) in cases {
        let answer = eog_ankuendigung_fristgerecht(utc(at), beginning);
        assert_eq!(answer, kept, "received {at} for {beginning}");
    }
}

#[test]
fn case_m_the_announcement_for_12_january() {
    gives(
        Date::new(2026, 1, 12),
        &[
            ("2026-01-09T12:00:00Z", YES),
            ("2026-01-09T12:00:00.000000001Z", NO),
            ("2026-01-11T23:00:00Z", NEITHER),
        ],
    );
}

/// Friday 9 January is the last Werktag before Monday the 12th.
#[test]
fn the_ends_of_the_last_werktag_and_of_the_beginning() {
    gives(
        Date::new(2026, 1, 12),
        &[
            ("2026-01-08T12:00:00Z", NO),
            ("2026-01-08T22:59:59.999999999Z", NO),
            ("2026-01-08T23:00:00Z", YES),
            ("2026-01-09T11:59:59.999999999Z", YES),
            ("2026-01-09T12:00:01Z", NO),
            ("2026-01-10T11:00:00Z", NO),
            ("2026-01-11T11:00:00Z", NO),
            ("2026-01-11T22:59:59.999999999Z", NO),
            ("2026-01-11T23:00:00.000000001Z", NEITHER),
            ("2026-02-01T00:00:00Z", NEITHER),
        ],
    );
}

/// In summer 13:00 is 11:00 UTC. After the spring switch, Monday 30 March 2026, the last Werktag is
/// still Friday's winter day.
#[test]
fn in_summer_and_by_a_switch() {
    gives(
        Date::new(2026, 7, 2),
        &[
            ("2026-06-30T22:00:00Z", YES),
            ("2026-07-01T11:00:00Z", YES),
            ("2026-07-01T11:00:00.000000001Z", NO),
            ("2026-07-01T21:59:59.999999999Z", NO),
            ("2026-07-01T22:00:00Z", NEITHER),
        ],
    );
    gives(
        Date::new(2026, 3, 30),
        &[
            ("2026-03-27T12:00:00Z", YES),
            ("2026-03-27T12:00:00.000000001Z", NO),
            ("2026-03-29T21:59:59.999999999Z", NO),
            ("2026-03-29T22:00:00Z", NEITHER),
        ],
    );
}

/// A beginning on a Sunday or a holiday has its last Werktag too.
#[test]
fn a_beginning_that_is_no_werktag() {
    gives(Date::new(2026, 1, 11), &[("2026-01-09T12:00:00Z", YES), ("2026-01-10T11:00:00Z", NO)]);
    gives(Date::new(2025, 12, 26), &[("2025-12-23T12:00:00Z", YES), ("2025-12-24T11:00:00Z", NO)]);
}

/// Before 2 January 1996, the first Werktag, there is none.
#[test]
fn at_the_edges() {
    const LEAVES: Result<Option<bool>, Error> = Err(Error::Refused(Refusal::LeavesCalendar));
    gives(
        Date::new(1996, 1, 2),
        &[
            ("1995-12-31T23:00:00Z", LEAVES),
            ("1996-01-01T22:59:59.999999999Z", LEAVES),
            ("1996-01-01T23:00:00Z", NEITHER),
        ],
    );
    gives(Date::new(1996, 1, 3), &[("1996-01-02T12:00:00Z", YES), ("1996-01-01T12:00:00Z", NO)]);
    assert_eq!(eog_ankuendigung_fristgerecht(Instant::FIRST, Date::FIRST), NEITHER);
    assert_eq!(eog_ankuendigung_fristgerecht(Instant::LAST, Date::LAST), NEITHER);
    gives(Date::LAST, &[("2899-12-30T12:00:00Z", YES), ("2899-12-30T12:00:00.000000001Z", NO)]);
}

#[test]
fn no_date_comes_before_no_instant() {
    let (none, outside) = (Date::new(2026, 2, 29), Instant::new(i64::MAX, 0));
    let at = utc("2026-01-09T12:00:00Z");
    assert_eq!(eog_ankuendigung_fristgerecht(at, none), Err(Refusal::NoDate.into()));
    assert_eq!(eog_ankuendigung_fristgerecht(outside, none), Err(Refusal::NoDate.into()));
    let refused = eog_ankuendigung_fristgerecht(outside, Date::new(1996, 1, 2));
    assert_eq!(refused, Err(Refusal::InstantOutside.into()));
}
