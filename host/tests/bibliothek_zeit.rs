//! Instants and the system's times: before 1970, to the nanosecond, and at both ends.

use mako_fristen_host::{berlin_date, Date, Instant, Refusal};
use std::time::{Duration, SystemTime, UNIX_EPOCH};

const SECOND: Duration = Duration::from_secs(1);
const NANO: Duration = Duration::from_nanos(1);

#[test]
fn nanoseconds_count_forward_before_1970_too() {
    let times = [
        (UNIX_EPOCH, Instant::new(0, 0)),
        (UNIX_EPOCH + NANO, Instant::new(0, 1)),
        (UNIX_EPOCH - NANO, Instant::new(-1, 999_999_999)),
        (UNIX_EPOCH - SECOND, Instant::new(-1, 0)),
        (UNIX_EPOCH - SECOND - NANO, Instant::new(-2, 999_999_999)),
        (UNIX_EPOCH + Duration::new(1_775_080_800, 5), Instant::new(1_775_080_800, 5)),
    ];
    for (time, instant) in times {
        assert_eq!(Instant::from(time), instant);
        assert_eq!(SystemTime::try_from(instant), Ok(time));
    }
}

/// The order of times is the order of their instants.
#[test]
fn the_limits_of_the_calls_have_their_times() {
    let first = SystemTime::try_from(Instant::FIRST).expect("the first");
    let last = SystemTime::try_from(Instant::LAST).expect("the last");
    assert_eq!(berlin_date(first.into()), Ok(Date::FIRST));
    assert_eq!(berlin_date(last.into()), Ok(Date::LAST));
    for outside in [first - NANO, last + NANO, UNIX_EPOCH] {
        assert_eq!(berlin_date(outside.into()), Err(Refusal::InstantOutside.into()));
    }
    assert!(Instant::from(first - NANO) < Instant::FIRST);
    assert!(Instant::from(last + NANO) > Instant::LAST);
}

/// Where a system holds the outermost second, it is the same one again.
#[test]
fn the_outermost_numbers_are_a_time_or_refused() {
    for seconds in [i64::MIN, i64::MIN + 1, -1, 0, 1, i64::MAX - 1, i64::MAX] {
        for nanos in [0, 1, 999_999_999] {
            let instant = Instant::new(seconds, nanos);
            match SystemTime::try_from(instant) {
                Ok(time) => assert_eq!(Instant::from(time), instant),
                Err(refusal) => assert_eq!(refusal, Refusal::InstantOutside),
            }
        }
        for nanos in [1_000_000_000, u32::MAX] {
            let refused = SystemTime::try_from(Instant::new(seconds, nanos));
            assert_eq!(refused, Err(Refusal::InstantOutside));
        }
    }
}
