//! Berlin by the system's tz database, as the C library reads it: by its table, and by its rule for
//! the years after that. The original and its zone have no part in this.

use crate::days;
use crate::original::Expected;
use mako_fristen_host::{Answer, Call, Instant, Question, Refusal};
use std::ffi::{c_char, c_int, c_long};
use std::path::Path;
use std::{env, fs, ptr};
use time::OffsetDateTime;

pub const FILE: &str = "/usr/share/zoneinfo/Europe/Berlin";
/// Its first line names the edition.
const EDITION: &str = "/usr/share/zoneinfo/tzdata.zi";

/// Has the C library read the database, once, before any question; says what it reads, if anything.
#[must_use]
pub fn open() -> Option<String> {
    if !Path::new(FILE).is_file() {
        return None;
    }
    env::set_var("TZ", format!(":{FILE}"));
    // SAFETY: no other thread runs yet that could change the environment.
    unsafe { tzset() };
    let edition = fs::read_to_string(EDITION).unwrap_or_default();
    let edition = edition.lines().next().unwrap_or("# edition unknown");
    Some(format!("{FILE}, {}", edition.trim_start_matches("# ")))
}

/// The answer that the database gives to `mf_berlin_date` or `mf_berlin_at`.
///
/// # Errors
///
/// None: the type is that of the original's answers.
pub fn expected(question: &Question) -> Expected {
    let answer = match question.call {
        Call::BerlinDate => day(question.instant.seconds),
        Call::BerlinAt => earliest(question),
        other => unreachable!("{} is not put to the database", other.name()),
    };
    Ok(answer.unwrap_or_else(Answer::refused))
}

fn day(seconds: i64) -> Result<Answer, Refusal> {
    let local = OffsetDateTime::from_unix_timestamp(seconds + offset(seconds));
    let date = local.ok().and_then(|local| days::to_host(local.date()));
    Ok(Answer::default().with_date(date.ok_or(Refusal::InstantOutside)?))
}

/// The earliest instant whose local time is the one that is asked for.
fn earliest(question: &Question) -> Result<Answer, Refusal> {
    const OFFSETS: [i64; 3] = [2 * 3600, 3600, 0];
    let clock = question.clock;
    let midnight = days::given(question.date)?.midnight().assume_utc().unix_timestamp();
    let second = i64::from(clock.hour) * 3600 + i64::from(clock.minute) * 60;
    let local = midnight + second + i64::from(clock.second);
    let shows = |seconds: &i64| seconds + offset(*seconds) == local;
    let seconds = OFFSETS.map(|offset| local - offset).into_iter().find(shows);
    let seconds = seconds.ok_or(Refusal::LocalTimeAbsent)?;
    Ok(Answer::default().with_instant(Instant::new(seconds, clock.nanos)))
}

/// `struct tm` of glibc and musl.
#[repr(C)]
struct LocalTime {
    fields: [c_int; 9],
    offset: c_long,
    name: *const c_char,
}

extern "C" {
    fn tzset();
    fn localtime_r(seconds: *const i64, local: *mut LocalTime) -> *mut LocalTime;
}

/// Seconds east of UTC.
fn offset(seconds: i64) -> i64 {
    let mut local = LocalTime { fields: [0; 9], offset: 0, name: ptr::null() };
    // SAFETY: both pointers are to values that live through the call.
    let done = unsafe { localtime_r(&seconds, &mut local) };
    assert!(!done.is_null(), "the C library knows no local time at {seconds}");
    local.offset
}
