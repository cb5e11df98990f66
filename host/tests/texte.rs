//! Dates, clock times and instants from text. Expected seconds are those of `date -u -d … +%s`.

use mako_fristen_host::{
    berlin_date, Clock, ClockError, Date, DateError, Instant, InstantError, Refusal,
};

fn date(text: &str) -> Result<Date, DateError> {
    text.parse()
}

fn clock(text: &str) -> Result<Clock, ClockError> {
    text.parse()
}

fn instant(text: &str) -> Result<Instant, InstantError> {
    text.parse()
}

#[test]
fn a_date_is_four_digits_two_and_two() {
    assert_eq!(date("2026-04-02"), Ok(Date::new(2026, 4, 2)));
    assert_eq!(date("0000-00-00"), Ok(Date::new(0, 0, 0)));
    assert_eq!(date("9999-99-99"), Ok(Date::new(9999, 99, 99)));
    let none = [
        "",
        "2026",
        "2026-04",
        "2026-4-02",
        "2026-04-2",
        "26-04-02",
        "02026-04-02",
        "2026-04-02 ",
        " 2026-04-02",
        "2026-04-02T",
        "2026/04/02",
        "20260402",
        "2026-04-+2",
        "-026-04-02",
        "+026-04-02",
        "2026-04-0²",
        "２026-04-02",
        "02.04.2026",
    ];
    for text in none {
        assert_eq!(date(text), Err(DateError), "{text}");
    }
}

#[test]
fn a_clock_time_has_seconds_and_a_fraction_or_not() {
    assert_eq!(clock("13:00"), Ok(Clock::new(13, 0, 0, 0)));
    assert_eq!(clock("13:00:05"), Ok(Clock::new(13, 0, 5, 0)));
    assert_eq!(clock("13:00:00.5"), Ok(Clock::new(13, 0, 0, 500_000_000)));
    assert_eq!(clock("23:59:59.999999999"), Ok(Clock::new(23, 59, 59, 999_999_999)));
    assert_eq!(clock("00:00:00.000000001"), Ok(Clock::new(0, 0, 0, 1)));
    assert_eq!(clock("24:00"), Ok(Clock::new(24, 0, 0, 0)));
    assert_eq!(clock("99:99:99"), Ok(Clock::new(99, 99, 99, 0)));
    let none = [
        "",
        "13",
        "13:",
        "1:00",
        "13:0",
        "13:00:",
        "13:00:0",
        "13:00:00.",
        "13:00.5",
        "13:00:00,5",
        "13:00:00.1234567890",
        "13:00:00.5 ",
        "013:00",
        "+1:00",
        "13.00",
        "1300",
        "13:00:00.+5",
    ];
    for text in none {
        assert_eq!(clock(text), Err(ClockError), "{text}");
    }
}

#[test]
fn an_instant_of_rfc_3339() {
    let same = [
        "2026-03-31T15:59:59Z",
        "2026-03-31t15:59:59z",
        "2026-03-31 15:59:59Z",
        "2026-03-31T17:59:59+02:00",
        "2026-03-31 17:59:59+02:00",
        "2026-03-31T15:59:59-00:00",
        "2026-03-31T10:29:59-05:30",
        "2026-03-31T15:59:59.000000000Z",
    ];
    for text in same {
        assert_eq!(instant(text), Ok(Instant::new(1_774_972_799, 0)), "{text}");
    }
    assert_eq!(instant("2026-03-31T15:59:59.5Z"), Ok(Instant::new(1_774_972_799, 500_000_000)));
    let last = Ok(Instant::new(1_774_972_799, 999_999_999));
    assert_eq!(instant("2026-03-31T15:59:59.999999999Z"), last);
}

#[test]
fn instants_at_the_edges() {
    let seconds = [
        ("2024-02-29T12:00:00-23:59", 1_709_294_340),
        ("2024-02-29T12:00:00+23:59", 1_709_121_660),
        ("0000-01-01T00:00:00Z", -62_167_219_200),
        ("0000-02-29T00:00:00Z", -62_162_121_600),
        ("9999-12-31T23:59:59Z", 253_402_300_799),
        ("0000-01-01T00:00:00+23:59", -62_167_305_540),
        ("9999-12-31T23:59:59-23:59", 253_402_387_139),
        ("1970-01-01T00:00:00Z", 0),
        ("1969-12-31T23:59:59Z", -1),
        ("1995-12-31T23:00:00Z", Instant::FIRST.seconds),
        ("2899-12-31T23:59:59+01:00", Instant::LAST.seconds),
    ];
    for (text, seconds) in seconds {
        assert_eq!(instant(text), Ok(Instant::new(seconds, 0)), "{text}");
    }
    for year in ["0000", "9999"] {
        let outside = instant(&format!("{year}-06-01T00:00:00Z")).map(berlin_date);
        assert_eq!(outside, Ok(Err(Refusal::InstantOutside.into())), "{year}");
    }
}

#[test]
fn what_is_no_instant() {
    let none = [
        (InstantError::Date, "2026-02-29T00:00:00Z"),
        (InstantError::Date, "2100-02-29T00:00:00Z"),
        (InstantError::Date, "2026-00-01T00:00:00Z"),
        (InstantError::Date, "2026-13-01T00:00:00Z"),
        (InstantError::Date, "2026-04-00T00:00:00Z"),
        (InstantError::Date, "2026-04-31T00:00:00Z"),
        (InstantError::Clock, "2016-12-31T23:59:60Z"),
        (InstantError::Clock, "2026-04-01T24:00:00Z"),
        (InstantError::Clock, "2026-04-01T00:60:00Z"),
        (InstantError::Offset, "2026-04-01T00:00:00+24:00"),
        (InstantError::Offset, "2026-04-01T00:00:00-00:60"),
    ];
    for (error, text) in none {
        assert_eq!(instant(text), Err(error), "{text}");
    }
    let form = [
        "",
        "Z",
        "2026-04-01",
        "2026-04-01T00:00:00",
        "2026-04-01T00:00Z",
        "2026-04-01T00:00:00+02",
        "2026-04-01T00:00:00+0200",
        "2026-04-01T00:00:00.Z",
        "2026-04-01T00:00:00.1234567890Z",
        "2026-04-01X00:00:00Z",
        "2026-04-01T00:00:00ZZ",
        "2026-04-01T00:00:00 Z",
        "12026-04-01T00:00:00Z",
        "-2026-04-01T00:00:00Z",
        "2026-04-01T00:00:00,5Z",
    ];
    for text in form {
        assert_eq!(instant(text), Err(InstantError::Form), "{text}");
    }
}

#[test]
fn seconds_since_1970_with_a_decimal_fraction() {
    let seconds = [
        ("@0", 0, 0),
        ("@-1", -1, 0),
        ("@-0", 0, 0),
        ("@007.007", 7, 7_000_000),
        ("@1774000000.5", 1_774_000_000, 500_000_000),
        ("@820450800.999999999", 820_450_800, 999_999_999),
        ("@-1.5", -2, 500_000_000),
        ("@-0.000000001", -1, 999_999_999),
        ("@-1.000000000", -1, 0),
        ("@9223372036854775807.1", i64::MAX, 100_000_000),
        ("@-9223372036854775807.5", i64::MIN, 500_000_000),
        ("@-9223372036854775808", i64::MIN, 0),
    ];
    for (text, seconds, nanos) in seconds {
        assert_eq!(instant(text), Ok(Instant::new(seconds, nanos)), "{text}");
    }
}

/// With their units, so that they are not taken for a decimal fraction.
#[test]
fn the_two_numbers_of_a_call() {
    let numbers = [
        ("@0s0ns", 0, 0),
        ("@-1s5ns", -1, 5),
        ("@007s007ns", 7, 7),
        ("@1774972799s5ns", 1_774_972_799, 5),
        ("@0s1000000000ns", 0, 1_000_000_000),
        ("@0s4294967295ns", 0, u32::MAX),
        ("@9223372036854775807s0ns", i64::MAX, 0),
        ("@-9223372036854775808s1ns", i64::MIN, 1),
    ];
    for (text, seconds, nanos) in numbers {
        assert_eq!(instant(text), Ok(Instant::new(seconds, nanos)), "{text}");
    }
}

#[test]
fn what_is_neither() {
    let none = [
        "@",
        "@.",
        "@.5",
        "@-.5",
        "@5.",
        "@+5",
        "@5.+5",
        "@5.-5",
        "@--5",
        "@-",
        "@-+5",
        "@5.5.5",
        "@5,5",
        "@ 5",
        "@5 ",
        "@9223372036854775808",
        "@-9223372036854775809",
        "@-9223372036854775808.5",
        "@0.1000000000",
        "@1e3",
        "@0x10",
        "5",
        "@99999999999999999999999999",
        "@s5ns",
        "@5sns",
        "@5s5",
        "@5ns",
        "@5s-5ns",
        "@5.5s5ns",
        "@0s4294967296ns",
        "@5s5ns ",
        "@5S5NS",
    ];
    for text in none {
        assert_eq!(instant(text), Err(InstantError::Form), "{text}");
    }
}

/// The errors say what was expected.
#[test]
fn an_error_names_what_was_expected() {
    assert_eq!(DateError.to_string(), "expected a date like 2026-04-02");
    assert!(ClockError.to_string().contains("13:00:00.5"));
    for error in [InstantError::Form, InstantError::Date, InstantError::Clock, InstantError::Offset]
    {
        assert!(error.to_string().starts_with("expected "));
    }
}
