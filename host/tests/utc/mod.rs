use mako_fristen_host::Instant;

/// An instant as ISO 8601 writes it in UTC, with nine digits of a second or none:
/// `2026-03-31T09:59:59Z`.
pub fn utc(text: &str) -> Instant {
    let digits = text.split(|c: char| !c.is_ascii_digit()).filter(|part| !part.is_empty());
    let numbers: Vec<u32> = digits.map(|part| part.parse().expect("a number")).collect();
    let &[year, month, day, hour, minute, second, ref nanos @ ..] = &numbers[..] else {
        panic!("{text} is no instant");
    };
    let day = days_before(year, month) + day - 1;
    let second = (hour * 60 + minute) * 60 + second;
    Instant::new(
        i64::from(day) * 86_400 + i64::from(second),
        nanos.first().copied().unwrap_or_default(),
    )
}

/// From 1 January 1970 to the first of the month.
fn days_before(year: u32, month: u32) -> u32 {
    let leap = |year: u32| year % 4 == 0 && (year % 100 != 0 || year % 400 == 0);
    let years: u32 = (1970..year).map(|year| 365 + u32::from(leap(year))).sum();
    let months = [31, 28 + u32::from(leap(year)), 31, 30, 31, 30, 31, 31, 30, 31, 30, 31];
    years + months.iter().take(month as usize - 1).sum::<u32>()
}
