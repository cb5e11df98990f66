use crate::deutsch::{der, uhr, utc, with_clock};
use crate::inquiry::Inquiry;
use mako_fristen_host::{BerlinTime, Date, Error, Instant};

pub fn at(instant: Instant) -> Result<String, Error> {
    let (time, utc) = (BerlinTime::of(instant)?, utc(instant));
    let twice = match time.repeated {
        true => " Die Uhr zeigt diese Zeit zweimal; gemeint ist die frühere.",
        false => "",
    };
    Ok(format!("{} in Berlin ist {utc}.{twice}", with_clock(time, der)))
}

/// Where a day in Berlin begins or ends, as in 'der Tag … um'.
pub fn edge(inquiry: &Inquiry, instant: Instant, verb: &str) -> Result<String, Error> {
    let (date, utc) = (der(inquiry.question.date), utc(instant));
    let uhr = uhr(BerlinTime::of(instant)?);
    Ok(format!("{date}, {verb} um {uhr}; das ist {utc}."))
}

pub fn beginning(inquiry: &Inquiry, instant: Instant) -> Result<String, Error> {
    let (date, utc) = (der(inquiry.question.date), utc(instant));
    let (sparte, uhr) = (inquiry.sparte()?, uhr(BerlinTime::of(instant)?));
    Ok(format!("In der Sparte {sparte} beginnt {date}, in Berlin um {uhr}; das ist {utc}."))
}

pub fn day(inquiry: &Inquiry, date: Date) -> Result<String, Error> {
    let uhr = uhr(BerlinTime::of(inquiry.question.instant)?);
    Ok(format!("In Berlin ist es dann {}, {uhr}.", der(date)))
}

pub fn day_begun(inquiry: &Inquiry, date: Date) -> Result<String, Error> {
    let (sparte, uhr) = (inquiry.sparte()?, uhr(BerlinTime::of(inquiry.question.instant)?));
    Ok(format!("In der Sparte {sparte} beginnt dann, um {uhr} in Berlin, {}.", der(date)))
}
