use super::skipped;
use crate::deutsch::{dem, den, der, monat, monate, werktage};
use crate::inquiry::Inquiry;
use crate::skipped::Closed;
use mako_fristen_host::{is_werktag, Date, DayReason, Error, WerktageBetween};

pub fn day(inquiry: &Inquiry, reason: DayReason) -> Result<String, Error> {
    let day = der(inquiry.question.date);
    Ok(match (reason, Closed::also(inquiry.question.date, reason)?) {
        (DayReason::Werktag, _) => format!("{day}, ist ein Werktag."),
        (_, None) => format!("{day}, ist kein Werktag: {reason}."),
        (_, Some(also)) => format!("{day}, ist kein Werktag: {reason}; auch {}.", also.name()),
    })
}

pub fn next(inquiry: &Inquiry, to: Date) -> Result<String, Error> {
    let from = inquiry.question.date;
    if to == from {
        return Ok(format!("{}, ist selbst ein Werktag.", der(from)));
    }
    let skipped = skipped::line(inquiry, to)?;
    Ok(format!("Der erste Werktag ab {}, ist {}.{skipped}", dem(from), der(to)))
}

pub fn step(inquiry: &Inquiry, to: Date, side: &str) -> Result<String, Error> {
    let (from, skipped) = (inquiry.question.date, skipped::line(inquiry, to)?);
    Ok(match inquiry.question.n {
        0 => {
            let werktag = if is_werktag(from)? { "ein Werktag" } else { "kein Werktag" };
            format!("Mit 0 Werktagen bleibt es bei {}; das ist {werktag}.", dem(from))
        }
        n => format!("Der {n}. Werktag {side} {}, ist {}.{skipped}", dem(from), der(to)),
    })
}

pub fn between(inquiry: &Inquiry, between: WerktageBetween) -> String {
    let (from, to) = (inquiry.question.date, inquiry.question.date2);
    let later = if to > from { "" } else { " Der zweite Tag ist nicht später als der erste." };
    let lie = match between.werktage {
        0 => "liegt kein Werktag".to_owned(),
        1 => "liegt 1 Werktag".to_owned(),
        n => format!("liegen {}", werktage(n)),
    };
    format!("Nach {}, bis einschließlich {}, {lie}.{later}", dem(from), den(to))
}

pub fn months(inquiry: &Inquiry, to: Date, side: &str) -> String {
    let (from, n) = (inquiry.question.date, inquiry.question.n);
    if n == 0 {
        return format!("Mit 0 Monaten bleibt es bei {}.", dem(from));
    }
    let cut = cut(from, to).map_or(String::new(), |cut| format!(" {cut}"));
    format!("{}, liegt {} {side} {}.{cut}", der(to), monate(n), dem(from))
}

/// Where a step by months was cut to the last day of its month, that it was.
pub fn cut(from: Date, to: Date) -> Option<String> {
    let (day, month, year) = (cut_day(from, to)?, monat(to.month), to.year);
    Some(format!(
        "Einen {day}. hat der {month} {year} nicht; es gilt sein letzter Tag (§ 188 BGB)."
    ))
}

/// The day that the month does not have.
pub fn cut_day(from: Date, to: Date) -> Option<u8> {
    Some(from.day).filter(|day| *day != to.day)
}
