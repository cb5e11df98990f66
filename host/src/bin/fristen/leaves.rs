//! Which result leaves the calendar, in German, and at which end.

use crate::deutsch::{dem, monate, stunden, with_clock};
use crate::inquiry::Inquiry;
use crate::uebertragung::{last, opening};
use mako_fristen_host::{
    sub_werktage, BerlinTime, Call, Date, Error, Parameter, Refusal, VorlaufShape,
};

const BEFORE: &str = "liegt vor dem 1. Januar 1996, dem ersten Tag des Kalenders.";
const BEHIND: &str = "liegt hinter dem 31. Dezember 2899, dem letzten Tag des Kalenders.";

/// Of a call that is refused with 8.
pub fn of(inquiry: &Inquiry) -> Option<String> {
    let (n, date) = (inquiry.question.n, inquiry.question.date);
    Some(match inquiry.call {
        Call::NextWerktag => format!("Der erste Werktag ab {}, {BEHIND}", dem(date)),
        Call::AddWerktage => format!("Der {n}. Werktag nach {}, {BEHIND}", dem(date)),
        Call::SubWerktage => format!("Der {n}. Werktag vor {}, {BEFORE}", dem(date)),
        Call::AddMonths => format!("Der Tag {} nach {}, {BEHIND}", monate(n), dem(date)),
        Call::SubtractMonths => format!("Der Tag {} vor {}, {BEFORE}", monate(n), dem(date)),
        Call::AddHours => {
            let from = with_clock(BerlinTime::of(inquiry.question.instant).ok()?, dem);
            format!("Der Zeitpunkt {} nach {from}, {BEHIND}", stunden(n))
        }
        Call::ContrlDueAtChange if date == Date::FIRST => {
            format!("Der Tag vor dem Stichtag {BEFORE}")
        }
        Call::ContrlDueAtChange if date == Date::LAST => {
            format!("Der Tag nach dem Stichtag {BEHIND}")
        }
        Call::EogAnkuendigungFristgerecht => {
            format!("Der letzte Werktag vor {}, {BEFORE}", dem(date))
        }
        Call::VorlaufSpan => span(inquiry.shape().ok()?, inquiry.transmission_day().ok()?),
        Call::VorlaufCheck | Call::VorlaufCheckAt => verdict(inquiry, "den Termin")?,
        Call::AbmeldungCheck => verdict(inquiry, "das Zuordnungsende")?,
        call if call.takes(Parameter::Instant) => format!("Das Ende der Frist {BEHIND}"),
        _ => return None,
    })
}

/// A transmission day that the anchor would need, else the date that the original names.
fn verdict(inquiry: &Inquiry, the_anchor: &str) -> Option<String> {
    let (shape, anchor) = (inquiry.shape().ok()?, inquiry.anchor().ok()?);
    // Its transmission days are no part of the verdict.
    let of_the_anchor = !matches!(shape, VorlaufShape::EarliestWerktageAfter(_));
    if of_the_anchor && (leaves(opening(shape, anchor)) || leaves(last(shape, anchor))) {
        return Some(of_anchor(shape, anchor, the_anchor));
    }
    let earliest = match inquiry.call {
        Call::AbmeldungCheck => "Das Zuordnungsende, das die Quelle als frühestes nennt",
        _ => "Der Termin, den die Quelle als frühesten nennt",
    };
    Some(format!("{earliest}, {BEHIND}"))
}

/// Of the transmission days that an anchor allows: only the last one of some shapes lies behind it.
pub fn of_anchor(shape: VorlaufShape, anchor: Date, the_anchor: &str) -> String {
    let day = format!("Übertragungstag für {the_anchor} am {},", dem(anchor));
    if leaves(opening(shape, anchor)) {
        return format!("Der früheste {day} {BEFORE}");
    }
    match shape {
        VorlaufShape::LatestWerktageAfter(_) | VorlaufShape::Korridor(_) => {
            format!("Der späteste {day} {BEHIND}")
        }
        _ => format!("Der späteste {day} {BEFORE}"),
    }
}

fn span(shape: VorlaufShape, day: Date) -> String {
    let (first, last) = ("Der erste zulässige Termin", "Der letzte zulässige Termin");
    match shape {
        VorlaufShape::LatestWerktageAfter(n) | VorlaufShape::Korridor(n)
            if leaves(sub_werktage(day, n)) =>
        {
            format!("{first} {BEFORE}")
        }
        VorlaufShape::Korridor(_) => format!("{last} {BEHIND}"),
        VorlaufShape::WindowWerktageBefore { latest, .. }
            if !leaves(VorlaufShape::LatestWerktageBefore(latest).span(day)) =>
        {
            format!("{last} {BEHIND}")
        }
        _ => format!("{first} {BEHIND}"),
    }
}

fn leaves<T>(result: Result<T, Error>) -> bool {
    matches!(result, Err(Error::Refused(Refusal::LeavesCalendar)))
}
