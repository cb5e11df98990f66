//! The rule of a Vorlauffrist, with the days to which it leads.

use super::anchor::{Anchor, TERMIN};
use super::kalender::cut;
use crate::deutsch::{dem, den, der, kalendertage, monate};
use crate::uebertragung::{Monatsschritt, Uebertragungstage};
use mako_fristen_host::{Date, VorlaufShape};

/// Without its days but the one to which a step by months leads, if that is known.
pub fn of(shape: VorlaufShape, anchor: &Anchor, months: Option<Monatsschritt>) -> String {
    match closes_early(shape) {
        Some((opens, closes)) => {
            backwards(&werktag(opens, "vor", anchor), &werktag(closes, "vor", anchor))
        }
        None => format!("{}.{}", rule(shape, anchor, months), cut_of(months)),
    }
}

/// With the earliest Termin, and where the one given lies, so many days behind it.
pub fn with_earliest(shape: VorlaufShape, first: Date, margin: i32) -> String {
    let days = kalendertage(margin.unsigned_abs());
    let given = match margin {
        0 => "ist dieser Tag".to_owned(),
        1.. => format!("liegt {days} danach"),
        _ => format!("liegt {days} davor"),
    };
    format!("{}: {}; der Termin {given}.", rule(shape, &TERMIN, None), der(first))
}

/// With the transmission days.
pub fn with_days(
    shape: VorlaufShape,
    anchor: &Anchor,
    days: Uebertragungstage,
    months: Option<Monatsschritt>,
) -> String {
    let Uebertragungstage { first, last } = days;
    let rule = rule(shape, anchor, months);
    match (first, closes_early(shape)) {
        (Some(first), Some((opens, closes))) => {
            let named = |n, day| format!("{}, {}", werktag(n, "vor", anchor), der(day));
            backwards(&named(opens, first), &named(closes, last))
        }
        (Some(first), None) if first < last => {
            format!("{rule}: von {}, bis {}.", dem(first), den(last))
        }
        _ => format!("{rule}: {}.{}", der(last), cut_of(months)),
    }
}

/// Behind the rule, where the month lacks the day.
fn cut_of(months: Option<Monatsschritt>) -> String {
    let cut = months.and_then(|Monatsschritt { from, to }| cut(from, to));
    cut.map_or(String::new(), |cut| format!(" {cut}"))
}

/// The counts of a window that closes before it opens.
pub fn closes_early(shape: VorlaufShape) -> Option<(u32, u32)> {
    match shape {
        VorlaufShape::WindowWerktageBefore { earliest, latest } if earliest < latest => {
            Some((earliest, latest))
        }
        _ => None,
    }
}

fn backwards(opens: &str, closes: &str) -> String {
    format!(
        "Frühester Übertragungstag ist {opens}, spätester ist {closes}: der Zeitraum endet, bevor \
         er beginnt."
    )
}

/// Without a full stop.
fn rule(shape: VorlaufShape, anchor: &Anchor, step: Option<Monatsschritt>) -> String {
    match shape {
        VorlaufShape::LatestWerktageBefore(n) => latest(&werktag(n, "vor", anchor)),
        VorlaufShape::WindowWerktageBefore { earliest, latest } => window(earliest, latest, anchor),
        VorlaufShape::LatestWerktageAfter(n) => latest(&werktag(n, "nach", anchor)),
        VorlaufShape::EarliestWerktageAfter(0) => {
            "Frühester Termin ist der Übertragungstag selbst".to_owned()
        }
        VorlaufShape::EarliestWerktageAfter(n) => {
            format!("Frühester Termin ist der {n}. Werktag nach dem Übertragungstag")
        }
        VorlaufShape::Korridor(0) => must_be(&werktag(0, "vor", anchor)),
        VorlaufShape::Korridor(n) => format!(
            "Der Übertragungstag muss vom {n}. Werktag vor bis zum {n}. Werktag nach dem {} liegen",
            anchor.noun
        ),
        VorlaufShape::TagVorDemLetztenWerktagVor => {
            latest(&format!("der Tag vor dem letzten Werktag vor dem {}", anchor.noun))
        }
        VorlaufShape::LatestMonateBefore(n) => months(n, 0, anchor, step),
        VorlaufShape::LatestMonateUndWerktageBefore { monate, werktage } => {
            months(monate, werktage, anchor, step)
        }
    }
}

fn latest(day: &str) -> String {
    format!("Spätester Übertragungstag ist {day}")
}

fn must_be(day: &str) -> String {
    format!("Der Übertragungstag muss {day} sein")
}

fn window(earliest: u32, latest: u32, anchor: &Anchor) -> String {
    let noun = anchor.noun;
    match latest {
        _ if earliest == latest => must_be(&werktag(latest, "vor", anchor)),
        0 => format!(
            "Der Übertragungstag muss vom {earliest}. Werktag vor dem {noun} bis zum {noun} selbst \
             liegen"
        ),
        _ => format!(
            "Der Übertragungstag muss vom {earliest}. bis zum {latest}. Werktag vor dem {noun} \
             liegen"
        ),
    }
}

fn months(months: u32, werktage: u32, anchor: &Anchor, step: Option<Monatsschritt>) -> String {
    let (noun, before) = (anchor.noun, monate(months));
    match (months, werktage) {
        (0, n) => latest(&werktag(n, "vor", anchor)),
        (_, 0) => format!("Der späteste Übertragungstag liegt {before} vor dem {noun}"),
        (_, n) => {
            let day = step.map_or(String::new(), |step| format!(", {}", dem(step.to)));
            latest(&format!("der {n}. Werktag vor dem Tag, der {before} vor dem {noun} liegt{day}"))
        }
    }
}

fn werktag(n: u32, side: &str, anchor: &Anchor) -> String {
    let Anchor { article, noun, .. } = anchor;
    match n {
        0 => format!("{article} {noun} selbst"),
        n => format!("der {n}. Werktag {side} dem {noun}"),
    }
}
