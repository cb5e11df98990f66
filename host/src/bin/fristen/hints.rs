//! What whoever asks should know, although the question is answered as it stands.

use crate::inquiry::Inquiry;
use crate::sentences::anchor::{Anchor, TERMIN, ZUORDNUNGSENDE};
use crate::sentences::rule;
use crate::usage::quoted_bytes;
use mako_fristen_host::{Call, Parameter, VorlaufShape};

const DEACTIVATION: &str = "ZQ7";

pub fn of(inquiry: &Inquiry) -> Vec<String> {
    let reason = if inquiry.call.takes(Parameter::Reason) { reason(&inquiry.reason) } else { None };
    let hints = [reason, pid(inquiry), inquiry.vorlauf.and_then(window), swapped(inquiry)];
    hints.into_iter().flatten().collect()
}

fn pid(inquiry: &Inquiry) -> Option<String> {
    let pid = inquiry.question.n;
    // The pids of the Gas are 44000 to 44999.
    (inquiry.call == Call::AperakGasDueAt && pid / 1000 != 44).then(|| {
        format!(
            "{pid} ist kein Prüfidentifikator Gas (44xxx); gerechnet wird wie für einen \
             Folgeprozess"
        )
    })
}

/// A window that closes before it opens, which no day is in.
pub fn window(shape: VorlaufShape) -> Option<String> {
    let (opens, closes) = rule::closes_early(shape)?;
    Some(format!("VON ist kleiner als BIS; meinten Sie Zeitfenster {closes} {opens}?"))
}

/// An anchor before the transmission day, where it is too late in any case: the two may be swapped.
fn swapped(inquiry: &Inquiry) -> Option<String> {
    let Anchor { article, noun, .. } = may_not_be_past(inquiry)?;
    let (day, anchor) = (inquiry.transmission_day().ok()?, inquiry.anchor().ok()?);
    let are_dates = day.is_in_calendar() && anchor.is_in_calendar();
    (are_dates && anchor < day).then(|| format!("{article} {noun} liegt vor dem Übertragungstag"))
}

/// The anchor of a verdict, unless the shape takes one that lies behind.
fn may_not_be_past(inquiry: &Inquiry) -> Option<Anchor> {
    match (inquiry.call, inquiry.vorlauf) {
        (_, Some(VorlaufShape::LatestWerktageAfter(_) | VorlaufShape::Korridor(_))) => None,
        (Call::VorlaufCheck | Call::VorlaufCheckAt, _) => Some(TERMIN),
        (Call::AbmeldungCheck, _) => Some(ZUORDNUNGSENDE),
        _ => None,
    }
}

/// Only the three bytes are the deactivation; one that looks like it may be a slip.
fn reason(reason: &[u8]) -> Option<String> {
    let text: String = String::from_utf8_lossy(reason).split_whitespace().collect();
    if text.is_empty() {
        return Some("der GRUND ist leer".to_owned());
    }
    let alike = text.eq_ignore_ascii_case(DEACTIVATION) && reason != DEACTIVATION.as_bytes();
    alike.then(|| {
        format!(
            "{} ist nicht die Deaktivierung; das ist nur {DEACTIVATION}, genau so geschrieben",
            quoted_bytes(reason)
        )
    })
}

#[cfg(test)]
mod tests {
    use super::*;
    use crate::names::{find, VORLAUF};

    #[test]
    fn what_looks_like_the_deactivation_is_named() {
        for text in ["zq7", "Zq7", "ZQ7 ", " ZQ7", "z q 7\t", "ZQ7\u{a0}"] {
            assert!(
                reason(text.as_bytes()).is_some_and(|hint| hint.contains("nur ZQ7")),
                "{text:?}"
            );
        }
        for text in ["ZQ7", "ZQ77", "Z33", "ZQ"] {
            assert_eq!(reason(text.as_bytes()), None, "{text:?}");
        }
        assert_eq!(reason(b"\xffZQ7"), None);
        for blank in ["", " ", " \t", "\u{a0}"] {
            assert_eq!(reason(blank.as_bytes()), Some("der GRUND ist leer".to_owned()));
        }
    }

    /// The names in the hint are those of the table.
    #[test]
    fn a_window_that_closes_early_is_turned_round() {
        let window_of =
            |earliest, latest| window(VorlaufShape::WindowWerktageBefore { earliest, latest });
        let hint = window_of(2, 5).expect("a hint");
        assert_eq!(hint, "VON ist kleiner als BIS; meinten Sie Zeitfenster 5 2?");
        let row = find(&VORLAUF, "Zeitfenster").expect("a shape");
        assert_eq!(row.counts, ["VON", "BIS"]);
        assert_eq!(window((row.shape)(5, 2)), None);
        assert_eq!(window_of(2, 2), None);
        assert_eq!(window(VorlaufShape::Korridor(0)), None);
    }
}
