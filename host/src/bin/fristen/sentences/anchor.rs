use crate::deutsch::{dem, den};
use crate::inquiry::Inquiry;
use mako_fristen_host::{Date, Error, Span};

/// What the anchor is called, with the words of its gender and number.
#[derive(Debug)]
pub struct Anchor {
    pub article: &'static str,
    pub noun: &'static str,
    earliest: &'static str,
    it: &'static str,
    the_earliest: &'static str,
    are_allowed: &'static str,
    none: &'static str,
    span: &'static str,
}

pub const TERMIN: Anchor = Anchor {
    article: "der",
    noun: "Termin",
    earliest: "frühesten Termin",
    it: "er",
    the_earliest: "der früheste",
    are_allowed: "sind Termine",
    none: "kein Termin",
    span: "Die Spanne der zulässigen Termine",
};

pub const ZUORDNUNGSENDE: Anchor = Anchor {
    article: "das",
    noun: "Zuordnungsende",
    earliest: "frühestes Zuordnungsende",
    it: "es",
    the_earliest: "das früheste",
    are_allowed: "ist ein Zuordnungsende",
    none: "kein Zuordnungsende",
    span: "Die Spanne der zulässigen Zuordnungsenden",
};

impl Anchor {
    /// The dates that are allowed; none if an end of their span leaves the calendar.
    pub fn allowed(&self, span: Option<Span>) -> String {
        let are_allowed = self.are_allowed;
        match span {
            None => format!(
                "{} reicht über den Kalender vom 1. Januar 1996 bis zum 31. Dezember 2899 hinaus.",
                self.span
            ),
            Some(Span::From(first)) => format!("Zulässig {are_allowed} ab {}.", dem(first)),
            Some(Span::Between(first, last)) if first == last => {
                format!("Zulässig ist nur {} {} am {}.", self.article, self.noun, dem(first))
            }
            Some(Span::Between(first, last)) => {
                format!("Zulässig {are_allowed} von {}, bis {}.", dem(first), den(last))
            }
            Some(Span::Empty) => {
                format!("Für diesen Übertragungstag ist {} zulässig.", self.none)
            }
        }
    }

    /// The date that the original names, where the allowed dates do not begin with it.
    pub fn named(&self, named: Date, inquiry: &Inquiry) -> Result<Option<String>, Error> {
        let Anchor { earliest, it, the_earliest, .. } = self;
        let allowed = inquiry.allowed()?;
        if matches!(allowed, Some(Span::From(first) | Span::Between(first, _)) if first == named) {
            return Ok(None);
        }
        let judged = match (inquiry.accepts(named)?, allowed) {
            (false, _) => format!("zulässig ist {it} nicht"),
            (true, None) => format!("{it} ist zulässig"),
            (true, Some(_)) => format!("{it} ist zulässig, aber nicht {the_earliest}"),
        };
        let named = den(named);
        Ok(Some(format!("Die Quelle mako-fristen nennt als {earliest} {named}; {judged}.")))
    }
}

#[cfg(test)]
mod tests {
    use super::*;

    /// A deregistration's shapes have neither an end nor an empty span.
    #[test]
    fn the_allowed_dates_in_both_genders() {
        let (monday, friday) = (Date::new(2026, 1, 5), Date::new(2026, 1, 9));
        let rows = [
            (Span::From(monday), "% ab Montag, dem 5. Januar 2026."),
            (
                Span::Between(monday, friday),
                "% von Montag, dem 5. Januar 2026, bis Freitag, den 9. Januar 2026.",
            ),
        ];
        for (span, expected) in rows {
            let of = |begin| expected.replace('%', begin);
            assert_eq!(TERMIN.allowed(Some(span)), of("Zulässig sind Termine"));
            assert_eq!(ZUORDNUNGSENDE.allowed(Some(span)), of("Zulässig ist ein Zuordnungsende"));
        }
        let one = Some(Span::Between(friday, friday));
        let of_one = "am Freitag, dem 9. Januar 2026.";
        assert_eq!(TERMIN.allowed(one), format!("Zulässig ist nur der Termin {of_one}"));
        let ende = format!("Zulässig ist nur das Zuordnungsende {of_one}");
        assert_eq!(ZUORDNUNGSENDE.allowed(one), ende);
        let none = Some(Span::Empty);
        let day = "Für diesen Übertragungstag ist";
        assert_eq!(TERMIN.allowed(none), format!("{day} kein Termin zulässig."));
        assert_eq!(ZUORDNUNGSENDE.allowed(none), format!("{day} kein Zuordnungsende zulässig."));
        let beyond =
            "reicht über den Kalender vom 1. Januar 1996 bis zum 31. Dezember 2899 hinaus.";
        assert_eq!(TERMIN.allowed(None), format!("Die Spanne der zulässigen Termine {beyond}"));
        let of_ends = format!("Die Spanne der zulässigen Zuordnungsenden {beyond}");
        assert_eq!(ZUORDNUNGSENDE.allowed(None), of_ends);
    }
}
