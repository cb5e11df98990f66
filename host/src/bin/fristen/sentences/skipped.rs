//! What a step has passed over, as it is read out.

use crate::deutsch::in_worten;
use crate::inquiry::Inquiry;
use crate::skipped::{self, Closed, Skipped};
use mako_fristen_host::{Date, Error, Feiertag};

/// More kinds than that nobody can follow, and more days are named only by their number.
const MOST_KINDS: usize = 8;
const MOST_DAYS: u32 = 20;

const WEIHNACHTEN: [Feiertag; 2] =
    [Feiertag::ErsterWeihnachtsfeiertag, Feiertag::ZweiterWeihnachtsfeiertag];

/// What a step has passed over.
pub fn line(inquiry: &Inquiry, to: Date) -> Result<String, Error> {
    Ok(line_of("Übersprungen", &skipped::by(inquiry, to)?))
}

/// A line of its own, behind an answer; nothing where nothing was passed over.
pub fn line_of(label: &str, skipped: &Skipped) -> String {
    match skipped.kinds.is_empty() {
        true => String::new(),
        false => format!("\n{label}: {}.", said(skipped)),
    }
}

fn said(skipped: &Skipped) -> String {
    let kinds = &skipped.kinds;
    if kinds.len() > MOST_KINDS || skipped.days() > MOST_DAYS {
        return counted(skipped);
    }
    let both = WEIHNACHTEN.map(Closed::Holiday);
    let both = both.map(|day| kinds.iter().any(|(closed, _)| *closed == day)) == [true; 2];
    kinds.iter().filter_map(|kind| named(*kind, both)).collect::<Vec<_>>().join(", ")
}

/// Both Weihnachtsfeiertage at the place of the first.
fn named((closed, days): (Closed, u32), both: bool) -> Option<String> {
    let [first, second] = WEIHNACHTEN.map(Closed::Holiday);
    Some(match closed {
        _ if both && closed == first => "zwei Weihnachtsfeiertage".to_owned(),
        _ if both && closed == second => return None,
        Closed::Samstag => in_worten(days, "Samstag", "Samstage"),
        Closed::Sonntag => in_worten(days, "Sonntag", "Sonntage"),
        Closed::Holiday(_) | Closed::Ostersonntag => closed.name().to_owned(),
    })
}

/// By the days of the week, which a printed calendar shows too.
fn counted(skipped: &Skipped) -> String {
    let of = |days, one, many| (days > 0).then(|| in_worten(days, one, many));
    let kinds = [
        of(skipped.samstage, "Samstag", "Samstage"),
        of(skipped.sonntage, "Sonntag", "Sonntage"),
        of(skipped.others, "Feiertag an einem anderen Tag", "Feiertage an anderen Tagen"),
    ];
    let kinds: Vec<String> = kinds.into_iter().flatten().collect();
    match kinds.split_last() {
        Some((last, [])) => last.clone(),
        Some((last, rest)) => format!("{} und {last}", rest.join(", ")),
        None => String::new(),
    }
}

#[cfg(test)]
mod tests {
    use super::*;

    const SAMSTAG: Closed = Closed::Samstag;
    const SONNTAG: Closed = Closed::Sonntag;
    const ERSTER: Closed = Closed::Holiday(Feiertag::ErsterWeihnachtsfeiertag);
    const ZWEITER: Closed = Closed::Holiday(Feiertag::ZweiterWeihnachtsfeiertag);
    const NEUJAHR: Closed = Closed::Holiday(Feiertag::Neujahr);

    /// The holidays on other days than a weekend.
    fn skipped(kinds: &[(Closed, u32)]) -> Skipped {
        let of = |wanted| kinds.iter().find(|(closed, _)| *closed == wanted).map_or(0, |k| k.1);
        let (samstage, sonntage) = (of(SAMSTAG), of(SONNTAG));
        let all: u32 = kinds.iter().map(|(_, days)| days).sum();
        Skipped { kinds: kinds.to_vec(), samstage, sonntage, others: all - samstage - sonntage }
    }

    fn said_of(kinds: &[(Closed, u32)]) -> String {
        said(&skipped(kinds))
    }

    #[test]
    fn by_name_in_their_order() {
        assert_eq!(said_of(&[(SONNTAG, 1)]), "ein Sonntag");
        assert_eq!(said_of(&[(SAMSTAG, 2), (SONNTAG, 1)]), "zwei Samstage, ein Sonntag");
        assert_eq!(said_of(&[(ERSTER, 1)]), "Erster Weihnachtsfeiertag");
        let second = [(ZWEITER, 1), (SONNTAG, 1)];
        assert_eq!(said_of(&second), "Zweiter Weihnachtsfeiertag, ein Sonntag");
        let both = [(ERSTER, 1), (ZWEITER, 1), (NEUJAHR, 1), (SAMSTAG, 1)];
        assert_eq!(said_of(&both), "zwei Weihnachtsfeiertage, Neujahr, ein Samstag");
    }

    #[test]
    fn more_days_or_kinds_are_counted() {
        let most = [(SAMSTAG, MOST_DAYS - 1), (SONNTAG, 1)];
        assert_eq!(said_of(&most), "19 Samstage, ein Sonntag");
        assert_eq!(said_of(&[(SAMSTAG, MOST_DAYS), (SONNTAG, 1)]), "20 Samstage und ein Sonntag");
        assert_eq!(said_of(&[(SONNTAG, 21)]), "21 Sonntage");
        let names = [
            Feiertag::Neujahr,
            Feiertag::HeiligeDreiKoenige,
            Feiertag::InternationalerFrauentag,
            Feiertag::TagDerArbeit,
            Feiertag::MariaeHimmelfahrt,
            Feiertag::Weltkindertag,
            Feiertag::Reformationstag,
        ];
        let kinds = names.map(|holiday| (Closed::Holiday(holiday), 1));
        let of = |more: &[(Closed, u32)]| said_of(&[more, &kinds].concat());
        assert_eq!(of(&[(SAMSTAG, 1)]).split(", ").count(), MOST_KINDS);
        let counted = "ein Samstag, zwei Sonntage und sieben Feiertage an anderen Tagen";
        assert_eq!(of(&[(SAMSTAG, 1), (SONNTAG, 2)]), counted);
        let one = [(SAMSTAG, 12), (SONNTAG, 12), (NEUJAHR, 1)];
        let counted = "zwölf Samstage, zwölf Sonntage und ein Feiertag an einem anderen Tag";
        assert_eq!(said_of(&one), counted);
    }

    /// A weekend's holiday is one of its Saturdays or Sundays, Ostersonntag a Sunday.
    #[test]
    fn days_are_counted_as_a_calendar_shows_them() {
        let (from, to) = (Date::new(2026, 2, 28), Date::new(2026, 5, 31));
        let skipped = skipped::between(from, to).expect("in the calendar");
        assert_eq!([skipped.samstage, skipped.sonntage, skipped.others], [13, 13, 5]);
        assert!(skipped.kinds.contains(&(Closed::Ostersonntag, 1)), "{skipped:?}");
    }
}
