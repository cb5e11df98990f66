//! The codes by their names, in any letter case: the source's, and a German one where that is English.

use crate::words::normal;
use mako_fristen_host::{Clock, ContrlAnlass, Eeg, FristShape, Sparte, VorlaufShape};

/// What a word stands for.
#[derive(Clone, Copy, Debug)]
pub struct Named<T: 'static> {
    /// In the source.
    pub name: &'static str,
    pub german: Option<&'static str>,
    pub value: T,
}

const fn named<T>(name: &'static str, value: T) -> Named<T> {
    Named { name, german: None, value }
}

impl<T> Named<T> {
    pub fn names(&self) -> impl Iterator<Item = &'static str> {
        [self.name].into_iter().chain(self.german)
    }
}

pub const ANLAESSE: [Named<ContrlAnlass>; 3] = [
    named("Regelfall", ContrlAnlass::Regelfall),
    named("StromUtilmdOderOrders", ContrlAnlass::StromUtilmdOderOrders),
    named("GasAlocat", ContrlAnlass::GasAlocat),
];

pub const SPARTEN: [Named<Sparte>; 2] = [named("Strom", Sparte::Strom), named("Gas", Sparte::Gas)];

pub const EEG: [Named<Eeg>; 3] =
    [named("nein", Eeg::No), named("ja", Eeg::Yes), named("unbekannt", Eeg::Unknown)];

/// A lead-time shape: the names of its counts, the shape with them, and for the help what it says and
/// how it is written.
#[derive(Clone, Copy, Debug)]
pub struct Vorlauf {
    pub counts: &'static [&'static str],
    pub shape: fn(u32, u32) -> VorlaufShape,
    pub meaning: &'static str,
    pub example: &'static str,
}

pub const VORLAUF: [Named<Vorlauf>; 8] = [
    Named {
        name: "LatestWerktageBefore",
        german: Some("WerktageVorher"),
        value: Vorlauf {
            counts: &["N"],
            shape: |n, _| VorlaufShape::LatestWerktageBefore(n),
            meaning: "spätestens am N-ten Werktag vor dem Termin",
            example: "WerktageVorher 5",
        },
    },
    Named {
        name: "WindowWerktageBefore",
        german: Some("Zeitfenster"),
        value: Vorlauf {
            counts: &["VON", "BIS"],
            shape: |earliest, latest| VorlaufShape::WindowWerktageBefore { earliest, latest },
            meaning: "vom VON-ten bis zum BIS-ten Werktag vor dem Termin",
            example: "Zeitfenster 8 5",
        },
    },
    Named {
        name: "LatestWerktageAfter",
        german: Some("WerktageNachher"),
        value: Vorlauf {
            counts: &["N"],
            shape: |n, _| VorlaufShape::LatestWerktageAfter(n),
            meaning: "spätestens am N-ten Werktag nach dem Termin",
            example: "WerktageNachher 3",
        },
    },
    Named {
        name: "EarliestWerktageAfter",
        german: Some("TerminNachWerktagen"),
        value: Vorlauf {
            counts: &["N"],
            shape: |n, _| VorlaufShape::EarliestWerktageAfter(n),
            meaning: "Termin frühestens am N-ten Werktag nach dem Übertragungstag",
            example: "TerminNachWerktagen 2",
        },
    },
    Named {
        name: "Korridor",
        german: None,
        value: Vorlauf {
            counts: &["N"],
            shape: |n, _| VorlaufShape::Korridor(n),
            meaning: "vom N-ten Werktag vor bis zum N-ten Werktag nach dem Termin",
            example: "Korridor 5",
        },
    },
    Named {
        name: "TagVorDemLetztenWerktagVor",
        german: Some("TagVorLetztemWerktag"),
        value: Vorlauf {
            counts: &[],
            shape: |_, _| VorlaufShape::TagVorDemLetztenWerktagVor,
            meaning: "spätestens am Tag vor dem letzten Werktag vor dem Termin",
            example: "TagVorLetztemWerktag",
        },
    },
    Named {
        name: "LatestMonateBefore",
        german: Some("MonateVorher"),
        value: Vorlauf {
            counts: &["N"],
            shape: |n, _| VorlaufShape::LatestMonateBefore(n),
            meaning: "spätestens N Monate vor dem Termin",
            example: "MonateVorher 1",
        },
    },
    Named {
        name: "LatestMonateUndWerktageBefore",
        german: Some("MonateUndWerktageVorher"),
        value: Vorlauf {
            counts: &["MONATE", "WERKTAGE"],
            shape: |monate, werktage| VorlaufShape::LatestMonateUndWerktageBefore {
                monate,
                werktage,
            },
            meaning:
                "spätestens am WERKTAGE-ten Werktag vor dem Tag, der MONATE Monate vor dem Termin \
                      liegt",
            example: "MonateUndWerktageVorher 1 5",
        },
    },
];

/// An answer shape: whether it has a count and a clock time, the shape with them, and for the help
/// what it says and how it is written.
#[derive(Clone, Copy, Debug)]
pub struct Frist {
    pub count: bool,
    pub clock: bool,
    pub shape: fn(u32, Clock) -> FristShape,
    pub meaning: &'static str,
    pub example: &'static str,
}

pub const FRISTEN: [Named<Frist>; 4] = [
    Named {
        name: "WerktagAt",
        german: Some("WerktagUm"),
        value: Frist {
            count: true,
            clock: true,
            shape: |werktage, at| FristShape::WerktagAt { werktage, at },
            meaning: "um die Uhrzeit am N-ten Werktag nach dem Eingangstag; 0 zählt wie 1",
            example: "WerktagUm 2 06:00",
        },
    },
    Named {
        name: "EndOfWerktag",
        german: Some("EndeDesWerktags"),
        value: Frist {
            count: true,
            clock: false,
            shape: |werktage, _| FristShape::EndOfWerktag(werktage),
            meaning: "mit Ablauf des N-ten Werktags nach dem Eingangstag; mit 0 des Eingangstags",
            example: "EndeDesWerktags 3",
        },
    },
    Named {
        name: "SameDayAt",
        german: Some("SelberTagUm"),
        value: Frist {
            count: false,
            clock: true,
            shape: |_, at| FristShape::SameDayAt(at),
            meaning:
                "um die Uhrzeit am Eingangstag, ist er ein Werktag und sie noch nicht erreicht; \
                      sonst am nächsten Werktag",
            example: "SelberTagUm 12:00",
        },
    },
    Named {
        name: "SameDay",
        german: Some("SelberTag"),
        value: Frist {
            count: false,
            clock: false,
            shape: |_, _| FristShape::SameDay,
            meaning: "mit Ablauf des Eingangstags, Werktag oder nicht",
            example: "SelberTag",
        },
    },
];

/// With hyphens or without, as the names of commands have them. The names of a table have ASCII's letters alone.
pub fn find<T: Copy>(table: &[Named<T>], word: &str) -> Option<T> {
    let word = normal(word).replace('-', "");
    let is_named = |row: &&Named<T>| row.names().any(|name| name.eq_ignore_ascii_case(&word));
    table.iter().find(is_named).map(|row| row.value)
}

/// The source's name of a value.
pub fn name_of<T>(table: &[Named<T>], is: impl Fn(&T) -> bool) -> Option<&'static str> {
    table.iter().find(|row| is(&row.value)).map(|row| row.name)
}

/// As in 'erwartet …': the German names, the last behind an 'oder'.
pub fn expected<T>(table: &[Named<T>]) -> String {
    let names: Vec<&str> = table.iter().map(|row| row.german.unwrap_or(row.name)).collect();
    one_of(&names)
}

/// `a, b oder c`
pub fn one_of(names: &[&str]) -> String {
    match names.split_last() {
        Some((last, rest)) if !rest.is_empty() => format!("{} oder {last}", rest.join(", ")),
        _ => names.join(""),
    }
}

#[cfg(test)]
mod tests {
    use super::*;

    #[test]
    fn a_name_is_found_at_its_code() {
        let anlaesse = ANLAESSE.map(|row| row.value.code());
        let sparten = SPARTEN.map(|row| row.value.code());
        let eeg = EEG.map(|row| row.value.code());
        assert_eq!((anlaesse, sparten, eeg), ([0, 1, 2], [0, 1], [0, 1, 2]));
        let vorlauf = VORLAUF.map(|row| (row.value.shape)(1, 2).code());
        assert_eq!(vorlauf, [0, 1, 2, 3, 4, 5, 6, 7]);
        let fristen = FRISTEN.map(|row| (row.value.shape)(1, Clock::default()).code());
        assert_eq!(fristen, [0, 1, 2, 3]);
    }

    #[test]
    fn a_shape_has_the_counts_that_it_asks_for() {
        for Named { name, value: row, .. } in VORLAUF {
            let (first, second) = (row.shape)(7, 9).counts();
            let given = [first, second].iter().filter(|count| **count != 0).count();
            assert_eq!(given, row.counts.len(), "{name}");
            let source = format!("{:?}", (row.shape)(7, 9));
            assert!(source.starts_with(name), "{source}");
        }
    }

    #[test]
    fn a_german_name_is_the_sources_in_any_case_and_with_or_without_umlauts() {
        for row in VORLAUF {
            for name in row.names() {
                let found = find(&VORLAUF, &name.to_uppercase()).expect(name);
                assert_eq!((found.shape)(1, 2), (row.value.shape)(1, 2), "{name}");
            }
        }
        assert!(find(&FRISTEN, "werktagum").is_some() && find(&FRISTEN, "werktag-um").is_some());
        assert!(find(&FRISTEN, "Werktag").is_none());
    }
}
