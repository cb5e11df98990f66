use crate::command::{Command, Example, Task};
use mako_fristen_host::{Call, Parameter};

const FORM: (Parameter, &str) = (Parameter::VorlaufShape, "FORM [ZAHLEN]");

pub const COMMANDS: [Command; 4] = [
    Command {
        name: "check",
        german: Some("pruefen"),
        task: Task::Ask(Call::VorlaufCheck),
        operands: &[FORM, (Parameter::Date, "ÜBERTRAGUNGSTAG"), (Parameter::SecondDate, "TERMIN")],
        options: &[],
        summary: "ob eine Nachricht für ihren Termin rechtzeitig kam",
        meaning: "\
Das Urteil über Übertragungstag und Termin: gewahrt, zu spät oder zu früh, und um wie
viele Kalendertage. Darunter, welche Termine der Übertragungstag zulässt, und an welchen
Tagen für den Termin übertragen werden muss. Bei „zu spät“ auch, wie viele Werktage
fehlen, und zuletzt der Termin, den die Quelle als frühesten nennt, wenn es nicht der
erste zulässige ist; zulässig ist er nicht immer.

„margin“ in --json: die Tage vom Übertragungstag bis zum spätesten, negativ nach
diesem; bei EarliestWerktageAfter vom frühesten Termin bis zum Termin, negativ
vor jenem. In --bytes das 29. bis 32. Byte, im Zweierkomplement, das
niederwertigste zuerst.",
        examples: &[Example::new(
            "check LatestWerktageBefore 1 2026-01-10 2026-01-12",
            "1 Kalendertag zu spät: Übertragungstag Samstag, 10. Januar 2026, Termin Montag, 12. \
             Januar 2026.\n\
             Zulässig sind Termine ab Dienstag, dem 13. Januar 2026.\n\
             Spätester Übertragungstag ist der 1. Werktag vor dem Termin: Freitag, der 9. Januar \
             2026.\n\
             Zu spät ist es um 1 Tag, der kein Werktag ist.\n\
             Die Quelle mako-fristen nennt als frühesten Termin Montag, den 12. Januar 2026; \
             zulässig ist er nicht.",
        ), Example::new(
            "check Zeitfenster 5 2 13.4.2026 24.4.2026",
            "Zu früh: Übertragungstag Montag, 13. April 2026, Termin Freitag, 24. April 2026.\n\
             Zulässig sind Termine von Mittwoch, dem 15. April 2026, bis Montag, den 20. April \
             2026.\n\
             Der Übertragungstag muss vom 5. bis zum 2. Werktag vor dem Termin liegen: von \
             Freitag, dem 17. April 2026, bis Mittwoch, den 22. April 2026.\n\
             Der Zeitraum beginnt erst in 4 Werktagen.",
        )],
    },
    Command {
        name: "check-at",
        german: Some("pruefen-zeitpunkt"),
        task: Task::Ask(Call::VorlaufCheckAt),
        operands: &[
            FORM,
            (Parameter::Instant, "ÜBERTRAGEN"),
            (Parameter::SecondInstant, "TERMINBEGINN"),
            (Parameter::SecondSparte, "SPARTE"),
        ],
        options: &[],
        summary: "dasselbe mit Zeitpunkten",
        meaning: "\
Das Urteil wie bei pruefen, auch um wie viele Kalendertage. Der Übertragungstag ist der
Tag in Berlin; der Termin ist als Beginn seines Tages in der Sparte gegeben, sonst wird
abgelehnt (7). SPARTE ist Strom oder Gas.",
        examples: &[Example::new(
            "check-at TagVorDemLetztenWerktagVor 2026-01-08T10:00:00+01:00 \
             2026-01-09T00:00:00+01:00 Strom",
            "1 Kalendertag zu spät: Übertragung am Donnerstag, dem 8. Januar 2026, um 10:00 Uhr, \
             Termin Freitag, 9. Januar 2026, Sparte Strom.\n\
             Zulässig sind Termine ab Samstag, dem 10. Januar 2026.\n\
             Spätester Übertragungstag ist der Tag vor dem letzten Werktag vor dem Termin: \
             Mittwoch, der 7. Januar 2026.\n\
             Es fehlt 1 Werktag.",
        )],
    },
    Command {
        name: "span",
        german: Some("spanne"),
        task: Task::Ask(Call::VorlaufSpan),
        operands: &[FORM, (Parameter::Date, "ÜBERTRAGUNGSTAG")],
        options: &[],
        summary: "welche Termine eine Nachricht des Tages nennen darf",
        meaning: "\
Die zulässigen Termine: alle ab einem Tag, alle von einem bis zu einem anderen, nur
einer oder keiner. Darunter die Regel.",
        examples: &[Example::new(
            "span LatestMonateBefore 1 2026-01-31",
            "Übertragungstag Samstag, 31. Januar 2026: Zulässig sind Termine ab Sonntag, dem 1. \
             März 2026.\n\
             Der späteste Übertragungstag liegt 1 Monat vor dem Termin.",
        )],
    },
    Command {
        name: "bis-wann",
        german: None,
        task: Task::BisWann,
        operands: &[FORM, (Parameter::SecondDate, "TERMIN")],
        options: &[],
        summary: "bis wann eine Nachricht für ihren Termin übertragen sein muss",
        meaning: "\
Der späteste Übertragungstag für den Termin, bei Zeitfenster und Korridor auch der
früheste. Darunter die Regel und, wo Werktage gezählt werden, was dabei übersprungen
wird. --bytes gibt es hier nicht.",
        examples: &[Example::new(
            "bis-wann WerktageVorher 1 7.4.2026",
            "Für den Termin am Dienstag, dem 7. April 2026, muss die Nachricht spätestens am \
             Donnerstag, dem 2. April 2026, übertragen sein.\n\
             Spätester Übertragungstag ist der 1. Werktag vor dem Termin.\n\
             Übersprungen: Karfreitag, ein Samstag, Ostersonntag, Ostermontag.",
        )],
    },
];
