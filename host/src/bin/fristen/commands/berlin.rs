use crate::command::{Command, Example, Task};
use mako_fristen_host::{Call, Parameter};

pub const COMMANDS: [Command; 6] = [
    Command {
        name: "berlin-at",
        german: Some("uhrzeit"),
        task: Task::Ask(Call::BerlinAt),
        operands: &[(Parameter::Date, "DATUM"), (Parameter::Clock, "UHRZEIT")],
        options: &[],
        summary: "der Zeitpunkt einer Uhrzeit in Berlin",
        meaning: "\
Zeigt die Uhr die Zeit zweimal, so gilt die frühere. Gibt es sie an dem Tag nicht,
so wird abgelehnt (6).",
        examples: &[Example::new(
            "berlin-at 2026-10-25 02:30",
            "Sonntag, der 25. Oktober 2026, 02:30 Uhr Sommerzeit in Berlin ist Sonntag, der 25. \
             Oktober 2026, 00:30 Uhr Weltzeit (UTC). Die Uhr zeigt diese Zeit zweimal; gemeint \
             ist die frühere.",
        )],
    },
    Command {
        name: "berlin-midnight",
        german: Some("tagesanfang"),
        task: Task::Ask(Call::BerlinMidnight),
        operands: &[(Parameter::Date, "DATUM")],
        options: &[],
        summary: "der Zeitpunkt von 00:00 Uhr in Berlin",
        meaning: "Der Beginn des Tages in Berlin.",
        examples: &[Example::new(
            "berlin-midnight 2026-03-29",
            "Sonntag, der 29. März 2026, beginnt in Berlin um 00:00 Uhr; das ist Samstag, der 28. \
             März 2026, 23:00 Uhr Weltzeit (UTC).",
        )],
    },
    Command {
        name: "end-of-day-berlin",
        german: Some("tagesende"),
        task: Task::Ask(Call::EndOfDayBerlin),
        operands: &[(Parameter::Date, "DATUM")],
        options: &[],
        summary: "der letzte Zeitpunkt des Tages in Berlin",
        meaning: "Die letzte Nanosekunde des Tages in Berlin.",
        examples: &[Example::new(
            "end-of-day-berlin 2026-03-29",
            "Sonntag, der 29. März 2026, endet in Berlin eine Nanosekunde vor Mitternacht, um \
             23:59:59,999999999 Uhr; das ist Sonntag, der 29. März 2026, 21:59:59,999999999 Uhr \
             Weltzeit (UTC).",
        )],
    },
    Command {
        name: "tagesbeginn-utc",
        german: Some("tagesbeginn"),
        task: Task::Ask(Call::TagesbeginnUtc),
        operands: &[(Parameter::Date, "DATUM"), (Parameter::Sparte, "SPARTE")],
        options: &[],
        summary: "wann der Tag in der Sparte Strom oder Gas beginnt",
        meaning: "\
Strom beginnt um 00:00 Uhr, Gas um 06:00 Uhr gesetzlicher deutscher Zeit.
SPARTE ist Strom oder Gas.",
        examples: &[Example::new(
            "tagesbeginn-utc 2026-03-29 Gas",
            "In der Sparte Gas beginnt Sonntag, der 29. März 2026, in Berlin um 06:00 Uhr; das \
             ist Sonntag, der 29. März 2026, 04:00 Uhr Weltzeit (UTC).",
        )],
    },
    Command {
        name: "berlin-date",
        german: Some("zeitpunkt"),
        task: Task::Ask(Call::BerlinDate),
        operands: &[(Parameter::Instant, "ZEITPUNKT")],
        options: &[],
        summary: "welcher Tag dann in Berlin ist",
        meaning: "Der Tag in Berlin, und was die Uhr dort zeigt.",
        examples: &[Example::new(
            "berlin-date 2026-03-31T22:30:00Z",
            "In Berlin ist es dann Mittwoch, der 1. April 2026, 00:30 Uhr.",
        )],
    },
    Command {
        name: "tag-des-beginns",
        german: None,
        task: Task::Ask(Call::TagDesBeginns),
        operands: &[(Parameter::Instant, "ZEITPUNKT"), (Parameter::Sparte, "SPARTE")],
        options: &[],
        summary: "welcher Tag in der Sparte Strom oder Gas dann beginnt",
        meaning: "\
Die Umkehrung von tagesbeginn. Beginnt dann kein Tag, so wird abgelehnt (7).
SPARTE ist Strom oder Gas.",
        examples: &[Example::new(
            "tag-des-beginns 2026-03-29T04:00:00Z Gas",
            "In der Sparte Gas beginnt dann, um 06:00 Uhr in Berlin, Sonntag, der 29. März 2026.",
        )],
    },
];
