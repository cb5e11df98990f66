use crate::command::{Command, Example, Task};
use mako_fristen_host::{Call, Parameter};

pub const COMMANDS: [Command; 8] = [
    Command {
        name: "tag",
        german: None,
        task: Task::Ask(Call::IsWerktag),
        operands: &[(Parameter::Date, "DATUM")],
        options: &[],
        summary: "ob der Tag ein Werktag ist, und warum nicht",
        meaning: "\
Keine Werktage sind die Samstage, die Sonntage und die Feiertage der Liste, zu der auch
der 24. und der 31. Dezember gehören (GPKE Teil 1). Sie ist in allen Jahren dieselbe:
Feiertage eines einzigen Jahres, wie in Berlin der 8. Mai 2020 und der 8. Mai 2025,
stehen nicht darin.
Samstag und Sonntag gehen einem Feiertag vor, der dann hinter „auch“ steht (in
--json „also“); dort steht auch Ostersonntag, der keiner der Liste ist. Von zwei
Feiertagen an einem Tag wird der mit der kleineren Nummer zuerst genannt; Christi
Himmelfahrt am 1. Mai steht hinter „auch“. An welchen Tagen sie in einem Jahr
liegen, zeigt kalender.",
        examples: &[Example::new(
            "tag 2026-11-18",
            "Mittwoch, der 18. November 2026, ist kein Werktag: Buß- und Bettag.",
        )],
    },
    Command {
        name: "next-werktag",
        german: Some("naechster-werktag"),
        task: Task::Ask(Call::NextWerktag),
        operands: &[(Parameter::Date, "DATUM")],
        options: &[],
        summary: "der erste Werktag ab dem Tag, diesen eingeschlossen",
        meaning: "\
Der erste Werktag ab dem Tag. Ist er selbst ein Werktag, so ist er es. Darunter steht,
was übersprungen wird.",
        examples: &[Example::new(
            "next-werktag 2026-04-04",
            "Der erste Werktag ab Samstag, dem 4. April 2026, ist Dienstag, der 7. April 2026.\n\
             Übersprungen: ein Samstag, Ostersonntag, Ostermontag.",
        )],
    },
    Command {
        name: "add-werktage",
        german: Some("werktage-nach"),
        task: Task::Ask(Call::AddWerktage),
        operands: &[(Parameter::Date, "DATUM"), (Parameter::Count, "N")],
        options: &[],
        summary: "der N-te Werktag nach dem Tag",
        meaning: "\
Der N-te Werktag nach dem Tag, der selbst nicht mitzählt. Mit 0 der Tag selbst,
ob Werktag oder nicht. Darunter steht, was übersprungen wird: Feiertage mit Namen,
auch an einem Samstag oder Sonntag, und in einer langen Zeit, wie viele Tage es sind.",
        examples: &[Example::new(
            "add-werktage 2026-04-02 1",
            "Der 1. Werktag nach Donnerstag, dem 2. April 2026, ist Dienstag, der 7. April 2026.\n\
             Übersprungen: Karfreitag, ein Samstag, Ostersonntag, Ostermontag.",
        ), Example::new(
            "add-werktage 23.12.2026 1",
            "Der 1. Werktag nach Mittwoch, dem 23. Dezember 2026, ist Montag, der 28. Dezember \
             2026.\n\
             Übersprungen: Heiligabend, zwei Weihnachtsfeiertage, ein Sonntag.",
        )],
    },
    Command {
        name: "sub-werktage",
        german: Some("werktage-vor"),
        task: Task::Ask(Call::SubWerktage),
        operands: &[(Parameter::Date, "DATUM"), (Parameter::Count, "N")],
        options: &[],
        summary: "der N-te Werktag vor dem Tag",
        meaning: "\
Der N-te Werktag vor dem Tag, der selbst nicht mitzählt. Mit 0 der Tag selbst,
ob Werktag oder nicht. Darunter steht, was übersprungen wird, wie bei werktage-nach.",
        examples: &[Example::new(
            "sub-werktage 2026-04-07 1",
            "Der 1. Werktag vor Dienstag, dem 7. April 2026, ist Donnerstag, der 2. April 2026.\n\
             Übersprungen: Karfreitag, ein Samstag, Ostersonntag, Ostermontag.",
        )],
    },
    Command {
        name: "werktage-between",
        german: Some("werktage-zwischen"),
        task: Task::Ask(Call::WerktageBetween),
        operands: &[(Parameter::Date, "VON"), (Parameter::SecondDate, "BIS")],
        options: &[],
        summary: "wie viele Werktage nach dem ersten Tag bis zum zweiten einschließlich liegen",
        meaning: "\
Die Werktage nach dem ersten Tag bis zum zweiten, diesen eingeschlossen. 0, wenn
der zweite nicht später ist.
„days_tested“ in --json: die geprüften Tage, für beide vom 1. Januar bis zum Tag selbst;
in --bytes das 25. bis 28. Byte, das niederwertigste zuerst.",
        examples: &[Example::new(
            "werktage-between 2026-04-02 2026-04-07",
            "Nach Donnerstag, dem 2. April 2026, bis einschließlich Dienstag, den 7. April 2026, \
             liegt 1 Werktag.",
        )],
    },
    Command {
        name: "add-months",
        german: Some("monate-nach"),
        task: Task::Ask(Call::AddMonths),
        operands: &[(Parameter::Date, "DATUM"), (Parameter::Count, "N")],
        options: &[],
        summary: "der Tag N Monate später",
        meaning: "N Monate später. Fehlt der Tag im Zielmonat, so gilt dessen letzter (§ 188 BGB).",
        examples: &[Example::new(
            "add-months 2026-01-31 1",
            "Samstag, der 28. Februar 2026, liegt 1 Monat nach Samstag, dem 31. Januar 2026. Einen \
             31. hat der Februar 2026 nicht; es gilt sein letzter Tag (§ 188 BGB).",
        )],
    },
    Command {
        name: "subtract-months",
        german: Some("monate-vor"),
        task: Task::Ask(Call::SubtractMonths),
        operands: &[(Parameter::Date, "DATUM"), (Parameter::Count, "N")],
        options: &[],
        summary: "der Tag N Monate früher",
        meaning: "N Monate früher. Fehlt der Tag im Zielmonat, so gilt dessen letzter (§ 188 BGB).",
        examples: &[Example::new(
            "subtract-months 2026-03-15 2",
            "Donnerstag, der 15. Januar 2026, liegt 2 Monate vor Sonntag, dem 15. März 2026.",
        )],
    },
    Command {
        name: "kalender",
        german: None,
        task: Task::Kalender,
        operands: &[],
        options: &["[JAHR|MONAT]..."],
        summary: "die zwölf Monate eines Jahres mit allen Feiertagen, oder einer davon",
        meaning: "\
Das Jahr oder der Monat auf einem Blatt, ohne Angabe dieses Jahr; mehrere
nacheinander. Tage, die keine Werktage sind, sind im Terminal rot, Feiertage
darunter hinterlegt; sonst steht ein Stern dahinter. Ohne Farbe auch, wenn NO_COLOR
gesetzt oder TERM dumb ist. Von zwei Feiertagen an einem Tag steht der da, den tag
nennt. Ostersonntag steht dabei, ist aber keiner der Liste. --bytes gibt es hier
nicht. In --json hat jeder Feiertag seine Nummer (number) und die, die tag für das
Datum nennt (reason): an einem Samstag 1, an einem Sonntag 2.",
        examples: &[
            Example::new("kalender 2026-04", include_str!("kalender-2026-04.txt")),
            Example::new("kalender 2026", include_str!("kalender-2026.txt")),
        ],
    },
];
