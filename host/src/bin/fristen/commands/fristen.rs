use crate::command::{Command, Example, Task};
use mako_fristen_host::{Call, Parameter};

/// The output of both examples with a change day.
const VERLEGT: &str =
    "Eingang am Freitag, dem 5. Juni 2026, um 12:00 Uhr: Die CONTRL im Regelfall ist fällig in \
     der Nacht vom 6. auf den 7. Juni 2026, am Sonntag um 00:00 Uhr.\n\
     Stichtag der Formatumstellung ist Samstag, der 6. Juni 2026; ihr Zeitraum geht von Freitag, \
     dem 5. Juni 2026, 18:00 Uhr, bis Sonntag, den 7. Juni 2026, 00:00 Uhr.\n\
     Ohne Umstellung wäre die CONTRL fällig am Freitag, dem 5. Juni 2026, um 18:00 Uhr. Das liegt \
     in diesem Zeitraum; darum gilt sein Ende.";

pub const COMMANDS: [Command; 13] = [
    Command {
        name: "contrl",
        german: None,
        task: Task::Ask(Call::ContrlDueAt),
        operands: &[(Parameter::Anlass, "ANLASS"), (Parameter::Instant, "EINGANG")],
        options: &["[--stichtag DATUM]"],
        summary: "wann die CONTRL fällig ist",
        meaning: "\
ANLASS ist Regelfall (6 Stunden), StromUtilmdOderOrders (15 Minuten, bei Eingang an
einem Samstag 6 Stunden) oder GasAlocat (45 Minuten). Was ab dem 31. März, 18:00 Uhr,
und vor dem 2. April, 00:00 Uhr, fällig wäre, ist es am 2. April um 00:00 Uhr; ebenso
vom 30. September bis zum 2. Oktober (CONTRL AHB 1.0).
--stichtag nennt den Tag einer verlegten Formatumstellung. Dann gibt es nur ihren
Zeitraum: von 18:00 Uhr des Tages davor bis 00:00 Uhr des Tages danach. Dasselbe
ohne Option: contrl-mit-stichtag.",
        examples: &[Example::new(
            "contrl Regelfall 2026-03-31T11:59:59+02:00",
            "Eingang am Dienstag, dem 31. März 2026, um 11:59:59 Uhr: Die CONTRL im Regelfall ist \
             fällig am Dienstag, dem 31. März 2026, um 17:59:59 Uhr.",
        ), Example::new(
            "contrl Regelfall 31.3.2026 12:00",
            "Eingang am Dienstag, dem 31. März 2026, um 12:00 Uhr: Die CONTRL im Regelfall ist \
             fällig in der Nacht vom 1. auf den 2. April 2026, am Donnerstag um 00:00 Uhr.\n\
             Ohne Umstellung wäre sie fällig am Dienstag, dem 31. März 2026, um 18:00 Uhr. Das \
             liegt im Zeitraum der Formatumstellung von Dienstag, dem 31. März 2026, 18:00 Uhr, \
             bis Donnerstag, den 2. April 2026, 00:00 Uhr; darum gilt dessen Ende.",
        ), Example::new(
            "contrl Regelfall 2026-06-05T12:00:00+02:00 --stichtag 2026-06-06", VERLEGT)],
    },
    Command {
        name: "contrl-due-at-change",
        german: Some("contrl-mit-stichtag"),
        task: Task::Ask(Call::ContrlDueAtChange),
        operands: &[
            (Parameter::Anlass, "ANLASS"),
            (Parameter::Instant, "EINGANG"),
            (Parameter::Date, "STICHTAG"),
        ],
        options: &[],
        summary: "dasselbe mit dem Stichtag einer verlegten Formatumstellung",
        meaning: "\
Die Antwort von contrl mit --stichtag. Den Zeitraum um den Stichtag hat „window“ in
--json; „from“ gehört dazu, „to“ nicht mehr. „moved“ sagt, ob er die Fälligkeit
verschiebt, „due_before_tolerance“, wann die CONTRL ohne ihn fällig wäre.",
        examples: &[Example::new(
            "contrl-due-at-change Regelfall 2026-06-05T12:00:00+02:00 2026-06-06", VERLEGT)],
    },
    Command {
        name: "aperak-strom",
        german: None,
        task: Task::Ask(Call::AperakStromDueAt),
        operands: &[(Parameter::Instant, "EINGANG")],
        options: &[],
        summary: "wann die APERAK auf UTILMD oder ORDERS Strom fällig ist",
        meaning: "\
45 Minuten nach Eingang, auch an Sonn- und Feiertagen; bei Eingang an einem Samstag
am Sonntag um 12:00 Uhr.",
        examples: &[Example::new(
            "aperak-strom 2026-01-10T10:00:00+01:00",
            "Eingang am Samstag, dem 10. Januar 2026, um 10:00 Uhr: Die APERAK auf UTILMD oder \
             ORDERS Strom ist fällig am Sonntag, dem 11. Januar 2026, um 12:00 Uhr.",
        )],
    },
    Command {
        name: "aperak-strom-allgemein",
        german: None,
        task: Task::Ask(Call::AperakStromAllgemeinDueAt),
        operands: &[(Parameter::Instant, "EINGANG")],
        options: &[],
        summary: "wann die APERAK auf eine andere Nachricht Strom fällig ist",
        meaning: "Um 12:00 Uhr am ersten Werktag nach dem Eingangstag.",
        examples: &[Example::new(
            "aperak-strom-allgemein 2026-04-02T10:00:00+02:00",
            "Eingang am Donnerstag, dem 2. April 2026, um 10:00 Uhr: Die APERAK auf eine andere \
             Nachricht Strom ist fällig am Dienstag, dem 7. April 2026, um 12:00 Uhr.",
        )],
    },
    Command {
        name: "aperak-gas-folgeprozess",
        german: None,
        task: Task::Ask(Call::AperakGasFolgeprozessDueAt),
        operands: &[(Parameter::Instant, "EINGANG")],
        options: &[],
        summary: "wann die APERAK im Folgeprozess Gas fällig ist",
        meaning: "Um 12:00 Uhr am ersten Werktag nach dem Eingangstag.",
        examples: &[Example::new(
            "aperak-gas-folgeprozess 2026-04-02T10:00:00+02:00",
            "Eingang am Donnerstag, dem 2. April 2026, um 10:00 Uhr: Die APERAK im Folgeprozess \
             Gas ist fällig am Dienstag, dem 7. April 2026, um 12:00 Uhr.",
        )],
    },
    Command {
        name: "aperak-gas-initialprozess",
        german: None,
        task: Task::Ask(Call::AperakGasInitialprozessDueAt),
        operands: &[(Parameter::Instant, "EINGANG")],
        options: &[],
        summary: "wann die APERAK im Initialprozess Gas fällig ist",
        meaning: "Mit Ablauf des dritten Werktags nach dem Eingangstag.",
        examples: &[Example::new(
            "aperak-gas-initialprozess 2026-04-02T10:00:00+02:00",
            "Eingang am Donnerstag, dem 2. April 2026, um 10:00 Uhr: Die APERAK im Initialprozess \
             Gas ist fällig mit Ablauf des Donnerstags, des 9. April 2026.",
        )],
    },
    Command {
        name: "aperak-gas",
        german: None,
        task: Task::Ask(Call::AperakGasDueAt),
        operands: &[(Parameter::Pid, "PID"), (Parameter::Instant, "EINGANG")],
        options: &[],
        summary: "wann die APERAK auf eine Nachricht Gas fällig ist",
        meaning: "\
44001, 44016, 44039 und 44042 sind Initialprozesse, jede andere Zahl ist ein
Folgeprozess.",
        examples: &[Example::new(
            "aperak-gas 44001 2026-04-02T10:00:00+02:00",
            "Eingang am Donnerstag, dem 2. April 2026, um 10:00 Uhr: Die APERAK auf eine Nachricht \
             mit Prüfidentifikator 44001 (Initialprozess Gas) ist fällig mit Ablauf des \
             Donnerstags, des 9. April 2026.",
        )],
    },
    Command {
        name: "add-hours",
        german: Some("stunden-nach"),
        task: Task::Ask(Call::AddHours),
        operands: &[(Parameter::Instant, "ZEITPUNKT"), (Parameter::Count, "N")],
        options: &[],
        summary: "der Zeitpunkt N Stunden später",
        meaning: "\
N Stunden später, an jedem Tag. Wird die Uhr dazwischen einmal umgestellt, so steht es
dabei.",
        examples: &[Example::new(
            "add-hours 2026-03-29T01:30:00+01:00 1",
            "1 Stunde nach Sonntag, dem 29. März 2026, 01:30 Uhr, ist es Sonntag, der 29. März \
             2026, 03:30 Uhr. Dazwischen wird die Uhr um eine Stunde vorgestellt.",
        )],
    },
    Command {
        name: "deadline-at-werktage",
        german: Some("ende-des-werktags"),
        task: Task::Ask(Call::DeadlineAtWerktage),
        operands: &[(Parameter::Instant, "EINGANG"), (Parameter::Count, "N")],
        options: &[],
        summary: "das Ende des N-ten Werktags nach dem Eingangstag",
        meaning: "Mit 0 das Ende des Eingangstags, ob Werktag oder nicht.",
        examples: &[Example::new(
            "deadline-at-werktage 2026-04-02T10:00:00+02:00 1",
            "Eingang am Donnerstag, dem 2. April 2026, um 10:00 Uhr: Die Frist bis zum Ablauf des \
             1. Werktags nach dem Eingangstag endet mit Ablauf des Dienstags, des 7. April 2026.",
        )],
    },
    Command {
        name: "end-of-werktag-after",
        german: Some("ablauf-des-werktags"),
        task: Task::Ask(Call::EndOfWerktagAfter),
        operands: &[(Parameter::Instant, "EINGANG"), (Parameter::Count, "N")],
        options: &[],
        summary: "dasselbe wie ende-des-werktags, unter dem anderen Namen der Quelle",
        meaning: "\
Das Ende des N-ten Werktags nach dem Eingangstag. Mit 0 das Ende des Eingangstags.",
        examples: &[Example::new(
            "end-of-werktag-after 2026-04-02T10:00:00+02:00 3",
            "Eingang am Donnerstag, dem 2. April 2026, um 10:00 Uhr: Die Frist bis zum Ablauf des \
             3. Werktags nach dem Eingangstag endet mit Ablauf des Donnerstags, des 9. April \
             2026.",
        )],
    },
    Command {
        name: "next-werktag-at",
        german: Some("naechster-werktag-um"),
        task: Task::Ask(Call::NextWerktagAt),
        operands: &[(Parameter::Instant, "EINGANG"), (Parameter::Clock, "UHRZEIT")],
        options: &[],
        summary: "die Uhrzeit am ersten Werktag nach dem Eingangstag",
        meaning: "Die Uhrzeit am ersten Werktag nach dem Eingangstag.",
        examples: &[Example::new(
            "next-werktag-at 2026-04-02T10:00:00+02:00 11:00",
            "Eingang am Donnerstag, dem 2. April 2026, um 10:00 Uhr: Die Frist bis 11:00 Uhr am \
             1. Werktag nach dem Eingangstag endet am Dienstag, dem 7. April 2026, um 11:00 Uhr.",
        )],
    },
    Command {
        name: "nth-werktag-at",
        german: Some("werktag-um"),
        task: Task::Ask(Call::NthWerktagAt),
        operands: &[
            (Parameter::Instant, "EINGANG"),
            (Parameter::Count, "N"),
            (Parameter::Clock, "UHRZEIT"),
        ],
        options: &[],
        summary: "die Uhrzeit am N-ten Werktag nach dem Eingangstag",
        meaning: "Die Uhrzeit am N-ten Werktag nach dem Eingangstag; 0 zählt wie 1.",
        examples: &[Example::new(
            "nth-werktag-at 2026-04-02T10:00:00+02:00 2 06:00",
            "Eingang am Donnerstag, dem 2. April 2026, um 10:00 Uhr: Die Frist bis 06:00 Uhr am \
             2. Werktag nach dem Eingangstag endet am Mittwoch, dem 8. April 2026, um 06:00 Uhr.",
        )],
    },
    Command {
        name: "frist",
        german: None,
        task: Task::Ask(Call::FristDueAt),
        operands: &[(Parameter::Shape, "FORM [N] [UHRZEIT]"), (Parameter::Instant, "EINGANG")],
        options: &[],
        summary: "wann eine Antwort fällig ist",
        meaning: "Wann die Antwort auf eine Nachricht spätestens gegeben sein muss, je nach FORM.",
        examples: &[Example::new(
            "frist EndeDesWerktags 3 2.4.2026 10:00",
            "Eingang am Donnerstag, dem 2. April 2026, um 10:00 Uhr: Die Frist bis zum Ablauf des \
             3. Werktags nach dem Eingangstag endet mit Ablauf des Donnerstags, des 9. April \
             2026.",
        ), Example::new(
            "frist SameDayAt 12:00 2026-01-09T12:00:00+01:00",
            "Eingang am Freitag, dem 9. Januar 2026, um 12:00 Uhr: Die Frist endet am nächsten \
             Werktag, am Montag, dem 12. Januar 2026, um 12:00 Uhr. Am Eingangstag war 12:00 Uhr \
             schon erreicht.",
        )],
    },
];
