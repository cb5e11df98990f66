use crate::command::{Command, Example, Task};

/// The file of the example.
const FILE: &str = include_str!("fragen.txt");

pub const COMMANDS: [Command; 1] = [Command {
    name: "fragen",
    german: None,
    task: Task::Fragen,
    operands: &[],
    options: &["[DATEI]", "[--roh]"],
    summary: "beantwortet die Fragen einer Datei oder der Standardeingabe, je Zeile eine",
    meaning: "\
Je Zeile eine Frage, in den Worten von contrl, frist, pruefen oder spanne und ohne Optionen,
mit Leerzeichen oder Tabulatoren dazwischen. Leere Zeilen und Zeilen, die mit # beginnen,
werden übergangen. Ohne DATEI oder mit - wird die Standardeingabe gelesen.

Je Frage eine Zeile mit der Antwort, auch wenn die Frage abgelehnt wird; davor steht die
Nummer der Zeile, in der gefragt wurde, bei --json als line. Eine Zeile, die sich nicht
lesen lässt, wird mit ihrer Nummer gemeldet, und die anderen werden trotzdem beantwortet.
Ende mit 64, wenn es eine solche Zeile gab, sonst mit 2, wenn eine Frage abgelehnt wurde,
und mit --status sonst mit 1, wenn eine Frist nicht gewahrt oder kein Tag zulässig ist.

Mit --kurz bleibt hinter der Nummer einer abgelehnten Frage der Platz leer; warum sie
abgelehnt wurde, steht in der Fehlerausgabe. Leer ist er auch, wo kein Termin zulässig ist.

Mit --roh sind Fragen und Antworten Datensätze von je 32 Bytes, wie mf_questions sie hat,
aber beliebig viele. Ist ihre Länge kein Vielfaches von 32, so wird abgelehnt (9) und
nichts ausgegeben.",
    examples: &[Example::new(
        "fragen fragen.txt",
        "\
Zeile 2: Eingang am Samstag, dem 10. Januar 2026, um 12:00 Uhr: Die CONTRL auf ALOCAT Gas ist \
fällig am Samstag, dem 10. Januar 2026, um 12:45 Uhr.
Zeile 3: Frist gewahrt, am letzten zulässigen Tag: Übertragungstag Freitag, 9. Januar 2026, Termin \
Montag, 12. Januar 2026. Zulässig sind Termine ab Samstag, dem 10. Januar 2026. Spätester \
Übertragungstag ist der 1. Werktag vor dem Termin: Freitag, der 9. Januar 2026.",
    )
    .with_file("fragen.txt", FILE)],
}];
