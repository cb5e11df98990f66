use crate::command::{Command, Example, Task};

/// The file of the example.
const FILE: &str = include_str!("portfolio.csv");

pub const COMMANDS: [Command; 1] = [Command {
    name: "portfolio",
    german: None,
    task: Task::Portfolio,
    operands: &[],
    options: &["[DATEI]"],
    summary: "zählt die Werktage von jeder Zeile einer Datei oder der Standardeingabe, VON und BIS",
    meaning: "\
Je Zeile zwei Tage wie 2026-04-02, VON und BIS, und dazwischen ein Komma, ein Semikolon,
Leerzeichen oder Tabulatoren; jeder auch in \"Anführungszeichen\". Ohne DATEI oder mit -
wird die Standardeingabe gelesen.

Zu jeder Zeile eine Zeile mit der Zahl der Werktage nach VON bis einschließlich BIS, wie
werktage-zwischen sie zählt. Sie ist leer zu einer leeren Zeile, zu einer, die mit #
beginnt, und zur Kopfzeile einer Tabelle: der ersten anderen, wenn sie keine Ziffer hat.
So steht jede Zahl neben ihrer Zeile:
  paste -d';' vertraege.csv <(./fristen portfolio vertraege.csv)
Hat die Tabelle weitere Spalten, so nimmt cut die beiden heraus:
  cut -d';' -f2,3 vertraege.csv | ./fristen portfolio

Eine Zeile, die sich nicht lesen lässt oder die einen Tag außerhalb des Kalenders hat,
wird mit ihrer Nummer gemeldet. Auch ihr Platz bleibt leer, und die anderen werden
trotzdem gezählt. Ende mit 64, wenn sich eine Zeile nicht lesen ließ, sonst mit 2, wenn
eine abgelehnt wurde.

Mit --json zu jeder Zeile eine Zeile JSON mit ihrer Nummer (line) und der Zahl (count).
Wo es keine gibt, steht null, und in refusal oder error, warum. Mit --bytes die vier
Bytes, die mf_portfolio an den Platz des Paares schreibt, hexadezimal; ffffffff, wenn ein
Tag außerhalb des Kalenders liegt.",
    examples: &[
        Example::new("portfolio portfolio.csv", "\n2457\n1").with_file("portfolio.csv", FILE)
    ],
}];
