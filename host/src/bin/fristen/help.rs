//! The help of the program and of each subcommand.

use crate::command::{Command, Example, GROUPS};
use crate::names::{Frist, Named, Vorlauf, FRISTEN, VORLAUF};
use crate::program;
use mako_fristen_host::{Call, DayReason, Parameter};

/// The program's name in the texts of the tables.
pub const IN_TEXTS: &str = "./fristen";

pub const HEAD: &str = "Werktage und Fristen der Marktkommunikation";

pub const CALLED: &str = "BEFEHL ANGABEN [--json | --kurz | --bytes] [--status]";

pub const FOOT: &str = "\
Jeder Befehl auch unter dem Namen der Quelle und dem des Host-Aufrufs, mit Binde- oder
Unterstrichen, in beliebiger Groß- und Kleinschreibung: contrl-due-at, mf_contrl_due_at ...

Angaben
  DATUM       wie 2026-04-02, 2.4.2026 oder 2. April 2026, auch heute, morgen, übermorgen,
              gestern oder vorgestern; vom 1. Januar 1996 bis zum 31. Dezember 2899. Auch
              VON, BIS, TERMIN, ÜBERTRAGUNGSTAG, ZUORDNUNGSENDE und -BEGINN, STICHTAG
  UHRZEIT     in Berlin, wie 13:00, 13 Uhr, 13:00:00 oder 13:00:00,5
  ZEITPUNKT   wie 31.3.2026 11:59 oder 2026-03-31 11:59:59 in Berlin, auch heute 11 Uhr
              oder jetzt; mit Abstand zu UTC wie 2026-03-31T11:59:59+02:00 oder
              2026-03-31T09:59:59Z; oder @SEKUNDEN seit 1970, auch @1774951199,5.
              Zeigt die Uhr in Berlin eine Zeit zweimal, so gilt die frühere. Auch
              EINGANG, ÜBERTRAGEN und TERMINBEGINN
  JAHR        wie 2026
  MONAT       wie 2026-04, 4.2026, April oder April 2026
  N           eine Zahl von 0 bis 4294967295; so auch VON und BIS hinter Zeitfenster
  PID         der Prüfidentifikator der Nachricht, eine Zahl wie 44001
  GRUND       der Transaktionsgrund, genau wie in der Nachricht
  Namen       FORM, ANLASS, SPARTE und was nach --eeg steht: in beliebiger Groß- und
              Kleinschreibung; nur beim GRUND kommt es auf sie an

Optionen, an beliebiger Stelle
  --json      eine Zeile JSON
  --kurz      nur der Wert, wie 2026-04-07; eine Ablehnung steht in der Fehlerausgabe
  --bytes     die 32 Bytes der Antwort, hexadezimal, bei portfolio vier zu jeder Zeile;
              nicht bei kalender und bis-wann
  --status    Ja oder Nein und Urteile auch als Status: 0 ja oder gewahrt, 1 nein, zu spät,
              zu früh oder kein zulässiger Tag, 3 weder noch oder kein Urteil
  --roh       nur bei fragen: Datensätze von 32 Bytes statt Zeilen
  --eeg       nur bei abmeldung-fuer und abmeldung: ja, nein oder unbekannt
  --stichtag  nur bei contrl: der Tag einer verlegten Formatumstellung
  --help, -h  Hilfe, auch zu einem Befehl; so auch: hilfe BEFEHL
  --version   die Version des Programms
  --manpage   die Handbuchseite für man
  --bash-completion
              die Vervollständigung für bash
  --          danach folgen keine Optionen mehr

Ende mit 0: Antwort. 2: abgelehnt. 64: falscher Aufruf, auch in einer Zeile von fragen
oder portfolio. 66: Datei nicht lesbar. 69: nicht zu bauen. 70: Antwort der Bibliothek
nicht lesbar. 74: Ausgabe gestört.
";

/// Above the numbers of the day test.
const NUMBERS: &str =
    "Nummern: „kind“ in --json; in --bytes das zweite Byte, hexadezimal (17 ist 11)";

/// Below them.
const REFUSED: &str = "\
20 kommt nicht vor: Pfingstsonntag ist immer ein Sonntag.
Ein abgelehnter Aufruf ist keine Antwort, auch wenn sein zweites Byte 0 ist. Das erste
hat die Nummer der Ablehnung, in --json „refusal“, und der Aufruf endet mit 2.
";

/// What the example of a shape stands before, in place of the other operands.
const EXAMPLE_DAYS: &[(Parameter, &str)] = &[
    (Parameter::Date, "2026-04-02"),
    (Parameter::SecondDate, "2026-04-13"),
    (Parameter::Instant, "2026-04-02T10:00"),
    (Parameter::SecondInstant, "2026-04-13T00:00"),
    (Parameter::SecondSparte, "Strom"),
];

/// The list of all subcommands.
pub fn general() -> String {
    let row = |command: &Command| {
        let also = command.german.map_or(String::new(), |_| format!(", auch {}", command.name));
        let usage = command.usage(command.german_name());
        format!("  {usage}{also}\n      {}\n", command.summary)
    };
    let groups = GROUPS.map(|(heading, commands)| {
        let rows: Vec<String> = commands.iter().map(row).collect();
        format!("\n{heading}\n{}", rows.concat())
    });
    let called = program::called();
    format!("{HEAD}\n\nAufruf: {called} {CALLED}\n{}\n{FOOT}", groups.concat())
}

/// The usage by this name, the other names, the meaning, the shapes and the examples with their
/// output.
pub fn of(command: &Command, name: &str) -> String {
    let name = command.known_by(name);
    let (called, usage) = (program::called(), command.usage(&name));
    let others: Vec<String> = command.names().filter(|other| *other != name).collect();
    let also = match others.is_empty() {
        false => format!("Auch: {}\n", others.join(", ")),
        true => String::new(),
    };
    let heading = if command.examples.len() == 1 { "Beispiel" } else { "Beispiele" };
    let shown = |it: &Example| example(it, &by_name(command, &name, it.call));
    let examples: Vec<String> = command.examples.iter().map(shown).collect();
    let (shapes, numbers, examples) =
        (shapes(command, &name), numbers(command), examples.join("\n"));
    let meaning = command.meaning.replace(IN_TEXTS, called);
    format!("Aufruf: {called} {usage}\n{also}\n{meaning}\n{shapes}{numbers}\n{heading}\n{examples}")
}

/// A call of a subcommand, with another of its names.
pub fn by_name(command: &Command, name: &str, call: &str) -> String {
    call.strip_prefix(command.name).map_or_else(|| call.to_owned(), |rest| format!("{name}{rest}"))
}

fn example(Example { output, file, .. }: &Example, call: &str) -> String {
    let file =
        file.map_or(String::new(), |(name, content)| format!("  $ cat {name}\n{}", block(content)));
    format!("{file}  $ {} {call}\n{}", program::called(), block(output))
}

fn block(text: &str) -> String {
    text.lines().map(indented).collect()
}

fn indented(line: &str) -> String {
    if line.is_empty() {
        return "\n".to_owned();
    }
    format!("  {line}\n")
}

/// Each shape that the subcommand takes: its names, what it says, and a call.
fn shapes(command: &Command, name: &str) -> String {
    let rows = shape_rows(command);
    if rows.is_empty() {
        return String::new();
    }
    let row = |Shape { names, counts, meaning, call }: Shape| {
        let names = names.join(", auch ");
        let counts: String = counts.iter().map(|count| format!(" {count}")).collect();
        let call = call.replacen(command.german_name(), name, 1);
        format!("  {names}{counts}\n      {meaning}\n      $ {} {call}\n", program::called())
    };
    format!("\nFORM\n{}", rows.into_iter().map(row).collect::<String>())
}

/// A shape as a help shows it.
#[derive(Debug)]
pub struct Shape {
    pub names: Vec<&'static str>,
    pub counts: Vec<&'static str>,
    pub meaning: &'static str,
    /// An example: the arguments of a call of the subcommand.
    pub call: String,
}

/// The shapes that a subcommand takes.
pub fn shape_rows(command: &Command) -> Vec<Shape> {
    let takes = |parameter| command.operands.iter().any(|(operand, _)| *operand == parameter);
    if takes(Parameter::VorlaufShape) {
        return VORLAUF.iter().map(|row| vorlauf(command, row)).collect();
    }
    if takes(Parameter::Shape) {
        return FRISTEN.iter().map(|row| frist(command, row)).collect();
    }
    Vec::new()
}

fn vorlauf(command: &Command, row: &Named<Vorlauf>) -> Shape {
    let Vorlauf { counts, meaning, example, .. } = row.value;
    Shape {
        names: german_first(row),
        counts: counts.to_vec(),
        meaning,
        call: call(command, example),
    }
}

fn frist(command: &Command, row: &Named<Frist>) -> Shape {
    let Frist { count, clock, meaning, example, .. } = row.value;
    let counts = count.then_some("N").into_iter().chain(clock.then_some("UHRZEIT")).collect();
    Shape { names: german_first(row), counts, meaning, call: call(command, example) }
}

fn german_first<T>(row: &Named<T>) -> Vec<&'static str> {
    row.german.into_iter().chain([row.name]).collect()
}

/// The subcommand with the shape, and a value for each operand behind it.
fn call(command: &Command, shape: &str) -> String {
    let value = |parameter| EXAMPLE_DAYS.iter().find(|(known, _)| *known == parameter);
    let values = command.operands.iter().filter_map(|(operand, _)| Some(value(*operand)?.1));
    [command.german_name(), shape].into_iter().chain(values).collect::<Vec<_>>().join(" ")
}

/// The numbers of the day test, in its help.
pub fn numbers(command: &Command) -> String {
    match command.call() {
        Some(Call::IsWerktag) => format!("\n{NUMBERS}\n{}\n{REFUSED}", reasons()),
        _ => String::new(),
    }
}

fn reasons() -> String {
    let row = |reason: DayReason| indented(&format!("{:2}  {reason}", reason.number()));
    (0..).map_while(DayReason::of_number).map(row).collect()
}
