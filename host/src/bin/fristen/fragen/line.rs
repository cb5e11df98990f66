use crate::arguments::Arguments;
use crate::command::{questions, Command};
use crate::inquiry::Inquiry;
use crate::lines::Line;
use crate::usage::{perhaps, quoted, Usage};
use crate::{names, operands};
use mako_fristen_host::{Call, Frage};
use std::ffi::{OsStr, OsString};

/// What a line asks.
#[derive(Debug)]
pub struct Asked {
    pub inquiry: Inquiry,
    /// The same as a file has it.
    pub frage: Frage,
    /// The words behind the first.
    pub given: Vec<OsString>,
}

/// What a line asks, or why it cannot be read. None if it is blank or a comment.
pub fn read(line: &Line) -> Option<Result<Asked, Usage>> {
    (!line.is_passed_over()).then(|| asked(line.read()?))
}

fn asked(text: &str) -> Result<Asked, Usage> {
    let words: Vec<&str> = text.split([' ', '\t']).filter(|word| !word.is_empty()).collect();
    let name = words.first().copied().unwrap_or_default();
    let (command, call) = find(name)?;
    question(command, call, &words).map_err(|usage| usage.of(command, name))
}

fn find(name: &str) -> Result<(&'static Command, Call), Usage> {
    let found = questions().find(|(command, _)| command.is_named(name));
    found.ok_or_else(|| unknown(OsStr::new(name)))
}

/// A command of its own may not be one of a file.
fn unknown(name: &OsStr) -> Usage {
    let all: Vec<_> = questions().map(|(command, _)| command.german_name()).collect();
    let expected = names::one_of(&all);
    if let Some(command) = name.to_str().and_then(Command::find) {
        let name = command.known_by(&name.to_string_lossy());
        return Usage::new(format!("{name} gibt es in einer Datei nicht; erwartet {expected}"));
    }
    let known: Vec<String> = questions().flat_map(|(command, _)| command.names()).collect();
    let perhaps = perhaps(name, known.iter().map(String::as_str), all);
    Usage::new(format!("erwartet {expected}, nicht {}", quoted(name))).meaning(perhaps)
}

fn question(command: &Command, call: Call, words: &[&str]) -> Result<Asked, Usage> {
    let arguments = Arguments::of_line(words)?;
    let inquiry = operands::inquiry(command, call, &arguments)?;
    let frage = inquiry.frage().ok_or_else(|| Usage::new("erwartet eine Frage"))?;
    Ok(Asked { inquiry, frage, given: arguments.given })
}

#[cfg(test)]
mod tests {
    use super::*;
    use mako_fristen_host::Fragesatz;

    fn whole(text: &[u8]) -> Option<Result<Asked, Usage>> {
        read(&Line { number: 1, text, cut: false })
    }

    fn complaint(text: &[u8]) -> String {
        let usage = whole(text).expect("no blank line").expect_err("no question");
        usage.of_line(7)
    }

    /// Every shape, by each name of its command.
    #[test]
    fn a_line_asks_a_file_what_its_command_asks() {
        let lines = [
            "contrl GasAlocat 2026-01-10T12:00:00+01:00",
            "contrl-due-at regelfall @1774951199.7",
            "mf_frist_due_at WerktagAt 2 06:00:30 2026-01-10T12:00:00+01:00",
            "frist_due_at EndOfWerktag 3 2026-01-10T12:00:00+01:00",
            "\tfrist  SameDayAt \t 24:00 2026-01-10T12:00:00+01:00 ",
            "frist SameDay 2026-01-10T12:00:00+01:00",
            "check WindowWerktageBefore 8 5 2026-01-05 2026-01-13",
            "mf_vorlauf_check TagVorDemLetztenWerktagVor 2026-01-08 2026-01-10",
            "vorlauf-span LatestMonateUndWerktageBefore 2 1 2026-01-05",
            "span Korridor 4294967295 9999-99-99",
            "Contrl GasAlocat 2026-01-10 12:00",
            "contrl GasAlocat heute 12:00:00,5",
            "pruefen werktagevorher 1 10.01.2026 12.1.2026",
            "SPANNE MonateVorher 1 heute",
            "frist SelberTagUm 9:30 2026-01-10T12:00+0100",
        ];
        for line in lines {
            let asked = whole(line.as_bytes()).expect("a question").expect("one that is read");
            assert_eq!(asked.frage.question(), asked.inquiry.question, "{line}");
            assert_eq!(asked.frage.call(), asked.inquiry.call, "{line}");
            assert_eq!(asked.given, words(line)[1..], "{line}");
        }
    }

    fn words(line: &str) -> Vec<&str> {
        line.split_whitespace().collect()
    }

    /// The calls of the records, in the order of the operations.
    #[test]
    fn the_questions_are_those_of_a_file() {
        let calls = (0..=4).map(|operation| Fragesatz::default().with_operation(operation).call());
        let questions = questions().map(|(_, call)| Some(call)).chain([None]);
        assert_eq!(calls.collect::<Vec<_>>(), questions.collect::<Vec<_>>());
    }

    #[test]
    fn a_blank_line_and_a_comment_ask_nothing() {
        for text in [&b""[..], b" \t ", b"#", b"\t # contrl", b"#\xff"] {
            assert!(whole(text).is_none());
        }
        let long = |text| read(&Line { number: 1, text, cut: true });
        assert!(long(b"  # Anfang").is_none());
        assert!(long(b"   ").is_some_and(|read| read.is_err()), "a question may follow");
    }

    #[test]
    fn a_line_that_cannot_be_read_says_what_was_expected() {
        let cases: [(&[u8], &str); 6] = [
            (
                b"chekc Korridor 1 2026-01-01 2026-01-02",
                "erwartet contrl, frist, pruefen oder spanne, nicht „chekc“. Meinten Sie check?",
            ),
            (
                b"tag 2026-01-01",
                "tag gibt es in einer Datei nicht; erwartet contrl, frist, pruefen oder spanne",
            ),
            (b"\xc4ndern", "erwartet Text in UTF-8, nicht „\u{fffd}ndern“"),
            (
                b"span Korridor 1 2026-01-01 --json",
                "Optionen gibt es in einer Zeile nicht: „--json“ \
                 (Aufbau: span FORM [ZAHLEN] ÜBERTRAGUNGSTAG)",
            ),
            (b"contrl Regelfall", "es fehlt: EINGANG (Aufbau: contrl ANLASS EINGANG)"),
            (
                b"span Korridor 1 2026-01-01\r 5",
                "ÜBERTRAGUNGSTAG: erwartet ein Datum wie 2026-04-02 oder 2.4.2026, nicht \
                 „2026-01-01\\u{d}“. Meinten Sie 1.1.2026? \
                 (Aufbau: span FORM [ZAHLEN] ÜBERTRAGUNGSTAG)",
            ),
        ];
        for (text, expected) in cases {
            assert_eq!(complaint(text), format!("fristen: Zeile 7: {expected}\n"));
        }
    }
}
