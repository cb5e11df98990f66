use crate::streams::Output;
use crate::{errors, program};
use mako_fristen_host::{Error, Unreadable};
use std::io::{self, Write};
use std::process::ExitCode;

/// What the program ends with; from 64 on the numbers of sysexits.h. The higher one goes before the
/// lower.
#[derive(Clone, Copy, Debug, PartialEq, Eq, PartialOrd, Ord)]
#[repr(u8)]
pub enum Status {
    Answered = 0,
    /// No, too late or too early, where that is asked for as a status.
    No = 1,
    Refused = 2,
    /// Neither yes nor no, or no verdict.
    Neither = 3,
    Usage = 64,
    NoInput = 66,
    Unreadable = 70,
    OutputFailed = 74,
}

/// What the program prints, and the status it ends with. Each text ends with its line.
#[derive(Debug)]
pub struct Outcome {
    /// An answer or a refusal, to the standard output.
    text: String,
    /// To the standard error.
    complaint: String,
    /// What goes there before it.
    notes: Vec<String>,
    status: Status,
}

impl Outcome {
    pub fn answer(text: String) -> Outcome {
        let status = Status::Answered;
        Outcome { text, complaint: String::new(), notes: Vec::new(), status }
    }

    /// Everything is said already.
    pub fn silent(status: Status) -> Outcome {
        Outcome::answer(String::new()).ending(status)
    }

    pub fn complaint(complaint: String, status: Status) -> Outcome {
        Outcome::silent(status).complaining(complaint)
    }

    pub fn usage(text: String) -> Outcome {
        Outcome::complaint(text, Status::Usage)
    }

    pub fn unreadable(unreadable: &Unreadable) -> Outcome {
        Outcome::complaint(format!("{}\n", errors::unreadable(unreadable)), Status::Unreadable)
    }

    /// Where there is no answer that it could stand in.
    pub fn of_error(error: Error) -> Outcome {
        match error {
            Error::Refused(refusal) => {
                Outcome::complaint(format!("{}\n", errors::refused(refusal)), Status::Refused)
            }
            Error::Unreadable(unreadable) => Outcome::unreadable(&unreadable),
        }
    }

    /// After an output that failed, with the status until then. A reader that has gone away has
    /// read what it wanted.
    pub fn unwritten(error: &io::Error, status: Status) -> Outcome {
        if error.kind() == io::ErrorKind::BrokenPipe {
            return Outcome::silent(status);
        }
        let text = format!("{}: Die Ausgabe ließ sich nicht schreiben.\n", program::name());
        Outcome::complaint(text, Status::OutputFailed)
    }

    /// One after the other, with the status of the worst. Of several each has its place, if only an
    /// empty line.
    pub fn joined(outcomes: Vec<Outcome>, between: &str) -> Outcome {
        let several = outcomes.len() > 1;
        let mut joined = Outcome::silent(Status::Answered);
        for Outcome { text, complaint, notes, status } in outcomes {
            let between = if joined.text.is_empty() { "" } else { between };
            let text = if text.is_empty() && several { "\n" } else { &text };
            joined.text.extend([between, text]);
            joined.complaint.push_str(&complaint);
            joined.notes.extend(notes);
            joined.status = joined.status.max(status);
        }
        joined
    }

    /// With notes for whoever asked.
    pub fn noted(self, notes: Vec<String>) -> Outcome {
        Outcome { notes, ..self }
    }

    pub fn complaining(self, complaint: String) -> Outcome {
        Outcome { complaint, ..self }
    }

    /// With this status instead.
    pub fn ending(self, status: Status) -> Outcome {
        Outcome { status, ..self }
    }

    pub fn notes(&self) -> &[String] {
        &self.notes
    }

    /// The text and the complaint of an answer or a refusal, and which of them it is.
    pub fn reply(&self) -> Option<(&str, &str, Status)> {
        (self.status < Status::Usage).then_some((&self.text, &self.complaint, self.status))
    }

    pub fn print(&self) -> ExitCode {
        for note in &self.notes {
            // A note that cannot be written changes no answer.
            let text = format!("{}: {}\n", program::name(), hint(note));
            let _ = write(&mut io::stderr().lock(), &text);
        }
        let written = write(&mut Output::standard(), &self.text)
            .and_then(|()| write(&mut io::stderr().lock(), &self.complaint));
        let status = written.map_or_else(
            |error| {
                let failed = Outcome::unwritten(&error, self.status);
                // Nothing is left to be done if this fails too.
                let _ = write(&mut io::stderr().lock(), &failed.complaint);
                failed.status
            },
            |()| self.status,
        );
        ExitCode::from(status as u8)
    }
}

/// A note as a sentence, which may be a question.
pub fn hint(note: &str) -> String {
    let end = if note.ends_with('?') { "" } else { "." };
    format!("Hinweis: {note}{end}")
}

/// Where there is nothing to write, it does not matter whether it could be.
fn write(to: &mut impl Write, text: &str) -> io::Result<()> {
    if text.is_empty() {
        return Ok(());
    }
    to.write_all(text.as_bytes())?;
    to.flush()
}

#[cfg(test)]
mod tests {
    use super::*;
    use mako_fristen_host::{Answer, Call, DayReason};

    #[test]
    fn an_answer_that_cannot_be_read_is_neither_an_answer_nor_a_refusal() {
        let answer = Answer::default().with_kind(23);
        let read = answer.read(Call::IsWerktag).map(|reason: DayReason| reason.to_string());
        let Err(Error::Unreadable(unreadable)) = read else { panic!("{read:?}") };
        let outcome = Outcome::unreadable(&unreadable);
        let bytes = format!("0017{}", "00".repeat(30));
        let text = format!(
            "fristen: Die Antwort von mf_is_werktag ist nicht lesbar (Nummer 0, Bytes {bytes}).\n\
             Programm und Bibliothek sind nicht vom selben Stand.\n"
        );
        assert_eq!(outcome.reply(), None);
        assert_eq!((outcome.text, outcome.complaint), (String::new(), text));
        assert_eq!(outcome.status as u8, 70);
    }

    #[test]
    fn an_answer_and_a_refusal() {
        let outcome = Outcome::answer("Ja.\n".to_owned());
        assert_eq!(outcome.reply(), Some(("Ja.\n", "", Status::Answered)));
        let outcome = Outcome::complaint("Abgelehnt (1).\n".to_owned(), Status::Refused);
        assert_eq!(outcome.reply(), Some(("", "Abgelehnt (1).\n", Status::Refused)));
    }
}
