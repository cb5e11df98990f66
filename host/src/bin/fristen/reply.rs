use crate::arguments::Form;
use crate::inquiry::Inquiry;
use crate::json::Json;
use crate::outcome::{Outcome, Status};
use crate::report::{self, refusal_json};
use crate::{errors, ja_nein, program, sentences, short};
use mako_fristen_host::{Answer, Error, Refusal};
use std::ffi::OsString;

/// How a question is answered.
#[derive(Clone, Copy, Debug)]
pub struct Reply<'a> {
    pub form: Form,
    /// Whether yes or no is to be a status too.
    pub status: bool,
    /// The arguments, as given.
    pub given: &'a [OsString],
    /// Where the question stands in a file. The reply is then one line that begins with the number.
    pub line: Option<u64>,
}

impl Reply<'_> {
    pub fn outcome(&self, inquiry: &Inquiry, answer: Result<Answer, Error>) -> Outcome {
        let said = match answer.and_then(|answer| self.answered(inquiry, &answer)) {
            Err(Error::Refused(refusal)) => {
                self.refused(refusal, &inquiry.beschreibung(refusal), |refusal| {
                    report::refused(inquiry, self.given, refusal)
                })
            }
            said => said,
        };
        said.unwrap_or_else(Outcome::of_error).noted(inquiry.notes.clone())
    }

    fn answered(&self, inquiry: &Inquiry, answer: &Answer) -> Result<Outcome, Error> {
        let text = match self.form {
            Form::Sentence => self.sentences(&sentences::of(inquiry, answer)?),
            Form::Json => self.json(report::answered(inquiry, self.given, answer)?),
            Form::Bytes => self.text(&format!("{answer:x}")),
            Form::Short => self.text(&short::of(inquiry, answer)?),
        };
        let status = match self.status {
            true => ja_nein::status(inquiry.call, answer)?,
            false => Status::Answered,
        };
        Ok(Outcome::answer(text).ending(status))
    }

    /// Of a command that is no call: its sentence, its bare value, the sentence of its refusal, and
    /// the object of either. There are no bytes.
    pub fn said<T>(
        &self,
        answer: Result<T, Error>,
        sentence: impl FnOnce(&T) -> String,
        short: impl FnOnce(&T) -> String,
        refused: impl FnOnce(Refusal) -> String,
        json: impl FnOnce(Json, Option<&T>) -> Json,
    ) -> Outcome {
        let said = match answer {
            Ok(answer) => Ok(Outcome::answer(match self.form {
                Form::Json => self.json(json(Json::Null, Some(&answer))),
                Form::Short => self.text(&short(&answer)),
                Form::Sentence | Form::Bytes => self.text(&sentence(&answer)),
            })),
            Err(Error::Refused(refusal)) => {
                self.refused(refusal, &refused(refusal), |refusal| Ok(json(refusal, None)))
            }
            Err(error) => Err(error),
        };
        said.unwrap_or_else(Outcome::of_error)
    }

    /// The refusal with its sentence; `json` has the rest of the object.
    fn refused(
        &self,
        refusal: Refusal,
        sentence: &str,
        json: impl FnOnce(Json) -> Result<Json, Error>,
    ) -> Result<Outcome, Error> {
        let said = errors::refused_as(refusal, sentence);
        let text = match self.form {
            Form::Sentence => self.sentences(&said),
            Form::Json => self.json(json(refusal_json(refusal, sentence))?),
            Form::Bytes => self.text(&format!("{:x}", Answer::refused(refusal))),
            Form::Short => return Ok(self.without_value(&said)),
        };
        Ok(Outcome::answer(text).ending(Status::Refused))
    }

    /// Where a value is expected, nothing else may stand.
    fn without_value(&self, said: &str) -> Outcome {
        let name = program::name();
        let (place, complaint) = match self.line {
            Some(line) => (self.text(""), format!("{name}: Zeile {line}: {said}\n")),
            None => (String::new(), format!("{name}: {said}\n")),
        };
        Outcome::answer(place).complaining(complaint).ending(Status::Refused)
    }

    /// The mark of a line is a word, since '3: 1 Kalendertag zu spät' would be heard as one number.
    fn sentences(&self, text: &str) -> String {
        match self.line {
            Some(line) => format!("Zeile {line}: {}\n", text.replace('\n', " ")),
            None => format!("{text}\n"),
        }
    }

    /// A bare value or the bytes.
    fn text(&self, text: &str) -> String {
        match self.line {
            Some(line) if text.is_empty() => format!("{line}:\n"),
            Some(line) => format!("{line}: {text}\n"),
            None => format!("{text}\n"),
        }
    }

    fn json(&self, json: Json) -> String {
        match self.line {
            Some(line) => format!("{}\n", json.in_line(line)),
            None => format!("{json}\n"),
        }
    }
}
