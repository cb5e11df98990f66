use crate::command::Command;
use crate::culprit;
use crate::errors::unless_refused;
use crate::uebertragung::Uebertragungstage;
use mako_fristen_host::{
    berlin_date, ffi, tag_des_beginns, AbmeldungVorlauf, Answer, Call, ContrlAnlass, Date, Eeg,
    Error, Frage, FristShape, Parameter, Question, Refusal, Span, Sparte, VorlaufShape,
    VorlaufVerdict,
};

/// A call with its arguments, as they were given. What a command has read by its name is here for
/// its sentence; that it should be missing, a name without a code, is a refusal of its own.
#[derive(Debug)]
pub struct Inquiry {
    pub call: Call,
    pub question: Question,
    /// Of any length: a question has room for a short one only.
    pub reason: Vec<u8>,
    pub frist: Option<FristShape>,
    pub vorlauf: Option<VorlaufShape>,
    /// Why what was given is no question: Berlin's clock does not show the time of an instant.
    pub refused: Option<Refused>,
    /// What whoever asked should know, beside the answer.
    pub notes: Vec<String>,
    /// The names of the instants whose time Berlin's clock shows twice.
    pub twice: Vec<&'static str>,
    /// The names of those whose time it does not show.
    pub absent: Vec<&'static str>,
}

/// A refusal with its sentence.
#[derive(Clone, Debug, PartialEq, Eq)]
pub struct Refused {
    pub refusal: Refusal,
    pub sentence: String,
}

impl Inquiry {
    pub fn new(call: Call) -> Inquiry {
        Inquiry {
            call,
            question: Question::new(call),
            reason: Vec::new(),
            frist: None,
            vorlauf: None,
            refused: None,
            notes: Vec::new(),
            twice: Vec::new(),
            absent: Vec::new(),
        }
    }

    /// The same of a CONTRL, with a change day.
    pub fn put_off_to(self, stichtag: Date) -> Inquiry {
        let call = Call::ContrlDueAtChange;
        Inquiry { call, question: Question { call, date: stichtag, ..self.question }, ..self }
    }

    /// For what was read; of several refusals the first, and why each of that number.
    pub fn refuse(&mut self, refused: Refused) {
        match &mut self.refused {
            None => self.refused = Some(refused),
            Some(first) if first.refusal == refused.refusal => {
                first.sentence += &format!(" {}", refused.sentence);
            }
            Some(_) => {}
        }
    }

    /// The answer of the call, read: neither a refusal nor bytes that the documents do not have.
    pub fn answer(&self) -> Result<Answer, Error> {
        if let Some(refused) = &self.refused {
            return Err(refused.refusal.into());
        }
        Answer::of(self.call, |answer| self.put(answer))
    }

    fn put(&self, answer: &mut [u8]) -> u8 {
        let (reason, eeg) = (&self.reason[..], self.question.code);
        let (from, to) = (self.question.date, self.question.date2);
        match self.call {
            Call::AbmeldungFuer => ffi::mf_abmeldung_fuer(reason, eeg, answer),
            Call::AbmeldungCheck => ffi::mf_abmeldung_check(
                reason, eeg, from.year, from.month, from.day, to.year, to.month, to.day, answer,
            ),
            _ => self.question.ask(answer),
        }
    }

    /// The same as a question of a file; none for a call that a file does not ask.
    pub fn frage(&self) -> Option<Frage> {
        let Question { code, date, date2, instant, .. } = self.question;
        let (received, uebertragungstag, anchor) = (instant, date, date2);
        Some(match self.call {
            Call::ContrlDueAt => Frage::Contrl { received, anlass: ContrlAnlass::of_code(code)? },
            Call::FristDueAt => Frage::Frist { shape: self.frist?, received },
            Call::VorlaufCheck => Frage::Check { shape: self.vorlauf?, uebertragungstag, anchor },
            Call::VorlaufSpan => Frage::Span { shape: self.vorlauf?, uebertragungstag },
            _ => return None,
        })
    }

    /// Why it is refused, as a sentence.
    pub fn beschreibung(&self, refusal: Refusal) -> String {
        match &self.refused {
            Some(refused) => refused.sentence.clone(),
            None => culprit::of(self, refusal),
        }
    }

    /// What the usage calls a parameter.
    pub fn label(&self, parameter: Parameter) -> &'static str {
        Command::of(self.call).and_then(|command| command.label(parameter)).unwrap_or_default()
    }

    /// The Sparte, be it the first code or the second.
    pub fn sparte(&self) -> Result<Sparte, Error> {
        let second = self.call.takes(Parameter::SecondSparte);
        let code = if second { self.question.code2 } else { self.question.code };
        Ok(Sparte::of_code(code).ok_or(Refusal::UnknownCode)?)
    }

    /// The EEG mark of a deregistration.
    pub fn eeg(&self) -> Result<Eeg, Error> {
        Ok(Eeg::of_code(self.question.code).ok_or(Refusal::UnknownCode)?)
    }

    /// The case of a deregistration.
    pub fn abmeldung(&self) -> Result<AbmeldungVorlauf, Error> {
        AbmeldungVorlauf::fuer(&self.reason, self.eeg()?)
    }

    /// The shape of an answer's Frist. The calls that step by Werktage are shapes under other names.
    pub fn frist(&self) -> Result<FristShape, Error> {
        let Question { n, clock: at, .. } = self.question;
        Ok(match self.call {
            Call::DeadlineAtWerktage | Call::EndOfWerktagAfter => FristShape::EndOfWerktag(n),
            Call::NextWerktagAt => FristShape::WerktagAt { werktage: 1, at },
            Call::NthWerktagAt => FristShape::WerktagAt { werktage: n, at },
            _ => self.frist.ok_or(Refusal::UnknownCode)?,
        })
    }

    /// The shape of a Vorlauffrist. Where there is a verdict, there is a shape.
    pub fn shape(&self) -> Result<VorlaufShape, Error> {
        let shape = match self.call {
            Call::AbmeldungCheck => self.abmeldung()?.shape(),
            _ => self.vorlauf,
        };
        Ok(shape.ok_or(Refusal::UnknownCode)?)
    }

    /// The transmission day of a verdict.
    pub fn transmission_day(&self) -> Result<Date, Error> {
        match self.call.takes(Parameter::Instant) {
            true => berlin_date(self.question.instant),
            false => Ok(self.question.date),
        }
    }

    /// The anchor of a verdict.
    pub fn anchor(&self) -> Result<Date, Error> {
        match self.call.takes(Parameter::SecondInstant) {
            true => tag_des_beginns(self.question.instant2, self.sparte()?),
            false => Ok(self.question.date2),
        }
    }

    /// The anchors that the transmission day of a verdict allows; none if an end of their span
    /// leaves the calendar.
    pub fn allowed(&self) -> Result<Option<Span>, Error> {
        unless_refused(self.shape()?.span(self.transmission_day()?))
    }

    /// The transmission days that the anchor of a verdict allows; none if an end of them leaves the
    /// calendar.
    pub fn transmission_days(&self) -> Result<Option<Uebertragungstage>, Error> {
        unless_refused(Uebertragungstage::of(self.shape()?, self.anchor()?))
    }

    /// Whether an anchor is acceptable: its verdict is Ok. One whose verdict is refused is not.
    pub fn accepts(&self, anchor: Date) -> Result<bool, Error> {
        let judged = unless_refused(self.shape()?.check(self.transmission_day()?, anchor))?;
        Ok(judged.is_some_and(|judgement| judgement.verdict == VorlaufVerdict::Ok))
    }
}
