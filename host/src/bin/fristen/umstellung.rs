use mako_fristen_host::{
    berlin_at, berlin_date, berlin_midnight, contrl_due_at_change, Clock, ContrlAnlass, Date,
    Error, Instant, Question, Refusal,
};

/// The clock time on the day before the change day from which the window runs.
const BEGINN: Clock = Clock::new(18, 0, 0, 0);

/// The first and the last change day that the call takes.
const FAR_APART: [Date; 2] = [Date::new(1996, 1, 2), Date::new(2899, 12, 30)];

/// The Formatumstellung of a change day, beside the due instant of a CONTRL.
#[derive(Clone, Copy, Debug)]
pub struct Umstellung {
    /// The first instant of its window.
    pub from: Instant,
    /// The midnight at which the window ends, and which lies behind it.
    pub to: Instant,
    /// When the CONTRL would be due if there were no window.
    pub otherwise: Instant,
}

impl Umstellung {
    /// Of a question with a change day that is answered.
    pub fn of(question: &Question) -> Result<Umstellung, Error> {
        Umstellung::on(question.date, question)
    }

    /// Of a question without one: the Formatumstellung that has moved its due instant to the end of
    /// its window, the midnight behind the change day. None if none has.
    pub fn that_moved(question: &Question, due: Instant) -> Result<Option<Umstellung>, Error> {
        if otherwise(question)? == due {
            return Ok(None);
        }
        let stichtag = berlin_date(due)?.plus_days(-1).ok_or(Refusal::LeavesCalendar)?;
        Umstellung::on(stichtag, question).map(Some)
    }

    fn on(stichtag: Date, question: &Question) -> Result<Umstellung, Error> {
        let beside = |days| stichtag.plus_days(days).ok_or(Refusal::LeavesCalendar);
        let from = berlin_at(beside(-1)?, BEGINN)?;
        let to = berlin_midnight(beside(1)?)?;
        Ok(Umstellung { from, to, otherwise: otherwise(question)? })
    }
}

/// A window only puts off, and of two windows far apart one at the most does.
fn otherwise(question: &Question) -> Result<Instant, Error> {
    let anlass = ContrlAnlass::of_code(question.code).ok_or(Refusal::UnknownCode)?;
    let [first, last] =
        FAR_APART.map(|stichtag| contrl_due_at_change(question.instant, anlass, stichtag));
    Ok(first?.min(last?))
}
