//! Counts for a whole portfolio: the pairs of dates of an input, one in each line.

mod line;

use crate::arguments::Form;
use crate::culprit::date_why;
use crate::errors;
use crate::input::Input;
use crate::json::Json;
use crate::lines::Line;
use crate::outcome::{Outcome, Status};
use crate::program;
use crate::report::{refusal_json, Asked};
use crate::run::Run;
use crate::usage::Usage;
use line::{Given, Pair, Reader, LABELS};
use mako_fristen_host::{portfolio, Error, Refusal, MOST_PAIRS, OUT_OF_RANGE};

/// Counts each line as it comes, in the form.
pub fn lines(input: Input, form: Form) -> Outcome {
    let mut run = Run::new(&input, "portfolio", "Paare gezählt");
    let mut reader = Reader::new(form == Form::Json);
    let read = |line: &Line| Some((line.number, reader.read(line)));
    let ended = run.lines(input, MOST_PAIRS, read, |run, batch| answer(run, batch, form));
    run.outcome(ended)
}

/// Lines with their numbers: their dates, if there are any, or why they cannot be read.
type Batch = Vec<(u64, Result<Option<Given>, Usage>)>;

/// Each line has its own, so that both can stand side by side.
fn answer(run: &mut Run, batch: &mut Batch, form: Form) -> Result<(), Outcome> {
    // What has no pair keeps its place with what is no date, whose count is not read.
    let pair = |read: &Result<Option<Given>, _>| Some(read.as_ref().ok()?.as_ref()?.pair);
    let pairs: Vec<Pair> = batch.iter().map(|(_, read)| pair(read).unwrap_or_default()).collect();
    for ((line, read), count) in batch.drain(..).zip(portfolio(&pairs)) {
        let place = Place { line, form };
        match (read, count) {
            (Ok(Some(given)), Ok(count)) => {
                run.say(place.counted(&given, count).as_bytes(), 1, Status::Answered)?;
            }
            (Ok(Some(given)), Err(Error::Refused(refusal))) => {
                run.name_line(&place.complaint(given.pair, refusal), Status::Refused)?;
                run.say(place.refused(&given, refusal).as_bytes(), 1, Status::Refused)?;
            }
            (Ok(Some(_)), Err(Error::Unreadable(unreadable))) => {
                return Err(Outcome::unreadable(&unreadable));
            }
            (Ok(None), _) => run.say(place.empty().as_bytes(), 0, Status::Answered)?,
            (Err(usage), _) => {
                run.complain(&usage.of_line(line))?;
                run.say(place.unread(&usage).as_bytes(), 0, Status::Usage)?;
            }
        }
    }
    Ok(())
}

/// The bytes of an entry of the third list.
fn entry(number: u32) -> String {
    let [a, b, c, d] = number.to_le_bytes();
    format!("{a:02x}{b:02x}{c:02x}{d:02x}\n")
}

/// Where a line's count stands. What has none is empty, or null in JSON.
#[derive(Clone, Copy)]
struct Place {
    line: u64,
    form: Form,
}

impl Place {
    fn counted(self, given: &Given, count: u32) -> String {
        match self.form {
            Form::Json => self.json(Some(given), Json::Null, Json::Null, count.into()),
            Form::Bytes => entry(count),
            Form::Sentence | Form::Short => format!("{count}\n"),
        }
    }

    fn refused(self, given: &Given, refusal: Refusal) -> String {
        let why = refusal_json(refusal, &no_date(given.pair));
        match self.form {
            Form::Bytes => entry(OUT_OF_RANGE),
            _ => self.without_count(Some(given), why, Json::Null),
        }
    }

    fn unread(self, usage: &Usage) -> String {
        self.without_count(None, Json::Null, usage.message.as_str().into())
    }

    fn empty(self) -> String {
        self.without_count(None, Json::Null, Json::Null)
    }

    fn without_count(self, given: Option<&Given>, refusal: Json, error: Json) -> String {
        match self.form {
            Form::Json => self.json(given, refusal, error, Json::Null),
            _ => "\n".to_owned(),
        }
    }

    fn json(self, given: Option<&Given>, refusal: Json, error: Json, count: Json) -> String {
        let (from, to) = given.map(|given| given.pair).unzip();
        let read = vec![("from", from.into()), ("to", to.into())];
        let words = given.map_or(&[][..], |given| &given.words);
        let asked = Asked { call: "mf_portfolio", given: words, read };
        let json = asked.answered(refusal, vec![("error", error), ("count", count)]);
        format!("{}\n", json.in_line(self.line))
    }

    fn complaint(self, pair: Pair, refusal: Refusal) -> String {
        let refused = errors::refused_as(refusal, &no_date(pair));
        format!("{}: Zeile {}: {refused}\n", program::name(), self.line)
    }
}

/// Which date has no count, and why.
fn no_date((from, to): Pair) -> String {
    let given = LABELS.into_iter().zip([from, to]);
    let why = |(label, date)| Some(format!("{label} {}", date_why(date)?));
    let outside: Vec<_> = given.filter_map(why).collect();
    format!("{}.", outside.join("; "))
}
