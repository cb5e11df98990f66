//! A day's questions in one go: the lines of an input, or its records.

mod line;

use crate::arguments::Form;
use crate::errors;
use crate::input::Input;
use crate::lines::Line;
use crate::outcome::{hint, Outcome, Status};
use crate::program;
use crate::reply::Reply;
use crate::run::Run;
use crate::usage::Usage;
use line::Asked;
use mako_fristen_host::{answer_records, answers, Answer, Frage, Fragesatz, Refusal};
use std::io::Read;

/// The most questions that are answered before something is shown of it.
const BATCH: usize = 128;

/// Answers each line as it comes, in the form, with yes or no as its status if that is wanted.
pub fn lines(input: Input, form: Form, status: bool) -> Outcome {
    let mut run = run(&input);
    let read = |line: &Line| line::read(line).map(|read| (line.number, read));
    let ended = run.lines(input, BATCH, read, |run, batch| answer(run, batch, form, status));
    run.outcome(ended)
}

/// Answers records. Their length is judged first, so that a 9 finds nothing written.
pub fn records(input: Input) -> Outcome {
    let mut run = run(&input);
    let ended = answer_all(&mut run, input);
    run.outcome(ended)
}

fn run(input: &Input) -> Run {
    Run::new(input, "fragen", "Fragen beantwortet")
}

/// Lines with their numbers: what they ask, or why they cannot be read.
type Batch = Vec<(u64, Result<Asked, Usage>)>;

fn answer(run: &mut Run, batch: &mut Batch, form: Form, status: bool) -> Result<(), Outcome> {
    let read = batch.iter().filter_map(|(_, read)| read.as_ref().ok());
    let questions: Vec<Frage> = read.map(|asked| asked.frage).collect();
    let mut answers = answers(&questions).into_iter();
    for (line, read) in batch.drain(..) {
        match read {
            Ok(Asked { inquiry, given, .. }) => {
                // The records do not know a time that Berlin's clock does not show.
                let answer = answers.next().filter(|_| inquiry.refused.is_none());
                let answer = answer.unwrap_or_else(|| inquiry.answer());
                let reply = Reply { form, status, given: &given, line: Some(line) };
                say(run, line, reply.outcome(&inquiry, answer))?;
            }
            Err(usage) => run.complain(&usage.of_line(line))?,
        }
    }
    Ok(())
}

/// Unless it is neither an answer nor a refusal, which ends the work.
fn say(run: &mut Run, line: u64, outcome: Outcome) -> Result<(), Outcome> {
    let Some((text, complaint, status)) = outcome.reply() else { return Err(outcome) };
    for note in outcome.notes() {
        let note = format!("{}: Zeile {line}: {}\n", program::name(), hint(note));
        run.name_line(&note, status)?;
    }
    if !complaint.is_empty() {
        run.name_line(complaint, status)?;
    }
    run.say(text.as_bytes(), 1, status)
}

fn answer_all(run: &mut Run, mut input: Input) -> Result<(), Outcome> {
    let mut records = Vec::new();
    input.read_to_end(&mut records).map_err(|error| input.unread(&error))?;
    if records.len() % Fragesatz::LEN != 0 {
        return Err(no_records(records.len()));
    }
    let (mut done, all) = (0, records.len() as u64);
    for file in records.chunks(BATCH * Fragesatz::LEN) {
        let answers = answer_records(file).map_err(Outcome::of_error)?;
        let any = answers.chunks(Answer::LEN).any(|answer| answer[0] != 0);
        let status = if any { Status::Refused } else { Status::Answered };
        run.say(&answers, (answers.len() / Answer::LEN) as u64, status)?;
        done += file.len() as u64;
        run.show(done, Some(all));
    }
    run.flush()
}

/// Of so many bytes. Unlike a file of the call the input may have any length.
fn no_records(bytes: usize) -> Outcome {
    let are = if bytes == 1 { "Byte ist" } else { "Bytes sind" };
    let sentence = format!("{bytes} {are} kein Vielfaches von {}.", Fragesatz::LEN);
    let refused = errors::refused_as(Refusal::FileLength, &sentence);
    Outcome::complaint(format!("{}: {refused}\n", program::name()), Status::Refused)
}
