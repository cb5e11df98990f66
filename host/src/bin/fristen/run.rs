use crate::input::Input;
use crate::lines::{Line, Lines};
use crate::outcome::{Outcome, Status};
use crate::program;
use crate::progress::Progress;
use crate::streams::Output;
use std::io::{self, BufWriter, Write};

/// Where the answers to an input go, and what came of them so far. What ends the work early is an
/// outcome.
pub struct Run {
    out: BufWriter<Output>,
    progress: Progress,
    /// The subcommand's name.
    name: &'static str,
    status: Status,
    answered: u64,
    unread: u64,
}

impl Run {
    /// Of the subcommand of this name; `what` as in '3 … ...'.
    pub fn new(input: &Input, name: &'static str, what: &'static str) -> Run {
        let out = BufWriter::new(Output::standard());
        let progress = Progress::new(input.typed, what);
        Run { out, progress, name, status: Status::Answered, answered: 0, unread: 0 }
    }

    /// What `read` makes of each line, to `answer` in batches of `most` at the most. A batch is what
    /// can be read without waiting: a slow sender gets each answer at once, and a large file needs
    /// few calls.
    pub fn lines<T>(
        &mut self,
        input: Input,
        most: usize,
        mut read: impl FnMut(&Line) -> Option<T>,
        answer: impl Fn(&mut Run, &mut Vec<T>) -> Result<(), Outcome>,
    ) -> Result<(), Outcome> {
        let (mut lines, mut batch) = (Lines::new(input), Vec::new());
        loop {
            match lines.next() {
                Ok(Some(line)) => batch.extend(read(&line)),
                Ok(None) => break,
                Err(error) => return Err(lines.input().unread(&error)),
            }
            let must_wait = lines.must_wait();
            if batch.len() == most || must_wait {
                answer(self, &mut batch)?;
                self.show(lines.done(), lines.input().len);
            }
            if must_wait {
                self.flush()?;
            }
        }
        answer(self, &mut batch)?;
        self.flush()
    }

    /// How far it has come: so many bytes of all, if it is known how many there are.
    pub fn show(&mut self, done: u64, of: Option<u64>) {
        self.progress.show(self.answered, done, of);
    }

    /// What is written, of so many answers and with this status.
    pub fn say(&mut self, bytes: &[u8], answers: u64, status: Status) -> Result<(), Outcome> {
        self.status = self.status.max(status);
        self.answered += answers;
        self.out.write_all(bytes).map_err(|error| self.unwritten(&error))
    }

    /// A line that cannot be read.
    pub fn complain(&mut self, text: &str) -> Result<(), Outcome> {
        self.unread += 1;
        self.name_line(text, Status::Usage)
    }

    /// Behind the answers of the lines before it.
    pub fn name_line(&mut self, text: &str, status: Status) -> Result<(), Outcome> {
        self.status = self.status.max(status);
        self.flush()?;
        self.progress.clear();
        // The others are answered even if this cannot be written.
        if io::stderr().lock().write_all(text.as_bytes()).is_err() {
            self.status = self.status.max(Status::OutputFailed);
        }
        Ok(())
    }

    pub fn flush(&mut self) -> Result<(), Outcome> {
        self.out.flush().map_err(|error| self.unwritten(&error))
    }

    fn unwritten(&self, error: &io::Error) -> Outcome {
        Outcome::unwritten(error, self.status)
    }

    pub fn outcome(&self, ended: Result<(), Outcome>) -> Outcome {
        if let Err(outcome) = ended {
            return outcome;
        }
        let lines = match self.unread {
            0 => return Outcome::silent(self.status),
            1 => "1 Zeile ließ".to_owned(),
            n => format!("{n} Zeilen ließen"),
        };
        let (program, called) = (program::name(), program::called());
        let help = format!("Mehr: {called} {} --help", self.name);
        let text = format!("{program}: {lines} sich nicht lesen. {help}\n");
        Outcome::complaint(text, self.status)
    }
}
