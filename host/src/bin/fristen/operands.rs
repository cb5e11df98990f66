//! From the words behind a subcommand to its inquiry.

use crate::arguments::Arguments;
use crate::command::Command;
use crate::deutsch::MONATE;
use crate::inquiry::{Inquiry, Refused};
use crate::kalenderblatt::Period;
use crate::names::{self, Named, ANLAESSE, EEG, FRISTEN, SPARTEN, VORLAUF};
use crate::reading::{self, is_number, Moment, NoMoment};
use crate::usage::{perhaps, quoted, Usage};
use crate::{culprit, hints};
use mako_fristen_host::{Call, Clock, Date, Eeg, Instant, Parameter, VorlaufShape};
use std::ffi::{OsStr, OsString};
use std::{mem, slice};

/// The inquiry of a subcommand. `call` is its own.
pub fn inquiry(command: &Command, call: Call, arguments: &Arguments) -> Result<Inquiry, Usage> {
    let mut words = Words::new(arguments);
    let mut inquiry = Inquiry::new(call);
    for (parameter, label) in command.operands {
        read(&mut inquiry, *parameter, label, &mut words)?;
    }
    // With a change day the same command asks version two.
    if call == Call::ContrlDueAt {
        if let Some(stichtag) = words.stichtag()? {
            inquiry = inquiry.put_off_to(stichtag);
        }
    }
    words.end()?;
    inquiry.notes.extend(hints::of(&inquiry));
    Ok(inquiry)
}

/// The shape and the anchor of `bis-wann`.
pub fn shape_and_anchor(
    command: &Command,
    arguments: &Arguments,
) -> Result<(VorlaufShape, Date), Usage> {
    let mut words = Words::new(arguments);
    let label = |parameter| command.label(parameter).unwrap_or_default();
    let shape = words.vorlauf(label(Parameter::VorlaufShape))?;
    let anchor = words.date(label(Parameter::SecondDate))?;
    words.end()?;
    Ok((shape, anchor))
}

/// The years and months of a calendar; this year, if there is none.
pub fn periods(arguments: &Arguments) -> Result<Vec<Period>, Usage> {
    let mut words = Words::new(arguments);
    let (left, now) = (mem::take(&mut words.left), words.now);
    words.end()?;
    let today = reading::date("heute", now);
    let no_year = || Usage::new("die Uhr des Rechners geht falsch; erwartet ein Jahr wie 2026");
    if left.as_slice().is_empty() {
        return Ok(vec![Period::year_of(today.ok_or_else(no_year)?)]);
    }
    let (mut left, mut periods) = (left.peekable(), Vec::new());
    while let Some(word) = left.next() {
        // The year may stand behind the month's name.
        let year =
            left.peek().and_then(|year| Some(word.to_str()?.to_owned() + " " + year.to_str()?));
        if let Some(period) = year.and_then(|words| Period::read(&words, today)) {
            left.next();
            periods.push(period);
            continue;
        }
        let expected = "ein Jahr wie 2026 oder einen Monat wie 12.2026 oder Dezember";
        let read = |word: &str| Period::read(word, today).ok_or_else(|| expected.to_owned());
        let read = read_as("JAHR", word, read);
        periods.push(read.map_err(|usage| usage.meaning(perhaps(word, MONATE, [])))?);
    }
    Ok(periods)
}

/// The file of a subcommand that takes one; none for the standard input.
pub fn file(arguments: &Arguments) -> Result<Option<&OsStr>, Usage> {
    let mut words = Words::new(arguments);
    let file = words.left.next().map(OsString::as_os_str);
    words.end()?;
    Ok(file.filter(|file| *file != "-"))
}

/// A date at the place of this label, `heute` by this instant.
pub fn date(label: &str, word: &OsStr, now: Instant) -> Result<Date, Usage> {
    let date = |word: &str| reading::date(word, now);
    let read = read_as(label, word, |word| date(word).ok_or_else(|| reading::DATE.to_owned()));
    read.map_err(|usage| usage.meaning(date_meant(word, now)))
}

/// What may have been meant for a date, as a question.
fn date_meant(word: &OsStr, now: Instant) -> String {
    match word.to_str().and_then(|word| reading::date_meant(word, now)) {
        Some(meant) => format!(". Meinten Sie {meant}?"),
        None => perhaps(word, reading::DAYS, []),
    }
}

pub fn missing(label: &str) -> Usage {
    Usage::new(format!("es fehlt: {label}"))
}

pub fn too_much(word: &OsStr) -> Usage {
    Usage::new(format!("zu viel: {}", quoted(word)))
}

/// What `read` makes of a word, or what it expected.
fn read_as<T>(
    label: &str,
    word: &OsStr,
    read: impl FnOnce(&str) -> Result<T, String>,
) -> Result<T, Usage> {
    word.to_str().map_or_else(|| Err("lesbaren Text".to_owned()), read).map_err(|expected| {
        Usage::new(format!("{label}: erwartet {expected}, nicht {}", quoted(word)))
    })
}

fn read(
    inquiry: &mut Inquiry,
    parameter: Parameter,
    label: &'static str,
    words: &mut Words,
) -> Result<(), Usage> {
    match parameter {
        Parameter::Date => inquiry.question.date = words.date(label)?,
        Parameter::SecondDate => inquiry.question.date2 = words.date(label)?,
        Parameter::Count | Parameter::Pid => inquiry.question.n = words.count(label)?,
        Parameter::SecondCount => inquiry.question.n2 = words.count(label)?,
        Parameter::Instant => inquiry.question.instant = instant(inquiry, label, words)?,
        Parameter::SecondInstant => inquiry.question.instant2 = instant(inquiry, label, words)?,
        Parameter::Clock => inquiry.question.clock = words.clock(label)?,
        Parameter::Anlass => inquiry.question.code = words.name(label, &ANLAESSE)?.code(),
        Parameter::Sparte => inquiry.question.code = words.name(label, &SPARTEN)?.code(),
        Parameter::SecondSparte => inquiry.question.code2 = words.name(label, &SPARTEN)?.code(),
        Parameter::Shape => frist(inquiry, label, words)?,
        Parameter::VorlaufShape => vorlauf(inquiry, label, words)?,
        Parameter::Eeg => inquiry.question.code = words.eeg(label)?,
        Parameter::Reason => inquiry.reason = words.reason(label)?,
    }
    Ok(())
}

fn vorlauf(inquiry: &mut Inquiry, label: &str, words: &mut Words) -> Result<(), Usage> {
    let shape = words.vorlauf(label)?;
    inquiry.question = inquiry.question.with_shape(shape);
    inquiry.vorlauf = Some(shape);
    Ok(())
}

/// An instant, with what is to be said of it. One that Berlin's clock does not show makes the
/// question one that is refused.
fn instant(
    inquiry: &mut Inquiry,
    label: &'static str,
    words: &mut Words,
) -> Result<Instant, Usage> {
    match words.moment(label)? {
        Ok(Moment { instant, note, twice }) => {
            inquiry.notes.extend(note.map(|note| format!("{label}: {note}")));
            inquiry.twice.extend(twice.then_some(label));
            Ok(instant)
        }
        Err(refused) => {
            inquiry.refuse(refused);
            inquiry.absent.push(label);
            Ok(Instant::default())
        }
    }
}

fn frist(inquiry: &mut Inquiry, label: &str, words: &mut Words) -> Result<(), Usage> {
    let row = words.name(label, &FRISTEN)?;
    let count = if row.count { words.count("N")? } else { 0 };
    let clock = if row.clock { words.clock("UHRZEIT")? } else { Clock::default() };
    let shape = (row.shape)(count, clock);
    let question = inquiry.question.with_code(shape.code());
    inquiry.question = question.with_count(count).with_clock(clock);
    inquiry.frist = Some(shape);
    Ok(())
}

/// The words behind the subcommand's name, the EEG mark and the change day. All are read at the same
/// time, so that midnight does not come between two of them.
struct Words<'a> {
    now: Instant,
    left: slice::Iter<'a, OsString>,
    eeg: Option<&'a OsStr>,
    stichtag: Option<&'a OsStr>,
}

impl<'a> Words<'a> {
    fn new(arguments: &'a Arguments) -> Words<'a> {
        let words = arguments.words.get(1..).unwrap_or_default();
        let (eeg, stichtag) = (arguments.eeg.as_deref(), arguments.stichtag.as_deref());
        Words { now: reading::now(), left: words.iter(), eeg, stichtag }
    }

    fn next(&mut self, label: &str) -> Result<&'a OsStr, Usage> {
        self.left.next().map(OsString::as_os_str).ok_or_else(|| missing(label))
    }

    fn end(mut self) -> Result<(), Usage> {
        match (self.left.next(), self.eeg, self.stichtag) {
            (Some(word), ..) => Err(too_much(word)),
            (_, Some(_), _) => Err(Usage::new("--eeg gehört nicht zu diesem Befehl")),
            (.., Some(_)) => Err(Usage::new("--stichtag gehört nicht zu diesem Befehl")),
            _ => Ok(()),
        }
    }

    fn date(&mut self, label: &str) -> Result<Date, Usage> {
        date(label, &self.date_text(label)?, self.now)
    }

    /// The next word, or three of the form `2. April 2026`.
    fn date_text(&mut self, label: &str) -> Result<OsString, Usage> {
        let first = self.next(label)?;
        let is_date = |word: &str| reading::date(word, self.now).is_some();
        // Only what has blanks may still be a date with two words more.
        if first.to_str().is_some_and(|word| !word.contains(char::is_whitespace) && is_date(word)) {
            return Ok(first.to_owned());
        }
        let rest: Vec<&str> = self.left.as_slice().iter().map_while(|word| word.to_str()).collect();
        if let (Some(day), [month, year, ..]) = (first.to_str(), &rest[..]) {
            let text = format!("{day} {month} {year}");
            if is_date(&text) {
                self.left.nth(1);
                return Ok(text.into());
            }
        }
        Ok(first.to_owned())
    }

    /// The next word if it is this one, in any letter case.
    fn passes(&mut self, said: &str) -> bool {
        let is_said = |word: &OsString| word.eq_ignore_ascii_case(said);
        let said = self.left.clone().next().is_some_and(is_said);
        if said {
            self.left.next();
        }
        said
    }

    fn clock(&mut self, label: &str) -> Result<Clock, Usage> {
        let mut word = self.next(label)?.to_owned();
        if self.passes("Uhr") {
            word.push(" Uhr");
        }
        let clock = |word: &str| reading::clock(word).ok_or_else(|| reading::CLOCK.to_owned());
        read_as(label, &word, clock)
    }

    /// One word, or a date and its clock time in several; or the refusal of a time that Berlin's
    /// clock does not show.
    fn moment(&mut self, label: &str) -> Result<Result<Moment, Refused>, Usage> {
        let (text, now) = (self.moment_text(label)?, self.now);
        let read = read_as(label, &text, |text| match reading::moment(text, now) {
            Ok(moment) => Ok(Ok(moment)),
            Err(NoMoment::Refused(refusal, date, at)) => {
                Ok(Err(Refused { refusal, sentence: culprit::of_berlin(label, refusal, date, at) }))
            }
            Err(NoMoment::Expected(expected)) => Err(expected),
        });
        read.map_err(|usage| usage.meaning(date_meant(&text, now)))
    }

    /// The next word; behind a date also `um`, a clock time and `Uhr`, and what stands where that
    /// time should.
    fn moment_text(&mut self, label: &str) -> Result<OsString, Usage> {
        let mut text = self.date_text(label)?;
        if text.to_str().is_none_or(|word| reading::date(word, self.now).is_none()) {
            return Ok(text);
        }
        self.passes("um");
        let is_time = |word: &OsString| word.to_str().is_some_and(reading::may_be_time);
        if let Some(time) = self.left.clone().next().filter(|word| is_time(word)) {
            self.left.next();
            text.push(" ");
            text.push(time);
            if self.passes("Uhr") {
                text.push(" Uhr");
            }
            let is_offset = |word: &OsString| word.to_str().is_some_and(reading::is_offset);
            if let Some(offset) = self.left.clone().next().filter(|word| is_offset(word)) {
                self.left.next();
                text.push(offset);
            }
        }
        Ok(text)
    }

    fn vorlauf(&mut self, label: &str) -> Result<VorlaufShape, Usage> {
        let row = self.name(label, &VORLAUF)?;
        let mut counts = [0; 2];
        for (count, label) in counts.iter_mut().zip(row.counts) {
            *count = self.count(label)?;
        }
        Ok((row.shape)(counts[0], counts[1]))
    }

    /// A date in its place means that it was left out.
    fn count(&mut self, label: &str) -> Result<u32, Usage> {
        let word = self.next(label)?;
        if word.to_str().is_some_and(|word| reading::date(word, self.now).is_some()) {
            let missing = format!("es fehlt: {label}, eine Zahl vor {}", quoted(word));
            return Err(Usage::new(missing));
        }
        read_as(label, word, |word| {
            let count = word.parse().ok().filter(|_| is_number(word));
            let expected =
                if is_number(word) { "höchstens 4294967295" } else { "eine Zahl wie 5" };
            count.ok_or_else(|| expected.to_owned())
        })
    }

    /// The label may name what stands behind the word too.
    fn name<T: Copy>(&mut self, label: &str, table: &[Named<T>]) -> Result<T, Usage> {
        let label = label.split(' ').next().unwrap_or(label);
        let Some(word) = self.left.next() else {
            return Err(Usage::new(format!("es fehlt: {label}, also {}", names::expected(table))));
        };
        let found = read_as(label, word, |word| {
            names::find(table, word).ok_or_else(|| names::expected(table))
        });
        found.map_err(|usage| {
            let german = table.iter().map(|row| row.german.unwrap_or(row.name));
            usage.meaning(perhaps(word, table.iter().flat_map(Named::names), german))
        })
    }

    /// A date in its place, with nothing but one more behind it, means that it was left out.
    fn reason(&mut self, label: &str) -> Result<Vec<u8>, Usage> {
        let word = self.next(label)?;
        let is_date =
            |word: &OsStr| word.to_str().is_some_and(|w| reading::date(w, self.now).is_some());
        match self.left.as_slice() {
            [second] if is_date(word) && is_date(second) => Err(missing(label)),
            _ => Ok(word.as_encoded_bytes().to_vec()),
        }
    }

    /// The mark's code. An option: it is asked for here, and stands anywhere.
    fn eeg(&mut self, label: &str) -> Result<u8, Usage> {
        let mark = self.eeg.take().ok_or_else(|| missing(label))?;
        let eeg = mark.to_str().and_then(|mark| names::find(&EEG, mark));
        let expected =
            || format!("--eeg: erwartet {}, nicht {}", names::expected(&EEG), quoted(mark));
        eeg.map(Eeg::code).ok_or_else(|| Usage::new(expected()))
    }

    /// The change day, an option that may be left out.
    fn stichtag(&mut self) -> Result<Option<Date>, Usage> {
        self.stichtag.take().map(|word| date("--stichtag", word, self.now)).transpose()
    }
}
