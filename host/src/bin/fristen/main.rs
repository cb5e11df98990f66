//! The host calls on the command line, answered in German. `./fristen --help` has all of it.

mod ankuendigung;
mod arguments;
mod bis_wann;
mod command;
mod commands;
mod completion;
mod corner;
mod culprit;
mod deutsch;
mod errors;
mod fragen;
mod help;
mod hints;
mod input;
mod inquiry;
mod ja_nein;
mod json;
mod kalenderblatt;
mod kinds;
mod labels;
mod leaves;
mod lines;
mod manpage;
mod names;
mod operands;
mod outcome;
mod portfolio;
mod program;
mod progress;
mod reading;
mod reply;
mod report;
mod run;
mod sentences;
mod short;
mod skipped;
mod streams;
mod uebertragung;
mod umstellung;
mod usage;
mod words;

use arguments::{is_option, About, Arguments, Form};
use bis_wann::BisWann;
use command::{Command, Task};
use input::Input;
use kalenderblatt::{Mark, Period, Sheet};
use mako_fristen_host::{check_archive, Call};
use outcome::{Outcome, Status};
use reply::Reply;
use std::env;
use std::ffi::{OsStr, OsString};
use std::io::{self, IsTerminal};
use std::process::ExitCode;
use usage::Usage;

const HELP: [&str; 2] = ["hilfe", "help"];

fn main() -> ExitCode {
    let arguments: Vec<OsString> = env::args_os().skip(1).collect();
    if arguments.is_empty() {
        return Outcome::usage(help::general()).print();
    }
    run(arguments).unwrap_or_else(|usage| Outcome::usage(usage.text())).print()
}

fn run(arguments: Vec<OsString>) -> Result<Outcome, Usage> {
    let first = arguments.iter().find(|argument| !is_option(argument));
    let first = first.and_then(|name| name.to_str()).unwrap_or_default().to_owned();
    let of_likely = |usage: Usage| match Command::find(&first) {
        Some(command) => usage.of(command, &first),
        None => usage,
    };
    let arguments = Arguments::read(arguments).map_err(of_likely)?;
    let mut words = arguments.words.iter();
    let name = words.next();
    if let Some(about) = arguments.about {
        return Ok(Outcome::answer(match about {
            About::Version => program::version(),
            About::Manpage => manpage::page(),
            About::Completion => completion::script(),
        }));
    }
    if name.is_some_and(is_help) {
        let about = words.next().filter(|about| !is_help(about));
        return match words.next() {
            Some(word) => Err(operands::too_much(word)),
            None => helped(about),
        };
    }
    if arguments.help {
        return helped(name);
    }
    let (command, called) = find(name)?;
    answered(command, &arguments).map_err(|usage| usage.of(command, called))
}

fn is_help(word: &OsString) -> bool {
    HELP.iter().any(|help| word.eq_ignore_ascii_case(help))
}

/// The subcommand, and the name by which it is called.
fn find(name: Option<&OsString>) -> Result<(&'static Command, &str), Usage> {
    let name = name.ok_or_else(|| Usage::new("es fehlt: BEFEHL"))?;
    let found = name.to_str().and_then(|name| Some((Command::find(name)?, name)));
    let known: Vec<String> = command::all().flat_map(Command::names).collect();
    let known = known.iter().map(String::as_str).chain(HELP);
    let german: Vec<&str> = command::all().map(Command::german_name).collect();
    found.ok_or_else(|| Usage::unknown("unbekannter Befehl", name, known, german))
}

fn helped(name: Option<&OsString>) -> Result<Outcome, Usage> {
    Ok(Outcome::answer(match name {
        Some(_) => {
            let (command, called) = find(name)?;
            help::of(command, called)
        }
        None => help::general(),
    }))
}

/// What is read may ask calls too, so the archive is looked at first.
fn answered(command: &Command, arguments: &Arguments) -> Result<Outcome, Usage> {
    if let Err(unreadable) = check_archive() {
        return Ok(Outcome::unreadable(&unreadable));
    }
    match command.task {
        Task::Fragen => fragen(arguments),
        _ if arguments.raw => Err(not_here("--roh")),
        _ if arguments.status && !ja_nein::is_of(command.task) => Err(not_here("--status")),
        Task::Ask(call) => called(command, call, arguments),
        Task::Kalender => kalender(arguments),
        Task::BisWann => bis_wann(command, arguments),
        Task::Portfolio => portfolio(arguments),
    }
}

fn not_here(option: &str) -> Usage {
    Usage::new(format!("{option} gibt es zu diesem Befehl nicht"))
}

fn fragen(arguments: &Arguments) -> Result<Outcome, Usage> {
    let file = operands::file(arguments)?;
    let Arguments { form, status, raw, .. } = *arguments;
    if raw && (form != Form::Sentence || status) {
        return Err(Usage::new("erwartet --roh ohne --json, --kurz, --bytes und --status"));
    }
    Ok(match raw {
        true => opened(file, fragen::records),
        false => opened(file, |input| fragen::lines(input, form, status)),
    })
}

fn portfolio(arguments: &Arguments) -> Result<Outcome, Usage> {
    let (file, form) = (operands::file(arguments)?, arguments.form);
    Ok(opened(file, |input| portfolio::lines(input, form)))
}

/// What `answer` makes of a file or of the standard input.
fn opened(file: Option<&OsStr>, answer: impl FnOnce(Input) -> Outcome) -> Outcome {
    Input::open(file).map_or_else(|unread| unread, answer)
}

fn called(command: &Command, call: Call, arguments: &Arguments) -> Result<Outcome, Usage> {
    let inquiry = operands::inquiry(command, call, arguments)?;
    let answer = inquiry.answer();
    Ok(reply(arguments).outcome(&inquiry, answer))
}

fn reply(arguments: &Arguments) -> Reply<'_> {
    let Arguments { form, status, given, .. } = arguments;
    Reply { form: *form, status: *status, given, line: None }
}

fn bis_wann(command: &Command, arguments: &Arguments) -> Result<Outcome, Usage> {
    if arguments.form == Form::Bytes {
        return Err(not_here("--bytes"));
    }
    let asked = operands::shape_and_anchor(command, arguments)?;
    let answer = BisWann::of(asked);
    let none = answer.as_ref().is_ok_and(|answer| answer.days.is_empty());
    let outcome = reply(arguments).said(
        answer,
        BisWann::text,
        |answer| short::bis_wann(answer.days),
        |refusal| culprit::of_anchor(asked, refusal),
        |refusal, answer| {
            report::bis_wann(asked, &arguments.given, refusal, answer.map(|answer| answer.days))
        },
    );
    let outcome = outcome.noted(hints::window(asked.0).into_iter().collect());
    Ok(if arguments.status && none { outcome.ending(Status::No) } else { outcome })
}

/// A sheet for each year or month; without any the one of this year.
fn kalender(arguments: &Arguments) -> Result<Outcome, Usage> {
    if arguments.form == Form::Bytes {
        return Err(not_here("--bytes"));
    }
    let periods = operands::periods(arguments)?;
    let mark = if is_coloured() { Mark::Colour } else { Mark::Star };
    let sheets = periods.into_iter().map(|period| sheet(period, arguments, mark)).collect();
    let between = if arguments.form == Form::Sentence { "\n" } else { "" };
    Ok(Outcome::joined(sheets, between))
}

fn sheet(period: Period, arguments: &Arguments, mark: Mark) -> Outcome {
    reply(arguments).said(
        Sheet::of(period),
        |sheet| sheet.text(mark),
        |sheet| sheet.werktage().to_string(),
        |_| period.why(),
        |refusal, sheet| kalenderblatt::json(period, &arguments.given, refusal, sheet),
    )
}

fn is_coloured() -> bool {
    let variable = |name| env::var_os(name);
    io::stdout().is_terminal() && shows_colours(variable("TERM"), variable("NO_COLOR"))
}

/// Whether a terminal does, for someone who wants them (no-color.org).
fn shows_colours(terminal: Option<OsString>, no_colour: Option<OsString>) -> bool {
    let unwanted = no_colour.is_some_and(|set| !set.is_empty());
    !progress::is_dumb(terminal.as_deref()) && !unwanted
}

#[cfg(test)]
mod tests {
    use super::*;

    #[test]
    fn a_dumb_terminal_shows_no_colours() {
        let shows = |terminal: Option<&str>, no_colour: Option<&str>| {
            shows_colours(terminal.map(OsString::from), no_colour.map(OsString::from))
        };
        assert!(shows(Some("xterm-256color"), None) && shows(Some("linux"), Some("")));
        assert!(!shows(Some("dumb"), None) && !shows(None, None));
        assert!(!shows(Some("xterm"), Some("1")));
    }
}
