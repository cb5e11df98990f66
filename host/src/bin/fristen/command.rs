//! The table of subcommands. A new one is a row of a file in `commands/`.

use crate::commands::{abmeldung, berlin, fragen, fristen, kalender, portfolio, vorlauf};
use crate::words::normal;
use mako_fristen_host::{Call, Parameter};

/// More bytes than any name has.
const LONGEST_NAME: usize = 64;

/// What a subcommand does.
#[derive(Clone, Copy, Debug, PartialEq, Eq)]
pub enum Task {
    /// Asks a call.
    Ask(Call),
    /// Prints a year's calendar, which is made of many calls.
    Kalender,
    /// Says which transmission days an anchor allows, by two calls at the most.
    BisWann,
    /// Answers the questions of a file.
    Fragen,
    /// Counts for the pairs of dates of a file.
    Portfolio,
}

/// A subcommand.
#[derive(Debug, PartialEq, Eq)]
pub struct Command {
    pub name: &'static str,
    /// Where the name is the source's.
    pub german: Option<&'static str>,
    pub task: Task,
    /// What stands behind the name, in this order, each with its name in the usage line. A shape
    /// stands for its counts and its clock time too.
    pub operands: &'static [(Parameter, &'static str)],
    /// What else may stand there, as the usage line has it.
    pub options: &'static [&'static str],
    /// For the list of all.
    pub summary: &'static str,
    /// For its own help.
    pub meaning: &'static str,
    pub examples: &'static [Example],
}

/// The arguments of a call, and what it prints.
#[derive(Debug, PartialEq, Eq)]
pub struct Example {
    pub call: &'static str,
    pub output: &'static str,
    /// The name of the file that it takes, and what is in it.
    pub file: Option<(&'static str, &'static str)>,
}

impl Example {
    pub const fn new(call: &'static str, output: &'static str) -> Example {
        Example { call, output, file: None }
    }

    pub const fn with_file(self, name: &'static str, content: &'static str) -> Example {
        Example { file: Some((name, content)), ..self }
    }
}

/// The subcommands under the headings of the help.
pub const GROUPS: [(&str, &[Command]); 7] = [
    ("Kalender", &kalender::COMMANDS),
    ("Uhr", &berlin::COMMANDS),
    ("Fristen", &fristen::COMMANDS),
    ("Vorlauf", &vorlauf::COMMANDS),
    ("Abmeldung und Ankündigung", &abmeldung::COMMANDS),
    ("Viele Fragen auf einmal", &fragen::COMMANDS),
    ("Viele Verträge auf einmal", &portfolio::COMMANDS),
];

pub fn all() -> impl Iterator<Item = &'static Command> {
    GROUPS.iter().flat_map(|(_, commands)| commands.iter())
}

/// The calls that a line of a file asks.
const QUESTIONS: [Call; 4] =
    [Call::ContrlDueAt, Call::FristDueAt, Call::VorlaufCheck, Call::VorlaufSpan];

/// The subcommands of these calls, each with its own.
pub fn questions() -> impl Iterator<Item = (&'static Command, Call)> {
    all()
        .filter_map(|command| Some((command, command.call()?)))
        .filter(|(_, call)| QUESTIONS.contains(call))
}

impl Command {
    /// By any of its names, with hyphens or underscores, in any letter case.
    pub fn find(name: &str) -> Option<&'static Command> {
        all().find(|command| command.is_named(name))
    }

    /// The one whose sentences and labels are those of the call.
    pub fn of(call: Call) -> Option<&'static Command> {
        all().find(|command| command.call() == Some(call))
    }

    pub fn is_named(&self, name: &str) -> bool {
        if name.len() > LONGEST_NAME {
            return false;
        }
        self.is_known_as(&normal(name))
    }

    /// By a name in small letters, with hyphens. Each line of a file asks: only a name as long is written anew.
    fn is_known_as(&self, name: &str) -> bool {
        let is = |known: &str| known.len() == name.len() && known.replace('_', "-") == name;
        self.name == name
            || self.german == Some(name)
            || self.host_call().is_some_and(is)
            || self.call().is_some_and(|call| is(call.name().trim_start_matches("mf_")))
    }

    /// The host call's name.
    fn host_call(&self) -> Option<&'static str> {
        match self.task {
            Task::Ask(call) => Some(call.name()),
            Task::Fragen => Some("mf_questions"),
            Task::Portfolio => Some("mf_portfolio"),
            Task::Kalender | Task::BisWann => None,
        }
    }

    /// Its names but the host call's.
    pub fn names(&self) -> impl Iterator<Item = String> {
        let source_name = self.source_name().filter(|name| name != self.name);
        [self.name].into_iter().chain(self.german).map(str::to_owned).chain(source_name)
    }

    /// The call that it asks, if it is one.
    pub fn call(&self) -> Option<Call> {
        match self.task {
            Task::Ask(call) => Some(call),
            Task::Kalender | Task::BisWann | Task::Fragen | Task::Portfolio => None,
        }
    }

    /// The call's name in the source, with hyphens.
    pub fn source_name(&self) -> Option<String> {
        Some(self.call()?.name().trim_start_matches("mf_").replace('_', "-"))
    }

    /// The name of a parameter in the usage line.
    pub fn label(&self, parameter: Parameter) -> Option<&'static str> {
        self.operands.iter().find(|(operand, _)| *operand == parameter).map(|(_, label)| *label)
    }

    pub fn german_name(&self) -> &'static str {
        self.german.unwrap_or(self.name)
    }

    /// The name by which it was called, as the tables have it; of the host call's its own.
    pub fn known_by(&self, called: &str) -> String {
        let called = normal(called);
        self.names().find(|name| *name == called).unwrap_or_else(|| self.name.to_owned())
    }

    /// This name with what stands behind it.
    pub fn usage(&self, name: &str) -> String {
        let options = self.options.iter().map(|option| format!(" {option}"));
        [self.usage_in_line(name)].into_iter().chain(options).collect()
    }

    /// The same in a line of a file, where there are no options.
    pub fn usage_in_line(&self, name: &str) -> String {
        let labels = self.operands.iter().map(|(_, label)| *label);
        [name].into_iter().chain(labels).collect::<Vec<_>>().join(" ")
    }
}

#[cfg(test)]
mod tests {
    use super::*;

    #[test]
    fn every_call_has_one_command() {
        for call in Call::ALL {
            assert_eq!(all().filter(|c| c.call() == Some(call)).count(), 1, "{}", call.name());
        }
        let others = all().filter(|command| command.call().is_none());
        let names: Vec<_> = others.map(|command| command.name).collect();
        assert_eq!(names, ["kalender", "bis-wann", "fragen", "portfolio"]);
    }

    #[test]
    fn a_command_is_found_by_each_name_and_no_name_is_used_twice() {
        for command in all() {
            for name in command.names() {
                assert_eq!(Command::find(&name), Some(command), "{name}");
                assert_eq!(Command::find(&name.replace('-', "_")), Some(command), "{name}");
                assert_eq!(Command::find(&name.to_uppercase()), Some(command), "{name}");
                assert_eq!(name, normal(&name), "{name}");
            }
            let host_name = command.host_call().unwrap_or(command.name);
            assert_eq!(Command::find(host_name), Some(command), "{host_name}");
            for example in command.examples {
                assert!(example.call.starts_with(&format!("{} ", command.name)));
            }
            assert!(!command.examples.is_empty(), "{}", command.name);
        }
    }

    /// A shape brings its counts and its clock time.
    #[test]
    fn the_operands_are_the_calls_parameters() {
        for command in all() {
            let Some(call) = command.call() else { continue };
            let given: Vec<_> = command.operands.iter().map(|(parameter, _)| *parameter).collect();
            let shape =
                given.iter().any(|p| matches!(p, Parameter::Shape | Parameter::VorlaufShape));
            let brought = [Parameter::Count, Parameter::SecondCount, Parameter::Clock];
            for parameter in call.parameters() {
                let missing = shape && brought.contains(parameter);
                assert_eq!(given.contains(parameter), !missing, "{} {parameter:?}", command.name);
            }
            assert!(given.iter().all(|parameter| call.takes(*parameter)), "{}", command.name);
        }
    }
}
