//! The completion for bash, made from the tables of subcommands and names.

use crate::arguments::OPTIONS;
use crate::command::{self, Command, Task};
use crate::ja_nein;
use crate::names::{Named, ANLAESSE, EEG, FRISTEN, SPARTEN, VORLAUF};
use mako_fristen_host::Parameter;

const SCRIPT: &str = include_str!("completion.bash");

/// Options that only some subcommands have; of the others each does.
const OF_SOME: [&str; 5] = ["--eeg", "--stichtag", "--roh", "--bytes", "--status"];
/// Options without a subcommand.
const OF_NONE: [&str; 3] = ["--version", "--manpage", "--bash-completion"];

pub fn script() -> String {
    let of_all = OPTIONS.iter().filter(|it| !OF_SOME.contains(it) && !OF_NONE.contains(it));
    let of_all: Vec<&str> = of_all.copied().collect();
    let names: Vec<String> = command::all().flat_map(Command::names).collect();
    let arms: String = command::all().filter_map(arm).collect();
    SCRIPT
        .replace("@ARMS@\n", &arms)
        .replace("@COMMANDS@", &names.join(" "))
        .replace("@OPTIONS@", &of_all.join(" "))
        .replace("@ALONE@", &OF_NONE.join(" "))
        .replace("@EEG@", &all_names(&EEG).join(" "))
}

/// What stands behind a subcommand, unless that is nothing but dates and numbers. Further operands
/// can have any number of words before them.
fn arm(command: &Command) -> Option<String> {
    let names: Vec<String> = command.names().collect();
    let mut operands = command.operands.iter().map(|(parameter, _)| words(*parameter));
    let first = operands.next().unwrap_or_default();
    let later: Vec<&str> = operands.flatten().collect();
    let files = matches!(command.task, Task::Fragen | Task::Portfolio);
    let rows = [
        row("first", &first),
        row("later", &later),
        row("own", &own_options(command)),
        if files { "            files=1\n".to_owned() } else { String::new() },
    ];
    let rows = rows.concat();
    (!rows.is_empty()).then(|| format!("        {})\n{rows}            ;;\n", names.join(" | ")))
}

fn row(variable: &str, words: &[&str]) -> String {
    match words.is_empty() {
        true => String::new(),
        false => format!("            {variable}='{}'\n", words.join(" ")),
    }
}

fn words(parameter: Parameter) -> Vec<&'static str> {
    match parameter {
        Parameter::VorlaufShape => all_names(&VORLAUF),
        Parameter::Shape => all_names(&FRISTEN),
        Parameter::Anlass => all_names(&ANLAESSE),
        Parameter::Sparte | Parameter::SecondSparte => all_names(&SPARTEN),
        _ => Vec::new(),
    }
}

fn all_names<T>(table: &'static [Named<T>]) -> Vec<&'static str> {
    table.iter().flat_map(Named::names).collect()
}

fn own_options(command: &Command) -> Vec<&'static str> {
    let shown = command.operands.iter().map(|(_, label)| *label).chain(command.options.to_vec());
    let shown: Vec<&str> = shown.collect();
    let has = |option: &&str| match *option {
        "--bytes" => !matches!(command.task, Task::Kalender | Task::BisWann),
        "--status" => ja_nein::is_of(command.task),
        option => shown.iter().any(|it| it.trim_start_matches('[').starts_with(option)),
    };
    OF_SOME.into_iter().filter(has).collect()
}
