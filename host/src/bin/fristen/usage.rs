use crate::command::{Command, GROUPS};
use crate::names::one_of;
use crate::program;
use crate::words::meant;
use std::ffi::OsStr;

/// A call that the program cannot make sense of.
#[derive(Debug)]
pub struct Usage {
    pub message: String,
    /// With the name by which it was called.
    command: Option<(&'static Command, String)>,
    /// Whether the message names what was meant.
    meant: bool,
}

impl Usage {
    pub fn new(message: impl Into<String>) -> Usage {
        Usage { message: message.into(), command: None, meant: false }
    }

    /// A word that is none of those known, with the one that may have been meant.
    pub fn unknown<'a>(
        what: &str,
        word: &OsStr,
        all: impl IntoIterator<Item = &'a str>,
        others: impl IntoIterator<Item = &'a str>,
    ) -> Usage {
        Usage::new(format!("{what} {}", quoted(word))).meaning(perhaps(word, all, others))
    }

    /// With a question behind its message.
    pub fn meaning(self, perhaps: String) -> Usage {
        Usage { meant: !perhaps.is_empty(), message: self.message + &perhaps, ..self }
    }

    pub fn of(self, command: &'static Command, called: &str) -> Usage {
        Usage { command: Some((command, command.known_by(called))), ..self }
    }

    /// What was expected, and how the subcommand is called.
    pub fn text(&self) -> String {
        let (message, name, program) = (&self.message, program::name(), program::called());
        match &self.command {
            Some((command, called)) => format!(
                "{name}: {message}\nAufruf: {program} {}\nMehr: {program} {called} --help\n",
                command.usage(called)
            ),
            None if self.meant => format!("{name}: {message}\nMehr: {program} --help\n"),
            None => {
                format!("{name}: {message}\nBefehle:\n{}Mehr: {program} --help\n", commands())
            }
        }
    }

    /// The same on one line, of a line of a file.
    pub fn of_line(&self, line: u64) -> String {
        let message = &self.message;
        let form = self.command.as_ref().map(|(command, called)| command.usage_in_line(called));
        let form = form.map_or(String::new(), |form| format!(" (Aufbau: {form})"));
        format!("{}: Zeile {line}: {message}{form}\n", program::name())
    }
}

/// How much of a text a complaint quotes.
const MOST_QUOTED: usize = 80;

/// As it stands behind a complaint: the known words that may have been meant, if there are any.
pub fn perhaps<'a>(
    word: &OsStr,
    all: impl IntoIterator<Item = &'a str>,
    others: impl IntoIterator<Item = &'a str>,
) -> String {
    let meant = meant(&word.to_string_lossy(), all, others);
    if meant.is_empty() {
        return String::new();
    }
    format!(". Meinten Sie {}?", one_of(&meant))
}

/// The names of all, a line for each heading.
fn commands() -> String {
    let line = |(heading, commands): &(&str, &[Command])| {
        let names: Vec<_> = commands.iter().map(Command::german_name).collect();
        format!("  {heading}: {}\n", names.join(", "))
    };
    GROUPS.iter().map(line).collect()
}

/// In German quotation marks, for a complaint: of a long text the beginning.
pub fn quoted(text: &OsStr) -> String {
    let text = text.to_string_lossy();
    match text.char_indices().nth(MOST_QUOTED) {
        Some((end, _)) => quoted_bytes(format!("{}…", &text[..end]).as_bytes()),
        None => quoted_bytes(text.as_bytes()),
    }
}

/// In German quotation marks, with nothing in it that would steer a terminal.
pub fn quoted_bytes(text: &[u8]) -> String {
    let text = String::from_utf8_lossy(text);
    let text: String = text.chars().flat_map(visible).collect();
    format!("„{text}“")
}

fn visible(c: char) -> Vec<char> {
    // The direction of writing is steered too.
    let turns =
        matches!(c, '\u{200e}' | '\u{200f}' | '\u{202a}'..='\u{202e}' | '\u{2066}'..='\u{2069}');
    if c.is_control() || turns {
        return c.escape_unicode().collect();
    }
    vec![c]
}
