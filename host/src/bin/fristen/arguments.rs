use crate::usage::{quoted, Usage};
use std::ffi::{OsStr, OsString};

/// How an answer is written.
#[derive(Clone, Copy, Debug, Default, PartialEq, Eq)]
pub enum Form {
    #[default]
    Sentence,
    Json,
    Bytes,
    /// The bare value.
    Short,
}

/// All of them.
pub const OPTIONS: [&str; 11] = [
    "--json",
    "--kurz",
    "--bytes",
    "--status",
    "--eeg",
    "--stichtag",
    "--roh",
    "--help",
    "--version",
    "--manpage",
    "--bash-completion",
];

/// What the program says of itself.
#[derive(Clone, Copy, Debug, PartialEq, Eq)]
pub enum About {
    Version,
    Manpage,
    Completion,
}

/// The arguments, options apart from the others.
#[derive(Debug, Default)]
pub struct Arguments {
    pub form: Form,
    /// Records in and out, instead of any form.
    pub raw: bool,
    pub help: bool,
    pub about: Option<About>,
    /// Whether a verdict is to be an exit status too.
    pub status: bool,
    pub eeg: Option<OsString>,
    pub stichtag: Option<OsString>,
    /// What is no option, or stands behind `--`.
    pub words: Vec<OsString>,
    /// All but the first word and the form, as given.
    pub given: Vec<OsString>,
}

impl Arguments {
    pub fn read(arguments: Vec<OsString>) -> Result<Arguments, Usage> {
        let mut read = Arguments::default();
        let mut left = arguments.into_iter();
        while let Some(argument) = left.next() {
            match argument.to_str().map(parted).as_ref().map(|(name, value)| (&name[..], *value)) {
                Some(("--", None)) => {
                    read.given.push(argument);
                    left.by_ref().for_each(|word| read.word(word));
                }
                Some(("-h" | "--help" | "--hilfe", None)) => read.help = true,
                Some(("--version", None)) => read.about = Some(About::Version),
                Some(("--manpage", None)) => read.about = Some(About::Manpage),
                Some(("--bash-completion", None)) => read.about = Some(About::Completion),
                Some(("--json", None)) => read.form(Form::Json)?,
                Some(("--bytes", None)) => read.form(Form::Bytes)?,
                Some(("--kurz", None)) => read.form(Form::Short)?,
                Some(("--status", None)) => read.status = true,
                Some(("--roh", None)) => read.raw = true,
                Some((option @ ("--eeg" | "--stichtag"), Some(value))) => {
                    read.value(option, Some(value.into()))?;
                    read.given.push(argument);
                }
                Some((option @ ("--eeg" | "--stichtag"), None)) => {
                    let value = left.next();
                    read.value(option, value.clone())?;
                    read.given.push(argument);
                    read.given.extend(value);
                }
                _ if is_option(&argument) => {
                    return Err(Usage::unknown("unbekannte Option", &argument, OPTIONS, OPTIONS));
                }
                _ => read.word(argument),
            }
        }
        Ok(read)
    }

    /// The words of a line of a file, where there are no options.
    pub fn of_line(words: &[&str]) -> Result<Arguments, Usage> {
        let mut read = Arguments::default();
        for word in words.iter().map(OsString::from) {
            if is_option(&word) {
                let message = format!("Optionen gibt es in einer Zeile nicht: {}", quoted(&word));
                return Err(Usage::new(message));
            }
            read.word(word);
        }
        Ok(read)
    }

    fn word(&mut self, word: OsString) {
        if !self.words.is_empty() {
            self.given.push(word.clone());
        }
        self.words.push(word);
    }

    fn form(&mut self, form: Form) -> Result<(), Usage> {
        if self.form != Form::Sentence && self.form != form {
            return Err(Usage::new("erwartet nur eines von --json, --bytes und --kurz"));
        }
        self.form = form;
        Ok(())
    }

    /// What stands behind one of the two options that have something behind them.
    fn value(&mut self, option: &str, value: Option<OsString>) -> Result<(), Usage> {
        let (place, expected) = match option {
            "--eeg" => (&mut self.eeg, "ja, nein oder unbekannt"),
            _ => (&mut self.stichtag, "ein Datum wie 2026-04-02 oder 2.4.2026"),
        };
        let missing = || Usage::new(format!("erwartet {expected} nach {option}"));
        let value = value.ok_or_else(missing)?;
        if place.is_some() {
            return Err(Usage::new(format!("erwartet {option} nur einmal")));
        }
        *place = Some(value);
        Ok(())
    }
}

/// An option in any letter case, and what stands behind its `=`.
fn parted(argument: &str) -> (String, Option<&str>) {
    match argument.split_once('=') {
        Some((option, value)) => (option.to_lowercase(), Some(value)),
        None => (argument.to_lowercase(), None),
    }
}

/// A hyphen alone is a word, and a negative number is one that is refused as a number.
pub fn is_option(argument: &OsStr) -> bool {
    let bytes = argument.as_encoded_bytes();
    bytes.first() == Some(&b'-') && bytes.get(1).is_some_and(|next| !next.is_ascii_digit())
}
