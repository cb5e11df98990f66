use crate::outcome::{Outcome, Status};
use crate::usage::quoted_bytes;
use crate::{program, streams};
use std::ffi::OsStr;
use std::fs::File;
use std::io::{self, IsTerminal, Read, Write};

/// Where the lines or records come from.
pub struct Input {
    /// As in '… lässt sich nicht lesen'.
    name: String,
    bytes: Box<dyn Read>,
    /// How many bytes there are, if that is known.
    pub len: Option<u64>,
    /// Whether somebody is typing them.
    pub typed: bool,
}

impl Input {
    /// The file of this name, or the standard input.
    ///
    /// # Errors
    ///
    /// That there is none that can be opened.
    pub fn open(file: Option<&OsStr>) -> Result<Input, Outcome> {
        let Some(file) = file else {
            return Input::standard();
        };
        let name = quoted_bytes(file.as_encoded_bytes());
        let opened = File::open(file).map_err(|error| unread(&name, &error))?;
        let len = opened.metadata().ok().filter(|about| about.is_file()).map(|about| about.len());
        Ok(Input { name, bytes: Box::new(opened), len, typed: false })
    }

    fn standard() -> Result<Input, Outcome> {
        let name = "Die Standardeingabe".to_owned();
        let bytes = streams::input().map_err(|error| unread(&name, &error))?;
        let typed = io::stdin().is_terminal();
        if typed && io::stderr().is_terminal() {
            // That it waits must not be missed; whether this can be written is no matter.
            let _ = writeln!(
                io::stderr(),
                "{}: liest von der Tastatur, Ende mit Strg+D ...",
                program::name()
            );
        }
        Ok(Input { name, bytes: Box::new(bytes), len: None, typed })
    }

    /// What is said of an error in reading.
    pub fn unread(&self, error: &io::Error) -> Outcome {
        unread(&self.name, error)
    }
}

impl Read for Input {
    fn read(&mut self, buffer: &mut [u8]) -> io::Result<usize> {
        self.bytes.read(buffer)
    }
}

fn unread(name: &str, error: &io::Error) -> Outcome {
    let why = match error.kind() {
        io::ErrorKind::NotFound => "Diese Datei gibt es nicht.".to_owned(),
        io::ErrorKind::PermissionDenied => "Die Berechtigung fehlt.".to_owned(),
        io::ErrorKind::NotConnected => "Sie ist nicht zum Lesen geöffnet.".to_owned(),
        io::ErrorKind::IsADirectory => "Das ist ein Verzeichnis.".to_owned(),
        _ => error.to_string(),
    };
    let text = format!("{}: {name} lässt sich nicht lesen. {why}\n", program::name());
    Outcome::complaint(text, Status::NoInput)
}
