//! Why there is nothing to read out, in German.

use crate::program;
use mako_fristen_host::{Error, Refusal, Unreadable};

/// The refusal with its number.
pub fn refused(refusal: Refusal) -> String {
    refused_as(refusal, refusal.beschreibung())
}

/// The same with a sentence of its own.
pub fn refused_as(refusal: Refusal, sentence: &str) -> String {
    format!("Abgelehnt ({}): {sentence}", refusal.number())
}

/// An answer that this program does not know, with its bytes.
pub fn unreadable(Unreadable { call, number, answer }: &Unreadable) -> String {
    format!(
        "{}: Die Antwort von {} ist nicht lesbar (Nummer {number}, Bytes {answer:x}).\n\
         Programm und Bibliothek sind nicht vom selben Stand.",
        program::name(),
        call.name()
    )
}

/// What a further call answers; none if it refuses.
pub fn unless_refused<T>(answer: Result<T, Error>) -> Result<Option<T>, Error> {
    match answer {
        Ok(answer) => Ok(Some(answer)),
        Err(Error::Refused(_)) => Ok(None),
        Err(error) => Err(error),
    }
}
