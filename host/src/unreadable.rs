use crate::{Answer, Call};
use std::{error, fmt};

/// An answer that the documents do not have: a number, a kind, or something in a field that the kind
/// does not fill. The archive is of another version than this host, and what it means is not known.
/// It is no refusal, and no verdict either.
#[derive(Clone, Copy, Debug, PartialEq, Eq, Hash)]
pub struct Unreadable {
    /// The call that answered; for a question of a file and a pair of a portfolio, its single call.
    pub call: Call,
    /// The number that was returned, of a file and a portfolio the one for all of it.
    pub number: u8,
    /// The bytes that were left; for a count of a portfolio that cannot be read, an answer with it.
    pub answer: Answer,
}

/// A sentence for a log, without a full stop.
impl fmt::Display for Unreadable {
    fn fmt(&self, f: &mut fmt::Formatter<'_>) -> fmt::Result {
        let Unreadable { call, number, answer } = self;
        let name = call.name();
        write!(f, "{name} returned {number} and an answer that this host cannot read: {answer:x}")
    }
}

impl error::Error for Unreadable {}
