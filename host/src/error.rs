use crate::{Refusal, Unreadable};
use std::{error, fmt};

/// Why a function has nothing to give: the call refused the question, or its answer is none that
/// this host knows.
///
/// A refusal is a matter of the question, and a service will tell some from others. An unreadable
/// answer is a matter of the build: the program was linked with an archive of another version.
///
/// ```
/// use mako_fristen_host::{add_werktage, Date, Error, Refusal};
///
/// fn due(from: Date) -> Result<Option<Date>, Error> {
///     match add_werktage(from, 3) {
///         Ok(day) => Ok(Some(day)),
///         Err(Error::Refused(Refusal::LeavesCalendar)) => Ok(None),
///         Err(error) => Err(error),
///     }
/// }
///
/// assert_eq!(due(Date::new(2026, 4, 2)), Ok(Some(Date::new(2026, 4, 9))));
/// assert_eq!(due(Date::LAST), Ok(None));
/// assert_eq!(due(Date::new(2026, 2, 29)), Err(Refusal::NoDate.into()));
/// ```
#[derive(Clone, Copy, Debug, PartialEq, Eq, Hash)]
pub enum Error {
    /// The call refused the question.
    Refused(Refusal),
    /// The call gave an answer that the documents do not have.
    Unreadable(Unreadable),
}

impl Error {
    /// The refusal; none for an answer that cannot be read.
    ///
    /// ```
    /// use mako_fristen_host::{is_werktag, Date, Refusal};
    ///
    /// let error = is_werktag(Date::new(2026, 2, 29)).unwrap_err();
    /// assert_eq!(error.refusal(), Some(Refusal::NoDate));
    /// ```
    #[must_use]
    pub const fn refusal(self) -> Option<Refusal> {
        match self {
            Error::Refused(refusal) => Some(refusal),
            Error::Unreadable(_) => None,
        }
    }
}

impl From<Refusal> for Error {
    fn from(refusal: Refusal) -> Error {
        Error::Refused(refusal)
    }
}

impl From<Unreadable> for Error {
    fn from(unreadable: Unreadable) -> Error {
        Error::Unreadable(unreadable)
    }
}

/// The sentence of the refusal or of the unreadable answer.
impl fmt::Display for Error {
    fn fmt(&self, f: &mut fmt::Formatter<'_>) -> fmt::Result {
        match self {
            Error::Refused(refusal) => refusal.fmt(f),
            Error::Unreadable(unreadable) => unreadable.fmt(f),
        }
    }
}

impl error::Error for Error {}
