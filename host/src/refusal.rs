use std::{error, fmt};

/// Why a call gives no answer. The numbers are document 01's, from 9 on document 02's; where several
/// apply, the call refuses with the lowest, but 9 goes before all others: it is for a whole file of
/// questions, before any of them is read. Further numbers will come, so a `match` needs a case for
/// the rest.
///
/// A refusal says that the question has no answer, never that a Frist was kept or missed. It is
/// final: the same question is always refused with the same number.
///
/// ```
/// use mako_fristen_host::{add_werktage, is_werktag, Date, Error, Refusal};
///
/// assert_eq!(is_werktag(Date::new(2026, 2, 29)), Err(Error::Refused(Refusal::NoDate)));
/// let refusal = add_werktage(Date::LAST, 1).unwrap_err().refusal();
/// assert_eq!(refusal, Some(Refusal::LeavesCalendar));
/// ```
#[derive(Clone, Copy, Debug, PartialEq, Eq, PartialOrd, Ord, Hash)]
#[non_exhaustive]
pub enum Refusal {
    /// 1: the answer is not 32 bytes long. Only [`ffi`](crate::ffi) and
    /// [`Question::ask`](crate::Question::ask) can meet it.
    AnswerLength,
    /// 2: a code is unknown. The functions with plain types have only known ones.
    UnknownCode,
    /// 3: a given date is no date from 1 January 1996 to 31 December 2899.
    NoDate,
    /// 4: an instant lies outside [`Instant::FIRST`](crate::Instant::FIRST) to
    /// [`Instant::LAST`](crate::Instant::LAST), or its nanoseconds are over 999,999,999.
    InstantOutside,
    /// 5: an hour over 23, a minute or second over 59, nanoseconds over 999,999,999.
    NoClock,
    /// 6: Berlin's clock does not show this time on this day.
    LocalTimeAbsent,
    /// 7: the instant is not the beginning of a day in its Sparte.
    NoBeginning,
    /// 8: a result leaves the calendar.
    LeavesCalendar,
    /// 9: the bytes of a file of questions are no multiple of 32 or over 65,536, or the answers
    /// differ from them in length. Only [`ffi::mf_questions`](crate::ffi::mf_questions) and
    /// [`answer_records`](crate::answer_records) can meet it.
    FileLength,
    /// 10: the three lists of a portfolio differ in length or have over 4,096 entries. Only
    /// [`ffi::mf_portfolio`](crate::ffi::mf_portfolio) and
    /// [`portfolio_counts`](crate::portfolio_counts) can meet it.
    ListLength,
}

impl Refusal {
    /// In the order of their numbers, from 1.
    pub const ALL: [Refusal; 10] = [
        Refusal::AnswerLength,
        Refusal::UnknownCode,
        Refusal::NoDate,
        Refusal::InstantOutside,
        Refusal::NoClock,
        Refusal::LocalTimeAbsent,
        Refusal::NoBeginning,
        Refusal::LeavesCalendar,
        Refusal::FileLength,
        Refusal::ListLength,
    ];

    /// The number that a call returns, never 0.
    ///
    /// ```
    /// use mako_fristen_host::Refusal;
    ///
    /// assert_eq!(Refusal::LeavesCalendar.number(), 8);
    /// ```
    #[must_use]
    pub const fn number(self) -> u8 {
        match self {
            Refusal::AnswerLength => 1,
            Refusal::UnknownCode => 2,
            Refusal::NoDate => 3,
            Refusal::InstantOutside => 4,
            Refusal::NoClock => 5,
            Refusal::LocalTimeAbsent => 6,
            Refusal::NoBeginning => 7,
            Refusal::LeavesCalendar => 8,
            Refusal::FileLength => 9,
            Refusal::ListLength => 10,
        }
    }

    /// The refusal of a number. None for 0, which is an answer's, and for one that no document has,
    /// which is neither: no caller may take the one for the other.
    pub(crate) fn of_number(number: u8) -> Option<Refusal> {
        match number {
            1 => Some(Refusal::AnswerLength),
            2 => Some(Refusal::UnknownCode),
            3 => Some(Refusal::NoDate),
            4 => Some(Refusal::InstantOutside),
            5 => Some(Refusal::NoClock),
            6 => Some(Refusal::LocalTimeAbsent),
            7 => Some(Refusal::NoBeginning),
            8 => Some(Refusal::LeavesCalendar),
            9 => Some(Refusal::FileLength),
            10 => Some(Refusal::ListLength),
            _ => None,
        }
    }

    /// A German sentence, as `./fristen` prints it behind the number.
    ///
    /// ```
    /// use mako_fristen_host::Refusal;
    ///
    /// assert_eq!(Refusal::AnswerLength.beschreibung(), "Die Antwort ist nicht 32 Bytes lang.");
    /// ```
    #[must_use]
    pub const fn beschreibung(self) -> &'static str {
        match self {
            Refusal::AnswerLength => "Die Antwort ist nicht 32 Bytes lang.",
            Refusal::UnknownCode => {
                "Ein Code (Anlass, Sparte, Form oder EEG-Kennzeichen) ist unbekannt."
            }
            Refusal::NoDate => {
                "Ein angegebenes Datum ist kein Tag vom 1. Januar 1996 bis zum 31. Dezember 2899."
            }
            Refusal::InstantOutside => {
                "Ein Zeitpunkt liegt nicht an einem Berliner Tag vom 1. Januar 1996 bis zum \
                 31. Dezember 2899, oder er hat über 999999999 Nanosekunden."
            }
            Refusal::NoClock => {
                "Eine Uhrzeit hat eine Stunde über 23, eine Minute oder Sekunde über 59 oder über \
                 999999999 Nanosekunden."
            }
            Refusal::LocalTimeAbsent => {
                "Diese Uhrzeit gibt es an dem Tag in Berlin nicht, die Uhr wird über sie hinweg \
                 vorgestellt."
            }
            Refusal::NoBeginning => {
                "Der Zeitpunkt ist in seiner Sparte nicht der Beginn eines Tages (Strom 00:00 Uhr, \
                 Gas 06:00 Uhr in Berlin)."
            }
            Refusal::LeavesCalendar => {
                "Ein Ergebnis verlässt den Kalender vom 1. Januar 1996 bis zum 31. Dezember 2899."
            }
            Refusal::FileLength => {
                "Die Fragen sind kein Vielfaches von 32 Bytes oder länger als 65536 Bytes, oder \
                 die Antworten sind nicht ebenso lang."
            }
            Refusal::ListLength => {
                "Die drei Listen sind nicht gleich lang oder haben über 4096 Einträge."
            }
        }
    }
}

/// A sentence for a log, without a full stop.
impl fmt::Display for Refusal {
    fn fmt(&self, f: &mut fmt::Formatter<'_>) -> fmt::Result {
        f.write_str(match self {
            Refusal::AnswerLength => "the lent answer is not 32 bytes long",
            Refusal::UnknownCode => "a code (Anlass, Sparte, shape or EEG mark) is unknown",
            Refusal::NoDate => "a given date is no date from 1 January 1996 to 31 December 2899",
            Refusal::InstantOutside => {
                "an instant lies outside the Berlin days from 1 January 1996 to 31 December 2899"
            }
            Refusal::NoClock => {
                "a clock time has an hour over 23, a minute or second over 59, \
                 or nanoseconds over 999,999,999"
            }
            Refusal::LocalTimeAbsent => {
                "the local time is absent in Berlin: the clocks go forward past it on that day"
            }
            Refusal::NoBeginning => "the instant is not the beginning of a day in its Sparte",
            Refusal::LeavesCalendar => {
                "a result leaves the calendar from 1 January 1996 to 31 December 2899"
            }
            Refusal::FileLength => {
                "the bytes of the questions are no multiple of 32 or over 65,536, \
                 or the answers differ from them in length"
            }
            Refusal::ListLength => "the three lists differ in length or have over 4,096 entries",
        })
    }
}

impl error::Error for Refusal {}
