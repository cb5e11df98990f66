use crate::bytes;
use crate::content::FromAnswer;
use crate::fields::Fields;
use crate::{
    AbmeldungVorlauf, Call, Content, Date, DayReason, Error, GasDue, Instant, Judgement, Refusal,
    Span, Unreadable, WerktageBetween,
};
use std::fmt;

const REFUSAL: usize = 0;
const KIND: usize = 1;
const COUNT: usize = 4;
const INSTANT: usize = 8;
const DATE: usize = 20;
const LAST_DATE: usize = 24;
const DAYS_TESTED: usize = LAST_DATE;
const MARGIN: usize = 28;

/// What is lent to a call: no answer, should the call leave it as it is.
pub(crate) const UNTOUCHED: Answer = Answer::from_bytes([u8::MAX; Answer::LEN]);

/// The 32 bytes of an answer, little-endian, laid out as documents 01 and 02 say. What a call does
/// not fill is zero. The fields are given as they stand there; what they mean is for
/// [`read`](Answer::read) to say.
///
/// ```
/// use mako_fristen_host::{Answer, Date, Instant};
///
/// let date = Date::new(2026, 1, 13);
/// let answer = Answer::default().with_kind(1).with_count(2).with_date(date);
/// assert_eq!((answer.number(), answer.kind(), answer.count()), (0, 1, 2));
/// assert_eq!((answer.date(), answer.last_date()), (date, Date::default()));
/// assert_eq!(answer.instant(), Instant::default());
/// assert_eq!(answer.as_bytes()[..8], [0, 1, 0, 0, 2, 0, 0, 0]);
/// assert_eq!(answer.as_bytes()[20..24], [0xea, 0x07, 1, 13]);
/// ```
#[derive(Clone, Copy, Debug, Default, PartialEq, Eq, Hash)]
pub struct Answer {
    bytes: [u8; Answer::LEN],
}

impl Answer {
    /// How many bytes an answer has.
    pub const LEN: usize = bytes::LEN;

    /// The answer of these bytes, whatever they are: [`read`](Answer::read) judges them.
    #[must_use]
    pub const fn from_bytes(bytes: [u8; Answer::LEN]) -> Answer {
        Answer { bytes }
    }

    /// The bytes.
    #[must_use]
    pub const fn as_bytes(&self) -> &[u8; Answer::LEN] {
        &self.bytes
    }

    /// The refusal number, or 0.
    #[must_use]
    pub const fn number(&self) -> u8 {
        self.bytes[REFUSAL]
    }

    /// Which of its cases the answer is; what the numbers mean is the call's matter. It is 0 in a
    /// refusal's answer too, so look at the [`number`](Answer::number) first.
    #[must_use]
    pub const fn kind(&self) -> u8 {
        self.bytes[KIND]
    }

    /// The count, of a verdict its Werktage.
    #[must_use]
    pub fn count(&self) -> u32 {
        bytes::count(&self.bytes, COUNT)
    }

    /// The instant.
    #[must_use]
    pub fn instant(&self) -> Instant {
        bytes::instant(&self.bytes, INSTANT)
    }

    /// The date, of a span its first.
    #[must_use]
    pub fn date(&self) -> Date {
        bytes::date(&self.bytes, DATE)
    }

    /// The span's last date. A count has its days tested in the same bytes, 24 to 27.
    #[must_use]
    pub fn last_date(&self) -> Date {
        bytes::date(&self.bytes, LAST_DATE)
    }

    /// How many days a count tested. A span has its last date in the same bytes, 24 to 27.
    ///
    /// ```
    /// use mako_fristen_host::{Call, Date, Question};
    ///
    /// let question = Question::on(Call::WerktageBetween, Date::new(2026, 4, 2));
    /// let answer = question.with_second(Date::new(2026, 4, 7)).answer()?;
    /// assert_eq!((answer.count(), answer.days_tested()), (1, 92 + 97));
    /// # Ok::<(), mako_fristen_host::Error>(())
    /// ```
    #[must_use]
    pub fn days_tested(&self) -> u32 {
        bytes::count(&self.bytes, DAYS_TESTED)
    }

    /// The margin of a verdict, in calendar days: see [`Judgement`].
    ///
    /// ```
    /// use mako_fristen_host::{Call, Date, Question, VorlaufShape};
    ///
    /// let question = Question::on(Call::VorlaufCheck, Date::new(2026, 1, 10));
    /// let question = question.with_second(Date::new(2026, 1, 12));
    /// let answer = question.with_shape(VorlaufShape::LatestWerktageBefore(1)).answer()?;
    /// assert_eq!((answer.count(), answer.margin()), (0, -1));
    /// # Ok::<(), mako_fristen_host::Error>(())
    /// ```
    #[must_use]
    pub fn margin(&self) -> i32 {
        i32::from_le_bytes(self.field(MARGIN))
    }

    /// What an answer of `call` says. Every byte of it counts: a kind that the documents do not have
    /// for the call is an error, and so is a field that is not zero although the kind does not fill
    /// it, a date or an instant outside the calendar, a number of days tested that no two dates have,
    /// or a margin that its verdict cannot have. The type is the one that [`Call::content`] names; as
    /// any other, no answer can be read.
    ///
    /// ```
    /// use mako_fristen_host::{Answer, Call, Date, Error, Refusal, Span};
    ///
    /// let (first, last) = (Date::new(2026, 1, 6), Date::new(2026, 1, 12));
    /// let between = Answer::default().with_kind(1).with_date(first).with_last_date(last);
    /// assert_eq!(between.read(Call::VorlaufSpan), Ok(Span::Between(first, last)));
    /// let unknown = between.with_kind(3).read::<Span>(Call::VorlaufSpan);
    /// assert!(matches!(unknown, Err(Error::Unreadable(_))));
    /// let refused = Answer::refused(Refusal::NoDate).read::<Span>(Call::VorlaufSpan);
    /// assert_eq!(refused, Err(Error::Refused(Refusal::NoDate)));
    /// ```
    ///
    /// # Errors
    ///
    /// [`Error::Refused`], if the answer is a refusal's; else [`Error::Unreadable`].
    pub fn read<T: FromAnswer>(&self, call: Call) -> Result<T, Error> {
        self.read_beside(self.number(), call)
    }

    /// The same beside the number that the call returned.
    fn read_beside<T: FromAnswer>(&self, number: u8, call: Call) -> Result<T, Error> {
        let fields = Fields::of(self);
        let answered = number == 0 && call.content() == T::CONTENT;
        let content = if answered { T::read(&fields, call) } else { None };
        match content {
            Some(content) if content.written() == fields => Ok(content),
            _ => Err(self.without_content(&fields, number, call)),
        }
    }

    fn without_content(&self, fields: &Fields, number: u8, call: Call) -> Error {
        let refused = Fields { number, ..Fields::default() };
        match Refusal::of_number(number) {
            // A 1 and a 9 leave the slice untouched, so that no 32 bytes hold them; a 10 is of a
            // portfolio's lists, and no question has them.
            None | Some(Refusal::AnswerLength | Refusal::FileLength | Refusal::ListLength) => {
                self.unreadable(number, call)
            }
            Some(refusal) if *fields == refused => refusal.into(),
            Some(_) => self.unreadable(number, call),
        }
    }

    #[cold]
    pub(crate) fn unreadable(&self, number: u8, call: Call) -> Error {
        Unreadable { call, number, answer: *self }.into()
    }

    /// The answer itself, if [`read`](Answer::read) knows it as one of `call`.
    ///
    /// ```
    /// use mako_fristen_host::{Answer, Call};
    ///
    /// let karfreitag = Answer::default().with_kind(17);
    /// assert_eq!(karfreitag.checked(Call::IsWerktag), Ok(karfreitag));
    /// assert!(karfreitag.checked(Call::AddWerktage).is_err(), "a step has no kind");
    /// ```
    ///
    /// # Errors
    ///
    /// Those of [`read`](Answer::read).
    pub fn checked(self, call: Call) -> Result<Answer, Error> {
        self.checked_beside(self.number(), call)
    }

    fn checked_beside(&self, number: u8, call: Call) -> Result<Answer, Error> {
        match call.content() {
            Content::Werktag => self.is_read_as::<DayReason>(number, call),
            Content::Date => self.is_read_as::<Date>(number, call),
            Content::Count => self.is_read_as::<WerktageBetween>(number, call),
            Content::Instant => self.is_read_as::<Instant>(number, call),
            Content::GasDue => self.is_read_as::<GasDue>(number, call),
            Content::Verdict => self.is_read_as::<Judgement>(number, call),
            Content::AbmeldungVerdict => self.is_read_as::<Option<Judgement>>(number, call),
            Content::Span => self.is_read_as::<Span>(number, call),
            Content::AbmeldungVorlauf => self.is_read_as::<AbmeldungVorlauf>(number, call),
            Content::Ankuendigung => self.is_read_as::<Option<bool>>(number, call),
        }
        .map(|()| *self)
    }

    fn is_read_as<T: FromAnswer>(&self, number: u8, call: Call) -> Result<(), Error> {
        self.read_beside::<T>(number, call).map(|_| ())
    }

    /// The answer of `call`, which `ask` puts with the 32 bytes that are lent to it.
    ///
    /// ```
    /// use mako_fristen_host::{ffi, Answer, Call, Date, Error};
    ///
    /// let answer = Answer::of(Call::AddWerktage, |a| ffi::mf_add_werktage(2026, 4, 2, 1, a));
    /// assert_eq!(answer, Ok(Answer::default().with_date(Date::new(2026, 4, 7))));
    /// let silent = Answer::of(Call::AddWerktage, |_| 0);
    /// assert!(matches!(silent, Err(Error::Unreadable(_))), "no byte was written");
    /// ```
    ///
    /// # Errors
    ///
    /// Those of [`read`](Answer::read); [`Error::Unreadable`] as well, if the number that is returned
    /// is not the one in the answer.
    pub fn of(call: Call, ask: impl FnOnce(&mut [u8]) -> u8) -> Result<Answer, Error> {
        let mut answer = UNTOUCHED;
        let number = ask(&mut answer.bytes);
        answer.checked_beside(number, call)
    }

    /// The same, read.
    pub(crate) fn content_of<T: FromAnswer>(
        call: Call,
        ask: impl FnOnce(&mut [u8]) -> u8,
    ) -> Result<T, Error> {
        let mut answer = UNTOUCHED;
        let number = ask(&mut answer.bytes);
        answer.read_beside(number, call)
    }

    /// A refusal's answer: its number, and nothing else. Refusals 1 and 9 leave a slice untouched,
    /// so that no call gives this answer of them.
    ///
    /// ```
    /// use mako_fristen_host::{Answer, Refusal};
    ///
    /// assert_eq!(Answer::refused(Refusal::LeavesCalendar).number(), 8);
    /// ```
    #[must_use]
    pub fn refused(refusal: Refusal) -> Answer {
        Answer::default().with(REFUSAL, &[refusal.number()])
    }

    /// With this kind.
    #[must_use]
    pub fn with_kind(self, kind: u8) -> Answer {
        self.with(KIND, &[kind])
    }

    /// With this count.
    #[must_use]
    pub fn with_count(self, count: u32) -> Answer {
        self.with(COUNT, &count.to_le_bytes())
    }

    /// With this instant.
    #[must_use]
    pub fn with_instant(self, instant: Instant) -> Answer {
        Answer { bytes: bytes::with_instant(self.bytes, INSTANT, instant) }
    }

    /// With this date.
    #[must_use]
    pub fn with_date(self, date: Date) -> Answer {
        self.with(DATE, &date.to_bytes())
    }

    /// With this last date of a span.
    #[must_use]
    pub fn with_last_date(self, date: Date) -> Answer {
        self.with(LAST_DATE, &date.to_bytes())
    }

    /// With this many days tested by a count.
    #[must_use]
    pub fn with_days_tested(self, days: u32) -> Answer {
        self.with(DAYS_TESTED, &days.to_le_bytes())
    }

    /// With this margin of a verdict.
    #[must_use]
    pub fn with_margin(self, days: i32) -> Answer {
        self.with(MARGIN, &days.to_le_bytes())
    }

    pub(crate) fn field<const N: usize>(&self, at: usize) -> [u8; N] {
        bytes::field(&self.bytes, at)
    }

    fn with(self, at: usize, field: &[u8]) -> Answer {
        Answer { bytes: bytes::with(self.bytes, at, field) }
    }
}

/// The bytes as 64 hexadecimal digits.
impl fmt::LowerHex for Answer {
    fn fmt(&self, f: &mut fmt::Formatter<'_>) -> fmt::Result {
        bytes::hex(&self.bytes, f)
    }
}
