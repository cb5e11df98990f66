//! The holidays by name and number. When they are is for the day test to say: no rule of the list
//! stands here, so that the list is the one that is proved.

#[cfg(doc)]
use crate::Refusal;
use crate::{day_reason, Date, DayReason, Error};
use std::fmt;

macro_rules! feiertage {
    ($($case:ident $name:literal;)+) => {
        /// A holiday of the list of document 01, in its order.
        #[derive(Clone, Copy, Debug, PartialEq, Eq, PartialOrd, Ord, Hash)]
        #[repr(u8)]
        pub enum Feiertag {
            $(#[doc = concat!($name, ".")] $case,)+
        }

        impl Feiertag {
            /// In the order of their numbers, from 3.
            pub const ALL: [Feiertag; [$(Feiertag::$case),+].len()] = [$(Feiertag::$case),+];

            /// The German name.
            ///
            /// ```
            /// use mako_fristen_host::Feiertag;
            ///
            /// assert_eq!(Feiertag::BussUndBettag.name(), "Buß- und Bettag");
            /// ```
            #[must_use]
            pub const fn name(self) -> &'static str {
                match self {
                    $(Feiertag::$case => $name,)+
                }
            }
        }
    };
}

feiertage! {
    Neujahr "Neujahr";
    HeiligeDreiKoenige "Heilige Drei Könige";
    InternationalerFrauentag "Internationaler Frauentag";
    TagDerArbeit "Tag der Arbeit";
    MariaeHimmelfahrt "Mariä Himmelfahrt";
    Weltkindertag "Weltkindertag";
    TagDerDeutschenEinheit "Tag der Deutschen Einheit";
    Reformationstag "Reformationstag";
    Allerheiligen "Allerheiligen";
    Heiligabend "Heiligabend";
    ErsterWeihnachtsfeiertag "Erster Weihnachtsfeiertag";
    ZweiterWeihnachtsfeiertag "Zweiter Weihnachtsfeiertag";
    Silvester "Silvester";
    BussUndBettag "Buß- und Bettag";
    Karfreitag "Karfreitag";
    Ostermontag "Ostermontag";
    ChristiHimmelfahrt "Christi Himmelfahrt";
    Pfingstsonntag "Pfingstsonntag";
    Pfingstmontag "Pfingstmontag";
    Fronleichnam "Fronleichnam";
}

/// Behind those of a Werktag, a Saturday and a Sunday.
const FIRST_NUMBER: u8 = 3;
/// Up to this one they are on the same day and month in every year.
const LAST_FIXED: Feiertag = Feiertag::Silvester;

impl Feiertag {
    /// The number by which the day test knows it, from 3: its place in the list.
    ///
    /// ```
    /// use mako_fristen_host::Feiertag;
    ///
    /// assert_eq!(Feiertag::Neujahr.number(), 3);
    /// assert_eq!(Feiertag::Fronleichnam.number(), 22);
    /// ```
    #[must_use]
    pub const fn number(self) -> u8 {
        self as u8 + FIRST_NUMBER
    }

    pub(crate) fn of_number(number: u8) -> Option<Feiertag> {
        let place = number.checked_sub(FIRST_NUMBER)?;
        Feiertag::ALL.get(usize::from(place)).copied()
    }

    /// The holiday on a date, be it a weekday or not; of two the lower number, as on 1 May 2008,
    /// which is Christi Himmelfahrt too. On a weekend the day test does not name it
    /// ([`day_reason`]).
    ///
    /// ```
    /// use mako_fristen_host::{day_reason, Date, DayReason, Feiertag};
    ///
    /// let sunday = Date::new(2026, 3, 8);
    /// assert_eq!(day_reason(sunday), Ok(DayReason::Sonntag));
    /// assert_eq!(Feiertag::on(sunday), Ok(Some(Feiertag::InternationalerFrauentag)));
    /// assert_eq!(Feiertag::on(Date::new(2008, 5, 1)), Ok(Some(Feiertag::TagDerArbeit)));
    /// assert_eq!(Feiertag::on(Date::new(2026, 4, 7)), Ok(None));
    /// ```
    ///
    /// # Errors
    ///
    /// [`Refusal::NoDate`].
    pub fn on(date: Date) -> Result<Option<Feiertag>, Error> {
        match day_reason(date)? {
            DayReason::Werktag => Ok(None),
            DayReason::Samstag => fixed(date),
            DayReason::Sonntag => Ok(fixed(date)?.or(pfingstsonntag(date)?)),
            DayReason::Feiertag(holiday) => Ok(Some(holiday)),
        }
    }

    /// The holidays of a year by date, one a date: twenty, or nineteen if 1 May is also Christi
    /// Himmelfahrt.
    ///
    /// ```
    /// use mako_fristen_host::{Date, Feiertag};
    ///
    /// let holidays = Feiertag::of_year(2026)?;
    /// assert_eq!(holidays[3], (Date::new(2026, 4, 3), Feiertag::Karfreitag));
    /// assert_eq!((holidays.len(), Feiertag::of_year(2008)?.len()), (20, 19));
    /// # Ok::<(), mako_fristen_host::Error>(())
    /// ```
    ///
    /// # Errors
    ///
    /// [`Refusal::NoDate`], for a year that is none from 1996 to 2899.
    pub fn of_year(year: u16) -> Result<Vec<(Date, Feiertag)>, Error> {
        let months = 1..=12;
        let days = months.flat_map(|month| (1..=31).map(move |day| Date::new(year, month, day)));
        let dates = days.filter(|day| day.weekday().is_some());
        let named = |date| Feiertag::on(date).map(|holiday| Some((date, holiday?)));
        dates.filter_map(|date| named(date).transpose()).collect()
    }
}

/// The fixed holiday of a date on a weekend: the one that the day test gives for the same day and
/// month in the nearest year in which it is a weekday, at most two years away. There it is not hidden:
/// the fixed ones have the lower numbers. 29 February has none.
fn fixed(date: Date) -> Result<Option<Feiertag>, Error> {
    let years = [date.year - 1, date.year + 1, date.year - 2, date.year + 2];
    let days = years.map(|year| Date { year, ..date });
    for day in days.into_iter().filter(|day| day.is_in_calendar()) {
        match day_reason(day)? {
            DayReason::Samstag | DayReason::Sonntag => {}
            DayReason::Feiertag(holiday) if holiday <= LAST_FIXED => return Ok(Some(holiday)),
            DayReason::Werktag | DayReason::Feiertag(_) => return Ok(None),
        }
    }
    Ok(None)
}

/// The only other one on a weekend is the Sunday before Pfingstmontag.
fn pfingstsonntag(sunday: Date) -> Result<Option<Feiertag>, Error> {
    let Some(monday) = sunday.plus_days(1).filter(|day| day.is_in_calendar()) else {
        return Ok(None);
    };
    let whit = day_reason(monday)? == DayReason::Feiertag(Feiertag::Pfingstmontag);
    Ok(whit.then_some(Feiertag::Pfingstsonntag))
}

/// The German name.
impl fmt::Display for Feiertag {
    fn fmt(&self, f: &mut fmt::Formatter<'_>) -> fmt::Result {
        f.pad(self.name())
    }
}
