//! The calendar of a year, or of a month.

use crate::deutsch::{monat, werktage};
use crate::json::Json;
use crate::reading::{is_number, month_named};
use crate::report::values::weekday;
use crate::report::Asked;
use crate::skipped::{is_ostersonntag, Closed};
use mako_fristen_host::{day_reason, Date, DayReason, Error, Feiertag, Refusal, Weekday};
use std::ffi::OsString;
use std::ops::RangeInclusive;

/// A year, or a month of it: any numbers.
#[derive(Clone, Copy, Debug, PartialEq, Eq)]
pub struct Period {
    pub year: u32,
    pub month: Option<u8>,
}

impl Period {
    /// `2026`, `2026-04`, `04.2026`, `4/2026`, `April 2026`, or `April` of the year of a day.
    pub fn read(word: &str, today: Option<Date>) -> Option<Period> {
        if let Some(month) = month_named(word) {
            return Some(Period { year: today?.year.into(), month: Some(month) });
        }
        if let Some((month, year)) = word.split_once(' ') {
            let (month, year) = (month_named(month)?, Some(year).filter(|year| is_year(year))?);
            return Some(Period { year: year.parse().ok()?, month: Some(month) });
        }
        if is_number(word) && word.len() > 2 {
            return Some(Period { year: word.parse().ok()?, month: None });
        }
        let parts = word.split_once('-').filter(|(_, month)| month.len() == 2);
        let (year, month) =
            parts.or_else(|| word.split_once(['.', '/']).map(|(month, year)| (year, month)))?;
        if !is_year(year) || !is_number(month) || month.len() > 2 {
            return None;
        }
        Some(Period { year: year.parse().ok()?, month: Some(month.parse().ok()?) })
    }

    /// The one in which a date lies.
    pub fn year_of(date: Date) -> Period {
        Period { year: date.year.into(), month: None }
    }

    /// Why the calendar does not have it.
    pub fn why(self) -> String {
        match self {
            Period { year, month: Some(month) } if !(1..=12).contains(&month) => {
                format!("{year}-{month:02}: einen {month}. Monat gibt es nicht.")
            }
            Period { year, .. } if year < Date::FIRST.year.into() => {
                format!("{year}: der Kalender beginnt mit dem Jahr {}.", Date::FIRST.year)
            }
            Period { year, .. } => {
                format!("{year}: der Kalender endet mit dem Jahr {}.", Date::LAST.year)
            }
        }
    }

    fn months(self) -> RangeInclusive<u8> {
        self.month.map_or(1..=12, |month| month..=month)
    }
}

fn is_year(word: &str) -> bool {
    word.len() == 4 && is_number(word)
}

/// How a closed day is shown.
#[derive(Clone, Copy, Debug, PartialEq, Eq)]
pub enum Mark {
    /// A star behind the day.
    Star,
    /// Red, and inverse for a holiday.
    Colour,
}

/// What a terminal is told.
const CLOSED: &str = "\x1b[31m";
const HOLIDAY: &str = "\x1b[7;31m";
const PLAIN: &str = "\x1b[0m";

const MONTHS_ABREAST: usize = 3;
/// `September: 21 Werktage` is the longest.
const WIDTH: usize = 22;
const GAP: &str = "  ";
const WEEKDAYS: &str = "Mo Di Mi Do Fr Sa So";

/// A year or a month with what the calls say of it.
#[derive(Debug)]
pub struct Sheet {
    year: u16,
    month: Option<u8>,
    months: Vec<Month>,
    holidays: Vec<Holiday>,
    /// None of the list, but people look for it.
    ostersonntag: Option<Date>,
}

/// A holiday of the list; the day test names it unless it is on a weekend.
#[derive(Debug)]
struct Holiday {
    date: Date,
    holiday: Feiertag,
    reason: DayReason,
    /// The second of two on one day.
    also: Option<Closed>,
}

impl Holiday {
    fn of((date, holiday): (Date, Feiertag)) -> Result<Holiday, Error> {
        let reason = day_reason(date)?;
        let hidden = matches!(reason, DayReason::Samstag | DayReason::Sonntag);
        let also = if hidden { None } else { Closed::also(date, reason)? };
        Ok(Holiday { date, holiday, reason, also })
    }

    fn name(&self) -> String {
        let also = self.also.map_or(String::new(), |also| format!("; auch {}", also.name()));
        format!("{}{also}", self.holiday)
    }

    fn json(&self) -> Json {
        let Holiday { date, holiday, reason, .. } = self;
        Json::Object(vec![
            ("date", (*date).into()),
            ("weekday", weekday(Some(*date))),
            ("number", holiday.number().into()),
            ("name", holiday.name().into()),
            ("reason", reason.number().into()),
        ])
    }
}

#[derive(Debug)]
struct Month {
    number: u8,
    /// Each day with what the day test says of it.
    days: Vec<(Date, DayReason)>,
}

impl Month {
    fn of(year: u16, number: u8) -> Result<Month, Error> {
        let days = (1..=31).map(|day| Date::new(year, number, day));
        let days = days.filter(|day| day.weekday().is_some());
        let tested = days.map(|day| day_reason(day).map(|reason| (day, reason)));
        Ok(Month { number, days: tested.collect::<Result<_, _>>()? })
    }

    fn werktage(&self) -> u32 {
        self.days.iter().map(|(_, reason)| u32::from(reason.is_werktag())).sum()
    }
}

impl Sheet {
    /// # Errors
    ///
    /// [`Refusal::NoDate`], for a year that is none from 1996 to 2899, and a month that is none.
    pub fn of(period: Period) -> Result<Sheet, Error> {
        let year = u16::try_from(period.year).map_err(|_| Refusal::NoDate)?;
        if period.month.is_some_and(|month| !(1..=12).contains(&month)) {
            return Err(Refusal::NoDate.into());
        }
        let inside = |date: &Date| period.months().contains(&date.month);
        let holidays = Feiertag::of_year(year)?.into_iter().filter(|(date, _)| inside(date));
        let months: Vec<_> =
            period.months().map(|month| Month::of(year, month)).collect::<Result<_, _>>()?;
        Ok(Sheet {
            year,
            month: period.month,
            months,
            holidays: holidays.map(Holiday::of).collect::<Result<_, _>>()?,
            ostersonntag: ostersonntag(year)?.filter(inside),
        })
    }

    pub fn werktage(&self) -> u32 {
        self.months.iter().map(Month::werktage).sum()
    }

    fn is_holiday(&self, date: Date) -> bool {
        self.holidays.iter().any(|holiday| holiday.date == date)
    }

    /// As in '… hat 20 Werktage'.
    fn name(&self) -> String {
        match self.month {
            Some(month) => format!("{} {}", monat(month), self.year),
            None => self.year.to_string(),
        }
    }

    pub fn text(&self, mark: Mark) -> String {
        let name = self.name();
        let mut lines = vec![format!("Kalender {name} ({})", legend(mark)), String::new()];
        for months in self.months.chunks(MONTHS_ABREAST) {
            lines.extend(self.abreast(months, mark));
            lines.push(String::new());
        }
        let listed = self.listed();
        lines.extend(listed.iter().map(|(date, name)| listed_line(*date, name)));
        if !listed.is_empty() {
            lines.push(String::new());
        }
        lines.push(format!("{name} hat {}.", werktage(self.werktage())));
        lines.join("\n")
    }

    /// The holidays and Ostersonntag by date.
    fn listed(&self) -> Vec<(Date, String)> {
        let holidays = self.holidays.iter().map(|it| (it.date, it.name()));
        let easter = self.ostersonntag.map(|date| (date, Closed::Ostersonntag.name().to_owned()));
        let mut listed: Vec<_> = holidays.chain(easter).collect();
        listed.sort_unstable();
        listed
    }

    /// The lines of months beside each other.
    fn abreast(&self, months: &[Month], mark: Mark) -> Vec<String> {
        let blocks: Vec<_> = months.iter().map(|month| self.block(month, mark)).collect();
        let height = blocks.iter().map(Vec::len).max().unwrap_or_default();
        let empty = || " ".repeat(WIDTH);
        let line = |row: usize| {
            let cells: Vec<_> =
                blocks.iter().map(|b| b.get(row).cloned().unwrap_or_else(empty)).collect();
            cells.join(GAP).trim_end().to_owned()
        };
        (0..height).map(line).collect()
    }

    /// The lines of a month, each of the same width: its name, the weekdays, the weeks.
    fn block(&self, month: &Month, mark: Mark) -> Vec<String> {
        let name = format!("{}: {}", monat(month.number), werktage(month.werktage()));
        let mut lines = vec![format!("{name:WIDTH$}"), format!("{WEEKDAYS:WIDTH$}")];
        let first = month.days.first().and_then(|(day, _)| day.weekday());
        let before = first.map_or(0, |weekday| usize::from(weekday.number() - 1));
        let days = month.days.iter().map(|(date, reason)| self.cell(*date, *reason, mark));
        let cells: Vec<_> = vec![" ".repeat(3); before].into_iter().chain(days).collect();
        for week in cells.chunks(Weekday::ALL.len()) {
            let padding = " ".repeat(WIDTH - 3 * week.len());
            lines.push(format!("{}{padding}", week.concat()));
        }
        lines
    }

    /// Three columns.
    fn cell(&self, date: Date, reason: DayReason, mark: Mark) -> String {
        let day = date.day;
        match (reason.is_werktag(), mark) {
            (true, _) => format!("{day:2} "),
            (false, Mark::Star) => format!("{day:2}*"),
            (false, Mark::Colour) if self.is_holiday(date) => format!("{HOLIDAY}{day:2}{PLAIN} "),
            (false, Mark::Colour) => format!("{CLOSED}{day:2}{PLAIN} "),
        }
    }

    /// The days that are no Werktage.
    fn closed(&self) -> impl Iterator<Item = Date> + '_ {
        let days = self.months.iter().flat_map(|month| &month.days);
        days.filter(|(_, reason)| !reason.is_werktag()).map(|(date, _)| *date)
    }
}

fn listed_line(date: Date, name: &str) -> String {
    let weekday = date.weekday().map(|day| day.to_string()).unwrap_or_default();
    format!("{:2}. {:<9}  {weekday:<10}  {name}", date.day, monat(date.month))
}

/// What the marks mean.
fn legend(mark: Mark) -> String {
    match mark {
        Mark::Star => "* kein Werktag".to_owned(),
        Mark::Colour => {
            format!("{CLOSED}rot{PLAIN} kein Werktag, {HOLIDAY}hinterlegt{PLAIN} Feiertag")
        }
    }
}

/// The Sunday before Ostermontag, of which a year has one.
fn ostersonntag(year: u16) -> Result<Option<Date>, Error> {
    let days = (3..=4).flat_map(|month| (1..=31).map(move |day| Date::new(year, month, day)));
    for sunday in days.filter(|day| day.weekday() == Some(Weekday::Sonntag)) {
        if is_ostersonntag(sunday)? {
            return Ok(Some(sunday));
        }
    }
    Ok(None)
}

/// The sheet as JSON; of a period that is refused there is none.
pub fn json(period: Period, given: &[OsString], refusal: Json, sheet: Option<&Sheet>) -> Json {
    let read = vec![("year", period.year.into()), ("month", period.month.into())];
    let by_month =
        |sheet: &Sheet| Json::list(sheet.months.iter().map(|month| month.werktage().into()));
    let closed = |sheet: &Sheet| Json::list(sheet.closed().map(Json::from));
    let holidays = |sheet: &Sheet| Json::list(sheet.holidays.iter().map(Holiday::json));
    let content = vec![
        ("year", sheet.map(|sheet| sheet.year).into()),
        ("month", sheet.and_then(|sheet| sheet.month).into()),
        ("werktage", sheet.map(Sheet::werktage).into()),
        ("werktage_by_month", sheet.map(by_month).into()),
        ("closed", sheet.map(closed).into()),
        ("holidays", sheet.map(holidays).into()),
        ("ostersonntag", sheet.and_then(|sheet| sheet.ostersonntag).into()),
    ];
    Asked { call: "kalender", given, read }.answered(refusal, content)
}

#[cfg(test)]
mod tests {
    use super::*;

    fn sheet(year: u32, month: Option<u8>) -> Sheet {
        Sheet::of(Period { year, month }).expect("the calendar has it")
    }

    /// Without its colours the sheet is the plain one without its stars, but for the legend.
    #[test]
    fn a_closed_day_has_a_star_or_a_colour() {
        for year in [1996, 2008, 2026, 2899] {
            let sheet = sheet(year, None);
            let plain = sheet.text(Mark::Star).replace('*', " ");
            let mut coloured = sheet.text(Mark::Colour);
            let legend = "\x1b[31mrot\x1b[0m kein Werktag, \x1b[7;31mhinterlegt\x1b[0m Feiertag";
            assert!(coloured.starts_with(&format!("Kalender {year} ({legend})\n\n")), "{coloured}");
            for code in [HOLIDAY, CLOSED, PLAIN] {
                assert!(coloured.contains(code));
                coloured = coloured.replace(code, "");
            }
            let lines =
                |text: &str| text.lines().skip(1).map(str::trim_end).map(str::to_owned).collect();
            let (plain, coloured): (Vec<_>, Vec<_>) = (lines(&plain), lines(&coloured));
            assert_eq!(plain, coloured);
        }
    }

    #[test]
    fn a_year_outside_the_calendar_is_refused() {
        for year in [0, 1995, 2900, 65_535, 65_536, u32::MAX] {
            let refused = Sheet::of(Period { year, month: None }).err();
            assert_eq!(refused, Some(Refusal::NoDate.into()), "{year}");
        }
        for month in [0, 13, 255] {
            let refused = Sheet::of(Period { year: 2026, month: Some(month) }).err();
            assert_eq!(refused, Some(Refusal::NoDate.into()), "{month}");
        }
    }

    #[test]
    fn a_month_has_its_own_days_and_holidays() {
        let april = sheet(2026, Some(4));
        assert_eq!(april.werktage(), 20);
        let names: Vec<_> = april.listed().into_iter().map(|(_, name)| name).collect();
        assert_eq!(names, ["Karfreitag", "Ostersonntag", "Ostermontag"]);
        assert!(sheet(2026, Some(7)).listed().is_empty());
        let all: u32 = (1..=12).map(|month| sheet(2026, Some(month)).werktage()).sum();
        assert_eq!(all, sheet(2026, None).werktage());
    }

    /// By the list of the Physikalisch-Technische Bundesanstalt.
    #[test]
    fn ostersonntag_of_a_year() {
        for (year, month, day) in [(1997, 3, 30), (2008, 3, 23), (2011, 4, 24), (2026, 4, 5)] {
            assert_eq!(ostersonntag(year), Ok(Some(Date::new(year, month, day))));
        }
    }

    #[test]
    fn a_year_or_a_month_as_people_write_it() {
        let read = |word| Period::read(word, Some(Date::new(2027, 1, 5)));
        let month = |year, month| Some(Period { year, month: Some(month) });
        assert_eq!(read("2026"), Some(Period { year: 2026, month: None }));
        for word in ["2026-04", "04.2026", "4.2026", "4/2026", "April 2026", "APRIL 2026"] {
            assert_eq!(read(word), month(2026, 4), "{word}");
        }
        assert_eq!((read("März"), read("maerz")), (month(2027, 3), month(2027, 3)), "this year's");
        assert_eq!(read("2026-13"), month(2026, 13), "the calendar judges it");
        for word in [
            "",
            "-2026",
            "2026-4",
            "2026-",
            "26-04",
            "2026.04",
            "4.26",
            "2026-04-02",
            "4",
            "12",
            "99999999999",
            "April 26",
            "Lenz",
            "Lenz 2026",
            "2026 April",
        ] {
            assert_eq!(read(word), None, "{word}");
        }
    }
}
