//! Berlin's clock against the system's tz database.

use super::{instants, uhr, Row};
use crate::days::{self, DAYS};
use crate::zone;
use mako_fristen_host::{Call, Clock, Date, Instant, Question};

/// The last day of the database's own table.
const LAST_OF_TABLE: Date = Date::new(2037, 12, 31);

/// Opens the database, says which it is, and gives its rows; none if there is no database.
#[must_use]
pub fn opened() -> Vec<Row> {
    match zone::open() {
        Some(database) => {
            println!("tz database {database}");
            rows()
        }
        None => {
            println!("no tz database {}: Berlin is NOT compared with it", zone::FILE);
            Vec::new()
        }
    }
}

fn rows() -> Vec<Row> {
    let by_every_switch = "tz database: by every switch";
    let rows = vec![
        hours("tz database: every hour to 2037", table_days(), 1),
        hours("tz database: every 3rd hour", DAYS, 3),
        Row { what: by_every_switch, ..instants::by_every_switch(Call::BerlinDate, 0) },
        clocks("tz database: half hours to 2037", table_days(), &half_hours()),
        clocks("tz database: 02:30 and 12:00", DAYS, &[(2, 30), (12, 0)]),
        Row { what: by_every_switch, ..uhr::by_every_switch() },
    ];
    rows.into_iter().map(|row| Row { expected: zone::expected, ..row }).collect()
}

fn table_days() -> u32 {
    days::index(days::given(LAST_OF_TABLE).expect("a date of the calendar")) + 1
}

/// Every so many hours of the calendar's first days.
fn hours(what: &'static str, days: u32, step: u64) -> Row {
    let call = Call::BerlinDate;
    Row::new(call, what, u64::from(days) * 24 / step, move |place| {
        Question::at(call, Instant::new(Instant::FIRST.seconds + (place * step * 3600) as i64, 0))
    })
}

fn half_hours() -> Vec<(u8, u8)> {
    (0..48).map(|half| (half / 2, half % 2 * 30)).collect()
}

fn clocks(what: &'static str, days: u32, clocks: &[(u8, u8)]) -> Row {
    let call = Call::BerlinAt;
    let question =
        |&(hour, minute): &_| Question::new(call).with_clock(Clock::new(hour, minute, 0, 0));
    uhr::on_dates(call, what, days, clocks.iter().map(question).collect())
}
