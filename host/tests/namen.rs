//! Weekdays, the Berlin clock of an instant, and the German labels.

use mako_fristen_host::{
    berlin_at, AbmeldungVorlauf, BerlinTime, Clock, Date, FristShape, GasProzess, Instant, Refusal,
    VorlaufShape, Weekday, APERAK_STROM_ALLGEMEIN_LABEL, APERAK_STROM_WINDOW_LABEL,
    CONTRL_FRIST_LABEL,
};

const fn date(year: u16, month: u8, day: u8) -> Date {
    Date::new(year, month, day)
}

#[test]
fn weekdays() {
    assert_eq!(date(1970, 1, 1).weekday(), Some(Weekday::Donnerstag));
    assert_eq!(date(2026, 4, 7).weekday(), Some(Weekday::Dienstag));
    assert_eq!(date(2000, 2, 29).weekday(), Some(Weekday::Dienstag));
    assert_eq!(date(1996, 1, 1).weekday(), Some(Weekday::Montag));
    assert_eq!(date(2899, 12, 31).weekday(), Some(Weekday::Donnerstag));
    for none in [date(2026, 2, 29), date(2026, 0, 1), date(2026, 13, 1), date(2026, 1, 0)] {
        assert_eq!(none.weekday(), None, "{none}");
    }
    assert_eq!(Weekday::ALL.map(Weekday::number), [1, 2, 3, 4, 5, 6, 7]);
    assert_eq!(format!("{:<11}|", Weekday::Mittwoch), "Mittwoch   |");
}

/// From year 0 to 9999, one after the other: each number has its date, and each date its number.
#[test]
fn a_day_number_and_its_date_undo_each_other() {
    let first = date(0, 1, 1).day_number().expect("a date");
    assert_eq!(first, -719_528);
    let mut before = date(0, 1, 1);
    for number in first + 1..=2_932_896 {
        let day = Date::of_day_number(number).expect("a year up to 9999");
        assert!(day > before, "{day}");
        assert_eq!(day.day_number(), Some(number), "{day}");
        before = day;
    }
    assert_eq!(before, date(9999, 12, 31));
    assert_eq!(Date::of_day_number(i64::MAX), None);
    assert_eq!(Date::of_day_number(i64::MIN), None);
    assert_eq!(date(2026, 2, 28).plus_days(1), Some(date(2026, 3, 1)));
    assert_eq!(date(2026, 2, 28).plus_days(i64::MAX), None);
}

#[test]
fn the_berlin_clock_of_an_instant() {
    let show = |text: &str| BerlinTime::of(text.parse().expect("an instant")).expect("in range");
    let time = |d: Date, hour, minute, summer, repeated| BerlinTime {
        date: d,
        clock: Clock::new(hour, minute, 0, 0),
        summer,
        repeated,
    };
    let (spring, autumn) = (date(2026, 3, 29), date(2026, 10, 25));
    assert_eq!(show("2026-03-29T00:59:00Z"), time(spring, 1, 59, false, false));
    assert_eq!(show("2026-03-29T01:00:00Z"), time(spring, 3, 0, true, false));
    assert_eq!(show("2026-10-24T23:59:00Z"), time(autumn, 1, 59, true, false));
    assert_eq!(show("2026-10-25T00:00:00Z"), time(autumn, 2, 0, true, true));
    assert_eq!(show("2026-10-25T00:59:00Z"), time(autumn, 2, 59, true, true));
    assert_eq!(show("2026-10-25T01:00:00Z"), time(autumn, 2, 0, false, true));
    assert_eq!(show("2026-10-25T01:59:00Z"), time(autumn, 2, 59, false, true));
    assert_eq!(show("2026-10-25T02:00:00Z"), time(autumn, 3, 0, false, false));
    assert_eq!(show("1995-12-31T23:00:00Z"), time(Date::FIRST, 0, 0, false, false));
    let last = BerlinTime::of(Instant::LAST).expect("in range");
    assert_eq!((last.date, last.clock), (Date::LAST, Clock::new(23, 59, 59, 999_999_999)));
    let after = Instant::new(Instant::LAST.seconds + 1, 0);
    assert_eq!(BerlinTime::of(after), Err(Refusal::InstantOutside.into()));
}

/// Every quarter of an hour of some years: the clock that is shown is the clock of the instant.
#[test]
fn the_clock_leads_back_to_its_instant() {
    for year in [1996, 2026, 2460, 2899] {
        let begin = date(year, 1, 1).day_number().expect("a date") * 86_400 - 3_600;
        for quarter in 0..365 * 96 {
            let instant = Instant::new(begin + quarter * 900, 7);
            let time = BerlinTime::of(instant).expect("in range");
            let later = time.repeated && !time.summer;
            let expected = if later { instant.plus_seconds(-3_600) } else { Some(instant) };
            assert_eq!(berlin_at(time.date, time.clock).ok(), expected, "{instant}");
        }
    }
}

/// The original's texts.
#[test]
fn the_labels_of_answers() {
    let at = Clock::new(11, 0, 0, 0);
    let labels = [
        (
            FristShape::WerktagAt { werktage: 1, at },
            "bis 11:00 Uhr des 1. Werktags nach dem Übertragungstag",
        ),
        (FristShape::EndOfWerktag(4), "bis zum Ablauf des 4. Werktags nach Eingang"),
        (FristShape::SameDayAt(at), "bis 11:00 Uhr am Übertragungstag"),
        (FristShape::SameDay, "bis zum Ablauf des Übertragungstags"),
    ];
    for (shape, label) in labels {
        assert_eq!(shape.beschreibung(), label);
    }
    let grund =
        "Für EEG-Marktlokationen und Tranchen von EEG-Marktlokationen gilt ein Monat statt \
                 des letzten Werktags (GPKE Teil 2 Kap. 2.5.2 Nr. 1); ob die Marktlokation eine \
                 EEG-Marktlokation ist, ist nicht bekannt.";
    assert_eq!(AbmeldungVorlauf::Unbestimmt.beschreibung(), grund);
    let shapes = AbmeldungVorlauf::ALL.map(AbmeldungVorlauf::shape);
    let day = VorlaufShape::TagVorDemLetztenWerktagVor;
    assert_eq!(shapes, [Some(day), Some(VorlaufShape::LatestMonateBefore(1)), None, None]);
}

/// The original's strings.
#[test]
fn the_labels_of_due_instants() {
    assert_eq!(CONTRL_FRIST_LABEL, "contrl-delivery-window");
    assert_eq!(APERAK_STROM_WINDOW_LABEL, "aperak-strom-45min-window");
    assert_eq!(APERAK_STROM_ALLGEMEIN_LABEL, "aperak-strom-naechster-wt-1200");
    let folgeprozess = "aperak-gas-folgeprozess-naechster-wt-1200";
    assert_eq!(GasProzess::Folgeprozess.label(), folgeprozess);
    assert_eq!(GasProzess::Initialprozess.label(), "aperak-gas-initialprozess-3-werktage");
}

#[test]
fn clock_times_as_they_are_read_out() {
    assert_eq!(Clock::new(0, 0, 0, 0).uhr(), "00:00 Uhr");
    assert_eq!(Clock::new(17, 59, 59, 0).uhr(), "17:59:59 Uhr");
    assert_eq!(Clock::new(13, 0, 0, 1).uhr(), "13:00:00,000000001 Uhr");
    assert_eq!(Clock::new(13, 0, 0, 500_000_000).uhr(), "13:00:00,5 Uhr");
    assert_eq!(Clock::new(23, 59, 59, 999_999_999).uhr(), "23:59:59,999999999 Uhr");
}
