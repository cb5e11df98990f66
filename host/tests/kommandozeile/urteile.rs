//! What `check`, `check-at`, `span`, `bis-wann` and `abmeldung` say. The days are counted by a
//! calendar of 2026 with the holidays of document 01: 6 January, 3 and 6 April, 1 May.

use super::eingabe::answered;
use super::zeilen::{complaints, fed};
use super::{assert_prints, printed, words};

/// Case E first; with Werktage that are missing or none, and each number that has its own words.
const BEFORE: &[(&str, &str)] = &[
    (
        "check LatestWerktageBefore 1 2026-01-10 2026-01-12",
        "1 Kalendertag zu spät: Übertragungstag Samstag, 10. Januar 2026, Termin Montag, 12. \
         Januar 2026.\n\
         Zulässig sind Termine ab Dienstag, dem 13. Januar 2026.\n\
         Spätester Übertragungstag ist der 1. Werktag vor dem Termin: Freitag, der 9. Januar \
         2026.\n\
         Zu spät ist es um 1 Tag, der kein Werktag ist.\n\
         Die Quelle mako-fristen nennt als frühesten Termin Montag, den 12. Januar 2026; zulässig \
         ist er nicht.",
    ),
    (
        "check LatestWerktageBefore 1 2026-04-06 2026-04-07",
        "4 Kalendertage zu spät: Übertragungstag Montag, 6. April 2026, Termin Dienstag, 7. April \
         2026.\n\
         Zulässig sind Termine ab Mittwoch, dem 8. April 2026.\n\
         Spätester Übertragungstag ist der 1. Werktag vor dem Termin: Donnerstag, der 2. April \
         2026.\n\
         Zu spät ist es um 4 Tage, die keine Werktage sind.\n\
         Die Quelle mako-fristen nennt als frühesten Termin Dienstag, den 7. April 2026; zulässig \
         ist er nicht.",
    ),
    (
        "check LatestWerktageBefore 1 2026-01-09 2026-01-09",
        "1 Kalendertag zu spät: Übertragungstag Freitag, 9. Januar 2026, Termin Freitag, 9. Januar \
         2026.\n\
         Zulässig sind Termine ab Samstag, dem 10. Januar 2026.\n\
         Spätester Übertragungstag ist der 1. Werktag vor dem Termin: Donnerstag, der 8. Januar \
         2026.\n\
         Es fehlt 1 Werktag.\n\
         Die Quelle mako-fristen nennt als frühesten Termin Montag, den 12. Januar 2026; er ist \
         zulässig, aber nicht der früheste.",
    ),
    (
        "check LatestWerktageBefore 5 2026-01-08 2026-01-12",
        "6 Kalendertage zu spät: Übertragungstag Donnerstag, 8. Januar 2026, Termin Montag, 12. \
         Januar 2026.\n\
         Zulässig sind Termine ab Donnerstag, dem 15. Januar 2026.\n\
         Spätester Übertragungstag ist der 5. Werktag vor dem Termin: Freitag, der 2. Januar \
         2026.\n\
         Es fehlen 3 Werktage.",
    ),
    (
        "check LatestWerktageBefore 0 2026-01-13 2026-01-12",
        "1 Kalendertag zu spät: Übertragungstag Dienstag, 13. Januar 2026, Termin Montag, 12. \
         Januar 2026.\n\
         Zulässig sind Termine ab Dienstag, dem 13. Januar 2026.\n\
         Spätester Übertragungstag ist der Termin selbst: Montag, der 12. Januar 2026.\n\
         Es fehlt 1 Werktag.",
    ),
    (
        "check LatestWerktageBefore 1 2026-01-09 2026-01-12",
        "Frist gewahrt, am letzten zulässigen Tag: Übertragungstag Freitag, 9. Januar 2026, Termin \
         Montag, 12. Januar 2026.\n\
         Zulässig sind Termine ab Samstag, dem 10. Januar 2026.\n\
         Spätester Übertragungstag ist der 1. Werktag vor dem Termin: Freitag, der 9. Januar 2026.",
    ),
    (
        "check LatestWerktageBefore 1 2026-04-01 2026-04-07",
        "Frist gewahrt, noch 1 Kalendertag Luft: Übertragungstag Mittwoch, 1. April 2026, Termin \
         Dienstag, 7. April 2026.\n\
         Zulässig sind Termine ab Donnerstag, dem 2. April 2026.\n\
         Spätester Übertragungstag ist der 1. Werktag vor dem Termin: Donnerstag, der 2. April \
         2026.",
    ),
    (
        "check LatestWerktageBefore 0 2026-01-10 2026-01-12",
        "Frist gewahrt, noch 2 Kalendertage Luft: Übertragungstag Samstag, 10. Januar 2026, Termin \
         Montag, 12. Januar 2026.\n\
         Zulässig sind Termine ab Samstag, dem 10. Januar 2026.\n\
         Spätester Übertragungstag ist der Termin selbst: Montag, der 12. Januar 2026.",
    ),
];

/// Opened, closed and not yet opened; of one day, to the anchor itself, and closed before it opens.
const WINDOWS: &[(&str, &str)] = &[
    (
        "check WindowWerktageBefore 5 2 2026-04-13 2026-04-24",
        "Zu früh: Übertragungstag Montag, 13. April 2026, Termin Freitag, 24. April 2026.\n\
         Zulässig sind Termine von Mittwoch, dem 15. April 2026, bis Montag, den 20. April 2026.\n\
         Der Übertragungstag muss vom 5. bis zum 2. Werktag vor dem Termin liegen: von Freitag, \
         dem 17. April 2026, bis Mittwoch, den 22. April 2026.\n\
         Der Zeitraum beginnt erst in 4 Werktagen.",
    ),
    (
        "check WindowWerktageBefore 5 2 2026-04-20 2026-04-24",
        "Frist gewahrt, noch 2 Kalendertage Luft: Übertragungstag Montag, 20. April 2026, Termin \
         Freitag, 24. April 2026.\n\
         Zulässig sind Termine von Mittwoch, dem 22. April 2026, bis Montag, den 27. April 2026.\n\
         Der Übertragungstag muss vom 5. bis zum 2. Werktag vor dem Termin liegen: von Freitag, \
         dem 17. April 2026, bis Mittwoch, den 22. April 2026.",
    ),
    (
        "check WindowWerktageBefore 5 2 2026-01-13 2026-01-13",
        "4 Kalendertage zu spät: Übertragungstag Dienstag, 13. Januar 2026, Termin Dienstag, 13. \
         Januar 2026.\n\
         Zulässig sind Termine von Donnerstag, dem 15. Januar 2026, bis Dienstag, den 20. Januar \
         2026.\n\
         Der Übertragungstag muss vom 5. bis zum 2. Werktag vor dem Termin liegen: von Montag, dem \
         5. Januar 2026, bis Freitag, den 9. Januar 2026.\n\
         Es fehlen 2 Werktage.",
    ),
    (
        "check WindowWerktageBefore 1 1 2026-01-10 2026-01-12",
        "1 Kalendertag zu spät: Übertragungstag Samstag, 10. Januar 2026, Termin Montag, 12. \
         Januar 2026.\n\
         Für diesen Übertragungstag ist kein Termin zulässig.\n\
         Der Übertragungstag muss der 1. Werktag vor dem Termin sein: Freitag, der 9. Januar \
         2026.\n\
         Zu spät ist es um 1 Tag, der kein Werktag ist.\n\
         Die Quelle mako-fristen nennt als frühesten Termin Montag, den 12. Januar 2026; zulässig \
         ist er nicht.",
    ),
    (
        "check WindowWerktageBefore 1 1 2026-01-09 2026-01-12",
        "Frist gewahrt, am letzten zulässigen Tag: Übertragungstag Freitag, 9. Januar 2026, Termin \
         Montag, 12. Januar 2026.\n\
         Zulässig sind Termine von Samstag, dem 10. Januar 2026, bis Montag, den 12. Januar 2026.\n\
         Der Übertragungstag muss der 1. Werktag vor dem Termin sein: Freitag, der 9. Januar 2026.",
    ),
    (
        "check WindowWerktageBefore 3 0 2026-04-08 2026-04-09",
        "Frist gewahrt, noch 1 Kalendertag Luft: Übertragungstag Mittwoch, 8. April 2026, Termin \
         Donnerstag, 9. April 2026.\n\
         Zulässig sind Termine von Mittwoch, dem 8. April 2026, bis Montag, den 13. April 2026.\n\
         Der Übertragungstag muss vom 3. Werktag vor dem Termin bis zum Termin selbst liegen: von \
         Donnerstag, dem 2. April 2026, bis Donnerstag, den 9. April 2026.",
    ),
    (
        "check WindowWerktageBefore 0 0 2026-01-10 2026-01-11",
        "Zu früh: Übertragungstag Samstag, 10. Januar 2026, Termin Sonntag, 11. Januar 2026.\n\
         Zulässig ist nur der Termin am Samstag, dem 10. Januar 2026.\n\
         Der Übertragungstag muss der Termin selbst sein: Sonntag, der 11. Januar 2026.\n\
         Zu früh ist es um 1 Kalendertag.",
    ),
    (
        "check WindowWerktageBefore 0 0 2026-04-03 2026-04-05",
        "Zu früh: Übertragungstag Freitag, 3. April 2026, Termin Sonntag, 5. April 2026.\n\
         Zulässig ist nur der Termin am Freitag, dem 3. April 2026.\n\
         Der Übertragungstag muss der Termin selbst sein: Sonntag, der 5. April 2026.\n\
         Zu früh ist es um 2 Kalendertage.",
    ),
    (
        "check WindowWerktageBefore 0 5 2026-01-09 2026-01-19",
        "Zu früh: Übertragungstag Freitag, 9. Januar 2026, Termin Montag, 19. Januar 2026.\n\
         Für diesen Übertragungstag ist kein Termin zulässig.\n\
         Frühester Übertragungstag ist der Termin selbst, Montag, der 19. Januar 2026, spätester \
         ist der 5. Werktag vor dem Termin, Montag, der 12. Januar 2026: der Zeitraum endet, bevor \
         er beginnt.",
    ),
    (
        "check WindowWerktageBefore 0 5 2026-01-09 2026-01-16",
        "Zu früh: Übertragungstag Freitag, 9. Januar 2026, Termin Freitag, 16. Januar 2026.\n\
         Für diesen Übertragungstag ist kein Termin zulässig.\n\
         Frühester Übertragungstag ist der Termin selbst, Freitag, der 16. Januar 2026, spätester \
         ist der 5. Werktag vor dem Termin, Freitag, der 9. Januar 2026: der Zeitraum endet, bevor \
         er beginnt.",
    ),
    (
        "check WindowWerktageBefore 2 5 2026-01-13 2026-01-16",
        "Zu früh: Übertragungstag Dienstag, 13. Januar 2026, Termin Freitag, 16. Januar 2026.\n\
         Für diesen Übertragungstag ist kein Termin zulässig.\n\
         Frühester Übertragungstag ist der 2. Werktag vor dem Termin, Mittwoch, der 14. Januar \
         2026, spätester ist der 5. Werktag vor dem Termin, Freitag, der 9. Januar 2026: der \
         Zeitraum endet, bevor er beginnt.",
    ),
    (
        "check WindowWerktageBefore 0 1 2026-04-07 2026-04-07",
        "5 Kalendertage zu spät: Übertragungstag Dienstag, 7. April 2026, Termin Dienstag, 7. \
         April 2026.\n\
         Für diesen Übertragungstag ist kein Termin zulässig.\n\
         Frühester Übertragungstag ist der Termin selbst, Dienstag, der 7. April 2026, spätester \
         ist der 1. Werktag vor dem Termin, Donnerstag, der 2. April 2026: der Zeitraum endet, \
         bevor er beginnt.\n\
         Es fehlt 1 Werktag.\n\
         Die Quelle mako-fristen nennt als frühesten Termin Mittwoch, den 8. April 2026; zulässig \
         ist er nicht.",
    ),
    (
        "check WindowWerktageBefore 1 2 2026-04-06 2026-04-08",
        "Zu früh: Übertragungstag Montag, 6. April 2026, Termin Mittwoch, 8. April 2026.\n\
         Für diesen Übertragungstag ist kein Termin zulässig.\n\
         Frühester Übertragungstag ist der 1. Werktag vor dem Termin, Dienstag, der 7. April 2026, \
         spätester ist der 2. Werktag vor dem Termin, Donnerstag, der 2. April 2026: der Zeitraum \
         endet, bevor er beginnt.",
    ),
];

/// Behind the anchor nothing is missing.
const AFTER: &[(&str, &str)] = &[
    (
        "check LatestWerktageAfter 3 2026-04-09 2026-04-02",
        "Frist gewahrt, am letzten zulässigen Tag: Übertragungstag Donnerstag, 9. April 2026, \
         Termin Donnerstag, 2. April 2026.\n\
         Zulässig sind Termine ab Donnerstag, dem 2. April 2026.\n\
         Spätester Übertragungstag ist der 3. Werktag nach dem Termin: Donnerstag, der 9. April \
         2026.",
    ),
    (
        "check LatestWerktageAfter 3 2026-04-10 2026-04-02",
        "1 Kalendertag zu spät: Übertragungstag Freitag, 10. April 2026, Termin Donnerstag, 2. \
         April 2026.\n\
         Zulässig sind Termine ab Dienstag, dem 7. April 2026.\n\
         Spätester Übertragungstag ist der 3. Werktag nach dem Termin: Donnerstag, der 9. April \
         2026.\n\
         Die Nachricht kommt um 1 Werktag zu spät.\n\
         Die Quelle mako-fristen nennt als frühesten Termin Donnerstag, den 2. April 2026; \
         zulässig ist er nicht.",
    ),
    (
        "check LatestWerktageAfter 3 2026-04-14 2026-04-02",
        "5 Kalendertage zu spät: Übertragungstag Dienstag, 14. April 2026, Termin Donnerstag, 2. \
         April 2026.\n\
         Zulässig sind Termine ab Donnerstag, dem 9. April 2026.\n\
         Spätester Übertragungstag ist der 3. Werktag nach dem Termin: Donnerstag, der 9. April \
         2026.\n\
         Die Nachricht kommt um 3 Werktage zu spät.\n\
         Die Quelle mako-fristen nennt als frühesten Termin Donnerstag, den 2. April 2026; \
         zulässig ist er nicht.",
    ),
    (
        "check LatestWerktageAfter 1 2026-04-11 2026-04-09",
        "1 Kalendertag zu spät: Übertragungstag Samstag, 11. April 2026, Termin Donnerstag, 9. \
         April 2026.\n\
         Zulässig sind Termine ab Freitag, dem 10. April 2026.\n\
         Spätester Übertragungstag ist der 1. Werktag nach dem Termin: Freitag, der 10. April \
         2026.\n\
         Zu spät ist es um 1 Tag, der kein Werktag ist.\n\
         Die Quelle mako-fristen nennt als frühesten Termin Donnerstag, den 9. April 2026; \
         zulässig ist er nicht.",
    ),
    (
        "check LatestWerktageAfter 0 2026-04-06 2026-04-02",
        "4 Kalendertage zu spät: Übertragungstag Montag, 6. April 2026, Termin Donnerstag, 2. \
         April 2026.\n\
         Zulässig sind Termine ab Montag, dem 6. April 2026.\n\
         Spätester Übertragungstag ist der Termin selbst: Donnerstag, der 2. April 2026.\n\
         Zu spät ist es um 4 Tage, die keine Werktage sind.\n\
         Die Quelle mako-fristen nennt als frühesten Termin Donnerstag, den 2. April 2026; \
         zulässig ist er nicht.",
    ),
    (
        "check LatestWerktageAfter 0 2026-04-01 2026-04-02",
        "Frist gewahrt, noch 1 Kalendertag Luft: Übertragungstag Mittwoch, 1. April 2026, Termin \
         Donnerstag, 2. April 2026.\n\
         Zulässig sind Termine ab Mittwoch, dem 1. April 2026.\n\
         Spätester Übertragungstag ist der Termin selbst: Donnerstag, der 2. April 2026.",
    ),
    (
        "check Korridor 2 2026-04-21 2026-04-24",
        "Zu früh: Übertragungstag Dienstag, 21. April 2026, Termin Freitag, 24. April 2026.\n\
         Zulässig sind Termine von Freitag, dem 17. April 2026, bis Donnerstag, den 23. April \
         2026.\n\
         Der Übertragungstag muss vom 2. Werktag vor bis zum 2. Werktag nach dem Termin liegen: \
         von Mittwoch, dem 22. April 2026, bis Dienstag, den 28. April 2026.\n\
         Der Zeitraum beginnt am nächsten Werktag.",
    ),
    (
        "check Korridor 2 2026-04-17 2026-04-24",
        "Zu früh: Übertragungstag Freitag, 17. April 2026, Termin Freitag, 24. April 2026.\n\
         Zulässig sind Termine von Mittwoch, dem 15. April 2026, bis Dienstag, den 21. April \
         2026.\n\
         Der Übertragungstag muss vom 2. Werktag vor bis zum 2. Werktag nach dem Termin liegen: \
         von Mittwoch, dem 22. April 2026, bis Dienstag, den 28. April 2026.\n\
         Der Zeitraum beginnt erst in 3 Werktagen.",
    ),
    (
        "check Korridor 2 2026-04-24 2026-04-24",
        "Frist gewahrt, noch 4 Kalendertage Luft: Übertragungstag Freitag, 24. April 2026, Termin \
         Freitag, 24. April 2026.\n\
         Zulässig sind Termine von Mittwoch, dem 22. April 2026, bis Dienstag, den 28. April \
         2026.\n\
         Der Übertragungstag muss vom 2. Werktag vor bis zum 2. Werktag nach dem Termin liegen: \
         von Mittwoch, dem 22. April 2026, bis Dienstag, den 28. April 2026.",
    ),
    (
        "check Korridor 2 2026-04-29 2026-04-24",
        "1 Kalendertag zu spät: Übertragungstag Mittwoch, 29. April 2026, Termin Freitag, 24. \
         April 2026.\n\
         Zulässig sind Termine von Montag, dem 27. April 2026, bis Montag, den 4. Mai 2026.\n\
         Der Übertragungstag muss vom 2. Werktag vor bis zum 2. Werktag nach dem Termin liegen: \
         von Mittwoch, dem 22. April 2026, bis Dienstag, den 28. April 2026.\n\
         Die Nachricht kommt um 1 Werktag zu spät.\n\
         Die Quelle mako-fristen nennt als frühesten Termin Mittwoch, den 22. April 2026; zulässig \
         ist er nicht.",
    ),
    (
        "check Korridor 2 2026-05-02 2026-04-24",
        "4 Kalendertage zu spät: Übertragungstag Samstag, 2. Mai 2026, Termin Freitag, 24. April \
         2026.\n\
         Zulässig sind Termine von Mittwoch, dem 29. April 2026, bis Dienstag, den 5. Mai 2026.\n\
         Der Übertragungstag muss vom 2. Werktag vor bis zum 2. Werktag nach dem Termin liegen: \
         von Mittwoch, dem 22. April 2026, bis Dienstag, den 28. April 2026.\n\
         Die Nachricht kommt um 2 Werktage zu spät.\n\
         Die Quelle mako-fristen nennt als frühesten Termin Mittwoch, den 22. April 2026; zulässig \
         ist er nicht.",
    ),
    (
        "check Korridor 1 2026-05-01 2026-04-29",
        "1 Kalendertag zu spät: Übertragungstag Freitag, 1. Mai 2026, Termin Mittwoch, 29. April \
         2026.\n\
         Zulässig sind Termine von Donnerstag, dem 30. April 2026, bis Montag, den 4. Mai 2026.\n\
         Der Übertragungstag muss vom 1. Werktag vor bis zum 1. Werktag nach dem Termin liegen: \
         von Dienstag, dem 28. April 2026, bis Donnerstag, den 30. April 2026.\n\
         Zu spät ist es um 1 Tag, der kein Werktag ist.\n\
         Die Quelle mako-fristen nennt als frühesten Termin Dienstag, den 28. April 2026; zulässig \
         ist er nicht.",
    ),
    (
        "check Korridor 0 2026-01-10 2026-01-11",
        "Zu früh: Übertragungstag Samstag, 10. Januar 2026, Termin Sonntag, 11. Januar 2026.\n\
         Zulässig ist nur der Termin am Samstag, dem 10. Januar 2026.\n\
         Der Übertragungstag muss der Termin selbst sein: Sonntag, der 11. Januar 2026.\n\
         Zu früh ist es um 1 Kalendertag.",
    ),
    (
        "check Korridor 0 2026-04-03 2026-04-05",
        "Zu früh: Übertragungstag Freitag, 3. April 2026, Termin Sonntag, 5. April 2026.\n\
         Zulässig ist nur der Termin am Freitag, dem 3. April 2026.\n\
         Der Übertragungstag muss der Termin selbst sein: Sonntag, der 5. April 2026.\n\
         Zu früh ist es um 2 Kalendertage.",
    ),
    (
        "check Korridor 0 2026-01-08 2026-01-11",
        "Zu früh: Übertragungstag Donnerstag, 8. Januar 2026, Termin Sonntag, 11. Januar 2026.\n\
         Zulässig ist nur der Termin am Donnerstag, dem 8. Januar 2026.\n\
         Der Übertragungstag muss der Termin selbst sein: Sonntag, der 11. Januar 2026.\n\
         Zu früh ist es um 3 Kalendertage.",
    ),
    (
        "check Korridor 0 2026-01-11 2026-01-11",
        "Frist gewahrt, am letzten zulässigen Tag: Übertragungstag Sonntag, 11. Januar 2026, \
         Termin Sonntag, 11. Januar 2026.\n\
         Zulässig ist nur der Termin am Sonntag, dem 11. Januar 2026.\n\
         Der Übertragungstag muss der Termin selbst sein: Sonntag, der 11. Januar 2026.",
    ),
    (
        "check Korridor 0 2026-01-11 2026-01-09",
        "2 Kalendertage zu spät: Übertragungstag Sonntag, 11. Januar 2026, Termin Freitag, 9. \
         Januar 2026.\n\
         Zulässig ist nur der Termin am Sonntag, dem 11. Januar 2026.\n\
         Der Übertragungstag muss der Termin selbst sein: Freitag, der 9. Januar 2026.\n\
         Zu spät ist es um 2 Tage, die keine Werktage sind.\n\
         Die Quelle mako-fristen nennt als frühesten Termin Freitag, den 9. Januar 2026; zulässig \
         ist er nicht.",
    ),
];

/// The days are the Termin's here.
const EARLIEST: &[(&str, &str)] = &[
    (
        "check EarliestWerktageAfter 1 2026-04-02 2026-04-07",
        "Frist gewahrt: Übertragungstag Donnerstag, 2. April 2026, Termin Dienstag, 7. April \
         2026.\n\
         Zulässig sind Termine ab Dienstag, dem 7. April 2026.\n\
         Frühester Termin ist der 1. Werktag nach dem Übertragungstag: Dienstag, der 7. April \
         2026; der Termin ist dieser Tag.\n\
         Spätester Übertragungstag für diesen Termin ist Montag, der 6. April 2026.",
    ),
    (
        "check EarliestWerktageAfter 1 2026-04-02 2026-04-08",
        "Frist gewahrt: Übertragungstag Donnerstag, 2. April 2026, Termin Mittwoch, 8. April \
         2026.\n\
         Zulässig sind Termine ab Dienstag, dem 7. April 2026.\n\
         Frühester Termin ist der 1. Werktag nach dem Übertragungstag: Dienstag, der 7. April \
         2026; der Termin liegt 1 Kalendertag danach.\n\
         Spätester Übertragungstag für diesen Termin ist Dienstag, der 7. April 2026.",
    ),
    (
        "check EarliestWerktageAfter 1 2026-04-02 2026-04-06",
        "Zu spät: Übertragungstag Donnerstag, 2. April 2026, Termin Montag, 6. April 2026.\n\
         Zulässig sind Termine ab Dienstag, dem 7. April 2026.\n\
         Frühester Termin ist der 1. Werktag nach dem Übertragungstag: Dienstag, der 7. April \
         2026; der Termin liegt 1 Kalendertag davor.\n\
         Spätester Übertragungstag für diesen Termin ist Mittwoch, der 1. April 2026.\n\
         Es fehlt 1 Werktag.",
    ),
    (
        "check EarliestWerktageAfter 3 2026-04-02 2026-04-02",
        "Zu spät: Übertragungstag Donnerstag, 2. April 2026, Termin Donnerstag, 2. April 2026.\n\
         Zulässig sind Termine ab Donnerstag, dem 9. April 2026.\n\
         Frühester Termin ist der 3. Werktag nach dem Übertragungstag: Donnerstag, der 9. April \
         2026; der Termin liegt 7 Kalendertage davor.\n\
         Spätester Übertragungstag für diesen Termin ist Montag, der 30. März 2026.\n\
         Es fehlen 3 Werktage.",
    ),
    (
        "check EarliestWerktageAfter 0 2026-04-07 2026-04-02",
        "Zu spät: Übertragungstag Dienstag, 7. April 2026, Termin Donnerstag, 2. April 2026.\n\
         Zulässig sind Termine ab Dienstag, dem 7. April 2026.\n\
         Frühester Termin ist der Übertragungstag selbst: Dienstag, der 7. April 2026; der Termin \
         liegt 5 Kalendertage davor.\n\
         Spätester Übertragungstag für diesen Termin ist Donnerstag, der 2. April 2026.\n\
         Es fehlt 1 Werktag.",
    ),
    (
        "check EarliestWerktageAfter 0 2026-04-03 2026-04-02",
        "Zu spät: Übertragungstag Freitag, 3. April 2026, Termin Donnerstag, 2. April 2026.\n\
         Zulässig sind Termine ab Freitag, dem 3. April 2026.\n\
         Frühester Termin ist der Übertragungstag selbst: Freitag, der 3. April 2026; der Termin \
         liegt 1 Kalendertag davor.\n\
         Spätester Übertragungstag für diesen Termin ist Donnerstag, der 2. April 2026.\n\
         Zu spät ist es um 1 Tag, der kein Werktag ist.",
    ),
    (
        "check EarliestWerktageAfter 0 2026-04-06 2026-04-02",
        "Zu spät: Übertragungstag Montag, 6. April 2026, Termin Donnerstag, 2. April 2026.\n\
         Zulässig sind Termine ab Montag, dem 6. April 2026.\n\
         Frühester Termin ist der Übertragungstag selbst: Montag, der 6. April 2026; der Termin \
         liegt 4 Kalendertage davor.\n\
         Spätester Übertragungstag für diesen Termin ist Donnerstag, der 2. April 2026.\n\
         Zu spät ist es um 4 Tage, die keine Werktage sind.",
    ),
    (
        "check EarliestWerktageAfter 1 1996-01-02 1996-01-01",
        "Zu spät: Übertragungstag Dienstag, 2. Januar 1996, Termin Montag, 1. Januar 1996.\n\
         Zulässig sind Termine ab Mittwoch, dem 3. Januar 1996.\n\
         Frühester Termin ist der 1. Werktag nach dem Übertragungstag: Mittwoch, der 3. Januar \
         1996; der Termin liegt 2 Kalendertage davor.\n\
         Es fehlen 2 Werktage.",
    ),
];

/// Case F first.
const LAST_WERKTAG: &[(&str, &str)] = &[
    (
        "check TagVorDemLetztenWerktagVor 2026-01-08 2026-01-09",
        "1 Kalendertag zu spät: Übertragungstag Donnerstag, 8. Januar 2026, Termin Freitag, 9. \
         Januar 2026.\n\
         Zulässig sind Termine ab Samstag, dem 10. Januar 2026.\n\
         Spätester Übertragungstag ist der Tag vor dem letzten Werktag vor dem Termin: Mittwoch, \
         der 7. Januar 2026.\n\
         Es fehlt 1 Werktag.",
    ),
    (
        "check TagVorDemLetztenWerktagVor 2026-01-08 2026-01-10",
        "Frist gewahrt, am letzten zulässigen Tag: Übertragungstag Donnerstag, 8. Januar 2026, \
         Termin Samstag, 10. Januar 2026.\n\
         Zulässig sind Termine ab Samstag, dem 10. Januar 2026.\n\
         Spätester Übertragungstag ist der Tag vor dem letzten Werktag vor dem Termin: Donnerstag, \
         der 8. Januar 2026.",
    ),
    (
        "check TagVorDemLetztenWerktagVor 2026-01-06 2026-01-13",
        "Frist gewahrt, noch 5 Kalendertage Luft: Übertragungstag Dienstag, 6. Januar 2026, Termin \
         Dienstag, 13. Januar 2026.\n\
         Zulässig sind Termine ab Donnerstag, dem 8. Januar 2026.\n\
         Spätester Übertragungstag ist der Tag vor dem letzten Werktag vor dem Termin: Sonntag, \
         der 11. Januar 2026.",
    ),
    (
        "check TagVorDemLetztenWerktagVor 2026-04-05 2026-04-07",
        "4 Kalendertage zu spät: Übertragungstag Sonntag, 5. April 2026, Termin Dienstag, 7. April \
         2026.\n\
         Zulässig sind Termine ab Mittwoch, dem 8. April 2026.\n\
         Spätester Übertragungstag ist der Tag vor dem letzten Werktag vor dem Termin: Mittwoch, \
         der 1. April 2026.\n\
         Es fehlt 1 Werktag.",
    ),
    (
        "check TagVorDemLetztenWerktagVor 2026-01-14 2026-01-09",
        "7 Kalendertage zu spät: Übertragungstag Mittwoch, 14. Januar 2026, Termin Freitag, 9. \
         Januar 2026.\n\
         Zulässig sind Termine ab Freitag, dem 16. Januar 2026.\n\
         Spätester Übertragungstag ist der Tag vor dem letzten Werktag vor dem Termin: Mittwoch, \
         der 7. Januar 2026.\n\
         Es fehlen 5 Werktage.",
    ),
];

/// Case G first; a count of 0 leaves what the other says.
const MONTHS: &[(&str, &str)] = &[
    (
        "check LatestMonateBefore 1 2026-01-31 2026-02-28",
        "3 Kalendertage zu spät: Übertragungstag Samstag, 31. Januar 2026, Termin Samstag, 28. \
         Februar 2026.\n\
         Zulässig sind Termine ab Sonntag, dem 1. März 2026.\n\
         Der späteste Übertragungstag liegt 1 Monat vor dem Termin: Mittwoch, der 28. Januar \
         2026.\n\
         Es fehlen 2 Werktage.\n\
         Die Quelle mako-fristen nennt als frühesten Termin Samstag, den 28. Februar 2026; \
         zulässig ist er nicht.",
    ),
    (
        "check LatestMonateBefore 1 2026-01-31 2026-03-31",
        "Frist gewahrt, noch 28 Kalendertage Luft: Übertragungstag Samstag, 31. Januar 2026, \
         Termin Dienstag, 31. März 2026.\n\
         Zulässig sind Termine ab Sonntag, dem 1. März 2026.\n\
         Der späteste Übertragungstag liegt 1 Monat vor dem Termin: Samstag, der 28. Februar 2026. \
         Einen 31. hat der Februar 2026 nicht; es gilt sein letzter Tag (§ 188 BGB).",
    ),
    (
        "check LatestMonateBefore 3 2026-01-05 2026-04-06",
        "Frist gewahrt, noch 1 Kalendertag Luft: Übertragungstag Montag, 5. Januar 2026, Termin \
         Montag, 6. April 2026.\n\
         Zulässig sind Termine ab Sonntag, dem 5. April 2026.\n\
         Der späteste Übertragungstag liegt 3 Monate vor dem Termin: Dienstag, der 6. Januar 2026.",
    ),
    (
        "check LatestMonateBefore 0 2026-01-11 2026-01-10",
        "1 Kalendertag zu spät: Übertragungstag Sonntag, 11. Januar 2026, Termin Samstag, 10. \
         Januar 2026.\n\
         Zulässig sind Termine ab Sonntag, dem 11. Januar 2026.\n\
         Spätester Übertragungstag ist der Termin selbst: Samstag, der 10. Januar 2026.\n\
         Zu spät ist es um 1 Tag, der kein Werktag ist.",
    ),
    (
        "check LatestMonateBefore 2 2026-04-07 2026-05-07",
        "31 Kalendertage zu spät: Übertragungstag Dienstag, 7. April 2026, Termin Donnerstag, 7. \
         Mai 2026.\n\
         Zulässig sind Termine ab Sonntag, dem 7. Juni 2026.\n\
         Der späteste Übertragungstag liegt 2 Monate vor dem Termin: Samstag, der 7. März 2026.\n\
         Es fehlen 20 Werktage.",
    ),
    (
        "check LatestMonateUndWerktageBefore 2 1 2026-01-05 2026-04-01",
        "Frist gewahrt, noch 25 Kalendertage Luft: Übertragungstag Montag, 5. Januar 2026, Termin \
         Mittwoch, 1. April 2026.\n\
         Zulässig sind Termine ab Freitag, dem 6. März 2026.\n\
         Spätester Übertragungstag ist der 1. Werktag vor dem Tag, der 2 Monate vor dem Termin \
         liegt, Sonntag, dem 1. Februar 2026: Freitag, der 30. Januar 2026.",
    ),
    (
        "check LatestMonateUndWerktageBefore 1 5 2026-03-30 2026-05-05",
        "3 Kalendertage zu spät: Übertragungstag Montag, 30. März 2026, Termin Dienstag, 5. Mai \
         2026.\n\
         Zulässig sind Termine ab Freitag, dem 8. Mai 2026.\n\
         Spätester Übertragungstag ist der 5. Werktag vor dem Tag, der 1 Monat vor dem Termin \
         liegt, Sonntag, dem 5. April 2026: Freitag, der 27. März 2026.\n\
         Es fehlt 1 Werktag.",
    ),
    (
        "check LatestMonateUndWerktageBefore 1 1 2026-01-31 2026-02-28",
        "4 Kalendertage zu spät: Übertragungstag Samstag, 31. Januar 2026, Termin Samstag, 28. \
         Februar 2026.\n\
         Zulässig sind Termine ab Dienstag, dem 3. März 2026.\n\
         Spätester Übertragungstag ist der 1. Werktag vor dem Tag, der 1 Monat vor dem Termin \
         liegt, Mittwoch, dem 28. Januar 2026: Dienstag, der 27. Januar 2026.\n\
         Es fehlen 3 Werktage.\n\
         Die Quelle mako-fristen nennt als frühesten Termin Montag, den 2. März 2026; zulässig ist \
         er nicht.",
    ),
    (
        "check LatestMonateUndWerktageBefore 1 1 2026-02-27 2026-03-31",
        "Frist gewahrt, am letzten zulässigen Tag: Übertragungstag Freitag, 27. Februar 2026, \
         Termin Dienstag, 31. März 2026.\n\
         Zulässig sind Termine ab Samstag, dem 28. März 2026.\n\
         Spätester Übertragungstag ist der 1. Werktag vor dem Tag, der 1 Monat vor dem Termin \
         liegt, Samstag, dem 28. Februar 2026: Freitag, der 27. Februar 2026. Einen 31. hat der \
         Februar 2026 nicht; es gilt sein letzter Tag (§ 188 BGB).",
    ),
    (
        "check LatestMonateUndWerktageBefore 0 1 2026-01-10 2026-01-12",
        "1 Kalendertag zu spät: Übertragungstag Samstag, 10. Januar 2026, Termin Montag, 12. \
         Januar 2026.\n\
         Zulässig sind Termine ab Dienstag, dem 13. Januar 2026.\n\
         Spätester Übertragungstag ist der 1. Werktag vor dem Termin: Freitag, der 9. Januar \
         2026.\n\
         Zu spät ist es um 1 Tag, der kein Werktag ist.\n\
         Die Quelle mako-fristen nennt als frühesten Termin Montag, den 12. Januar 2026; zulässig \
         ist er nicht.",
    ),
    (
        "check LatestMonateUndWerktageBefore 2 0 2026-01-05 2026-03-05",
        "Frist gewahrt, am letzten zulässigen Tag: Übertragungstag Montag, 5. Januar 2026, Termin \
         Donnerstag, 5. März 2026.\n\
         Zulässig sind Termine ab Donnerstag, dem 5. März 2026.\n\
         Der späteste Übertragungstag liegt 2 Monate vor dem Termin: Montag, der 5. Januar 2026.",
    ),
    (
        "check LatestMonateUndWerktageBefore 0 0 2026-01-05 2026-01-05",
        "Frist gewahrt, am letzten zulässigen Tag: Übertragungstag Montag, 5. Januar 2026, Termin \
         Montag, 5. Januar 2026.\n\
         Zulässig sind Termine ab Montag, dem 5. Januar 2026.\n\
         Spätester Übertragungstag ist der Termin selbst: Montag, der 5. Januar 2026.",
    ),
];

/// Which dates the transmission day allows, then the rule.
const SPANS: &[(&str, &str)] = &[
    (
        "span LatestWerktageBefore 1 2026-01-10",
        "Übertragungstag Samstag, 10. Januar 2026: Zulässig sind Termine ab Dienstag, dem 13. \
         Januar 2026.\n\
         Spätester Übertragungstag ist der 1. Werktag vor dem Termin.",
    ),
    (
        "span LatestWerktageBefore 0 2026-01-10",
        "Übertragungstag Samstag, 10. Januar 2026: Zulässig sind Termine ab Samstag, dem 10. \
         Januar 2026.\n\
         Spätester Übertragungstag ist der Termin selbst.",
    ),
    (
        "span WindowWerktageBefore 5 2 2026-01-13",
        "Übertragungstag Dienstag, 13. Januar 2026: Zulässig sind Termine von Donnerstag, dem 15. \
         Januar 2026, bis Dienstag, den 20. Januar 2026.\n\
         Der Übertragungstag muss vom 5. bis zum 2. Werktag vor dem Termin liegen.",
    ),
    (
        "span WindowWerktageBefore 1 1 2026-01-10",
        "Übertragungstag Samstag, 10. Januar 2026: Für diesen Übertragungstag ist kein Termin \
         zulässig.\n\
         Der Übertragungstag muss der 1. Werktag vor dem Termin sein.",
    ),
    (
        "span WindowWerktageBefore 2 0 2026-04-02",
        "Übertragungstag Donnerstag, 2. April 2026: Zulässig sind Termine von Donnerstag, dem 2. \
         April 2026, bis Mittwoch, den 8. April 2026.\n\
         Der Übertragungstag muss vom 2. Werktag vor dem Termin bis zum Termin selbst liegen.",
    ),
    (
        "span WindowWerktageBefore 0 1 2026-01-13",
        "Übertragungstag Dienstag, 13. Januar 2026: Für diesen Übertragungstag ist kein Termin \
         zulässig.\n\
         Frühester Übertragungstag ist der Termin selbst, spätester ist der 1. Werktag vor dem \
         Termin: der Zeitraum endet, bevor er beginnt.",
    ),
    (
        "span LatestWerktageAfter 3 2026-04-09",
        "Übertragungstag Donnerstag, 9. April 2026: Zulässig sind Termine ab Donnerstag, dem 2. \
         April 2026.\n\
         Spätester Übertragungstag ist der 3. Werktag nach dem Termin.",
    ),
    (
        "span EarliestWerktageAfter 3 2026-04-02",
        "Übertragungstag Donnerstag, 2. April 2026: Zulässig sind Termine ab Donnerstag, dem 9. \
         April 2026.\n\
         Frühester Termin ist der 3. Werktag nach dem Übertragungstag.",
    ),
    (
        "span EarliestWerktageAfter 0 2026-04-03",
        "Übertragungstag Freitag, 3. April 2026: Zulässig sind Termine ab Freitag, dem 3. April \
         2026.\n\
         Frühester Termin ist der Übertragungstag selbst.",
    ),
    (
        "span Korridor 2 2026-04-07",
        "Übertragungstag Dienstag, 7. April 2026: Zulässig sind Termine von Mittwoch, dem 1. April \
         2026, bis Donnerstag, den 9. April 2026.\n\
         Der Übertragungstag muss vom 2. Werktag vor bis zum 2. Werktag nach dem Termin liegen.",
    ),
    (
        "span Korridor 0 2026-04-07",
        "Übertragungstag Dienstag, 7. April 2026: Zulässig ist nur der Termin am Dienstag, dem 7. \
         April 2026.\n\
         Der Übertragungstag muss der Termin selbst sein.",
    ),
    (
        "span TagVorDemLetztenWerktagVor 2026-01-08",
        "Übertragungstag Donnerstag, 8. Januar 2026: Zulässig sind Termine ab Samstag, dem 10. \
         Januar 2026.\n\
         Spätester Übertragungstag ist der Tag vor dem letzten Werktag vor dem Termin.",
    ),
    (
        "span LatestMonateBefore 1 2026-01-31",
        "Übertragungstag Samstag, 31. Januar 2026: Zulässig sind Termine ab Sonntag, dem 1. März \
         2026.\n\
         Der späteste Übertragungstag liegt 1 Monat vor dem Termin.",
    ),
    (
        "span LatestMonateBefore 2 2026-01-05",
        "Übertragungstag Montag, 5. Januar 2026: Zulässig sind Termine ab Donnerstag, dem 5. März \
         2026.\n\
         Der späteste Übertragungstag liegt 2 Monate vor dem Termin.",
    ),
    (
        "span LatestMonateBefore 0 2026-01-05",
        "Übertragungstag Montag, 5. Januar 2026: Zulässig sind Termine ab Montag, dem 5. Januar \
         2026.\n\
         Spätester Übertragungstag ist der Termin selbst.",
    ),
    (
        "span LatestMonateUndWerktageBefore 1 5 2026-03-30",
        "Übertragungstag Montag, 30. März 2026: Zulässig sind Termine ab Freitag, dem 8. Mai \
         2026.\n\
         Spätester Übertragungstag ist der 5. Werktag vor dem Tag, der 1 Monat vor dem Termin \
         liegt.",
    ),
    (
        "span LatestMonateUndWerktageBefore 2 0 2026-01-05",
        "Übertragungstag Montag, 5. Januar 2026: Zulässig sind Termine ab Donnerstag, dem 5. März \
         2026.\n\
         Der späteste Übertragungstag liegt 2 Monate vor dem Termin.",
    ),
    (
        "span LatestMonateUndWerktageBefore 0 1 2026-01-10",
        "Übertragungstag Samstag, 10. Januar 2026: Zulässig sind Termine ab Dienstag, dem 13. \
         Januar 2026.\n\
         Spätester Übertragungstag ist der 1. Werktag vor dem Termin.",
    ),
];

/// What may be a slip; any other line here is answered without a hint.
const HINTS: &[(&str, &str)] = &[
    (
        "bis-wann WindowWerktageBefore 0 5 2026-01-19",
        "VON ist kleiner als BIS; meinten Sie Zeitfenster 5 0?",
    ),
    (
        "bis-wann WindowWerktageBefore 1 2 2026-01-19",
        "VON ist kleiner als BIS; meinten Sie Zeitfenster 2 1?",
    ),
    (
        "check LatestWerktageBefore 0 2026-01-13 2026-01-12",
        "der Termin liegt vor dem Übertragungstag.",
    ),
    (
        "check WindowWerktageBefore 0 5 2026-01-09 2026-01-19",
        "VON ist kleiner als BIS; meinten Sie Zeitfenster 5 0?",
    ),
    (
        "check WindowWerktageBefore 0 5 2026-01-09 2026-01-16",
        "VON ist kleiner als BIS; meinten Sie Zeitfenster 5 0?",
    ),
    (
        "check WindowWerktageBefore 2 5 2026-01-13 2026-01-16",
        "VON ist kleiner als BIS; meinten Sie Zeitfenster 5 2?",
    ),
    (
        "check WindowWerktageBefore 0 1 2026-04-07 2026-04-07",
        "VON ist kleiner als BIS; meinten Sie Zeitfenster 1 0?",
    ),
    (
        "check WindowWerktageBefore 1 2 2026-04-06 2026-04-08",
        "VON ist kleiner als BIS; meinten Sie Zeitfenster 2 1?",
    ),
    (
        "check EarliestWerktageAfter 0 2026-04-07 2026-04-02",
        "der Termin liegt vor dem Übertragungstag.",
    ),
    (
        "check EarliestWerktageAfter 0 2026-04-03 2026-04-02",
        "der Termin liegt vor dem Übertragungstag.",
    ),
    (
        "check EarliestWerktageAfter 0 2026-04-06 2026-04-02",
        "der Termin liegt vor dem Übertragungstag.",
    ),
    (
        "check EarliestWerktageAfter 1 1996-01-02 1996-01-01",
        "der Termin liegt vor dem Übertragungstag.",
    ),
    (
        "check TagVorDemLetztenWerktagVor 2026-01-14 2026-01-09",
        "der Termin liegt vor dem Übertragungstag.",
    ),
    (
        "check LatestMonateBefore 0 2026-01-11 2026-01-10",
        "der Termin liegt vor dem Übertragungstag.",
    ),
    (
        "span WindowWerktageBefore 0 1 2026-01-13",
        "VON ist kleiner als BIS; meinten Sie Zeitfenster 1 0?",
    ),
    (
        "abmeldung Z33 2026-01-14 2026-01-09 --eeg nein",
        "das Zuordnungsende liegt vor dem Übertragungstag.",
    ),
];

/// The transmission days, then the rule.
const BIS_WANN: &[(&str, &str)] = &[
    (
        "bis-wann LatestWerktageBefore 1 2026-04-07",
        "Für den Termin am Dienstag, dem 7. April 2026, muss die Nachricht spätestens am \
         Donnerstag, dem 2. April 2026, übertragen sein.\n\
         Spätester Übertragungstag ist der 1. Werktag vor dem Termin.\n\
         Übersprungen: Karfreitag, ein Samstag, Ostersonntag, Ostermontag.",
    ),
    (
        "bis-wann LatestWerktageBefore 0 2026-04-05",
        "Für den Termin am Sonntag, dem 5. April 2026, muss die Nachricht spätestens am Sonntag, \
         dem 5. April 2026, übertragen sein.\n\
         Spätester Übertragungstag ist der Termin selbst.",
    ),
    (
        "bis-wann WindowWerktageBefore 8 5 2026-04-24",
        "Für den Termin am Freitag, dem 24. April 2026, muss die Nachricht von Dienstag, dem 14. \
         April 2026, bis Freitag, den 17. April 2026, übertragen werden.\n\
         Der Übertragungstag muss vom 8. bis zum 5. Werktag vor dem Termin liegen.\n\
         Zwischen dem spätesten Tag und dem Termin übersprungen: ein Samstag, ein Sonntag.",
    ),
    (
        "bis-wann WindowWerktageBefore 2 0 2026-04-07",
        "Für den Termin am Dienstag, dem 7. April 2026, muss die Nachricht von Mittwoch, dem 1. \
         April 2026, bis Dienstag, den 7. April 2026, übertragen werden.\n\
         Der Übertragungstag muss vom 2. Werktag vor dem Termin bis zum Termin selbst liegen.",
    ),
    (
        "bis-wann WindowWerktageBefore 1 1 2026-04-07",
        "Für den Termin am Dienstag, dem 7. April 2026, muss die Nachricht am Donnerstag, dem 2. \
         April 2026, übertragen werden.\n\
         Der Übertragungstag muss der 1. Werktag vor dem Termin sein.\n\
         Übersprungen: Karfreitag, ein Samstag, Ostersonntag, Ostermontag.",
    ),
    (
        "bis-wann LatestWerktageAfter 3 2026-04-02",
        "Für den Termin am Donnerstag, dem 2. April 2026, muss die Nachricht spätestens am \
         Donnerstag, dem 9. April 2026, übertragen sein.\n\
         Spätester Übertragungstag ist der 3. Werktag nach dem Termin.\n\
         Übersprungen: Karfreitag, ein Samstag, Ostersonntag, Ostermontag.",
    ),
    (
        "bis-wann LatestWerktageAfter 0 2026-04-02",
        "Für den Termin am Donnerstag, dem 2. April 2026, muss die Nachricht spätestens am \
         Donnerstag, dem 2. April 2026, übertragen sein.\n\
         Spätester Übertragungstag ist der Termin selbst.",
    ),
    (
        "bis-wann EarliestWerktageAfter 2 2026-04-13",
        "Für den Termin am Montag, dem 13. April 2026, muss die Nachricht spätestens am \
         Donnerstag, dem 9. April 2026, übertragen sein.\n\
         Frühester Termin ist der 2. Werktag nach dem Übertragungstag.\n\
         Übersprungen: ein Samstag, ein Sonntag.",
    ),
    (
        "bis-wann EarliestWerktageAfter 1 2026-04-07",
        "Für den Termin am Dienstag, dem 7. April 2026, muss die Nachricht spätestens am Montag, \
         dem 6. April 2026, übertragen sein.\n\
         Frühester Termin ist der 1. Werktag nach dem Übertragungstag.",
    ),
    (
        "bis-wann EarliestWerktageAfter 1 2026-04-06",
        "Für den Termin am Montag, dem 6. April 2026, muss die Nachricht spätestens am Mittwoch, \
         dem 1. April 2026, übertragen sein.\n\
         Frühester Termin ist der 1. Werktag nach dem Übertragungstag.\n\
         Übersprungen: Karfreitag, ein Samstag, Ostersonntag.",
    ),
    (
        "bis-wann EarliestWerktageAfter 0 2026-04-06",
        "Für den Termin am Montag, dem 6. April 2026, muss die Nachricht spätestens am Montag, \
         dem 6. April 2026, übertragen sein.\n\
         Frühester Termin ist der Übertragungstag selbst.",
    ),
    (
        "bis-wann Korridor 5 2026-04-24",
        "Für den Termin am Freitag, dem 24. April 2026, muss die Nachricht von Freitag, dem 17. \
         April 2026, bis Montag, den 4. Mai 2026, übertragen werden.\n\
         Der Übertragungstag muss vom 5. Werktag vor bis zum 5. Werktag nach dem Termin liegen.\n\
         Zwischen dem spätesten Tag und dem Termin übersprungen: zwei Samstage, zwei Sonntage, Tag \
         der Arbeit.",
    ),
    (
        "bis-wann Korridor 0 2026-04-05",
        "Für den Termin am Sonntag, dem 5. April 2026, muss die Nachricht am Sonntag, dem 5. \
         April 2026, übertragen werden.\n\
         Der Übertragungstag muss der Termin selbst sein.",
    ),
    (
        "bis-wann TagVorDemLetztenWerktagVor 2026-01-13",
        "Für den Termin am Dienstag, dem 13. Januar 2026, muss die Nachricht spätestens am \
         Sonntag, dem 11. Januar 2026, übertragen sein.\n\
         Spätester Übertragungstag ist der Tag vor dem letzten Werktag vor dem Termin.",
    ),
    (
        "bis-wann LatestMonateBefore 1 2026-03-31",
        "Für den Termin am Dienstag, dem 31. März 2026, muss die Nachricht spätestens am Samstag, \
         dem 28. Februar 2026, übertragen sein.\n\
         Der späteste Übertragungstag liegt 1 Monat vor dem Termin. Einen 31. hat der Februar 2026 \
         nicht; es gilt sein letzter Tag (§ 188 BGB).",
    ),
    (
        "bis-wann LatestMonateBefore 1 2028-03-30",
        "Für den Termin am Donnerstag, dem 30. März 2028, muss die Nachricht spätestens am \
         Dienstag, dem 29. Februar 2028, übertragen sein.\n\
         Der späteste Übertragungstag liegt 1 Monat vor dem Termin. Einen 30. hat der Februar 2028 \
         nicht; es gilt sein letzter Tag (§ 188 BGB).",
    ),
    (
        "bis-wann LatestMonateBefore 1 2026-07-31",
        "Für den Termin am Freitag, dem 31. Juli 2026, muss die Nachricht spätestens am Dienstag, \
         dem 30. Juni 2026, übertragen sein.\n\
         Der späteste Übertragungstag liegt 1 Monat vor dem Termin. Einen 31. hat der Juni 2026 \
         nicht; es gilt sein letzter Tag (§ 188 BGB).",
    ),
    (
        "bis-wann LatestMonateBefore 3 2026-04-07",
        "Für den Termin am Dienstag, dem 7. April 2026, muss die Nachricht spätestens am \
         Mittwoch, dem 7. Januar 2026, übertragen sein.\n\
         Der späteste Übertragungstag liegt 3 Monate vor dem Termin.",
    ),
    (
        "bis-wann LatestMonateBefore 0 2026-04-07",
        "Für den Termin am Dienstag, dem 7. April 2026, muss die Nachricht spätestens am \
         Dienstag, dem 7. April 2026, übertragen sein.\n\
         Spätester Übertragungstag ist der Termin selbst.",
    ),
    (
        "bis-wann LatestMonateUndWerktageBefore 1 5 2026-05-05",
        "Für den Termin am Dienstag, dem 5. Mai 2026, muss die Nachricht spätestens am Freitag, \
         dem 27. März 2026, übertragen sein.\n\
         Spätester Übertragungstag ist der 5. Werktag vor dem Tag, der 1 Monat vor dem Termin \
         liegt, Sonntag, dem 5. April 2026.\n\
         Übersprungen: zwei Samstage, ein Sonntag, Karfreitag.",
    ),
    (
        "bis-wann LatestMonateUndWerktageBefore 2 1 2026-04-01",
        "Für den Termin am Mittwoch, dem 1. April 2026, muss die Nachricht spätestens am Freitag, \
         dem 30. Januar 2026, übertragen sein.\n\
         Spätester Übertragungstag ist der 1. Werktag vor dem Tag, der 2 Monate vor dem Termin \
         liegt, Sonntag, dem 1. Februar 2026.\n\
         Übersprungen: ein Samstag.",
    ),
    (
        "bis-wann LatestMonateUndWerktageBefore 1 2 2026-03-31",
        "Für den Termin am Dienstag, dem 31. März 2026, muss die Nachricht spätestens am \
         Donnerstag, dem 26. Februar 2026, übertragen sein.\n\
         Spätester Übertragungstag ist der 2. Werktag vor dem Tag, der 1 Monat vor dem Termin \
         liegt, Samstag, dem 28. Februar 2026. Einen 31. hat der Februar 2026 nicht; es gilt sein \
         letzter Tag (§ 188 BGB).",
    ),
    (
        "bis-wann LatestMonateUndWerktageBefore 0 2 2026-04-07",
        "Für den Termin am Dienstag, dem 7. April 2026, muss die Nachricht spätestens am Mittwoch, \
         dem 1. April 2026, übertragen sein.\n\
         Spätester Übertragungstag ist der 2. Werktag vor dem Termin.\n\
         Übersprungen: Karfreitag, ein Samstag, Ostersonntag, Ostermontag.",
    ),
    (
        "bis-wann LatestMonateUndWerktageBefore 1 0 2026-04-07",
        "Für den Termin am Dienstag, dem 7. April 2026, muss die Nachricht spätestens am Samstag, \
         dem 7. März 2026, übertragen sein.\n\
         Der späteste Übertragungstag liegt 1 Monat vor dem Termin.",
    ),
];

/// A window that closes before it opens.
const NEVER: &[(&str, &str)] = &[
    (
        "bis-wann WindowWerktageBefore 0 5 2026-01-19",
        "Für den Termin am Montag, dem 19. Januar 2026, gibt es keinen Übertragungstag.\n\
         Frühester Übertragungstag ist der Termin selbst, spätester ist der 5. Werktag vor dem \
         Termin: der Zeitraum endet, bevor er beginnt.",
    ),
    (
        "bis-wann WindowWerktageBefore 1 2 2026-01-19",
        "Für den Termin am Montag, dem 19. Januar 2026, gibt es keinen Übertragungstag.\n\
         Frühester Übertragungstag ist der 1. Werktag vor dem Termin, spätester ist der 2. \
         Werktag vor dem Termin: der Zeitraum endet, bevor er beginnt.",
    ),
];

/// The end that leaves the calendar, or why the Termin is none.
const NOT_UNTIL: &[(&str, &str)] = &[
    (
        "bis-wann LatestWerktageBefore 1 1996-01-02",
        "Abgelehnt (8): Der späteste Übertragungstag für den Termin am Dienstag, dem 2. Januar \
         1996, liegt vor dem 1. Januar 1996, dem ersten Tag des Kalenders.",
    ),
    (
        "bis-wann EarliestWerktageAfter 1 1996-01-01",
        "Abgelehnt (8): Der späteste Übertragungstag für den Termin am Montag, dem 1. Januar \
         1996, liegt vor dem 1. Januar 1996, dem ersten Tag des Kalenders.",
    ),
    (
        "bis-wann Korridor 1 1996-01-02",
        "Abgelehnt (8): Der früheste Übertragungstag für den Termin am Dienstag, dem 2. Januar \
         1996, liegt vor dem 1. Januar 1996, dem ersten Tag des Kalenders.",
    ),
    (
        "bis-wann WindowWerktageBefore 2 0 1996-01-03",
        "Abgelehnt (8): Der früheste Übertragungstag für den Termin am Mittwoch, dem 3. Januar \
         1996, liegt vor dem 1. Januar 1996, dem ersten Tag des Kalenders.",
    ),
    (
        "bis-wann Korridor 1 2899-12-30",
        "Abgelehnt (8): Der späteste Übertragungstag für den Termin am Mittwoch, dem 30. Dezember \
         2899, liegt hinter dem 31. Dezember 2899, dem letzten Tag des Kalenders.",
    ),
    (
        "bis-wann LatestWerktageAfter 2 2899-12-29",
        "Abgelehnt (8): Der späteste Übertragungstag für den Termin am Dienstag, dem 29. Dezember \
         2899, liegt hinter dem 31. Dezember 2899, dem letzten Tag des Kalenders.",
    ),
    (
        "bis-wann LatestWerktageBefore 1 2026-02-30",
        "Abgelehnt (3): 2026-02-30: der Februar 2026 hat 28 Tage.",
    ),
    (
        "bis-wann EarliestWerktageAfter 0 2900-01-01",
        "Abgelehnt (3): 2900-01-01: der Kalender endet am 31. Dezember 2899.",
    ),
];

/// A span that leaves the calendar while the verdict is answered, under each verdict: of a window
/// and a Korridor only, which have two ends.
const EDGES: &[(&str, &str)] = &[
    (
        "check WindowWerktageBefore 3 1 2899-12-28 2899-12-28",
        "5 Kalendertage zu spät: Übertragungstag Montag, 28. Dezember 2899, Termin Montag, 28. \
         Dezember 2899.\n\
         Die Spanne der zulässigen Termine reicht über den Kalender vom 1. Januar 1996 bis zum 31. \
         Dezember 2899 hinaus.\n\
         Der Übertragungstag muss vom 3. bis zum 1. Werktag vor dem Termin liegen: von Montag, dem \
         21. Dezember 2899, bis Mittwoch, den 23. Dezember 2899.\n\
         Es fehlt 1 Werktag.\n\
         Die Quelle mako-fristen nennt als frühesten Termin Dienstag, den 29. Dezember 2899; er \
         ist zulässig.",
    ),
    (
        "check Korridor 3 2899-12-30 2899-12-23",
        "Frist gewahrt, am letzten zulässigen Tag: Übertragungstag Mittwoch, 30. Dezember 2899, \
         Termin Mittwoch, 23. Dezember 2899.\n\
         Die Spanne der zulässigen Termine reicht über den Kalender vom 1. Januar 1996 bis zum 31. \
         Dezember 2899 hinaus.\n\
         Der Übertragungstag muss vom 3. Werktag vor bis zum 3. Werktag nach dem Termin liegen: \
         von Freitag, dem 18. Dezember 2899, bis Mittwoch, den 30. Dezember 2899.",
    ),
    (
        "check Korridor 2 1996-01-02 1996-01-08",
        "Zu früh: Übertragungstag Dienstag, 2. Januar 1996, Termin Montag, 8. Januar 1996.\n\
         Die Spanne der zulässigen Termine reicht über den Kalender vom 1. Januar 1996 bis zum \
         31. Dezember 2899 hinaus.\n\
         Der Übertragungstag muss vom 2. Werktag vor bis zum 2. Werktag nach dem Termin liegen: \
         von Donnerstag, dem 4. Januar 1996, bis Mittwoch, den 10. Januar 1996.\n\
         Der Zeitraum beginnt erst in 2 Werktagen.",
    ),
];

/// The day is Berlin's: 23:30 UTC of 7 January is half past midnight of the 8th.
const INSTANTS: &[(&str, &str)] = &[
    (
        "check-at TagVorDemLetztenWerktagVor 2026-01-07T23:30:00Z 2026-01-09T00:00:00+01:00 Strom",
        "1 Kalendertag zu spät: Übertragung am Donnerstag, dem 8. Januar 2026, um 00:30 Uhr, \
         Termin Freitag, 9. Januar 2026, Sparte Strom.\n\
         Zulässig sind Termine ab Samstag, dem 10. Januar 2026.\n\
         Spätester Übertragungstag ist der Tag vor dem letzten Werktag vor dem Termin: Mittwoch, \
         der 7. Januar 2026.\n\
         Es fehlt 1 Werktag.",
    ),
    (
        "check-at EarliestWerktageAfter 1 2026-04-02T10:00:00+02:00 2026-04-08T06:00:00+02:00 Gas",
        "Frist gewahrt: Übertragung am Donnerstag, dem 2. April 2026, um 10:00 Uhr, Termin \
         Mittwoch, 8. April 2026, Sparte Gas.\n\
         Zulässig sind Termine ab Dienstag, dem 7. April 2026.\n\
         Frühester Termin ist der 1. Werktag nach dem Übertragungstag: Dienstag, der 7. April \
         2026; der Termin liegt 1 Kalendertag danach.\n\
         Spätester Übertragungstag für diesen Termin ist Dienstag, der 7. April 2026.",
    ),
    (
        "check-at Korridor 2 2026-04-21T23:59:59.5+02:00 2026-04-24T06:00:00+02:00 Gas",
        "Zu früh: Übertragung am Dienstag, dem 21. April 2026, um 23:59:59,5 Uhr, Termin Freitag, \
         24. April 2026, Sparte Gas.\n\
         Zulässig sind Termine von Freitag, dem 17. April 2026, bis Donnerstag, den 23. April \
         2026.\n\
         Der Übertragungstag muss vom 2. Werktag vor bis zum 2. Werktag nach dem Termin liegen: \
         von Mittwoch, dem 22. April 2026, bis Dienstag, den 28. April 2026.\n\
         Der Zeitraum beginnt am nächsten Werktag.",
    ),
];

/// A month for the EEG, else the day before the last Werktag, and neither where nobody knows.
const DEREGISTRATIONS: &[(&str, &str)] = &[
    (
        "abmeldung-fuer Z33 --eeg JA",
        "Grund „Z33“, EEG-Marktlokation: Der späteste Übertragungstag liegt 1 Monat vor dem \
         Zuordnungsende.",
    ),
    (
        "abmeldung-fuer Z33 --eeg nein",
        "Grund „Z33“, keine EEG-Marktlokation: Spätester Übertragungstag ist der Tag vor dem \
         letzten Werktag vor dem Zuordnungsende.",
    ),
    (
        "abmeldung-fuer --eeg=unbekannt Z33",
        "Grund „Z33“, unbekannt, ob EEG-Marktlokation: Für EEG-Marktlokationen und Tranchen von \
         EEG-Marktlokationen gilt ein Monat statt des letzten Werktags (GPKE Teil 2 Kap. 2.5.2 Nr. \
         1); ob die Marktlokation eine EEG-Marktlokation ist, ist nicht bekannt.\n\
         Mit --eeg ja oder --eeg nein steht die Frist fest.",
    ),
    (
        "abmeldung-fuer ZQ7 --eeg nein",
        "Grund „ZQ7“: Die Frist ist die des Prüfschritts 120: „Liegt das Eingangsdatum der \
         Abmeldung nach dem 5. WT des Monats, in dem die Zuordnungsermächtigung endet?“",
    ),
    (
        "abmeldung Z33 2026-01-08 --eeg ja 2026-01-12",
        "27 Kalendertage zu spät: Übertragungstag Donnerstag, 8. Januar 2026, Zuordnungsende \
         Montag, 12. Januar 2026, Grund „Z33“, EEG-Marktlokation.\n\
         Zulässig ist ein Zuordnungsende ab Sonntag, dem 8. Februar 2026.\n\
         Der späteste Übertragungstag liegt 1 Monat vor dem Zuordnungsende: Freitag, der 12. \
         Dezember 2025.\n\
         Es fehlen 13 Werktage.",
    ),
    (
        "abmeldung Z33 2026-01-31 2026-02-28 --eeg ja",
        "3 Kalendertage zu spät: Übertragungstag Samstag, 31. Januar 2026, Zuordnungsende Samstag, \
         28. Februar 2026, Grund „Z33“, EEG-Marktlokation.\n\
         Zulässig ist ein Zuordnungsende ab Sonntag, dem 1. März 2026.\n\
         Der späteste Übertragungstag liegt 1 Monat vor dem Zuordnungsende: Mittwoch, der 28. \
         Januar 2026.\n\
         Es fehlen 2 Werktage.\n\
         Die Quelle mako-fristen nennt als frühestes Zuordnungsende Samstag, den 28. Februar 2026; \
         zulässig ist es nicht.",
    ),
    (
        "abmeldung Z33 2026-01-31 2026-03-02 --eeg ja",
        "Frist gewahrt, noch 2 Kalendertage Luft: Übertragungstag Samstag, 31. Januar 2026, \
         Zuordnungsende Montag, 2. März 2026, Grund „Z33“, EEG-Marktlokation.\n\
         Zulässig ist ein Zuordnungsende ab Sonntag, dem 1. März 2026.\n\
         Der späteste Übertragungstag liegt 1 Monat vor dem Zuordnungsende: Montag, der 2. Februar \
         2026.",
    ),
    (
        "abmeldung Z33 2026-02-28 2026-03-31 --eeg ja",
        "Frist gewahrt, am letzten zulässigen Tag: Übertragungstag Samstag, 28. Februar 2026, \
         Zuordnungsende Dienstag, 31. März 2026, Grund „Z33“, EEG-Marktlokation.\n\
         Zulässig ist ein Zuordnungsende ab Samstag, dem 28. März 2026.\n\
         Der späteste Übertragungstag liegt 1 Monat vor dem Zuordnungsende: Samstag, der 28. \
         Februar 2026. Einen 31. hat der Februar 2026 nicht; es gilt sein letzter Tag (§ 188 BGB).",
    ),
    (
        "abmeldung Z33 2026-01-08 2026-01-13 --eeg nein",
        "Frist gewahrt, noch 3 Kalendertage Luft: Übertragungstag Donnerstag, 8. Januar 2026, \
         Zuordnungsende Dienstag, 13. Januar 2026, Grund „Z33“, keine EEG-Marktlokation.\n\
         Zulässig ist ein Zuordnungsende ab Samstag, dem 10. Januar 2026.\n\
         Spätester Übertragungstag ist der Tag vor dem letzten Werktag vor dem Zuordnungsende: \
         Sonntag, der 11. Januar 2026.",
    ),
    (
        "abmeldung Z33 2026-04-05 2026-04-07 --eeg nein",
        "4 Kalendertage zu spät: Übertragungstag Sonntag, 5. April 2026, Zuordnungsende Dienstag, \
         7. April 2026, Grund „Z33“, keine EEG-Marktlokation.\n\
         Zulässig ist ein Zuordnungsende ab Mittwoch, dem 8. April 2026.\n\
         Spätester Übertragungstag ist der Tag vor dem letzten Werktag vor dem Zuordnungsende: \
         Mittwoch, der 1. April 2026.\n\
         Es fehlt 1 Werktag.",
    ),
    (
        "abmeldung Z33 2026-01-14 2026-01-09 --eeg nein",
        "7 Kalendertage zu spät: Übertragungstag Mittwoch, 14. Januar 2026, Zuordnungsende \
         Freitag, 9. Januar 2026, Grund „Z33“, keine EEG-Marktlokation.\n\
         Zulässig ist ein Zuordnungsende ab Freitag, dem 16. Januar 2026.\n\
         Spätester Übertragungstag ist der Tag vor dem letzten Werktag vor dem Zuordnungsende: \
         Mittwoch, der 7. Januar 2026.\n\
         Es fehlen 5 Werktage.",
    ),
    (
        "--eeg unbekannt abmeldung Z33 2026-01-08 2026-01-12",
        "Kein Urteil, also auch nicht „Frist gewahrt“: Übertragungstag Donnerstag, 8. Januar 2026, \
         Zuordnungsende Montag, 12. Januar 2026, Grund „Z33“, unbekannt, ob EEG-Marktlokation.\n\
         Für EEG-Marktlokationen und Tranchen von EEG-Marktlokationen gilt ein Monat statt des \
         letzten Werktags (GPKE Teil 2 Kap. 2.5.2 Nr. 1); ob die Marktlokation eine \
         EEG-Marktlokation ist, ist nicht bekannt.\n\
         Mit --eeg ja oder --eeg nein gibt es ein Urteil.",
    ),
    (
        "abmeldung ZQ7 2026-01-08 2026-01-12 --eeg ja",
        "Kein Urteil, also auch nicht „Frist gewahrt“: Übertragungstag Donnerstag, 8. Januar \
         2026, Zuordnungsende Montag, 12. Januar 2026, Grund „ZQ7“.\n\
         Die Frist ist die des Prüfschritts 120: „Liegt das Eingangsdatum der Abmeldung nach dem \
         5. WT des Monats, in dem die Zuordnungsermächtigung endet?“",
    ),
];

fn assert_answers(table: &[(&str, &str)]) {
    for (line, expected) in table {
        let hint = HINTS.iter().find(|(hinted, _)| hinted == line);
        let hint = hint.map_or(String::new(), |(_, hint)| format!("fristen: Hinweis: {hint}\n"));
        assert_eq!(answered(line), (format!("{expected}\n"), hint), "{line}");
    }
}

#[test]
fn each_shape_with_each_verdict() {
    for table in [BEFORE, WINDOWS, AFTER, EARLIEST, LAST_WERKTAG, MONTHS, INSTANTS] {
        assert_answers(table);
    }
}

#[test]
fn a_verdict_whose_span_leaves_the_calendar() {
    assert_answers(EDGES);
}

#[test]
fn spans() {
    assert_answers(SPANS);
}

#[test]
fn until_when() {
    assert_prints(BIS_WANN);
    assert_answers(NEVER);
    for (line, expected) in NOT_UNTIL {
        assert_eq!(printed(&words(line), 2), format!("{expected}\n"), "{line}");
    }
}

#[test]
fn deregistrations() {
    assert_answers(DEREGISTRATIONS);
}

/// Each hint stands beside an answer above.
#[test]
fn each_hint_is_one_of_a_line() {
    let tables = [WINDOWS, BEFORE, EARLIEST, LAST_WERKTAG, MONTHS, SPANS, NEVER, DEREGISTRATIONS];
    let lines: Vec<&str> = tables.concat().iter().map(|(line, _)| *line).collect();
    assert!(HINTS.iter().all(|(line, _)| lines.contains(line)));
}

/// A Termin that may lie behind, one that is not earlier, and dates that are none.
#[test]
fn a_termin_is_looked_at_only_where_it_may_be_a_slip() {
    for line in [
        "check LatestWerktageAfter 3 2026-04-09 2026-04-02",
        "check Korridor 2 2026-04-29 2026-04-24",
        "check LatestWerktageBefore 1 2026-01-09 2026-01-09",
        "check-at MonateVorher 1 2026-01-13T12:00 2026-01-14T00:00 Strom",
    ] {
        assert_eq!(answered(line).1, "", "{line}");
    }
    for line in [
        "check LatestWerktageBefore 1 2026-02-30 2026-02-12",
        "check LatestWerktageBefore 1 2026-03-12 2026-02-30",
        "abmeldung Z33 --eeg ja 2026-03-12 2026-02-30",
    ] {
        assert!(printed(&words(line), 2).starts_with("Abgelehnt (3)"), "{line}");
    }
    for line in [
        "check MonateVorher 1 31.3.2026 1.3.2026 --json",
        "check-at MonateVorher 1 2026-01-13T12:00 2026-01-12T06:00 Gas --kurz",
    ] {
        let swapped = "fristen: Hinweis: der Termin liegt vor dem Übertragungstag.\n";
        assert_eq!(answered(line).1, swapped, "{line}");
    }
    let file = "check Zeitfenster 2 5 2026-01-12 2026-01-09\n";
    let output = fed("fragen", &[], file.as_bytes());
    let hints = "\
        fristen: Zeile 1: Hinweis: VON ist kleiner als BIS; meinten Sie Zeitfenster 5 2?\n\
        fristen: Zeile 1: Hinweis: der Termin liegt vor dem Übertragungstag.\n";
    assert_eq!(complaints(&output), hints);
}
