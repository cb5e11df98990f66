//! Calls and what they print.

/// Cases A to L of document 01 that a single call answers; A by its feasts. Those with a verdict or
/// a span are in urteile.rs.
pub const CASES: &[(&str, &str)] = &[
    ("tag 2026-04-03", "Freitag, der 3. April 2026, ist kein Werktag: Karfreitag."),
    ("tag 2026-04-05", "Sonntag, der 5. April 2026, ist kein Werktag: Sonntag; auch Ostersonntag."),
    ("tag 2026-04-06", "Montag, der 6. April 2026, ist kein Werktag: Ostermontag."),
    ("tag 2026-11-18", "Mittwoch, der 18. November 2026, ist kein Werktag: Buß- und Bettag."),
    (
        "add-werktage 2026-04-02 1",
        "Der 1. Werktag nach Donnerstag, dem 2. April 2026, ist Dienstag, der 7. April 2026.\n\
         Übersprungen: Karfreitag, ein Samstag, Ostersonntag, Ostermontag.",
    ),
    (
        "add-werktage 2026-04-04 0",
        "Mit 0 Werktagen bleibt es bei Samstag, dem 4. April 2026; das ist kein Werktag.",
    ),
    (
        "add-werktage 2026-04-02 0",
        "Mit 0 Werktagen bleibt es bei Donnerstag, dem 2. April 2026; das ist ein Werktag.",
    ),
    (
        "contrl Regelfall 2026-03-31T11:59:59+02:00",
        "Eingang am Dienstag, dem 31. März 2026, um 11:59:59 Uhr: Die CONTRL im Regelfall ist \
         fällig am Dienstag, dem 31. März 2026, um 17:59:59 Uhr.",
    ),
    (
        "contrl Regelfall 2026-03-31T12:00:00+02:00",
        "Eingang am Dienstag, dem 31. März 2026, um 12:00 Uhr: Die CONTRL im Regelfall ist fällig \
         in der Nacht vom 1. auf den 2. April 2026, am Donnerstag um 00:00 Uhr.\n\
         Ohne Umstellung wäre sie fällig am Dienstag, dem 31. März 2026, um 18:00 Uhr. Das liegt \
         im Zeitraum der Formatumstellung von Dienstag, dem 31. März 2026, 18:00 Uhr, bis \
         Donnerstag, den 2. April 2026, 00:00 Uhr; darum gilt dessen Ende.",
    ),
    (
        "berlin-at 2026-10-25 02:30",
        "Sonntag, der 25. Oktober 2026, 02:30 Uhr Sommerzeit in Berlin ist Sonntag, der 25. \
         Oktober 2026, 00:30 Uhr Weltzeit (UTC). Die Uhr zeigt diese Zeit zweimal; gemeint ist die frühere.",
    ),
    (
        "tagesbeginn-utc 2026-03-29 Gas",
        "In der Sparte Gas beginnt Sonntag, der 29. März 2026, in Berlin um 06:00 Uhr; das ist \
         Sonntag, der 29. März 2026, 04:00 Uhr Weltzeit (UTC).",
    ),
    (
        "frist SameDayAt 12:00 2026-01-09T12:00:00+01:00",
        "Eingang am Freitag, dem 9. Januar 2026, um 12:00 Uhr: Die Frist endet am nächsten \
         Werktag, am Montag, dem 12. Januar 2026, um 12:00 Uhr. Am Eingangstag war 12:00 Uhr \
         schon erreicht.",
    ),
];

/// Case M, and both ends of the window.
pub const ANNOUNCEMENTS: &[(&str, &str)] = &[
    (
        "ankuendigung 2026-01-09T13:00:00+01:00 2026-01-12",
        "Fristgerecht: Eingang am Freitag, dem 9. Januar 2026, um 13:00 Uhr, Zuordnungsbeginn \
         Montag, 12. Januar 2026.\n\
         Fristgerecht ist die Ankündigung am letzten Werktag vor dem Zuordnungsbeginn von 00:00 \
         bis 13:00 Uhr: am Freitag, dem 9. Januar 2026.",
    ),
    (
        "ankuendigung 2026-01-09T13:00:00.000000001+01:00 2026-01-12",
        "Zu spät: Eingang am Freitag, dem 9. Januar 2026, um 13:00:00,000000001 Uhr, \
         Zuordnungsbeginn Montag, 12. Januar 2026.\n\
         Fristgerecht wäre sie nur am letzten Werktag vor dem Zuordnungsbeginn gewesen, am \
         Freitag, dem 9. Januar 2026, von 00:00 bis 13:00 Uhr.",
    ),
    (
        "ankuendigung 2026-01-12T00:00:00+01:00 2026-01-12",
        "Weder fristgerecht noch verspätet: Eingang am Montag, dem 12. Januar 2026, um 00:00 Uhr, \
         Zuordnungsbeginn Montag, 12. Januar 2026.\n\
         Der Zuordnungsbeginn liegt nicht nach dem Eingang; dann gilt „unverzüglich“, und ab wann, \
         steht in keiner Nachricht.",
    ),
    (
        "ankuendigung 2026-01-09T00:00:00+01:00 2026-01-12",
        "Fristgerecht: Eingang am Freitag, dem 9. Januar 2026, um 00:00 Uhr, Zuordnungsbeginn \
         Montag, 12. Januar 2026.\n\
         Fristgerecht ist die Ankündigung am letzten Werktag vor dem Zuordnungsbeginn von 00:00 \
         bis 13:00 Uhr: am Freitag, dem 9. Januar 2026.",
    ),
    (
        "ankuendigung 2026-01-08T23:59:59.999999999+01:00 2026-01-12",
        "Zu früh: Eingang am Donnerstag, dem 8. Januar 2026, um 23:59:59,999999999 Uhr, \
         Zuordnungsbeginn Montag, 12. Januar 2026.\n\
         Fristgerecht ist sie nur am letzten Werktag vor dem Zuordnungsbeginn, am Freitag, dem 9. \
         Januar 2026, von 00:00 bis 13:00 Uhr.",
    ),
    (
        "ankuendigung 2026-01-11T23:59:59+01:00 2026-01-12",
        "Zu spät: Eingang am Sonntag, dem 11. Januar 2026, um 23:59:59 Uhr, Zuordnungsbeginn \
         Montag, 12. Januar 2026.\n\
         Fristgerecht wäre sie nur am letzten Werktag vor dem Zuordnungsbeginn gewesen, am \
         Freitag, dem 9. Januar 2026, von 00:00 bis 13:00 Uhr.",
    ),
    (
        "ankuendigung 2026-02-01T10:00:00+01:00 2026-01-12",
        "Weder fristgerecht noch verspätet: Eingang am Sonntag, dem 1. Februar 2026, um 10:00 \
         Uhr, Zuordnungsbeginn Montag, 12. Januar 2026.\n\
         Der Zuordnungsbeginn liegt nicht nach dem Eingang; dann gilt „unverzüglich“, und ab wann, \
         steht in keiner Nachricht.",
    ),
];

pub const DAYS: &[(&str, &str)] = &[
    (
        "tag 2026-04-07",
        "Dienstag, der 7. April 2026, ist ein Werktag.",
    ),
    (
        "tag 2026-04-04",
        "Samstag, der 4. April 2026, ist kein Werktag: Samstag.",
    ),
    (
        "tag 2026-04-12",
        "Sonntag, der 12. April 2026, ist kein Werktag: Sonntag.",
    ),
    (
        "tag 2026-08-15",
        "Samstag, der 15. August 2026, ist kein Werktag: Samstag; auch Mariä Himmelfahrt.",
    ),
    (
        "tag 2026-03-08",
        "Sonntag, der 8. März 2026, ist kein Werktag: Sonntag; auch Internationaler Frauentag.",
    ),
    (
        "tag 2026-05-24",
        "Sonntag, der 24. Mai 2026, ist kein Werktag: Sonntag; auch Pfingstsonntag.",
    ),
    (
        "tag 2008-05-01",
        "Donnerstag, der 1. Mai 2008, ist kein Werktag: Tag der Arbeit; auch Christi Himmelfahrt.",
    ),
    (
        "tag 2026-05-01",
        "Freitag, der 1. Mai 2026, ist kein Werktag: Tag der Arbeit.",
    ),
    (
        "tag 2160-05-01",
        "Donnerstag, der 1. Mai 2160, ist kein Werktag: Tag der Arbeit; auch Christi Himmelfahrt.",
    ),
    (
        "tag 2014-05-01",
        "Donnerstag, der 1. Mai 2014, ist kein Werktag: Tag der Arbeit.",
    ),
    (
        "tag 2899-12-31",
        "Donnerstag, der 31. Dezember 2899, ist kein Werktag: Silvester.",
    ),
    (
        "next-werktag 2026-04-07",
        "Dienstag, der 7. April 2026, ist selbst ein Werktag.",
    ),
    (
        "werktage-between 2026-04-02 2026-04-07",
        "Nach Donnerstag, dem 2. April 2026, bis einschließlich Dienstag, den 7. April 2026, liegt \
         1 Werktag.",
    ),
    (
        "werktage-between 2025-12-31 2026-12-31",
        "Nach Mittwoch, dem 31. Dezember 2025, bis einschließlich Donnerstag, den 31. Dezember \
         2026, liegen 249 Werktage.",
    ),
    (
        "werktage-between 2026-04-02 2026-04-06",
        "Nach Donnerstag, dem 2. April 2026, bis einschließlich Montag, den 6. April 2026, liegt \
         kein Werktag.",
    ),
    (
        "werktage-between 2026-04-07 2026-04-02",
        "Nach Dienstag, dem 7. April 2026, bis einschließlich Donnerstag, den 2. April 2026, liegt \
         kein Werktag. Der zweite Tag ist nicht später als der erste.",
    ),
    (
        "werktage-between 2026-04-07 2026-04-07",
        "Nach Dienstag, dem 7. April 2026, bis einschließlich Dienstag, den 7. April 2026, liegt \
         kein Werktag. Der zweite Tag ist nicht später als der erste.",
    ),
    (
        "add-months 2026-01-31 0",
        "Mit 0 Monaten bleibt es bei Samstag, dem 31. Januar 2026.",
    ),
    (
        "add-months 2026-01-15 2",
        "Sonntag, der 15. März 2026, liegt 2 Monate nach Donnerstag, dem 15. Januar 2026.",
    ),
    (
        "subtract-months 2024-03-31 1",
        "Donnerstag, der 29. Februar 2024, liegt 1 Monat vor Sonntag, dem 31. März 2024. Einen 31. \
         hat der Februar 2024 nicht; es gilt sein letzter Tag (§ 188 BGB).",
    ),
    (
        "add-hours 2026-10-25T00:30:00Z 1",
        "1 Stunde nach Sonntag, dem 25. Oktober 2026, 02:30 Uhr Sommerzeit, ist es Sonntag, der \
         25. Oktober 2026, 02:30 Uhr Winterzeit. Dazwischen wird die Uhr um eine Stunde \
         zurückgestellt.",
    ),
    (
        "add-hours 2026-03-29T01:30:00+01:00 1",
        "1 Stunde nach Sonntag, dem 29. März 2026, 01:30 Uhr, ist es Sonntag, der 29. März 2026, \
         03:30 Uhr. Dazwischen wird die Uhr um eine Stunde vorgestellt.",
    ),
    (
        "add-hours 2026-01-01T00:00:00+01:00 8760",
        "8760 Stunden nach Donnerstag, dem 1. Januar 2026, 00:00 Uhr, ist es Freitag, der 1. \
         Januar 2027, 00:00 Uhr.",
    ),
    (
        "add-hours 2026-04-01T10:00:00+02:00 0",
        "Mit 0 Stunden bleibt es bei Mittwoch, dem 1. April 2026, 10:00 Uhr.",
    ),
    (
        "add-hours 2026-04-01T10:00:00+02:00 24",
        "24 Stunden nach Mittwoch, dem 1. April 2026, 10:00 Uhr, ist es Donnerstag, der 2. April \
         2026, 10:00 Uhr.",
    ),
    (
        "add-hours 2026-10-26T00:00:00+01:00 8736",
        "8736 Stunden nach Montag, dem 26. Oktober 2026, 00:00 Uhr, ist es Montag, der 25. Oktober \
         2027, 01:00 Uhr. Dazwischen wird die Uhr um eine Stunde vorgestellt.",
    ),
    (
        "add-hours 2026-03-28T00:00:00+01:00 8784",
        "8784 Stunden nach Samstag, dem 28. März 2026, 00:00 Uhr, ist es Montag, der 29. März \
         2027, 01:00 Uhr.",
    ),
    (
        "add-hours 2026-10-24T00:00:00+02:00 8952",
        "8952 Stunden nach Samstag, dem 24. Oktober 2026, 00:00 Uhr, ist es Sonntag, der 31. \
         Oktober 2027, 23:00 Uhr.",
    ),
    (
        "berlin-at 1996-01-01 00:00",
        "Montag, der 1. Januar 1996, 00:00 Uhr in Berlin ist Sonntag, der 31. Dezember 1995, \
         23:00 Uhr Weltzeit (UTC).",
    ),
    (
        "berlin-midnight 2026-03-29",
        "Sonntag, der 29. März 2026, beginnt in Berlin um 00:00 Uhr; das ist Samstag, der 28. \
         März 2026, 23:00 Uhr Weltzeit (UTC).",
    ),
    (
        "end-of-day-berlin 2026-03-29",
        "Sonntag, der 29. März 2026, endet in Berlin eine Nanosekunde vor Mitternacht, um \
         23:59:59,999999999 Uhr; das ist Sonntag, der 29. März 2026, 21:59:59,999999999 Uhr \
         Weltzeit (UTC).",
    ),
    (
        "tagesbeginn-utc 2026-01-01 strom",
        "In der Sparte Strom beginnt Donnerstag, der 1. Januar 2026, in Berlin um 00:00 Uhr; das \
         ist Mittwoch, der 31. Dezember 2025, 23:00 Uhr Weltzeit (UTC).",
    ),
    (
        "berlin-date 2026-10-25T01:30:00Z",
        "In Berlin ist es dann Sonntag, der 25. Oktober 2026, 02:30 Uhr Winterzeit.",
    ),
    (
        "tag-des-beginns 2026-03-29T04:00:00Z Gas",
        "In der Sparte Gas beginnt dann, um 06:00 Uhr in Berlin, Sonntag, der 29. März 2026.",
    ),
];

/// What a step has passed over: by its name, in words, and where there is much of it by kinds. By
/// Python's calendar and the list of document 01.
pub const STEPS: &[(&str, &str)] = &[
    (
        "add-werktage 2026-12-23 1",
        "Der 1. Werktag nach Mittwoch, dem 23. Dezember 2026, ist Montag, der 28. Dezember 2026.\n\
         Übersprungen: Heiligabend, zwei Weihnachtsfeiertage, ein Sonntag.",
    ),
    (
        "add-werktage 2026-12-25 1",
        "Der 1. Werktag nach Freitag, dem 25. Dezember 2026, ist Montag, der 28. Dezember 2026.\n\
         Übersprungen: Zweiter Weihnachtsfeiertag, ein Sonntag.",
    ),
    (
        "sub-werktage 2026-12-26 1",
        "Der 1. Werktag vor Samstag, dem 26. Dezember 2026, ist Mittwoch, der 23. Dezember 2026.\n\
         Übersprungen: Heiligabend, Erster Weihnachtsfeiertag.",
    ),
    (
        "add-werktage 2025-12-23 5",
        "Der 5. Werktag nach Dienstag, dem 23. Dezember 2025, ist Mittwoch, der 7. Januar 2026.\n\
         Übersprungen: Heiligabend, zwei Weihnachtsfeiertage, zwei Samstage, zwei Sonntage, \
         Silvester, Neujahr, Heilige Drei Könige.",
    ),
    (
        "add-werktage 2026-04-07 1",
        "Der 1. Werktag nach Dienstag, dem 7. April 2026, ist Mittwoch, der 8. April 2026.",
    ),
    (
        "sub-werktage 2026-04-02 1",
        "Der 1. Werktag vor Donnerstag, dem 2. April 2026, ist Mittwoch, der 1. April 2026.",
    ),
    (
        "sub-werktage 2026-04-07 1",
        "Der 1. Werktag vor Dienstag, dem 7. April 2026, ist Donnerstag, der 2. April 2026.\n\
         Übersprungen: Karfreitag, ein Samstag, Ostersonntag, Ostermontag.",
    ),
    (
        "sub-werktage 2026-04-04 0",
        "Mit 0 Werktagen bleibt es bei Samstag, dem 4. April 2026; das ist kein Werktag.",
    ),
    (
        "add-werktage 2026-05-21 2",
        "Der 2. Werktag nach Donnerstag, dem 21. Mai 2026, ist Dienstag, der 26. Mai 2026.\n\
         Übersprungen: ein Samstag, Pfingstsonntag, Pfingstmontag.",
    ),
    (
        "add-werktage 2026-10-29 3",
        "Der 3. Werktag nach Donnerstag, dem 29. Oktober 2026, ist Dienstag, der 3. November \
         2026.\n\
         Übersprungen: Reformationstag, Allerheiligen.",
    ),
    (
        "add-werktage 2026-04-02 20",
        "Der 20. Werktag nach Donnerstag, dem 2. April 2026, ist Dienstag, der 5. Mai 2026.\n\
         Übersprungen: Karfreitag, fünf Samstage, Ostersonntag, Ostermontag, vier Sonntage, Tag \
         der Arbeit.",
    ),
    (
        "next-werktag 2026-04-03",
        "Der erste Werktag ab Freitag, dem 3. April 2026, ist Dienstag, der 7. April 2026.\n\
         Übersprungen: Karfreitag, ein Samstag, Ostersonntag, Ostermontag.",
    ),
    (
        "next-werktag 1996-01-01",
        "Der erste Werktag ab Montag, dem 1. Januar 1996, ist Dienstag, der 2. Januar 1996.\n\
         Übersprungen: Neujahr.",
    ),
    (
        "add-werktage 1996-01-01 1",
        "Der 1. Werktag nach Montag, dem 1. Januar 1996, ist Dienstag, der 2. Januar 1996.",
    ),
    (
        "sub-werktage 2899-12-31 1",
        "Der 1. Werktag vor Donnerstag, dem 31. Dezember 2899, ist Mittwoch, der 30. Dezember \
         2899.",
    ),
    (
        "add-werktage 2026-04-02 61",
        "Der 61. Werktag nach Donnerstag, dem 2. April 2026, ist Montag, der 6. Juli 2026.\n\
         Übersprungen: 14 Samstage, 14 Sonntage und sechs Feiertage an anderen Tagen.",
    ),
    (
        "sub-werktage 2026-07-06 61",
        "Der 61. Werktag vor Montag, dem 6. Juli 2026, ist Donnerstag, der 2. April 2026.\n\
         Übersprungen: 14 Samstage, 14 Sonntage und sechs Feiertage an anderen Tagen.",
    ),
    (
        "add-werktage 2025-12-31 249",
        "Der 249. Werktag nach Mittwoch, dem 31. Dezember 2025, ist Mittwoch, der 30. Dezember \
         2026.\n\
         Übersprungen: 52 Samstage, 52 Sonntage und elf Feiertage an anderen Tagen.",
    ),
];

pub const DUE: &[(&str, &str)] = &[
    (
        "contrl STROMUTILMDODERORDERS 2026-01-10T12:00:00+01:00",
        "Eingang am Samstag, dem 10. Januar 2026, um 12:00 Uhr: Die CONTRL auf UTILMD oder ORDERS \
         Strom ist fällig am Samstag, dem 10. Januar 2026, um 18:00 Uhr.",
    ),
    (
        "contrl gasalocat 2026-01-10T12:00:00.5+01:00",
        "Eingang am Samstag, dem 10. Januar 2026, um 12:00:00,5 Uhr: Die CONTRL auf ALOCAT Gas \
         ist fällig am Samstag, dem 10. Januar 2026, um 12:45:00,5 Uhr.",
    ),
    (
        "contrl Regelfall 2026-12-31T18:00:00+01:00",
        "Eingang am Donnerstag, dem 31. Dezember 2026, um 18:00 Uhr: Die CONTRL im Regelfall ist \
         fällig in der Nacht vom 31. Dezember 2026 auf den 1. Januar 2027, am Freitag um 00:00 \
         Uhr.",
    ),
    (
        "contrl Regelfall 2026-03-29T01:30:00+01:00",
        "Eingang am Sonntag, dem 29. März 2026, um 01:30 Uhr: Die CONTRL im Regelfall ist fällig \
         am Sonntag, dem 29. März 2026, um 08:30 Uhr. Dazwischen wird die Uhr um eine Stunde \
         vorgestellt.",
    ),
    (
        "aperak-strom 2026-10-25T02:45:00+02:00",
        "Eingang am Sonntag, dem 25. Oktober 2026, um 02:45 Uhr Sommerzeit: Die APERAK auf UTILMD \
         oder ORDERS Strom ist fällig am Sonntag, dem 25. Oktober 2026, um 02:30 Uhr Winterzeit. \
         Dazwischen wird die Uhr um eine Stunde zurückgestellt.",
    ),
    (
        "aperak-strom 2026-03-28T10:00:00+01:00",
        "Eingang am Samstag, dem 28. März 2026, um 10:00 Uhr: Die APERAK auf UTILMD oder ORDERS \
         Strom ist fällig am Sonntag, dem 29. März 2026, um 12:00 Uhr.",
    ),
    (
        "aperak-strom 2026-01-31T23:15:00+01:00",
        "Eingang am Samstag, dem 31. Januar 2026, um 23:15 Uhr: Die APERAK auf UTILMD oder ORDERS \
         Strom ist fällig am Sonntag, dem 1. Februar 2026, um 12:00 Uhr.",
    ),
    (
        "aperak-strom 2026-04-30T23:15:00+02:00",
        "Eingang am Donnerstag, dem 30. April 2026, um 23:15 Uhr: Die APERAK auf UTILMD oder \
         ORDERS Strom ist fällig in der Nacht vom 30. April auf den 1. Mai 2026, am Freitag um \
         00:00 Uhr.",
    ),
    (
        "aperak-strom-allgemein 2026-04-02T10:00:00+02:00",
        "Eingang am Donnerstag, dem 2. April 2026, um 10:00 Uhr: Die APERAK auf eine andere \
         Nachricht Strom ist fällig am Dienstag, dem 7. April 2026, um 12:00 Uhr.",
    ),
    (
        "aperak-gas-folgeprozess 2026-04-02T10:00:00+02:00",
        "Eingang am Donnerstag, dem 2. April 2026, um 10:00 Uhr: Die APERAK im Folgeprozess Gas \
         ist fällig am Dienstag, dem 7. April 2026, um 12:00 Uhr.",
    ),
    (
        "aperak-gas-initialprozess 2026-04-02T10:00:00+02:00",
        "Eingang am Donnerstag, dem 2. April 2026, um 10:00 Uhr: Die APERAK im Initialprozess Gas \
         ist fällig mit Ablauf des Donnerstags, des 9. April 2026.",
    ),
    (
        "aperak-gas 44001 2026-04-02T10:00:00+02:00",
        "Eingang am Donnerstag, dem 2. April 2026, um 10:00 Uhr: Die APERAK auf eine Nachricht mit \
         Prüfidentifikator 44001 (Initialprozess Gas) ist fällig mit Ablauf des Donnerstags, des \
         9. April 2026.",
    ),
    (
        "aperak-gas 44002 2026-04-02T10:00:00+02:00",
        "Eingang am Donnerstag, dem 2. April 2026, um 10:00 Uhr: Die APERAK auf eine Nachricht mit \
         Prüfidentifikator 44002 (Folgeprozess Gas) ist fällig am Dienstag, dem 7. April 2026, um \
         12:00 Uhr.",
    ),
    (
        "frist WerktagAt 2 06:00 2026-04-02T10:00:00+02:00",
        "Eingang am Donnerstag, dem 2. April 2026, um 10:00 Uhr: Die Frist bis 06:00 Uhr am 2. \
         Werktag nach dem Eingangstag endet am Mittwoch, dem 8. April 2026, um 06:00 Uhr.",
    ),
    (
        "frist WerktagAt 61 00:00 2026-01-09T12:00:00+01:00",
        "Eingang am Freitag, dem 9. Januar 2026, um 12:00 Uhr: Die Frist bis 00:00 Uhr am 61. \
         Werktag nach dem Eingangstag endet in der Nacht vom 7. auf den 8. April 2026, am \
         Mittwoch um 00:00 Uhr.",
    ),
    (
        "frist WerktagAt 0 11:00:30 2026-04-02T10:00:00+02:00",
        "Eingang am Donnerstag, dem 2. April 2026, um 10:00 Uhr: Die Frist bis 11:00:30 Uhr am 1. \
         Werktag nach dem Eingangstag endet am Dienstag, dem 7. April 2026, um 11:00:30 Uhr. 0 \
         Werktage zählen hier wie 1.",
    ),
    (
        "nth-werktag-at 2026-04-02T10:00:00+02:00 0 11:00",
        "Eingang am Donnerstag, dem 2. April 2026, um 10:00 Uhr: Die Frist bis 11:00 Uhr am 1. \
         Werktag nach dem Eingangstag endet am Dienstag, dem 7. April 2026, um 11:00 Uhr. 0 \
         Werktage zählen hier wie 1.",
    ),
    (
        "next-werktag-at 2026-04-02T10:00:00+02:00 11:00",
        "Eingang am Donnerstag, dem 2. April 2026, um 10:00 Uhr: Die Frist bis 11:00 Uhr am 1. \
         Werktag nach dem Eingangstag endet am Dienstag, dem 7. April 2026, um 11:00 Uhr.",
    ),
    (
        "frist EndOfWerktag 1 2026-04-02T10:00:00+02:00",
        "Eingang am Donnerstag, dem 2. April 2026, um 10:00 Uhr: Die Frist bis zum Ablauf des 1. \
         Werktags nach dem Eingangstag endet mit Ablauf des Dienstags, des 7. April 2026.",
    ),
    (
        "end-of-werktag-after 2026-04-02T10:00:00+02:00 3",
        "Eingang am Donnerstag, dem 2. April 2026, um 10:00 Uhr: Die Frist bis zum Ablauf des 3. \
         Werktags nach dem Eingangstag endet mit Ablauf des Donnerstags, des 9. April 2026.",
    ),
    (
        "frist EndOfWerktag 0 2026-01-10T12:00:00+01:00",
        "Eingang am Samstag, dem 10. Januar 2026, um 12:00 Uhr: Die Frist bis zum Ablauf des \
         Eingangstags endet mit Ablauf des Samstags, des 10. Januar 2026. Mit 0 Werktagen ist es \
         der Eingangstag, ob Werktag oder nicht.",
    ),
    (
        "deadline-at-werktage 2026-01-10T12:00:00+01:00 0",
        "Eingang am Samstag, dem 10. Januar 2026, um 12:00 Uhr: Die Frist bis zum Ablauf des \
         Eingangstags endet mit Ablauf des Samstags, des 10. Januar 2026. Mit 0 Werktagen ist es \
         der Eingangstag, ob Werktag oder nicht.",
    ),
    (
        "frist sameday 2026-01-10T12:00:00+01:00",
        "Eingang am Samstag, dem 10. Januar 2026, um 12:00 Uhr: Die Frist bis zum Ablauf des \
         Eingangstags endet mit Ablauf des Samstags, des 10. Januar 2026.",
    ),
    (
        "frist SameDayAt 12:00 2026-01-09T11:59:59+01:00",
        "Eingang am Freitag, dem 9. Januar 2026, um 11:59:59 Uhr: Die Frist bis 12:00 Uhr am \
         Eingangstag endet am Freitag, dem 9. Januar 2026, um 12:00 Uhr.",
    ),
    (
        "frist SameDayAt 12:00 2026-01-10T09:00:00+01:00",
        "Eingang am Samstag, dem 10. Januar 2026, um 09:00 Uhr: Die Frist endet am nächsten \
         Werktag, am Montag, dem 12. Januar 2026, um 12:00 Uhr. Der Eingangstag ist kein Werktag: \
         Samstag.",
    ),
    (
        "frist SameDayAt 12:00 2026-01-10T13:00:00+01:00",
        "Eingang am Samstag, dem 10. Januar 2026, um 13:00 Uhr: Die Frist endet am nächsten \
         Werktag, am Montag, dem 12. Januar 2026, um 12:00 Uhr. Der Eingangstag ist kein Werktag: \
         Samstag.",
    ),
    (
        "frist SameDayAt 12:00 2026-12-24T09:00:00+01:00",
        "Eingang am Donnerstag, dem 24. Dezember 2026, um 09:00 Uhr: Die Frist endet am nächsten \
         Werktag, am Montag, dem 28. Dezember 2026, um 12:00 Uhr. Der Eingangstag ist kein \
         Werktag: Heiligabend.",
    ),
    (
        "frist SameDayAt 12:00 2026-05-24T13:00:00+02:00",
        "Eingang am Sonntag, dem 24. Mai 2026, um 13:00 Uhr: Die Frist endet am nächsten Werktag, \
         am Dienstag, dem 26. Mai 2026, um 12:00 Uhr. Der Eingangstag ist kein Werktag: \
         Pfingstsonntag.",
    ),
    (
        "frist SameDayAt 00:00 2026-04-02T10:00:00+02:00",
        "Eingang am Donnerstag, dem 2. April 2026, um 10:00 Uhr: Die Frist endet am nächsten \
         Werktag, in der Nacht vom 6. auf den 7. April 2026, am Dienstag um 00:00 Uhr. Am \
         Eingangstag war 00:00 Uhr schon erreicht.",
    ),
];

/// A CONTRL that a Formatumstellung moves, from where, and one that is due at the end of its window
/// without it.
pub const TOLERANCE: &[(&str, &str)] = &[
    (
        "contrl GasAlocat 2026-04-01T23:14:59.999999999+02:00",
        "Eingang am Mittwoch, dem 1. April 2026, um 23:14:59,999999999 Uhr: Die CONTRL auf ALOCAT \
         Gas ist fällig in der Nacht vom 1. auf den 2. April 2026, am Donnerstag um 00:00 Uhr.\n\
         Ohne Umstellung wäre sie fällig mit Ablauf des Mittwochs, des 1. April 2026. Das liegt \
         im Zeitraum der Formatumstellung von Dienstag, dem 31. März 2026, 18:00 Uhr, bis \
         Donnerstag, den 2. April 2026, 00:00 Uhr; darum gilt dessen Ende.",
    ),
    (
        "contrl Regelfall 2026-10-01T00:00:00+02:00",
        "Eingang am Donnerstag, dem 1. Oktober 2026, um 00:00 Uhr: Die CONTRL im Regelfall ist \
         fällig in der Nacht vom 1. auf den 2. Oktober 2026, am Freitag um 00:00 Uhr.\n\
         Ohne Umstellung wäre sie fällig am Donnerstag, dem 1. Oktober 2026, um 06:00 Uhr. Das \
         liegt im Zeitraum der Formatumstellung von Mittwoch, dem 30. September 2026, 18:00 Uhr, \
         bis Freitag, den 2. Oktober 2026, 00:00 Uhr; darum gilt dessen Ende.",
    ),
    (
        "contrl GasAlocat 2026-03-31T23:15:00+02:00",
        "Eingang am Dienstag, dem 31. März 2026, um 23:15 Uhr: Die CONTRL auf ALOCAT Gas ist \
         fällig in der Nacht vom 1. auf den 2. April 2026, am Donnerstag um 00:00 Uhr.\n\
         Ohne Umstellung wäre sie fällig in der Nacht vom 31. März auf den 1. April 2026, am \
         Mittwoch um 00:00 Uhr. Das liegt im Zeitraum der Formatumstellung von Dienstag, dem 31. \
         März 2026, 18:00 Uhr, bis Donnerstag, den 2. April 2026, 00:00 Uhr; darum gilt dessen \
         Ende.",
    ),
    (
        "contrl Regelfall 2026-04-01T18:00:00+02:00",
        "Eingang am Mittwoch, dem 1. April 2026, um 18:00 Uhr: Die CONTRL im Regelfall ist fällig \
         in der Nacht vom 1. auf den 2. April 2026, am Donnerstag um 00:00 Uhr.\n\
         Dann endet der Zeitraum der Formatumstellung; an dieser Fälligkeit ändert er nichts.",
    ),
    (
        "contrl GasAlocat 2026-10-01T23:15:00+02:00",
        "Eingang am Donnerstag, dem 1. Oktober 2026, um 23:15 Uhr: Die CONTRL auf ALOCAT Gas ist \
         fällig in der Nacht vom 1. auf den 2. Oktober 2026, am Freitag um 00:00 Uhr.\n\
         Dann endet der Zeitraum der Formatumstellung; an dieser Fälligkeit ändert er nichts.",
    ),
    (
        "contrl Regelfall 2026-04-01T18:00:00.000000001+02:00",
        "Eingang am Mittwoch, dem 1. April 2026, um 18:00:00,000000001 Uhr: Die CONTRL im \
         Regelfall ist fällig am Donnerstag, dem 2. April 2026, um 00:00:00,000000001 Uhr.",
    ),
    (
        "contrl Regelfall 2026-05-01T18:00:00+02:00",
        "Eingang am Freitag, dem 1. Mai 2026, um 18:00 Uhr: Die CONTRL im Regelfall ist fällig in \
         der Nacht vom 1. auf den 2. Mai 2026, am Samstag um 00:00 Uhr.",
    ),
];

/// A CONTRL with a change day: moved, and left where it is; by an end of the window, in a window
/// that only version one has, by a switch, and by the edges of the calendar.
pub const CHANGE_DAYS: &[(&str, &str)] = &[
    (
        "--stichtag=2026-06-06 contrl Regelfall 2026-06-05T12:00:00+02:00",
        "Eingang am Freitag, dem 5. Juni 2026, um 12:00 Uhr: Die CONTRL im Regelfall ist fällig \
         in der Nacht vom 6. auf den 7. Juni 2026, am Sonntag um 00:00 Uhr.\n\
         Stichtag der Formatumstellung ist Samstag, der 6. Juni 2026; ihr Zeitraum geht von \
         Freitag, dem 5. Juni 2026, 18:00 Uhr, bis Sonntag, den 7. Juni 2026, 00:00 Uhr.\n\
         Ohne Umstellung wäre die CONTRL fällig am Freitag, dem 5. Juni 2026, um 18:00 Uhr. Das \
         liegt in diesem Zeitraum; darum gilt sein Ende.",
    ),
    (
        "contrl Regelfall --stichtag 2026-06-06 2026-06-05T11:59:59.999999999+02:00",
        "Eingang am Freitag, dem 5. Juni 2026, um 11:59:59,999999999 Uhr: Die CONTRL im Regelfall \
         ist fällig am Freitag, dem 5. Juni 2026, um 17:59:59,999999999 Uhr.\n\
         Stichtag der Formatumstellung ist Samstag, der 6. Juni 2026; ihr Zeitraum geht von \
         Freitag, dem 5. Juni 2026, 18:00 Uhr, bis Sonntag, den 7. Juni 2026, 00:00 Uhr.\n\
         An dieser Fälligkeit ändert er nichts.",
    ),
    (
        "contrl GasAlocat 2026-06-05T23:14:59.999999999+02:00 --stichtag 2026-06-06",
        "Eingang am Freitag, dem 5. Juni 2026, um 23:14:59,999999999 Uhr: Die CONTRL auf ALOCAT \
         Gas ist fällig in der Nacht vom 6. auf den 7. Juni 2026, am Sonntag um 00:00 Uhr.\n\
         Stichtag der Formatumstellung ist Samstag, der 6. Juni 2026; ihr Zeitraum geht von \
         Freitag, dem 5. Juni 2026, 18:00 Uhr, bis Sonntag, den 7. Juni 2026, 00:00 Uhr.\n\
         Ohne Umstellung wäre die CONTRL fällig mit Ablauf des Freitags, des 5. Juni 2026. Das \
         liegt in diesem Zeitraum; darum gilt sein Ende.",
    ),
    (
        "contrl Regelfall 2026-06-06T18:00:00+02:00 --stichtag 2026-06-06",
        "Eingang am Samstag, dem 6. Juni 2026, um 18:00 Uhr: Die CONTRL im Regelfall ist fällig \
         in der Nacht vom 6. auf den 7. Juni 2026, am Sonntag um 00:00 Uhr.\n\
         Stichtag der Formatumstellung ist Samstag, der 6. Juni 2026; ihr Zeitraum geht von \
         Freitag, dem 5. Juni 2026, 18:00 Uhr, bis Sonntag, den 7. Juni 2026, 00:00 Uhr.\n\
         An dieser Fälligkeit ändert er nichts.",
    ),
    (
        "contrl Regelfall 2026-03-31T12:00:00+02:00 --stichtag 2026-06-06",
        "Eingang am Dienstag, dem 31. März 2026, um 12:00 Uhr: Die CONTRL im Regelfall ist fällig \
         am Dienstag, dem 31. März 2026, um 18:00 Uhr.\n\
         Stichtag der Formatumstellung ist Samstag, der 6. Juni 2026; ihr Zeitraum geht von \
         Freitag, dem 5. Juni 2026, 18:00 Uhr, bis Sonntag, den 7. Juni 2026, 00:00 Uhr.\n\
         An dieser Fälligkeit ändert er nichts.\n\
         Den Zeitraum von Dienstag, dem 31. März 2026, 18:00 Uhr, bis Donnerstag, den 2. April \
         2026, 00:00 Uhr, gibt es mit diesem Stichtag nicht.",
    ),
    (
        "contrl GasAlocat 2026-10-01T23:14:59+02:00 --stichtag 2026-04-01",
        "Eingang am Donnerstag, dem 1. Oktober 2026, um 23:14:59 Uhr: Die CONTRL auf ALOCAT Gas \
         ist fällig am Donnerstag, dem 1. Oktober 2026, um 23:59:59 Uhr.\n\
         Stichtag der Formatumstellung ist Mittwoch, der 1. April 2026; ihr Zeitraum geht von \
         Dienstag, dem 31. März 2026, 18:00 Uhr, bis Donnerstag, den 2. April 2026, 00:00 Uhr.\n\
         An dieser Fälligkeit ändert er nichts.\n\
         Den Zeitraum von Mittwoch, dem 30. September 2026, 18:00 Uhr, bis Freitag, den 2. \
         Oktober 2026, 00:00 Uhr, gibt es mit diesem Stichtag nicht.",
    ),
    (
        "contrl GasAlocat 2026-04-01T12:00:00+02:00 --stichtag 2026-03-31",
        "Eingang am Mittwoch, dem 1. April 2026, um 12:00 Uhr: Die CONTRL auf ALOCAT Gas ist \
         fällig am Mittwoch, dem 1. April 2026, um 12:45 Uhr.\n\
         Stichtag der Formatumstellung ist Dienstag, der 31. März 2026; ihr Zeitraum geht von \
         Montag, dem 30. März 2026, 18:00 Uhr, bis Mittwoch, den 1. April 2026, 00:00 Uhr.\n\
         An dieser Fälligkeit ändert er nichts.\n\
         Den Zeitraum von Dienstag, dem 31. März 2026, 18:00 Uhr, bis Donnerstag, den 2. April \
         2026, 00:00 Uhr, gibt es mit diesem Stichtag nicht.",
    ),
    (
        "contrl GasAlocat 2026-03-31T20:00:00+02:00 --stichtag 2026-03-31",
        "Eingang am Dienstag, dem 31. März 2026, um 20:00 Uhr: Die CONTRL auf ALOCAT Gas ist \
         fällig in der Nacht vom 31. März auf den 1. April 2026, am Mittwoch um 00:00 Uhr.\n\
         Stichtag der Formatumstellung ist Dienstag, der 31. März 2026; ihr Zeitraum geht von \
         Montag, dem 30. März 2026, 18:00 Uhr, bis Mittwoch, den 1. April 2026, 00:00 Uhr.\n\
         Ohne Umstellung wäre die CONTRL fällig am Dienstag, dem 31. März 2026, um 20:45 Uhr. Das \
         liegt in diesem Zeitraum; darum gilt sein Ende.\n\
         Den Zeitraum von Dienstag, dem 31. März 2026, 18:00 Uhr, bis Donnerstag, den 2. April \
         2026, 00:00 Uhr, gibt es mit diesem Stichtag nicht.",
    ),
    (
        "contrl Regelfall 2026-03-31T12:00:00+02:00 --stichtag 2026-04-01",
        "Eingang am Dienstag, dem 31. März 2026, um 12:00 Uhr: Die CONTRL im Regelfall ist fällig \
         in der Nacht vom 1. auf den 2. April 2026, am Donnerstag um 00:00 Uhr.\n\
         Stichtag der Formatumstellung ist Mittwoch, der 1. April 2026; ihr Zeitraum geht von \
         Dienstag, dem 31. März 2026, 18:00 Uhr, bis Donnerstag, den 2. April 2026, 00:00 Uhr.\n\
         Ohne Umstellung wäre die CONTRL fällig am Dienstag, dem 31. März 2026, um 18:00 Uhr. Das \
         liegt in diesem Zeitraum; darum gilt sein Ende.",
    ),
    (
        "contrl StromUtilmdOderOrders 2026-10-24T20:30:00+02:00 --stichtag 2026-10-25",
        "Eingang am Samstag, dem 24. Oktober 2026, um 20:30 Uhr: Die CONTRL auf UTILMD oder \
         ORDERS Strom ist fällig in der Nacht vom 25. auf den 26. Oktober 2026, am Montag um \
         00:00 Uhr.\n\
         Stichtag der Formatumstellung ist Sonntag, der 25. Oktober 2026; ihr Zeitraum geht von \
         Samstag, dem 24. Oktober 2026, 18:00 Uhr, bis Montag, den 26. Oktober 2026, 00:00 Uhr.\n\
         Ohne Umstellung wäre die CONTRL fällig am Sonntag, dem 25. Oktober 2026, um 02:30 Uhr \
         Sommerzeit. Das liegt in diesem Zeitraum; darum gilt sein Ende.",
    ),
    (
        "contrl-due-at-change Regelfall 1996-01-01T12:00:00+01:00 1996-01-02",
        "Eingang am Montag, dem 1. Januar 1996, um 12:00 Uhr: Die CONTRL im Regelfall ist fällig \
         in der Nacht vom 2. auf den 3. Januar 1996, am Mittwoch um 00:00 Uhr.\n\
         Stichtag der Formatumstellung ist Dienstag, der 2. Januar 1996; ihr Zeitraum geht von \
         Montag, dem 1. Januar 1996, 18:00 Uhr, bis Mittwoch, den 3. Januar 1996, 00:00 Uhr.\n\
         Ohne Umstellung wäre die CONTRL fällig am Montag, dem 1. Januar 1996, um 18:00 Uhr. Das \
         liegt in diesem Zeitraum; darum gilt sein Ende.",
    ),
    (
        "contrl-due-at-change Regelfall 1996-01-01T12:00:00+01:00 2899-12-30",
        "Eingang am Montag, dem 1. Januar 1996, um 12:00 Uhr: Die CONTRL im Regelfall ist fällig \
         am Montag, dem 1. Januar 1996, um 18:00 Uhr.\n\
         Stichtag der Formatumstellung ist Mittwoch, der 30. Dezember 2899; ihr Zeitraum geht von \
         Dienstag, dem 29. Dezember 2899, 18:00 Uhr, bis Donnerstag, den 31. Dezember 2899, 00:00 \
         Uhr.\n\
         An dieser Fälligkeit ändert er nichts.",
    ),
    (
        "contrl-due-at-change Regelfall 2899-12-30T12:00:00+01:00 2899-12-30",
        "Eingang am Mittwoch, dem 30. Dezember 2899, um 12:00 Uhr: Die CONTRL im Regelfall ist \
         fällig in der Nacht vom 30. auf den 31. Dezember 2899, am Donnerstag um 00:00 Uhr.\n\
         Stichtag der Formatumstellung ist Mittwoch, der 30. Dezember 2899; ihr Zeitraum geht von \
         Dienstag, dem 29. Dezember 2899, 18:00 Uhr, bis Donnerstag, den 31. Dezember 2899, 00:00 \
         Uhr.\n\
         Ohne Umstellung wäre die CONTRL fällig am Mittwoch, dem 30. Dezember 2899, um 18:00 Uhr. \
         Das liegt in diesem Zeitraum; darum gilt sein Ende.",
    ),
];

/// Without an offset a time is Berlin's; of two the earlier.
pub const TWICE: &[(&str, &str)] = &[
    (
        "contrl Regelfall 25.10.2026 02:30",
        "Eingang am Sonntag, dem 25. Oktober 2026, um 02:30 Uhr Sommerzeit: Die CONTRL im \
         Regelfall ist fällig am Sonntag, dem 25. Oktober 2026, um 07:30 Uhr. Dazwischen wird die \
         Uhr um eine Stunde zurückgestellt.\n\
         Am Sonntag, dem 25. Oktober 2026, zeigt die Uhr in Berlin zweimal 02:30 Uhr; gemeint ist \
         die frühere. Nach der späteren fragt, wer +01:00 dahinter schreibt.",
    ),
    (
        "contrl Regelfall 2026-10-25T02:30 --stichtag 2026-06-06",
        "Eingang am Sonntag, dem 25. Oktober 2026, um 02:30 Uhr Sommerzeit: Die CONTRL im \
         Regelfall ist fällig am Sonntag, dem 25. Oktober 2026, um 07:30 Uhr. Dazwischen wird die \
         Uhr um eine Stunde zurückgestellt.\n\
         Stichtag der Formatumstellung ist Samstag, der 6. Juni 2026; ihr Zeitraum geht von \
         Freitag, dem 5. Juni 2026, 18:00 Uhr, bis Sonntag, den 7. Juni 2026, 00:00 Uhr.\n\
         An dieser Fälligkeit ändert er nichts.\n\
         Am Sonntag, dem 25. Oktober 2026, zeigt die Uhr in Berlin zweimal 02:30 Uhr; gemeint ist \
         die frühere. Nach der späteren fragt, wer +01:00 dahinter schreibt.",
    ),
    (
        "berlin-date 2026-10-25T02:30",
        "In Berlin ist es dann Sonntag, der 25. Oktober 2026, 02:30 Uhr Sommerzeit.\n\
         Am Sonntag, dem 25. Oktober 2026, zeigt die Uhr in Berlin zweimal 02:30 Uhr; gemeint ist \
         die frühere. Nach der späteren fragt, wer +01:00 dahinter schreibt.",
    ),
    (
        "add-hours 25.10.2026 02:30 1",
        "1 Stunde nach Sonntag, dem 25. Oktober 2026, 02:30 Uhr Sommerzeit, ist es Sonntag, der \
         25. Oktober 2026, 02:30 Uhr Winterzeit. Dazwischen wird die Uhr um eine Stunde \
         zurückgestellt.\n\
         Am Sonntag, dem 25. Oktober 2026, zeigt die Uhr in Berlin zweimal 02:30 Uhr; gemeint ist \
         die frühere. Nach der späteren fragt, wer +01:00 dahinter schreibt.",
    ),
    (
        "check-at Korridor 0 2026-10-25T02:30 2026-10-25T00:00 Strom",
        "Frist gewahrt, am letzten zulässigen Tag: Übertragung am Sonntag, dem 25. Oktober 2026, \
         um 02:30 Uhr Sommerzeit, Termin Sonntag, 25. Oktober 2026, Sparte Strom.\n\
         Zulässig ist nur der Termin am Sonntag, dem 25. Oktober 2026.\n\
         Der Übertragungstag muss der Termin selbst sein: Sonntag, der 25. Oktober 2026.\n\
         Am Sonntag, dem 25. Oktober 2026, zeigt die Uhr in Berlin zweimal 02:30 Uhr; gemeint ist \
         die frühere. Nach der späteren fragt, wer +01:00 dahinter schreibt.",
    ),
];
