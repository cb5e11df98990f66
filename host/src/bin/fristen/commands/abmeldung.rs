use crate::command::{Command, Example, Task};
use mako_fristen_host::{Call, Parameter};

const GRUND: (Parameter, &str) = (Parameter::Reason, "GRUND");
const EEG: (Parameter, &str) = (Parameter::Eeg, "--eeg ja|nein|unbekannt");

pub const COMMANDS: [Command; 3] = [
    Command {
        name: "abmeldung-fuer",
        german: None,
        task: Task::Ask(Call::AbmeldungFuer),
        operands: &[GRUND, EEG],
        options: &[],
        summary: "welche Vorlauffrist eine Abmeldung durch den Netzbetreiber hat",
        meaning: "\
GRUND ist der Transaktionsgrund; nur ZQ7, genau so geschrieben, ist die
Deaktivierung. --eeg sagt, ob es eine EEG-Marktlokation oder eine Tranche einer
solchen ist.",
        examples: &[Example::new(
            "abmeldung-fuer ZQ7 --eeg unbekannt",
            "Grund „ZQ7“: Die Frist ist die des Prüfschritts 120: „Liegt das Eingangsdatum der \
             Abmeldung nach dem 5. WT des Monats, in dem die Zuordnungsermächtigung endet?“",
        )],
    },
    Command {
        name: "abmeldung",
        german: None,
        task: Task::Ask(Call::AbmeldungCheck),
        operands: &[
            GRUND,
            EEG,
            (Parameter::Date, "ÜBERTRAGUNGSTAG"),
            (Parameter::SecondDate, "ZUORDNUNGSENDE"),
        ],
        options: &[],
        summary: "ob eine Abmeldung durch den Netzbetreiber rechtzeitig kam",
        meaning: "\
Das Urteil nach der Vorlauffrist, die abmeldung-fuer nennt, auch um wie viele
Kalendertage; „margin“ in --json wie bei pruefen. Hat der Fall keine, so gibt es kein
Urteil und „margin“ ist null; das heißt nicht, dass die Frist gewahrt ist.",
        examples: &[Example::new(
            "abmeldung ZT0 --eeg nein 2026-01-08 2026-01-12",
            "Frist gewahrt, am letzten zulässigen Tag: Übertragungstag Donnerstag, 8. Januar 2026, \
             Zuordnungsende Montag, 12. Januar 2026, Grund „ZT0“, keine EEG-Marktlokation.\n\
             Zulässig ist ein Zuordnungsende ab Samstag, dem 10. Januar 2026.\n\
             Spätester Übertragungstag ist der Tag vor dem letzten Werktag vor dem Zuordnungsende: \
             Donnerstag, der 8. Januar 2026.",
        )],
    },
    Command {
        name: "ankuendigung",
        german: None,
        task: Task::Ask(Call::EogAnkuendigungFristgerecht),
        operands: &[(Parameter::Instant, "EINGANG"), (Parameter::Date, "ZUORDNUNGSBEGINN")],
        options: &[],
        summary: "ob die Ankündigung der Zuordnung des E/G von 00:00 bis 13:00 Uhr des letzten \
                  Werktags davor kam",
        meaning: "\
Fristgerecht von 00:00 bis 13:00 Uhr des letzten Werktags vor dem Zuordnungsbeginn
(GPKE Teil 2 Kap. 2.3.2.2 Nr. 1), vorher zu früh, nachher zu spät. Vom
Zuordnungsbeginn an weder fristgerecht noch verspätet.",
        examples: &[Example::new(
            "ankuendigung 2026-01-09T13:00:00+01:00 2026-01-12",
            "Fristgerecht: Eingang am Freitag, dem 9. Januar 2026, um 13:00 Uhr, Zuordnungsbeginn \
             Montag, 12. Januar 2026.\n\
             Fristgerecht ist die Ankündigung am letzten Werktag vor dem Zuordnungsbeginn von \
             00:00 bis 13:00 Uhr: am Freitag, dem 9. Januar 2026.",
        )],
    },
];
