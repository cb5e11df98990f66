//! The Vorlauffrist of a deregistration by the Netzbetreiber: its case, its shape, its verdict.

#[cfg(doc)]
use crate::Refusal;
use crate::{ffi, Answer, Call, Date, Eeg, Error, Judgement, VorlaufShape};

/// Which Vorlauffrist a deregistration has.
#[derive(Clone, Copy, Debug, PartialEq, Eq, Hash)]
#[repr(u8)]
pub enum AbmeldungVorlauf {
    /// [`TagVorDemLetztenWerktagVor`](crate::VorlaufShape::TagVorDemLetztenWerktagVor).
    TagVorDemLetztenWerktag,
    /// [`LatestMonateBefore(1)`](crate::VorlaufShape::LatestMonateBefore).
    EinMonat,
    /// It is not known whether the Marktlokation is one of the EEG.
    Unbestimmt,
    /// The reason is ZQ7, whose Frist is that of another Prüfschritt.
    AnPruefschritt120,
}

impl AbmeldungVorlauf {
    /// In the order of the kinds of an answer, from 0.
    pub const ALL: [AbmeldungVorlauf; 4] = [
        AbmeldungVorlauf::TagVorDemLetztenWerktag,
        AbmeldungVorlauf::EinMonat,
        AbmeldungVorlauf::Unbestimmt,
        AbmeldungVorlauf::AnPruefschritt120,
    ];

    /// By the Transaktionsgrund, of any length and any bytes: only the three bytes `ZQ7` are the
    /// deactivation, whatever the EEG mark.
    ///
    /// ```
    /// use mako_fristen_host::{AbmeldungVorlauf, Eeg};
    ///
    /// let fuer = AbmeldungVorlauf::fuer;
    /// assert_eq!(fuer(b"ZQ7", Eeg::Unknown), Ok(AbmeldungVorlauf::AnPruefschritt120));
    /// assert_eq!(fuer(b"zq7", Eeg::Unknown), Ok(AbmeldungVorlauf::Unbestimmt));
    /// assert_eq!(fuer(b"Z33", Eeg::Yes), Ok(AbmeldungVorlauf::EinMonat));
    /// ```
    ///
    /// # Errors
    ///
    /// No refusal: every reason has a case under every mark.
    pub fn fuer(transaktionsgrund: &[u8], eeg: Eeg) -> Result<AbmeldungVorlauf, Error> {
        Answer::content_of(Call::AbmeldungFuer, |answer| {
            ffi::mf_abmeldung_fuer(transaktionsgrund, eeg.code(), answer)
        })
    }

    /// The verdict on a transmission day and the Zuordnungsende, and its margin. None if there is no
    /// shape to ask, which does not mean that the Frist was kept.
    ///
    /// ```
    /// use mako_fristen_host::{AbmeldungVorlauf, Date, Eeg, Judgement, VorlaufVerdict};
    ///
    /// let (thursday, saturday) = (Date::new(2026, 1, 8), Date::new(2026, 1, 10));
    /// let check = |reason| AbmeldungVorlauf::check(reason, Eeg::No, thursday, saturday);
    /// let on_the_last_day = Judgement { verdict: VorlaufVerdict::Ok, margin: 0 };
    /// assert_eq!(check(b"Z33"), Ok(Some(on_the_last_day)));
    /// assert_eq!(check(b"ZQ7"), Ok(None));
    /// ```
    ///
    /// # Errors
    ///
    /// [`Refusal::NoDate`], for either date and even where there is no shape;
    /// [`Refusal::LeavesCalendar`].
    pub fn check(
        transaktionsgrund: &[u8],
        eeg: Eeg,
        uebertragungstag: Date,
        zuordnungsende: Date,
    ) -> Result<Option<Judgement>, Error> {
        let (from, to) = (uebertragungstag, zuordnungsende);
        Answer::content_of(Call::AbmeldungCheck, |answer| {
            ffi::mf_abmeldung_check(
                transaktionsgrund,
                eeg.code(),
                from.year,
                from.month,
                from.day,
                to.year,
                to.month,
                to.day,
                answer,
            )
        })
    }

    /// The shape of the Vorlauffrist; none if it is not known or is that of another Prüfschritt.
    ///
    /// ```
    /// use mako_fristen_host::{AbmeldungVorlauf, VorlaufShape};
    ///
    /// let month = AbmeldungVorlauf::EinMonat.shape();
    /// assert_eq!(month, Some(VorlaufShape::LatestMonateBefore(1)));
    /// assert_eq!(AbmeldungVorlauf::Unbestimmt.shape(), None);
    /// ```
    #[must_use]
    pub const fn shape(self) -> Option<VorlaufShape> {
        match self {
            AbmeldungVorlauf::TagVorDemLetztenWerktag => {
                Some(VorlaufShape::TagVorDemLetztenWerktagVor)
            }
            AbmeldungVorlauf::EinMonat => Some(VorlaufShape::LatestMonateBefore(1)),
            AbmeldungVorlauf::Unbestimmt | AbmeldungVorlauf::AnPruefschritt120 => None,
        }
    }

    /// What the case means, in German; of `Unbestimmt` the original's `grund`, word for word.
    ///
    /// ```
    /// use mako_fristen_host::AbmeldungVorlauf;
    ///
    /// let words = "Spätester Übertragungstag liegt 1 Monat vor dem Zuordnungsende.";
    /// assert_eq!(AbmeldungVorlauf::EinMonat.beschreibung(), words);
    /// ```
    #[must_use]
    pub const fn beschreibung(self) -> &'static str {
        match self {
            AbmeldungVorlauf::TagVorDemLetztenWerktag => {
                "Spätester Übertragungstag ist der Tag vor dem letzten Werktag vor dem \
                 Zuordnungsende."
            }
            AbmeldungVorlauf::EinMonat => {
                "Spätester Übertragungstag liegt 1 Monat vor dem Zuordnungsende."
            }
            AbmeldungVorlauf::Unbestimmt => {
                "Für EEG-Marktlokationen und Tranchen von EEG-Marktlokationen gilt \
                 ein Monat statt des letzten Werktags (GPKE Teil 2 Kap. 2.5.2 Nr. 1); \
                 ob die Marktlokation eine EEG-Marktlokation ist, ist nicht bekannt."
            }
            AbmeldungVorlauf::AnPruefschritt120 => {
                "Die Frist ist die des Prüfschritts 120: „Liegt das Eingangsdatum der Abmeldung \
                 nach dem 5. WT des Monats, in dem die Zuordnungsermächtigung endet?“"
            }
        }
    }
}
