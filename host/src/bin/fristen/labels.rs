use mako_fristen_host::{
    Call, APERAK_STROM_ALLGEMEIN_LABEL, APERAK_STROM_WINDOW_LABEL, CONTRL_FRIST_LABEL,
};

/// The original's label of a due instant, where it has one that does not depend on the answer.
pub fn of(call: Call) -> Option<&'static str> {
    match call {
        Call::ContrlDueAt | Call::ContrlDueAtChange => Some(CONTRL_FRIST_LABEL),
        Call::AperakStromDueAt => Some(APERAK_STROM_WINDOW_LABEL),
        Call::AperakStromAllgemeinDueAt => Some(APERAK_STROM_ALLGEMEIN_LABEL),
        Call::IsWerktag
        | Call::NextWerktag
        | Call::AddWerktage
        | Call::SubWerktage
        | Call::WerktageBetween
        | Call::AddMonths
        | Call::SubtractMonths
        | Call::BerlinAt
        | Call::BerlinMidnight
        | Call::EndOfDayBerlin
        | Call::TagesbeginnUtc
        | Call::BerlinDate
        | Call::TagDesBeginns
        | Call::AperakGasFolgeprozessDueAt
        | Call::AperakGasInitialprozessDueAt
        | Call::AperakGasDueAt
        | Call::AddHours
        | Call::DeadlineAtWerktage
        | Call::EndOfWerktagAfter
        | Call::NextWerktagAt
        | Call::NthWerktagAt
        | Call::FristDueAt
        | Call::VorlaufCheck
        | Call::VorlaufCheckAt
        | Call::VorlaufSpan
        | Call::AbmeldungFuer
        | Call::AbmeldungCheck
        | Call::EogAnkuendigungFristgerecht => None,
    }
}
