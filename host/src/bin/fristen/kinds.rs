//! Kinds and shapes by name, for JSON and `--kurz`.

use crate::names::{name_of, FRISTEN, VORLAUF};
use mako_fristen_host::{
    AbmeldungVorlauf, Clock, FristShape, GasProzess, Judgement, Span, VorlaufShape, VorlaufVerdict,
};

/// Of a verdict; none has no shape.
pub fn verdict(judgement: Option<Judgement>) -> &'static str {
    match judgement.map(|judgement| judgement.verdict) {
        Some(VorlaufVerdict::Ok) => "Ok",
        Some(VorlaufVerdict::TooLate { .. }) => "TooLate",
        Some(VorlaufVerdict::TooEarly { .. }) => "TooEarly",
        None => "NoShape",
    }
}

pub fn span(span: Span) -> &'static str {
    match span {
        Span::From(_) => "From",
        Span::Between(..) => "Between",
        Span::Empty => "Empty",
    }
}

pub fn gas(process: GasProzess) -> &'static str {
    match process {
        GasProzess::Folgeprozess => "Folgeprozess",
        GasProzess::Initialprozess => "Initialprozess",
    }
}

pub fn case(case: AbmeldungVorlauf) -> &'static str {
    match case {
        AbmeldungVorlauf::TagVorDemLetztenWerktag => "TagVorDemLetztenWerktag",
        AbmeldungVorlauf::EinMonat => "EinMonat",
        AbmeldungVorlauf::Unbestimmt => "Unbestimmt",
        AbmeldungVorlauf::AnPruefschritt120 => "AnPruefschritt120",
    }
}

pub fn ankuendigung(in_time: Option<bool>) -> &'static str {
    match in_time {
        Some(false) => "Nein",
        Some(true) => "Ja",
        None => "WederNoch",
    }
}

pub fn frist(shape: FristShape) -> Option<&'static str> {
    name_of(&FRISTEN, |row| (row.shape)(0, Clock::default()).code() == shape.code())
}

pub fn vorlauf(shape: VorlaufShape) -> Option<&'static str> {
    name_of(&VORLAUF, |row| (row.shape)(0, 0).code() == shape.code())
}
