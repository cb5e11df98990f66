//! What was read: the parameters of a call, by the names that docs/host-calls.md has for them.

use super::values::{clock, instant};
use crate::inquiry::Inquiry;
use crate::json::{Json, Members};
use crate::kinds;
use crate::names::{name_of, ANLAESSE, EEG, SPARTEN};
use mako_fristen_host::{Call, Date, Error, FristShape, Instant, Parameter, VorlaufShape};

pub fn of(inquiry: &Inquiry) -> Result<Members, Error> {
    let read = inquiry.call.parameters().iter().map(|parameter| members(inquiry, *parameter));
    Ok(read.collect::<Result<Vec<_>, _>>()?.concat())
}

/// A shape brings its counts and its clock.
fn members(inquiry: &Inquiry, parameter: Parameter) -> Result<Members, Error> {
    let (call, question) = (inquiry.call, &inquiry.question);
    let shaped = call.takes(Parameter::Shape) || call.takes(Parameter::VorlaufShape);
    let at = |given| moment(inquiry, parameter, given);
    let one = |name, value| Ok(vec![(name, value)]);
    match parameter {
        Parameter::Shape => inquiry.frist().map(frist),
        Parameter::VorlaufShape => inquiry.shape().map(vorlauf),
        Parameter::Count | Parameter::SecondCount | Parameter::Clock if shaped => Ok(vec![]),
        Parameter::Date => one("date", question.date.into()),
        Parameter::SecondDate => one("date2", question.date2.into()),
        Parameter::Count => one(count_name(call), question.n.into()),
        Parameter::SecondCount => one("count2", question.n2.into()),
        Parameter::Pid => one("pid", question.n.into()),
        Parameter::Instant => one("instant", at(question.instant)?),
        Parameter::SecondInstant => one("instant2", at(question.instant2)?),
        Parameter::Clock => one("clock", clock(question.clock)),
        Parameter::Anlass => one("anlass", anlass(question.code)),
        Parameter::Sparte => one("sparte", sparte(question.code)),
        Parameter::SecondSparte => one("sparte", sparte(question.code2)),
        Parameter::Eeg => one("eeg", eeg(question.code)),
        Parameter::Reason => one("reason_hex", hex(&inquiry.reason)),
    }
}

fn count_name(call: Call) -> &'static str {
    match call {
        Call::AddHours => "hours",
        Call::DeadlineAtWerktage | Call::EndOfWerktagAfter => "werktage",
        _ => "n",
    }
}

/// Null for a time that Berlin's clock does not show: there is no instant.
fn moment(inquiry: &Inquiry, parameter: Parameter, given: Instant) -> Result<Json, Error> {
    match inquiry.absent.contains(&inquiry.label(parameter)) {
        true => Ok(Json::Null),
        false => instant(given),
    }
}

fn frist(shape: FristShape) -> Members {
    let werktage = match shape {
        FristShape::WerktagAt { werktage: n, .. } | FristShape::EndOfWerktag(n) => Some(n),
        FristShape::SameDayAt(_) | FristShape::SameDay => None,
    };
    vec![
        ("shape", kinds::frist(shape).into()),
        ("werktage", werktage.into()),
        ("clock", shape.clock().map(clock).into()),
    ]
}

/// A count that the shape does not have is null.
pub fn vorlauf(shape: VorlaufShape) -> Members {
    let counts = match shape {
        VorlaufShape::TagVorDemLetztenWerktagVor => 0,
        VorlaufShape::WindowWerktageBefore { .. }
        | VorlaufShape::LatestMonateUndWerktageBefore { .. } => 2,
        _ => 1,
    };
    let (count, count2) = shape.counts();
    vec![
        ("shape", kinds::vorlauf(shape).into()),
        ("count", (counts > 0).then_some(count).into()),
        ("count2", (counts > 1).then_some(count2).into()),
    ]
}

/// Of a shape and its anchor.
pub fn of_anchor(shape: VorlaufShape, anchor: Date) -> Members {
    [vorlauf(shape), vec![("date2", anchor.into())]].concat()
}

fn anlass(code: u8) -> Json {
    name_of(&ANLAESSE, |anlass| anlass.code() == code).into()
}

fn sparte(code: u8) -> Json {
    name_of(&SPARTEN, |sparte| sparte.code() == code).into()
}

fn eeg(code: u8) -> Json {
    name_of(&EEG, |eeg| eeg.code() == code).into()
}

/// The arguments are text, which a reason need not be.
fn hex(bytes: &[u8]) -> Json {
    let digits: Vec<String> = bytes.iter().map(|byte| format!("{byte:02x}")).collect();
    Json::Text(digits.concat())
}
