//! The reasons and verdicts of a deregistration.

use super::{kalender, vorlauf, Row};
use crate::days;
use crate::random::Random;
use mako_fristen_host::{Call, Eeg, Question, Reason, VorlaufShape};

/// The reasons in use, and what is near the one that is special.
pub(super) const REASONS: [&[u8]; 24] = [
    b"ZQ7",
    b"",
    b"Z",
    b"ZQ",
    b"Q7",
    b"7",
    b"zq7",
    b"Zq7",
    b"ZQ7 ",
    b" ZQ7",
    b"ZQ7\0",
    b"ZQ\0",
    b"ZQ77",
    b"ZQ8",
    b"ZQ6",
    b"YQ7",
    b"ZP7",
    b"\xdaQ7",
    b"ZQ\xb7",
    b"Z33",
    b"ZT0",
    b"7QZ",
    b"ZQ7ZQ7",
    b"ZQ7ZQ7ZQ7ZQ7Z",
];

/// Those of a reason.
pub(super) const SHAPES: [VorlaufShape; 2] =
    [VorlaufShape::TagVorDemLetztenWerktagVor, VorlaufShape::LatestMonateBefore(1)];

pub fn rows(seed: u64, random: u64) -> Vec<Row> {
    let what = "random, any reason";
    vec![
        Row::random(Call::AbmeldungFuer, what, random / 20, seed, any_case),
        Row::random(Call::AbmeldungCheck, what, random / 10, seed, any_check),
    ]
}

pub(super) fn any_case(call: Call, random: &mut Random) -> Question {
    Question::new(call).with_reason(any_reason(random)).with_code(any_eeg(random).code())
}

fn any_check(call: Call, random: &mut Random) -> Question {
    let date = days::date(kalender::any_index(random));
    check_on(Question::on(call, date), random)
}

/// One reason in two is an ordinary one. The anchor is by where the verdict of a shape changes.
pub(super) fn check_on(question: Question, random: &mut Random) -> Question {
    let span = Question::on(Call::VorlaufSpan, question.date).with_shape(random.one_of(&SHAPES));
    let anchor = days::date(vorlauf::any_anchor(&span, random));
    let reason = match random.below(2) {
        0 => of_bytes(b"Z33"),
        _ => any_reason(random),
    };
    let question = question.with_second(anchor);
    question.with_reason(reason).with_code(any_eeg(random).code())
}

fn any_eeg(random: &mut Random) -> Eeg {
    random.one_of(&Eeg::ALL)
}

pub(super) fn any_reason(random: &mut Random) -> Reason {
    let mut bytes = [0; Reason::LONGEST];
    bytes.fill_with(|| random.number() as u8);
    let len = random.below(bytes.len() as u32 + 1) as usize;
    match random.below(5) {
        0 => of_bytes(random.one_of(&REASONS)),
        // One bit or more of one byte are changed, or none.
        1 => {
            let change = random.one_of(&[0, 1 << (len % 8), 0x20, 0x80, bytes[0]]);
            let mut reason = *b"ZQ7";
            reason[random.below(3) as usize] ^= change;
            of_bytes(&reason)
        }
        2 => {
            bytes[..3].copy_from_slice(b"ZQ7");
            of_bytes(&bytes[..len])
        }
        3 => of_bytes(b"ZQ7"),
        _ => of_bytes(&bytes[..len]),
    }
}

fn of_bytes(reason: &[u8]) -> Reason {
    Reason::new(reason).expect("not too long for a question")
}
