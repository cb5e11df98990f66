//! Deregistrations: which bytes are the deactivation reason, and the verdict of each case.

use mako_fristen_host::{
    ffi, AbmeldungVorlauf, Answer, Date, Eeg, Judgement, Refusal, VorlaufVerdict,
};
use AbmeldungVorlauf::{AnPruefschritt120, EinMonat, TagVorDemLetztenWerktag, Unbestimmt};

const GUARD: usize = 16;
const LONGEST: usize = 40;
const OF_EEG: [(Eeg, AbmeldungVorlauf); 3] =
    [(Eeg::No, TagVorDemLetztenWerktag), (Eeg::Yes, EinMonat), (Eeg::Unknown, Unbestimmt)];

const fn january(day: u8) -> Date {
    Date::new(2026, 1, day)
}

#[test]
fn only_three_bytes_are_the_deactivation() {
    for eeg in Eeg::ALL {
        assert_eq!(AbmeldungVorlauf::fuer(b"ZQ7", eeg), Ok(AnPruefschritt120), "{eeg:?}");
    }
    let ordinary: [&[u8]; 20] = [
        b"", b"Z", b"ZQ", b"Q7", b"zq7", b"Zq7", b"zQ7", b"ZQ7 ", b" ZQ7", b"ZQ7\0", b"\0ZQ7",
        b"ZQ77", b"ZQ8", b"YQ7", b"ZR7", b"\xdaQ7", b"7QZ", b"ZQ7ZQ7", b"Z33", b"ZT0",
    ];
    for reason in ordinary {
        for (eeg, case) in OF_EEG {
            assert_eq!(AbmeldungVorlauf::fuer(reason, eeg), Ok(case), "{reason:?} {eeg:?}");
        }
    }
}

/// Each byte of the reason with each other value in its place.
#[test]
fn every_byte_counts() {
    for place in 0..3 {
        for byte in 0..=u8::MAX {
            let mut reason = *b"ZQ7";
            let same = reason[place] == byte;
            reason[place] = byte;
            let case = if same { AnPruefschritt120 } else { TagVorDemLetztenWerktag };
            assert_eq!(AbmeldungVorlauf::fuer(&reason, Eeg::No), Ok(case), "{reason:?}");
        }
    }
}

/// A part of a longer text that goes on as the reason would. Neither it nor what is around it is
/// changed, and nothing around the answer.
#[test]
fn a_reason_of_any_length() {
    let around = b"ZQ7".repeat(GUARD + LONGEST);
    for start in 0..6 {
        for len in 0..=LONGEST {
            let text = around.clone();
            let reason = &text[start..start + len];
            let mut lent = [0xa5; GUARD + Answer::LEN + GUARD];
            let number = ffi::mf_abmeldung_fuer(reason, 1, &mut lent[GUARD..GUARD + Answer::LEN]);
            let kind = if reason == b"ZQ7" { 3 } else { 1 };
            let mut expected = [0; Answer::LEN];
            expected[1] = kind;
            assert_eq!(number, 0, "{start} {len}");
            assert_eq!(lent[GUARD..GUARD + Answer::LEN], expected, "{start} {len}");
            assert_eq!(lent[..GUARD], [0xa5; GUARD]);
            assert_eq!(lent[GUARD + Answer::LEN..], [0xa5; GUARD]);
            assert_eq!(text, around);
        }
    }
}

/// An answer of another length is refused first, whatever the reason's length.
#[test]
fn a_reason_and_an_answer_of_any_length() {
    for len in (0..=LONGEST).filter(|&len| len != Answer::LEN) {
        let mut answer = vec![0x5a; len];
        for reason_len in 0..=LONGEST {
            let reason = vec![b'Z'; reason_len];
            assert_eq!(ffi::mf_abmeldung_fuer(&reason, 255, &mut answer), 1);
            assert_eq!(ffi::mf_abmeldung_check(&reason, 0, 2026, 1, 8, 2026, 1, 9, &mut answer), 1);
            assert_eq!(answer, vec![0x5a; len]);
        }
    }
}

#[test]
fn the_verdict_of_each_case() {
    let check = |reason: &[u8], eeg, anchor| {
        AbmeldungVorlauf::check(reason, eeg, january(8), anchor).expect("no refusal")
    };
    let late = |shortfall_wt, earliest_possible, margin| {
        let verdict = VorlaufVerdict::TooLate { shortfall_wt, earliest_possible };
        Some(Judgement { verdict, margin })
    };
    let in_time = |margin| Some(Judgement { verdict: VorlaufVerdict::Ok, margin });
    let february = |day| Date::new(2026, 2, day);
    assert_eq!(check(b"Z33", Eeg::No, january(9)), late(1, january(10), -1));
    assert_eq!(check(b"Z33", Eeg::No, january(10)), in_time(0));
    assert_eq!(check(b"Z33", Eeg::No, january(13)), in_time(3));
    assert_eq!(check(b"Z33", Eeg::Yes, february(7)), late(1, february(8), -1));
    assert_eq!(check(b"Z33", Eeg::Yes, february(8)), in_time(0));
    assert_eq!(check(b"zq7", Eeg::Yes, february(8)), in_time(0));
    for anchor in [january(9), february(8)] {
        assert_eq!(check(b"Z33", Eeg::Unknown, anchor), None);
        for eeg in Eeg::ALL {
            assert_eq!(check(b"ZQ7", eeg, anchor), None);
        }
    }
}

/// Both dates are checked even where there is no shape. There nothing can leave the calendar.
#[test]
fn refusals_of_the_verdict() {
    let none = Date::new(2026, 2, 29);
    for reason in [b"ZQ7", b"Z33"] {
        for eeg in Eeg::ALL {
            let check = |day, anchor| AbmeldungVorlauf::check(reason, eeg, day, anchor);
            assert_eq!(check(none, january(9)), Err(Refusal::NoDate.into()));
            assert_eq!(check(january(9), none), Err(Refusal::NoDate.into()));
            let leaves = if reason == b"ZQ7" || eeg == Eeg::Unknown {
                Ok(None)
            } else {
                Err(Refusal::LeavesCalendar.into())
            };
            assert_eq!(check(Date::FIRST, Date::FIRST), leaves, "{reason:?} {eeg:?}");
            assert_eq!(check(Date::LAST, Date::LAST), leaves, "{reason:?} {eeg:?}");
        }
    }
}
