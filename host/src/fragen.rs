//! A day's questions in one go, cut into files as the call takes them.

use crate::answer::UNTOUCHED;
use crate::{ffi, Answer, Antwort, Call, Error, Frage, Fragesatz, Refusal};

/// The most questions of one file. The functions here take any number: they cut.
///
/// ```
/// use mako_fristen_host::{ffi, Fragesatz, MOST_QUESTIONS};
///
/// let most = vec![0; MOST_QUESTIONS * Fragesatz::LEN];
/// assert_eq!(ffi::mf_questions(&most, &mut most.clone()), 0);
/// let more = vec![0; (MOST_QUESTIONS + 1) * Fragesatz::LEN];
/// assert_eq!(ffi::mf_questions(&more, &mut more.clone()), 9);
/// ```
pub const MOST_QUESTIONS: usize = 2048;

/// The answers to a day's questions, one for each and in their order, refusals included. Each is
/// the single call's.
///
/// ```
/// use mako_fristen_host::{
///     fragen, Antwort, ContrlAnlass, Date, Frage, Instant, Refusal, Span, VorlaufShape,
/// };
///
/// // 31 March 2026, 11:59:59 in Berlin.
/// let received = Instant::new(1_774_951_199, 0);
/// let shape = VorlaufShape::LatestWerktageBefore(1);
/// let answers = fragen(&[
///     Frage::Contrl { received, anlass: ContrlAnlass::Regelfall },
///     Frage::Span { shape, uebertragungstag: Date::new(2026, 1, 10) },
///     Frage::Span { shape, uebertragungstag: Date::new(2026, 2, 29) },
/// ]);
/// assert_eq!(answers[0], Ok(Antwort::Due(Instant::new(1_774_972_799, 0))));
/// assert_eq!(answers[1], Ok(Antwort::Span(Span::From(Date::new(2026, 1, 13)))));
/// assert_eq!(answers[2], Err(Refusal::NoDate.into()));
/// ```
///
/// A question that a record has no room for ([`Frage::fragesatz`]) is put by its single call.
#[must_use]
pub fn fragen(questions: &[Frage]) -> Vec<Result<Antwort, Error>> {
    in_files(questions, ffi::mf_questions, Frage::answer, Frage::read)
}

/// The same with the 32 bytes of each answer, checked as
/// [`Question::answer`](crate::Question::answer) checks them.
///
/// ```
/// use mako_fristen_host::{answers, Answer, Date, Frage, VorlaufShape};
///
/// let shape = VorlaufShape::LatestWerktageBefore(1);
/// let frage = Frage::Span { shape, uebertragungstag: Date::new(2026, 1, 10) };
/// let from = Answer::default().with_date(Date::new(2026, 1, 13));
/// assert_eq!(answers(&[frage]), [Ok(from)]);
/// ```
#[must_use]
pub fn answers(questions: &[Frage]) -> Vec<Result<Answer, Error>> {
    let single = |frage: &Frage| frage.question().answer();
    let read = |frage: &Frage, answer: &Answer| answer.checked(frage.call());
    in_files(questions, ffi::mf_questions, single, read)
}

/// The answers to records as they came, 32 bytes for each and in their order. Neither are looked
/// at: [`Fragesatz`] and [`Answer`] read them.
///
/// ```
/// use mako_fristen_host::{answer_records, Refusal};
///
/// // A CONTRL received in 1970, and an operation that there is not.
/// let mut records = [0; 64];
/// records[32] = 4;
/// let answers = answer_records(&records)?;
/// assert_eq!((answers.len(), answers[0], answers[32]), (64, 4, 2));
/// assert_eq!(answer_records(&records[1..]), Err(Refusal::FileLength.into()));
/// # Ok::<(), mako_fristen_host::Error>(())
/// ```
///
/// # Errors
///
/// [`Refusal::FileLength`], if the bytes are no multiple of 32. [`Error::Unreadable`], if an
/// archive of another version refuses a file of up to [`MOST_QUESTIONS`]; the call in it is that of
/// the file's first record, or of a CONTRL, if that one's operation is unknown.
pub fn answer_records(records: &[u8]) -> Result<Vec<u8>, Error> {
    by_files(records, ffi::mf_questions)
}

/// [`ffi::mf_questions`], or what a test has in its place.
type Put = fn(&[u8], &mut [u8]) -> u8;

fn by_files(records: &[u8], put: Put) -> Result<Vec<u8>, Error> {
    if records.len() % Fragesatz::LEN != 0 {
        return Err(Refusal::FileLength.into());
    }
    let mut answers = vec![u8::MAX; records.len()];
    let longest = MOST_QUESTIONS * Fragesatz::LEN;
    for (file, lent) in records.chunks(longest).zip(answers.chunks_mut(longest)) {
        let number = put(file, lent);
        if number != 0 {
            return Err(refused_file(file, number));
        }
    }
    Ok(answers)
}

#[cold]
fn refused_file(file: &[u8], number: u8) -> Error {
    let call = file.first_chunk().and_then(|first| Fragesatz::from_bytes(*first).call());
    UNTOUCHED.unreadable(number, call.unwrap_or(Call::ContrlDueAt))
}

/// The questions as records, file by file, and each answer as `read` takes it; by `single` where a
/// question has no record.
fn in_files<T>(
    questions: &[Frage],
    put: Put,
    single: impl Fn(&Frage) -> Result<T, Error>,
    read: impl Fn(&Frage, &Answer) -> Result<T, Error>,
) -> Vec<Result<T, Error>> {
    let longest = questions.len().min(MOST_QUESTIONS);
    let mut records = Vec::with_capacity(longest);
    let mut lent = vec![*UNTOUCHED.as_bytes(); longest];
    let mut given = Vec::with_capacity(questions.len());
    for file in questions.chunks(MOST_QUESTIONS) {
        records.clear();
        // What has no record keeps its place with zeros, whose answer is not read.
        let or_zeros = |frage: &Frage| *frage.fragesatz().unwrap_or_default().as_bytes();
        records.extend(file.iter().map(or_zeros));
        let lent = &mut lent[..file.len()];
        lent.fill(*UNTOUCHED.as_bytes());
        let number = put(records.as_flattened(), lent.as_flattened_mut());
        given.extend(file.iter().zip(lent).map(|(frage, bytes)| {
            let answer = Answer::from_bytes(*bytes);
            match (frage.fragesatz(), number) {
                (None, _) => single(frage),
                (Some(_), 0) => read(frage, &answer),
                (Some(_), _) => Err(answer.unreadable(number, frage.call())),
            }
        }));
    }
    given
}

#[cfg(test)]
mod tests {
    use super::*;
    use crate::{Clock, ContrlAnlass, Date, FristShape, Instant, Unreadable, VorlaufShape};

    const RECEIVED: Instant = Instant::new(1_774_951_199, 0);
    const CONTRL: Frage = Frage::Contrl { received: RECEIVED, anlass: ContrlAnlass::Regelfall };
    const SPAN: Frage =
        Frage::Span { shape: VorlaufShape::Korridor(2), uebertragungstag: Date::new(2026, 4, 7) };

    fn by(put: Put, questions: &[Frage]) -> Vec<Result<Antwort, Error>> {
        in_files(questions, put, Frage::answer, Frage::read)
    }

    fn unreadable<T>(frage: Frage, number: u8, answer: Answer) -> Result<T, Error> {
        Err(Unreadable { call: frage.call(), number, answer }.into())
    }

    /// None of them takes it for an answer or a refusal, whatever number it is.
    #[test]
    fn a_file_that_the_archive_refuses_is_unreadable() {
        let refusing: [(u8, Put); 4] =
            [(1, |_, _| 1), (3, |_, _| 3), (9, |_, _| 9), (255, |_, _| 255)];
        for (number, put) in refusing {
            let all = [CONTRL, SPAN].map(|frage| unreadable(frage, number, UNTOUCHED));
            assert_eq!(by(put, &[CONTRL, SPAN]), all);
            let record = SPAN.fragesatz().expect("no clock");
            assert_eq!(by_files(record.as_bytes(), put), unreadable(SPAN, number, UNTOUCHED));
            let unknown = record.with_operation(4);
            assert_eq!(by_files(unknown.as_bytes(), put), unreadable(CONTRL, number, UNTOUCHED));
        }
    }

    /// A number for the file is none of its questions', though every answer holds it.
    #[test]
    fn a_refusal_of_each_question_is_none_of_the_file() {
        let put: Put = |_, answers| {
            answers.fill(0);
            answers[0] = 3;
            3
        };
        let refused = Answer::refused(Refusal::NoDate);
        assert_eq!(by(put, &[CONTRL]), [unreadable(CONTRL, 3, refused)]);
        let put: Put = |_, answers| {
            answers.fill(0);
            answers[0] = 3;
            0
        };
        assert_eq!(by(put, &[CONTRL]), [Err(Refusal::NoDate.into())]);
    }

    /// In the second file too, which is lent the memory of the first.
    #[test]
    fn answers_that_are_not_written_are_unreadable() {
        let put: Put = |questions, answers| match questions.len() {
            Fragesatz::LEN => 0,
            _ => ffi::mf_questions(questions, answers),
        };
        let given = by(put, &[CONTRL; MOST_QUESTIONS + 1]);
        assert!(given[..MOST_QUESTIONS].iter().all(Result::is_ok));
        assert_eq!(given[MOST_QUESTIONS..], [unreadable(CONTRL, 255, UNTOUCHED)]);
    }

    #[test]
    fn a_question_without_a_record_does_not_depend_on_the_file() {
        let shape = FristShape::SameDayAt(Clock::new(12, 0, 0, 1));
        let frage = Frage::Frist { shape, received: RECEIVED };
        assert_eq!(by(|_, _| 9, &[frage]), [frage.answer()]);
        assert!(frage.answer().is_ok());
    }
}
