//! A day's questions in files of several lengths, beside the single calls and the original.

use crate::{ends, first_of_january, medians, mixed, print_row, SHAPES};
use harness::random::Random;
use harness::records::{self, CALL, LEN, LONGEST_FILE};
use harness::{days, instants};
use mako_fristen::antwort::FristShape;
use mako_fristen::vorlauf::VorlaufShape;
use mako_fristen::ContrlAnlass;
use mako_fristen::HolidayCalendar::BdewMaKo;
use mako_fristen_host::{ffi, Call, Clock, Date, Instant, Question};
use std::cell::RefCell;
use std::hint::black_box;
use time::{Duration, OffsetDateTime, Time};

const QUESTIONS: usize = LONGEST_FILE / LEN;
/// How many questions a file has.
const FILES: [usize; 3] = [16, 256, QUESTIONS];

/// The arguments of a single call.
#[derive(Clone, Copy)]
enum Single {
    Contrl(Instant, u8),
    Due(u8, u32, Clock, Instant),
    Verdict(u8, u32, u32, Date, Date),
    Span(u8, u32, u32, Date),
}

impl Single {
    fn of(question: &Question) -> Single {
        let Question { call, code, n, n2, date, date2, clock, instant, .. } = *question;
        match call {
            Call::ContrlDueAt => Single::Contrl(instant, code),
            Call::FristDueAt => Single::Due(code, n, clock, instant),
            Call::VorlaufCheck => Single::Verdict(code, n, n2, date, date2),
            _ => Single::Span(code, n, n2, date),
        }
    }

    fn ask(self, answer: &mut [u8]) -> u8 {
        match self {
            Single::Contrl(received, anlass) => {
                ffi::mf_contrl_due_at(received.seconds, received.nanos, anlass, answer)
            }
            Single::Due(shape, n, at, received) => ffi::mf_frist_due_at(
                shape,
                n,
                at.hour,
                at.minute,
                at.second,
                at.nanos,
                received.seconds,
                received.nanos,
                answer,
            ),
            Single::Verdict(shape, n, n2, date, anchor) => ffi::mf_vorlauf_check(
                shape,
                n,
                n2,
                date.year,
                date.month,
                date.day,
                anchor.year,
                anchor.month,
                anchor.day,
                answer,
            ),
            Single::Span(shape, n, n2, Date { year, month, day }) => {
                ffi::mf_vorlauf_span(shape, n, n2, year, month, day, answer)
            }
        }
    }
}

/// The arguments of the original's functions.
#[derive(Clone, Copy)]
enum Original {
    Contrl(OffsetDateTime, ContrlAnlass),
    Due(FristShape, OffsetDateTime),
    Verdict(VorlaufShape, time::Date, time::Date),
    Span(VorlaufShape, time::Date),
}

impl Original {
    fn ask(self) {
        match self {
            Original::Contrl(at, anlass) => {
                black_box(mako_fristen::contrl_due_at(at, anlass));
            }
            Original::Due(shape, at) => {
                black_box(shape.due_at(at, BdewMaKo));
            }
            Original::Verdict(shape, day, anchor) => {
                black_box(shape.check(day, anchor, BdewMaKo));
            }
            Original::Span(shape, day) => {
                black_box(ends(shape, day));
            }
        }
    }
}

/// A question of the operation, on a day of 2020 to 2030, with a shape and counts in use.
fn question(operation: u32, random: &mut Random) -> (Question, Original) {
    let (first, end) = (first_of_january(2020), first_of_january(2031));
    let from = first + random.below(end - first);
    let day = days::day(from);
    let received = Duration::seconds(random.below(86_400).into());
    let received = mako_fristen::berlin_midnight(day) + received;
    let (_, ours, shape) = random.one_of(&SHAPES);
    match operation {
        0 => contrl(received, random),
        1 => due(received, random),
        2 => {
            let months = matches!(ours.code(), 6 | 7);
            let to = from + 1 + random.below(20) + if months { 90 } else { 0 };
            let question = Question::on(Call::VorlaufCheck, days::date(from)).with_shape(ours);
            let question = question.with_second(days::date(to));
            (question, Original::Verdict(shape, day, days::day(to)))
        }
        _ => {
            let question = Question::on(Call::VorlaufSpan, days::date(from)).with_shape(ours);
            (question, Original::Span(shape, day))
        }
    }
}

fn contrl(received: OffsetDateTime, random: &mut Random) -> (Question, Original) {
    use ContrlAnlass::{GasAlocat, Regelfall, StromUtilmdOderOrders};
    let code = random.below(3) as u8;
    let anlass = [Regelfall, StromUtilmdOderOrders, GasAlocat][usize::from(code)];
    let question = Question::at(Call::ContrlDueAt, instants::to_host(received)).with_code(code);
    (question, Original::Contrl(received, anlass))
}

fn due(received: OffsetDateTime, random: &mut Random) -> (Question, Original) {
    let (code, werktage) = (random.below(4) as u8, 1 + random.below(5));
    let hour = 8 + random.below(10) as u8;
    let at = Time::from_hms(hour, 0, 0).expect("a clock time");
    let shape = match code {
        0 => FristShape::WerktagAt { werktage, at },
        1 => FristShape::EndOfWerktag(werktage),
        2 => FristShape::SameDayAt(at),
        _ => FristShape::SameDay,
    };
    let question = Question::at(Call::FristDueAt, instants::to_host(received));
    let question =
        question.with_code(code).with_count(werktage).with_clock(Clock::new(hour, 0, 0, 0));
    (question, Original::Due(shape, received))
}

/// The same questions as each side takes them, and room for their answers.
struct Day {
    file: Vec<u8>,
    singles: Vec<Single>,
    originals: Vec<Original>,
    answers: RefCell<Vec<u8>>,
}

impl Day {
    fn new() -> Day {
        let random = &mut Random::at(3, 0, 0);
        let operations: Vec<(u32, u32)> =
            (0..QUESTIONS as u32).map(|place| (place % 4, 0)).collect();
        let questions = mixed(&operations).into_iter();
        let (questions, originals): (Vec<Question>, Vec<Original>) =
            questions.map(|(operation, _)| question(operation, random)).unzip();
        let records = questions.iter().flat_map(|question| records::written(question, [0; LEN]));
        let (file, singles): (Vec<u8>, _) =
            (records.collect(), questions.iter().map(Single::of).collect());
        let answers = RefCell::new(vec![0; file.len()]);
        Day { file, singles, originals, answers }
    }

    /// Puts all in files of so many.
    fn in_files(&self, questions: usize) {
        let mut answers = self.answers.borrow_mut();
        let len = questions * LEN;
        for (questions, answers) in self.file.chunks(len).zip(answers.chunks_mut(len)) {
            black_box(ffi::mf_questions(black_box(questions), black_box(answers)));
        }
    }

    /// Puts each to its single call.
    fn one_by_one(&self) {
        let mut answers = self.answers.borrow_mut();
        for (single, answer) in self.singles.iter().zip(answers.chunks_exact_mut(LEN)) {
            black_box(black_box(*single).ask(black_box(answer)));
        }
    }

    fn to_the_original(&self) {
        self.originals.iter().for_each(|original| black_box(*original).ask());
    }

    /// Whether both ways lead to the same answers, and no question is refused.
    fn is_sound(&self) -> bool {
        self.in_files(QUESTIONS);
        let of_a_file = self.answers.replace(vec![0; self.file.len()]);
        self.one_by_one();
        of_a_file == *self.answers.borrow()
            && of_a_file.iter().step_by(LEN).all(|&number| number == 0)
    }
}

/// Prints nanoseconds per question of files of each length and of the single calls, beside the
/// original's.
pub fn print(only: &str) {
    let files = FILES.map(|questions| (CALL, format!("{questions} in a call")));
    let singles = ("the single calls", String::from("the same"));
    let names: Vec<(&str, String)> = files.into_iter().chain([singles]).collect();
    if !names.iter().any(|(name, what)| format!("{name} {what}").contains(only)) {
        return;
    }
    let day = Day::new();
    assert!(day.is_sound(), "a file and its single calls differ");
    let times = medians([
        &|| day.in_files(FILES[0]),
        &|| day.in_files(FILES[1]),
        &|| day.in_files(FILES[2]),
        &|| day.one_by_one(),
        &|| day.to_the_original(),
    ]);
    let [.., original] = times;
    for ((name, what), ours) in names.iter().zip(times) {
        let [ours, original] = [ours, original].map(|time| time / QUESTIONS as f64);
        print_row(name, what, ours, original);
    }
}
