//! Times the host calls beside the original, from one run: the median of several rounds, in which
//! the two take turns. Ours is the C call with its answer of 32 bytes.

mod files;
mod numpy;
mod portfolio;

use harness::random::Random;
use harness::{days, instants, options};
use mako_fristen::abmeldung::AbmeldungVorlauf;
use mako_fristen::antwort::FristShape;
use mako_fristen::vorlauf::{self, VorlaufShape};
use mako_fristen::HolidayCalendar::{self, BdewMaKo};
use mako_fristen::{ContrlAnlass, Sparte};
use mako_fristen_host::{Answer, Call, Clock, Date, Eeg, Question, Reason, VorlaufShape as Shape};
use std::hint::black_box;
use std::time::Instant;
use time::macros::time;
use time::{Duration, OffsetDateTime};

const ROUNDS: usize = 21;
/// What one measurement takes at least, in nanoseconds.
const LEAST: f64 = 2e6;
/// How many different beginnings a step or a count through years has.
const BEGINNINGS: u16 = 40;
/// How many of them the original gets, where it walks over a century or more.
const WALKED: usize = 4;

/// A question, and its dates and its instants as the original takes them.
struct Input {
    question: Question,
    from: time::Date,
    to: time::Date,
    at: OffsetDateTime,
    begun: OffsetDateTime,
}

type Pass = Box<dyn Fn(&[Input])>;

struct Case {
    what: String,
    inputs: Vec<Input>,
    /// None where the original cannot be asked.
    original: Option<Pass>,
    /// How many of the inputs it gets.
    walked: usize,
    /// How many bytes the answer has that ours is lent.
    lent: usize,
}

impl Case {
    /// With few inputs for the original, which walks far for each.
    fn far(self) -> Case {
        Case { walked: WALKED, ..self }
    }

    fn without_original(self) -> Case {
        Case { original: None, ..self }
    }

    fn lending(self, lent: usize) -> Case {
        Case { lent, ..self }
    }
}

/// The question on every pair of dates, and at an instant of the first and the beginning of the
/// second.
fn case<T>(
    question: Question,
    what: &str,
    pairs: &[(u32, u32)],
    original: impl Fn(&Input) -> T + 'static,
) -> Case {
    let mut random = Random::at(1, 0, 0);
    let input = |&(from, to): &(u32, u32)| {
        let second = Duration::seconds(random.below(86_400).into());
        let at = mako_fristen::berlin_midnight(days::day(from)) + second;
        let begun = mako_fristen::berlin_midnight(days::day(to));
        let (instant, instant2) = (instants::to_host(at), instants::to_host(begun));
        let (date, date2) = (days::date(from), days::date(to));
        let question = Question { date, date2, instant, instant2, ..question };
        Input { question, from: days::day(from), to: days::day(to), at, begun }
    };
    let inputs: Vec<Input> = pairs.iter().map(input).collect();
    let original = move |inputs: &[Input]| {
        for input in inputs {
            black_box(original(black_box(input)));
        }
    };
    let walked = inputs.len();
    let original: Option<Pass> = Some(Box::new(original));
    Case { what: what.to_owned(), inputs, original, walked, lent: Answer::LEN }
}

fn cases() -> Vec<Case> {
    let mixed = mixed(&span(2020, 2030));
    let mut cases = calendar(&mixed);
    cases.extend(clocks(&mixed));
    cases.extend(messages(&mixed));
    cases.extend(after_an_instant(&mixed));
    cases.extend(answers(&mixed));
    let anchored = anchored(&mixed);
    cases.extend(verdicts(&anchored));
    cases.extend(spans(&anchored));
    cases.extend(deregistrations(&anchored));
    cases
}

fn calendar(mixed: &[(u32, u32)]) -> Vec<Case> {
    let new = Question::new;
    let mut cases = vec![
        case(new(Call::IsWerktag), "day test", mixed, |i| {
            mako_fristen::is_werktag(i.from, BdewMaKo)
        }),
        case(new(Call::NextWerktag), "on or after", mixed, |i| {
            mako_fristen::next_werktag(i.from, BdewMaKo)
        }),
    ];
    cases.extend(steps(Call::AddWerktage, mixed, 1996, mako_fristen::add_werktage));
    let refused = step(Call::AddWerktage, u32::MAX, &spread(1996, 80, 0), |from, _, _| from);
    cases.push(refused.without_original());
    cases.extend(steps(Call::SubWerktage, mixed, 2820, mako_fristen::sub_werktage));
    cases.extend(counts());
    cases.push(case(new(Call::AddMonths).with_count(7), "by 7", mixed, |i| {
        mako_fristen::add_months(i.from, i.question.n)
    }));
    cases.push(case(new(Call::SubtractMonths).with_count(7), "by 7", mixed, |i| {
        mako_fristen::subtract_months(i.from, i.question.n)
    }));
    cases
}

type Step = fn(time::Date, u32, HolidayCalendar) -> time::Date;

/// Far steps begin in the eighty years from the first on, so that they stay inside.
fn steps(call: Call, mixed: &[(u32, u32)], first: u16, original: Step) -> Vec<Case> {
    let near = [1, 5, 20, 61].map(|n| step(call, n, mixed, original));
    let years = [250, 2_500].map(|n| step(call, n, &spread(2016, 40, 0), original));
    let far = step(call, 200_000, &spread(first, 80, 0), original).far();
    near.into_iter().chain(years).chain([far]).collect()
}

fn step(call: Call, n: u32, pairs: &[(u32, u32)], original: Step) -> Case {
    let question = Question::new(call).with_count(n);
    case(question, &format!("by {n}"), pairs, move |i| original(i.from, i.question.n, BdewMaKo))
}

fn counts() -> Vec<Case> {
    let over = |years: u16, first, beginnings| {
        let what = if years == 1 { "over 1 year" } else { &format!("over {years} years") };
        let pairs = spread(first, beginnings, years);
        case(Question::new(Call::WerktageBetween), what, &pairs, |i| {
            mako_fristen::werktage_between(i.from, i.to, BdewMaKo)
        })
    };
    let near = [over(1, 2016, 40), over(10, 2016, 40)];
    near.into_iter().chain([over(100, 2016, 40).far(), over(900, 1996, 4).far()]).collect()
}

/// A count over 900 years, refused with 1.
fn wrong_length() -> Case {
    let question = Question::new(Call::WerktageBetween);
    let count = case(question, "31 bytes refused", &spread(1996, 4, 900), |i| i.to);
    count.without_original().lending(Answer::LEN - 1)
}

fn clocks(mixed: &[(u32, u32)]) -> Vec<Case> {
    let new = Question::new;
    let noon = Clock::new(12, 0, 0, 0);
    vec![
        case(new(Call::BerlinAt).with_clock(noon), "12:00", mixed, |i| {
            mako_fristen::berlin_at(i.from, black_box(time!(12:00)))
        }),
        case(new(Call::BerlinMidnight), "", mixed, |i| mako_fristen::berlin_midnight(i.from)),
        case(new(Call::EndOfDayBerlin), "", mixed, |i| mako_fristen::end_of_day_berlin(i.from)),
        case(new(Call::TagesbeginnUtc).with_code(1), "Gas", mixed, |i| {
            mako_fristen::tagesbeginn_utc(i.from, Sparte::Gas)
        }),
        case(new(Call::BerlinDate), "", mixed, |i| mako_fristen::berlin_date(i.at)),
        case(new(Call::TagDesBeginns), "Strom, refused", mixed, |i| {
            mako_fristen::tag_des_beginns(i.at, Sparte::Strom)
        }),
    ]
}

fn messages(mixed: &[(u32, u32)]) -> Vec<Case> {
    let new = Question::new;
    let contrl = |code, anlass| {
        let what = format!("{anlass:?}").chars().take(16).collect::<String>();
        case(new(Call::ContrlDueAt).with_code(code), &what, mixed, move |i| {
            mako_fristen::contrl_due_at(i.at, anlass)
        })
    };
    vec![
        contrl(0, ContrlAnlass::Regelfall),
        contrl(1, ContrlAnlass::StromUtilmdOderOrders),
        contrl(2, ContrlAnlass::GasAlocat),
        with_change_day(mixed),
        case(new(Call::AperakStromDueAt), "", mixed, |i| mako_fristen::aperak_strom_due_at(i.at)),
        case(new(Call::AperakStromAllgemeinDueAt), "", mixed, |i| {
            mako_fristen::aperak_strom_allgemein_due_at(i.at)
        }),
        case(new(Call::AperakGasFolgeprozessDueAt), "", mixed, |i| {
            mako_fristen::aperak_gas_folgeprozess_due_at(i.at)
        }),
        case(new(Call::AperakGasInitialprozessDueAt), "", mixed, |i| {
            mako_fristen::aperak_gas_initialprozess_due_at(i.at)
        }),
        case(new(Call::AperakGasDueAt).with_count(44_042), "44042", mixed, |i| {
            mako_fristen::aperak_gas_due_at(i.question.n, i.at)
        }),
    ]
}

/// The CONTRL with 1 April of the receipt's year as its change day. The original has 1 October as well.
fn with_change_day(mixed: &[(u32, u32)]) -> Case {
    let mut case = case(Question::new(Call::ContrlDueAtChange), "1 April", mixed, |i| {
        mako_fristen::contrl_due_at(i.at, ContrlAnlass::Regelfall)
    });
    for input in &mut case.inputs {
        input.question.date = Date { month: 4, day: 1, ..input.question.date };
    }
    case
}

fn after_an_instant(mixed: &[(u32, u32)]) -> Vec<Case> {
    let new = Question::new;
    let eleven = Clock::new(11, 0, 0, 0);
    vec![
        case(new(Call::AddHours).with_count(6), "by 6", mixed, |i| {
            mako_fristen::add_hours(i.at, i.question.n)
        }),
        case(new(Call::DeadlineAtWerktage).with_count(5), "by 5", mixed, |i| {
            mako_fristen::deadline_at_werktage(i.at, i.question.n, BdewMaKo)
        }),
        case(new(Call::EndOfWerktagAfter).with_count(4), "by 4", mixed, |i| {
            mako_fristen::end_of_werktag_after(i.at, i.question.n, BdewMaKo)
        }),
        case(new(Call::NextWerktagAt).with_clock(eleven), "11:00", mixed, |i| {
            mako_fristen::next_werktag_at(i.at, black_box(time!(11:00)), BdewMaKo)
        }),
        case(
            new(Call::NthWerktagAt).with_count(61).with_clock(eleven),
            "11:00 by 61",
            mixed,
            |i| mako_fristen::nth_werktag_at(i.at, i.question.n, black_box(time!(11:00)), BdewMaKo),
        ),
    ]
}

fn answers(mixed: &[(u32, u32)]) -> Vec<Case> {
    let frist = |code, what, shape: FristShape| {
        let clock = Clock::new(15, 0, 0, 0);
        let question = Question::new(Call::FristDueAt).with_count(4).with_clock(clock);
        case(question.with_code(code), what, mixed, move |i| {
            black_box(shape).due_at(i.at, BdewMaKo)
        })
    };
    let at = time!(15:00);
    vec![
        frist(0, "WerktagAt by 4", FristShape::WerktagAt { werktage: 4, at }),
        frist(1, "EndOfWerktag 4", FristShape::EndOfWerktag(4)),
        frist(2, "SameDayAt", FristShape::SameDayAt(at)),
        frist(3, "SameDay", FristShape::SameDay),
    ]
}

/// The shapes with counts in use, in our terms and the original's.
const SHAPES: [(&str, Shape, VorlaufShape); 8] = [
    ("Latest before 5", Shape::LatestWerktageBefore(5), VorlaufShape::LatestWerktageBefore(5)),
    (
        "Window 8 to 5",
        Shape::WindowWerktageBefore { earliest: 8, latest: 5 },
        VorlaufShape::WindowWerktageBefore { earliest: 8, latest: 5 },
    ),
    ("Latest after 10", Shape::LatestWerktageAfter(10), VorlaufShape::LatestWerktageAfter(10)),
    ("Earliest after 4", Shape::EarliestWerktageAfter(4), VorlaufShape::EarliestWerktageAfter(4)),
    ("Korridor 9", Shape::Korridor(9), VorlaufShape::Korridor(9)),
    (
        "Tag vor letztem",
        Shape::TagVorDemLetztenWerktagVor,
        VorlaufShape::TagVorDemLetztenWerktagVor,
    ),
    ("3 Monate", Shape::LatestMonateBefore(3), VorlaufShape::LatestMonateBefore(3)),
    (
        "3 Monate und 3",
        Shape::LatestMonateUndWerktageBefore { monate: 3, werktage: 3 },
        VorlaufShape::LatestMonateUndWerktageBefore { monate: 3, werktage: 3 },
    ),
];

fn verdicts(anchored: &[(u32, u32)]) -> Vec<Case> {
    let mut cases: Vec<Case> = SHAPES
        .map(|(what, shape, original)| {
            let question = Question::new(Call::VorlaufCheck).with_shape(shape);
            case(question, what, anchored, move |i| {
                black_box(original).check(i.from, i.to, BdewMaKo)
            })
        })
        .into();
    for (what, (_, shape, original)) in
        [("before 5, margin", SHAPES[0]), ("3 Monate, margin", SHAPES[6])]
    {
        let question = Question::new(Call::VorlaufCheck).with_shape(shape);
        cases.push(case(question, what, anchored, move |i| {
            let shape = black_box(original);
            (shape.check(i.from, i.to, BdewMaKo), margin(shape, i.from, i.to))
        }));
    }
    let (_, shape, original) = SHAPES[0];
    let question = Question::new(Call::VorlaufCheckAt).with_shape(shape);
    cases.push(case(question, "the first, Strom", anchored, move |i| {
        let anchor = mako_fristen::tag_des_beginns(i.begun, Sparte::Strom);
        let day = mako_fristen::berlin_date(i.at);
        anchor.map(|anchor| black_box(original).check(day, anchor, BdewMaKo))
    }));
    cases
}

/// The days up to the last permitted one, by the original's steps.
fn margin(shape: VorlaufShape, day: time::Date, anchor: time::Date) -> i64 {
    let on = |day, n| mako_fristen::add_werktage(day, n, BdewMaKo);
    let back = |day, n| mako_fristen::sub_werktage(day, n, BdewMaKo);
    let days = match shape {
        VorlaufShape::LatestWerktageBefore(n)
        | VorlaufShape::WindowWerktageBefore { latest: n, .. } => back(anchor, n) - day,
        VorlaufShape::LatestWerktageAfter(n) | VorlaufShape::Korridor(n) => on(anchor, n) - day,
        VorlaufShape::EarliestWerktageAfter(n) => anchor - on(day, n),
        VorlaufShape::TagVorDemLetztenWerktagVor => back(anchor, 1) - Duration::DAY - day,
        VorlaufShape::LatestMonateBefore(n) => mako_fristen::subtract_months(anchor, n) - day,
        VorlaufShape::LatestMonateUndWerktageBefore { monate, werktage } => {
            back(mako_fristen::subtract_months(anchor, monate), werktage) - day
        }
    };
    days.whole_days()
}

fn spans(anchored: &[(u32, u32)]) -> Vec<Case> {
    let of_shape = |(what, shape, original): (&str, Shape, VorlaufShape)| {
        let question = Question::new(Call::VorlaufSpan).with_shape(shape);
        case(question, what, anchored, move |i| ends(black_box(original), i.from))
    };
    SHAPES.map(of_shape).into()
}

/// The ends of the span, by the original's steps.
fn ends(shape: VorlaufShape, day: time::Date) -> (Option<time::Date>, Option<time::Date>) {
    let on = |n| mako_fristen::add_werktage(day, n, BdewMaKo);
    let back = |n| mako_fristen::sub_werktage(day, n, BdewMaKo);
    let after = |n| {
        let first = mako_fristen::next_werktag(day, BdewMaKo);
        mako_fristen::add_werktage(first, n - 1, BdewMaKo).next_day()
    };
    let months = |n, day: time::Date| {
        let shifted = mako_fristen::add_months(day, n);
        if shifted.day() == day.day() {
            Some(shifted)
        } else {
            shifted.next_day()
        }
    };
    match shape {
        VorlaufShape::LatestWerktageBefore(n) => (after(n), None),
        VorlaufShape::WindowWerktageBefore { earliest, latest } => {
            (after(latest), Some(on(earliest)))
        }
        VorlaufShape::LatestWerktageAfter(n) => (Some(back(n)), None),
        VorlaufShape::EarliestWerktageAfter(n) => (Some(on(n)), None),
        VorlaufShape::Korridor(n) => (Some(back(n)), Some(on(n))),
        VorlaufShape::TagVorDemLetztenWerktagVor => (on(1).next_day(), None),
        VorlaufShape::LatestMonateBefore(n) => (months(n, day), None),
        VorlaufShape::LatestMonateUndWerktageBefore { monate, werktage } => {
            (after(werktage).and_then(|day| months(monate, day)), None)
        }
    }
}

fn deregistrations(anchored: &[(u32, u32)]) -> Vec<Case> {
    const NO: u8 = Eeg::No.code();
    let reason = Reason::new(b"Z33").expect("three bytes");
    let of_reason = |call| Question::new(call).with_reason(reason).with_code(NO);
    let mut announcement =
        case(Question::new(Call::EogAnkuendigungFristgerecht), "", anchored, |i| {
            vorlauf::eog_ankuendigung_fristgerecht(i.at, i.to, BdewMaKo)
        });
    for input in &mut announcement.inputs {
        input.question.date = input.question.date2;
    }
    vec![
        case(of_reason(Call::AbmeldungFuer), "Z33, no EEG", anchored, |_| {
            AbmeldungVorlauf::fuer(black_box("Z33"), black_box(Some(false)))
        }),
        case(of_reason(Call::AbmeldungCheck), "Z33, no EEG", anchored, |i| {
            let vorlauf = AbmeldungVorlauf::fuer(black_box("Z33"), black_box(Some(false)));
            vorlauf.check(i.from, i.to, BdewMaKo)
        }),
        announcement,
    ]
}

/// Each first date with an anchor from 1 to 20 days later.
fn anchored(pairs: &[(u32, u32)]) -> Vec<(u32, u32)> {
    let mut random = Random::at(2, 0, 0);
    pairs.iter().map(|&(from, _)| (from, from + 1 + random.below(20))).collect()
}

/// Every day of the years, the first date of a pair.
fn span(first: u16, last: u16) -> Vec<(u32, u32)> {
    let (from, to) = (first_of_january(first), first_of_january(last + 1));
    (from..to).map(|index| (index, index)).collect()
}

/// Days of so many years from the first on, spread over the year, each with the same day so many
/// years later.
fn spread(first: u16, years: u16, later: u16) -> Vec<(u32, u32)> {
    let beginning = |place: u16| {
        let year = first + place * years / BEGINNINGS;
        let day_of_year = u32::from(place * (365 / BEGINNINGS));
        (first_of_january(year) + day_of_year, first_of_january(year + later) + day_of_year)
    };
    (0..BEGINNINGS).map(beginning).collect()
}

fn first_of_january(year: u16) -> u32 {
    days::index(days::given(Date::new(year, 1, 1)).expect("a year of the calendar"))
}

/// In an order that no branch predictor knows.
fn mixed(pairs: &[(u32, u32)]) -> Vec<(u32, u32)> {
    let mut random = Random::at(0, 0, 0);
    let mut keyed: Vec<_> = pairs.iter().map(|&pair| (random.number(), pair)).collect();
    keyed.sort_unstable();
    keyed.into_iter().map(|(_, pair)| pair).collect()
}

fn ours(inputs: &[Input], lent: usize) {
    let mut answer = [0; Answer::LEN];
    let answer = &mut answer[..lent];
    for input in inputs {
        black_box(black_box(&input.question).ask(black_box(&mut *answer)));
    }
}

/// Nanoseconds of one pass, over as many as the least time asks.
fn time_of(pass: &dyn Fn(), passes: u32) -> f64 {
    let start = Instant::now();
    (0..passes).for_each(|_| pass());
    start.elapsed().as_nanos() as f64 / f64::from(passes)
}

fn passes_of(pass: &dyn Fn()) -> u32 {
    pass();
    (LEAST / time_of(pass, 1)).ceil() as u32
}

fn median(mut times: Vec<f64>) -> f64 {
    times.sort_by(f64::total_cmp);
    times[times.len() / 2]
}

/// Nanoseconds of one call, ours and the original's.
fn measured(case: &Case) -> (f64, Option<f64>) {
    let Case { inputs, original, walked, lent, .. } = case;
    let per = |time: f64, inputs: &[Input]| time / inputs.len() as f64;
    let Some(original) = original else {
        let [time] = medians([&|| ours(inputs, *lent)]);
        return (per(time, inputs), None);
    };
    let walked = &inputs[..*walked];
    let [ours, original] = medians([&|| ours(inputs, *lent), &|| original(walked)]);
    (per(ours, inputs), Some(per(original, walked)))
}

/// Nanoseconds of one pass of each side. They take turns, and each first does as many passes that are
/// not timed, since the processor still expects the branches of the other.
fn medians<const N: usize>(sides: [&dyn Fn(); N]) -> [f64; N] {
    let passes = sides.map(passes_of);
    let mut times = [const { Vec::new() }; N];
    for round in 0..ROUNDS {
        for turn in 0..N {
            let side = (round + turn) % N;
            time_of(sides[side], passes[side]);
            times[side].push(time_of(sides[side], passes[side]));
        }
    }
    times.map(median)
}

/// The least that a call with an answer does: it tests the length and fills 32 bytes.
#[inline(never)]
fn fill(_reason: &[u8], eeg: u8, answer: &mut [u8]) -> u8 {
    if answer.len() != Answer::LEN {
        return 1;
    }
    answer.fill(0);
    answer[1] = eeg;
    0
}

/// Nanoseconds of such a call, which no call of ours can fall below.
fn floor() -> f64 {
    const CALLS: u32 = 4000;
    let pass = || {
        let mut answer = [0; Answer::LEN];
        for _ in 0..CALLS {
            black_box(fill(black_box(b"Z33"), black_box(0), black_box(&mut answer)));
        }
    };
    let passes = passes_of(&pass);
    median((0..ROUNDS).map(|_| time_of(&pass, passes)).collect()) / f64::from(CALLS)
}

fn print_row(name: &str, what: &str, ours: f64, original: f64) {
    let ratio = original / ours;
    println!("{name:36} {what:16} {ours:12.1} {original:12.1} {ratio:8.2}");
}

fn print_case(case: &Case, only: &str) {
    let (name, what) = (case.inputs[0].question.call.name(), &case.what);
    if !format!("{name} {what}").contains(only) {
        return;
    }
    match measured(case) {
        (ours, Some(original)) => print_row(name, what, ours, original),
        (ours, None) => println!("{name:36} {what:16} {ours:12.1}"),
    }
}

fn main() {
    options::only(&["--only"]);
    let only: String = options::option("--only", String::new());
    println!("Nanoseconds per call, median of {ROUNDS} rounds; a ratio over 1 is in our favour.");
    println!(
        "Ours checks its numbers and writes 32 bytes; the original has its dates made before."
    );
    println!(
        "Dates are all days of 2020 to 2030, mixed; by 250 Werktage and more and over years, 40"
    );
    println!(
        "days spread over the year, of which the original gets 4 by 200000 and over 100 years"
    );
    println!("and 900. By 4294967295 ours refuses; the original would walk to the year 9999.");
    println!(
        "Instants are one of each day. The original's times with a clock or an instant are with"
    );
    println!("the zone of oracle/time_tz and not with its own, whose times are not known.");
    println!(
        "Anchors are 1 to 20 days later. The original has no span: its steps to the same ends."
    );
    println!("Its verdict has no margin: in the rows named so it takes the steps to that as well.");
    println!(
        "The CONTRL with a change day is a Regelfall; the original has two windows of its own."
    );
    println!("The day test: ours tells why a day is closed, the original only whether.");
    println!("Files have 2048 questions in all, as many of each operation, mixed: per question.");
    println!("A count over 900 years whose answer has 31 bytes is refused with 1.");
    println!("{:36} {:16} {:>12} {:>12} {:>8}", "call", "", "ours", "original", "ratio");
    for case in cases() {
        print_case(&case, &only);
    }
    files::print(&only);
    print_case(&wrong_length(), &only);
    println!("{:53} {:12.1}", "a call that only fills 32 bytes", floor());
    portfolio::print(&only);
}
