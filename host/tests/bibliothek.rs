//! What a service relies on: every function returns for every input, and for each call the function
//! with plain types gives what the question gives. Arguments are random, from a fixed seed.

mod zufall;

use mako_fristen_host::*;
use std::fmt::{Debug, Display};
use std::time::SystemTime;
use zufall::Random;

const ROUNDS: u32 = 1_000;

type Given = Result<Answer, Error>;

impl Random {
    fn reason(&mut self) -> Reason {
        let bytes: [u8; Reason::LONGEST] = self.bytes();
        let len = self.below(Reason::LONGEST as u64 + 1) as usize;
        let reason = [&b"ZQ7"[..], b"Z33", b"zq7", &bytes[..len]][self.below(4) as usize];
        Reason::new(reason).unwrap_or_default()
    }

    fn question(&mut self, call: Call) -> Question {
        let date = self.date();
        let date2 = self.date_near(date);
        Question {
            call,
            code: self.code(call.codes().unwrap_or_default()),
            code2: self.code(Sparte::ALL.len() as u8),
            date,
            date2,
            n: self.count().wrapping_add(if call.takes(Parameter::Pid) { 44_000 } else { 0 }),
            n2: self.count(),
            instant: self.instant(date),
            instant2: self.instant(date2),
            clock: self.clock(),
            reason: self.reason(),
        }
    }
}

fn kind(kind: u8) -> Answer {
    Answer::default().with_kind(kind)
}

fn dated(date: Date) -> Answer {
    Answer::default().with_date(date)
}

fn timed(instant: Instant) -> Answer {
    Answer::default().with_instant(instant)
}

fn gas(GasDue { kind: prozess, due }: GasDue) -> Answer {
    timed(due).with_kind(prozess as u8)
}

fn judged(Judgement { verdict, margin }: Judgement) -> Answer {
    let answer = match verdict {
        VorlaufVerdict::Ok => kind(0),
        VorlaufVerdict::TooLate { shortfall_wt, earliest_possible } => {
            dated(earliest_possible).with_kind(1).with_count(shortfall_wt)
        }
        VorlaufVerdict::TooEarly { excess_wt } => kind(2).with_count(excess_wt),
    };
    answer.with_margin(margin)
}

fn counted(WerktageBetween { werktage, days_tested }: WerktageBetween) -> Answer {
    Answer::default().with_count(werktage).with_days_tested(days_tested)
}

fn spanned(span: Span) -> Answer {
    match span {
        Span::From(first) => dated(first),
        Span::Between(first, last) => dated(first).with_kind(1).with_last_date(last),
        Span::Empty => kind(2),
    }
}

/// The case of a code; a function with plain types cannot be asked for any other.
fn case<T: Copy>(all: &[T], code: u8) -> Result<T, Error> {
    Ok(all.get(usize::from(code)).copied().ok_or(Refusal::UnknownCode)?)
}

fn frist_shape(q: &Question) -> Result<FristShape, Error> {
    let shapes = [
        FristShape::WerktagAt { werktage: q.n, at: q.clock },
        FristShape::EndOfWerktag(q.n),
        FristShape::SameDayAt(q.clock),
        FristShape::SameDay,
    ];
    case(&shapes, q.code)
}

fn vorlauf_shape(q: &Question) -> Result<VorlaufShape, Error> {
    let shapes = [
        VorlaufShape::LatestWerktageBefore(q.n),
        VorlaufShape::WindowWerktageBefore { earliest: q.n, latest: q.n2 },
        VorlaufShape::LatestWerktageAfter(q.n),
        VorlaufShape::EarliestWerktageAfter(q.n),
        VorlaufShape::Korridor(q.n),
        VorlaufShape::TagVorDemLetztenWerktagVor,
        VorlaufShape::LatestMonateBefore(q.n),
        VorlaufShape::LatestMonateUndWerktageBefore { monate: q.n, werktage: q.n2 },
    ];
    case(&shapes, q.code)
}

/// The answer by the function with plain types; none if the call has no such function.
fn typed(q: &Question) -> Option<Given> {
    by_date(q).or_else(|| by_instant(q)).or_else(|| by_case(q).transpose())
}

fn by_date(q: &Question) -> Option<Given> {
    Some(match q.call {
        Call::IsWerktag => day_reason(q.date).map(|reason| kind(reason.number())),
        Call::NextWerktag => next_werktag(q.date).map(dated),
        Call::AddWerktage => add_werktage(q.date, q.n).map(dated),
        Call::SubWerktage => sub_werktage(q.date, q.n).map(dated),
        Call::WerktageBetween => werktage_between(q.date, q.date2).map(counted),
        Call::AddMonths => add_months(q.date, q.n).map(dated),
        Call::SubtractMonths => subtract_months(q.date, q.n).map(dated),
        Call::BerlinAt => berlin_at(q.date, q.clock).map(timed),
        Call::BerlinMidnight => berlin_midnight(q.date).map(timed),
        Call::EndOfDayBerlin => end_of_day_berlin(q.date).map(timed),
        _ => return None,
    })
}

fn by_instant(q: &Question) -> Option<Given> {
    Some(match q.call {
        Call::BerlinDate => berlin_date(q.instant).map(dated),
        Call::AperakStromDueAt => aperak_strom_due_at(q.instant).map(timed),
        Call::AperakStromAllgemeinDueAt => aperak_strom_allgemein_due_at(q.instant).map(timed),
        Call::AperakGasFolgeprozessDueAt => aperak_gas_folgeprozess_due_at(q.instant).map(gas),
        Call::AperakGasInitialprozessDueAt => aperak_gas_initialprozess_due_at(q.instant).map(gas),
        Call::AperakGasDueAt => aperak_gas_due_at(q.n, q.instant).map(gas),
        Call::AddHours => add_hours(q.instant, q.n).map(timed),
        Call::DeadlineAtWerktage => deadline_at_werktage(q.instant, q.n).map(timed),
        Call::EndOfWerktagAfter => end_of_werktag_after(q.instant, q.n).map(timed),
        Call::NextWerktagAt => next_werktag_at(q.instant, q.clock).map(timed),
        Call::NthWerktagAt => nth_werktag_at(q.instant, q.n, q.clock).map(timed),
        Call::EogAnkuendigungFristgerecht => eog_ankuendigung_fristgerecht(q.instant, q.date)
            .map(|in_time| kind(in_time.map_or(2, u8::from))),
        _ => return None,
    })
}

fn by_case(q: &Question) -> Result<Option<Answer>, Error> {
    let reason = q.reason.as_bytes();
    Ok(Some(match q.call {
        Call::TagesbeginnUtc => timed(tagesbeginn_utc(q.date, case(&Sparte::ALL, q.code)?)?),
        Call::TagDesBeginns => dated(tag_des_beginns(q.instant, case(&Sparte::ALL, q.code)?)?),
        Call::ContrlDueAt => timed(contrl_due_at(q.instant, case(&ContrlAnlass::ALL, q.code)?)?),
        Call::ContrlDueAtChange => {
            let anlass = case(&ContrlAnlass::ALL, q.code)?;
            timed(contrl_due_at_change(q.instant, anlass, q.date)?)
        }
        Call::FristDueAt => timed(frist_shape(q)?.due_at(q.instant)?),
        Call::VorlaufCheck => judged(vorlauf_shape(q)?.check(q.date, q.date2)?),
        Call::VorlaufCheckAt => {
            let sparte = case(&Sparte::ALL, q.code2)?;
            judged(vorlauf_shape(q)?.check_at(q.instant, q.instant2, sparte)?)
        }
        Call::VorlaufSpan => spanned(vorlauf_shape(q)?.span(q.date)?),
        Call::AbmeldungFuer => {
            kind(AbmeldungVorlauf::fuer(reason, case(&Eeg::ALL, q.code)?)? as u8)
        }
        Call::AbmeldungCheck => {
            let eeg = case(&Eeg::ALL, q.code)?;
            AbmeldungVorlauf::check(reason, eeg, q.date, q.date2)?.map_or(kind(3), judged)
        }
        _ => return Ok(None),
    }))
}

#[test]
fn each_call_has_a_function_with_the_same_answers() {
    let mut random = Random(0x6d61_6b6f);
    for call in Call::ALL {
        let mut answered = 0;
        for _ in 0..ROUNDS {
            let question = random.question(call);
            let answer = question.answer();
            let typed = typed(&question);
            assert_eq!(typed, Some(answer), "{question}");
            answered += u32::from(answer.is_ok());
        }
        // Else it is only refusals that were compared.
        assert!(answered > ROUNDS / 8, "{}: {answered} answered", call.name());
    }
}

/// The number that is returned, also to an answer that is too short or too long.
#[test]
fn an_answer_of_any_length_may_be_lent() {
    let mut random = Random(0x616e_7477);
    for round in 0..ROUNDS {
        let question = random.question(Call::ALL[round as usize % Call::ALL.len()]);
        let mut answer = vec![0xa5; random.below(70) as usize];
        let number = question.ask(&mut answer);
        match answer.len() {
            Answer::LEN => assert_eq!(answer[0], number, "{question}"),
            _ => assert_eq!((number, answer.iter().all(|&byte| byte == 0xa5)), (1, true)),
        }
    }
}

/// Written in both forms, and not empty.
fn is_written(value: impl Display + Debug) {
    assert!(!format!("{value}").is_empty() && !format!("{value:?}").is_empty());
}

#[test]
fn every_question_is_written() {
    let mut random = Random(0x6672_6167);
    for round in 0..ROUNDS {
        let call = Call::ALL[round as usize % Call::ALL.len()];
        let question = Question {
            call,
            code: random.byte(),
            code2: random.byte(),
            date: Date::from_bytes(random.bytes()),
            date2: Date::from_bytes(random.bytes()),
            n: random.number() as u32,
            n2: random.number() as u32,
            instant: Instant::new(random.number() as i64, random.number() as u32),
            instant2: Instant::new(random.number() as i64, random.number() as u32),
            clock: Clock::new(random.byte(), random.byte(), random.byte(), random.number() as u32),
            reason: random.reason(),
        };
        assert_eq!(question.to_bytes()[0], call.number());
        assert_eq!(question.to_bytes()[49], question.reason.as_bytes().len() as u8);
        is_written(question);
        is_written(question.date);
        is_written(question.instant);
        is_written(question.clock);
        is_written(question.reason);
    }
}

#[test]
fn every_answer_is_read() {
    let mut random = Random(0x6279_7465);
    for _ in 0..ROUNDS {
        let bytes = random.bytes();
        let answer = Answer::from_bytes(bytes);
        assert_eq!(format!("{answer:x}").len(), 2 * Answer::LEN);
        for call in Call::ALL {
            answer.checked(call).map_or_else(is_written, |_| ());
        }
        is_written(answer.date());
        is_written(answer.last_date());
        is_written(answer.instant());
        let again = Answer::default()
            .with_kind(answer.kind())
            .with_count(answer.count())
            .with_instant(answer.instant())
            .with_date(answer.date())
            .with_last_date(answer.last_date())
            .with_margin(answer.margin());
        // The refusal number and two bytes are no field of these.
        assert_eq!(again.as_bytes()[4..], bytes[4..]);
        assert_eq!(again.with_days_tested(answer.days_tested()), again);
        assert_eq!((again.as_bytes()[1], answer.number()), (bytes[1], bytes[0]));
    }
}

/// Of any numbers for days, and of dates that are none.
#[test]
fn every_pair_is_counted_or_refused() {
    let mut random = Random(0x7061_6172);
    for len in [0, 1, 2, 100, MOST_PAIRS, MOST_PAIRS + 1] {
        let pairs: Vec<_> = (0..len).map(|_| (random.date(), random.date())).collect();
        let given = portfolio(&pairs);
        assert_eq!(given.len(), len);
        for ((from, to), given) in pairs.into_iter().zip(given) {
            let inside = from.is_in_calendar() && to.is_in_calendar();
            assert_eq!(given.is_ok(), inside, "{from} {to}");
            given.map_or_else(is_written, is_written);
        }
        let mut days = || (0..len).map(|_| random.number() as u32 >> 12).collect::<Vec<_>>();
        let (from, to, mut counts) = (days(), days(), days());
        let runs = portfolio_counts(&from, &to, &mut counts);
        assert_eq!(runs.is_ok(), len <= MOST_PAIRS, "{runs:?}");
    }
}

/// Longer than a question has room for, too.
#[test]
fn a_reason_may_have_any_length() {
    let mut random = Random(0x005a_5137);
    let dates = (Date::new(2026, 1, 8), Date::new(2026, 1, 10));
    for len in 0..=300 {
        let reason: Vec<u8> = (0..len).map(|_| random.byte()).collect();
        assert_eq!(Reason::new(&reason).is_some(), len <= Reason::LONGEST);
        for eeg in Eeg::ALL {
            let vorlauf = AbmeldungVorlauf::fuer(&reason, eeg);
            assert_eq!(vorlauf.map(|vorlauf| vorlauf as u8), Ok(eeg_case(eeg)));
            let verdict = AbmeldungVorlauf::check(&reason, eeg, dates.0, dates.1);
            assert_eq!(verdict.map(|verdict| verdict.is_some()), Ok(eeg != Eeg::Unknown));
        }
    }
}

fn eeg_case(eeg: Eeg) -> u8 {
    (match eeg {
        Eeg::No => AbmeldungVorlauf::TagVorDemLetztenWerktag,
        Eeg::Yes => AbmeldungVorlauf::EinMonat,
        Eeg::Unknown => AbmeldungVorlauf::Unbestimmt,
    }) as u8
}

#[test]
fn a_span_is_asked_for_any_date() {
    let mut random = Random(0x7370_616e);
    for _ in 0..ROUNDS {
        let [first, last, anchor] = std::array::from_fn(|_| Date::from_bytes(random.bytes()));
        assert_eq!(Span::From(first).contains(anchor), first <= anchor);
        let between = Span::Between(first, last).contains(anchor);
        assert_eq!(between, first <= anchor && anchor <= last);
        assert!(!Span::Empty.contains(anchor));
    }
}

#[test]
fn every_instant_has_a_system_time_or_a_refusal() {
    let mut random = Random(0x7a65_6974);
    for _ in 0..ROUNDS {
        let instant = random.instant(Date::FIRST);
        match SystemTime::try_from(instant) {
            Ok(time) => assert_eq!(Instant::from(time), instant),
            Err(refusal) => assert_eq!(refusal, Refusal::InstantOutside, "{instant}"),
        }
    }
}

/// The types of a question and its answer are plain values, which threads may share and keep.
#[test]
fn threads_ask_at_the_same_time() {
    fn is_plain<T: Copy + Send + Sync + std::hash::Hash + 'static>() {}
    is_plain::<(Question, Answer, Date, Clock, Instant, Reason)>();
    is_plain::<(Error, Refusal, Unreadable, Content)>();
    is_plain::<(Call, Parameter, ContrlAnlass, Sparte, Eeg, GasDue, FristShape)>();
    is_plain::<(VorlaufShape, Judgement, Span, AbmeldungVorlauf, WerktageBetween)>();
    is_plain::<(Frage, Fragesatz, Antwort, DayReason, Feiertag)>();
    let mut random = Random(0x6661_6465);
    let questions: Vec<Question> = Call::ALL.map(|call| random.question(call)).to_vec();
    let answers = || questions.iter().map(Question::answer).collect::<Vec<Given>>();
    let alone = answers();
    std::thread::scope(|scope| {
        let threads: Vec<_> = (0..4).map(|_| scope.spawn(answers)).collect();
        for thread in threads {
            assert_eq!(thread.join().expect("a thread's answers"), alone);
        }
    });
}

/// A text of the signs that dates, clock times and instants have, and of one that none has.
fn any_text(random: &mut Random) -> String {
    const SIGNS: [char; 18] =
        ['0', '1', '2', '3', '4', '5', '6', '7', '8', '9', '-', ':', '.', 'T', 'Z', '+', '@', 'é'];
    let len = random.below(32);
    (0..len).map(|_| SIGNS[random.below(18) as usize]).collect()
}

#[test]
fn every_text_is_read_or_refused() {
    let mut random = Random(0x7465_7874);
    for _ in 0..ROUNDS {
        let text = any_text(&mut random);
        let (date, clock) = (random.date(), random.clock());
        let mut spoiled = format!("{date}T{clock}+02:00").into_bytes();
        let place = random.below(spoiled.len() as u64) as usize;
        spoiled[place] = random.byte() & 0x7f;
        for text in [text, String::from_utf8_lossy(&spoiled).into_owned()] {
            text.parse::<Date>().map_or_else(is_written, is_written);
            text.parse::<Clock>().map_or_else(is_written, is_written);
            text.parse::<Instant>().map_or_else(is_written, is_written);
        }
        // Longer ones have more digits in a place than the form allows.
        let (day, time) = (date.to_string(), clock.to_string());
        assert_eq!(day.parse() == Ok(date), day.len() == "2026-04-02".len(), "{day}");
        assert_eq!(time.parse() == Ok(clock), time.len() == "13:00:00.000000000".len(), "{time}");
    }
}

/// A date is one of the calendar for the call exactly if it is one here, between the limits.
#[test]
fn every_date_is_counted_or_none() {
    let mut random = Random(0x7461_6765);
    for _ in 0..ROUNDS {
        let (date, number) = (random.date(), random.number() as i64);
        let inside = (Date::FIRST..=Date::LAST).contains(&date);
        assert_eq!(is_werktag(date).is_ok(), inside && date.day_number().is_some(), "{date}");
        let again = date.day_number().and_then(Date::of_day_number);
        assert_eq!((again.is_some(), again.unwrap_or(date)), (date.weekday().is_some(), date));
        assert_eq!(Date::of_day_number(number), None);
        let day = date.calendar_day();
        assert_eq!(day.is_some(), date.is_in_calendar(), "{date}");
        assert_eq!(day.and_then(Date::of_calendar_day), day.map(|_| date));
        let any = number as u32;
        let of_any = Date::of_day_number(any.into()).filter(|date| date.is_in_calendar());
        assert_eq!(Date::of_calendar_day(any), of_any, "{any}");
        assert_eq!(date.plus_days(number), None);
        assert_eq!(is_werktag(date), day_reason(date).map(DayReason::is_werktag), "{date}");
        let holiday = Feiertag::on(date).is_ok_and(|holiday| holiday.is_some());
        assert!(!(holiday && is_werktag(date) == Ok(true)), "{date}");
        assert_eq!(Feiertag::of_year(date.year).is_ok(), (1996..2900).contains(&date.year));
    }
}

/// Berlin's time of an instant leads back to it, but for the later of two that show the same.
#[test]
fn every_instant_is_shown_or_none() {
    let mut random = Random(0x7368_6f77);
    for _ in 0..ROUNDS {
        let (date, clock) = (random.date(), random.clock());
        let instant = random.instant(date);
        let shown = BerlinTime::of(instant);
        assert_eq!(shown.map(|shown| shown.date), berlin_date(instant), "{instant}");
        if let Ok(BerlinTime { date, clock, summer, repeated }) = shown {
            let earliest = berlin_at(date, clock) == Ok(instant);
            assert_eq!(earliest, summer || !repeated, "{instant}");
        }
        let utc = instant.utc().and_then(|(date, clock)| Instant::of_utc(date, clock));
        assert_eq!(utc.unwrap_or(instant), instant);
        assert_eq!(Instant::of_utc(date, clock).is_some(), date.day_number().is_some());
        let later = instant.plus_seconds(random.number() as i64);
        assert!(later.is_none_or(|later| later.nanos == instant.nanos));
    }
}

#[test]
fn every_shape_is_described() {
    let mut random = Random(0x666f_726d);
    for _ in 0..ROUNDS {
        let question = random.question(Call::FristDueAt);
        assert!(!frist_shape(&question).map_or("none".into(), FristShape::beschreibung).is_empty());
        let question = random.question(Call::VorlaufSpan);
        let shape = vorlauf_shape(&question);
        assert!(!shape.map_or("none".into(), VorlaufShape::beschreibung).is_empty());
    }
}
