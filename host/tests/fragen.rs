//! A day's questions in one go: each answer is the single call's, at its place, and a file that is
//! none leaves the answers as they were.

mod zufall;

use mako_fristen_host::{
    answer_records, answers, ffi, fragen, Answer, Antwort, Clock, ContrlAnlass, Date, Error, Frage,
    Fragesatz, FristShape, Instant, Judgement, Refusal, Span, VorlaufShape, VorlaufVerdict,
    MOST_QUESTIONS,
};
use zufall::Random;

const LEN: usize = Fragesatz::LEN;
const LONGEST: usize = 65_536;
const GUARD: usize = 40;
/// More than two files.
const ROUNDS: u32 = 5_000;

/// The codes of the due shapes with a clock.
const WITH_CLOCK: [u8; 2] = [0, 2];
/// How many codes each operation knows.
const CODES: [u8; 4] = [3, 4, 8, 8];

const fn date(month: u8, day: u8) -> Date {
    Date::new(2026, month, day)
}

/// What stands in a record. Its bytes are written here, without the library.
#[derive(Clone, Copy, Debug)]
struct Places {
    operation: u8,
    code: u8,
    zeros: [u8; 2],
    counts: [u32; 2],
    date: Date,
    anchor: Date,
    received: Instant,
}

impl Places {
    /// Something good in every place: 2 April 2026, 12:00 in Berlin, and the Tuesday after Easter.
    fn ordinary(operation: u8) -> Places {
        Places {
            operation,
            code: 0,
            zeros: [0; 2],
            counts: [1, if operation == 1 { 43_200 } else { 1 }],
            date: date(4, 2),
            anchor: date(4, 7),
            received: Instant::new(1_775_124_000, 0),
        }
    }

    fn record(self) -> [u8; LEN] {
        let dated = |date: Date| {
            let [low, high] = date.year.to_le_bytes();
            [low, high, date.month, date.day]
        };
        let mut record = [0; LEN];
        record[..4].copy_from_slice(&[self.operation, self.code, self.zeros[0], self.zeros[1]]);
        record[4..8].copy_from_slice(&self.counts[0].to_le_bytes());
        record[8..12].copy_from_slice(&self.counts[1].to_le_bytes());
        record[12..16].copy_from_slice(&dated(self.date));
        record[16..20].copy_from_slice(&dated(self.anchor));
        record[20..28].copy_from_slice(&self.received.seconds.to_le_bytes());
        record[28..].copy_from_slice(&self.received.nanos.to_le_bytes());
        record
    }

    fn fragesatz(self) -> Fragesatz {
        Fragesatz::from_bytes(self.record())
    }

    /// The 32 bytes of the single call, after the checks that a record alone has.
    fn by_single_call(self) -> [u8; LEN] {
        if self.operation > 3 || self.zeros != [0; 2] {
            return *Answer::refused(Refusal::UnknownCode).as_bytes();
        }
        let Places { code, counts: [n, n2], received: Instant { seconds, nanos }, .. } = self;
        let Date { year: y, month: m, day: d } = self.date;
        let Date { year: y2, month: m2, day: d2 } = self.anchor;
        let mut answer = [0xa5; LEN];
        let lent = &mut answer;
        let number = match self.operation {
            0 => ffi::mf_contrl_due_at(seconds, nanos, code, lent),
            1 => {
                let hour = if n2 > 86_399 { 24 } else { n2 / 3600 } as u8;
                let (minute, second) = ((n2 / 60 % 60) as u8, (n2 % 60) as u8);
                ffi::mf_frist_due_at(code, n, hour, minute, second, 0, seconds, nanos, lent)
            }
            2 => ffi::mf_vorlauf_check(code, n, n2, y, m, d, y2, m2, d2, lent),
            _ => ffi::mf_vorlauf_span(code, n, n2, y, m, d, lent),
        };
        assert_eq!(number, answer[0], "{self:?}");
        answer
    }
}

/// Puts a file into a filled buffer, with other bytes around it and around its answers, and returns
/// the number and the answers after it has seen that nothing else was written.
fn watched(questions: &[u8], len: usize, fill: u8) -> (u8, Vec<u8>) {
    let mut asked = vec![!fill; GUARD + questions.len() + GUARD];
    let place = GUARD..GUARD + questions.len();
    asked[place.clone()].copy_from_slice(questions);
    let before = asked.clone();
    let mut lent = vec![fill; GUARD + len + GUARD];
    let number = ffi::mf_questions(&asked[place], &mut lent[GUARD..GUARD + len]);
    assert_eq!(asked, before, "{} bytes of questions: changed", questions.len());
    let around = lent[..GUARD].iter().chain(&lent[GUARD + len..]);
    assert!(around.into_iter().all(|&byte| byte == fill), "{len} bytes: wrote beyond");
    (number, lent[GUARD..GUARD + len].to_vec())
}

/// File by file: each answer is the single call's, whatever stood in its place.
fn assert_files(questions: &[Places]) {
    let fills = [0x00, 0xff, 0xa5].into_iter().cycle();
    for (file, fill) in questions.chunks(MOST_QUESTIONS).zip(fills) {
        let records: Vec<u8> = file.iter().flat_map(|places| places.record()).collect();
        let (number, given) = watched(&records, records.len(), fill);
        assert_eq!(number, 0);
        for (places, answer) in file.iter().zip(given.chunks(LEN)) {
            assert_eq!(answer, places.by_single_call(), "{places:?}");
        }
    }
}

/// The number in the answer to a file of this record alone.
fn refusal_of(places: Places) -> u8 {
    assert_files(&[places]);
    places.by_single_call()[0]
}

impl Random {
    /// Whole seconds, for the most part.
    fn record_clock(&mut self) -> Clock {
        match self.below(8) {
            0 => self.clock(),
            _ => Clock { nanos: 0, ..self.clock() },
        }
    }

    fn frage(&mut self) -> Frage {
        let uebertragungstag = self.date();
        let received = self.instant(uebertragungstag);
        let counts = (self.count(), self.count());
        let shape = VorlaufShape::of_code(self.below(8) as u8, counts).expect("a known code");
        match self.below(4) {
            0 => Frage::Contrl { received, anlass: ContrlAnlass::ALL[self.below(3) as usize] },
            1 => Frage::Frist { shape: self.frist_shape(), received },
            2 => {
                let anchor = self.date_near(uebertragungstag);
                Frage::Check { shape, uebertragungstag, anchor }
            }
            _ => Frage::Span { shape, uebertragungstag },
        }
    }

    fn frist_shape(&mut self) -> FristShape {
        match self.below(4) {
            0 => FristShape::WerktagAt { werktage: self.count(), at: self.record_clock() },
            1 => FristShape::EndOfWerktag(self.count()),
            2 => FristShape::SameDayAt(self.record_clock()),
            _ => FristShape::SameDay,
        }
    }

    /// Mostly one that a file may hold, sometimes any. What is not used is filled as well.
    fn places(&mut self) -> Places {
        if self.below(32) == 0 {
            return Places {
                operation: self.byte(),
                code: self.byte(),
                zeros: self.bytes(),
                counts: [self.number() as u32, self.number() as u32],
                date: Date::from_bytes(self.bytes()),
                anchor: Date::from_bytes(self.bytes()),
                received: Instant::new(self.number() as i64, self.number() as u32),
            };
        }
        let (operation, date) = (self.code(4), self.date());
        let known = CODES.get(usize::from(operation)).copied().unwrap_or_default();
        let clock = self.below(90_000) as u32;
        Places {
            operation,
            code: self.code(known),
            zeros: [self.code(1), self.code(1)],
            counts: [self.count(), if operation == 1 { clock } else { self.count() }],
            date,
            anchor: self.date_near(date),
            received: self.instant(date),
        }
    }
}

#[test]
fn each_answer_is_the_single_calls() {
    let mut random = Random(0x6672_6167);
    let questions: Vec<Frage> = (0..ROUNDS).map(|_| random.frage()).collect();
    let given = fragen(&questions);
    let bytes = answers(&questions);
    assert_eq!((given.len(), bytes.len()), (questions.len(), questions.len()));
    let (mut answered, mut refused) = ([0; 4], [0; 10]);
    for ((frage, given), bytes) in questions.iter().zip(given).zip(bytes) {
        assert_eq!(given, frage.answer(), "{frage:?}");
        assert_eq!(bytes, frage.question().answer(), "{frage:?}");
        match given {
            Ok(_) => answered[usize::from(frage.operation())] += 1,
            Err(Error::Refused(refusal)) => refused[usize::from(refusal.number())] += 1,
            Err(Error::Unreadable(unreadable)) => panic!("{frage:?}: {unreadable}"),
        }
    }
    assert!(answered.iter().all(|&count| count > ROUNDS / 10), "{answered:?} answered");
    assert!(
        [3, 4, 5, 8].iter().all(|&number| refused[number] > ROUNDS / 200),
        "{refused:?} refused"
    );
}

#[test]
fn each_record_has_the_single_calls_answer() {
    let mut random = Random(0x7361_747a);
    let questions: Vec<Places> = (0..ROUNDS).map(|_| random.places()).collect();
    assert_files(&questions);
    let records: Vec<u8> = questions.iter().flat_map(|places| places.record()).collect();
    let single: Vec<u8> = questions.iter().flat_map(|places| places.by_single_call()).collect();
    assert!(answer_records(&records) == Ok(single));
}

/// Days and instants about the first and the last, and the two Sundays on which the clock changes;
/// no date and no instant.
#[test]
fn at_the_edges_of_the_calendar() {
    let dates = [
        Date::FIRST,
        Date::new(1996, 1, 2),
        date(3, 29),
        date(10, 25),
        Date::new(2899, 12, 30),
        Date::LAST,
        Date::new(1995, 12, 31),
        Date::new(2900, 1, 1),
    ];
    let seconds = [Instant::FIRST.seconds, 1_774_746_000, 1_792_890_000, Instant::LAST.seconds];
    let around = |second: i64| [-1, 0, 1].map(|step| Instant::new(second + step, 999_999_999));
    let mut questions = Vec::new();
    for (operation, codes) in (0..).zip(CODES) {
        let ordinary = Places::ordinary(operation);
        for code in 0..codes {
            for counts in [[0, 0], [1, 0], [1, 2], [40, 9_000], [u32::MAX, 86_399]] {
                let places = Places { code, counts, ..ordinary };
                if operation < 2 {
                    let received = seconds.into_iter().flat_map(around);
                    questions.extend(received.map(|received| Places { received, ..places }));
                    continue;
                }
                for pair in dates.chunks(2) {
                    for (date, anchor) in [(pair[0], pair[1]), (pair[1], pair[0])] {
                        questions.push(Places { date, anchor, ..places });
                        questions.push(Places { date, anchor: date, ..places });
                    }
                }
            }
        }
    }
    assert_files(&questions);
}

/// 29 March 2026 lacks 02:30; in a file, it is refused for `SameDayAt` alone.
#[test]
fn an_absent_time_is_refused_in_a_file_too() {
    let received = Instant::new(1_774_778_400, 0);
    let absent = Places { counts: [1, 9_000], received, ..Places::ordinary(1) };
    let refusals = [0, 1, 2, 3].map(|code| refusal_of(Places { code, ..absent }));
    assert_eq!(refusals, [0, 0, 6, 0]);
}

/// Written out: operation, code and two zeros, the counts, the dates, the seconds, the nanoseconds.
#[test]
fn a_record_is_laid_out_as_document_02_has_it() {
    let received = Instant::new(0x0102_0304_0506, 0x0a0b_0c0d);
    let (uebertragungstag, anchor) = (date(4, 2), Date::new(0x1234, 5, 6));
    let frist = |shape| Frage::Frist { shape, received };
    let at = Clock::new(3, 2, 1, 0); // 10,921 seconds, 0x2aa9
    let shape = VorlaufShape::LatestMonateUndWerktageBefore { monate: 0x0708, werktage: 9 };
    let korridor = VorlaufShape::Korridor(4);
    let rows = [
        (
            Frage::Contrl { received, anlass: ContrlAnlass::StromUtilmdOderOrders },
            "00010000 00000000 00000000 00000000 00000000 0605040302010000 0d0c0b0a",
        ),
        (
            frist(FristShape::WerktagAt { werktage: 7, at }),
            "01000000 07000000 a92a0000 00000000 00000000 0605040302010000 0d0c0b0a",
        ),
        (
            frist(FristShape::EndOfWerktag(7)),
            "01010000 07000000 00000000 00000000 00000000 0605040302010000 0d0c0b0a",
        ),
        (
            frist(FristShape::SameDayAt(at)),
            "01020000 00000000 a92a0000 00000000 00000000 0605040302010000 0d0c0b0a",
        ),
        (
            frist(FristShape::SameDay),
            "01030000 00000000 00000000 00000000 00000000 0605040302010000 0d0c0b0a",
        ),
        (
            Frage::Check { shape, uebertragungstag, anchor },
            "02070000 08070000 09000000 ea070402 34120506 0000000000000000 00000000",
        ),
        (
            Frage::Span { shape: korridor, uebertragungstag },
            "03040000 04000000 00000000 ea070402 00000000 0000000000000000 00000000",
        ),
    ];
    for (frage, hex) in rows {
        let record = frage.fragesatz().expect("whole seconds");
        assert_eq!(format!("{record:x}"), hex.replace(' ', ""), "{frage:?}");
        assert_eq!((record.operation(), record.call()), (frage.operation(), Some(frage.call())));
        assert_eq!(record.frage(), Ok(frage));
    }
}

/// Each field that is read is the one that was written, in bytes of any kind.
#[test]
fn a_record_has_the_fields_that_were_written() {
    let mut random = Random(0x6665_6c64);
    for _ in 0..ROUNDS {
        let places = random.places();
        let Places { operation, code, counts, date, anchor, received, .. } = places;
        let record = places.fragesatz();
        assert_eq!((record.operation(), record.code()), (operation, code));
        assert_eq!([record.count(), record.second_count()], counts);
        assert_eq!((record.date(), record.anchor()), (date, anchor));
        assert_eq!(record.instant(), received);
        let again = Fragesatz::default()
            .with_operation(operation)
            .with_code(code)
            .with_count(counts[0])
            .with_second_count(counts[1])
            .with_date(date)
            .with_anchor(anchor)
            .with_instant(received);
        assert_eq!(again, Places { zeros: [0; 2], ..places }.fragesatz());
    }
}

/// But for a clock that is no time of day, which a record cannot tell from another such.
#[test]
fn a_question_is_its_record_and_back() {
    let mut random = Random(0x7a75_7275);
    let mut clocks = 0;
    for _ in 0..ROUNDS {
        let frage = random.frage();
        let shape = if let Frage::Frist { shape, .. } = frage { Some(shape) } else { None };
        let clock = shape.and_then(FristShape::clock);
        let fraction = clock.is_some_and(|at| at.second_of_day().is_some() && at.nanos > 0);
        let Some(record) = frage.fragesatz() else {
            assert!(fraction, "{frage:?}");
            continue;
        };
        assert!(!fraction, "{frage:?}");
        match clock.map(Clock::second_of_day) {
            Some(None) => assert_eq!(record.frage(), Err(Refusal::NoClock), "{frage:?}"),
            _ => assert_eq!(record.frage(), Ok(frage)),
        }
        clocks += u32::from(clock.is_some());
    }
    assert!(clocks > ROUNDS / 20, "{clocks} clocks");
}

/// A record is a question exactly if it is not refused for a code or a clock; its answer is then
/// the question's.
#[test]
fn a_record_is_a_question_or_refused() {
    let mut random = Random(0x7275_6563);
    let mut questions = 0;
    for _ in 0..ROUNDS {
        let places = random.places();
        let answer = Answer::from_bytes(places.by_single_call());
        match places.fragesatz().frage() {
            Ok(frage) => {
                assert_eq!(frage.question().answer(), answer.checked(frage.call()), "{frage:?}");
                assert_eq!(frage.answer(), frage.read(&answer), "{frage:?}");
                let again = frage.fragesatz().map(|record| record.frage());
                assert_eq!(again, Some(Ok(frage)));
                questions += 1;
            }
            Err(Refusal::UnknownCode) => assert_eq!(answer.number(), 2, "{answer:x}"),
            Err(refusal) => {
                assert_eq!(refusal, Refusal::NoClock);
                assert!([4, 5].contains(&answer.number()), "{answer:x}");
            }
        }
    }
    assert!(questions > ROUNDS / 2, "{questions} questions");
}

/// Before all others: a date, an instant and a clock are none as well.
#[test]
fn refusal_2_for_an_operation_a_code_and_the_zeros() {
    let spoiled = |operation| Places {
        counts: [u32::MAX; 2],
        date: date(2, 29),
        anchor: Date::default(),
        received: Instant::new(i64::MIN, u32::MAX),
        ..Places::ordinary(operation)
    };
    for operation in 0..4 {
        for fill in 1..=u8::MAX {
            for zeros in [[fill, 0], [0, fill], [fill, fill]] {
                for places in [Places::ordinary(operation), spoiled(operation)] {
                    refuses_with_2(Places { zeros, ..places });
                }
            }
        }
        for code in CODES[usize::from(operation)]..=u8::MAX {
            refuses_with_2(Places { code, ..Places::ordinary(operation) });
            refuses_with_2(Places { code, ..spoiled(operation) });
        }
        for code in 0..CODES[usize::from(operation)] {
            let known = Places { code, ..Places::ordinary(operation) };
            assert_eq!(refusal_of(known), 0, "{known:?}");
        }
    }
    for operation in 4..=u8::MAX {
        refuses_with_2(Places::ordinary(operation));
        refuses_with_2(spoiled(operation));
    }
}

fn refuses_with_2(places: Places) {
    assert_eq!(refusal_of(places), 2, "{places:?}");
    assert_eq!(places.fragesatz().frage(), Err(Refusal::UnknownCode), "{places:?}");
}

/// A clock is looked at where the shape has one, after the instant.
#[test]
fn refusal_5_for_a_clock_over_86399() {
    for code in 0..4 {
        let with_clock = WITH_CLOCK.contains(&code);
        for (clock, no_time) in [(86_399, false), (86_400, true), (u32::MAX, true)] {
            let places = Places { code, counts: [1, clock], ..Places::ordinary(1) };
            let refusal = if with_clock && no_time { 5 } else { 0 };
            assert_eq!(refusal_of(places), refusal, "{places:?}");
            let frage = places.fragesatz().frage();
            let no_clock = (refusal == 5).then_some(Refusal::NoClock);
            assert_eq!(frage.err(), no_clock, "{places:?}");
            let outside = Places { received: Instant::new(0, 0), ..places };
            assert_eq!(refusal_of(outside), 4, "{outside:?}");
        }
    }
    for operation in [0, 2, 3] {
        for counts in [[1, 86_400], [1, u32::MAX]] {
            let places = Places { counts, ..Places::ordinary(operation) };
            assert_eq!(refusal_of(places), 0, "{places:?}");
        }
    }
}

/// In the question and in the record: 0:60:00 is not 1:00:00.
#[test]
fn what_is_no_time_of_day_is_refused_in_a_file_too() {
    let none = [
        Clock::new(24, 0, 0, 0),
        Clock::new(0, 60, 0, 0),
        Clock::new(0, 0, 60, 0),
        Clock::new(0, 0, 0, 1_000_000_000),
        Clock::new(23, 59, 60, 0),
        Clock::new(24, 0, 0, 5),
        Clock::new(255, 255, 255, u32::MAX),
    ];
    let received = Places::ordinary(1).received;
    for at in none {
        for shape in [FristShape::WerktagAt { werktage: 1, at }, FristShape::SameDayAt(at)] {
            let frage = Frage::Frist { shape, received };
            let second_count = frage.fragesatz().map(|record| record.second_count());
            assert!(second_count.is_some_and(|count| count > 86_399), "{frage:?}");
            assert_eq!(fragen(&[frage]), [Err(Refusal::NoClock.into())], "{frage:?}");
            assert_eq!(frage.answer(), Err(Refusal::NoClock.into()), "{frage:?}");
        }
    }
}

/// Each place that an operation or its shape does not use, filled with what would be refused.
#[test]
fn what_is_not_used_is_not_looked_at() {
    type Spoil = fn(Places) -> Places;
    let spoils: [(&str, Spoil); 5] = [
        ("count", |p| Places { counts: [u32::MAX, p.counts[1]], ..p }),
        ("second count", |p| Places { counts: [p.counts[0], u32::MAX], ..p }),
        ("date", |p| Places { date: Date::new(u16::MAX, 255, 255), ..p }),
        ("anchor", |p| Places { anchor: date(2, 29), ..p }),
        ("instant", |p| Places { received: Instant::new(i64::MIN, u32::MAX), ..p }),
    ];
    for (operation, codes) in (0..).zip(CODES) {
        for code in 0..codes {
            let plain = Places { code, ..Places::ordinary(operation) };
            let answer = plain.by_single_call();
            assert_eq!(refusal_of(plain), 0, "{plain:?}");
            for (place, spoil) in spoils {
                let spoiled = spoil(plain);
                let (_, given) = watched(&spoiled.record(), LEN, 0xa5);
                let used = uses(operation, code, place);
                assert_eq!(given == answer, !used, "{place} of {plain:?}");
                let same = spoiled.fragesatz().frage() == plain.fragesatz().frage();
                assert_eq!(same, !used, "{place} of {plain:?}");
            }
        }
    }
}

fn uses(operation: u8, code: u8, place: &str) -> bool {
    match (operation, place) {
        (0, place) => place == "instant",
        (1, "count") => [0, 1].contains(&code),
        (1, "second count") => WITH_CLOCK.contains(&code),
        (1, place) => place == "instant",
        (_, "count") => code != 5,
        (_, "second count") => [1, 7].contains(&code),
        (2, place) => place != "instant",
        (_, place) => place == "date",
    }
}

/// The number for each length of the questions and of the answers, which stay as they are on 9.
#[test]
fn refusal_9_leaves_the_answers_untouched() {
    let record = Places::ordinary(0).record();
    let answer = Places::ordinary(0).by_single_call();
    for len in [0, 1, 31, 32, 33, 64, 65_535, LONGEST, 65_537, 65_568] {
        let questions: Vec<u8> = record.into_iter().cycle().take(len).collect();
        let whole = len % LEN == 0 && len <= LONGEST;
        for fill in [0x00, 0xa5, 0xff] {
            let shorter = [0, len.saturating_sub(LEN), len.saturating_sub(1)];
            for other in
                shorter.into_iter().filter(|&other| other < len).chain([len + 1, len + LEN])
            {
                let (number, left) = watched(&questions, other, fill);
                assert_eq!(number, 9, "{len} bytes, {other} for the answers");
                assert!(left.iter().all(|&byte| byte == fill), "{len}, {other}");
            }
            let (number, left) = watched(&questions, len, fill);
            assert_eq!(number, if whole { 0 } else { 9 }, "{len} bytes");
            if whole {
                assert!(left.chunks(LEN).all(|given| given == answer), "{len} bytes");
            } else {
                assert!(left.iter().all(|&byte| byte == fill), "{len} bytes");
            }
        }
    }
}

/// Also where a record is refused, and where all are: 9 comes before they are read.
#[test]
fn refusal_9_goes_before_the_others() {
    for questions in [vec![0xff; LEN + 1], vec![0xff; LONGEST + LEN]] {
        let (number, left) = watched(&questions, questions.len(), 0xa5);
        assert_eq!(number, 9);
        assert!(left.iter().all(|&byte| byte == 0xa5));
    }
    let (number, left) = watched(&vec![0xff; LONGEST], LONGEST, 0xa5);
    let refused = Answer::refused(Refusal::UnknownCode);
    assert_eq!(number, 0, "each is refused on its own");
    assert!(left.chunks(LEN).all(|answer| answer == refused.as_bytes()));
}

/// So that each answer tells its place: an hour later, one after the other.
fn hourly(count: i64) -> Vec<Frage> {
    let at = |hour| Instant::new(1_767_222_000 + hour * 3_600, 0);
    let contrl = |hour| Frage::Contrl { received: at(hour), anlass: ContrlAnlass::GasAlocat };
    (0..count).map(contrl).collect()
}

#[test]
fn more_than_a_file_holds_is_answered_in_order() {
    for count in [1, 2_047, 2_048, 2_049, 4_096, 4_097] {
        let questions = hourly(count);
        let single: Vec<_> = questions.iter().map(Frage::answer).collect();
        assert!(single.iter().all(Result::is_ok));
        assert_eq!(fragen(&questions), single, "{count} questions");
        let bytes: Vec<_> = questions.iter().map(|frage| frage.question().answer()).collect();
        assert_eq!(answers(&questions), bytes, "{count} questions");
        let record = |frage: &Frage| *frage.fragesatz().expect("no clock").as_bytes();
        let records: Vec<u8> = questions.iter().flat_map(record).collect();
        let given: Vec<u8> =
            bytes.into_iter().flatten().flat_map(|answer| *answer.as_bytes()).collect();
        assert_eq!(answer_records(&records), Ok(given), "{count} questions");
    }
}

#[test]
fn records_come_whole() {
    for len in [1, 31, 33, 65_535, 65_537, 2 * LONGEST + 1] {
        let refused = answer_records(&vec![0; len]);
        assert_eq!(refused, Err(Error::Refused(Refusal::FileLength)), "{len} bytes");
    }
    for len in [32, 64, LONGEST, 65_568, 3 * LONGEST] {
        let given = answer_records(&vec![0; len]).map(|answers| answers.len());
        assert_eq!(given, Ok(len));
    }
}

#[test]
fn no_question_has_no_answer() {
    assert_eq!(fragen(&[]), []);
    assert_eq!(answers(&[]), []);
    assert_eq!(answer_records(&[]), Ok(Vec::new()));
    assert_eq!(ffi::mf_questions(&[], &mut []), 0);
}

/// It is answered at its place among the others, at the first and the last of a file as well.
#[test]
fn a_fraction_of_a_second_has_no_record_and_an_answer() {
    let noon = Clock::new(12, 0, 0, 0);
    let received = Places::ordinary(1).received;
    let at = |shape| Frage::Frist { shape, received };
    for nanos in [1, 500_000_000, 999_999_999] {
        let clock = Clock { nanos, ..noon };
        let next = FristShape::WerktagAt { werktage: 2, at: clock };
        let fractions = [at(FristShape::SameDayAt(clock)), at(next)];
        let mut questions = hourly(4_097);
        for place in [0, 1, 2_047, 2_048, 4_096] {
            questions[place] = fractions[place % 2];
        }
        let single: Vec<_> = questions.iter().map(Frage::answer).collect();
        assert_eq!(fragen(&questions), single);
        for fraction in fractions {
            assert_eq!(fraction.fragesatz(), None);
            let Ok(Antwort::Due(due)) = fraction.answer() else { panic!("{fraction:?}") };
            assert_eq!(due.nanos, nanos);
            assert_eq!(answers(&[fraction]), [fraction.question().answer()]);
        }
    }
    // Received at noon, the fraction is yet to come on that day.
    let due = |shape| fragen(&[at(shape)]);
    let next = Antwort::Due(Instant::new(1_775_556_000, 0));
    assert_eq!(due(FristShape::SameDayAt(noon)), [Ok(next)]);
    let later = Antwort::Due(Instant::new(received.seconds, 1));
    assert_eq!(due(FristShape::SameDayAt(Clock { nanos: 1, ..noon })), [Ok(later)]);
}

/// The cases of document 01 that a file can ask for, and each refusal but that of a code.
#[test]
fn the_cases_of_document_01_in_one_file() {
    let before = |n| VorlaufShape::LatestWerktageBefore(n);
    let day_before = VorlaufShape::TagVorDemLetztenWerktagVor;
    let month = VorlaufShape::LatestMonateBefore(1);
    let window = VorlaufShape::WindowWerktageBefore { earliest: 1, latest: 1 };
    let check = |shape, uebertragungstag, anchor| Frage::Check { shape, uebertragungstag, anchor };
    let span = |shape, uebertragungstag| Frage::Span { shape, uebertragungstag };
    let contrl = |seconds| Frage::Contrl {
        received: Instant::new(seconds, 0),
        anlass: ContrlAnlass::Regelfall,
    };
    let same_day_at = |hour, minute, seconds| Frage::Frist {
        shape: FristShape::SameDayAt(Clock::new(hour, minute, 0, 0)),
        received: Instant::new(seconds, 0),
    };
    let judged = |verdict, margin| Ok(Antwort::Verdict(Judgement { verdict, margin }));
    let too_late = |shortfall_wt, earliest_possible, margin| {
        judged(VorlaufVerdict::TooLate { shortfall_wt, earliest_possible }, margin)
    };
    let from = |first| Ok(Antwort::Span(Span::From(first)));
    let due = |seconds| Ok(Antwort::Due(Instant::new(seconds, 0)));
    let refused = |refusal: Refusal| Err(refusal.into());
    let rows = [
        (check(before(1), date(1, 10), date(1, 12)), too_late(0, date(1, 12), -1)),
        (span(before(1), date(1, 10)), from(date(1, 13))),
        (check(day_before, date(1, 8), date(1, 9)), too_late(1, date(1, 10), -1)),
        (check(day_before, date(1, 8), date(1, 10)), judged(VorlaufVerdict::Ok, 0)),
        (check(month, date(1, 31), date(2, 28)), too_late(2, date(2, 28), -3)),
        (span(month, date(1, 31)), from(date(3, 1))),
        (span(window, date(1, 10)), Ok(Antwort::Span(Span::Empty))),
        (contrl(1_774_951_199), due(1_774_972_799)),
        (contrl(1_774_951_200), due(1_775_080_800)),
        (same_day_at(12, 0, 1_767_956_400), due(1_768_215_600)),
        (span(before(1), date(2, 29)), refused(Refusal::NoDate)),
        (contrl(0), refused(Refusal::InstantOutside)),
        (same_day_at(24, 0, 1_767_956_400), refused(Refusal::NoClock)),
        (same_day_at(2, 30, 1_774_778_400), refused(Refusal::LocalTimeAbsent)),
        (span(before(1), Date::LAST), refused(Refusal::LeavesCalendar)),
    ];
    assert_eq!(fragen(&rows.map(|(frage, _)| frage)), rows.map(|(_, answer)| answer));
}
