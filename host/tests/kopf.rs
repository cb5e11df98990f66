//! include/mako_fristen.h, as C and C++ compilers read it: tests/kopf.c puts the same questions as
//! the declarations of ffi.rs, by the header's.

mod zufall;

use mako_fristen_host::{
    ffi, Answer, Call, Clock, ContrlAnlass, DayReason, Eeg, Feiertag, Fragesatz, FristShape,
    Question, Reason, Refusal, Sparte, VorlaufShape, MOST_PAIRS, MOST_QUESTIONS, OUT_OF_RANGE,
};
use std::fmt::Debug;
use std::fs;
use std::io::Write;
use std::path::{Path, PathBuf};
use std::process::{Command, Stdio};
use std::sync::OnceLock;
use zufall::Random;

const HEADER: &str = include_str!("../include/mako_fristen.h");
/// How often each call is asked.
const ROUNDS: usize = 60;
/// What the slices hold before a call.
const UNTOUCHED: u8 = 0xa5;

/// The program of kopf.c; none where there is no such compiler.
fn compiled(compiler: &str, language: &[&str]) -> Option<PathBuf> {
    let program = temporary(&format!("kopf-{compiler}"));
    let mut command = Command::new(compiler);
    command.args(language).args(["-pedantic", "-Wall", "-Wextra", "-Werror", "-Iinclude"]);
    command.args(["tests/kopf.c", "-x", "none", env!("MAKO_FRISTEN_ARCHIVE"), "-o"]);
    let output = command.arg(&program).current_dir(env!("CARGO_MANIFEST_DIR")).output().ok()?;
    assert!(output.status.success(), "{}", String::from_utf8_lossy(&output.stderr));
    Some(program)
}

/// A C++ compiler need not be there.
fn programs() -> &'static [PathBuf] {
    static PROGRAMS: OnceLock<Vec<PathBuf>> = OnceLock::new();
    PROGRAMS.get_or_init(|| {
        let c = compiled("cc", &["-std=c99"]).expect("a C compiler, with which Rust links too");
        [Some(c), compiled("c++", &["-x", "c++"])].into_iter().flatten().collect()
    })
}

fn written(program: &Path, what: &str, input: &[u8]) -> Vec<u8> {
    let mut command = Command::new(program);
    command.arg(what).stdin(Stdio::piped()).stdout(Stdio::piped());
    let mut child = command.spawn().expect("it runs");
    child.stdin.take().expect("an input").write_all(input).expect("it is read");
    let output = child.wait_with_output().expect("it ends");
    assert!(output.status.success(), "{what}");
    output.stdout
}

/// The line of docs/host-calls.md, with another place of the archive. 2026-02-30 is refused with 3.
#[test]
fn a_program_is_compiled_as_the_page_says() {
    let root = Path::new(env!("CARGO_MANIFEST_DIR")).join("..");
    let page = fs::read_to_string(root.join("docs/host-calls.md")).expect("the page");
    let line = page.lines().find_map(|line| line.strip_prefix("    cc ")).expect("a line");
    let (source, program) = (temporary("kopf-x.c"), temporary("kopf-x"));
    let asks = "#include <mako_fristen.h>\nint main(void) {\n  uint8_t answer[32];\n  \
                return mf_next_werktag(2026, 2, 30, answer, sizeof answer);\n}\n";
    fs::write(&source, asks).expect("it is written");
    let (folder, name) = ("target/staticlib", "libmako_fristen.a");
    let words = line.split(' ').map(|word| match word {
        "x.c" => source.clone(),
        _ if word == format!("{folder}/{name}") => PathBuf::from(env!("MAKO_FRISTEN_ARCHIVE")),
        _ => PathBuf::from(word),
    });
    let mut cc = Command::new("cc");
    let output = cc.args(words).arg("-o").arg(&program).current_dir(root).output().expect("cc");
    assert!(output.status.success(), "{}", String::from_utf8_lossy(&output.stderr));
    assert_eq!(Command::new(program).status().expect("it runs").code(), Some(3));
}

fn temporary(name: &str) -> PathBuf {
    Path::new(env!("CARGO_TARGET_TMPDIR")).join(name)
}

fn question(call: Call, random: &mut Random) -> Question {
    let date = random.date();
    let reasons: [&[u8]; 4] = [b"ZQ7", b"ZR5", b"E01", b""];
    let codes = if call.name().contains("vorlauf") { 8 } else { 4 };
    Question {
        code: random.code(codes),
        code2: random.code(2),
        date,
        date2: random.date_near(date),
        n: random.count(),
        n2: random.count(),
        instant: random.instant(date),
        instant2: random.instant(date),
        clock: random.clock(),
        reason: Reason::new(reasons[random.below(4) as usize]).expect("there is room"),
        ..Question::new(call)
    }
}

/// The number and the slice, for an answer of the right length and of a byte less and more.
fn asked(question: &Question) -> Vec<u8> {
    let mut bytes = vec![];
    for len in [Answer::LEN, Answer::LEN - 1, Answer::LEN + 1] {
        let mut answer = [UNTOUCHED; Answer::LEN + 1];
        bytes.push(question.ask(&mut answer[..len]));
        bytes.extend(answer);
    }
    bytes
}

#[test]
fn the_single_calls() {
    let mut random = Random(17);
    let asked_often = Call::ALL.into_iter().flat_map(|call| [call; ROUNDS]);
    let questions: Vec<_> = asked_often.map(|call| question(call, &mut random)).collect();
    let input: Vec<_> = questions.iter().flat_map(Question::to_bytes).collect();
    let expected: Vec<_> = questions.iter().map(asked).collect();
    for call in Call::ALL {
        let answers = questions.iter().zip(&expected).filter(|(question, _)| question.call == call);
        let answered = answers.filter(|(_, answer)| answer[0] == 0).count();
        assert!(answered > ROUNDS / 20, "{}: {answered} answers", call.name());
    }
    for program in programs() {
        let output = written(program, "calls", &input);
        assert_eq!(output.len(), expected.len() * expected[0].len());
        for ((question, expected), given) in
            questions.iter().zip(&expected).zip(output.chunks(expected[0].len()))
        {
            assert_eq!(given, expected, "{question}");
            let [short, long] = [34, 68].map(|at| &given[at..at + 34]);
            for wrong in [short, long] {
                assert_eq!(wrong, [&[1][..], &[UNTOUCHED; 33]].concat(), "{question}");
            }
        }
    }
}

#[test]
fn a_file_of_questions() {
    let mut random = Random(18);
    for records in [1, 2, 77, MOST_QUESTIONS, MOST_QUESTIONS + 1] {
        let file: Vec<u8> = (0..records * Fragesatz::LEN).map(|_| random.byte() % 4).collect();
        let mut expected = vec![];
        for len in [file.len(), file.len() - 1] {
            let mut answers = vec![UNTOUCHED; file.len()];
            expected.push(ffi::mf_questions(&file, &mut answers[..len]));
            expected.extend(answers);
        }
        assert_eq!(expected[0], if records > MOST_QUESTIONS { 9 } else { 0 });
        for program in programs() {
            assert!(written(program, "questions", &file) == expected, "{records} records");
        }
    }
}

#[test]
fn a_portfolio() {
    let mut random = Random(19);
    for pairs in [0, 1, 3, 500, MOST_PAIRS, MOST_PAIRS + 1] {
        let days: Vec<_> = (0..2 * pairs).map(|_| 9_400 + random.below(331_000) as u32).collect();
        let (from, to) = days.split_at(pairs);
        let mut expected = vec![];
        for len in [Answer::LEN, Answer::LEN - 1] {
            let mut counts = vec![u32::from_ne_bytes([UNTOUCHED; 4]); pairs];
            let mut answer = [UNTOUCHED; Answer::LEN + 1];
            expected.push(ffi::mf_portfolio(from, to, &mut counts, &mut answer[..len]));
            expected.extend(answer);
            expected.extend(counts.iter().flat_map(|it| format!("{it:08x}").into_bytes()));
        }
        assert_eq!(expected[0], if pairs > MOST_PAIRS { 10 } else { 0 });
        let input: Vec<_> = days.iter().flat_map(|day| day.to_le_bytes()).collect();
        for program in programs() {
            assert!(written(program, "portfolio", &input) == expected, "{pairs} pairs");
        }
    }
}

/// 'MF_' and the words of a case's name, without what the case holds.
fn in_c(group: &str, case: impl Debug) -> String {
    let (case, mut name) = (format!("{case:?}"), format!("MF_{group}"));
    let case = case.split([' ', '(']).next().unwrap_or_default();
    let mut before = '_';
    for letter in case.chars() {
        let begins = letter.is_uppercase() || (letter.is_numeric() && !before.is_numeric());
        if begins && !name.ends_with('_') {
            name.push('_');
        }
        name.push(letter.to_ascii_uppercase());
        before = letter;
    }
    name
}

fn cases<T: Debug>(group: &str, cases: &[T], number: impl Fn(&T) -> u8) -> Vec<(String, usize)> {
    cases.iter().map(|case| (in_c(group, case), number(case).into())).collect()
}

/// In the order of the header. Kinds are document 01's.
fn constants() -> Vec<(String, usize)> {
    let lengths = [
        ("MF_ANSWER_LENGTH", Answer::LEN),
        ("MF_QUESTION_LENGTH", Fragesatz::LEN),
        ("MF_QUESTIONS_MOST", MOST_QUESTIONS),
        ("MF_PAIRS_MOST", MOST_PAIRS),
        ("MF_ANSWERED", 0),
    ];
    let kinds = |group, names: &[&str]| -> Vec<(String, usize)> {
        names.iter().enumerate().map(|(kind, name)| (format!("MF_{group}_{name}"), kind)).collect()
    };
    let vorlauf: [_; 8] = std::array::from_fn(|it| VorlaufShape::of_code(it as u8, (1, 1)));
    let clock = Clock::new(12, 0, 0, 0);
    let frist = [
        FristShape::WerktagAt { werktage: 1, at: clock },
        FristShape::EndOfWerktag(1),
        FristShape::SameDayAt(clock),
        FristShape::SameDay,
    ];
    let days = [DayReason::Werktag, DayReason::Samstag, DayReason::Sonntag];
    [
        lengths.map(|(name, value)| (name.to_owned(), value)).to_vec(),
        cases("REFUSED", &Refusal::ALL, |it| it.number()),
        cases("ANLASS", &ContrlAnlass::ALL, |it| it.code()),
        cases("SPARTE", &Sparte::ALL, |it| it.code()),
        cases("EEG", &Eeg::ALL, |it| it.code()),
        cases("FRIST", &frist, |it| it.code()),
        cases("VORLAUF", &vorlauf.map(|it| it.expect("a shape")), |it| it.code()),
        kinds("VERDICT", &["OK", "TOO_LATE", "TOO_EARLY", "NO_SHAPE"]),
        kinds("SPAN", &["FROM", "BETWEEN", "EMPTY"]),
        kinds("GAS", &["FOLGEPROZESS", "INITIALPROZESS"]),
        kinds(
            "ABMELDUNG",
            &["TAG_VOR_DEM_LETZTEN_WERKTAG", "EIN_MONAT", "UNBESTIMMT", "AN_PRUEFSCHRITT_120"],
        ),
        kinds("ANKUENDIGUNG", &["NO", "YES", "NEITHER"]),
        cases("", &days, |it| it.number()),
        cases("", &Feiertag::ALL, |it| it.number()),
    ]
    .concat()
}

#[test]
fn the_constants() {
    let written: Vec<_> = HEADER.lines().filter_map(|line| line.trim().split_once(" = ")).collect();
    let number = |text: &str| text.split([',', ' ']).next().and_then(|it| it.parse().ok());
    let written: Vec<(String, usize)> = written
        .into_iter()
        .map(|(name, value)| (name.to_owned(), number(value).expect("a number")))
        .collect();
    assert_eq!(written, constants());
    assert!(HEADER.contains(&format!("\n#define MF_OUT_OF_RANGE UINT32_C({OUT_OF_RANGE})\n")));
}
