//! At the edges of the calendar each form answers and refuses what the call does: a sentence and JSON
//! ask further calls, which must not be refused where the call is answered.

use super::zeilen::{fed, file, lines};
use mako_fristen_host::Date;
use std::process::Output;

const SHAPES: [&str; 5] = [
    "LatestWerktageBefore",
    "LatestWerktageAfter",
    "EarliestWerktageAfter",
    "Korridor",
    "LatestMonateBefore",
];

fn shapes() -> Vec<String> {
    let counted = |n: u32| SHAPES.map(|shape| format!("{shape} {n}"));
    let windows = [(0, 0), (5, 2), (2, 5), (1, 1), (0, 1), (1, 0)];
    let windows = windows.map(|(from, to)| format!("WindowWerktageBefore {from} {to}"));
    let months = [(0, 0), (0, 2), (1, 2), (2, 0), (10_846, 3)];
    let months = months.map(|(m, n)| format!("LatestMonateUndWerktageBefore {m} {n}"));
    let others = ["TagVorDemLetztenWerktagVor", "LatestMonateBefore 10847", "Korridor 4294967295"];
    let others = others.map(str::to_owned);
    let counted = [0, 1, 2, 5].into_iter().flat_map(counted);
    counted.chain(windows).chain(months).chain(others).collect()
}

fn days(first: Date, count: i64) -> Vec<Date> {
    (0..count).map(|days| first.plus_days(days).expect("a date")).collect()
}

fn questions() -> String {
    let edges = [days(Date::FIRST, 12), days(Date::new(2899, 12, 20), 12)];
    let mut lines = Vec::new();
    for shape in shapes() {
        for day in edges.iter().flatten() {
            lines.push(format!("span {shape} {day}"));
            lines.extend(
                edges.iter().flatten().map(|anchor| format!("check {shape} {day} {anchor}")),
            );
        }
    }
    for (day, hour) in edges.iter().flatten().flat_map(|day| [(day, 0), (day, 12), (day, 23)]) {
        let received = format!("{day} {hour:02}:59");
        for frist in ["WerktagAt 0 12:00", "EndOfWerktag 1", "SameDayAt 12:00", "SameDay"] {
            lines.push(format!("frist {frist} {received}"));
        }
        for anlass in ["Regelfall", "StromUtilmdOderOrders", "GasAlocat"] {
            lines.push(format!("contrl {anlass} {received}"));
        }
    }
    lines.join("\n")
}

/// The number of each refusal, 0 for an answer.
fn refusals(output: &Output, number: impl Fn(&str) -> u8) -> Vec<u8> {
    assert_eq!(output.status.code(), Some(2));
    lines(output).iter().map(|line| number(line)).collect()
}

fn between(text: &str, before: &str, after: char) -> Option<u8> {
    text.split_once(before)?.1.split(after).next()?.parse().ok()
}

#[test]
fn every_form_refuses_what_the_call_refuses() {
    let questions = questions();
    let path = file("raender.txt", &questions);
    let path = path.to_str().expect("UTF-8");
    let asked = |form: &[&str]| fed("fragen", &[&[path], form].concat(), b"");
    let bytes = refusals(&asked(&["--bytes"]), |line| {
        let bytes = line.split_once(": ").expect("its number").1;
        u8::from_str_radix(&bytes[..2], 16).expect("hex")
    });
    assert_eq!(bytes.len(), questions.lines().count());
    assert!(bytes.contains(&0) && bytes.contains(&8));
    let sentences = asked(&[]);
    let said = refusals(&sentences, |line| between(line, "Abgelehnt (", ')').unwrap_or(0));
    let json = refusals(&asked(&["--json"]), |line| {
        between(line, "\"refusal\":{\"number\":", ',').unwrap_or(0)
    });
    let short = refusals(&asked(&["--kurz"]), |line| if line.ends_with(':') { 8 } else { 0 });
    for (at, question) in questions.lines().enumerate() {
        assert_eq!([said[at], json[at]], [bytes[at]; 2], "{question}");
        // An empty span has no value either.
        assert!(short[at] == bytes[at] || question.starts_with("span Window"), "{question}");
    }
}
