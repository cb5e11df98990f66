//! docs/JSON.md: each command prints the keys that it lists, answered and refused, with values of
//! the types that it gives for them; what may be null is null somewhere; and the examples print
//! what it says.

use super::json::object;
use super::leser::Value;
use super::zeilen::{fed, lines};
use super::{program, run, words, Random, CLOCKS, COUNTS, DATES, INSTANTS, SHAPES};
use mako_fristen_host::{Call, Date};
use std::collections::{BTreeMap, BTreeSet};
use std::fs;
use std::path::{Path, PathBuf};

const EVERY: &str = "Every object";
const READ: &str = "What was read";
const ANSWER: &str = "What is answered";
const OBJECTS: &str = "Objects";
const VALUE: &str = "A value alone, and a status";

/// Where the examples are run.
fn root() -> PathBuf {
    Path::new(env!("CARGO_MANIFEST_DIR")).join("..")
}

fn page() -> String {
    fs::read_to_string(root().join("docs/JSON.md")).expect("the page")
}

type Row = Vec<String>;

/// The rows of the tables below a heading, by their cells; without the heads of the tables.
fn tables(page: &str, heading: &str) -> Vec<Vec<Row>> {
    let (_, below) = page.split_once(&format!("\n## {heading}\n")).expect(heading);
    let below = below.split("\n## ").next().unwrap_or_default();
    let mut tables: Vec<Vec<Row>> = vec![];
    for line in below.lines() {
        let row = line.strip_prefix("| ").and_then(|line| line.strip_suffix(" |"));
        match (row, tables.last_mut()) {
            _ if line.starts_with("|---") => tables.push(vec![]),
            (Some(row), Some(table)) => table.push(row.split(" | ").map(str::to_owned).collect()),
            _ => {}
        }
    }
    // The head of a table stands behind the one before.
    let last = tables.len() - 1;
    tables[..last].iter_mut().for_each(|table| drop(table.pop()));
    tables
}

/// What stands in backticks.
fn named(cell: &str) -> Vec<&str> {
    cell.split('`').skip(1).step_by(2).collect()
}

/// The keys that a table of commands has for one.
fn keys<'a>(table: &'a [Row], command: &str) -> Vec<&'a str> {
    let row = table.iter().find(|row| named(&row[0]).contains(&command));
    named(&row.unwrap_or_else(|| panic!("no row for {command}"))[1])
}

/// The keys of a kind of object: each with its type, and whether it may be null.
struct Keys {
    /// As in `answer.date`.
    name: String,
    rows: Vec<(String, String, bool)>,
}

/// What the page says of types, and what was seen of it.
struct Types {
    keys: Vec<Keys>,
    seen: BTreeSet<String>,
    null: BTreeSet<String>,
}

impl Types {
    fn of(page: &str) -> Types {
        let objects = tables(page, OBJECTS).concat();
        let mut names: Vec<&str> = objects.iter().map(|row| row[0].as_str()).collect();
        names.dedup();
        let of_object = |name: &str| {
            let rows = objects.iter().filter(|row| row[0] == name);
            rows.map(|row| row[1..].to_vec()).collect::<Vec<_>>()
        };
        let mut keys: Vec<_> = names.iter().map(|name| Keys::of(name, &of_object(name))).collect();
        keys.push(Keys::of("every", &tables(page, EVERY)[0]));
        keys.push(Keys::of("read", &tables(page, READ)[1]));
        keys.push(Keys::of("answer", &tables(page, ANSWER)[1]));
        Types { keys, seen: BTreeSet::new(), null: BTreeSet::new() }
    }

    /// The members of an object of this kind.
    fn check_members(&mut self, members: &[(String, Value)], kind: &str) {
        for (key, value) in members {
            let place = format!("{kind}.{key}");
            let (one, or_null) = self.type_of(kind, key);
            if *value == Value::Null {
                assert!(or_null, "{place} is null");
                self.null.insert(place);
            } else {
                self.check(value, &one, &place);
                self.seen.insert(place);
            }
        }
    }

    fn check(&mut self, value: &Value, kind: &str, place: &str) {
        match (kind, value) {
            ("text", Value::Text(text)) => assert!(!text.is_empty(), "{place}"),
            ("date", Value::Text(text)) => assert!(text.parse::<Date>().is_ok(), "{place}: {text}"),
            ("number", Value::Number(_)) | ("boolean", Value::Bool(_)) => {}
            ("object", Value::Object(_)) => {}
            (_, Value::List(all)) => {
                let one = kind.strip_prefix("list of ").expect(place);
                let one = match one {
                    "texts" | "numbers" | "dates" => &one[..one.len() - 1],
                    _ => one,
                };
                all.iter().for_each(|value| self.check(value, one, place));
            }
            (_, Value::Object(members)) => {
                assert_eq!(value.keys(), self.of_kind(kind).keys(), "{place}");
                self.check_members(members, kind);
            }
            _ => panic!("{place}: {value:?} is no {kind}"),
        }
    }

    fn of_kind(&self, kind: &str) -> &Keys {
        let found = self.keys.iter().find(|keys| keys.name == kind);
        found.unwrap_or_else(|| panic!("no table of {kind}"))
    }

    fn type_of(&self, kind: &str, key: &str) -> (String, bool) {
        let row = self.of_kind(kind).rows.iter().find(|(name, ..)| name == key);
        let (_, one, or_null) = row.unwrap_or_else(|| panic!("no row of {kind}.{key}"));
        (one.clone(), *or_null)
    }

    /// Each key of the page was seen, and was null where the page says that it may be.
    fn assert_all_seen(&self) {
        let rows = || {
            let of = |keys: &Keys| {
                keys.rows.iter().map(|row| (keys.name.clone(), row.clone())).collect::<Vec<_>>()
            };
            self.keys.iter().flat_map(of)
        };
        let all: BTreeSet<_> = rows().map(|(kind, (key, ..))| format!("{kind}.{key}")).collect();
        let or_null = rows().filter(|(_, (.., or_null))| *or_null);
        let or_null: BTreeSet<_> =
            or_null.map(|(kind, (key, ..))| format!("{kind}.{key}")).collect();
        assert_eq!(all, self.seen, "not seen");
        assert_eq!(or_null, self.null, "not null");
    }
}

impl Keys {
    fn of(name: &str, rows: &[Row]) -> Keys {
        let row = |row: &Row| {
            let [key, kind, null, meaning] = row.as_slice() else { panic!("{row:?}") };
            assert!(!meaning.is_empty(), "{row:?}");
            (named(key).concat(), kind.clone(), null != "never")
        };
        Keys { name: name.to_owned(), rows: rows.iter().map(row).collect() }
    }

    fn keys(&self) -> Vec<&str> {
        self.rows.iter().map(|(key, ..)| key.as_str()).collect()
    }
}

/// Questions of each command: answered with each kind, and refused.
const ASKED: &[(&str, &[&str], &[&str])] = &[
    ("tag", &["2026-04-07", "2026-04-05", "2026-11-18"], &["2026-02-30"]),
    ("next-werktag", &["2026-04-04", "2026-04-07"], &["2899-12-31"]),
    ("add-werktage", &["2026-12-23 3", "2026-04-02 0"], &["2899-12-31 1"]),
    ("sub-werktage", &["2026-04-07 1"], &["1996-01-01 1"]),
    (
        "werktage-between",
        &["2026-04-02 2026-04-07", "2026-04-07 2026-04-02"],
        &["2026-04-02 2900-01-01"],
    ),
    ("add-months", &["2026-01-31 1", "2026-01-28 1"], &["2899-12-31 1"]),
    ("subtract-months", &["2026-03-31 1"], &["1996-01-01 1"]),
    ("berlin-at", &["2026-10-25 02:30"], &["2026-03-29 02:30", "2026-03-29 24:00"]),
    ("berlin-midnight", &["2026-03-29"], &["1995-12-31"]),
    ("end-of-day-berlin", &["2026-03-29"], &["2900-01-01"]),
    ("tagesbeginn-utc", &["2026-03-29 Gas"], &["2026-02-29 Strom"]),
    (
        "berlin-date",
        &["2026-10-25T00:30:00Z"],
        &["@9223372036854775807", "2026-03-29T02:30", "1995-12-31T12:00:00Z"],
    ),
    ("tag-des-beginns", &["2026-03-29T04:00:00Z Gas"], &["2026-03-29T05:00:00Z Gas"]),
    (
        "contrl",
        &["Regelfall 2026-03-31T12:00", "Regelfall 2026-03-31T11:59"],
        &["Regelfall 1995-12-31T12:00:00Z"],
    ),
    (
        "contrl-due-at-change",
        &["Regelfall 2026-06-05T12:00 2026-06-06"],
        &["Regelfall 2026-06-05T12:00 2026-02-29"],
    ),
    ("aperak-strom", &["2026-01-10T10:00"], &["2899-12-31T23:30"]),
    ("aperak-strom-allgemein", &["2026-04-02T10:00"], &["2899-12-31T10:00"]),
    ("aperak-gas-folgeprozess", &["2026-04-02T10:00"], &["2899-12-31T10:00"]),
    ("aperak-gas-initialprozess", &["2026-04-02T10:00"], &["2899-12-31T10:00"]),
    (
        "aperak-gas",
        &["44001 2026-04-02T10:00", "44002 2026-04-02T10:00"],
        &["44001 2899-12-31T10:00"],
    ),
    ("add-hours", &["2026-03-28T12:00 24"], &["2899-12-31T12:00 24"]),
    ("deadline-at-werktage", &["2026-04-02T10:00 1"], &["2899-12-31T10:00 1"]),
    ("end-of-werktag-after", &["2026-04-02T10:00 0"], &["2899-12-31T10:00 1"]),
    ("next-werktag-at", &["2026-04-02T10:00 11:00"], &["2026-04-02T10:00 24:00"]),
    (
        "nth-werktag-at",
        &["2026-04-02T10:00 0 06:00", "2026-04-02T10:00 2 06:00:00,5"],
        &["2899-12-31T10:00 1 06:00"],
    ),
    (
        "frist",
        &[
            "WerktagUm 2 06:00 2026-04-02T10:00",
            "EndeDesWerktags 0 2026-04-02T10:00",
            "SelberTagUm 12:00 2026-01-09T12:00",
            "SelberTagUm 12:00 2026-01-10T10:00",
            "SelberTag 2026-01-10T10:00",
        ],
        &["SelberTagUm 02:30 2026-03-29T10:00", "WerktagUm 2 24:00 2026-04-02T10:00"],
    ),
    (
        "check",
        &[
            "WerktageVorher 1 2026-01-10 2026-01-12",
            "WerktageVorher 1 2026-01-09 2026-01-12",
            "Zeitfenster 5 2 2026-01-13 2026-01-13",
            "Zeitfenster 0 5 2026-01-09 2026-01-12",
            "Zeitfenster 3 1 2899-12-28 2899-12-28",
            "TagVorLetztemWerktag 2026-01-08 2026-01-10",
            "MonateUndWerktageVorher 2 1 2026-01-05 2026-04-01",
        ],
        &["Korridor 1 1996-01-01 1996-01-01", "Korridor 1 2026-02-29 2026-01-01"],
    ),
    (
        "check-at",
        &["Korridor 2 2026-01-07T23:30:00Z 2026-01-12T06:00 Gas"],
        &[
            "Korridor 2 2026-01-08T10:00 2026-01-12T05:00 Gas",
            "Korridor 2 2026-01-08T10:00 2026-03-29T02:30 Strom",
        ],
    ),
    (
        "span",
        &["WerktageVorher 1 2026-01-10", "Korridor 2 2026-04-07", "Zeitfenster 1 1 2026-01-10"],
        &["MonateVorher 1 2899-12-31"],
    ),
    (
        "bis-wann",
        &["WerktageVorher 1 2026-04-07", "Korridor 2 2026-04-07", "Zeitfenster 0 5 2026-01-12"],
        &["WerktageVorher 1 1996-01-01", "TagVorLetztemWerktag 2026-02-29"],
    ),
    (
        "abmeldung-fuer",
        &["Z33 --eeg ja", "Z33 --eeg nein", "Z33 --eeg unbekannt", "ZQ7 --eeg nein"],
        &[],
    ),
    (
        "abmeldung",
        &["Z33 2026-01-31 2026-02-28 --eeg ja", "ZQ7 2026-01-08 2026-01-12 --eeg unbekannt"],
        &["ZQ7 2026-01-08 2026-02-29 --eeg ja"],
    ),
    (
        "ankuendigung",
        &[
            "2026-01-09T13:00 2026-01-12",
            "2026-01-09T13:00:01 2026-01-12",
            "2026-01-08T23:59:59 2026-01-12",
            "2026-01-12T00:00 2026-01-12",
        ],
        &["1996-01-01T00:00 1996-01-02"],
    ),
    ("kalender", &["2026", "2026-11"], &["1995"]),
];

/// Lines of a portfolio: a heading, counted, refused, and one that cannot be read.
const PORTFOLIO: &str = "VON;BIS\n2026-04-02;7.4.2026\n2026-04-02;2026-02-29\n2026-04-02\n";

/// The object behind what stands in each, as the page has it.
fn check(types: &mut Types, command: &str, object: &Value, refused: bool) {
    let (page, every) = (page(), tables(&page(), EVERY)[0].clone());
    let in_file = object.keys()[0] == "line";
    let every: Vec<_> = every
        .iter()
        .flat_map(|row| named(&row[0]))
        .skip(usize::from(!in_file))
        .map(str::to_owned)
        .collect();
    let content = &tables(&page, ANSWER)[0];
    let expected: Vec<_> = every.iter().map(String::as_str).chain(keys(content, command)).collect();
    assert_eq!(object.keys(), expected, "{command}");
    assert_eq!(object.get("version"), &Value::Number(1));
    assert_eq!(object.get("read").keys(), keys(&tables(&page, READ)[0], command), "{command}");
    assert_eq!(*object.get("refusal") != Value::Null, refused, "{command}: {object:?}");
    let (head, content) = object.members().split_at(every.len());
    types.check_members(head, "every");
    types.check_members(object.get("read").members(), "read");
    match refused {
        true => assert!(content.iter().all(|(_, value)| *value == Value::Null), "{content:?}"),
        false => types.check_members(content, "answer"),
    }
}

#[test]
fn each_command_prints_the_keys_of_the_page() {
    let mut types = Types::of(&page());
    let mut calls = BTreeSet::new();
    for (command, answered, refused) in ASKED {
        for (questions, status) in [(answered, 0), (refused, 2)] {
            for arguments in *questions {
                let object = object(&format!("{command} {arguments}"), status);
                check(&mut types, command, &object, status == 2);
                calls.insert(object.get("call").clone());
            }
        }
    }
    let output = fed("portfolio", &["--json"], PORTFOLIO.as_bytes());
    for line in lines(&output) {
        let object = Value::read(&line).expect("JSON");
        let refused = *object.get("refusal") != Value::Null;
        check(&mut types, "portfolio", &object, refused);
    }
    types.assert_all_seen();
    let of_calls = Call::ALL.map(|call| Value::Text(call.name().to_owned()));
    let others = ["bis-wann", "kalender"].map(|name| Value::Text(name.to_owned()));
    assert_eq!(calls, of_calls.into_iter().chain(others).collect());
}

/// The names that the page has as values of an answer's key.
fn values(page: &str, key: &str) -> BTreeSet<String> {
    let row = tables(page, ANSWER)[1].iter().find(|row| named(&row[0]) == [key]).cloned();
    let row = row.unwrap_or_else(|| panic!("no row of {key}"));
    named(&row[3]).into_iter().map(str::to_owned).collect()
}

/// Each of them is given, and no other. The names of days are not all there.
#[test]
fn the_page_has_the_names_that_are_values() {
    let mut seen: BTreeMap<&str, BTreeSet<String>> = BTreeMap::new();
    for (command, answered, _) in ASKED.iter().filter(|(command, ..)| *command != "tag") {
        for arguments in *answered {
            let object = object(&format!("{command} {arguments}"), 0);
            for key in ["kind_name", "label", "corner"] {
                let value = object.members().iter().find(|(name, _)| name == key);
                if let Some((_, Value::Text(name))) = value {
                    seen.entry(key).or_default().insert(name.clone());
                }
            }
        }
    }
    let page = page();
    let mut kinds = values(&page, "kind_name");
    for other in ["Werktag", "case", "abmeldung-fuer"] {
        assert!(kinds.remove(other), "{other}");
    }
    kinds.extend(values(&page, "case"));
    let expected = [("kind_name", kinds)]
        .into_iter()
        .chain(["label", "corner"].map(|key| (key, values(&page, key))));
    assert_eq!(seen, expected.collect());
}

/// By its date, its clock time or Berlin's clock. With an offset it may lie outside the calendar.
#[test]
fn a_time_that_is_refused_in_reading_is_no_instant() {
    let number = |object: &Value| object.get("refusal").get("number").clone();
    let times = [
        ("2026-02-30T10:00", 3),
        ("1995-12-31T10:00", 3),
        ("2026-01-10T24:00", 5),
        ("2026-03-29T02:30", 6),
        ("2026-02-30T10:00+01:00", 3),
        ("2026-01-10T24:00Z", 5),
    ];
    for (time, refusal) in times {
        let first = object(&format!("contrl Regelfall {time}"), 2);
        assert_eq!(number(&first), Value::Number(refusal), "{time}");
        assert_eq!(first.get("read").get("instant"), &Value::Null, "{time}");
        let second = object(&format!("check-at Korridor 1 2026-01-08T10:00 {time} Gas"), 2);
        assert_eq!(number(&second), Value::Number(refusal), "{time}");
        assert_eq!(second.get("read").get("instant2"), &Value::Null, "{time}");
        assert_ne!(second.get("read").get("instant"), &Value::Null, "{time}");
    }
    let outside = object("contrl Regelfall 1995-12-31T10:00+01:00", 2);
    assert_eq!(number(&outside), Value::Number(4));
    assert_ne!(outside.get("read").get("instant"), &Value::Null);
}

/// The options for a form are left out, wherever they stand.
#[test]
fn the_arguments_are_as_they_were_given() {
    let rows = [
        ("--status tag -- 2026-11-18", "-- 2026-11-18"),
        ("-- tag 2026-11-18", "-- 2026-11-18"),
        ("abmeldung --eeg ja Z33 2026-01-31 28.2.2026", "--eeg ja Z33 2026-01-31 28.2.2026"),
        ("contrl --stichtag=6.6.2026 Regelfall @0s0ns", "--stichtag=6.6.2026 Regelfall @0s0ns"),
    ];
    for (line, expected) in rows {
        let output = run(&[&["--json"], &words(line)[..]].concat());
        let text = String::from_utf8(output.stdout).expect("UTF-8");
        let object = Value::read(text.trim_end()).unwrap_or_else(|error| panic!("{line}: {error}"));
        let given = words(expected).into_iter().map(|word| Value::Text(word.to_owned()));
        assert_eq!(object.get("arguments"), &Value::List(given.collect()), "{line}");
    }
}

/// The value at a path such as `instant.berlin`, as a script takes it.
fn short(object: &Value, path: &str) -> String {
    let value = path.split('.').fold(object, |value, key| value.get(key));
    let end = |key| match value.get(key) {
        Value::Text(date) => date.clone(),
        _ => "..".to_owned(),
    };
    match value {
        Value::Text(text) => text.clone(),
        Value::Number(number) => number.to_string(),
        Value::Object(_) if value.get("empty") == &Value::Bool(false) => {
            format!("{}/{}", end("first"), end("last"))
        }
        _ => String::new(),
    }
}

#[test]
fn the_bare_value_is_the_one_that_the_page_names() {
    let page = page();
    let table = &tables(&page, VALUE)[0];
    for (command, answered, _) in ASKED {
        for arguments in *answered {
            let line = format!("{command} {arguments}");
            let expected = short(&object(&line, 0), keys(table, command)[0]);
            let printed = run(&words(&format!("{line} --kurz"))).stdout;
            assert_eq!(String::from_utf8_lossy(&printed), format!("{expected}\n"), "{line}");
        }
    }
}

/// A question of one of 15 commands, with operands that fit.
fn any_question(random: &mut Random) -> String {
    let mut pick = |from: &[&'static str]| from[random.below(from.len())];
    let (date, date2, n) = (pick(&DATES), pick(&DATES), pick(&COUNTS));
    let (at, at2, clock) = (pick(&INSTANTS), pick(&INSTANTS), pick(&CLOCKS));
    let shape = pick(&SHAPES);
    let mut all = vec![
        format!("tag {date}"),
        format!("sub-werktage {date} {n}"),
        format!("werktage-between {date} {date2}"),
        format!("subtract-months {date} {n}"),
        format!("berlin-at {date} {clock}"),
        format!("frist SameDayAt {clock} {at}"),
        format!("contrl Regelfall {at}"),
        format!("contrl-due-at-change Regelfall {at} {date}"),
        format!("aperak-gas {n} {at}"),
        format!("check {shape} {n} {date} {date2}"),
        format!("check-at {shape} {n} {at} {at2} Strom"),
        format!("span {shape} {n} {date}"),
        format!("bis-wann {shape} {n} {date}"),
        format!("abmeldung Z33 {date} {date2} --eeg ja"),
        format!("ankuendigung {at} {date}"),
    ];
    all.swap_remove(random.below(all.len()))
}

/// Whatever is asked, a command's objects have the same keys, and a refusal answers nothing.
#[test]
fn a_command_has_the_same_keys_each_time() {
    let (mut random, mut seen) = (Random(20_261_127), BTreeMap::new());
    for _ in 0..600 {
        let line = any_question(&mut random);
        let output = run(&[&words(&line)[..], &["--json"]].concat());
        let text = String::from_utf8(output.stdout).expect("UTF-8");
        let object = Value::read(text.trim_end()).unwrap_or_else(|error| panic!("{line}: {error}"));
        let keys = [object.keys(), object.get("read").keys()].map(|keys| keys.join(" "));
        let of_command = seen.entry(object.get("call").clone()).or_insert_with(|| keys.clone());
        assert_eq!(keys, *of_command, "{line}");
        let mut content = object.members().iter().skip_while(|(key, _)| key != "refusal").skip(1);
        let refused = *object.get("refusal") != Value::Null;
        assert_eq!(refused, content.all(|(_, value)| *value == Value::Null), "{line}");
        assert_eq!(output.status.code(), Some(if refused { 2 } else { 0 }), "{line}");
    }
    assert_eq!(seen.len(), 15);
}

/// A call in a block of the page, and the lines below it.
fn examples(page: &str) -> Vec<(&str, Vec<&str>)> {
    let (_, below) = page.split_once("\n## Examples\n").expect("examples");
    let blocks = below.split("```console\n").skip(1).filter_map(|block| block.split("```").next());
    blocks
        .map(|block| {
            let mut lines = block.lines();
            let call =
                lines.next().and_then(|line| line.strip_prefix("$ ./fristen ")).expect("a call");
            (call, lines.collect())
        })
        .collect()
}

/// Three points stand for the lines that the page leaves out.
#[test]
fn the_examples_of_the_page_print_what_it_says() {
    let page = page();
    let examples = examples(&page);
    assert!(examples.len() > 15, "{}", examples.len());
    for (call, shown) in examples {
        let output = program().current_dir(root()).args(words(call)).output().expect("it runs");
        let printed = lines(&output);
        match shown.split_last() {
            Some((&"...", first)) => assert_eq!(printed[..first.len()], *first, "{call}"),
            _ => assert_eq!(printed, shown, "{call}"),
        }
    }
}
