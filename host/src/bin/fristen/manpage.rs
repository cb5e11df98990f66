//! The man page, made from the tables and texts of the help, in the language of groff's man macros.

use crate::command::{self, Command, Example, GROUPS};
use crate::help::{self, Shape};

/// As it is called where it is installed.
const NAME: &str = "fristen";

pub fn page() -> String {
    // The help ends with blocks: the names, the operands, the options, the statuses.
    let mut blocks = help::FOOT.split("\n\n");
    let names = blocks.next().unwrap_or_default();
    let rest: Vec<String> = blocks.map(section).collect();
    [head(), commands(names), shapes(), rest.concat()].concat()
}

fn head() -> String {
    let version = env!("CARGO_PKG_VERSION");
    let (called, what) = (escaped(help::CALLED), escaped(help::HEAD));
    // Words are not parted, as that would be the English way, and sentences by one space.
    format!(
        ".TH FRISTEN 1 \"\" \"{NAME} {version}\"\n.nr HY 0\n.nh\n.ad l\n.ss 12 0\n\
         {}{NAME} \\- {what}\n\
         {}.B {NAME}\n{called}\n.br\n.B {NAME} hilfe\n[BEFEHL]\n",
        heading("NAME"),
        heading("ÜBERSICHT")
    )
}

fn heading(text: &str) -> String {
    format!(".SH {}\n", escaped(&text.to_uppercase()))
}

fn commands(names: &str) -> String {
    let groups = GROUPS.map(|(heading, commands)| {
        let commands: Vec<String> = commands.iter().map(command).collect();
        format!(".SS {}\n{}", escaped(heading), commands.concat())
    });
    format!("{}{}{}", heading("Befehle"), filled(names), groups.concat())
}

fn command(command: &Command) -> String {
    let usage = command.usage(command.german_name());
    let (name, operands) = usage.split_at(usage.find(' ').unwrap_or(usage.len()));
    let first = command.german_name();
    let others: Vec<String> = command.names().filter(|name| name != first).collect();
    let also = match others.is_empty() {
        false => format!(".br\n{}\n", escaped(&format!("Auch: {}", others.join(", ")))),
        true => String::new(),
    };
    let meaning = command.meaning.replace(help::IN_TEXTS, NAME);
    let body: Vec<String> = [&meaning, &help::numbers(command)]
        .into_iter()
        .flat_map(|text| text.split("\n\n"))
        .map(|paragraph| paragraph.trim_matches('\n'))
        .filter(|paragraph| !paragraph.is_empty())
        .map(|paragraph| format!(".IP\n{}", filled(paragraph)))
        .collect();
    let shown = |it: &Example| example(it, &help::by_name(command, first, it.call));
    let examples: Vec<String> = command.examples.iter().map(shown).collect();
    format!(
        "{}{}\n{also}{}{}",
        tag(name, operands),
        escaped(command.summary),
        body.concat(),
        examples.concat()
    )
}

/// What a paragraph is about, with what stands behind it.
fn tag(name: &str, behind: &str) -> String {
    format!(".TP\n\\fB{}\\fR{}\n", escaped(name), escaped(behind))
}

/// As it is printed where it is called, with the file that it takes.
fn example(Example { output, file, .. }: &Example, call: &str) -> String {
    let cat = |(name, content): (&str, &str)| format!("$ cat {name}\n{}\n", content.trim_end());
    let text = format!("{}$ {NAME} {call}\n{output}", file.map_or(String::new(), cat));
    format!(".IP\n{}", as_it_is(text.lines()))
}

/// The shapes that several subcommands share stand once.
fn shapes() -> String {
    let mut groups: Vec<(Vec<&str>, Vec<Shape>)> = Vec::new();
    for command in command::all() {
        let shapes = help::shape_rows(command);
        let same = |known: &&mut (Vec<&str>, Vec<Shape>)| known.1[0].names == shapes[0].names;
        if shapes.is_empty() {
            continue;
        }
        match groups.iter_mut().find(same) {
            Some((commands, _)) => commands.push(command.german_name()),
            None => groups.push((vec![command.german_name()], shapes)),
        }
    }
    let group = |(commands, shapes): &(Vec<&str>, Vec<Shape>)| {
        let shapes: Vec<String> = shapes.iter().map(shape).collect();
        format!(".SS {}\n{}", escaped(&commands.join(", ")), shapes.concat())
    };
    format!("{}{}", heading("Form"), groups.iter().map(group).collect::<String>())
}

fn shape(Shape { names, counts, meaning, call }: &Shape) -> String {
    let other: String = names[1..].iter().map(|name| format!(", auch {name}")).collect();
    let counts: String = counts.iter().map(|count| format!(" {count}")).collect();
    let call = as_it_is([format!("{NAME} {call}").as_str()].into_iter());
    let tag = tag(names[0], &format!("{other}{counts}"));
    format!("{tag}{}\n.IP\n{call}", escaped(meaning))
}

/// A block of the help: a heading with rows below it, or the statuses.
fn section(block: &str) -> String {
    let Some((title, rows)) = block.split_once('\n').filter(|(_, rows)| rows.starts_with("  "))
    else {
        return statuses(block);
    };
    let mut text = heading(title);
    for row in rows.lines().map(|row| row.strip_prefix("  ").unwrap_or(row)) {
        let (name, meaning) = match row.starts_with(' ') {
            true => ("", row),
            false => row.split_once("  ").unwrap_or((row, "")),
        };
        if !name.is_empty() {
            text += &tag(name, "");
        }
        if !meaning.is_empty() {
            text += &format!("{}\n", escaped(meaning.trim_start()));
        }
    }
    text
}

/// `Ende mit 0: Antwort. 2: abgelehnt.`
fn statuses(block: &str) -> String {
    let text = block.trim_end().trim_start_matches("Ende mit ").replace('\n', " ");
    let rows = text.trim_end_matches('.').split(". ").filter_map(|row| row.split_once(": "));
    let rows: String = rows.map(|(number, what)| tag(number, "") + &escaped(what) + "\n").collect();
    format!(
        "{}{rows}.PP\n{}\n",
        heading("Status"),
        escaped("Mit --status auch 1 und 3, wie es dort steht.")
    )
}

/// A paragraph, in which lines that are set in stay as they are.
fn filled(paragraph: &str) -> String {
    let mut text = String::new();
    let mut lines = paragraph.lines().peekable();
    while let Some(line) = lines.next() {
        if !line.starts_with(' ') {
            text += &format!("{}\n", escaped(line));
            continue;
        }
        let mut kept = vec![line];
        kept.extend(std::iter::from_fn(|| lines.next_if(|line| line.starts_with(' '))));
        text += &as_it_is(kept.into_iter());
    }
    text
}

fn as_it_is<'a>(lines: impl Iterator<Item = &'a str>) -> String {
    let line = |line: &str| if line.is_empty() { "\\&\n".to_owned() } else { escaped(line) + "\n" };
    format!(".EX\n{}.EE\n", lines.map(line).collect::<String>())
}

/// A line whose characters all mean themselves: no request, no typographic hyphen or quote, and
/// nothing but ASCII.
fn escaped(line: &str) -> String {
    let character = |c: char| match c {
        '\\' => "\\e".to_owned(),
        '-' => "\\-".to_owned(),
        '\'' => "\\(aq".to_owned(),
        '"' => "\\(dq".to_owned(),
        '`' => "\\(ga".to_owned(),
        '^' => "\\(ha".to_owned(),
        '~' => "\\(ti".to_owned(),
        c if c.is_ascii() => c.to_string(),
        c => format!("\\[u{:04X}]", u32::from(c)),
    };
    let text: String = line.chars().map(character).collect();
    match text.starts_with('.') {
        true => format!("\\&{text}"),
        false => text,
    }
}

#[cfg(test)]
mod tests {
    use super::*;

    #[test]
    fn a_line_means_itself() {
        assert_eq!(escaped(".TH 'a' \"b\""), "\\&.TH \\(aqa\\(aq \\(dqb\\(dq");
        assert_eq!(escaped("--eeg \\ ~^`"), "\\-\\-eeg \\e \\(ti\\(ha\\(ga");
        assert_eq!(escaped("„Büro“"), "\\[u201E]B\\[u00FC]ro\\[u201C]");
    }

    #[test]
    fn lines_that_are_set_in_stay_lines() {
        assert_eq!(as_it_is(["a", "", "b"].into_iter()), ".EX\na\n\\&\nb\n.EE\n");
        let text = filled("eins\n  zwei\n  drei\nvier");
        assert_eq!(text, "eins\n.EX\n  zwei\n  drei\n.EE\nvier\n");
    }

    #[test]
    fn rows_of_the_help_become_paragraphs() {
        let text = section("Dinge\n  A, B    eins\n          zwei\n  --drei\n          vier");
        assert_eq!(
            text,
            ".SH DINGE\n.TP\n\\fBA, B\\fR\neins\nzwei\n.TP\n\\fB\\-\\-drei\\fR\nvier\n"
        );
    }

    #[test]
    fn every_option_and_subcommand_has_its_paragraph() {
        let page = page();
        let options = crate::arguments::OPTIONS.map(escaped);
        let names = command::all().map(|command| escaped(command.german_name()));
        for name in options.into_iter().chain(names) {
            let begins = format!(".TP\n\\fB{name}");
            assert!(page.contains(&begins), "{name}");
        }
        assert!(page.is_ascii());
        let lines: Vec<&str> = page.lines().collect();
        for rows in lines.windows(3).filter(|rows| rows[0] == ".TP") {
            assert!(!rows[2].starts_with('.'), "{} has no text", rows[1]);
        }
    }
}
