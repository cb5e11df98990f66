use crate::lines::Line;
use crate::operands;
use crate::reading;
use crate::usage::Usage;
use mako_fristen_host::{Date, Instant};
use std::ffi::{OsStr, OsString};
use std::mem;

pub type Pair = (Date, Date);

/// The two dates of a line.
#[derive(Debug, PartialEq, Eq)]
pub struct Given {
    pub pair: Pair,
    /// As they stand there, if they are kept.
    pub words: Vec<OsString>,
}

/// The names of the two dates.
pub const LABELS: [&str; 2] = ["VON", "BIS"];

const BLANKS: [char; 2] = [' ', '\t'];
/// A field ends before one of them, or before blanks.
const MARKS: [char; 2] = [',', ';'];

/// Reads the lines, of which the first may be the heading of a table.
#[derive(Debug, Default)]
pub struct Reader {
    /// Whether a line came that is neither blank nor a comment.
    begun: bool,
    /// Whether the words are kept.
    keeps_words: bool,
}

impl Reader {
    pub fn new(keeps_words: bool) -> Reader {
        Reader { keeps_words, begun: false }
    }

    /// The two dates of a line, or why it cannot be read. None if it is blank, a comment, or, as the
    /// first of the others, a heading.
    pub fn read(&mut self, line: &Line) -> Result<Option<Given>, Usage> {
        if line.is_passed_over() {
            return Ok(None);
        }
        let first = !mem::replace(&mut self.begun, true);
        if first && is_heading(line) {
            return Ok(None);
        }
        let (pair, words) = pair(line.read()?)?;
        let words = words.into_iter().filter(|_| self.keeps_words).map(OsString::from);
        Ok(Some(Given { pair, words: words.collect() }))
    }
}

/// Without any digit, and no two dates such as `heute;morgen`.
fn is_heading(line: &Line) -> bool {
    let has_dates = || line.read().is_ok_and(|mut text| dates(&mut text).is_ok());
    !line.cut && !line.text.iter().any(u8::is_ascii_digit) && !has_dates()
}

fn pair(mut text: &str) -> Result<(Pair, [&str; 2]), Usage> {
    let read = dates(&mut text)?;
    // A table may end its lines with empty fields.
    match text.trim_matches(separates) {
        "" => Ok(read),
        rest => Err(operands::too_much(OsStr::new(rest))),
    }
}

/// The first two fields, and what they are.
fn dates<'a>(text: &mut &'a str) -> Result<(Pair, [&'a str; 2]), Usage> {
    let (words, now) = ([field(text), field(text)], reading::now());
    let pair = (date(LABELS[0], words[0], now)?, date(LABELS[1], words[1], now)?);
    Ok((pair, words))
}

fn date(label: &str, field: &str, now: Instant) -> Result<Date, Usage> {
    match field {
        "" => Err(operands::missing(label)),
        field => operands::date(label, OsStr::new(field), now),
    }
}

fn separates(c: char) -> bool {
    BLANKS.contains(&c) || MARKS.contains(&c)
}

/// Takes a field from the front, with what ends it: blanks, one mark, blanks.
fn field<'a>(text: &mut &'a str) -> &'a str {
    let left = text.trim_start_matches(BLANKS);
    let (field, rest) = quoted(left).unwrap_or_else(|| left.split_at(end(left)));
    let rest = rest.trim_start_matches(BLANKS);
    *text = rest.strip_prefix(MARKS).unwrap_or(rest);
    field
}

fn end(text: &str) -> usize {
    text.find(separates).unwrap_or(text.len())
}

/// What stands in quotation marks, and what stands behind them; none if that is no end of a field.
fn quoted(text: &str) -> Option<(&str, &str)> {
    let (field, rest) = text.strip_prefix('"')?.split_once('"')?;
    (end(rest) == 0).then_some((field, rest))
}

#[cfg(test)]
mod tests {
    use super::*;

    const BEGIN: Date = Date::new(2025, 6, 30);
    const END: Date = Date::new(2035, 6, 30);

    fn line(text: &[u8]) -> Line<'_> {
        Line { number: 1, text, cut: false }
    }

    /// Of a line behind the first.
    fn read(text: &str) -> Result<Option<Pair>, String> {
        let mut reader = Reader { begun: true, keeps_words: false };
        let read = reader.read(&line(text.as_bytes())).map_err(|usage| usage.message)?;
        Ok(read.map(|given| given.pair))
    }

    #[test]
    fn two_dates_with_anything_between_that_parts_them() {
        let lines = [
            "2025-06-30 2035-06-30",
            "2025-06-30\t2035-06-30",
            "2025-06-30,2035-06-30",
            "2025-06-30;2035-06-30",
            " \t2025-06-30 \t ; \t2035-06-30\t ",
            "\"2025-06-30\";\"2035-06-30\"",
            "\"2025-06-30\" 2035-06-30",
            "2025-06-30 , \"2035-06-30\" ",
            "2025-06-30;2035-06-30;",
            "2025-06-30,2035-06-30, ,;",
            "30.06.2025;30.6.2035",
        ];
        for text in lines {
            assert_eq!(read(text), Ok(Some((BEGIN, END))), "{text}");
        }
        let any = Ok(Some((Date::new(9999, 99, 99), Date::default())));
        assert_eq!(read("9999-99-99;0000-00-00"), any, "the call judges it");
    }

    #[test]
    fn a_line_that_cannot_be_read_says_what_was_expected() {
        let no_date = |label, text| format!("{label}: erwartet {}, nicht „{text}“", reading::DATE);
        let cases = [
            ("2025-06-30", "es fehlt: BIS".to_owned()),
            ("2025-06-30;", "es fehlt: BIS".to_owned()),
            ("2025-06-30;;2035-06-30", "es fehlt: BIS".to_owned()),
            (";2035-06-30", "es fehlt: VON".to_owned()),
            (";", "es fehlt: VON".to_owned()),
            ("\"\";2035-06-30", "es fehlt: VON".to_owned()),
            ("Beginn;Ende", no_date("VON", "Beginn")),
            ("2025-06-30;2035-6-30", no_date("BIS", "2035-6-30") + ". Meinten Sie 30.6.2035?"),
            ("2025-06-30-2035-06-30", no_date("VON", "2025-06-30-2035-06-30")),
            ("\"2025-06-30", no_date("VON", "\"2025-06-30")),
            ("\"2025-06-30\"\"2035-06-30\"", no_date("VON", "\"2025-06-30\"\"2035-06-30\"")),
            (
                "\" 2025-06-30\";2035-06-30",
                no_date("VON", " 2025-06-30") + ". Meinten Sie 30.6.2025?",
            ),
            ("\"2025-06-30;2035-06-30\"", no_date("VON", "2025-06-30;2035-06-30")),
            ("V-17;2025-06-30;2035-06-30", no_date("VON", "V-17")),
            ("2025-06-30;2035-06-30; V-17;", "zu viel: „V-17“".to_owned()),
        ];
        for (text, expected) in cases {
            assert_eq!(read(text), Err(expected), "{text}");
        }
    }

    /// As they stand there, without their quotation marks.
    #[test]
    fn the_words_are_kept_for_who_wants_them() {
        let text = b"\"30.6.2025\" ; 2035-06-30;";
        for (keeps_words, expected) in [(true, vec!["30.6.2025", "2035-06-30"]), (false, vec![])] {
            let read = Reader::new(keeps_words).read(&line(text)).map_err(|usage| usage.message);
            let given = read.expect("it is read").expect("it has two dates");
            assert_eq!(
                (given.pair, given.words),
                ((BEGIN, END), expected.into_iter().map(OsString::from).collect())
            );
        }
    }

    #[test]
    fn a_blank_line_and_a_comment_have_no_dates() {
        for text in ["", " \t ", "#", " # 2025-06-30;2035-06-30"] {
            assert_eq!(read(text), Ok(None), "{text}");
        }
    }

    /// Behind blank lines and comments too, but not behind another line.
    #[test]
    fn the_first_line_without_a_digit_is_a_heading() {
        let mut reader = Reader::default();
        let mut read = |text| reader.read(&line(text)).map_err(|usage| usage.message);
        assert_eq!(read(b""), Ok(None));
        assert_eq!(read(b"# 2026"), Ok(None));
        assert_eq!(read(b"G\xfcltig ab;Ende"), Ok(None), "it need not be UTF-8");
        assert!(read(b"Beginn;Ende").is_err());
        let mut reader = Reader::default();
        assert!(reader.read(&line(b"Beginn 1;Ende 1")).is_err());
        assert!(reader.read(&line(b"Beginn;Ende")).is_err());
        let mut reader = Reader::default();
        assert!(reader.read(&Line { cut: true, ..line(b"Beginn") }).is_err());
    }

    /// Nor is it one if more stands behind them.
    #[test]
    fn a_first_line_with_two_dates_in_words_is_no_heading() {
        let first = |text: &str| Reader::default().read(&line(text.as_bytes()));
        for text in ["heute;morgen", "Gestern heute", "\"heute\";\"HEUTE\";"] {
            assert!(first(text).is_ok_and(|read| read.is_some()), "{text}");
        }
        let rest = first("heute;morgen;Gas").map_err(|usage| usage.message);
        assert_eq!(rest, Err("zu viel: „Gas“".to_owned()));
        for text in ["heute;Ende", "Beginn;morgen", "heute", "heute;;morgen", "von heute;bis"] {
            assert!(first(text).is_ok_and(|read| read.is_none()), "{text}");
        }
    }
}
