use mako_fristen_host::Date;
use std::fmt::{self, Write};

/// The members of an object, in their order.
pub type Members = Vec<(&'static str, Json)>;

/// A value of JSON.
#[derive(Clone, Debug, PartialEq, Eq)]
pub enum Json {
    Null,
    Bool(bool),
    Number(i64),
    Text(String),
    List(Vec<Json>),
    Object(Members),
}

impl From<bool> for Json {
    fn from(value: bool) -> Json {
        Json::Bool(value)
    }
}

/// Of any number that fits.
macro_rules! from_number {
    ($($number:ty)+) => {$(
        impl From<$number> for Json {
            fn from(number: $number) -> Json {
                Json::Number(number.into())
            }
        }
    )+};
}

from_number!(u8 u16 u32 i32 i64);

impl From<&str> for Json {
    fn from(text: &str) -> Json {
        Json::text(text)
    }
}

/// As the command line reads it.
impl From<Date> for Json {
    fn from(date: Date) -> Json {
        Json::text(date)
    }
}

/// What there is none of is null.
impl<T: Into<Json>> From<Option<T>> for Json {
    fn from(value: Option<T>) -> Json {
        value.map_or(Json::Null, T::into)
    }
}

impl Json {
    pub fn text(text: impl fmt::Display) -> Json {
        Json::Text(text.to_string())
    }

    pub fn list(members: impl IntoIterator<Item = Json>) -> Json {
        Json::List(members.into_iter().collect())
    }

    /// The object of a line of a file: the line's number stands first.
    pub fn in_line(self, line: u64) -> Json {
        match self {
            Json::Object(members) => {
                let line = Json::Number(i64::try_from(line).unwrap_or(i64::MAX));
                Json::Object([vec![("line", line)], members].concat())
            }
            _ => self,
        }
    }
}

/// On one line, without spaces between the tokens.
impl fmt::Display for Json {
    fn fmt(&self, f: &mut fmt::Formatter<'_>) -> fmt::Result {
        match self {
            Json::Null => f.write_str("null"),
            Json::Bool(value) => write!(f, "{value}"),
            Json::Number(number) => write!(f, "{number}"),
            Json::Text(text) => string(f, text),
            Json::List(members) => {
                f.write_char('[')?;
                separated(f, members, |f, member| write!(f, "{member}"))?;
                f.write_char(']')
            }
            Json::Object(members) => {
                f.write_char('{')?;
                separated(f, members, |f, (name, value)| {
                    string(f, name)?;
                    write!(f, ":{value}")
                })?;
                f.write_char('}')
            }
        }
    }
}

fn separated<T>(
    f: &mut fmt::Formatter<'_>,
    members: &[T],
    write: impl Fn(&mut fmt::Formatter<'_>, &T) -> fmt::Result,
) -> fmt::Result {
    for (place, member) in members.iter().enumerate() {
        if place > 0 {
            f.write_char(',')?;
        }
        write(f, member)?;
    }
    Ok(())
}

fn string(f: &mut fmt::Formatter<'_>, text: &str) -> fmt::Result {
    f.write_char('"')?;
    for c in text.chars() {
        match c {
            '"' => f.write_str("\\\"")?,
            '\\' => f.write_str("\\\\")?,
            // The line and paragraph separators would end a line for some readers.
            _ if c.is_control() || matches!(c, '\u{2028}' | '\u{2029}') => {
                write!(f, "\\u{:04x}", u32::from(c))?;
            }
            _ => f.write_char(c)?,
        }
    }
    f.write_char('"')
}

#[cfg(test)]
mod tests {
    use super::*;

    #[test]
    fn a_value_on_one_line() {
        let list =
            Json::list([Json::Number(-1), Json::Bool(true), Json::text("ä"), Json::List(vec![])]);
        let json = Json::Object(vec![("a", Json::Null), ("b", list), ("c", Json::Object(vec![]))]);
        assert_eq!(json.to_string(), "{\"a\":null,\"b\":[-1,true,\"ä\",[]],\"c\":{}}");
    }

    #[test]
    fn what_a_string_may_not_hold_is_escaped() {
        let json = Json::text("\"\\/\n\t\0\u{7f}\u{85}\u{2028}é\u{1f600}");
        let expected = "\"\\\"\\\\/\\u000a\\u0009\\u0000\\u007f\\u0085\\u2028é\u{1f600}\"";
        assert_eq!(json.to_string(), expected);
    }
}
