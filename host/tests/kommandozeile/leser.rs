//! A strict reader of JSON, RFC 8259: what it takes, any reader takes.

use std::iter::Peekable;
use std::str::Chars;

/// A value. An object keeps the order of its members.
#[derive(Clone, Debug, PartialEq, Eq, PartialOrd, Ord)]
pub enum Value {
    Null,
    Bool(bool),
    /// A whole number.
    Number(i64),
    Text(String),
    List(Vec<Value>),
    Object(Vec<(String, Value)>),
}

impl Value {
    /// The value of a text that has nothing else, or where it is wrong.
    pub fn read(text: &str) -> Result<Value, String> {
        let mut reader = Reader { left: text.chars().peekable() };
        let value = reader.value()?;
        match reader.left.next() {
            None => Ok(value),
            Some(c) => Err(format!("{c:?} behind the value")),
        }
    }

    pub fn keys(&self) -> Vec<&str> {
        self.members().iter().map(|(key, _)| key.as_str()).collect()
    }

    pub fn members(&self) -> &[(String, Value)] {
        match self {
            Value::Object(members) => members,
            _ => panic!("no object: {self:?}"),
        }
    }

    /// The member of this name, which must be there.
    pub fn get(&self, key: &str) -> &Value {
        let found = self.members().iter().find(|(name, _)| name == key);
        &found.unwrap_or_else(|| panic!("no {key}: {self:?}")).1
    }
}

struct Reader<'a> {
    left: Peekable<Chars<'a>>,
}

impl Reader<'_> {
    fn value(&mut self) -> Result<Value, String> {
        match self.left.peek() {
            Some('n') => self.word("null", Value::Null),
            Some('t') => self.word("true", Value::Bool(true)),
            Some('f') => self.word("false", Value::Bool(false)),
            Some('"') => self.text().map(Value::Text),
            Some('[') => self.list(),
            Some('{') => self.object(),
            Some('-' | '0'..='9') => self.number(),
            other => Err(format!("no value begins with {other:?}")),
        }
    }

    fn expect(&mut self, expected: char) -> Result<(), String> {
        match self.left.next() {
            Some(c) if c == expected => Ok(()),
            other => Err(format!("{other:?} instead of {expected:?}")),
        }
    }

    fn word(&mut self, word: &str, value: Value) -> Result<Value, String> {
        word.chars().try_for_each(|c| self.expect(c))?;
        Ok(value)
    }

    /// No number begins with a zero that is not all of it, and the program has no fractions.
    fn number(&mut self) -> Result<Value, String> {
        let mut digits = String::new();
        while let Some(c) = self.left.next_if(|c| matches!(c, '-' | '0'..='9')) {
            digits.push(c);
        }
        let number: i64 = digits.parse().map_err(|_| format!("{digits:?} is no number"))?;
        (number.to_string() == digits)
            .then_some(Value::Number(number))
            .ok_or(format!("{digits:?} is no number of JSON"))
    }

    fn text(&mut self) -> Result<String, String> {
        self.expect('"')?;
        let mut text = String::new();
        loop {
            match self.left.next() {
                Some('"') => return Ok(text),
                Some('\\') => text.push(self.escaped()?),
                Some(c) if c >= ' ' => text.push(c),
                other => return Err(format!("{other:?} in a text")),
            }
        }
    }

    fn escaped(&mut self) -> Result<char, String> {
        match self.left.next() {
            Some(c @ ('"' | '\\' | '/')) => Ok(c),
            Some('n') => Ok('\n'),
            Some('t') => Ok('\t'),
            Some('r') => Ok('\r'),
            Some('u') => {
                let digits: String = self.left.by_ref().take(4).collect();
                let number = u32::from_str_radix(&digits, 16).ok().filter(|_| digits.len() == 4);
                number.and_then(char::from_u32).ok_or(format!("\\u{digits}"))
            }
            other => Err(format!("\\{other:?}")),
        }
    }

    /// What stands between commas, up to the end.
    fn separated<T>(
        &mut self,
        end: char,
        mut read: impl FnMut(&mut Self) -> Result<T, String>,
    ) -> Result<Vec<T>, String> {
        self.left.next();
        if self.left.next_if_eq(&end).is_some() {
            return Ok(vec![]);
        }
        let mut all = vec![read(self)?];
        while self.left.next_if_eq(&',').is_some() {
            all.push(read(self)?);
        }
        self.expect(end)?;
        Ok(all)
    }

    fn list(&mut self) -> Result<Value, String> {
        self.separated(']', Reader::value).map(Value::List)
    }

    fn object(&mut self) -> Result<Value, String> {
        let members = self.separated('}', |reader| {
            let key = reader.text()?;
            reader.expect(':')?;
            Ok((key, reader.value()?))
        })?;
        let twice = members
            .iter()
            .enumerate()
            .find(|(place, (key, _))| members.iter().take(*place).any(|(other, _)| other == key));
        match twice {
            Some((_, (key, _))) => Err(format!("{key:?} stands there twice")),
            None => Ok(Value::Object(members)),
        }
    }
}

#[test]
fn what_is_no_json_is_not_read() {
    let wrong = [
        "",
        "nul",
        "nulll",
        "01",
        "-",
        "+1",
        "1.5",
        "'a'",
        "\"a",
        "\"\n\"",
        "\"\\x\"",
        "\"\\u12\"",
        "[1,]",
        "[1",
        "[,]",
        "{\"a\"}",
        "{\"a\":1,}",
        "{a:1}",
        "{\"a\":1 }",
        "{\"a\":1,\"a\":2}",
        "1 ",
        "true,",
    ];
    for text in wrong {
        assert!(Value::read(text).is_err(), "{text:?}");
    }
    let value = Value::read(r#"{"a":[null,true,-1,[]],"b":"\u00e4\"\\\/ü","c":{}}"#).expect("JSON");
    let list = vec![Value::Null, Value::Bool(true), Value::Number(-1), Value::List(vec![])];
    assert_eq!(value.get("a"), &Value::List(list));
    assert_eq!(value.get("b"), &Value::Text("ä\"\\/ü".to_owned()));
    assert_eq!(value.keys(), ["a", "b", "c"]);
}
