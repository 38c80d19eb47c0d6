//! A reader for JSON: what the command prints for scripts is read, not searched.
//!
//! It takes what the grammar allows and nothing else. A name that comes twice in an
//! object is refused too: readers differ in which of the two they believe.

use std::iter::Peekable;
use std::str::Chars;

#[derive(Clone, Debug, PartialEq)]
pub enum Json {
    Null,
    Truth(bool),
    Number(f64),
    Text(String),
    List(Vec<Json>),
    Object(Vec<(String, Json)>),
}

impl Json {
    /// The value that a text is, all of it.
    pub fn read(text: &str) -> Result<Json, String> {
        let mut reader = Reader { rest: text.chars().peekable() };
        let value = reader.value()?;
        match reader.sign() {
            None => Ok(value),
            Some(c) => Err(format!("{c:?} after the end")),
        }
    }

    // What an object has under a name, which has to be there and of this sort.

    pub fn text(&self, name: &str) -> &str {
        self.at(name).as_text()
    }

    /// A number without a fraction.
    pub fn number(&self, name: &str) -> u64 {
        match self.at(name) {
            Json::Number(number) if *number >= 0.0 && number.fract() == 0.0 => *number as u64,
            other => panic!("{name:?} is no whole number: {other:?}"),
        }
    }

    pub fn truth(&self, name: &str) -> bool {
        match self.at(name) {
            Json::Truth(truth) => *truth,
            other => panic!("{name:?} is neither true nor false: {other:?}"),
        }
    }

    pub fn list(&self, name: &str) -> &[Json] {
        match self.at(name) {
            Json::List(list) => list,
            other => panic!("{name:?} is no list: {other:?}"),
        }
    }

    pub fn texts(&self, name: &str) -> Vec<&str> {
        self.list(name).iter().map(Json::as_text).collect()
    }

    fn at(&self, name: &str) -> &Json {
        self.get(name).unwrap_or_else(|| panic!("no {name:?} in {self:?}"))
    }

    fn as_text(&self) -> &str {
        match self {
            Json::Text(text) => text,
            other => panic!("no text: {other:?}"),
        }
    }

    /// What an object has under a name, if it has it.
    pub fn get(&self, name: &str) -> Option<&Json> {
        match self {
            Json::Object(members) => members.iter().find(|(key, _)| key == name).map(|(_, of)| of),
            _ => panic!("{self:?} is no object"),
        }
    }
}

struct Reader<'a> {
    rest: Peekable<Chars<'a>>,
}

impl Reader<'_> {
    /// The next character that is no white space. It is not taken.
    fn sign(&mut self) -> Option<char> {
        while self.rest.next_if(|c| matches!(c, ' ' | '\t' | '\n' | '\r')).is_some() {}
        self.rest.peek().copied()
    }

    fn value(&mut self) -> Result<Json, String> {
        match self.sign() {
            Some('{') => self.object(),
            Some('[') => self.list(),
            Some('"') => self.text().map(Json::Text),
            Some('-' | '0'..='9') => self.number(),
            Some('n') => self.word("null", Json::Null),
            Some('t') => self.word("true", Json::Truth(true)),
            Some('f') => self.word("false", Json::Truth(false)),
            other => Err(format!("no value begins with {other:?}")),
        }
    }

    fn word(&mut self, word: &str, value: Json) -> Result<Json, String> {
        match word.chars().all(|c| self.rest.next() == Some(c)) {
            true => Ok(value),
            false => Err(format!("no {word}")),
        }
    }

    /// The character that has to come next.
    fn expect(&mut self, c: char) -> Result<(), String> {
        match self.rest.next() {
            Some(found) if found == c => Ok(()),
            other => Err(format!("{other:?} for {c:?}")),
        }
    }

    fn object(&mut self) -> Result<Json, String> {
        let mut members: Vec<(String, Json)> = vec![];
        self.each('{', '}', |reader| {
            if reader.sign() != Some('"') {
                return Err("a member without a name".to_string());
            }
            let name = reader.text()?;
            reader.sign();
            reader.expect(':')?;
            if members.iter().any(|(other, _)| *other == name) {
                return Err(format!("{name:?} twice"));
            }
            members.push((name, reader.value()?));
            Ok(())
        })?;
        Ok(Json::Object(members))
    }

    fn list(&mut self) -> Result<Json, String> {
        let mut values = vec![];
        self.each('[', ']', |reader| {
            values.push(reader.value()?);
            Ok(())
        })?;
        Ok(Json::List(values))
    }

    /// What stands between two brackets, apart by commas; there is none after the last.
    fn each(
        &mut self,
        open: char,
        close: char,
        mut one: impl FnMut(&mut Self) -> Result<(), String>,
    ) -> Result<(), String> {
        self.expect(open)?;
        if self.sign() == Some(close) {
            return self.expect(close);
        }
        loop {
            one(self)?;
            if self.sign() == Some(close) {
                return self.expect(close);
            }
            self.expect(',')?;
        }
    }

    fn text(&mut self) -> Result<String, String> {
        self.expect('"')?;
        let mut text = String::new();
        loop {
            match self.rest.next() {
                None => return Err("a text without an end".to_string()),
                Some('"') => return Ok(text),
                Some('\\') => text.push(self.escaped()?),
                Some(c) if c < ' ' => return Err(format!("{c:?} in a text")),
                Some(c) => text.push(c),
            }
        }
    }

    fn escaped(&mut self) -> Result<char, String> {
        Ok(match self.rest.next() {
            Some(c @ ('"' | '\\' | '/')) => c,
            Some('b') => '\u{8}',
            Some('f') => '\u{C}',
            Some('n') => '\n',
            Some('r') => '\r',
            Some('t') => '\t',
            Some('u') => {
                let mut units = vec![self.unit()?];
                // What does not fit 16 bits is written as two of them.
                if (0xD800..0xDC00).contains(&units[0]) {
                    self.expect('\\')?;
                    self.expect('u')?;
                    units.push(self.unit()?);
                }
                let character = String::from_utf16(&units);
                character.map_err(|_| format!("no character: {units:X?}"))?.remove(0)
            }
            other => return Err(format!("{other:?} after a backslash")),
        })
    }

    fn unit(&mut self) -> Result<u16, String> {
        let digits: String = self.rest.by_ref().take(4).collect();
        match digits.len() == 4 && digits.chars().all(|c| c.is_ascii_hexdigit()) {
            true => Ok(u16::from_str_radix(&digits, 16).expect("four hex digits")),
            false => Err(format!("{digits:?} after \\u")),
        }
    }

    fn number(&mut self) -> Result<Json, String> {
        let mut text = String::new();
        text.extend(self.rest.next_if_eq(&'-'));
        let first = self.rest.peek().copied();
        let whole = self.digits(&mut text)?;
        if first == Some('0') && whole > 1 {
            return Err(format!("{text} begins with 0"));
        }
        if let Some(point) = self.rest.next_if_eq(&'.') {
            text.push(point);
            self.digits(&mut text)?;
        }
        if let Some(e) = self.rest.next_if(|c| matches!(c, 'e' | 'E')) {
            text.push(e);
            text.extend(self.rest.next_if(|c| matches!(c, '+' | '-')));
            self.digits(&mut text)?;
        }
        Ok(Json::Number(text.parse().expect("a number")))
    }

    /// At least one digit; how many there are.
    fn digits(&mut self, text: &mut String) -> Result<usize, String> {
        let mut count = 0;
        while let Some(c) = self.rest.next_if(|c| c.is_ascii_digit()) {
            text.push(c);
            count += 1;
        }
        match count {
            0 => Err(format!("no digit after {text:?}")),
            _ => Ok(count),
        }
    }
}

#[cfg(test)]
mod tests {
    use super::*;

    fn text(text: &str) -> Json {
        Json::Text(text.to_string())
    }

    #[test]
    fn values_are_read() {
        for (written, value) in [
            ("null", Json::Null),
            (" true ", Json::Truth(true)),
            ("false", Json::Truth(false)),
            ("0", Json::Number(0.0)),
            ("75323621", Json::Number(75_323_621.0)),
            ("-1.5e2", Json::Number(-150.0)),
            ("20E-1", Json::Number(2.0)),
            (r#""""#, text("")),
            (r#""x0'·x1""#, text("x0'·x1")),
            (r#""\"\\\/\b\f\n\r\t""#, text("\"\\/\u{8}\u{C}\n\r\t")),
            (r#""\u0041\u00e4\uD83D\uDE00""#, text("Aä😀")),
            ("[]", Json::List(vec![])),
            ("[1, [null]]", Json::List(vec![Json::Number(1.0), Json::List(vec![Json::Null])])),
            ("{ }", Json::Object(vec![])),
            (
                "{\"a\":{},\r\n\t\"b\" : [\"]}\"]}",
                Json::Object(vec![
                    ("a".to_string(), Json::Object(vec![])),
                    ("b".to_string(), Json::List(vec![text("]}")])),
                ]),
            ),
        ] {
            assert_eq!(Json::read(written), Ok(value), "{written}");
        }
    }

    #[test]
    fn what_is_no_json_is_refused() {
        for several in [
            r#"| |nul|nulls|True|'a'|+1|01|-|-01|1.|.5|1e|1e+|1 2"#,
            "\"|\"a|\"\t\"",
            r#""\x"|"\u12"|"\u12g4"|"\u+123"|"\uD800"|"\uD800\u0041"|"\uDC00""#,
            r#"[|[1|[1,]|[,1]|[1 2]|[1]]|]"#,
            r#"{|{"a"}|{"a":}|{"a":1,}|{a:1}|{1:1}|{"a" 1}|{"a":1 "b":2}|{"a":1}{"#,
            r#"{"a":1,"a":1}"#,
        ] {
            for written in several.split('|') {
                assert!(Json::read(written).is_err(), "{written}");
            }
        }
    }

    #[test]
    fn members_are_found_by_name() {
        let read = Json::read(r#"{"n":2,"on":["x0","x1"],"verb":"show","yes":true}"#);
        let object = read.expect("an object");
        assert_eq!(object.number("n"), 2);
        assert_eq!(object.text("verb"), "show");
        assert_eq!(object.texts("on"), ["x0", "x1"]);
        assert_eq!(object.list("on").len(), 2);
        assert!(object.truth("yes"));
        assert_eq!(object.get("off"), None);
    }
}
