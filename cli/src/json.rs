//! Objects for scripts: one a line, names that stay.

use zap_calls::Answer;

/// An object that is being written.
pub struct Object(String);

impl Object {
    /// Each begins with the verb that it answers.
    pub fn new(verb: &str) -> Object {
        Object("{".to_string()).text("verb", verb)
    }

    /// One inside another.
    pub fn inner() -> Object {
        Object("{".to_string())
    }

    /// What follows a list that was written out.
    pub fn rest() -> Object {
        Object(String::new())
    }

    pub fn raw(mut self, name: &str, value: &str) -> Object {
        if self.0.len() > 1 {
            self.0.push(',');
        }
        self.0.push_str(&format!("{}:{value}", quoted(name)));
        self
    }

    pub fn text(self, name: &str, value: &str) -> Object {
        self.raw(name, &quoted(value))
    }

    pub fn number(self, name: &str, value: usize) -> Object {
        self.raw(name, &value.to_string())
    }

    pub fn truth(self, name: &str, value: bool) -> Object {
        self.raw(name, if value { "true" } else { "false" })
    }

    pub fn list(self, name: &str, values: impl IntoIterator<Item = String>) -> Object {
        let values: Vec<String> = values.into_iter().collect();
        self.raw(name, &format!("[{}]", values.join(",")))
    }

    /// The numbers of an answer.
    pub fn answer(self, answer: Answer) -> Object {
        let Answer { code, kind, record, place, pattern } = answer;
        let numbers = [
            ("code", code),
            ("kind", kind),
            ("record", record),
            ("place", place),
            ("pattern", pattern),
        ];
        numbers.iter().fold(self, |object, (name, value)| object.raw(name, &value.to_string()))
    }

    /// What stands so far, for a list that is written out as it comes.
    pub fn open(self, list: &str) -> String {
        format!("{},{}:[", self.0, quoted(list))
    }

    pub fn end(self) -> String {
        self.0 + "}"
    }
}

pub fn quoted(text: &str) -> String {
    let mut quoted = String::from('"');
    for c in text.chars() {
        match c {
            '"' => quoted.push_str("\\\""),
            '\\' => quoted.push_str("\\\\"),
            '\n' => quoted.push_str("\\n"),
            c if c < ' ' => quoted.push_str(&format!("\\u{:04x}", c as u32)),
            c => quoted.push(c),
        }
    }
    quoted.push('"');
    quoted
}
