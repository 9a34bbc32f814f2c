//! JSON, as far as built programs have it: RFC 8259, with no other numbers than whole ones from 0 to 2^32 - 1.

/// What a text is.
#[derive(Debug, Clone, PartialEq, Eq)]
pub(crate) enum Value {
    Null,
    Bool(bool),
    Number(u32),
    Text(String),
    List(Vec<Value>),
    Object(Vec<(String, Value)>),
}

/// The offset at which a text is no such value, and the reason.
#[derive(Debug, Clone, Copy, PartialEq, Eq)]
pub(crate) struct Fault {
    pub(crate) at: usize,
    pub(crate) what: &'static str,
}

/// Values are nested at most so deep.
const DEEPEST: usize = 32;

/// The value that a whole text is.
pub(crate) fn read(text: &str) -> Result<Value, Fault> {
    let mut reader = Reader { text, at: 0 };
    let value = reader.value(DEEPEST)?;
    reader.space();
    if reader.at < text.len() { Err(reader.fault("something stands behind the value")) } else { Ok(value) }
}

struct Reader<'a> {
    text: &'a str,
    at: usize,
}

impl Reader<'_> {
    fn fault(&self, what: &'static str) -> Fault {
        Fault { at: self.at, what }
    }

    fn rest(&self) -> &str {
        &self.text[self.at..]
    }

    fn space(&mut self) {
        self.at += self.rest().len() - self.rest().trim_start_matches([' ', '\t', '\n', '\r']).len();
    }

    /// Whether this comes next, after spaces; then it is read.
    fn takes(&mut self, word: &str) -> bool {
        self.space();
        let is_here = self.rest().starts_with(word);
        self.at += if is_here { word.len() } else { 0 };
        is_here
    }

    fn demand(&mut self, word: &str, what: &'static str) -> Result<(), Fault> {
        if self.takes(word) { Ok(()) } else { Err(self.fault(what)) }
    }

    fn value(&mut self, depth: usize) -> Result<Value, Fault> {
        if depth == 0 {
            return Err(self.fault("the values are nested too deep"));
        }
        self.space();
        match self.rest().bytes().next() {
            Some(b'{') => self.object(depth),
            Some(b'[') => self.list(depth),
            Some(b'"') => self.text().map(Value::Text),
            Some(b'0'..=b'9') => self.number(),
            _ if self.takes("null") => Ok(Value::Null),
            _ if self.takes("true") => Ok(Value::Bool(true)),
            _ if self.takes("false") => Ok(Value::Bool(false)),
            _ => Err(self.fault("there is no value")),
        }
    }

    fn object(&mut self, depth: usize) -> Result<Value, Fault> {
        let mut members = Vec::new();
        self.demand("{", "there is no object")?;
        while !(members.is_empty() && self.takes("}")) {
            self.space();
            let key = self.text()?;
            self.demand(":", "a key has no value")?;
            members.push((key, self.value(depth - 1)?));
            if !self.takes(",") {
                self.demand("}", "an object does not end")?;
                break;
            }
        }
        Ok(Value::Object(members))
    }

    fn list(&mut self, depth: usize) -> Result<Value, Fault> {
        let mut elements = Vec::new();
        self.demand("[", "there is no list")?;
        while !(elements.is_empty() && self.takes("]")) {
            elements.push(self.value(depth - 1)?);
            if !self.takes(",") {
                self.demand("]", "a list does not end")?;
                break;
            }
        }
        Ok(Value::List(elements))
    }

    fn number(&mut self) -> Result<Value, Fault> {
        let count = self.rest().bytes().take_while(u8::is_ascii_digit).count();
        let digits = &self.rest()[..count];
        if digits.len() > 1 && digits.starts_with('0') || self.rest()[count..].starts_with(['.', 'e', 'E']) {
            return Err(self.fault("a number is not whole"));
        }
        let number = digits.parse().map_err(|_| self.fault("a number is above 2^32 - 1"))?;
        self.at += count;
        Ok(Value::Number(number))
    }

    fn text(&mut self) -> Result<String, Fault> {
        if !self.rest().starts_with('"') {
            return Err(self.fault("there is no string"));
        }
        self.at += 1;
        let mut found = String::new();
        loop {
            let plain =
                self.rest().find(|each: char| each == '"' || each == '\\' || each < ' ').unwrap_or(self.rest().len());
            found.push_str(&self.rest()[..plain]);
            self.at += plain;
            match self.rest().bytes().next() {
                Some(b'"') => break,
                Some(b'\\') => found.push(self.escape()?),
                _ => return Err(self.fault("a string does not end")),
            }
        }
        self.at += 1;
        Ok(found)
    }

    fn escape(&mut self) -> Result<char, Fault> {
        const PLAIN: [(&str, char); 8] = [
            ("\\\"", '"'),
            ("\\\\", '\\'),
            ("\\/", '/'),
            ("\\b", '\u{8}'),
            ("\\f", '\u{c}'),
            ("\\n", '\n'),
            ("\\r", '\r'),
            ("\\t", '\t'),
        ];
        if let Some((word, escaped)) = PLAIN.into_iter().find(|(word, _)| self.rest().starts_with(word)) {
            self.at += word.len();
            return Ok(escaped);
        }
        let first = self.unit()?;
        let code = match first {
            0xd800..0xdc00 => 0x10000 + ((first - 0xd800) << 10) + self.low_half()?,
            _ => first,
        };
        char::from_u32(code).ok_or(self.fault("an escape is no character"))
    }

    /// A code unit, as `\u00e9`.
    fn unit(&mut self) -> Result<u32, Fault> {
        let digits = self.rest().get(2..6).filter(|digits| digits.bytes().all(|digit| digit.is_ascii_hexdigit()));
        match (self.rest().starts_with("\\u"), digits) {
            (true, Some(digits)) => {
                let unit = u32::from_str_radix(digits, 16).expect("they are hexadecimal digits");
                self.at += 6;
                Ok(unit)
            }
            _ => Err(self.fault("an escape is wrong")),
        }
    }

    /// The second unit of a character that has two.
    fn low_half(&mut self) -> Result<u32, Fault> {
        match self.unit()? {
            unit @ 0xdc00..0xe000 => Ok(unit - 0xdc00),
            _ => Err(self.fault("an escape is no character")),
        }
    }
}

#[cfg(test)]
mod tests {
    use super::{Fault, Value, read};

    fn text(word: &str) -> Value {
        Value::Text(word.to_string())
    }

    #[test]
    fn values() {
        assert_eq!(read(" [ ] "), Ok(Value::List(vec![])));
        assert_eq!(read("{}"), Ok(Value::Object(vec![])));
        assert_eq!(read("[null,true , false,0,4294967295]").unwrap(), {
            Value::List(vec![
                Value::Null,
                Value::Bool(true),
                Value::Bool(false),
                Value::Number(0),
                Value::Number(u32::MAX),
            ])
        });
        assert_eq!(read(r#"{"a":{"b":["c"]}}"#).unwrap(), {
            let inner = Value::Object(vec![("b".to_string(), Value::List(vec![text("c")]))]);
            Value::Object(vec![("a".to_string(), inner)])
        });
    }

    #[test]
    fn strings() {
        assert_eq!(
            read(r#""a\"\\\/\b\f\n\r\té\u00e9\ud83d\ude00""#),
            Ok(text("a\"\\/\u{8}\u{c}\n\r\té\u{e9}\u{1f600}"))
        );
        assert_eq!(read("\"\""), Ok(text("")));
    }

    #[test]
    fn what_is_wrong() {
        for (given, at, what) in [
            ("", 0, "there is no value"),
            ("[1,]", 3, "there is no value"),
            ("[1", 2, "a list does not end"),
            ("{\"a\" 1}", 5, "a key has no value"),
            ("{\"a\":1", 6, "an object does not end"),
            ("{a:1}", 1, "there is no string"),
            ("{\"a\":1,}", 7, "there is no string"),
            ("\"a", 2, "a string does not end"),
            ("\"a\nb\"", 2, "a string does not end"),
            ("\"\\x\"", 1, "an escape is wrong"),
            ("\"\\u12g4\"", 1, "an escape is wrong"),
            ("\"\\ud800\"", 7, "an escape is wrong"),
            ("\"\\ud800\\u0041\"", 13, "an escape is no character"),
            ("\"\\udc00\"", 7, "an escape is no character"),
            ("4294967296", 0, "a number is above 2^32 - 1"),
            ("01", 0, "a number is not whole"),
            ("1.5", 0, "a number is not whole"),
            ("-1", 0, "there is no value"),
            ("1 2", 2, "something stands behind the value"),
        ] {
            assert_eq!(read(given), Err(Fault { at, what }), "{given}");
        }
        assert_eq!(read(&"[".repeat(100)), Err(Fault { at: 32, what: "the values are nested too deep" }));
    }
}
