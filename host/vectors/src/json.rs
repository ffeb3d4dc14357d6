//! A reader of JSON: objects, arrays, strings without escapes but the simple ones, whole numbers up to 64 bits, true, false, null.

#[derive(Debug, PartialEq)]
pub enum Json {
    Null,
    Bool(bool),
    Number(u64),
    Text(String),
    List(Vec<Json>),
    Object(Vec<(String, Json)>),
}

pub fn parse(text: &str) -> Result<Json, String> {
    let mut reader = Reader { bytes: text.as_bytes(), at: 0 };
    let value = reader.value()?;
    reader.spaces();
    if reader.at == reader.bytes.len() { Ok(value) } else { Err(reader.error("the end")) }
}

struct Reader<'a> {
    bytes: &'a [u8],
    at: usize,
}

impl Reader<'_> {
    fn error(&self, wanted: &str) -> String {
        format!("column {}: expected {wanted}", self.at + 1)
    }

    fn spaces(&mut self) {
        while self.bytes.get(self.at).is_some_and(u8::is_ascii_whitespace) {
            self.at += 1;
        }
    }

    /// Whether the next byte that is no space is this one, which is then passed.
    fn takes(&mut self, byte: u8) -> bool {
        self.spaces();
        let there = self.bytes.get(self.at) == Some(&byte);
        self.at += there as usize;
        there
    }

    fn expect(&mut self, byte: u8) -> Result<(), String> {
        if self.takes(byte) { Ok(()) } else { Err(self.error(&format!("'{}'", byte as char))) }
    }

    fn word(&mut self, word: &str, value: Json) -> Result<Json, String> {
        if self.bytes[self.at..].starts_with(word.as_bytes()) {
            self.at += word.len();
            return Ok(value);
        }
        Err(self.error(word))
    }

    fn value(&mut self) -> Result<Json, String> {
        self.spaces();
        match self.bytes.get(self.at) {
            Some(b'{') => self.object(),
            Some(b'[') => self.list(),
            Some(b'"') => Ok(Json::Text(self.text()?)),
            Some(b'0'..=b'9') => self.number(),
            Some(b't') => self.word("true", Json::Bool(true)),
            Some(b'f') => self.word("false", Json::Bool(false)),
            Some(b'n') => self.word("null", Json::Null),
            _ => Err(self.error("a value")),
        }
    }

    fn number(&mut self) -> Result<Json, String> {
        let start = self.at;
        while self.bytes.get(self.at).is_some_and(u8::is_ascii_digit) {
            self.at += 1;
        }
        let digits = std::str::from_utf8(&self.bytes[start..self.at]).expect("digits");
        digits.parse().map(Json::Number).map_err(|_| self.error("a number of 64 bits"))
    }

    fn text(&mut self) -> Result<String, String> {
        self.expect(b'"')?;
        let mut text = Vec::new();
        loop {
            let byte = *self.bytes.get(self.at).ok_or_else(|| self.error("the end of a string"))?;
            self.at += 1;
            match byte {
                b'"' => return String::from_utf8(text).map_err(|_| self.error("UTF-8")),
                b'\\' => {
                    let escaped = *self.bytes.get(self.at).ok_or_else(|| self.error("an escape"))?;
                    self.at += 1;
                    text.push(match escaped {
                        b'"' | b'\\' | b'/' => escaped,
                        b'n' => b'\n',
                        b't' => b'\t',
                        b'r' => b'\r',
                        _ => return Err(self.error("a simple escape")),
                    });
                }
                _ => text.push(byte),
            }
        }
    }

    fn list(&mut self) -> Result<Json, String> {
        self.expect(b'[')?;
        let mut list = Vec::new();
        if self.takes(b']') {
            return Ok(Json::List(list));
        }
        loop {
            list.push(self.value()?);
            if !self.takes(b',') {
                self.expect(b']')?;
                return Ok(Json::List(list));
            }
        }
    }

    fn object(&mut self) -> Result<Json, String> {
        self.expect(b'{')?;
        let mut fields = Vec::new();
        if self.takes(b'}') {
            return Ok(Json::Object(fields));
        }
        loop {
            self.spaces();
            let name = self.text()?;
            self.expect(b':')?;
            fields.push((name, self.value()?));
            if !self.takes(b',') {
                self.expect(b'}')?;
                return Ok(Json::Object(fields));
            }
        }
    }
}

/// What a vector has, by name; each stops the run where the vector is not of the form.
impl Json {
    pub fn find(&self, name: &str) -> Option<&Json> {
        match self {
            Json::Object(fields) => fields.iter().find(|(key, _)| key == name).map(|(_, value)| value),
            _ => None,
        }
    }

    pub fn get(&self, name: &str) -> &Json {
        self.find(name).unwrap_or_else(|| panic!("no field {name}"))
    }

    pub fn text(&self) -> &str {
        match self {
            Json::Text(text) => text,
            _ => panic!("no text: {self:?}"),
        }
    }

    pub fn list(&self) -> &[Json] {
        match self {
            Json::List(list) => list,
            _ => panic!("no list: {self:?}"),
        }
    }

    pub fn flag(&self) -> bool {
        match self {
            Json::Bool(flag) => *flag,
            _ => panic!("no flag: {self:?}"),
        }
    }

    /// A number, or the decimal string of one.
    pub fn number(&self) -> u64 {
        match self {
            Json::Number(number) => *number,
            Json::Text(text) => text.parse().unwrap_or_else(|_| panic!("no number: {text}")),
            _ => panic!("no number: {self:?}"),
        }
    }

    /// The bytes that a hex string stands for, or a list of hex strings each with how often it stands there.
    pub fn bytes(&self) -> Vec<u8> {
        if let Json::List(parts) = self {
            let part = |part: &Json| part.list()[0].bytes().repeat(part.list()[1].number() as usize);
            return parts.iter().flat_map(part).collect();
        }
        let digit = |byte: u8| (byte as char).to_digit(16).unwrap_or_else(|| panic!("no hex digit: {byte}")) as u8;
        let text = self.text().as_bytes();
        assert!(text.len().is_multiple_of(2), "an odd number of hex digits");
        text.chunks(2).map(|pair| digit(pair[0]) << 4 | digit(pair[1])).collect()
    }

    pub fn four(&self) -> [u64; 4] {
        let list: Vec<u64> = self.list().iter().map(Json::number).collect();
        list.try_into().unwrap_or_else(|list| panic!("not four numbers: {list:?}"))
    }
}

#[test]
fn values_are_read() {
    let json = parse(r#" {"a": [1, "0aFF", true], "b": {}, "c": "18446744073709551615", "d": []} "#).unwrap();
    assert_eq!(json.get("a").list()[1].bytes(), [0x0a, 0xff]);
    assert_eq!(json.get("c").number(), u64::MAX);
    assert_eq!(json.find("e"), None);
    assert_eq!(parse(r#"[["0aff", 1], ["07", 3]]"#).unwrap().bytes(), [0x0a, 0xff, 7, 7, 7]);
    for wrong in ["", "{", "[1,]", "{\"a\"}", "1 2", "\"", "tru", "18446744073709551616", "{\"a\":1,}"] {
        assert!(parse(wrong).is_err(), "{wrong}");
    }
}
