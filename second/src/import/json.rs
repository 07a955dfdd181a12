//! JSON, as far as GeoJSON needs it. A number keeps its text, so that none is rounded.

/// A value.
#[derive(Clone, Debug, PartialEq, Eq)]
pub enum Json {
    Null,
    Bool(bool),
    Number(String),
    Text(String),
    List(Vec<Json>),
    Object(Vec<(String, Json)>),
}

/// How deep lists and objects may lie in each other.
const DEPTH: usize = 64;

impl Json {
    /// A member of an object; where a name stands twice, the last.
    pub fn get(&self, name: &str) -> Option<&Json> {
        match self {
            Json::Object(members) => members.iter().rev().find(|(n, _)| n == name).map(|(_, v)| v),
            _ => None,
        }
    }

    pub fn text(&self) -> Option<&str> {
        match self {
            Json::Text(text) => Some(text),
            _ => None,
        }
    }

    pub fn list(&self) -> Option<&[Json]> {
        match self {
            Json::List(list) => Some(list),
            _ => None,
        }
    }

    /// The whole number that a number's text stands for, if it is whole: `4`, `4.0`, `-1.5e1`.
    pub fn whole(&self) -> Option<i64> {
        let Json::Number(text) = self else { return None };
        let (text, power) = match text.split_once(['e', 'E']) {
            Some((text, power)) => (text, power.parse::<i32>().ok()?),
            None => (text.as_str(), 0),
        };
        let (sign, text) = match text.strip_prefix('-') {
            Some(rest) => (-1, rest),
            None => (1, text),
        };
        let (before, after) = text.split_once('.').unwrap_or((text, ""));
        let after = after.trim_end_matches('0');
        let digits = format!("{before}{after}");
        let digits = digits.trim_start_matches('0');
        if digits.is_empty() {
            return Some(0);
        }
        // What stands behind the last digit other than 0 decides, and 18 digits are more than enough.
        let zeros = digits.len() - digits.trim_end_matches('0').len();
        let digits = digits.trim_end_matches('0');
        let shift = power as i64 - after.len() as i64 + zeros as i64;
        if shift < 0 || digits.len() as i64 + shift > 18 {
            return None;
        }
        Some(sign * digits.parse::<i64>().ok()? * 10i64.pow(shift as u32))
    }

    /// The value as it may stand in a sentence.
    pub fn said(&self) -> String {
        match self {
            Json::Null => "null".to_string(),
            Json::Bool(value) => value.to_string(),
            Json::Number(text) => text.clone(),
            Json::Text(text) => format!("\"{text}\""),
            Json::List(_) => "a list".to_string(),
            Json::Object(_) => "an object".to_string(),
        }
    }
}

/// The value that a text stands for, or the line that is wrong and why.
pub fn parse(text: &str) -> Result<Json, String> {
    let mut reader = Reader { text, at: 0 };
    let value = reader.value(0).and_then(|value| {
        reader.blanks();
        if reader.at < text.len() {
            Err("something stands behind the end")
        } else {
            Ok(value)
        }
    });
    value.map_err(|why| {
        let line = text.as_bytes()[..reader.at].iter().filter(|&&b| b == b'\n').count() + 1;
        format!("line {line}: not JSON: {why}")
    })
}

struct Reader<'a> {
    text: &'a str,
    at: usize,
}

type Read<T> = Result<T, &'static str>;

impl Reader<'_> {
    fn rest(&self) -> &[u8] {
        &self.text.as_bytes()[self.at..]
    }

    fn blanks(&mut self) {
        let blank = |b: &u8| matches!(b, b' ' | b'\n' | b'\r' | b'\t');
        self.at += self.rest().iter().take_while(|b| blank(b)).count();
    }

    /// Takes a word if it comes next.
    fn take(&mut self, word: &str) -> bool {
        let here = self.rest().starts_with(word.as_bytes());
        self.at += if here { word.len() } else { 0 };
        here
    }

    fn value(&mut self, depth: usize) -> Read<Json> {
        if depth > DEPTH {
            return Err("lists or objects lie too deep in each other");
        }
        self.blanks();
        match self.rest().first().copied() {
            Some(b'{') => self.object(depth),
            Some(b'[') => self.list(depth),
            Some(b'"') => self.string().map(Json::Text),
            Some(b'-' | b'0'..=b'9') => self.number(),
            _ if self.take("null") => Ok(Json::Null),
            _ if self.take("true") => Ok(Json::Bool(true)),
            _ if self.take("false") => Ok(Json::Bool(false)),
            _ => Err("a value should stand here"),
        }
    }

    fn list(&mut self, depth: usize) -> Read<Json> {
        let mut list = Vec::new();
        self.take("[");
        self.blanks();
        if self.take("]") {
            return Ok(Json::List(list));
        }
        loop {
            list.push(self.value(depth + 1)?);
            self.blanks();
            if self.take("]") {
                return Ok(Json::List(list));
            }
            if !self.take(",") {
                return Err("a comma or ] should stand here");
            }
        }
    }

    fn object(&mut self, depth: usize) -> Read<Json> {
        let mut members = Vec::new();
        self.take("{");
        self.blanks();
        if self.take("}") {
            return Ok(Json::Object(members));
        }
        loop {
            self.blanks();
            let name = self.string()?;
            self.blanks();
            if !self.take(":") {
                return Err("a colon should stand here");
            }
            members.push((name, self.value(depth + 1)?));
            self.blanks();
            if self.take("}") {
                return Ok(Json::Object(members));
            }
            if !self.take(",") {
                return Err("a comma or } should stand here");
            }
        }
    }

    fn digits(&mut self) -> usize {
        let n = self.rest().iter().take_while(|b| b.is_ascii_digit()).count();
        self.at += n;
        n
    }

    fn number(&mut self) -> Read<Json> {
        let start = self.at;
        self.take("-");
        let zero = self.rest().first() == Some(&b'0');
        let n = self.digits();
        if n == 0 || (zero && n > 1) {
            return Err("not a number");
        }
        if self.take(".") && self.digits() == 0 {
            return Err("not a number");
        }
        if self.take("e") || self.take("E") {
            let _ = self.take("+") || self.take("-");
            if self.digits() == 0 {
                return Err("not a number");
            }
        }
        Ok(Json::Number(self.text[start..self.at].to_string()))
    }

    fn string(&mut self) -> Read<String> {
        if !self.take("\"") {
            return Err("a name or text in quotes should stand here");
        }
        let mut out = String::new();
        loop {
            let c = self.text[self.at..].chars().next().ok_or("a text has no end")?;
            self.at += c.len_utf8();
            match c {
                '"' => return Ok(out),
                '\\' => out.push(self.escape()?),
                c if c < ' ' => return Err("a text has a control character"),
                c => out.push(c),
            }
        }
    }

    /// What stands behind a backslash. Half of a surrogate pair becomes the replacement character.
    fn escape(&mut self) -> Read<char> {
        let c = *self.rest().first().ok_or("a text has no end")?;
        self.at += 1;
        Ok(match c {
            b'"' | b'\\' | b'/' => c as char,
            b'b' => '\u{8}',
            b'f' => '\u{c}',
            b'n' => '\n',
            b'r' => '\r',
            b't' => '\t',
            b'u' => {
                let first = self.four()?;
                let pair = (0xd800..0xdc00).contains(&first) && self.take("\\u");
                let second = if pair { self.four()? } else { 0 };
                let code = match second {
                    0xdc00..=0xdfff => 0x10000 + ((first - 0xd800) << 10) + (second - 0xdc00),
                    _ => first,
                };
                char::from_u32(code).unwrap_or('\u{fffd}')
            }
            _ => return Err("an unknown letter behind a backslash"),
        })
    }

    fn four(&mut self) -> Read<u32> {
        let digits = self.text.get(self.at..self.at + 4).ok_or("\\u needs four digits")?;
        let code = u32::from_str_radix(digits, 16).map_err(|_| "\\u needs four digits")?;
        self.at += 4;
        Ok(code)
    }
}
