//! A small reader of JSON, strict as RFC 8259 has it.

/// A JSON value. Numbers are whole here.
#[derive(Clone, Debug, PartialEq)]
pub enum Json {
    Null,
    Bool(bool),
    Number(i64),
    Text(String),
    List(Vec<Json>),
    Object(Vec<(String, Json)>),
}

impl Json {
    /// The value that a text is.
    pub fn read(text: &str) -> Result<Json, String> {
        let mut reader = Reader { text: text.as_bytes(), at: 0 };
        let value = reader.value(0)?;
        reader.space();
        match reader.at == text.len() {
            true => Ok(value),
            false => Err(reader.wrong("the end")),
        }
    }

    /// A member of an object.
    pub fn get(&self, name: &str) -> Result<&Json, String> {
        let members = match self {
            Json::Object(members) => members,
            other => return Err(format!("`{name}` of {other:?}")),
        };
        let found = members.iter().find(|(key, _)| key == name).map(|(_, value)| value);
        found.ok_or_else(|| format!("no member `{name}`"))
    }

    /// The items of a list.
    pub fn list(&self, name: &str) -> Result<&[Json], String> {
        match self.get(name)? {
            Json::List(items) => Ok(items),
            other => Err(format!("`{name}` is no list but {other:?}")),
        }
    }

    /// A string, as it stands.
    pub fn text(&self, name: &str) -> Result<&str, String> {
        match self.get(name)? {
            Json::Text(text) => Ok(text),
            other => Err(format!("`{name}` is no string but {other:?}")),
        }
    }

    /// A whole number: one below 2^53 as it is, one of 64 bits as a string such as `0x10`.
    pub fn number(&self, name: &str) -> Result<u64, String> {
        let value = self.get(name)?;
        let number = match value {
            Json::Number(number) if number.unsigned_abs() < 1 << 53 => Some(*number as u64),
            Json::Text(text) => {
                text.strip_prefix("0x").and_then(|digits| u64::from_str_radix(digits, 16).ok())
            }
            _ => None,
        };
        number.ok_or_else(|| format!("`{name}` is no number but {value:?}"))
    }

    /// A truth value.
    pub fn truth(&self, name: &str) -> Result<bool, String> {
        match self.get(name)? {
            Json::Bool(truth) => Ok(*truth),
            other => Err(format!("`{name}` is no truth value but {other:?}")),
        }
    }
}

struct Reader<'a> {
    text: &'a [u8],
    at: usize,
}

impl Reader<'_> {
    fn wrong(&self, wanted: &str) -> String {
        let end = self.text.len().min(self.at + 30);
        let found = String::from_utf8_lossy(&self.text[self.at..end]).into_owned();
        format!("JSON, byte {}: wanted {wanted}, found `{found}`", self.at)
    }

    fn space(&mut self) {
        while matches!(self.text.get(self.at), Some(b' ' | b'\n' | b'\r' | b'\t')) {
            self.at += 1;
        }
    }

    /// Passes over a token, if it stands here.
    fn take(&mut self, token: &str) -> bool {
        let is = self.text[self.at..].starts_with(token.as_bytes());
        self.at += if is { token.len() } else { 0 };
        is
    }

    fn value(&mut self, depth: usize) -> Result<Json, String> {
        self.space();
        match self.text.get(self.at) {
            _ if depth > 64 => Err(self.wrong("less depth")),
            Some(b'{') => self.object(depth),
            Some(b'[') => self.list(depth),
            Some(b'"') => self.string().map(Json::Text),
            Some(b'-' | b'0'..=b'9') => self.number(),
            _ if self.take("null") => Ok(Json::Null),
            _ if self.take("true") => Ok(Json::Bool(true)),
            _ if self.take("false") => Ok(Json::Bool(false)),
            _ => Err(self.wrong("a value")),
        }
    }

    fn number(&mut self) -> Result<Json, String> {
        let start = self.at;
        self.take("-");
        while matches!(self.text.get(self.at), Some(b'0'..=b'9')) {
            self.at += 1;
        }
        let digits = String::from_utf8_lossy(&self.text[start..self.at]).into_owned();
        let plain = digits.trim_start_matches('-');
        let zeros = plain.len() > 1 && plain.starts_with('0');
        let number = digits.parse().ok().filter(|_| !zeros);
        number.map(Json::Number).ok_or_else(|| format!("JSON: `{digits}` is no whole number"))
    }

    fn string(&mut self) -> Result<String, String> {
        self.at += 1;
        let mut units: Vec<u16> = Vec::new();
        loop {
            let byte = *self.text.get(self.at).ok_or_else(|| self.wrong("the string's end"))?;
            self.at += 1;
            match byte {
                b'"' => return String::from_utf16(&units).map_err(|_| self.wrong("UTF-16")),
                b'\\' => units.push(self.escape()?),
                0x20..=0x7e => units.push(byte.into()),
                _ => return Err(self.wrong("ASCII")),
            }
        }
    }

    fn escape(&mut self) -> Result<u16, String> {
        let byte = self.text.get(self.at).copied().unwrap_or_default();
        self.at += 1;
        Ok(match byte {
            b'"' | b'\\' | b'/' => byte.into(),
            b'n' => 10,
            b't' => 9,
            b'r' => 13,
            b'b' => 8,
            b'f' => 12,
            b'u' => {
                let digits = self.text.get(self.at..self.at + 4).unwrap_or_default();
                let digits = String::from_utf8_lossy(digits).into_owned();
                self.at += 4;
                u16::from_str_radix(&digits, 16).map_err(|_| self.wrong("four digits"))?
            }
            _ => return Err(self.wrong("an escape")),
        })
    }

    fn list(&mut self, depth: usize) -> Result<Json, String> {
        self.at += 1;
        let mut items = Vec::new();
        self.space();
        if self.take("]") {
            return Ok(Json::List(items));
        }
        loop {
            items.push(self.value(depth + 1)?);
            self.space();
            if self.take("]") {
                return Ok(Json::List(items));
            }
            if !self.take(",") {
                return Err(self.wrong("a comma"));
            }
        }
    }

    fn object(&mut self, depth: usize) -> Result<Json, String> {
        self.at += 1;
        let mut members: Vec<(String, Json)> = Vec::new();
        self.space();
        if self.take("}") {
            return Ok(Json::Object(members));
        }
        loop {
            self.space();
            if self.text.get(self.at) != Some(&b'"') {
                return Err(self.wrong("a name"));
            }
            let name = self.string()?;
            self.space();
            if !self.take(":") || members.iter().any(|(old, _)| *old == name) {
                return Err(self.wrong("a colon behind a new name"));
            }
            let value = self.value(depth + 1)?;
            members.push((name, value));
            self.space();
            if self.take("}") {
                return Ok(Json::Object(members));
            }
            if !self.take(",") {
                return Err(self.wrong("a comma"));
            }
        }
    }
}
