//! A small reader of JSON that takes no more than the grammar allows.

#[derive(Clone, Debug, PartialEq)]
pub enum Json {
    Null,
    Truth(bool),
    /// A number as it is written.
    Number(String),
    Text(String),
    List(Vec<Json>),
    Object(Vec<(String, Json)>),
}

impl Json {
    /// The field of this name.
    #[track_caller]
    pub fn at(&self, name: &str) -> &Json {
        match self {
            Json::Object(fields) => match fields.iter().find(|(field, _)| field == name) {
                Some((_, value)) => value,
                None => panic!("no {name} in {self:?}"),
            },
            other => panic!("no object: {other:?}"),
        }
    }

    /// The names of the fields, in order.
    #[track_caller]
    pub fn fields(&self) -> Vec<&str> {
        match self {
            Json::Object(fields) => fields.iter().map(|(name, _)| name.as_str()).collect(),
            other => panic!("no object: {other:?}"),
        }
    }

    #[track_caller]
    pub fn list(&self) -> &[Json] {
        match self {
            Json::List(items) => items,
            other => panic!("no list: {other:?}"),
        }
    }

    #[track_caller]
    pub fn text(&self) -> &str {
        match self {
            Json::Text(text) => text,
            other => panic!("no text: {other:?}"),
        }
    }

    #[track_caller]
    pub fn number(&self) -> usize {
        match self {
            Json::Number(number) => number.parse().expect("it is a whole number"),
            other => panic!("no number: {other:?}"),
        }
    }
}

/// The value that is the whole text, or what is wrong with it.
pub fn parse(text: &str) -> Result<Json, String> {
    let mut reader = Reader { rest: text };
    let value = reader.value()?;
    match reader.rest {
        "" => Ok(value),
        rest => Err(format!("more than one value: {rest:?}")),
    }
}

struct Reader<'a> {
    rest: &'a str,
}

impl Reader<'_> {
    fn value(&mut self) -> Result<Json, String> {
        for (word, value) in [
            ("null", Json::Null),
            ("true", Json::Truth(true)),
            ("false", Json::Truth(false)),
        ] {
            if self.takes(word) {
                return Ok(value);
            }
        }
        match self.rest.chars().next() {
            Some('"') => self.text().map(Json::Text),
            Some('[') => self.series('[', ']', Reader::value).map(Json::List),
            Some('{') => self.series('{', '}', Reader::field).map(Json::Object),
            _ => self.number(),
        }
    }

    fn field(&mut self) -> Result<(String, Json), String> {
        let name = self.text()?;
        self.needs(":")?;
        Ok((name, self.value()?))
    }

    fn series<T>(
        &mut self,
        open: char,
        close: char,
        item: fn(&mut Self) -> Result<T, String>,
    ) -> Result<Vec<T>, String> {
        let mut items = Vec::new();
        self.needs(&open.to_string())?;
        if self.takes(&close.to_string()) {
            return Ok(items);
        }
        loop {
            items.push(item(self)?);
            if !self.takes(",") {
                break;
            }
        }
        self.needs(&close.to_string())?;
        Ok(items)
    }

    /// `-`, digits without a needless 0, a fraction, an exponent.
    fn number(&mut self) -> Result<Json, String> {
        let whole = self.rest;
        self.takes("-");
        let digits = self.digits();
        if digits.is_empty() || (digits.len() > 1 && digits.starts_with('0')) {
            return Err(format!("no value: {whole:?}"));
        }
        if self.takes(".") && self.digits().is_empty() {
            return Err(format!("no fraction: {whole:?}"));
        }
        if self.takes("e") || self.takes("E") {
            let _ = self.takes("-") || self.takes("+");
            if self.digits().is_empty() {
                return Err(format!("no exponent: {whole:?}"));
            }
        }
        let length = whole.len() - self.rest.len();
        Ok(Json::Number(whole[..length].into()))
    }

    fn digits(&mut self) -> String {
        let behind = self
            .rest
            .trim_start_matches(|digit: char| digit.is_ascii_digit());
        let digits = self.rest[..self.rest.len() - behind.len()].to_string();
        self.rest = behind;
        digits
    }

    fn text(&mut self) -> Result<String, String> {
        self.needs("\"")?;
        let mut units: Vec<u16> = Vec::new();
        loop {
            let character = self.next()?;
            match character {
                '"' => break,
                '\\' => units.push(self.escape()?),
                ' '.. => units.extend(character.encode_utf16(&mut [0; 2]).iter()),
                _ => return Err(format!("a control character: {character:?}")),
            }
        }
        String::from_utf16(&units).map_err(|_| "half of a pair".into())
    }

    fn escape(&mut self) -> Result<u16, String> {
        let plain = match self.next()? {
            plain @ ('"' | '\\' | '/') => plain,
            'b' => '\u{8}',
            'f' => '\u{c}',
            'n' => '\n',
            'r' => '\r',
            't' => '\t',
            'u' => {
                let digits = self.rest.get(..4).ok_or("the text ends")?;
                let unit = u16::from_str_radix(digits, 16).map_err(|error| error.to_string())?;
                self.rest = &self.rest[4..];
                return Ok(unit);
            }
            other => return Err(format!("no escape: {other:?}")),
        };
        Ok(plain as u16)
    }

    fn next(&mut self) -> Result<char, String> {
        let character = self.rest.chars().next().ok_or("the text ends")?;
        self.rest = &self.rest[character.len_utf8()..];
        Ok(character)
    }

    fn takes(&mut self, word: &str) -> bool {
        let behind = self.rest.strip_prefix(word);
        self.rest = behind.unwrap_or(self.rest);
        behind.is_some()
    }

    fn needs(&mut self, word: &str) -> Result<(), String> {
        match self.takes(word) {
            true => Ok(()),
            false => Err(format!("no {word:?} before {:?}", self.rest)),
        }
    }
}
