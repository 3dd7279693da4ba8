//! A small checker of XML: that a text is well-formed, and what it holds.

/// A piece of a well-formed text.
#[derive(Clone, Debug, PartialEq)]
pub enum Piece {
    /// An element begins; an empty one ends at once.
    Open { name: String, attributes: Vec<(String, String)> },
    /// It ends.
    Close(String),
    /// Characters, with entities put in.
    Text(String),
}

/// The pieces of a text, or why it is not well-formed.
pub fn read(text: &str) -> Result<Vec<Piece>, String> {
    let is_wrong = |letter: char| letter.is_control() && !matches!(letter, '\n' | '\t' | '\r');
    if let Some(letter) = text.chars().find(|letter| is_wrong(*letter)) {
        return Err(format!("XML: the character {letter:?}"));
    }
    let mut reader = Reader { rest: text, open: Vec::new(), pieces: Vec::new(), roots: 0 };
    while !reader.rest.is_empty() {
        reader.next()?;
    }
    match (reader.open.last(), reader.roots) {
        (Some(name), _) => Err(format!("XML: {name} is not closed")),
        (None, 1) => Ok(reader.pieces),
        (None, roots) => Err(format!("XML: {roots} roots")),
    }
}

/// The texts of all elements of a name, each without what stands in others inside it.
pub fn texts(pieces: &[Piece], of: &str) -> Vec<(Vec<(String, String)>, String)> {
    let mut texts = Vec::new();
    for (at, piece) in pieces.iter().enumerate() {
        if let Piece::Open { name, attributes } = piece {
            if name == of {
                texts.push((attributes.clone(), text_of(&pieces[at + 1..])));
            }
        }
    }
    texts
}

/// The characters up to the end of an element, all inside it.
pub fn text_of(pieces: &[Piece]) -> String {
    let (mut depth, mut text) = (0, String::new());
    for piece in pieces {
        match piece {
            Piece::Open { .. } => depth += 1,
            Piece::Close(_) if depth == 0 => return text,
            Piece::Close(_) => depth -= 1,
            Piece::Text(more) => text += more,
        }
    }
    text
}

struct Reader<'a> {
    rest: &'a str,
    open: Vec<String>,
    pieces: Vec<Piece>,
    roots: usize,
}

impl<'a> Reader<'a> {
    fn wrong<T>(&self, wanted: &str) -> Result<T, String> {
        let found: String = self.rest.chars().take(40).collect();
        Err(format!("XML: wanted {wanted}, found `{found}`"))
    }

    /// What stands before a mark; both are passed over.
    fn until(&mut self, mark: &str) -> Result<&'a str, String> {
        match self.rest.split_once(mark) {
            Some((before, behind)) => {
                self.rest = behind;
                Ok(before)
            }
            None => self.wrong(mark),
        }
    }

    fn take(&mut self, token: &str) -> bool {
        match self.rest.strip_prefix(token) {
            Some(rest) => {
                self.rest = rest;
                true
            }
            None => false,
        }
    }

    fn next(&mut self) -> Result<(), String> {
        if self.take("<!--") {
            let comment = self.until("-->")?;
            return if comment.contains("--") {
                self.wrong("a comment without --")
            } else {
                Ok(())
            };
        }
        if self.take("<?") {
            return self.until("?>").map(drop);
        }
        if self.take("<![CDATA[") {
            let text = self.until("]]>")?.to_string();
            return self.text(text);
        }
        if self.take("<!DOCTYPE") {
            return if self.roots > 0 {
                self.wrong("no DOCTYPE here")
            } else {
                self.until(">").map(drop)
            };
        }
        if self.take("</") {
            return self.close();
        }
        if self.take("<") {
            return self.element();
        }
        let end = self.rest.find('<').unwrap_or(self.rest.len());
        let (text, rest) = self.rest.split_at(end);
        if text.contains("]]>") {
            return self.wrong("no ]]>");
        }
        self.rest = rest;
        let text = unescaped(text)?;
        self.text(text)
    }

    /// Characters, which stand in an element unless they are spaces.
    fn text(&mut self, text: String) -> Result<(), String> {
        if self.open.is_empty() && !text.trim().is_empty() {
            return self.wrong("an element around the text before");
        }
        self.pieces.push(Piece::Text(text));
        Ok(())
    }

    fn close(&mut self) -> Result<(), String> {
        let name = self.until(">")?.trim_end().to_string();
        if self.open.pop().as_ref() != Some(&name) {
            return self.wrong(&format!("another end than </{name}> before"));
        }
        self.pieces.push(Piece::Close(name));
        Ok(())
    }

    /// A name here.
    fn name(&mut self) -> Result<String, String> {
        let is_of_name = |letter: char| letter.is_ascii_alphanumeric() || "-_:.".contains(letter);
        let end = self.rest.find(|letter| !is_of_name(letter)).unwrap_or(self.rest.len());
        let (name, rest) = self.rest.split_at(end);
        if !name.starts_with(|letter: char| letter.is_ascii_alphabetic() || letter == '_') {
            return self.wrong("a name");
        }
        self.rest = rest;
        Ok(name.to_string())
    }

    fn element(&mut self) -> Result<(), String> {
        let name = self.name()?;
        let mut attributes: Vec<(String, String)> = Vec::new();
        loop {
            let spaces = self.rest.len() - self.rest.trim_start().len();
            self.rest = self.rest.trim_start();
            let empty = self.take("/>");
            if empty || self.take(">") {
                self.roots += usize::from(self.open.is_empty());
                self.pieces.push(Piece::Open { name: name.clone(), attributes });
                match empty {
                    true => self.pieces.push(Piece::Close(name)),
                    false => self.open.push(name),
                }
                return Ok(());
            }
            let attribute = self.name()?;
            if spaces == 0 || attributes.iter().any(|(old, _)| *old == attribute) {
                return self.wrong("a space and a new attribute before");
            }
            if !self.take("=\"") {
                return self.wrong("a value in quotes");
            }
            let value = self.until("\"")?;
            if value.contains('<') {
                return self.wrong("a value without < before");
            }
            attributes.push((attribute, unescaped(value)?));
        }
    }
}

/// A text with its entities put in.
fn unescaped(text: &str) -> Result<String, String> {
    let mut parts = text.split('&');
    let mut whole = parts.next().unwrap_or_default().to_string();
    for part in parts {
        let (name, rest) = part.split_once(';').ok_or(format!("XML: a bare & before `{part}`"))?;
        whole.push(match name {
            "amp" => '&',
            "lt" => '<',
            "gt" => '>',
            "quot" => '"',
            "apos" => '\'',
            other => return Err(format!("XML: the entity {other}")),
        });
        whole += rest;
    }
    Ok(whole)
}
