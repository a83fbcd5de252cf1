//! A source, C or Rattle, as words: names, numbers, texts in quotation marks and symbols, without comments.

/// What is wrong, and in which line.
pub type Fault = (usize, String);

#[derive(Clone)]
pub struct Word {
    pub text: String,
    pub line: usize,
    /// Where it begins in the source.
    pub place: usize,
}

impl Word {
    pub fn is_name(&self) -> bool {
        self.text.starts_with(|c: char| c.is_alphabetic() || c == '_')
    }

    pub fn is_number(&self) -> bool {
        self.text.starts_with(|c: char| c.is_ascii_digit())
    }
}

pub fn words(text: &str) -> Vec<Word> {
    let mut words = Vec::new();
    let mut line = 1;
    let mut place = 0;
    while let Some(c) = text[place..].chars().next() {
        let rest = &text[place..];
        let length = length_of(rest, c);
        if !(c.is_whitespace() || rest.starts_with("//") || rest.starts_with("/*")) {
            words.push(Word { text: rest[..length].to_string(), line, place });
        }
        line += rest[..length].matches('\n').count();
        place += length;
    }
    words
}

/// How long the word, the comment or the blank is that a text begins with.
fn length_of(text: &str, first: char) -> usize {
    let in_name = |c: char| c.is_alphanumeric() || c == '_';
    let up_to = |end: &str| text.find(end).map_or(text.len(), |at| at + end.len());
    if text.starts_with("//") {
        text.find('\n').unwrap_or(text.len())
    } else if text.starts_with("/*") {
        up_to("*/")
    } else if first == '"' {
        quoted(text)
    } else if first == '\'' {
        // A letter in quotation marks, or else a lifetime.
        let mut behind = text.char_indices().skip(1);
        match (behind.next(), behind.next()) {
            (Some((_, '\\')), _) => text[2..].find('\'').map_or(text.len(), |at| at + 3),
            (Some(_), Some((at, '\''))) => at + 1,
            _ => text[1..].find(|c| !in_name(c)).map_or(text.len(), |at| at + 1),
        }
    } else if in_name(first) {
        text.find(|c| !in_name(c)).unwrap_or(text.len())
    } else if text.starts_with("->") || text.starts_with("::") {
        2
    } else {
        first.len_utf8()
    }
}

fn quoted(text: &str) -> usize {
    let mut escaped = false;
    for (at, c) in text.char_indices().skip(1) {
        match c {
            _ if escaped => escaped = false,
            '\\' => escaped = true,
            '"' => return at + 1,
            _ => {}
        }
    }
    text.len()
}

/// A place among words, from which they are taken one by one. Past the end every word is empty.
pub struct Cursor<'a> {
    words: &'a [Word],
    pub at: usize,
}

impl<'a> Cursor<'a> {
    pub fn new(words: &'a [Word]) -> Cursor<'a> {
        Cursor { words, at: 0 }
    }

    pub fn is_done(&self) -> bool {
        self.words.len() <= self.at
    }

    pub fn peek(&self) -> &'a str {
        self.words.get(self.at).map_or("", |word| &word.text)
    }

    pub fn line(&self) -> usize {
        self.words.get(self.at).or(self.words.last()).map_or(1, |word| word.line)
    }

    pub fn next(&mut self) -> &'a str {
        self.at += 1;
        self.words.get(self.at - 1).map_or("", |word| &word.text)
    }

    /// Takes the next word where it is this one.
    pub fn take(&mut self, text: &str) -> bool {
        let is_next = self.peek() == text;
        self.at += is_next as usize;
        is_next
    }

    pub fn due(&mut self, text: &str) -> Result<(), Fault> {
        if self.take(text) {
            return Ok(());
        }
        Err(self.fault(&format!("'{text}'")))
    }

    pub fn name(&mut self) -> Result<String, Fault> {
        match self.words.get(self.at) {
            Some(word) if word.is_name() => Ok(self.next().to_string()),
            _ => Err(self.fault("a name")),
        }
    }

    pub fn fault(&self, due: &str) -> Fault {
        (self.line(), format!("'{}' stands where {due} is due", self.peek()))
    }

    /// Behind an opening bracket: the words up to the closing one, which is taken too.
    pub fn up_to_close(&mut self) -> &'a [Word] {
        let from = self.at;
        let mut depth = 1;
        while !self.is_done() {
            match self.next() {
                "(" | "[" | "{" => depth += 1,
                ")" | "]" | "}" => depth -= 1,
                _ => {}
            }
            if depth == 0 {
                return &self.words[from..self.at - 1];
            }
        }
        &self.words[from..]
    }
}

/// The value of a number as either language writes it: 65536, 65_536, 8usize.
pub fn value(text: &str) -> Option<usize> {
    let end = text.find(|c: char| !(c.is_ascii_digit() || c == '_')).unwrap_or(text.len());
    let is_number =
        text.starts_with(|c: char| c.is_ascii_digit()) && text[end..].chars().all(char::is_alphanumeric);
    text[..end].replace('_', "").parse().ok().filter(|_| is_number)
}
