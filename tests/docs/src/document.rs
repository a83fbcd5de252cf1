//! A document as blocks of tokens: paragraphs, rows of tables, code.

/// One paragraph, one row of a table, or one line of code.
pub struct Block {
    pub kind: Kind,
    pub line: usize,
    pub text: String,
}

pub enum Kind {
    Text,
    Code,
    /// The head of its table, and the row's own cells.
    Row {
        head: Vec<String>,
        cells: Vec<String>,
    },
}

/// A span in backquotes, or a word outside of them.
pub struct Token {
    pub line: usize,
    pub text: String,
    /// In backquotes.
    pub is_span: bool,
    /// Between quotation marks, and not in backquotes.
    pub is_quoted: bool,
    /// What stands between the token before and this one.
    pub gap: String,
}

pub fn blocks(text: &str) -> Vec<Block> {
    let mut blocks: Vec<Block> = Vec::new();
    let mut head: Option<Vec<String>> = None;
    let mut fenced = false;
    // A fenced block under a file's name is that file's text, word for word: tests/readme holds it to that.
    let mut quotes_a_file = false;
    // Whether the line before was text that this one goes on from.
    let mut goes_on = false;
    for (number, line) in text.lines().enumerate() {
        let number = number + 1;
        let mut push = |kind, text: &str| blocks.push(Block { kind, line: number, text: text.to_string() });
        let is_row = !fenced && line.starts_with('|');
        if !is_row {
            head = None;
        }
        if line.starts_with("<!-- ") {
            quotes_a_file = true;
            goes_on = false;
        } else if line.starts_with("```") {
            quotes_a_file = quotes_a_file && !fenced;
            fenced = !fenced;
            goes_on = false;
        } else if fenced && quotes_a_file {
        } else if fenced || (!goes_on && line.starts_with("    ")) {
            push(Kind::Code, line);
        } else if is_row {
            let cells = cells_of(line);
            match &head {
                None => {
                    push(Kind::Text, line);
                    head = Some(cells);
                }
                Some(_) if cells.iter().all(|cell| cell.chars().all(|c| c == '-' || c == ':')) => {}
                Some(head) => push(Kind::Row { head: head.clone(), cells }, line),
            }
            goes_on = false;
        } else if line.trim().is_empty() {
            goes_on = false;
        } else {
            let starts = ["#", "- ", "1. ", "2. ", "3. ", "4. ", "5. ", "6. ", "7. ", "8. ", "9. "];
            if goes_on && !starts.iter().any(|start| line.starts_with(start)) {
                let block = blocks.last_mut().expect("a block goes on");
                block.text.push('\n');
                block.text.push_str(line);
            } else {
                push(Kind::Text, line);
            }
            goes_on = true;
        }
    }
    blocks
}

/// The cells of a row; a bar in backquotes is none between cells.
fn cells_of(row: &str) -> Vec<String> {
    let mut cells = vec![String::new()];
    let mut in_span = false;
    for c in row.trim().trim_start_matches('|').chars() {
        match c {
            '|' if !in_span => cells.push(String::new()),
            _ => {
                in_span ^= c == '`';
                cells.last_mut().expect("one cell at least").push(c);
            }
        }
    }
    cells.pop();
    cells.into_iter().map(|cell| cell.trim().to_string()).collect()
}

/// The tokens of a text. In code there are neither backquotes nor quotation marks.
pub fn tokens(text: &str, first_line: usize, is_code: bool) -> Vec<Token> {
    let mut tokens = Vec::new();
    let mut line = first_line;
    let mut gap = String::new();
    let mut quoted = false;
    let mut rest = text;
    while let Some(c) = rest.chars().next() {
        let is_span = c == '`' && !is_code && rest[1..].contains('`');
        let taken = if is_span {
            rest[1..].find('`').map_or(rest.len(), |end| end + 2)
        } else if in_word(c) {
            word_length(rest)
        } else {
            quoted ^= c == '"' && !is_code;
            line += (c == '\n') as usize;
            gap.push(c);
            rest = &rest[c.len_utf8()..];
            continue;
        };
        let (found, behind) = rest.split_at(taken);
        let word =
            if is_span { found.trim_matches('`') } else { found.trim_end_matches(['.', ':', '-', '/']) };
        if !word.is_empty() {
            tokens.push(Token {
                line,
                text: word.to_string(),
                is_span,
                is_quoted: quoted && !is_span,
                gap: std::mem::take(&mut gap),
            });
        }
        if !is_span {
            gap.push_str(&found[word.len()..]);
        }
        line += found.matches('\n').count();
        rest = behind;
    }
    tokens
}

fn in_word(c: char) -> bool {
    c.is_alphanumeric() || "_./:-′".contains(c)
}

/// A word, and a list in braces that ends a path: `model/proofs/{Delay, Sentences}`.
fn word_length(text: &str) -> usize {
    let plain = text.find(|c| !in_word(c)).unwrap_or(text.len());
    if text[..plain].ends_with('/') && text[plain..].starts_with('{') {
        return text.find('}').map_or(plain, |end| end + 1);
    }
    plain
}
