//! Text as lines of tokens, for the files of definitions (.antt) and of code (.rt).

/// A name or a sign, with the number of its line.
#[derive(Clone, Debug)]
pub struct Token {
    pub text: String,
    pub line: usize,
}

/// A line that is neither blank nor a comment alone.
#[derive(Clone, Debug)]
pub struct Line {
    pub number: usize,
    pub indent: usize,
    pub tokens: Vec<Token>,
}

/// The signs that are tokens wherever they stand.
const SIGNS: [char; 8] = ['(', ')', '{', '}', '[', ']', ',', ';'];

/// The lines of a text. What stands after `comment` on a line is left out.
pub fn lines(text: &str, comment: &str) -> Vec<Line> {
    let mut all = Vec::new();
    for (index, line) in text.lines().enumerate() {
        let number = index + 1;
        let tokens: Vec<Token> = words(line, comment)
            .into_iter()
            .map(|text| Token { text, line: number })
            .collect();
        if !tokens.is_empty() {
            let indent = line.len() - line.trim_start().len();
            all.push(Line {
                number,
                indent,
                tokens,
            });
        }
    }
    all
}

/// The tokens of lines, one after another.
pub fn tokens(lines: &[Line]) -> Vec<Token> {
    lines.iter().flat_map(|line| line.tokens.clone()).collect()
}

/// The texts of a line's tokens.
fn words(line: &str, comment: &str) -> Vec<String> {
    let mut all = Vec::new();
    let mut rest = line.trim_start();
    while !rest.is_empty() && !rest.starts_with(comment) {
        let (word, after) = rest.split_at(word_length(rest));
        push_word(word, &mut all);
        rest = after.trim_start();
    }
    all
}

/// How long the token at the start of a text is: the empty list `[]`, a sign, or all up to a sign
/// or a blank.
fn word_length(text: &str) -> usize {
    if text.starts_with("[]") {
        return 2;
    }
    if text.starts_with(SIGNS) {
        return text.chars().next().map_or(0, char::len_utf8);
    }
    text.find(|c: char| c.is_whitespace() || SIGNS.contains(&c))
        .unwrap_or(text.len())
}

/// A dot that ends a name is a token of its own, as after the variables of a `λ` and before the
/// braces of a `use`.
fn push_word(word: &str, all: &mut Vec<String>) {
    match word.strip_suffix('.') {
        Some(name) if !name.is_empty() => {
            all.push(name.to_string());
            all.push(".".to_string());
        }
        _ => all.push(word.to_string()),
    }
}

pub fn is_open(text: &str) -> bool {
    matches!(text, "(" | "{" | "[")
}

pub fn is_close(text: &str) -> bool {
    matches!(text, ")" | "}" | "]")
}

/// The place after the bracket that closes the one at `open`.
pub fn after_group(tokens: &[Token], open: usize) -> usize {
    let mut depth = 0;
    for (at, token) in tokens.iter().enumerate().skip(open) {
        if is_open(&token.text) {
            depth += 1;
        } else if is_close(&token.text) {
            depth -= 1;
            if depth == 0 {
                return at + 1;
            }
        }
    }
    tokens.len()
}

/// The place of the first such token outside of brackets.
pub fn find_outside(tokens: &[Token], wanted: &str) -> Option<usize> {
    let mut at = 0;
    while at < tokens.len() {
        if tokens[at].text == wanted {
            return Some(at);
        }
        at = if is_open(&tokens[at].text) {
            after_group(tokens, at)
        } else {
            at + 1
        };
    }
    None
}
