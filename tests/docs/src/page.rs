//! A page in Markdown, as far as the checks read it.

/// A part of a page, with the line it begins on.
pub struct Part {
    pub line: usize,
    pub text: String,
}

/// A fenced block of lines.
pub struct Block {
    pub line: usize,
    /// What stands behind the first fence.
    pub info: String,
    pub text: String,
}

#[derive(Default)]
pub struct Page {
    pub path: String,
    /// What stands in backticks.
    pub spans: Vec<Part>,
    /// Targets of links.
    pub links: Vec<Part>,
    /// Words outside backticks, and those of blocks of code.
    pub words: Vec<Part>,
    /// Headings, as links name them.
    pub anchors: Vec<String>,
    pub blocks: Vec<Block>,
    /// Lines with a backtick that is never closed.
    pub unclosed: Vec<usize>,
}

const FENCE: &str = "```";

/// A heading as a link names it.
fn anchor(heading: &str) -> String {
    let kept = heading.trim().to_lowercase();
    let kept = kept
        .chars()
        .filter(|c| c.is_alphanumeric() || " -_".contains(*c));
    kept.map(|c| if c == ' ' { '-' } else { c }).collect()
}

impl Page {
    pub fn read(path: &str, text: &str) -> Page {
        let mut page = Page {
            path: path.to_string(),
            ..Page::default()
        };
        // A span in backticks that is not closed yet.
        let mut open: Option<Part> = None;
        let mut fenced = false;
        let mut indented = false;
        let mut blank = true;
        for (line, text) in text.lines().enumerate().map(|(i, text)| (i + 1, text)) {
            if let Some(info) = text.trim_start().strip_prefix(FENCE) {
                fenced = !fenced;
                if fenced {
                    page.blocks.push(Block {
                        line,
                        info: info.trim().to_string(),
                        text: String::new(),
                    });
                }
            } else if fenced {
                page.add_words(line, text);
                let block = page.blocks.last_mut().expect("a block is open");
                block.text.push_str(text);
                block.text.push('\n');
            } else if text.trim().is_empty() {
                page.unclosed.extend(open.take().map(|span| span.line));
            } else if text.starts_with("    ") && (blank || indented) {
                indented = true;
                page.add_words(line, text);
            } else {
                indented = false;
                if let Some(heading) = text.strip_prefix('#') {
                    page.anchors.push(anchor(heading.trim_start_matches('#')));
                }
                page.add_prose(line, text, &mut open);
            }
            blank = text.trim().is_empty();
        }
        page.unclosed.extend(open.map(|span| span.line));
        page
    }

    /// Takes a line apart at its backticks.
    fn add_prose(&mut self, line: usize, text: &str, open: &mut Option<Part>) {
        let mut outside = String::new();
        for c in text.chars() {
            match open {
                Some(_) if c == '`' => self.spans.extend(open.take()),
                Some(span) => span.text.push(c),
                None if c == '`' => {
                    let text = String::new();
                    *open = Some(Part { line, text });
                    outside.push('`');
                }
                None => outside.push(c),
            }
        }
        if let Some(span) = open {
            span.text.push(' ');
        }
        for (at, _) in outside.match_indices("](") {
            let target = &outside[at + 2..];
            if let Some(end) = target.find(')') {
                let text = target[..end].to_string();
                self.links.push(Part { line, text });
            }
        }
        // A link's target is checked as a link.
        let plain: Vec<&str> = outside.split("](").collect();
        for (i, part) in plain.iter().enumerate() {
            let rest = if i == 0 {
                part
            } else {
                part.split_once(')').map_or("", |(_, rest)| rest)
            };
            self.add_words(line, rest);
        }
    }

    fn add_words(&mut self, line: usize, text: &str) {
        for word in text.split_whitespace() {
            let text = word.to_string();
            self.words.push(Part { line, text });
        }
    }
}
