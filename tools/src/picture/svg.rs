//! The few forms of SVG that the picture is made of.

use std::fmt::Write;

pub const SANS: &str = "Helvetica, Arial, sans-serif";
pub const MONO: &str = "Menlo, Consolas, 'DejaVu Sans Mono', monospace";

/// Markup, a line for each element.
#[derive(Default)]
pub struct Svg(pub String);

impl Svg {
    pub fn put(&mut self, markup: &str) {
        self.0.push_str(markup);
        self.0.push('\n');
    }

    /// A path of straight lines.
    pub fn path(&mut self, class: &str, points: &[(f64, f64)], rest: &str) {
        let mut d = String::new();
        for (i, &(x, y)) in points.iter().enumerate() {
            let letter = if i == 0 { "M" } else { "L" };
            write!(d, "{letter}{} {}", number(x), number(y)).expect("a string takes all");
        }
        self.put(&format!("<path{} d=\"{d}{}", attribute("class", class), end(rest)));
    }

    pub fn circle(&mut self, class: &str, x: f64, y: f64, radius: f64, rest: &str) {
        let (x, y, r) = (number(x), number(y), number(radius));
        let class = attribute("class", class);
        self.put(&format!("<circle{class} cx=\"{x}\" cy=\"{y}\" r=\"{r}{}", end(rest)));
    }

    pub fn rectangle(&mut self, class: &str, (x, y): (f64, f64), (width, height): (f64, f64), rest: &str) {
        let (x, y, width, height) = (number(x), number(y), number(width), number(height));
        let place = format!("x=\"{x}\" y=\"{y}\" width=\"{width}\" height=\"{height}");
        self.put(&format!("<rect{} {place}{}", attribute("class", class), end(rest)));
    }

    pub fn text(&mut self, x: f64, y: f64, rest: &str, words: &str) {
        let (x, y) = (number(x), number(y));
        let rest = if rest.is_empty() { String::new() } else { format!(" {rest}") };
        self.put(&format!("<text x=\"{x}\" y=\"{y}\"{rest}>{}</text>", escape(words)));
    }

    /// A group around what `content` puts.
    pub fn group(&mut self, attributes: &str, content: impl FnOnce(&mut Svg)) {
        self.put(&format!("<g {attributes}>"));
        content(self);
        self.put("</g>");
    }
}

fn attribute(name: &str, value: &str) -> String {
    if value.is_empty() {
        String::new()
    } else {
        format!(" {name}=\"{value}\"")
    }
}

/// The end of an element whose last attribute is still open.
fn end(rest: &str) -> String {
    if rest.is_empty() {
        "\"/>".into()
    } else {
        format!("\" {rest}/>")
    }
}

/// A number with one decimal at most.
pub fn number(x: f64) -> String {
    let tenths = (x * 10.0).round() as i64;
    let sign = if tenths < 0 { "-" } else { "" };
    match (tenths.abs() / 10, tenths.abs() % 10) {
        (whole, 0) => format!("{sign}{whole}"),
        (whole, tenth) => format!("{sign}{whole}.{tenth}"),
    }
}

/// The words as the content of an element or of an attribute. What XML has no place for becomes a replacement mark.
pub fn escape(words: &str) -> String {
    let mut escaped = String::new();
    for c in words.chars() {
        match c {
            '&' => escaped.push_str("&amp;"),
            '<' => escaped.push_str("&lt;"),
            '>' => escaped.push_str("&gt;"),
            '"' => escaped.push_str("&quot;"),
            '\'' => escaped.push_str("&#39;"),
            '\t' | '\n' | '\r' => escaped.push(' '),
            c if c.is_control() || matches!(c, '\u{fffe}' | '\u{ffff}') => escaped.push('\u{fffd}'),
            c => escaped.push(c),
        }
    }
    escaped
}

/// Some width in pixels of words in the sans font; a little more than they take, as fonts differ.
pub fn sans_width(characters: usize, size: f64) -> f64 {
    characters as f64 * size * 0.55
}

/// The same of the monospace font.
pub fn mono_width(characters: usize, size: f64) -> f64 {
    characters as f64 * size * 0.605
}

/// The words in lines of at most so many characters. A longer word is cut.
pub fn wrap(words: &str, characters: usize) -> Vec<String> {
    let limit = characters.max(1);
    let mut lines: Vec<String> = Vec::new();
    let mut room = 0;
    for word in words.split_whitespace() {
        let letters: Vec<char> = word.chars().collect();
        for (i, part) in letters.chunks(limit).enumerate() {
            let part: String = part.iter().collect();
            let length = part.chars().count();
            match lines.last_mut() {
                Some(line) if i == 0 && length < room => {
                    line.push(' ');
                    line.push_str(&part);
                    room -= length + 1;
                }
                _ => {
                    lines.push(part);
                    room = limit - length;
                }
            }
        }
    }
    lines
}
