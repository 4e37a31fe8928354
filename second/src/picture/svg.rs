//! The few SVG elements that a picture uses.

use std::fmt::Write;

/// Size of the text in steps, and of the smaller text beside them.
pub const TEXT: i64 = 12;
pub const SMALL: i64 = 11;

pub const INK: &str = "#222222";
pub const GREY: &str = "#8a8a8a";
pub const PALE: &str = "#d5d8dc";
pub const RED: &str = "#c0392b";

/// Text of its own size, colour and anchor.
#[derive(Clone, Copy)]
pub struct Type {
    pub size: i64,
    pub fill: &'static str,
    /// `start`, `middle` or `end`.
    pub anchor: &'static str,
    pub bold: bool,
}

impl Type {
    pub const fn new(size: i64, fill: &'static str, anchor: &'static str) -> Self {
        Type { size, fill, anchor, bold: false }
    }

    pub const fn bold(self) -> Self {
        Type { bold: true, ..self }
    }
}

/// A rectangle's fill, line and width of the line.
#[derive(Clone, Copy)]
pub struct Paint {
    pub fill: &'static str,
    /// Of the fill, in hundredths.
    pub opacity: u32,
    pub line: &'static str,
    pub width: u32,
}

#[derive(Default)]
pub struct Svg {
    body: String,
}

// Writing to a String cannot fail.
impl Svg {
    pub fn open(&mut self, class: &str, title: &str) {
        let _ = writeln!(self.body, "<g class=\"{class}\"><title>{}</title>", escaped(title));
    }

    pub fn close(&mut self) {
        self.body.push_str("</g>\n");
    }

    pub fn rect(&mut self, (x, y): (i64, i64), (width, height): (i64, i64), paint: Paint) {
        let Paint { fill, opacity, line, width: stroke } = paint;
        let opacity = f64::from(opacity) / 100.0;
        let _ = writeln!(
            self.body,
            "<rect x=\"{x}\" y=\"{y}\" width=\"{width}\" height=\"{height}\" rx=\"5\" \
             fill=\"{fill}\" fill-opacity=\"{opacity}\" stroke=\"{line}\" stroke-width=\"{stroke}\"/>"
        );
    }

    pub fn path(&mut self, points: &str, line: &str, dashed: bool) {
        let dash = if dashed { " stroke-dasharray=\"5 4\"" } else { "" };
        let _ = writeln!(
            self.body,
            "<path d=\"{points}\" fill=\"none\" stroke=\"{line}\" stroke-width=\"1.5\"{dash}/>"
        );
    }

    /// The head of an arrow whose tip is at the point.
    pub fn head(&mut self, (x, y): (i64, i64), rightward: bool, fill: &str) {
        let back = if rightward { x - 8 } else { x + 8 };
        let _ = writeln!(
            self.body,
            "<path d=\"M{x} {y} L{back} {} L{back} {} Z\" fill=\"{fill}\"/>",
            y - 4,
            y + 4
        );
    }

    /// `name` stands bold before the text.
    pub fn text(&mut self, (x, y): (i64, i64), kind: Type, name: &str, text: &str) {
        let Type { size, fill, anchor, bold } = kind;
        let weight = if bold { " font-weight=\"bold\"" } else { "" };
        let name = match name {
            "" => String::new(),
            name => format!("<tspan font-weight=\"bold\">{}</tspan> ", escaped(name)),
        };
        let _ = writeln!(
            self.body,
            "<text x=\"{x}\" y=\"{y}\" font-size=\"{size}\" fill=\"{fill}\" \
             text-anchor=\"{anchor}\"{weight}>{name}{}</text>",
            escaped(text)
        );
    }

    /// A line of the script.
    pub fn mono(&mut self, (x, y): (i64, i64), fill: &str, text: &str) {
        let _ = writeln!(
            self.body,
            "<text x=\"{x}\" y=\"{y}\" font-size=\"{SMALL}\" fill=\"{fill}\" \
             font-family=\"monospace\" xml:space=\"preserve\">{}</text>",
            escaped(text)
        );
    }

    /// The picture, on a white ground.
    pub fn finish(self, title: &str, width: i64, height: i64) -> String {
        format!(
            "<?xml version=\"1.0\" encoding=\"UTF-8\"?>\n\
             <svg xmlns=\"http://www.w3.org/2000/svg\" width=\"{width}\" height=\"{height}\" \
             viewBox=\"0 0 {width} {height}\" font-family=\"Helvetica, Arial, sans-serif\">\n\
             <title>{}</title>\n\
             <rect width=\"{width}\" height=\"{height}\" fill=\"#ffffff\"/>\n{}</svg>\n",
            escaped(title),
            self.body
        )
    }
}

/// Room that a text takes in a wide sans-serif.
pub fn text_width(text: &str, size: i64) -> i64 {
    (text.chars().count() as i64 * size * 62 + 99) / 100
}

fn escaped(text: &str) -> String {
    let mut escaped = String::with_capacity(text.len());
    for letter in text.chars() {
        match letter {
            '&' => escaped.push_str("&amp;"),
            '<' => escaped.push_str("&lt;"),
            '>' => escaped.push_str("&gt;"),
            '"' => escaped.push_str("&quot;"),
            letter if letter.is_control() || matches!(letter, '\u{fffe}' | '\u{ffff}') => {
                escaped.push('?');
            }
            letter => escaped.push(letter),
        }
    }
    escaped
}
