//! Writes SVG elements.

use std::fmt::Write;

/// A position or a size in the picture's units.
pub type Pair = (f64, f64);

#[derive(Default)]
pub struct Pen {
    out: String,
}

impl Pen {
    pub fn text(&mut self, (x, y): Pair, class: &str, words: &str) {
        let (x, y, words) = (number(x), number(y), escaped(words));
        self.put(&format!(
            "<text x=\"{x}\" y=\"{y}\" class=\"{class}\">{words}</text>"
        ));
    }

    pub fn line(&mut self, from: Pair, to: Pair, class: &str) {
        self.path(class, &stroke(from, to));
    }

    pub fn rect(&mut self, (x, y): Pair, (width, height): Pair, class: &str) {
        let (x, y, width, height) = (number(x), number(y), number(width), number(height));
        self.put(&format!(
            "<rect x=\"{x}\" y=\"{y}\" width=\"{width}\" height=\"{height}\" class=\"{class}\"/>"
        ));
    }

    /// A path, if it has any part.
    pub fn path(&mut self, class: &str, data: &str) {
        if !data.is_empty() {
            self.put(&format!("<path class=\"{class}\" d=\"{data}\"/>"));
        }
    }

    fn put(&mut self, element: &str) {
        self.out.push_str(element);
        self.out.push('\n');
    }

    pub fn finish(self) -> String {
        self.out
    }
}

/// Part of a path: a dot, which a round line end makes of a line of no length to speak of.
pub fn dot((x, y): Pair) -> String {
    format!("M{} {}h.01", number(x), number(y))
}

/// Part of a path: a line.
pub fn stroke(from: Pair, to: Pair) -> String {
    let (x1, y1, x2, y2) = (number(from.0), number(from.1), number(to.0), number(to.1));
    format!("M{x1} {y1}L{x2} {y2}")
}

/// Part of a path: a circle of this radius.
pub fn ring((x, y): Pair, radius: f64) -> String {
    let (left, y) = (number(x - radius), number(y));
    let (r, d) = (number(radius), number(2.0 * radius));
    format!("M{left} {y}a{r} {r} 0 1 0 {d} 0a{r} {r} 0 1 0-{d} 0z")
}

/// Part of a path: a diamond of this half width.
pub fn diamond((x, y): Pair, half: f64) -> String {
    let (x, y, h) = (number(x - half), number(y), number(half));
    format!("M{x} {y}l{h}-{h} {h} {h}-{h} {h}z")
}

/// Part of a path: a triangle of this half width.
pub fn triangle((x, y): Pair, half: f64) -> String {
    let (left, bottom) = (number(x - half), number(y + half));
    let (half, whole) = (number(half), number(2.0 * half));
    format!("M{left} {bottom}l{half}-{whole} {half} {whole}z")
}

/// Part of a path: the head of an arrow with its tip here, that points in this direction.
pub fn arrow((x, y): Pair, (dx, dy): Pair) -> String {
    const LENGTH: f64 = 10.0;
    const HALF: f64 = 4.0;
    let (back_x, back_y) = (x - LENGTH * dx, y - LENGTH * dy);
    let corner = |side: f64| {
        let (x, y) = (back_x - side * HALF * dy, back_y + side * HALF * dx);
        format!("{} {}", number(x), number(y))
    };
    let (tip, one, other) = (
        format!("{} {}", number(x), number(y)),
        corner(1.0),
        corner(-1.0),
    );
    format!("M{tip}L{one}L{other}z")
}

/// Part of a path: a rectangle.
pub fn block((x, y): Pair, (width, height): Pair) -> String {
    let (x, y, width, height) = (number(x), number(y), number(width), number(height));
    format!("M{x} {y}h{width}v{height}h-{width}z")
}

/// At most two decimals, and no more than are needed.
fn number(value: f64) -> String {
    let mut text = String::new();
    // Writing to a String cannot fail.
    let _ = write!(text, "{value:.2}");
    let short = text.trim_end_matches('0').trim_end_matches('.');
    if short == "-0" {
        "0".to_string()
    } else {
        short.to_string()
    }
}

/// Text as XML takes it. What XML cannot hold at all becomes a question mark.
pub fn escaped(text: &str) -> String {
    let mut out = String::new();
    for letter in text.chars() {
        match letter {
            '&' => out.push_str("&amp;"),
            '<' => out.push_str("&lt;"),
            '>' => out.push_str("&gt;"),
            '"' => out.push_str("&quot;"),
            '\u{fffe}' | '\u{ffff}' => out.push('?'),
            control if control.is_control() => out.push('?'),
            plain => out.push(plain),
        }
    }
    out
}
