//! The few shapes of SVG that the picture needs.

use std::fmt::{self, Write};

/// A number with one digit behind its point. A long picture has a hundred thousand of them, and the standard library takes
/// its time to be exact.
pub struct Tenths(pub f64);

impl fmt::Display for Tenths {
    fn fmt(&self, f: &mut fmt::Formatter) -> fmt::Result {
        let tenths = self.0 * 10.0;
        let below = tenths.floor();
        // Where it is near to the middle between two tenths, the standard library knows which one it is.
        let middle = (tenths - below - 0.5).abs() < 1e-3;
        if middle || self.0.is_sign_negative() || !(0.0..1e9).contains(&self.0) {
            return write!(f, "{:.1}", self.0);
        }
        let mut rest = below as u64 + u64::from(tenths - below > 0.5);
        let mut letters = [b'0'; 12];
        letters[10] = b'.';
        for place in [11, 9, 8, 7, 6, 5, 4, 3, 2, 1, 0] {
            letters[place] += (rest % 10) as u8;
            rest /= 10;
        }
        let first = letters[..9].iter().position(|letter| *letter != b'0').unwrap_or(9);
        f.write_str(std::str::from_utf8(&letters[first..]).unwrap_or_default())
    }
}

/// Shapes of one look that stand in few elements, since a browser takes its time for each element. It takes its time for an element of very
/// many shapes too, which it cannot fill the quick way: so there are several.
#[derive(Default)]
pub struct Joined {
    paths: Vec<String>,
    /// So much fits into the last of them.
    room: usize,
}

/// The room of an element: 16 boxes, or 64 signs.
const ROOM: usize = 64;
const BOX: usize = 4;
const SIGN: usize = 1;

impl Joined {
    /// Where a shape that takes so much room is to be written.
    fn path(&mut self, takes: usize) -> &mut String {
        if self.room < takes {
            self.paths.push(String::new());
            self.room = ROOM;
        }
        self.room -= takes;
        let last = self.paths.len() - 1;
        &mut self.paths[last]
    }

    pub fn rect(&mut self, [x, y, width, height]: [f64; 4]) -> &mut Joined {
        let [x, y, width, height] = [x, y, width.max(0.0), height].map(Tenths);
        let _ = write!(self.path(BOX), "M{x} {y}h{width}v{height}h-{width}z");
        self
    }

    /// A line through these points. Along a line or a column the other number is left out.
    pub fn line(&mut self, points: &[[f64; 2]]) -> &mut Joined {
        let Some((first, rest)) = points.split_first() else {
            return self;
        };
        let [x, y] = first.map(Tenths);
        let path = self.path(SIGN);
        let _ = write!(path, "M{x} {y}");
        let mut last = first;
        for point in rest {
            let [x, y] = point.map(Tenths);
            let _ = match (last[0] == point[0], last[1] == point[1]) {
                (true, true) => continue,
                (true, false) => write!(path, "V{y}"),
                (false, true) => write!(path, "H{x}"),
                (false, false) => write!(path, "L{x} {y}"),
            };
            last = point;
        }
        self
    }

    /// A small cross, for what is refused.
    pub fn cross(&mut self, [x, y]: [f64; 2], size: f64) -> &mut Joined {
        let [x, y, side] = [x - size, y - size, 2.0 * size].map(Tenths);
        let _ = write!(self.path(SIGN), "M{x} {y}l{side} {side}m0-{side}l-{side} {side}");
        self
    }

    /// A small triangle that points downwards, for what is dropped.
    pub fn triangle(&mut self, [x, y]: [f64; 2], size: f64) -> &mut Joined {
        let [x, y, side, half] = [x - size, y - size, 2.0 * size, size].map(Tenths);
        let _ = write!(self.path(SIGN), "M{x} {y}h{side}l-{half} {side}z");
        self
    }
}

/// A picture that grows. Later shapes lie over earlier ones.
#[derive(Default)]
pub struct Drawing {
    shapes: String,
}

impl Drawing {
    /// A box. `class` names its look in the style sheet, and `tip` is shown under the pointer.
    pub fn rect(&mut self, class: &str, [x, y, width, height]: [f64; 4], tip: &str) {
        let [x, y, width, height] = [x, y, width.max(0.0), height].map(Tenths);
        let _ = write!(
            self.shapes,
            "<rect class=\"{class}\" x=\"{x}\" y=\"{y}\" width=\"{width}\" height=\"{height}\""
        );
        self.close("rect", &title(tip));
    }

    pub fn line(&mut self, class: &str, from: [f64; 2], to: [f64; 2]) {
        let [x1, y1, x2, y2] = [from[0], from[1], to[0], to[1]].map(Tenths);
        let _ = writeln!(
            self.shapes,
            "<line class=\"{class}\" x1=\"{x1}\" y1=\"{y1}\" x2=\"{x2}\" y2=\"{y2}\"/>"
        );
    }

    /// Shapes of one look, in few elements; in none if there is no shape.
    pub fn joined(&mut self, class: &str, Joined { paths, .. }: &Joined, tip: &str) {
        for path in paths {
            let _ = write!(self.shapes, "<path class=\"{class}\" d=\"{path}\"");
            self.close("path", &title(tip));
        }
    }

    pub fn text(&mut self, class: &str, place: [f64; 2], words: &str) {
        let [x, y] = place.map(Tenths);
        let _ = write!(self.shapes, "<text class=\"{class}\" x=\"{x}\" y=\"{y}\"");
        self.close("text", &escaped(words));
    }

    /// Text that reads upwards from its point.
    pub fn upward_text(&mut self, class: &str, place: [f64; 2], words: &str, tip: &str) {
        let [x, y] = place.map(Tenths);
        let _ = write!(
            self.shapes,
            "<text class=\"{class}\" transform=\"translate({x} {y}) rotate(-90)\""
        );
        self.close("text", &(title(tip) + &escaped(words)));
    }

    fn close(&mut self, element: &str, inside: &str) {
        let _ = match inside.is_empty() {
            true => writeln!(self.shapes, "/>"),
            false => writeln!(self.shapes, ">{inside}</{element}>"),
        };
    }

    /// The whole file, on white, each unit as many millimetres as the scale says.
    pub fn finish(self, [width, height]: [f64; 2], scale: f64, style: &str) -> String {
        let (wide, high) = (width * scale, height * scale);
        format!(
            "<svg xmlns=\"http://www.w3.org/2000/svg\" width=\"{wide:.1}mm\" height=\"{high:.1}mm\" \
             viewBox=\"0 0 {width:.0} {height:.0}\">\n{style}\
             <rect class=\"paper\" x=\"0\" y=\"0\" width=\"{width:.0}\" height=\"{height:.0}\"/>\n{}</svg>\n",
            self.shapes
        )
    }

    /// A picture that stands in a page of HTML and is as wide as that lets it be. The page has its
    /// style, and `label` tells it to those who do not see it.
    pub fn in_page(self, width: f64, height: f64, class: &str, label: &str) -> String {
        format!(
            "<svg class=\"{class}\" role=\"img\" aria-label=\"{}\" viewBox=\"0 0 {width:.0} {height:.0}\">\n{}</svg>\n",
            escaped(label),
            self.shapes
        )
    }
}

fn title(tip: &str) -> String {
    match tip.is_empty() {
        true => String::new(),
        false => format!("<title>{}</title>", escaped(tip)),
    }
}

/// Text as it may stand in a file of XML, where control characters and two others may not.
pub fn escaped(words: &str) -> String {
    let mut text = String::new();
    for letter in words.chars() {
        match letter {
            '&' => text.push_str("&amp;"),
            '<' => text.push_str("&lt;"),
            '>' => text.push_str("&gt;"),
            '"' => text.push_str("&quot;"),
            '\u{FFFE}' | '\u{FFFF}' => text.push('?'),
            letter if letter.is_control() => text.push('?'),
            letter => text.push(letter),
        }
    }
    text
}

#[cfg(test)]
mod tests {
    use super::Tenths;

    /// Every number is as the standard library writes it, those in the middle of two tenths too.
    #[test]
    fn tenths_are_exact() {
        let middles = (0..4000).map(|n| f64::from(n) * 0.05);
        let others = (0..40_000).map(|n| f64::from(n) * 0.037_123);
        let odd = [-0.0, -1.25, 0.05, 1e12, f64::INFINITY, 0.949_999_999_999, 99.95];
        for number in middles.chain(others).chain(odd) {
            assert_eq!(Tenths(number).to_string(), format!("{number:.1}"));
        }
    }
}
