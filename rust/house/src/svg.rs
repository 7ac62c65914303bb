//! Words in a picture.

/// A line of text; `style` has its further attributes.
pub fn text(x: f64, y: f64, style: &str, words: &str) -> String {
    let words = words.replace('&', "&amp;").replace('<', "&lt;");
    format!("<text x=\"{x:.0}\" y=\"{y:.0}\"{style}>{words}</text>\n")
}
