//! A run drawn into the page, with what is said of it.

use super::html::list;
use crate::picture::draw_in_page;
use crate::story::Story;
use crate::summary;
use crate::svg::escaped;

/// A picture under its caption; what is said of the run follows it, since words in a picture cannot be broken
/// into lines.
pub fn figure(story: &Story, caption: &str) -> String {
    let said = summary::in_words(story);
    let label = format!("{caption} {}.", said.join("; "));
    format!(
        "<figure>\n<figcaption>{}</figcaption>\n<div class=\"picture\">\n{}</div>\n{}{}</figure>\n",
        escaped(caption),
        draw_in_page(story, &label),
        list(&said),
        how_counted(story)
    )
}

/// What the totals count, where there is anything to count.
fn how_counted(story: &Story) -> String {
    match story.ticks() {
        0 => String::new(),
        _ => format!("<p class=\"small\">{}</p>\n", escaped(summary::HOW_COUNTED)),
    }
}
