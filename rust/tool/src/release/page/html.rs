//! The few elements of HTML that the page needs. What they write is well-formed XML too: every element is
//! closed, and every attribute quoted.

use crate::svg::escaped;

/// Words as a paragraph.
pub fn paragraph(words: &str) -> String {
    format!("<p>{}</p>\n", escaped(words))
}

/// A name as it stands in a file or on a disk. A long one is broken between folders.
pub fn code(name: &str) -> String {
    format!("<code>{}</code>", escaped(name).replace('/', "/<wbr/>"))
}

/// A part of the page under its heading. `id` is its name within the page.
pub fn section(id: &str, heading: &str, body: &str) -> String {
    format!(
        "<section aria-labelledby=\"{id}\">\n<h2 id=\"{id}\">{}</h2>\n{body}</section>\n",
        escaped(heading)
    )
}

/// Lines of text as a list; nothing if there are none.
pub fn list(lines: &[String]) -> String {
    let items: String = lines.iter().map(|line| format!("<li>{}</li>\n", escaped(line))).collect();
    if items.is_empty() {
        return items;
    }
    format!("<ul>\n{items}</ul>\n")
}

/// What is said of something under a name, a pair for each.
pub fn pairs(pairs: &[(&str, String)]) -> String {
    let pair = |(name, inside): &(&str, String)| {
        format!("<div><dt>{}</dt><dd>{inside}</dd></div>\n", escaped(name))
    };
    format!("<dl>\n{}</dl>\n", pairs.iter().map(pair).collect::<String>())
}

/// A cell of a table: its look in the style sheet, if it has one, and what is in it.
pub struct Cell {
    class: &'static str,
    inside: String,
}

impl Cell {
    pub fn words(words: &str) -> Cell {
        Cell::html(escaped(words))
    }

    pub fn html(inside: String) -> Cell {
        Cell { class: "", inside }
    }

    pub fn look(self, class: &'static str) -> Cell {
        Cell { class, ..self }
    }

    /// `label` is its column's head, which a narrow screen shows beside it.
    fn written(&self, label: &str) -> String {
        let class = match self.class {
            "" => String::new(),
            class => format!(" class=\"{class}\""),
        };
        format!("<td{class} data-label=\"{}\">{}</td>", escaped(label), self.inside)
    }
}

/// So many rows go on one sheet of paper together; a longer table is cut between two of them.
const MOST_TOGETHER: usize = 12;

/// A table with a head for each column. The first cell of a row is the row's own head.
pub struct Table {
    class: &'static str,
    heads: Vec<String>,
    rows: Vec<String>,
}

impl Table {
    /// `class` names its look in the style sheet.
    pub fn new(class: &'static str, heads: &[&str]) -> Table {
        Table { class, heads: heads.iter().map(|head| head.to_string()).collect(), rows: vec![] }
    }

    pub fn row(&mut self, head: Cell, cells: &[Cell]) {
        let labels = self.heads.iter().skip(1);
        let cells: String =
            cells.iter().zip(labels).map(|(cell, label)| cell.written(label)).collect();
        self.rows.push(format!("<tr><th scope=\"row\">{}</th>{cells}</tr>\n", head.inside));
    }

    pub fn finish(self, caption: &str) -> String {
        let head = |head: &String| format!("<th scope=\"col\">{}</th>", escaped(head));
        let long = if self.rows.len() > MOST_TOGETHER { " long" } else { "" };
        format!(
            "<table class=\"{}{long}\">\n<caption>{}</caption>\n<thead><tr>{}</tr></thead>\n<tbody>\n{}</tbody>\n</table>\n",
            self.class,
            escaped(caption),
            self.heads.iter().map(head).collect::<String>(),
            self.rows.concat()
        )
    }
}
