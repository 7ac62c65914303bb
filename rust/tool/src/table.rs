//! Rows under named columns, for other programs: as CSV, or as JSON with a line a row.
//!
//! `docs/FORMATS.md` has the columns of each command, and a test holds the page to the commands.

use crate::arguments::Arguments;
use crate::failure::Failure;
use crate::json::{object, Value};

/// The names of the columns.
pub type Columns = &'static [&'static str];

/// How rows are written.
#[derive(Clone, Copy, Debug, PartialEq, Eq)]
pub enum Form {
    Csv,
    Json,
}

impl Form {
    /// The form that a command's options --csv and --json ask for, if any does.
    pub fn asked(command: &str, arguments: &Arguments) -> Result<Option<Form>, Failure> {
        let has = |name| arguments.options.contains_key(name);
        match (has("--csv"), has("--json")) {
            (false, false) => Ok(None),
            (true, false) => Ok(Some(Form::Csv)),
            (false, true) => Ok(Some(Form::Json)),
            (true, true) => Err(Failure::Wrong(format!(
                "--csv and --json are both there; gunwaleish {command} --help tells more"
            ))),
        }
    }

    /// The ending of a file's name.
    pub fn ending(self) -> &'static str {
        match self {
            Form::Csv => "csv",
            Form::Json => "json",
        }
    }

    /// What stands before the first row.
    pub fn head(self, columns: Columns) -> String {
        match self {
            Form::Csv => line_of(columns.iter().map(|name| name.to_string())),
            Form::Json => String::new(),
        }
    }

    /// One row, with its line's end. A row has a value for each column.
    pub fn row(self, columns: Columns, row: &[Value]) -> String {
        match self {
            Form::Csv => line_of(row.iter().map(cell)),
            Form::Json => {
                let fields = columns.iter().copied().zip(row.iter().cloned());
                format!("{}\n", object(fields))
            }
        }
    }

    /// The whole of it.
    pub fn table(self, columns: Columns, rows: impl IntoIterator<Item = Vec<Value>>) -> String {
        let rows = rows.into_iter().map(|row| self.row(columns, &row));
        self.head(columns) + &rows.collect::<String>()
    }
}

fn line_of(cells: impl Iterator<Item = String>) -> String {
    cells.collect::<Vec<_>>().join(",") + "\n"
}

/// A cell of CSV: nothing for null, and in quotes where a comma, a quote or a line's end is in it.
fn cell(value: &Value) -> String {
    let text = match value {
        Value::Null => return String::new(),
        Value::Text(text) => text.clone(),
        other => other.to_string(),
    };
    match text.contains([',', '"', '\n', '\r']) {
        true => format!("\"{}\"", text.replace('"', "\"\"")),
        false => text,
    }
}
