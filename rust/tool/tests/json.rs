//! JSON and CSV as they are written: known texts, and any text read back as another program would.

#[path = "common/rows.rs"]
mod rows;

use gunwaleish_tool::json::{object, Value};
use gunwaleish_tool::table::{Columns, Form};
use model::rng::Rng;
use rows::{csv, json, json_lines, Read};

#[test]
fn values_have_their_texts() {
    let cases: [(Value, &str); 12] = [
        (Value::Null, "null"),
        (true.into(), "true"),
        (u64::MAX.into(), "18446744073709551615"),
        (7usize.into(), "7"),
        (255u8.into(), "255"),
        ("".into(), r#""""#),
        ("a \"b\" \\c".into(), r#""a \"b\" \\c""#),
        ("\n\r\t\u{0}\u{1b}\u{7f}\u{9b}".into(), r#""\n\r\t\u0000\u001b\u007f\u009b""#),
        ("Gerät 71h €".into(), "\"Gerät 71h €\""),
        (Some(3u8).into(), "3"),
        (None::<u8>.into(), "null"),
        (vec![1u8, 2].into(), "[1,2]"),
    ];
    for (value, expected) in cases {
        assert_eq!(value.to_string(), expected);
    }
    let both = object([("a", vec![Value::Null].into()), ("b\"", object([]))]);
    assert_eq!(both.to_string(), r#"{"a":[null],"b\"":{}}"#);
}

/// Any letters, those that have to be escaped among them.
fn any_text(rng: &mut Rng) -> String {
    let some =
        ['"', '\\', ',', '\n', '\r', '\t', '\0', '\u{1b}', '\u{85}', ' ', 'a', 'é', '€', '𝄞'];
    (0..rng.below(12)).map(|_| rng.pick(&some)).collect()
}

#[test]
fn any_text_comes_back() {
    let mut rng = Rng::new(37);
    let columns: Columns = &["one", "two", "three"];
    for _ in 0..2000 {
        let texts = [any_text(&mut rng), any_text(&mut rng)];
        let row: Vec<Value> =
            vec![texts[0].as_str().into(), rng.byte().into(), texts[1].clone().into()];
        let line = Form::Json.row(columns, &row);
        assert_eq!(line.matches('\n').count(), 1);
        let read = json(line.trim_end_matches('\n'));
        assert_eq!([read.at("one").text(), read.at("three").text()], texts);
        let cells = csv(&Form::Csv.row(columns, &row));
        assert_eq!((cells.len(), cells[0].len()), (1, 3));
        assert_eq!([&cells[0][0], &cells[0][2]], [&texts[0], &texts[1]]);
    }
}

/// Lines of JSON may be put behind each other; CSV has its head once.
#[test]
fn a_table_has_a_line_a_row() {
    let columns: Columns = &["name", "refusal", "waits"];
    let rows = || {
        vec![
            vec!["a, b".into(), Value::Null, true.into()],
            vec!["c".into(), 5u8.into(), false.into()],
        ]
    };
    assert_eq!(Form::Csv.table(columns, rows()), "name,refusal,waits\n\"a, b\",,true\nc,5,false\n");
    let lines = Form::Json.table(columns, rows());
    let first = r#"{"name":"a, b","refusal":null,"waits":true}"#;
    assert_eq!(lines, format!("{first}\n{}\n", r#"{"name":"c","refusal":5,"waits":false}"#));
    let twice = json_lines(&(lines.clone() + &lines));
    assert_eq!(
        (twice.len(), &twice[0], twice[3].at("refusal")),
        (4, &twice[2], &Read::Number(5.0))
    );
    assert_eq!(Form::Csv.table(columns, vec![]), "name,refusal,waits\n");
    assert_eq!(Form::Json.table(columns, vec![]), "");
}
