//! The texts beside the sheets: what people wrote and read, and what goes out, are to be the same. A sheet
//! that was not made again of its text after a change is how a form and a bundle come apart.

use super::{Bundle, Rank, Read, Reason};
use crate::commands::fill::MOST_TEXT;
use crate::form::{self, written, Boxes, Mistake};
use crate::hint::Kind;
use crate::sheet::BoxName;

/// Each box in which a sheet is not what the text beside it says. Of what is no sheet `sheets` tells.
pub fn other_texts(bundle: &Bundle) -> Vec<Reason> {
    let sheets = [&bundle.board, &bundle.house].into_iter().zip(&bundle.texts);
    sheets.filter_map(|(sheet, text)| Some(other_text(sheet, text.as_ref()?))).flatten().collect()
}

fn other_text(sheet: &Read, text: &Read) -> Vec<Reason> {
    let Ok(has) = form::boxes_of(&sheet.bytes) else {
        return vec![];
    };
    if text.bytes.len() > MOST_TEXT {
        return vec![no_text(sheet, text, None, "it is longer than 64 KiB")];
    }
    match form::read(&text.bytes) {
        Ok(says) => differences(sheet, text, says, has),
        Err(mistakes) => {
            mistakes.first().map(|one| mistyped(sheet, text, one)).into_iter().collect()
        }
    }
}

fn differences(sheet: &Read, text: &Read, says: Boxes, has: Boxes) -> Vec<Reason> {
    let boxes = BoxName::all().zip(says.into_iter().zip(has));
    let other = boxes.filter(|(_, (says, has))| says != has);
    let reason = |(name, (says, has)): (BoxName, (Option<u8>, Option<u8>))| {
        let [says, has] = [says, has].map(|value| written(name.section, value));
        let what = format!("The text says {says}, and the sheet that goes out has {has}.");
        Reason { what, ..about(sheet, text, Some(name.to_string())) }
    };
    other.map(reason).collect()
}

fn mistyped(sheet: &Read, text: &Read, mistake: &Mistake) -> Reason {
    let why = format!("{}{}", mistake.what, text.hint(Kind::SheetText));
    no_text(sheet, text, mistake.line.map(|line| format!("line {line}")), &why)
}

fn no_text(sheet: &Read, text: &Read, place: Option<String>, why: &str) -> Reason {
    let what = format!("The text cannot have given the sheet, since it is none: {why}.");
    Reason { what, ..about(sheet, text, place) }
}

fn about(sheet: &Read, text: &Read, place: Option<String>) -> Reason {
    let (sheet, text) = (&sheet.name, &text.name);
    Reason {
        rank: Rank::OtherText,
        file: format!("{text} and {sheet}"),
        place,
        what: String::new(),
        mend: format!("Mend the text if it is wrong, and make the sheet of it: gunwaleish fill {text} -o {sheet}"),
    }
}
