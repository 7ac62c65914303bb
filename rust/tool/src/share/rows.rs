//! The report for other programs: a row a trace with its own figures, and a last one for all.

use gunwaleish::{Master, Totals};

use super::kept::NAMES;
use super::Counted;
use crate::json::Value;
use crate::table::{Columns, Form};

/// Whose figures a row has, the 17 numbers by their names, and in which traces the longest waits are.
pub const COLUMNS: Columns = &[
    "of",
    "name",
    "refusal",
    NAMES[0],
    NAMES[1],
    NAMES[2],
    NAMES[3],
    NAMES[4],
    NAMES[5],
    NAMES[6],
    NAMES[7],
    NAMES[8],
    NAMES[9],
    NAMES[10],
    NAMES[11],
    NAMES[12],
    NAMES[13],
    NAMES[14],
    NAMES[15],
    NAMES[16],
    "longest0_in",
    "longest1_in",
];

/// All rows. `name` has the name of a place.
pub fn rows(counted: &Counted, name: &dyn Fn(usize) -> String, form: Form) -> String {
    let mut refused = counted.refused.iter().peekable();
    let each = counted.each.iter().map(|(place, own)| {
        // Both are in the order of the places.
        let number = refused.next_if(|(at, _)| at == place).map(|(_, refusal)| refusal.number());
        row(["trace".into(), name(*place).into(), number.into()], own, [Value::Null, Value::Null])
    });
    let past = (counted.past > 0).then_some(6u8);
    let longest = Master::BOTH.map(|m| counted.longest_in(m).map(name).into());
    let all = row(["all".into(), Value::Null, past.into()], &counted.totals, longest);
    form.table(COLUMNS, each.chain([all]))
}

fn row(of: [Value; 3], totals: &Totals, longest: [Value; 2]) -> Vec<Value> {
    let numbers = totals.numbers().iter().map(|&number| number.into());
    of.into_iter().chain(numbers).chain(longest).collect()
}
