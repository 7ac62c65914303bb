//! What has to occur in a comparison: the numbers that each call answers, and what is seen in calls.

use model::advances::ADVANCE_SIGHTS;
use model::images::image_sights;
use model::scripts::ORDER_SIGHTS;
use model::shares::SHARE_SIGHTS;
use model::sheets::SHEET_SIGHTS;
use model::shelf_sights::shelf_sights;
use model::sightings::SIGHTS;
use model::wait_sights::WAIT_SIGHTS;

/// The calls that answer a number, each with the numbers that have to occur.
pub const CALLS: &[(&str, &[u8])] = &[
    ("run", &[0, 3, 5, 6, 7, 8, 9, 10]),
    ("write", &[0, 3, 5, 6, 8, 9]),
    ("convert", &[0, 5, 6, 7, 8, 9, 10]),
    ("import", &[0, 9, 11, 12, 13]),
    ("look up", &[0, 3, 5, 7, 10, 14, 15]),
    ("sheet events", &[0, 3, 5, 7, 9, 10, 14]),
    ("sheet wait", &[0, 3, 5, 7, 10, 14, 15]),
    ("image step", &[0, 1, 2, 3, 4, 9, 16]),
    ("image read", &[0, 3, 9, 16]),
    ("image fresh", &[0, 3, 9]),
    ("list orders", &[0, 5, 6, 9]),
    ("shelf step", &[0, 1, 2, 3, 4, 5, 6, 9, 16, 17, 18]),
    ("shelf show", &[0, 5, 6, 9, 16, 17, 18]),
    ("shelf fresh", &[0, 3, 5, 6, 9, 17]),
    ("share add", &[0, 3, 5, 6, 7, 8, 9, 10]),
    ("share join", &[0, 6, 9]),
    ("image advance", &[0, 3, 9, 16]),
];
/// The names of all that has to be seen in calls other than runs.
pub fn sights() -> Vec<String> {
    let lists = [SIGHTS, SHEET_SIGHTS, WAIT_SIGHTS, ORDER_SIGHTS, SHARE_SIGHTS, ADVANCE_SIGHTS];
    let mut names: Vec<String> = lists.concat().into_iter().map(str::to_string).collect();
    names.extend(image_sights());
    names.extend(shelf_sights());
    names
}
