//! The quick set: part of the gate. Half its cases are the same in every run, half are new.
//! Figures go straight to standard error, so that a run that passes shows them too.

use std::io::Write;

use compare::advancing::advances_about_ends;
use compare::fixed::*;
use compare::imaging::{images_byte_by_byte, images_of_every_length};
use compare::sharing::{joins_about_the_most, shares_of_stored, totals_of_every_length};
use compare::sheets::{sheets_one_by_one, sheets_side_by_side};
use compare::shelving::{names_on_rows, rows_of_every_length};
use compare::starting::{limits_of_orders, orders_of_every_length};
use compare::waiting::{waits_of_every_reserve, waits_one_by_one};
use compare::{clock_seed, round, seed_or, Figures};
use model::traces::seed_of;

const ROUNDS: u64 = 1000;

/// Compares so many rounds. Every kind of happening and every refusal has to occur.
fn compare_rounds(seed: u64) {
    say(&format!("comparing the library with the model, seed {seed}\n"));
    let mut figures = Figures::new(seed);
    (0..ROUNDS).for_each(|place| round(seed_of(seed, place), &mut figures));
    say(&figures.to_string());
    assert!(figures.agree(), "{figures}");
    let never = figures.never();
    assert!(never.is_empty(), "never occurred: {never:?}");
}

fn say(text: &str) {
    // If standard error is closed, the assertions still speak.
    let _ = std::io::stderr().write_all(text.as_bytes());
}

fn check_all(check: fn(&mut Figures)) {
    let mut figures = Figures::new(0);
    check(&mut figures);
    assert!(figures.agree(), "{figures}");
}

#[test]
fn the_same_cases_every_time() {
    compare_rounds(14);
}

#[test]
fn new_cases_each_time() {
    compare_rounds(seed_or(clock_seed()));
}

#[test]
fn traces_that_are_kept_as_files() {
    check_all(kept_traces);
}

#[test]
fn every_string_of_up_to_two_bytes() {
    check_all(short_strings);
}

#[test]
fn every_third_section() {
    check_all(third_sections);
}

#[test]
fn every_kind_of_part() {
    check_all(all_kinds);
}

#[test]
fn pins_to_address() {
    check_all(all_pins);
}

#[test]
fn address_to_pins() {
    check_all(all_addresses);
}

#[test]
fn captures_about_the_bounds_of_bytes() {
    check_all(captures_about_bytes);
}

#[test]
fn every_short_capture() {
    check_all(short_captures);
}

#[test]
fn every_byte_of_an_order_sheet() {
    check_all(sheets_one_by_one);
}

#[test]
fn order_sheets_refused_side_by_side() {
    check_all(sheets_side_by_side);
}

#[test]
fn every_question_about_a_wait() {
    check_all(waits_one_by_one);
}

#[test]
fn waits_behind_every_reserve() {
    check_all(waits_of_every_reserve);
}

#[test]
fn every_byte_of_an_image() {
    check_all(images_byte_by_byte);
}

#[test]
fn images_of_any_length() {
    check_all(images_of_every_length);
}

#[test]
fn start_up_scripts_of_every_length() {
    check_all(orders_of_every_length);
}

#[test]
fn limits_of_their_orders() {
    check_all(limits_of_orders);
}

#[test]
fn every_name_on_a_row() {
    check_all(names_on_rows);
}

#[test]
fn rows_of_any_length() {
    check_all(rows_of_every_length);
}

#[test]
fn shares_of_the_stored_traces() {
    check_all(shares_of_stored);
}

#[test]
fn totals_of_any_length() {
    check_all(totals_of_every_length);
}

#[test]
fn totals_joined_about_the_most() {
    check_all(joins_about_the_most);
}

#[test]
fn advances_about_the_ends_of_counts() {
    check_all(advances_about_ends);
}
