//! The tests of the program selfcheck, on fewer random inputs.

use reference::examples::examples;
use reference::properties::{properties, Coverage};
use reference::selfcheck::{
    case_folder, cases, path_folder, paths, reading_folder, readings, report, rewritings, step_folder,
};

#[test]
fn every_case_is_answered() {
    let outcomes = cases(&case_folder());
    assert!(!outcomes.is_empty());
    assert_eq!(report(&outcomes).1, 0);
}

#[test]
fn every_reading_is_read() {
    let outcomes = readings(&reading_folder());
    assert!(!outcomes.is_empty());
    assert_eq!(report(&outcomes).1, 0);
}

#[test]
fn every_list_of_steps_is_applied() {
    let outcomes = rewritings(&step_folder());
    assert!(!outcomes.is_empty());
    assert_eq!(report(&outcomes).1, 0);
}

#[test]
fn every_path_has_its_sheet() {
    let outcomes = paths(&path_folder());
    assert!(!outcomes.is_empty());
    assert_eq!(report(&outcomes).1, 0);
}

#[test]
fn every_example_holds() {
    assert_eq!(report(&examples()).1, 0);
}

#[test]
fn every_property_holds() {
    assert_eq!(report(&properties(1, 150, &mut Coverage::default())).1, 0);
}
