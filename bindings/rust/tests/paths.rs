//! Property paths: the sheet that is written, its pairs, and each refusal.
mod common;

use capeshard::{panel, Database, Line, Query, PATH_BYTES};
use common::refused;

/// Doors from 1 to 2 and from 2 to 3, lifts from 3 to 4, and a table with another column.
const BOOK: &[u8] =
    b"guide=1\ntables=3\ncols=0,1\nrows=2\nrow=1,2\nrow=2,3\ncols=0,1\nrows=1\nrow=3,4\ncols=0,2\nrows=0\n";

fn book() -> Database {
    Database::read(BOOK).unwrap()
}

/// The pairs of a finished run.
fn pairs(path: &[u8]) -> Vec<(u32, u32)> {
    let answer = Query::read_path(path, &book()).unwrap().run(&book(), 64, 1000).unwrap();
    assert_eq!(answer.columns, [0, 1]);
    answer.rows.iter().map(|row| (row[0], row[1])).collect()
}

#[test]
fn a_plus_is_written_as_reach_is() {
    let lines = [
        Line::Table(0),
        Line::Var(0),
        Line::Copy(1, 2),
        Line::Drop(1),
        Line::Table(0),
        Line::Copy(0, 2),
        Line::Drop(0),
        Line::Join,
        Line::Drop(2),
        Line::Fix(0),
    ];
    assert_eq!(Query::read_path(b"0+", &book()).unwrap().lines(), lines);
    assert_eq!(panel::read_path(b"0+", &book()).unwrap().lines(), lines);
}

#[test]
fn a_run_gives_the_pairs_that_the_path_links() {
    assert_eq!(pairs(b"0+"), [(1, 2), (1, 3), (2, 3)]);
    assert_eq!(pairs(b"0/1"), [(2, 4)]);
    assert_eq!(pairs(b"^0|1"), [(2, 1), (3, 2), (3, 4)]);
    assert_eq!(pairs(b"^0+"), [(2, 1), (3, 1), (3, 2)]);
}

#[test]
fn each_refusal_has_its_number_and_place() {
    assert_eq!(Query::read_path(b"", &book()).map(|read| read.lines()), refused(21, 1));
    assert_eq!(Query::read_path(b"0++", &book()).map(|read| read.lines()), refused(21, 3));
    assert_eq!(Query::read_path(&[b'('; 2 * PATH_BYTES], &book()).map(|read| read.lines()), refused(21, 129));
    assert_eq!(Query::read_path(b"3/2", &book()).map(|read| read.lines()), refused(10, 0));
    assert_eq!(Query::read_path(b"2/3", &book()).map(|read| read.lines()), refused(9, 0));
    assert_eq!(Query::read_path(b"((((0+)+)+)+)+", &book()).map(|read| read.lines()), refused(2, 0));
    assert_eq!(Query::read_path(b"0/0/0/0/0", &book()).unwrap().lines().len(), 29);
    assert_eq!(panel::read_path(b"0/0/0/0/0", &book()).unwrap().lines().len(), 29);
    assert_eq!(panel::read_path(b"0/0/0/0/0/0", &book()).map(|read| read.lines()), refused(2, 0));
}
