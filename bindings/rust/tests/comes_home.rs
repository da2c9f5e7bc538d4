//! Stability by origin: the floor goes to column 4 and comes home, the room does not.
mod common;

use capeshard::{panel, Database, Line, Query};
use common::refused;

const BOOK: &[u8] = b"guide=1\ntables=1\ncols=0,1,3\nrows=3\nrow=1,2,5\nrow=2,3,5\nrow=3,4,6\n";

const FLOORS: [Line; 15] = [
    Line::Table(0),
    Line::Var(1),
    Line::Copy(3, 4),
    Line::Drop(3),
    Line::Copy(1, 2),
    Line::Drop(1),
    Line::Table(0),
    Line::Drop(3),
    Line::Copy(0, 2),
    Line::Drop(0),
    Line::Join,
    Line::Drop(2),
    Line::Copy(4, 3),
    Line::Drop(4),
    Line::Fix(1),
];

fn book() -> Database {
    Database::read(BOOK).unwrap()
}

fn floors(more: &[Line]) -> Query {
    Query::of(&[&FLOORS, more].concat()).unwrap()
}

#[test]
fn a_filter_on_the_floor_goes_to_the_seed() {
    let typed = floors(&[Line::Eq(3, 5)]);
    let mut held = typed.clone();
    assert_eq!(held.rewrite(&book(), 1, 16), Ok(()));
    assert_eq!(held.lines(), [&FLOORS[..1], &[Line::Eq(3, 5)], &FLOORS[1..]].concat());
    let mut at_panel = typed.clone();
    assert_eq!(panel::rewrite(&mut at_panel, &book(), 1, 16), Ok(()));
    assert_eq!(at_panel, held);
    let (before, after) = (typed.run(&book(), 24, 1000).unwrap(), held.run(&book(), 24, 1000).unwrap());
    assert_eq!(before.rows.len(), 5);
    assert_eq!((before.columns, before.rows), (after.columns, after.rows));
}

#[test]
fn joins_and_excepts_on_the_floor_go_there_too() {
    for (pair, kind) in [(Line::Join, 2), (Line::Except, 4)] {
        let mut held = floors(&[Line::Fact(3, 5), pair]);
        assert_eq!(held.rewrite(&book(), kind, 17), Ok(()));
        assert_eq!(held.lines(), [&FLOORS[..1], &[Line::Fact(3, 5), pair], &FLOORS[1..]].concat());
    }
}

#[test]
fn a_filter_on_the_room_stays() {
    let mut held = floors(&[Line::Eq(1, 3)]);
    assert_eq!(held.rewrite(&book(), 1, 16), refused(13, 0));
    assert_eq!(panel::rewrite(&mut held, &book(), 1, 16), refused(13, 0));
    assert_eq!(held, floors(&[Line::Eq(1, 3)]));
}
