//! Reach's sheet and book, and how a refusal is written.
use capeshard::{Database, Line, Query, Refusal};

const BOOK: &[u8] = b"guide=1\ntables=1\ncols=0,1\nrows=2\nrow=1,2\nrow=2,3\n";

pub const REACH: [Line; 10] = [
    Line::Table(0),
    Line::Var(1),
    Line::Copy(1, 2),
    Line::Drop(1),
    Line::Table(0),
    Line::Copy(0, 2),
    Line::Drop(0),
    Line::Join,
    Line::Drop(2),
    Line::Fix(1),
];

pub fn book() -> Database {
    Database::read(BOOK).unwrap()
}

pub fn query(more: &[Line]) -> Query {
    Query::of(&[&REACH, more].concat()).unwrap()
}

pub fn refused<T>(number: u32, place: u32) -> Result<T, Refusal> {
    Err(Refusal { number, place })
}
