//! A book of zero bytes has no tables; a sheet of zero bytes is none.
use capeshard::{calls, panel, Database, Line, Query, Refusal, TABLES};

#[test]
fn a_book_of_zero_bytes_has_no_tables() {
    let empty = Database::read(b"").unwrap();
    assert_eq!(Database::of(&[]), Some(empty));
}

#[test]
fn facts_are_answered_and_tables_refused() {
    let empty = Database::read(b"").unwrap();
    let facts = Query::of(&[Line::Fact(0, 1), Line::Fact(1, 2), Line::Join]).unwrap();
    let answer = facts.run(&empty, 1, 3).unwrap();
    assert_eq!((answer.columns.clone(), answer.rows.clone(), answer.ran), (vec![0, 1], vec![vec![1, 2]], 3));
    assert_eq!(panel::run(&facts, &empty, 3), Ok(answer));
    let tables = Query::of(&[Line::Fact(0, 1), Line::Table(0), Line::Join]).unwrap();
    assert_eq!(tables.check(&empty), Err(Refusal { number: 10, place: 2 }));
    assert_eq!(panel::check(&tables, &empty), Err(Refusal { number: 10, place: 2 }));
}

#[test]
fn one_byte_is_no_book_and_zero_bytes_are_no_sheet() {
    for byte in 0..=u8::MAX {
        assert_eq!(Database::read(&[byte]), Err(Refusal { number: 11, place: 1 }), "byte {byte}");
    }
    assert_eq!(Query::read(b""), Err(Refusal { number: 1, place: 1 }));
    assert_eq!(panel::read(b""), Err(Refusal { number: 1, place: 1 }));
}

/// The flat database gets its table count alone, and the store stays as it was.
#[test]
fn nothing_is_written_to_the_store() {
    const ROOM: usize = 1 + 2 * TABLES;
    let (mut flat, mut store) = ([7; ROOM], [9; 3]);
    let text: &[u8] = b"";
    let status = unsafe {
        calls::capeshard_read_database(text.as_ptr(), 0, flat.as_mut_ptr(), flat.len(), store.as_mut_ptr(), store.len())
    };
    assert_eq!((status, flat[0], &flat[1..], store), (0, 0, &[7; ROOM - 1][..], [9; 3]));
}
