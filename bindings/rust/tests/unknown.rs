//! The value 0, which stands for unknown: it passes no `max`, and the other filters compare it.
use capeshard::{panel, Database, Line, Query, Table};

/// Objects and their years in column 4, the first one undated.
fn objects() -> Database {
    Database::of(&[Table { columns: vec![0, 4], rows: vec![vec![1, 0], vec![2, 1850], vec![3, 1901]] }]).unwrap()
}

#[test]
fn an_undated_object_passes_no_max() {
    for (filter, kept) in [
        (Line::Max(4, 1850), vec![2]),
        (Line::Max(4, u32::MAX), vec![2, 3]),
        (Line::Max(4, 1), vec![]),
        (Line::Max(4, 0), vec![]),
        (Line::Eq(4, 0), vec![1]),
        (Line::Ne(4, 0), vec![2, 3]),
        (Line::Same(4, 4), vec![1, 2, 3]),
    ] {
        let query = Query::of(&[Line::Table(0), filter, Line::Drop(4)]).unwrap();
        let answer = query.run(&objects(), 3, 3).unwrap();
        assert_eq!(answer.rows.concat(), kept, "{filter:?}");
        assert_eq!(panel::run(&query, &objects(), 3), Ok(answer));
    }
}

#[test]
fn an_undated_object_passes_no_max_in_the_seed() {
    let over = [Line::Table(0), Line::Var(1), Line::Fix(1), Line::Max(4, 1850)];
    let mut held = Query::of(&over).unwrap();
    let before = held.run(&objects(), 3, 10).unwrap();
    assert_eq!(before.rows, [[2, 1850]]);
    assert_eq!(held.rewrite(&objects(), 1, 4), Ok(()));
    assert_eq!(held.lines(), [Line::Table(0), Line::Max(4, 1850), Line::Var(1), Line::Fix(1)]);
    assert_eq!(held.run(&objects(), 3, 10).unwrap().rows, before.rows);
}
