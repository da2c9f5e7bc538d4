//! Document 01's starred cases of Reach, the refusals of each call, and queries by their lines.
mod common;

use capeshard::{calls, Database, Line, Op, Operands, PlanLine, Query, Table};
use common::{book, query, refused, REACH};

#[test]
fn reach_answers() {
    let answer = query(&[]).run(&book(), 24, 15).unwrap();
    assert_eq!(answer.columns, [0, 1]);
    assert_eq!(answer.rows, [[1, 2], [1, 3], [2, 3]]);
    assert_eq!(answer.ran, 15);
    assert_eq!(query(&[]).run(&book(), 3, 1_000_000), Ok(answer));
}

#[test]
fn limits_refuse() {
    assert_eq!(query(&[]).run(&book(), 24, 14), refused(19, 0));
    assert_eq!(query(&[]).run(&book(), 2, 15), refused(18, 0));
    assert_eq!(query(&[]).run(&book(), 0, 15), refused(16, 0));
    assert_eq!(query(&[]).run(&book(), 4097, 15), refused(16, 0));
    assert_eq!(query(&[]).run(&book(), usize::MAX, 15), refused(16, 0));
}

#[test]
fn an_empty_table_gives_no_rows() {
    let empty = Database::read(b"guide=1\ntables=1\ncols=0,1\nrows=0\n").unwrap();
    let answer = query(&[]).run(&empty, 24, 1_000_000).unwrap();
    assert_eq!((answer.columns, answer.rows, answer.ran), (vec![0, 1], vec![], 5));
}

#[test]
fn a_filter_moves_into_the_seed() {
    let mut held = query(&[Line::Eq(0, 1)]);
    assert_eq!(held.rewrite(&book(), 1, 11), Ok(()));
    let moved = [&REACH[..1], &[Line::Eq(0, 1)], &REACH[1..]].concat();
    assert_eq!(held.lines(), moved);
    assert_eq!(held.run(&book(), 24, 1_000_000).unwrap().rows, [[1, 2], [1, 3]]);
}

#[test]
fn a_refused_step_leaves_the_query() {
    for (more, kind, number) in [(Line::Eq(1, 3), 1, 13), (Line::Drop(1), 5, 14), (Line::Drop(0), 1, 12)] {
        let mut held = query(&[more]);
        assert_eq!(held.rewrite(&book(), kind, 11), refused(number, 0));
        assert_eq!(held, query(&[more]));
    }
}

#[test]
fn checks_refuse() {
    assert_eq!(query(&[]).check(&book()), Ok(()));
    assert_eq!(query(&[Line::Table(9), Line::Union]).check(&book()), refused(10, 11));
    assert_eq!(query(&[Line::Drop(5)]).check(&book()), refused(9, 11));
    assert_eq!(query(&[Line::Table(16), Line::Union]).check(&book()), refused(1, 11));
    assert_eq!(Query::of(&[Line::Join]).unwrap().check(&book()), refused(3, 1));
    assert_eq!(Query::of(&[]).unwrap().check(&book()), refused(2, 0));
    assert_eq!(Query::of(&[Line::Table(0); 129]), None);
}

#[test]
fn reach_compiles() {
    let operands = Operands { left: 3, right: 6, left_columns: vec![0, 2], right_columns: vec![1, 2] };
    let lines = [
        (0, Op::Table { table: 0 }),
        (4, Op::Table { table: 0 }),
        (5, Op::Copy { from: 4, column: 0, new: 2 }),
        (6, Op::Drop { from: 5, column: 0 }),
        (9, Op::Start { delta: 10, from: 0, path: 4 }),
        (2, Op::Copy { from: 10, column: 1, new: 2 }),
        (3, Op::Drop { from: 2, column: 1 }),
        (7, Op::Join(operands)),
        (8, Op::Drop { from: 7, column: 2 }),
        (9, Op::Again { delta: 10, from: 8, path: 4 }),
    ];
    let plan: Vec<PlanLine> = lines.into_iter().map(|(to, op)| PlanLine { to, op }).collect();
    assert_eq!(query(&[]).compile(&book()), Ok(plan));
}

#[test]
fn every_plan_line_comes_back() {
    let pairs = [Line::Table(0), Line::Table(0), Line::Union, Line::Fact(0, 5), Line::Except];
    let filters = [Line::Eq(0, 6), Line::Ne(0, 7), Line::Max(0, 8), Line::Same(0, 1)];
    let plan = Query::of(&[&pairs[..], &filters].concat()).unwrap().compile(&book()).unwrap();
    let both = |left, right, other| Operands { left, right, left_columns: vec![0, 1], right_columns: other };
    let lines = [
        Op::Table { table: 0 },
        Op::Table { table: 0 },
        Op::Union(both(0, 1, vec![0, 1])),
        Op::Fact { column: 0, value: 5 },
        Op::Except(both(2, 3, vec![0])),
        Op::Eq { from: 4, column: 0, value: 6 },
        Op::Ne { from: 5, column: 0, value: 7 },
        Op::Max { from: 6, column: 0, value: 8 },
        Op::Same { from: 7, column: 0, other: 1 },
    ];
    assert_eq!(plan, (0..).zip(lines).map(|(to, op)| PlanLine { to, op }).collect::<Vec<_>>());
}

#[test]
fn a_refused_query_has_no_plan() {
    assert_eq!(query(&[Line::Drop(5)]).compile(&book()), refused(9, 11));
    assert_eq!(query(&[Line::Table(9), Line::Union]).compile(&book()), refused(10, 11));
    assert_eq!(Query::of(&[Line::Join]).unwrap().compile(&book()), refused(3, 1));
    assert_eq!(Query::of(&[]).unwrap().compile(&book()), refused(2, 0));
    let descending = Database::of(&[Table { columns: vec![0], rows: vec![vec![2], vec![1]] }]).unwrap();
    assert_eq!(query(&[]).compile(&descending), refused(11, 0));
}

#[test]
fn a_refused_compile_writes_nothing() {
    const ROOM: usize = 1 + 7 * 128;
    let (mut sheet, mut tables) = ([0; 1 + 3 * 128], [0; 1 + 2 * 16]);
    sheet[..4].copy_from_slice(&[1, 1, 0, 0]);
    tables[..3].copy_from_slice(&[1, 3, 1]);
    let store = [1, 2, 0, 0, 0, 0, 0, 0];
    let compile = |sheet: &[u32], plan: &mut [u32]| {
        let (query, database) = ((sheet.as_ptr(), sheet.len()), (tables.as_ptr(), tables.len()));
        // SAFETY: each pointer and length is that of one slice, and the written one is borrowed here alone.
        unsafe {
            calls::capeshard_compile(
                query.0,
                query.1,
                database.0,
                database.1,
                store.as_ptr(),
                store.len(),
                128,
                plan.as_mut_ptr(),
                plan.len(),
            )
        }
    };
    let mut plan = [9; ROOM];
    assert_eq!(compile(&sheet, &mut plan[1..]), 17 << 32);
    assert_eq!(compile(&sheet[1..], &mut plan), 17 << 32);
    sheet[2] = 1;
    assert_eq!(compile(&sheet, &mut plan), 10 << 32 | 1);
    assert_eq!(plan, [9; ROOM]);
    sheet[2] = 0;
    assert_eq!(compile(&sheet, &mut plan), 0);
    assert_eq!(plan[..8], [1, 1, 0, 0, 0, 0, 0, 0]);
    assert_eq!(plan[8..], [9; ROOM - 8]);
}

#[test]
fn texts_are_read() {
    let sheet =
        b"guide=1\nnodes=10\ntable=0\nvar=1\ncopy=1,2\ndrop=1\ntable=0\ncopy=0,2\ndrop=0\npair=join\ndrop=2\nfix=1\n";
    assert_eq!(Query::read(sheet).unwrap().lines(), REACH);
    assert_eq!(Query::read(b"guide=1\nnodes=07\n"), refused(1, 2));
    assert_eq!(Query::read(b"guide=1\nnodes=0\n"), refused(2, 2));
    assert_eq!(Query::read(b""), refused(1, 1));
    assert_eq!(Database::read(b"\n"), refused(11, 1));
    assert_eq!(Database::read(b"guide=1\ntables=1\ncols=0,1\nrows=2\nrow=2,3\nrow=1,2\n"), refused(11, 6));
}

#[test]
fn tables_are_a_database() {
    let doors = |rows: &[[u32; 2]]| Table { columns: vec![0, 1], rows: rows.iter().map(|row| row.to_vec()).collect() };
    let stored = Database::of(&[doors(&[[1, 2], [2, 3]])]).unwrap();
    assert_eq!(query(&[]).run(&stored, 24, 15), query(&[]).run(&book(), 24, 15));
    let descending = Database::of(&[doors(&[[2, 3], [1, 2]])]).unwrap();
    assert_eq!(query(&[]).check(&descending), refused(11, 0));
    assert_eq!(Database::of(&[Table { columns: vec![8], rows: vec![] }]), None);
    assert_eq!(Database::of(&vec![doors(&[]); 17]), None);
}

#[test]
fn every_line_comes_back() {
    let lines = [
        Line::Table(0),
        Line::Var(1),
        Line::Fact(2, 3),
        Line::Union,
        Line::Join,
        Line::Except,
        Line::Eq(1, 2),
        Line::Ne(3, 4),
        Line::Max(5, 6),
        Line::Same(7, 0),
        Line::Copy(1, 2),
        Line::Drop(3),
        Line::Fix(4),
    ];
    assert_eq!(Query::of(&lines).unwrap().lines(), lines);
}
