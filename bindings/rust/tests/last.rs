//! The commentary that replaces another: a `last` keeps the newest issues, takes no open operand and is moved by no kind.
mod common;

use capeshard::{calls, panel, Answer, Database, Line, Op, Operands, PlanLine, Query, Table};
use common::{book, query, refused};

/// Works, languages and issues in columns 0, 3 and 7. An issue without a number has 0.
fn recordings() -> Database {
    let rows: &[[u32; 3]] = &[[1, 1, 1], [1, 1, 2], [1, 1, 4], [1, 2, 3], [2, 1, 0], [3, 1, 0], [3, 1, 1], [3, 2, 1]];
    let rows = rows.iter().map(|row| row.to_vec()).collect();
    Database::of(&[Table { columns: vec![0, 3, 7], rows }]).unwrap()
}

/// What desk and panel answer alike.
fn answered(lines: &[Line], database: &Database) -> Answer {
    let query = Query::of(lines).unwrap();
    let answer = query.run(database, 24, 1_000).unwrap();
    assert_eq!(panel::run(&query, database, 1_000).as_ref(), Ok(&answer));
    answer
}

#[test]
fn the_newest_of_several_issues_is_kept() {
    let answer = answered(&[Line::Table(0), Line::Last(7)], &recordings());
    assert_eq!(answer.columns, [0, 3, 7]);
    assert_eq!(answer.rows, [[1, 1, 4], [1, 2, 3], [2, 1, 0], [3, 1, 1], [3, 2, 1]]);
    assert_eq!(answer.ran, 2);
    let twice = answered(&[Line::Table(0), Line::Last(7), Line::Last(7)], &recordings());
    assert_eq!(twice.rows, answer.rows);
}

#[test]
fn other_columns_have_a_last_too() {
    let first = answered(&[Line::Table(0), Line::Last(0)], &recordings());
    assert_eq!(first.rows, [[1, 1, 2], [1, 1, 4], [1, 2, 3], [3, 1, 0], [3, 1, 1], [3, 2, 1]]);
    let middle = answered(&[Line::Table(0), Line::Last(3)], &recordings());
    assert_eq!(middle.rows, [[1, 1, 1], [1, 1, 2], [1, 1, 4], [1, 2, 3], [2, 1, 0], [3, 1, 0], [3, 2, 1]]);
}

#[test]
fn of_one_column_the_greatest_is_kept() {
    let book = |values: &[u32]| {
        let rows = values.iter().map(|value| vec![*value]).collect();
        Database::of(&[Table { columns: vec![2], rows }]).unwrap()
    };
    let lines = [Line::Table(0), Line::Last(2)];
    assert_eq!(answered(&lines, &book(&[0, 9, 10, u32::MAX])).rows, [[u32::MAX]]);
    assert_eq!(answered(&lines, &book(&[0])).rows, [[0]]);
    assert_eq!(answered(&lines, &book(&[])).rows.len(), 0);
}

#[test]
fn a_recursion_s_last_is_that_of_its_result() {
    let reached = |more: &[Line]| answered(&query(more).lines(), &book());
    assert_eq!(reached(&[Line::Last(1)]).rows, [[1, 3], [2, 3]]);
    assert_eq!(reached(&[Line::Last(0)]).rows, [[1, 2], [2, 3]]);
    assert_eq!(reached(&[Line::Last(0)]).ran, 16);
}

#[test]
fn an_open_operand_is_refused() {
    let seed = [Line::Table(0), Line::Var(1)];
    for (step, node) in [
        (vec![Line::Last(1)], 3),
        (vec![Line::Eq(0, 1), Line::Last(1)], 4),
        (vec![Line::Last(5)], 3),
        (vec![Line::Last(1), Line::Drop(5)], 3),
    ] {
        let held = Query::of(&[&seed[..], &step, &[Line::Fix(1)]].concat()).unwrap();
        assert_eq!(held.check(&book()), refused(5, node));
        assert_eq!(held.compile(&book()), refused(5, node));
        assert_eq!(held.run(&book(), 24, 1_000), refused(5, node));
        assert_eq!(panel::check(&held, &book()), refused(5, node));
        assert_eq!(panel::run(&held, &book(), 1_000), refused(5, node));
    }
    let body = [Line::Var(1), Line::Last(1), Line::Table(0), Line::Union, Line::Mu(1)];
    assert_eq!(Query::of(&body).unwrap().check(&book()), refused(5, 3));
}

#[test]
fn a_missing_column_is_refused() {
    let held = query(&[Line::Last(2)]);
    assert_eq!(held.check(&book()), refused(9, 11));
    assert_eq!(panel::check(&held, &book()), refused(9, 11));
    assert_eq!(query(&[Line::Drop(1), Line::Last(1)]).check(&book()), refused(9, 12));
    assert_eq!(query(&[Line::Last(8)]).check(&book()), refused(1, 11));
    assert_eq!(Query::of(&[Line::Last(0)]).unwrap().check(&book()), refused(3, 1));
}

#[test]
fn no_kind_moves_it() {
    let typed = query(&[Line::Last(0)]);
    let mut held = typed.clone();
    for kind in [0, 1, 2, 3, 4, 5, 6, 7, u32::MAX] {
        assert_eq!(held.rewrite(&book(), kind, 11), refused(12, 0));
        assert_eq!(panel::rewrite(&mut held, &book(), kind, 11), refused(12, 0));
    }
    assert_eq!(held, typed);
}

#[test]
fn a_step_elsewhere_keeps_its_rows() {
    let typed = query(&[Line::Ne(0, 2), Line::Last(1)]);
    let (mut held, mut at_panel) = (typed.clone(), typed.clone());
    assert_eq!(held.rewrite(&book(), 1, 11), Ok(()));
    assert_eq!(panel::rewrite(&mut at_panel, &book(), 1, 11), Ok(()));
    assert_eq!(at_panel, held);
    assert_eq!(held.lines()[1], Line::Ne(0, 2));
    assert_eq!(held.lines()[11], Line::Last(1));
    assert_eq!(answered(&held.lines(), &book()).rows, [[1, 3]]);
    assert_eq!(answered(&typed.lines(), &book()).rows, [[1, 3]]);
}

#[test]
fn it_is_one_plan_line() {
    let lines = [
        Line::Table(0),
        Line::Last(1),
        Line::Var(1),
        Line::Table(0),
        Line::Last(0),
        Line::Join,
        Line::Fix(1),
        Line::Last(1),
    ];
    let held = Query::of(&lines).unwrap();
    let operands = Operands { left: 8, right: 4, left_columns: vec![0, 1], right_columns: vec![0, 1] };
    let due = [
        (0, Op::Table { table: 0 }),
        (1, Op::Last { from: 0, column: 1 }),
        (3, Op::Table { table: 0 }),
        (4, Op::Last { from: 3, column: 0 }),
        (6, Op::Start { delta: 8, from: 1, path: 1 }),
        (5, Op::Join(operands)),
        (6, Op::Again { delta: 8, from: 5, path: 1 }),
        (7, Op::Last { from: 6, column: 1 }),
    ];
    let plan: Vec<PlanLine> = due.into_iter().map(|(to, op)| PlanLine { to, op }).collect();
    assert_eq!(held.compile(&book()).as_ref(), Ok(&plan));
    assert_eq!(panel::compile(&held, &book()), Ok(plan));
}

#[test]
fn it_is_read_as_it_is_typed() {
    let sheet = |line: &str| format!("guide=1\nnodes=2\ntable=0\n{line}\n").into_bytes();
    for column in 0..8 {
        let text = sheet(&format!("last={column}"));
        let read = Query::read(&text).unwrap();
        assert_eq!(read.lines(), [Line::Table(0), Line::Last(column)]);
        assert_eq!(panel::read(&text), Ok(read));
    }
    for line in ["last=8", "last=01", "last=", "last=1,2", "last", "lasts=1"] {
        assert_eq!(Query::read(&sheet(line)), refused(1, 4), "{line}");
        assert_eq!(panel::read(&sheet(line)), refused(1, 4), "{line}");
    }
}

#[test]
fn its_code_is_16_in_queries_and_plans() {
    let (mut sheet, mut tables, mut plan) = ([0; 1 + 3 * 128], [0; 1 + 2 * 16], [9; 1 + 7 * 128]);
    sheet[..7].copy_from_slice(&[2, 1, 0, 0, 16, 1, 0]);
    tables[..3].copy_from_slice(&[1, 3, 0]);
    let mut compile = |sheet: &[u32]| {
        // SAFETY: each pointer and length is that of one slice, and the written one is borrowed here alone.
        unsafe {
            calls::capeshard_compile(
                sheet.as_ptr(),
                sheet.len(),
                tables.as_ptr(),
                tables.len(),
                [].as_ptr(),
                0,
                128,
                plan.as_mut_ptr(),
                plan.len(),
            )
        }
    };
    assert_eq!(compile(&sheet), 0);
    for (code, column) in [(16, 8), (16, u32::MAX), (17, 1), (14, 1)] {
        sheet[4..6].copy_from_slice(&[code, column]);
        assert_eq!(compile(&sheet), 1 << 32 | 2);
    }
    assert_eq!(plan[..15], [2, 1, 0, 0, 0, 0, 0, 0, 16, 1, 0, 1, 0, 0, 0]);
}
