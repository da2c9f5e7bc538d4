//! The wall panel beside the desk: its limits, and queries that serve both.
mod common;

use capeshard::{calls, panel, Database, Line, Query, Table};
use common::{book, query, refused, REACH};

/// Reach under filters that keep every row: so many nodes in all.
fn reach_of(nodes: usize) -> Query {
    query(&vec![Line::Max(0, u32::MAX); nodes - REACH.len()])
}

#[test]
fn both_answer_alike() {
    for nodes in [REACH.len(), panel::NODES] {
        let query = reach_of(nodes);
        assert_eq!(panel::check(&query, &book()), Ok(()));
        assert_eq!(panel::compile(&query, &book()), query.compile(&book()));
        let answer = panel::run(&query, &book(), 1_000).unwrap();
        assert_eq!(answer.rows, [[1, 2], [1, 3], [2, 3]]);
        assert_eq!(query.run(&book(), 24, 1_000), Ok(answer));
    }
    assert_eq!(panel::run(&query(&[]), &book(), 15), query(&[]).run(&book(), 24, 15));
    assert_eq!(panel::run(&query(&[]), &book(), 14), refused(19, 0));
}

#[test]
fn one_node_more_is_refused() {
    let long = reach_of(panel::NODES + 1);
    assert_eq!(long.check(&book()), Ok(()));
    assert_eq!(panel::check(&long, &book()), refused(2, 0));
    assert_eq!(panel::compile(&long, &book()), refused(2, 0));
    assert_eq!(panel::run(&long, &book(), 1_000), refused(2, 0));
    let mut held = long.clone();
    assert_eq!(panel::rewrite(&mut held, &book(), 1, 11), refused(2, 0));
    assert_eq!(held, long);
    assert_eq!(held.rewrite(&book(), 1, 11), Ok(()));
}

#[test]
fn a_longer_text_is_refused() {
    let text = |nodes: usize| format!("guide=1\nnodes={nodes}\nfact=0,0\n{}", "eq=0,0\n".repeat(nodes - 1));
    let read = panel::read(text(panel::NODES).as_bytes()).unwrap();
    assert_eq!(read.lines().len(), panel::NODES);
    assert_eq!(Query::read(text(panel::NODES).as_bytes()), Ok(read));
    let long = text(panel::NODES + 1);
    assert_eq!(panel::read(long.as_bytes()), refused(2, 2));
    assert_eq!(panel::read((long + "\n").as_bytes()), refused(1, panel::NODES as u32 + 4));
}

#[test]
fn one_row_more_is_refused() {
    let book = |rows: usize| {
        let rows = (0..rows as u32).map(|value| vec![value]).collect();
        Database::of(&[Table { columns: vec![0], rows }]).unwrap()
    };
    let table = Query::of(&[Line::Table(0)]).unwrap();
    let answer = panel::run(&table, &book(panel::ROWS), 1).unwrap();
    assert_eq!(answer.rows.len(), panel::ROWS);
    assert_eq!(table.run(&book(panel::ROWS), panel::ROWS, 1), Ok(answer));
    let more = panel::ROWS + 1;
    assert_eq!(panel::run(&table, &book(more), 1), refused(18, 0));
    assert_eq!(table.run(&book(more), more, 1).unwrap().rows.len(), more);
}

#[test]
fn steps_by_turns_give_one_query() {
    let first = query(&[Line::Eq(0, 1), Line::Ne(0, 2)]);
    let (mut desk, mut turns) = (first.clone(), first.clone());
    for node in [11, 12] {
        assert_eq!(desk.rewrite(&book(), 1, node), Ok(()));
    }
    assert_eq!(panel::rewrite(&mut turns, &book(), 1, 12), refused(12, 0));
    assert_eq!(turns, first);
    assert_eq!(panel::rewrite(&mut turns, &book(), 1, 11), Ok(()));
    assert_eq!(turns.rewrite(&book(), 1, 12), Ok(()));
    assert_eq!(turns, desk);
    assert_eq!(panel::run(&turns, &book(), 1_000).unwrap().rows, first.run(&book(), 24, 1_000).unwrap().rows);
}

#[test]
fn the_workspace_is_what_the_deepest_query_needs() {
    const FIXES: usize = (panel::NODES - 1) / 2;
    let loops = (0..FIXES as u32).flat_map(|v| [Line::Var(v), Line::Fix(v)]);
    let lines: Vec<Line> = [Line::Fact(0, 0)].into_iter().chain(loops).chain([Line::Eq(0, 0)]).collect();
    assert_eq!(lines.len(), panel::NODES);
    let deepest = Query::of(&lines).unwrap();
    let empty = Database::of(&[]).unwrap();
    assert_eq!(panel::run(&deepest, &empty, 1_000).unwrap().rows, [[0]]);

    let (mut sheet, tables) = ([0; 1 + 3 * 128], [0; 1 + 2 * 16]);
    let loops = (0..FIXES as u32).flat_map(|v| [2, v, 0, 13, v, 0]);
    let flat = [panel::NODES as u32, 3, 0, 0].into_iter().chain(loops).chain([7, 0, 0]);
    sheet.iter_mut().zip(flat).for_each(|(entry, number)| *entry = number);
    let run = |entries: usize| {
        let (mut workspace, mut answer, mut told) = (vec![9; entries], [0; 8], [0; 3]);
        // SAFETY: each pointer and length is that of one slice, and the written ones are borrowed here alone.
        let status = unsafe {
            calls::capeshard_panel_run(
                sheet.as_ptr(),
                sheet.len(),
                tables.as_ptr(),
                tables.len(),
                [].as_ptr(),
                0,
                1_000,
                workspace.as_mut_ptr(),
                workspace.len(),
                answer.as_mut_ptr(),
                answer.len(),
                told.as_mut_ptr(),
                told.len(),
            )
        };
        (status, workspace)
    };
    assert_eq!(run(panel::WORKSPACE), (0, vec![0; panel::WORKSPACE]));
    assert_eq!(run(panel::WORKSPACE - 1), (17 << 32, vec![9; panel::WORKSPACE - 1]));
}
