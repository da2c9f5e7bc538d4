//! How large an allowance is enough: the product beside the plan, the runs with it, and what is refused before it.
mod common;

use capeshard::{calls, panel, Database, Line, Query, Table, NODES, ROWS};
use common::{book, query, refused, REACH};

/// Reach has a plan line for each node but its var, and a start.
const LINES: usize = REACH.len() - 1 + 1;

#[test]
fn the_product_stands_beside_the_plan() {
    let reach = query(&[]);
    for rows in [1, 3, 24, ROWS] {
        let told = reach.allowance(&book(), rows).unwrap();
        assert_eq!(told.plan, reach.compile(&book()).unwrap());
        assert_eq!(told.budget as usize, LINES * rows);
    }
    let told = panel::allowance(&reach, &book()).unwrap();
    assert_eq!(told.plan, panel::compile(&reach, &book()).unwrap());
    assert_eq!(told.budget as usize, LINES * panel::ROWS);
}

#[test]
fn the_product_counts_in_the_split_query() {
    let typed = Query::of(&[&REACH[..9], &[Line::Union, Line::Mu(1)]].concat()).unwrap();
    assert_eq!(typed.allowance(&book(), 24), query(&[]).allowance(&book(), 24));
    assert_eq!(panel::allowance(&typed, &book()), panel::allowance(&query(&[]), &book()));
}

#[test]
fn a_run_with_the_product_is_not_refused_with_19() {
    let reach = query(&[]);
    let run = |rows| reach.run(&book(), rows, reach.allowance(&book(), rows).unwrap().budget);
    assert_eq!(run(24).unwrap().ran, 15);
    assert_eq!(run(3), run(24));
    assert_eq!(run(2), refused(18, 0));
    let answer = panel::run(&reach, &book(), panel::allowance(&reach, &book()).unwrap().budget).unwrap();
    assert_eq!(run(24), Ok(answer));
}

#[test]
fn one_line_less_than_a_run_needs_is_refused_with_19() {
    let lines = [Line::Table(0), Line::Eq(0, 1), Line::Copy(1, 2), Line::Drop(1)];
    let once = Query::of(&lines).unwrap();
    let door = Database::of(&[Table { columns: vec![0, 1], rows: vec![vec![1, 2]] }]).unwrap();
    // Each line runs once, and with one row that is the whole product.
    let product = once.allowance(&door, 1).unwrap().budget;
    assert_eq!(once.run(&door, 1, product).unwrap().ran, product);
    assert_eq!(once.run(&door, 1, product - 1), refused(19, 0));
    assert_eq!(panel::run(&once, &door, product - 1), refused(19, 0));
}

/// From 0 on along a chain, one room a round, under filters that keep every room.
#[test]
fn a_recursion_comes_near_the_product() {
    let rooms = panel::ROWS as u32;
    let doors = (1..rooms).map(|room| vec![room - 1, room]).collect();
    let chain = Database::of(&[Table { columns: vec![0, 1], rows: doors }]).unwrap();
    let hop =
        [Line::Var(0), Line::Copy(1, 2), Line::Drop(1), Line::Table(0), Line::Copy(0, 2), Line::Drop(0), Line::Join];
    let near = |nodes: usize| {
        let filters = vec![Line::Ne(1, rooms); nodes - hop.len() - 3];
        Query::of(&[&[Line::Fact(1, 0)], &hop[..], &[Line::Drop(2)], &filters, &[Line::Fix(0)]].concat()).unwrap()
    };
    for nodes in [panel::NODES, NODES] {
        let near = near(nodes);
        let product = near.allowance(&chain, panel::ROWS).unwrap().budget;
        let answer = near.run(&chain, panel::ROWS, product).unwrap();
        assert_eq!(answer.rows.len(), panel::ROWS);
        assert!(4 * product < 5 * answer.ran && answer.ran < product, "{} lines of {product}", answer.ran);
        assert_eq!(near.run(&chain, panel::ROWS, answer.ran - 1), refused(19, 0));
        if nodes == panel::NODES {
            assert_eq!(panel::allowance(&near, &chain).unwrap().budget, product);
            assert_eq!(panel::run(&near, &chain, product), Ok(answer));
        }
    }
}

#[test]
fn row_limits_refuse_at_the_desk() {
    for rows in [0, ROWS + 1, usize::MAX] {
        assert_eq!(query(&[]).allowance(&book(), rows), refused(16, 0), "{rows} rows");
    }
}

#[test]
fn the_book_comes_first_and_the_sheet_before_the_row_limit() {
    let descending = Database::of(&[Table { columns: vec![0], rows: vec![vec![2], vec![1]] }]).unwrap();
    let (dropped, long) = (query(&[Line::Drop(5)]), query(&[Line::Max(0, 9); panel::NODES]));
    assert_eq!(dropped.allowance(&descending, 0), refused(11, 0));
    assert_eq!(dropped.allowance(&book(), 0), refused(9, 11));
    assert_eq!(Query::of(&[Line::Join]).unwrap().allowance(&book(), 0), refused(3, 1));
    assert_eq!(Query::of(&[]).unwrap().allowance(&book(), 0), refused(2, 0));
    assert_eq!(panel::allowance(&long, &descending), refused(11, 0));
    assert_eq!(panel::allowance(&long, &book()), refused(2, 0));
    assert_eq!(panel::allowance(&dropped, &book()), refused(9, 11));
}

#[test]
fn one_entry_is_written_and_nothing_by_a_refusal() {
    const ROOM: usize = 1 + 7 * 128;
    let (mut sheet, mut tables) = ([0; 1 + 3 * 128], [0; 1 + 2 * 16]);
    sheet[..4].copy_from_slice(&[1, 1, 0, 0]);
    tables[..3].copy_from_slice(&[1, 3, 1]);
    let store = [1, 2, 0, 0, 0, 0, 0, 0];
    let asked = |rows: usize, plan: &mut [u32], allowance: &mut [u32]| {
        // SAFETY: each pointer and length is that of one slice, and the written ones are borrowed here alone.
        unsafe {
            calls::capeshard_allowance(
                sheet.as_ptr(),
                sheet.len(),
                tables.as_ptr(),
                tables.len(),
                store.as_ptr(),
                store.len(),
                128,
                rows,
                plan.as_mut_ptr(),
                plan.len(),
                allowance.as_mut_ptr(),
                allowance.len(),
            )
        }
    };
    let (mut plan, mut allowance) = ([9; ROOM], [9; 3]);
    assert_eq!(asked(5, &mut plan[1..], &mut allowance), 17 << 32);
    assert_eq!(asked(0, &mut plan, &mut []), 17 << 32);
    assert_eq!(asked(0, &mut plan, &mut allowance), 16 << 32);
    assert_eq!((plan, allowance), ([9; ROOM], [9; 3]));
    assert_eq!(asked(5, &mut plan, &mut allowance), 0);
    assert_eq!(allowance, [5, 9, 9]);
    assert_eq!(plan[..8], [1, 1, 0, 0, 0, 0, 0, 0]);
    assert_eq!(plan[8..], [9; ROOM - 8]);
}
