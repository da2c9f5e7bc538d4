//! The wall panel: 32 nodes and 33, 64 rows and 65, and its workspace.

use super::{doors, reach_and, run_of, table, values, REACH};
use crate::panel;
use crate::text::{nodes, print_query};
use crate::value::{Database, Node, Query, Refusal, COLUMNS};

pub fn examples() -> Vec<(&'static str, bool)> {
    [reach(), texts(), longer_queries(), rows(), deepest()].concat()
}

/// With the workspace and the answer slice that are enough for every query.
fn panel_run_of(database: &Database, query: &Query, budget: u32) -> Result<(Vec<u32>, u32), u32> {
    let mut workspace = vec![1; panel::WORKSPACE];
    let mut slots = vec![9; COLUMNS * panel::ROW_LIMIT as usize];
    let told = panel::run(database, query, budget, &mut workspace, &mut slots);
    told.map(|told| values(&told, &slots)).map_err(|refusal| refusal.number)
}

/// Reach under filters that keep every row: so many nodes in all.
fn reach_of(count: usize) -> Query {
    reach_and(&"max=0,9 ".repeat(count - nodes(REACH).len()))
}

fn reach() -> Vec<(&'static str, bool)> {
    let database = doors(&[[1, 2], [2, 3]]);
    let all = || vec![1, 2, 1, 3, 2, 3];
    let moved = panel::rewrite(&database, &reach_and("eq=0,1"), 1, 11);
    let rows = |run: Result<(Vec<u32>, u32), u32>| run.map(|(rows, _)| rows);
    vec![
        ("Reach on the panel", panel_run_of(&database, &reach_and(""), 15) == Ok((all(), 15))),
        ("Reach on the panel, allowance 14", panel_run_of(&database, &reach_and(""), 14) == Err(19)),
        (
            "kind 1 on the panel, run at the desk",
            moved.is_ok_and(|moved| rows(run_of(&database, &moved, 24, 1000)) == Ok(vec![1, 2, 1, 3])),
        ),
    ]
}

fn texts() -> Vec<(&'static str, bool)> {
    let text = |count: usize| print_query(&reach_of(count));
    let refused = |text: &[u8], number: u32, place: usize| {
        panel::read(text).err() == Some(Refusal { number, place: place as u32 })
    };
    let last = text(33).len() - "max=0,9\n".len();
    vec![
        ("32 nodes of a text", panel::read(&text(32)).is_ok_and(|read| read.lines() == reach_of(32).lines())),
        ("33 nodes of a text", refused(&text(33), 2, 2)),
        ("128 nodes of a text", refused(&text(128), 2, 2)),
        ("1 before 2, a byte after 33 nodes", refused(&[&text(33)[..], b"0"].concat(), 1, 2 + 33 + 1)),
        ("1 before 2, the last of 33 nodes missing", refused(&text(33)[..last], 1, 2 + 33)),
    ]
}

/// Check, plan, step and run of a value give one refusal.
fn every_call_refuses(database: &Database, query: &Query, number: u32, place: u32) -> bool {
    let refusal = Some(Refusal { number, place });
    let (mut workspace, mut slots) = ([1; panel::WORKSPACE], [9; COLUMNS]);
    panel::check(database, query).err() == refusal
        && panel::compile(database, query).err() == refusal
        && panel::rewrite(database, query, 1, 11).err() == refusal
        && panel::run(database, query, 1000, &mut workspace, &mut slots).err() == refusal
        && workspace == [1; panel::WORKSPACE]
        && slots == [9; COLUMNS]
}

fn longer_queries() -> Vec<(&'static str, bool)> {
    let database = doors(&[[1, 2], [2, 3]]);
    let (most, longer) = (reach_of(32), reach_of(33));
    let mut off_the_form = longer.clone();
    off_the_form.nodes[0] = Node::Drop(COLUMNS as u8);
    let several_roots = Query::new(&nodes(&"table=0 ".repeat(33)), 128);
    let mut short = database.clone();
    short.store.clear();
    let desk = run_of(&database, &most, 24, 1000);
    vec![
        ("32 nodes of a value", desk.is_ok() && panel_run_of(&database, &most, 1000) == desk),
        ("33 nodes of a value", every_call_refuses(&database, &longer, 2, 0)),
        ("33 nodes at the desk", run_of(&database, &longer, 24, 1000).is_ok()),
        ("2 before 1", every_call_refuses(&database, &off_the_form, 2, 0)),
        ("2 before 3", every_call_refuses(&database, &several_roots, 2, 0)),
        ("11 before 2", every_call_refuses(&short, &longer, 11, 0)),
    ]
}

fn rows() -> Vec<(&'static str, bool)> {
    // A chain of so many doors, which leads from its first room to as many others.
    let chain = |doors: u32| {
        let rows: Vec<[u32; 2]> = (0..doors).map(|room| [room, room + 1]).collect();
        Database::stored(&[table([0, 1], &rows)], 0)
    };
    let every_door = Query::new(&nodes("table=0"), 128);
    let every_room = Query::new(&nodes(&format!("fact=0,0 copy=0,1 {} drop=0", &REACH["table=0 ".len()..])), 128);
    let both = |doors: u32, query: &Query| {
        let desk = run_of(&chain(doors), query, 64, 1000);
        desk.is_ok() && panel_run_of(&chain(doors), query, 1000) == desk
    };
    let desk_alone = |doors: u32, query: &Query| {
        run_of(&chain(doors), query, 65, 1000).is_ok() && panel_run_of(&chain(doors), query, 1000) == Err(18)
    };
    vec![
        ("64 rows of a table on the panel", both(64, &every_door)),
        ("65 rows of a table on the panel", desk_alone(65, &every_door)),
        ("64 rows of a fix on the panel", both(63, &every_room)),
        ("65 rows of a fix on the panel", desk_alone(64, &every_room)),
    ]
}

/// The most registers of 32 nodes: as many fixes as there can be.
fn deepest() -> Vec<(&'static str, bool)> {
    let fixes: String = (0..panel::FIXES).map(|v| format!("var={v} fix={v} ")).collect();
    let query = Query::new(&nodes(&format!("fact=0,0 {fixes} eq=0,0")), 128);
    let with = |entries: usize| {
        let (mut workspace, mut slots) = (vec![3; entries], [9; COLUMNS]);
        let result = panel::run(&doors(&[]), &query, 1000, &mut workspace, &mut slots);
        (result.map(|told| told.rows).map_err(|refusal| refusal.number), workspace)
    };
    let short = panel::WORKSPACE - 1;
    vec![
        ("the deepest query has 32 nodes", query.count == 32),
        ("the deepest query meets the workspace", with(panel::WORKSPACE) == (Ok(1), vec![0; panel::WORKSPACE])),
        ("the deepest query lacks one entry", with(short) == (Err(17), vec![3; short])),
    ]
}
