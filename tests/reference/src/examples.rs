//! Worked examples: the starred cases, and what the cases of `answer` do not show (exact queries and plans, lent slices).

mod allowance;
mod comes_home;
mod in_one_piece;
mod last_issues;
mod on_the_panel;
mod ordinary_lines;
mod paths;
mod pauses;

use crate::algebra::{Columns, Pairing, Relation};
use crate::answer::{BUDGET, ROW_LIMIT};
use crate::check::check;
use crate::plan::{plan, Line, Operation};
use crate::rewrite::rewrite;
use crate::run::{run, workspace_entries, Answer};
use crate::selfcheck::Outcome;
use crate::text::nodes;
use crate::value::{Database, Query, Refusal, COLUMNS};

pub fn examples() -> Vec<Outcome> {
    let outcome = |(name, holds): (&str, bool)| {
        let result = if holds { Ok(String::new()) } else { Err("does not hold".to_string()) };
        (format!("example: {name}"), result)
    };
    let base = [starred(), exact_queries(), exact_plans(), lent()].concat();
    let requests = [on_the_panel::examples(), in_one_piece::examples(), comes_home::examples(), paths::examples()];
    let later = [allowance::examples(), last_issues::examples(), ordinary_lines::examples(), pauses::examples()];
    [base, requests.concat(), later.concat()].concat().into_iter().map(outcome).collect()
}

const REACH: &str = "table=0 var=1 copy=1,2 drop=1 table=0 copy=0,2 drop=0 pair=join drop=2 fix=1";

fn reach_and(more: &str) -> Query {
    Query::new(&nodes(&format!("{REACH} {more}")), 128)
}

fn table(columns: [u8; 2], rows: &[[u32; 2]]) -> (Columns, Relation) {
    (Columns::from(columns), rows.iter().map(|row| columns.into_iter().zip(*row).collect()).collect())
}

fn doors(rows: &[[u32; 2]]) -> Database {
    Database::stored(&[table([0, 1], rows), table([0, 3], &[[1, 4], [4, 5]])], 0)
}

fn run_of(database: &Database, query: &Query, row_limit: u32, budget: u32) -> Result<(Vec<u32>, u32), u32> {
    let mut workspace = vec![1; workspace_entries(2 * query.nodes.len(), row_limit.min(4096))];
    // Room for the answer of every example.
    let mut slots = vec![9; COLUMNS * 80];
    let told = run(database, query, row_limit, budget, &mut workspace, &mut slots);
    told.map(|told| values(&told, &slots)).map_err(|refusal| refusal.number)
}

/// The values of the rows, a column after the other, and the lines run.
fn values(told: &Answer, slots: &[u32]) -> (Vec<u32>, u32) {
    let row = |slots: &[u32]| told.columns.iter().map(|c| slots[usize::from(*c)]).collect::<Vec<_>>();
    (slots.chunks(COLUMNS).take(told.rows as usize).flat_map(row).collect(), told.ran)
}

fn starred() -> Vec<(&'static str, bool)> {
    let database = doors(&[[1, 2], [2, 3]]);
    let reach = reach_and("");
    let all = || vec![1, 2, 1, 3, 2, 3];
    let step =
        |more: &str, kind: u32, node: u32| rewrite(&database, &reach_and(more), kind, node).map_err(|r| r.number);
    let rows = |query: Result<Query, u32>| query.and_then(|query| run_of(&database, &query, 24, 1000)).map(|ran| ran.0);
    vec![
        ("Reach", run_of(&database, &reach, ROW_LIMIT, BUDGET) == Ok((all(), 15))),
        ("Reach, allowance 15", run_of(&database, &reach, 24, 15) == Ok((all(), 15))),
        ("Reach, allowance 14", run_of(&database, &reach, 24, 14) == Err(19)),
        ("Reach, L = 3", run_of(&database, &reach, 3, 1000) == Ok((all(), 15))),
        ("Reach, L = 2", run_of(&database, &reach, 2, 1000) == Err(18)),
        ("Reach, empty table", run_of(&doors(&[]), &reach, 24, 1000) == Ok((vec![], 5))),
        (
            "Reach, door cycle",
            run_of(&doors(&[[1, 2], [2, 1]]), &reach, 24, 1000) == Ok((vec![1, 1, 1, 2, 2, 1, 2, 2], 15)),
        ),
        ("eq=0,1 and kind 1", rows(step("eq=0,1", 1, 11)) == Ok(vec![1, 2, 1, 3])),
        ("eq=1,3 and kind 1", step("eq=1,3", 1, 11) == Err(13)),
        ("drop=0 and kind 5", rows(step("drop=0", 5, 11)) == Ok(vec![2, 3])),
        ("drop=1 and kind 5", step("drop=1", 5, 11) == Err(14)),
        ("fact=2,7 and kind 2", step("fact=2,7 pair=join", 2, 12) == Err(14)),
    ]
}

fn exact_queries() -> Vec<(&'static str, bool)> {
    let database = doors(&[[1, 2], [2, 3]]);
    let becomes = |before: &str, kind: u32, node: u32, after: &str| {
        let query = Query::new(&nodes(before), 128);
        let rewritten = rewrite(&database, &query, kind, node);
        rewritten == Ok(Query::new(&nodes(after), 128))
    };
    let gives = |before: &str, kind: u32, node: u32, number: u32| {
        rewrite(&database, &Query::new(&nodes(before), 128), kind, node) == Err(Refusal { number, place: 0 })
    };
    let step = "var=1 copy=1,2 drop=1 table=0 copy=0,2 drop=0 pair=join drop=2";
    let right_step = "copy=3,2 drop=3 table=1 copy=0,2 drop=0 pair=join drop=2";
    let two = format!("table=0 {step} fix=1 table=1 var=2 {right_step} fix=2 pair=join");
    let merged = format!("table=0 table=1 pair=join {step} var=1 {right_step} pair=union fix=1");
    let left_unstable = "table=0 var=1 drop=1 copy=0,1 fix=1 table=0 var=2 fix=2 pair=join";
    vec![
        (
            "kind 1 writes seed, line, step, fix",
            becomes(&format!("{REACH} eq=0,1 drop=1"), 1, 11, &format!("table=0 eq=0,1 {step} fix=1 drop=1")),
        ),
        (
            "kind 2 writes seed, other, pair, step, fix",
            becomes(&format!("{REACH} fact=0,1 pair=join"), 2, 12, &format!("table=0 fact=0,1 pair=join {step} fix=1")),
        ),
        (
            "kind 3 leaves the operand left of the seed",
            becomes(&format!("fact=0,1 {REACH} pair=join"), 3, 12, &format!("fact=0,1 table=0 pair=join {step} fix=1")),
        ),
        (
            "kind 4 writes seed, other, pair, step, fix",
            becomes(
                &format!("{REACH} fact=0,1 pair=except"),
                4,
                12,
                &format!("table=0 fact=0,1 pair=except {step} fix=1"),
            ),
        ),
        (
            "kind 5 writes seed, line, step, fix",
            becomes(&format!("{REACH} drop=0"), 5, 11, &format!("table=0 drop=0 {step} fix=1")),
        ),
        ("kind 6 keeps the left number", becomes(&two, 6, 21, &merged)),
        ("kind 6 tests the left side", gives(left_unstable, 6, 9, 13)),
        (
            "kind 6 tests the right side",
            gives("table=0 var=2 fix=2 table=0 var=1 drop=1 copy=0,1 fix=1 pair=join", 6, 9, 13),
        ),
        ("13 comes before 14", gives(&format!("{REACH} table=0 copy=1,2 pair=join"), 2, 13, 13)),
        ("13 comes before 15", gives("table=0 table=0 var=1 drop=1 copy=0,1 fix=1 var=2 pair=join fix=2", 2, 8, 13)),
        (
            "14 comes before 15",
            gives(
                "fact=5,1 table=0 var=1 fact=5,2 pair=join drop=5 fix=1 var=2 pair=join drop=0 drop=1 fix=2",
                2,
                9,
                14,
            ),
        ),
        ("15 at an outer variable", gives("fact=0,1 table=0 var=1 fix=1 var=2 pair=join drop=1 fix=2", 2, 6, 15)),
        ("12 for node 0", gives(REACH, 1, 0, 12)),
        ("12 for a node over the count", gives(REACH, 1, 11, 12)),
        ("12 for kind 0", gives(&format!("{REACH} eq=1,3"), 0, 11, 12)),
    ]
}

fn exact_plans() -> Vec<(&'static str, bool)> {
    let line = |operation, destination, sources: &[usize], path| Line {
        operation,
        destination,
        sources: sources.to_vec(),
        path,
    };
    let of = |text: &str| {
        let query = Query::new(&nodes(text), 128);
        plan(&check(&query, doors(&[]).schema()).expect("a checked query").root)
    };
    let join = Operation::Pair(Pairing::Join);
    let reach = vec![
        line(Operation::Table(0), 0, &[], 0),
        line(Operation::Table(0), 4, &[], 0),
        line(Operation::Copy(0, 2), 5, &[4], 0),
        line(Operation::Drop(0), 6, &[5], 0),
        line(Operation::Start { delta: 10 }, 9, &[0], 4),
        line(Operation::Copy(1, 2), 2, &[10], 0),
        line(Operation::Drop(1), 3, &[2], 0),
        line(join, 7, &[3, 6], 0),
        line(Operation::Drop(2), 8, &[7], 0),
        line(Operation::Again { delta: 10 }, 9, &[8], 4),
    ];
    // A closed operand left of the path runs first, a fix beside the path runs whole before start.
    let nested = vec![
        line(Operation::Table(0), 0, &[], 0),
        line(Operation::Fact(0, 1), 1, &[], 0),
        line(Operation::Table(0), 3, &[], 0),
        line(Operation::Start { delta: 9 }, 5, &[3], 0),
        line(Operation::Again { delta: 9 }, 5, &[9], 0),
        line(Operation::Start { delta: 10 }, 8, &[0], 2),
        line(join, 6, &[10, 5], 0),
        line(join, 7, &[1, 6], 0),
        line(Operation::Again { delta: 10 }, 8, &[7], 2),
    ];
    vec![
        ("the plan of Reach", of(REACH).lines == reach),
        (
            "the plan of a fix in a step",
            of("table=0 fact=0,1 var=3 table=0 var=2 fix=2 pair=join pair=join fix=3").lines == nested,
        ),
    ]
}

fn lent() -> Vec<(&'static str, bool)> {
    let database = doors(&[[1, 2], [2, 3]]);
    let reach = reach_and("");
    let with = |row_limit: u32, entries: usize, slots: usize| {
        let (mut workspace, mut answer) = (vec![3; entries], vec![5; slots]);
        let result = run(&database, &reach, row_limit, 1000, &mut workspace, &mut answer);
        (result.err().map(|refusal| refusal.number), workspace, answer)
    };
    let needed = 11 * (1 + 8 * 3);
    let rows = [1, 2, 0, 0, 0, 0, 0, 0, 1, 3, 0, 0, 0, 0, 0, 0, 2, 3, 0, 0, 0, 0, 0, 0];
    let past = [&rows[..], &[5, 5]].concat();
    vec![
        ("workspace exactly met", with(3, needed, 24) == (None, vec![0; needed], rows.to_vec())),
        ("workspace lacking one entry", with(3, needed - 1, 24) == (Some(17), vec![3; needed - 1], vec![5; 24])),
        ("entries past the rows stay", with(3, needed + 9, 26) == (None, vec![0; needed + 9], past)),
        ("answer slice lacking one entry", with(3, needed, 23) == (Some(17), vec![0; needed], vec![5; 23])),
        ("18 clears the workspace", with(2, needed, 24) == (Some(18), vec![0; needed], vec![5; 24])),
        ("L = 0", with(0, needed, 24) == (Some(16), vec![3; needed], vec![5; 24])),
        ("L = 4097", with(4097, needed, 24) == (Some(16), vec![3; needed], vec![5; 24])),
        ("L = 4096", with(4096, 11 * (1 + 8 * 4096), 24).0.is_none()),
    ]
}
