//! The commentary that replaces another: exactly the rows that a `last` keeps, the place of each refusal, and steps at it and
//! elsewhere.

use super::{doors, run_of, REACH};
use crate::algebra::{drop, last, Columns, Pairing, Relation, Row};
use crate::check::check;
use crate::meaning::meaning_of;
use crate::panel;
use crate::plan::{plan, Line, Operation};
use crate::rewrite::rewrite;
use crate::split::split;
use crate::term::Term;
use crate::text::{nodes, print_node, read_node};
use crate::value::{refuse, Database, Node, Query, Refusal};

pub fn examples() -> Vec<(&'static str, bool)> {
    let kept = [issues(), columns(), rows_added(), recursions(), in_one_piece()].concat();
    [kept, forms(), places(), at_it(), elsewhere(), plans()].concat()
}

/// The step of Reach.
const STEP: &str = "var=1 copy=1,2 drop=1 table=0 copy=0,2 drop=0 pair=join drop=2";

fn query(lines: &str) -> Query {
    Query::new(&nodes(lines), 128)
}

/// Works, languages and issues in columns 0, 3 and 7.
fn recordings(rows: &[[u32; 3]]) -> Database {
    let columns = [0, 3, 7];
    let relation = rows.iter().map(|row| columns.into_iter().zip(*row).collect()).collect();
    Database::stored(&[(Columns::from(columns), relation)], 0)
}

/// Whether a finished run and the meaning of these lines have these values, row after row.
fn gives(database: &Database, lines: &str, values: &[u32]) -> bool {
    let rows = meaning_of(&query(lines), &database.relations(), 80);
    let meant = rows.map(|rows| rows.iter().flat_map(|row| row.values().copied().collect::<Vec<_>>()).collect());
    let ran = run_of(database, &query(lines), 80, 1000).map(|(values, _)| values);
    ran == Ok(values.to_vec()) && meant == Some(values.to_vec())
}

fn issues() -> Vec<(&'static str, bool)> {
    let book = recordings(&[[1, 1, 1], [1, 1, 2], [1, 1, 4], [1, 2, 3], [2, 1, 0], [3, 1, 0], [3, 1, 1]]);
    let kept = |rows: &[[u32; 3]], due: &[[u32; 3]]| gives(&recordings(rows), "table=0 last=7", due.as_flattened());
    let most = u32::MAX;
    vec![
        ("the newest of several issues", gives(&book, "table=0 last=7", &[1, 1, 4, 1, 2, 3, 2, 1, 0, 3, 1, 1])),
        ("nothing to keep", kept(&[], &[])),
        ("a single row", kept(&[[1, 1, 9]], &[[1, 1, 9]])),
        ("the only issue is unknown", kept(&[[1, 1, 0]], &[[1, 1, 0]])),
        ("an unknown issue is less than any other", kept(&[[1, 1, 0], [1, 1, 1]], &[[1, 1, 1]])),
        ("an unknown other column agrees with itself", kept(&[[0, 0, 1], [0, 0, 2]], &[[0, 0, 2]])),
        ("and with nothing else", kept(&[[0, 1, 2], [1, 0, 1], [1, 1, 3]], &[[0, 1, 2], [1, 0, 1], [1, 1, 3]])),
        ("the highest issue", kept(&[[1, 1, most - 1], [1, 1, most], [1, 2, 7]], &[[1, 1, most], [1, 2, 7]])),
        ("numbers, not digits", kept(&[[1, 1, 9], [1, 1, 10]], &[[1, 1, 10]])),
        ("no greater issue of another work", kept(&[[1, 1, 1], [2, 1, 9]], &[[1, 1, 1], [2, 1, 9]])),
        ("a second time it keeps them all", gives(&book, "table=0 last=7 last=7 drop=0 drop=3", &[0, 1, 3, 4])),
        ("a filter above it", gives(&book, "table=0 last=7 eq=7,2", &[])),
        ("a filter below it is another question", gives(&book, "table=0 eq=7,2 last=7", &[1, 1, 2])),
        ("without a column more rows agree", gives(&book, "table=0 drop=3 last=7", &[1, 4, 2, 0, 3, 1])),
    ]
}

/// Each column of a table, and relations with one column or none besides.
fn columns() -> Vec<(&'static str, bool)> {
    let book = recordings(&[[1, 1, 1], [1, 1, 2], [1, 2, 1], [1, 3, 2], [2, 1, 1], [2, 2, 2], [3, 2, 1]]);
    let one = |values: &[u32], due: &[u32]| {
        let rows: Relation = values.iter().map(|value| Row::from([(4, *value)])).collect();
        gives(&Database::stored(&[(Columns::from([4]), rows)], 0), "table=0 last=4", due)
    };
    vec![
        ("by the first column", gives(&book, "table=0 last=0", &[1, 1, 2, 1, 3, 2, 2, 1, 1, 2, 2, 2, 3, 2, 1])),
        ("by the middle column", gives(&book, "table=0 last=3", &[1, 2, 1, 1, 3, 2, 2, 1, 1, 2, 2, 2, 3, 2, 1])),
        ("by the last column", {
            gives(&book, "table=0 last=7", &[1, 1, 2, 1, 2, 1, 1, 3, 2, 2, 1, 1, 2, 2, 2, 3, 2, 1])
        }),
        (
            "by a copy of another column",
            gives(&book, "table=0 drop=3 copy=0,1 last=1 drop=1", &[1, 1, 1, 2, 2, 1, 2, 2, 3, 1]),
        ),
        ("the greatest of one column", one(&[0, 3, 12, 200], &[200])),
        ("unknown alone in one column", one(&[0], &[0])),
        ("one column without a row", one(&[], &[])),
        ("the greater of two facts", gives(&book, "fact=2,5 fact=2,8 pair=union last=2", &[8])),
        ("a fact alone", gives(&book, "fact=2,5 last=2", &[5])),
        ("every relation of one column and five values", every_relation(1, 5)),
        ("every relation of two columns and three values", every_relation(2, 3)),
        ("every relation of three columns and two values", every_relation(3, 2)),
    ]
}

/// Whether of every relation over so many columns and values a `last` keeps what is counted a second way, by each column.
fn every_relation(columns: u8, values: u32) -> bool {
    let row = |number: u32| (0..columns).map(|c| (c, number / values.pow(c.into()) % values)).collect();
    let rows: Vec<Row> = (0..values.pow(columns.into())).map(row).collect();
    (0..1usize << rows.len()).all(|chosen| {
        let relation: Relation =
            (0..rows.len()).filter(|at| chosen >> at & 1 == 1).map(|at| rows[at].clone()).collect();
        (0..columns).all(|column| last(&relation, column) == ends_of_runs(&relation, column))
    })
}

/// The rows in the order of the other columns, then of this one: of those that agree in the others, the end.
fn ends_of_runs(relation: &Relation, column: u8) -> Relation {
    let others = |row: &Row| drop(&Relation::from([row.clone()]), column);
    let mut rows: Vec<&Row> = relation.iter().collect();
    rows.sort_by_key(|row| (others(row), row[&column]));
    let is_end = |at: &usize| rows.get(at + 1).map_or(true, |next| others(next) != others(rows[*at]));
    (0..rows.len()).filter(is_end).map(|at| rows[at].clone()).collect()
}

/// Adding a row can remove what a `last` keeps, which no other filter does.
fn rows_added() -> Vec<(&'static str, bool)> {
    let (few, more) = (doors(&[[1, 2], [4, 5]]), doors(&[[1, 2], [1, 3], [4, 5]]));
    let both = |lines: &str, before: &[u32], after: &[u32]| gives(&few, lines, before) && gives(&more, lines, after);
    vec![
        ("a greater row replaces one", both("table=0 last=1", &[1, 2, 4, 5], &[1, 3, 4, 5])),
        ("a filter loses nothing", both("table=0 max=1,9", &[1, 2, 4, 5], &[1, 2, 1, 3, 4, 5])),
        ("an except can gain by it", both("fact=1,2 table=0 last=1 pair=except", &[], &[2])),
    ]
}

fn recursions() -> Vec<(&'static str, bool)> {
    let database = doors(&[[1, 2], [2, 3], [2, 4]]);
    let beside = "var=1 copy=1,2 drop=1 table=0 last=1 copy=0,2 drop=0 pair=join drop=2";
    vec![
        ("Reach over these doors", gives(&database, REACH, &[1, 2, 1, 3, 1, 4, 2, 3, 2, 4])),
        ("over a recursion, the farthest", gives(&database, &format!("{REACH} last=1"), &[1, 4, 2, 4])),
        ("over a recursion, the nearest", gives(&database, &format!("{REACH} last=0"), &[1, 2, 2, 3, 2, 4])),
        ("in a seed", gives(&database, &format!("table=0 last=1 {STEP} fix=1"), &[1, 2, 1, 3, 1, 4, 2, 4])),
        (
            "in a seed by the other column",
            gives(
                &database,
                &format!("table=0 drop=1 copy=0,1 last=0 {STEP} fix=1"),
                &[1, 1, 1, 2, 1, 3, 1, 4, 2, 2, 2, 3, 2, 4],
            ),
        ),
        (
            "in a closed operand of a step",
            gives(&database, &format!("table=0 {beside} fix=1"), &[1, 2, 1, 4, 2, 3, 2, 4]),
        ),
        (
            "over a recursion in a closed operand",
            gives(&database, &format!("fact=1,1 var=2 copy=1,0 drop=1 {REACH} last=1 pair=join drop=0 fix=2"), &[1, 4]),
        ),
        (
            "over a recursion on the right of an except",
            gives(&database, &format!("table=0 {REACH} last=1 pair=except"), &[1, 2, 2, 3]),
        ),
    ]
}

fn split_of(lines: &str) -> Result<Vec<Node>, Refusal> {
    split(&Term::of(&nodes(lines))?)
}

/// Under a `mu` it is an ordinary line.
fn in_one_piece() -> Vec<(&'static str, bool)> {
    let database = doors(&[[1, 2], [2, 3], [2, 4]]);
    let becomes = |typed: &str, due: &str| split_of(typed) == Ok(nodes(due));
    let typed = format!("table=0 last=1 {STEP} pair=union mu=1");
    let reach = format!("table=0 {STEP} pair=union mu=1");
    let refused = |lines: &str| check(&query(lines), database.schema()).err();
    vec![
        ("in a closed branch", becomes(&typed, &format!("table=0 last=1 {STEP} fix=1"))),
        ("rows from a closed branch", gives(&database, &typed, &[1, 2, 1, 3, 1, 4, 2, 4])),
        ("over a mu", gives(&database, &format!("{reach} last=1"), &[1, 4, 2, 4])),
        (
            "a union below it is no cut",
            becomes(
                "var=1 table=0 table=0 pair=union last=1 pair=union mu=1",
                "table=0 table=0 pair=union last=1 var=1 fix=1",
            ),
        ),
        ("as the whole body it leaves no closed branch", {
            split_of("table=0 var=1 pair=union last=1 mu=1") == refuse(20, 5)
        }),
        ("nor an open one", split_of("table=0 table=0 pair=union last=1 mu=1") == refuse(20, 5)),
        ("a branch with the variable under it goes to the step", {
            becomes("var=1 last=1 table=0 pair=union mu=1", "table=0 var=1 last=1 fix=1")
        }),
        ("and gets 5 there", {
            refused("var=1 last=1 table=0 pair=union mu=1") == Some(Refusal { number: 5, place: 3 })
        }),
    ]
}

fn forms() -> Vec<(&'static str, bool)> {
    let reads = |line: &str| read_node(line.as_bytes());
    let off = ["last=8", "last=07", "last=", "last=1,2", "last=a", "last", "Last=1", "last =1", "last=4294967295"];
    let value = |column: u8| Query::new(&[Node::Table(0), Node::Last(column), Node::Drop(0)], 128);
    vec![
        ("last is read and printed", {
            (0..8).all(|c| {
                reads(&format!("last={c}")) == Some(Node::Last(c)) && print_node(&Node::Last(c)) == format!("last={c}")
            })
        }),
        ("off the form of last", off.iter().all(|line| reads(line).is_none())),
        ("1 at a column over 7", {
            [8, 9, 255]
                .iter()
                .all(|c| check(&value(*c), doors(&[]).schema()).err() == Some(Refusal { number: 1, place: 2 }))
        }),
        ("column 7 is on the form", value(7).form().is_ok()),
    ]
}

/// 5 in the first pass, lowest node first, then lowest number; 9 in the second.
fn places() -> Vec<(&'static str, bool)> {
    let gets = |lines: &str, number: u32, place: u32| {
        let (query, database, due) = (query(lines), doors(&[]), Some(Refusal { number, place }));
        check(&query, database.schema()).err() == due && panel::check(&database, &query).err() == due
    };
    vec![
        ("3 without its operand", gets("last=0", 3, 1)),
        ("5 over the variable", gets("table=0 var=1 last=1 fix=1", 5, 3)),
        ("5 over a filter on the path", gets("table=0 var=1 eq=0,1 last=1 fix=1", 5, 4)),
        ("5 at the lower of two", gets("table=0 var=1 last=1 last=0 fix=1", 5, 3)),
        ("5 in the step of an inner fix", gets("table=0 var=1 table=0 var=2 last=0 fix=2 pair=join fix=1", 5, 5)),
        ("5 with a column that is missing too", gets("table=0 var=1 last=5 fix=1", 5, 3)),
        ("5 over a join with the variable", gets("table=0 var=1 table=0 pair=join last=1 fix=1", 5, 5)),
        ("4 at a lower node before 5", gets("var=2 last=0", 4, 1)),
        ("5 at an except before 5 above it", gets("table=0 table=0 var=1 pair=except last=1 fix=1", 5, 4)),
        ("6 at a lower node before 5", gets("table=0 var=1 var=1 pair=join last=1 fix=1", 6, 4)),
        ("8 at a lower node before 5", gets("table=0 table=0 var=1 pair=union last=1 fix=1", 8, 4)),
        ("5 before 7 at a higher node", gets("table=0 table=0 var=1 last=1 var=2 pair=union fix=2 fix=1", 5, 4)),
        ("5 before 8 at a higher node", gets("table=0 var=1 last=1 table=0 pair=union fix=1", 5, 3)),
        ("5 before 9 at a lower node", gets("table=0 drop=5 var=1 last=1 fix=1", 5, 4)),
        ("5 before 10 at a lower node", gets("table=9 var=1 last=1 fix=1", 5, 3)),
        ("9 without the column", gets("table=0 last=5", 9, 2)),
        ("9 without any column", gets("fact=0,1 drop=0 last=0", 9, 3)),
        ("9 at a column that was dropped", gets("table=0 drop=1 last=1", 9, 3)),
        ("9 in a seed", gets("table=0 last=3 var=1 fix=1", 9, 2)),
        ("9 beside a path", gets("table=0 var=1 table=1 last=1 pair=join fix=1", 9, 4)),
        ("9 before 10 at a higher node", gets("table=0 last=5 table=9 pair=join", 9, 2)),
        ("10 at a lower node before 9", gets("table=9 last=5", 10, 1)),
    ]
}

/// Every kind there is, and some that there are not.
const KINDS: [u32; 9] = [0, 1, 2, 3, 4, 5, 6, 7, u32::MAX];

fn at_it() -> Vec<(&'static str, bool)> {
    let database = doors(&[[1, 2], [2, 3]]);
    let step = |lines: &str, kind: u32, node: u32| rewrite(&database, &query(lines), kind, node);
    let twelve = |lines: &str, node: u32| KINDS.iter().all(|kind| step(lines, *kind, node) == refuse(12, 0));
    let over = format!("{REACH} last=0");
    vec![
        ("12 over a recursion, the column stable", twelve(&over, 11)),
        ("a filter there is moved", step(&format!("{REACH} same=0,0"), 1, 11).is_ok()),
        ("12 over a recursion, the column not stable", twelve(&format!("{REACH} last=1"), 11)),
        ("12 over a mu, at its node of the split", twelve(&format!("table=0 {STEP} pair=union mu=1 last=0"), 11)),
        ("12 over a table", twelve("table=0 last=0", 2)),
        ("12 in a seed", twelve("table=0 table=0 last=1 pair=join var=1 fix=1", 3)),
        ("12 at a filter above it", step(&format!("{over} eq=0,1"), 1, 12) == refuse(12, 0)),
        ("12 at a drop above it", step(&format!("{over} drop=0"), 5, 12) == refuse(12, 0)),
        ("12 at a join with it on the left", step(&format!("{over} fact=0,1 pair=join"), 2, 13) == refuse(12, 0)),
        ("12 at a join with it on the right", step(&format!("fact=0,1 {over} pair=join"), 3, 13) == refuse(12, 0)),
        (
            "12 at a join of it and a fix",
            step(&format!("{over} table=0 var=2 fix=2 pair=join"), 6, 15) == refuse(12, 0)
                && step(&format!("table=0 var=2 fix=2 {over} pair=join"), 6, 15) == refuse(12, 0),
        ),
        ("12 at an except of it", step(&format!("{over} fact=0,1 pair=except"), 4, 13) == refuse(12, 0)),
        ("at the panel too", panel::rewrite(&database, &query(&over), 1, 11) == refuse(12, 0)),
    ]
}

/// Accepted steps elsewhere in the sheet: the lines that they write, and the rows before and after.
fn elsewhere() -> Vec<(&'static str, bool)> {
    let database = doors(&[[1, 2], [1, 3], [2, 3], [2, 4], [3, 5]]);
    let held = |lines: &str| meaning_of(&query(lines), &database.relations(), 80);
    let becomes = |before: &str, steps: &[(u32, u32)], after: &str| {
        let made = steps.iter().try_fold(query(before), |held, (kind, node)| rewrite(&database, &held, *kind, *node));
        let ran = |lines: &str| run_of(&database, &query(lines), 80, 1000).map(|(rows, _)| rows);
        let rows = held(before);
        made == Ok(query(after))
            && rows == held(after)
            && rows.is_some_and(|rows| !rows.is_empty())
            && ran(before) == ran(after)
    };
    let gets = |before: &str, kind, node, number| rewrite(&database, &query(before), kind, node) == refuse(number, 0);
    vec![
        (
            "kind 1 below it",
            becomes(&format!("{REACH} eq=0,1 last=1"), &[(1, 11)], &format!("table=0 eq=0,1 {STEP} fix=1 last=1")),
        ),
        (
            "kind 1 above a seed with it",
            becomes(
                &format!("table=0 last=1 {STEP} fix=1 ne=0,2"),
                &[(1, 12)],
                &format!("table=0 last=1 ne=0,2 {STEP} fix=1"),
            ),
        ),
        (
            "kind 2 with it in the other operand",
            becomes(
                &format!("{REACH} table=0 last=0 drop=1 pair=join"),
                &[(2, 14)],
                &format!("table=0 table=0 last=0 drop=1 pair=join {STEP} fix=1"),
            ),
        ),
        (
            "kind 3 with it on the left",
            becomes(
                &format!("table=0 last=0 drop=1 {REACH} pair=join"),
                &[(3, 14)],
                &format!("table=0 last=0 drop=1 table=0 pair=join {STEP} fix=1"),
            ),
        ),
        (
            "kind 4 with it on the right",
            becomes(
                &format!("{REACH} table=1 last=0 drop=3 pair=except"),
                &[(4, 14)],
                &format!("table=0 table=1 last=0 drop=3 pair=except {STEP} fix=1"),
            ),
        ),
        (
            "kind 5 above a seed with it, whose column no line of the path names",
            becomes("table=0 last=0 var=1 fix=1 drop=0", &[(5, 5)], "table=0 last=0 drop=0 var=1 fix=1"),
        ),
        (
            "kind 6 with it in both seeds",
            becomes(
                "table=0 last=1 var=1 fix=1 table=1 last=3 var=2 fix=2 pair=join",
                &[(6, 9)],
                "table=0 last=1 table=1 last=3 pair=join var=1 var=1 pair=union fix=1",
            ),
        ),
        (
            "a list of steps",
            becomes(
                &format!("{REACH} table=0 last=0 drop=1 pair=join ne=0,9 last=1 last=0"),
                &[(2, 14), (1, 15)],
                &format!("table=0 table=0 last=0 drop=1 pair=join ne=0,9 {STEP} fix=1 last=1 last=0"),
            ),
        ),
        (
            "14 for a column that an operand under it has",
            gets("table=0 var=1 fact=0,1 fact=0,2 pair=union last=0 pair=join fix=1 drop=0", 5, 9, 14),
        ),
        ("13 below it", gets(&format!("{REACH} eq=1,3 last=0"), 1, 11, 13)),
    ]
}

fn plans() -> Vec<(&'static str, bool)> {
    let database = doors(&[[1, 2], [1, 3]]);
    let of = |lines: &str| plan(&check(&query(lines), database.schema()).expect("a checked query").root);
    let line =
        |operation, destination, sources: &[usize]| Line { operation, destination, sources: sources.to_vec(), path: 0 };
    // One in the seed, one beside the path, which runs before start, and one above.
    let lines = vec![
        line(Operation::Table(0), 0, &[]),
        line(Operation::Last(1), 1, &[0]),
        line(Operation::Table(0), 3, &[]),
        line(Operation::Last(0), 4, &[3]),
        Line { path: 1, ..line(Operation::Start { delta: 8 }, 6, &[1]) },
        line(Operation::Pair(Pairing::Join), 5, &[8, 4]),
        Line { path: 1, ..line(Operation::Again { delta: 8 }, 6, &[5]) },
        line(Operation::Last(1), 7, &[6]),
    ];
    vec![
        ("one plan line to each last", of("table=0 last=1 var=1 table=0 last=0 pair=join fix=1 last=1").lines == lines),
        ("two lines run", run_of(&database, &query("table=0 last=1"), 2, 2) == Ok((vec![1, 3], 2))),
        ("19 before the second", run_of(&database, &query("table=0 last=1"), 2, 1) == Err(19)),
        ("18 at its operand", run_of(&database, &query("table=0 last=1"), 1, 2) == Err(18)),
    ]
}
