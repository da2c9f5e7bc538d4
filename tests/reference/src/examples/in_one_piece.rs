//! Recursion typed in one piece: exact splits, the place of each refusal, and what desk and panel count as typed or split.

use super::{doors, run_of, REACH};
use crate::check::check;
use crate::meaning::meaning_of;
use crate::panel;
use crate::plan::plan;
use crate::rewrite::rewrite;
use crate::run::run;
use crate::split::split;
use crate::term::Term;
use crate::text::nodes;
use crate::value::{refuse, slots_of, Node, Query, Refusal, COLUMNS};

pub fn examples() -> Vec<(&'static str, bool)> {
    [reach(), exact_splits(), unsplit(), places(), steps(), counted_as_typed(), counted_as_split()].concat()
}

/// The step of Reach.
const STEP: &str = "var=1 copy=1,2 drop=1 table=0 copy=0,2 drop=0 pair=join drop=2";

fn reach_in_one_piece() -> String {
    format!("table=0 {STEP} pair=union mu=1")
}

fn query(lines: &str) -> Query {
    Query::new(&nodes(lines), 128)
}

fn reach() -> Vec<(&'static str, bool)> {
    let ran = |rows: &[[u32; 2]]| {
        let database = doors(rows);
        let of = |lines: &str| run_of(&database, &query(lines), 24, 1000);
        let typed = of(&reach_in_one_piece());
        typed.is_ok() && typed == of(REACH) && typed == of(&format!("{STEP} table=0 pair=union mu=1"))
    };
    let all = vec![1, 2, 1, 3, 2, 3];
    let database = doors(&[[1, 2], [2, 3]]);
    let chain = doors(&[[1, 2], [2, 3], [3, 4], [4, 5]]).relations();
    let rows = |lines: &str| meaning_of(&query(lines), &chain, 24).map(|rows| slots_of(&rows));
    vec![
        ("Reach in one piece", run_of(&database, &query(&reach_in_one_piece()), 24, 1000) == Ok((all, 15))),
        ("Reach in one piece as in two", [&[[1, 2], [2, 3]][..], &[], &[[1, 2], [2, 1]]].iter().all(|rows| ran(rows))),
        ("the meaning of Reach as typed", rows(&reach_in_one_piece()) == rows(REACH)),
        ("ten pairs along four doors", rows(&reach_in_one_piece()).is_some_and(|slots| slots.len() == 10 * COLUMNS)),
        ("a body that grows from nothing is empty", rows("var=1 var=1 eq=0,1 pair=union mu=1") == Some(vec![])),
    ]
}

fn split_of(lines: &str) -> Result<Vec<Node>, Refusal> {
    split(&Term::of(&nodes(lines))?)
}

fn exact_splits() -> Vec<(&'static str, bool)> {
    let becomes = |typed: &str, due: &str| split_of(typed) == Ok(nodes(due));
    vec![
        ("the split of Reach", becomes(&reach_in_one_piece(), REACH)),
        ("the closed branch last", becomes(&format!("{STEP} table=0 pair=union mu=1"), REACH)),
        ("no mu, no split", becomes(REACH, REACH)),
        (
            "branches by turns, grouped to the left",
            becomes(
                "table=0 var=1 pair=union table=1 pair=union var=1 eq=0,1 pair=union mu=1",
                "table=0 table=1 pair=union var=1 var=1 eq=0,1 pair=union fix=1",
            ),
        ),
        (
            "three and three branches, grouped to the right",
            becomes(
                "table=0 var=1 table=1 var=1 eq=0,1 table=2 var=1 ne=0,1 \
                pair=union pair=union pair=union pair=union pair=union mu=1",
                "table=0 table=1 pair=union table=2 pair=union \
                var=1 var=1 eq=0,1 pair=union var=1 ne=0,1 pair=union fix=1",
            ),
        ),
        (
            "two pairs of branches",
            becomes(
                "var=1 table=0 pair=union var=1 eq=0,1 table=1 pair=union pair=union mu=1",
                "table=0 table=1 pair=union var=1 var=1 eq=0,1 pair=union fix=1",
            ),
        ),
        (
            "a union below a filter is no cut",
            becomes(
                "table=0 var=1 var=1 pair=union eq=0,1 pair=union mu=1",
                "table=0 var=1 var=1 pair=union eq=0,1 fix=1",
            ),
        ),
        (
            "a union below an except is no cut",
            becomes(
                "var=1 table=0 table=0 table=1 pair=union pair=except pair=union mu=1",
                "table=0 table=0 table=1 pair=union pair=except var=1 fix=1",
            ),
        ),
        (
            "a union above the mu stays as typed",
            becomes(
                "table=0 table=1 table=0 var=1 pair=union mu=1 pair=union pair=union",
                "table=0 table=1 table=0 var=1 fix=1 pair=union pair=union",
            ),
        ),
        (
            "a mu as a closed branch",
            becomes(
                "var=1 table=1 var=2 pair=union mu=2 pair=union table=0 pair=union mu=1",
                "table=1 var=2 fix=2 table=0 pair=union var=1 fix=1",
            ),
        ),
        (
            "a mu beside the path",
            becomes(
                "var=1 var=2 table=1 pair=union mu=2 pair=join table=0 pair=union mu=1",
                "table=0 var=1 table=1 var=2 fix=2 pair=join fix=1",
            ),
        ),
        (
            "a mu in the seed and one in the step of a fix",
            becomes(
                "var=2 table=0 pair=union mu=2 var=1 var=3 table=0 pair=union mu=3 pair=join fix=1",
                "table=0 var=2 fix=2 var=1 table=0 var=3 fix=3 pair=join fix=1",
            ),
        ),
        (
            "a branch with an outer variable only goes to the step",
            becomes("var=1 table=0 pair=union mu=2 table=0 pair=union mu=1", "table=0 table=0 var=1 fix=2 fix=1"),
        ),
    ]
}

fn unsplit() -> Vec<(&'static str, bool)> {
    let at = |lines: &str, place: u32| split_of(lines) == refuse(20, place);
    vec![
        ("20 without a closed branch", at("var=1 var=1 eq=0,1 pair=union mu=1", 5)),
        ("20 without an open branch", at("table=0 table=0 pair=union mu=1", 4)),
        ("20 without a branch of its own variable", at("table=0 var=1 fix=1 table=0 pair=union mu=1", 6)),
        ("20 at a variable alone", at("var=1 mu=1", 2)),
        ("20 at a table alone", at("table=0 mu=1", 2)),
        ("20 at a union below a filter", at("table=0 var=1 pair=union eq=0,1 mu=1", 5)),
        ("20 at a mu of a mu", at("table=0 var=1 pair=union mu=1 mu=2", 5)),
        ("20 at the inner mu", at("table=0 table=0 mu=2 pair=union var=1 pair=union mu=1", 3)),
        ("20 at the outer mu", at("table=0 var=2 pair=union mu=2 table=0 pair=union mu=1", 7)),
        ("20 at the inner of two", at("table=0 table=0 mu=2 pair=union mu=1", 3)),
        ("20 at the left of two", at("table=0 mu=2 table=0 mu=1 pair=join", 2)),
        ("20 at the second of two", at("table=0 var=2 pair=union mu=2 table=0 mu=1 pair=join", 6)),
    ]
}

/// Each place counts in the split query, and is another one than as typed but for 1, 2, 3 and 20.
fn places() -> Vec<(&'static str, bool)> {
    let gives = |lines: &str, number: u32, place: u32| {
        check(&query(lines), doors(&[]).schema()).err() == Some(Refusal { number, place })
    };
    vec![
        ("3 at a mu alone", gives("mu=1", 3, 1)),
        ("3 before 20, several roots", gives("table=0 mu=1 table=0", 3, 3)),
        ("20 before 4", gives("var=2 table=0 mu=1 pair=join", 20, 3)),
        ("20 before 9 and 10", gives("table=0 drop=5 table=9 pair=join table=0 mu=1 pair=join", 20, 6)),
        ("4, number taken by a lower fix", gives("table=0 var=1 fix=1 var=1 pair=union mu=1", 4, 5)),
        ("4, number taken by a lower mu", gives("table=0 var=1 pair=union mu=1 var=1 pair=union mu=1", 4, 5)),
        ("4, number taken by a lower mu beside", {
            gives("table=0 var=1 pair=union mu=1 var=1 table=0 pair=union mu=1 pair=join", 4, 6)
        }),
        ("4, number of a fix taken by a lower mu", { gives("table=0 var=1 pair=union mu=1 var=1 fix=1", 4, 5) }),
        ("4 at a variable behind its mu", gives("table=0 var=1 pair=union mu=1 var=1 pair=join", 4, 4)),
        ("5 in a branch", gives("table=0 var=1 pair=except table=0 pair=union mu=1", 5, 4)),
        ("6 in a branch", gives("var=1 var=1 pair=join table=0 pair=union mu=1", 6, 4)),
        ("7 with an outer variable only", gives("table=0 table=0 var=1 pair=union mu=2 pair=union mu=1", 7, 4)),
        ("7 beside its own variable", {
            gives("table=0 table=0 var=1 pair=union var=2 pair=union mu=2 pair=union mu=1", 7, 6)
        }),
        ("8 at a union below a filter", gives("table=0 var=1 pair=union eq=0,1 table=0 pair=union mu=1", 8, 4)),
        ("9 at the union of a seed", gives("table=0 var=1 table=1 pair=union pair=union mu=1", 9, 3)),
        ("9 at the union of a step", gives("var=1 drop=1 table=0 pair=union var=1 pair=union mu=1", 9, 5)),
        ("9 at the fix", gives("table=0 var=1 drop=1 pair=union mu=1", 9, 4)),
        ("9 in a branch", gives("var=1 drop=5 table=0 pair=union mu=1", 9, 3)),
        ("10 in a branch", gives("var=1 table=9 pair=union mu=1", 10, 1)),
    ]
}

fn steps() -> Vec<(&'static str, bool)> {
    let database = doors(&[[1, 2], [2, 3]]);
    let filtered = query(&format!("{} eq=0,1", reach_in_one_piece()));
    let refused = |query: &Query, kind: u32, node: u32| rewrite(&database, query, kind, node).err().map(|r| r.number);
    // The split has one line fewer: the entry behind it is the typed query's last line.
    let mut moved = query(&format!("table=0 eq=0,1 {STEP} fix=1 eq=0,1"));
    moved.count -= 1;
    let beside = query(&format!("{REACH} fact=0,1 pair=join var=2 table=0 pair=union mu=2 pair=join"));
    let mut elsewhere =
        query(&format!("table=0 fact=0,1 pair=join {STEP} fix=1 table=0 var=2 fix=2 pair=join pair=join"));
    elsewhere.count -= 1;
    vec![
        ("a step at a node of the split", rewrite(&database, &filtered, 1, 11) == Ok(moved)),
        ("a step at the node as typed", refused(&filtered, 1, 12) == Some(12)),
        ("a step elsewhere splits the mu too", rewrite(&database, &beside, 2, 12) == Ok(elsewhere)),
    ]
}

fn counted_as_typed() -> Vec<(&'static str, bool)> {
    let of = |count: usize| {
        let typed = reach_in_one_piece();
        let filters = count - nodes(&typed).len();
        query(&format!("{typed} {}", "max=0,9 ".repeat(filters)))
    };
    let database = doors(&[[1, 2], [2, 3]]);
    let at_panel = |count: usize| panel::check(&database, &of(count)).map(|checked| checked.root.node);
    let longest = Query { nodes: [of(128).nodes, nodes("max=0,9")].concat(), count: 129 };
    vec![
        ("32 nodes as typed at the panel", at_panel(32) == Ok(31)),
        ("33 nodes as typed at the panel", at_panel(33) == refuse(2, 0)),
        ("128 nodes as typed", check(&of(128), database.schema()).map(|checked| checked.root.node) == Ok(127)),
        ("129 nodes as typed", check(&longest, database.schema()).err() == Some(Refusal { number: 2, place: 0 })),
    ]
}

fn counted_as_split() -> Vec<(&'static str, bool)> {
    let database = doors(&[[1, 2], [2, 3]]);
    let typed = query(&reach_in_one_piece());
    let plan_of = |query: &Query| check(query, database.schema()).map(|checked| plan(&checked.root));
    let with = |entries: usize| {
        let (mut workspace, mut slots) = (vec![3; entries], vec![5; 24]);
        let number = run(&database, &typed, 3, 1000, &mut workspace, &mut slots).err().map(|refusal| refusal.number);
        (number, workspace.iter().all(|entry| *entry == 0))
    };
    let needed = 11 * (1 + 8 * 3);
    vec![
        ("the plan of Reach in one piece", plan_of(&typed).is_ok() && plan_of(&typed) == plan_of(&query(REACH))),
        ("the workspace of the split", with(needed) == (None, true)),
        ("the workspace of the split lacking one entry", with(needed - 1) == (Some(17), false)),
    ]
}
