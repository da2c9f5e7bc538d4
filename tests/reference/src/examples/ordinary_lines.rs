//! Filters past the ordinary lines: room at the panel and at desks with other limits, entries past the count, and a list that brings a
//! filter into two recursions.

use super::{doors, run_of, REACH};
use crate::algebra::Condition;
use crate::panel;
use crate::rewrite::{rewrite, rewrite_within};
use crate::text::nodes;
use crate::value::{refuse, Node, Query, NODES};

pub fn examples() -> Vec<(&'static str, bool)> {
    [room(), entries(), into_two_recursions()].concat()
}

/// These lines under filters that keep every row: so many nodes in all.
fn of(lines: &str, count: usize) -> Query {
    let more = count - nodes(lines).len();
    Query::new(&nodes(&format!("{lines} {}", "max=0,9 ".repeat(more))), NODES)
}

const UNION: &str = "table=0 table=0 pair=union eq=0,1";
const OVER_MU: &str = "table=0 var=1 pair=union mu=1 table=0 pair=union eq=0,1";

fn room() -> Vec<(&'static str, bool)> {
    let database = doors(&[[1, 2], [2, 3]]);
    let at_panel = |query: &Query, kind, node| panel::rewrite(&database, query, kind, node).map(|left| left.count);
    let at_desk = |query: &Query, kind, node| rewrite(&database, query, kind, node).map(|left| left.count);
    let within =
        |limit, query: &Query, kind, node| rewrite_within(limit, &database, query, kind, node).map(|left| left.count);
    let too_long = rewrite(&database, &of(UNION, 32), 7, 4);
    vec![
        ("kind 7 on 31 nodes at the panel", at_panel(&of(UNION, 31), 7, 4) == Ok(32)),
        ("kind 7 on 32 nodes at the panel", at_panel(&of(UNION, 32), 7, 4) == refuse(2, 0)),
        ("kind 7 on 32 nodes at the desk", at_desk(&of(UNION, 32), 7, 4) == Ok(33)),
        ("the panel refuses what is left", too_long.is_ok_and(|left| at_panel(&left, 11, 6) == refuse(2, 0))),
        ("32 nodes as typed are 31 at the panel", at_panel(&of(OVER_MU, 32), 7, 6) == Ok(32)),
        ("33 nodes as typed are too many at the panel", at_panel(&of(OVER_MU, 33), 7, 6) == refuse(2, 0)),
        ("kind 7 on 127 nodes", at_desk(&of(UNION, 127), 7, 4) == Ok(128)),
        ("kind 7 on 128 nodes", at_desk(&of(UNION, 128), 7, 4) == refuse(2, 0)),
        ("128 nodes as typed are 127", at_desk(&of(OVER_MU, 128), 7, 6) == Ok(128)),
        ("kind 7 on 4 nodes of 4", within(4, &of(UNION, 4), 7, 4) == refuse(2, 0)),
        ("kind 7 on 4 nodes of 5", within(5, &of(UNION, 4), 7, 4) == Ok(5)),
        ("12 before 2", within(4, &of(UNION, 4), 7, 3) == refuse(12, 0)),
        ("another kind needs no room", within(5, &of(UNION, 5), 11, 5) == Ok(5)),
        ("a sheet over the limit gets 2 before 12", within(3, &of(UNION, 4), 7, 3) == refuse(2, 0)),
    ]
}

fn entries() -> Vec<(&'static str, bool)> {
    let database = doors(&[]);
    let past = Node::Drop(7);
    let left = |lines: &str, node| {
        let mut query = of(lines, nodes(lines).len());
        query.nodes[query.count as usize..].fill(past);
        rewrite(&database, &query, 7, node).map(|left| left.nodes)
    };
    let written = nodes("table=0 eq=0,1 table=0 eq=0,1 pair=union");
    let of_mu = nodes("table=0 var=1 fix=1 eq=0,1 table=0 eq=0,1 pair=union");
    let begins = |found: Result<Vec<Node>, _>, lines: &[Node]| {
        found.is_ok_and(|found| found.starts_with(lines) && found[lines.len()..].iter().all(|line| *line == past))
    };
    vec![
        ("kind 7 writes one entry past the count", begins(left(UNION, 4), &written)),
        // Seven lines as typed, six once split, seven again.
        ("kind 7 writes none past the count as typed", begins(left(OVER_MU, 6), &of_mu)),
    ]
}

/// A filter over the union of a join and a recursion, each with a recursion of its own.
fn into_two_recursions() -> Vec<(&'static str, bool)> {
    let database = doors(&[[1, 2], [2, 3]]);
    let [one, other] = ["var=1", "var=2"].map(|var| REACH.replace("var=1", var));
    let other = other.replace("fix=1", "fix=2");
    let first = of(&format!("{one} table=0 pair=join {other} pair=union eq=0,1"), 24);
    let steps = [(7, 24), (8, 13), (1, 11), (1, 24)];
    let filter = Node::Filter(Condition::Eq(0, 1));
    let filters =
        |query: &Query| (1..).zip(query.lines()).filter(|(_, line)| **line == filter).map(|(n, _)| n).collect();
    let mut held = vec![first];
    for (kind, node) in steps {
        held.extend(held.last().and_then(|query| rewrite(&database, query, kind, node).ok()));
    }
    let at: Vec<Vec<u32>> = held.iter().map(filters).collect();
    let rows: Vec<_> = held.iter().map(|query| run_of(&database, query, 24, 1000).map(|ran| ran.0)).collect();
    vec![
        ("the filter's nodes", at == [vec![24], vec![13, 24], vec![11, 24], vec![2, 24], vec![2, 15]]),
        ("one answer", rows.len() == 5 && rows.iter().all(|rows| *rows == Ok(vec![1, 2, 1, 3]))),
    ]
}
