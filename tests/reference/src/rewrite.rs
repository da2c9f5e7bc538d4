//! The eleven kinds of rewrites on the lines of a query: 12, then 2 (kind 7) or 22 (8 and 9) or 13 to 15 in order (1 to 6), else the rule's
//! query.

use crate::algebra::{Columns, Pairing};
use crate::check::{check, Checked};
use crate::origins::stable;
use crate::term::Term;
use crate::value::{refuse, Database, Node, Query, Refusal};

/// Kinds count from 1.
pub const KINDS: usize = 11;

/// A step where a query may have as many nodes as it has entries.
pub fn rewrite(database: &Database, query: &Query, kind: u32, node: u32) -> Result<Query, Refusal> {
    rewrite_within(query.most(), database, query, kind, node)
}

/// Tests the database and the query as a run with this node limit does, then the rule. A refused query stays as given, in an accepted
/// one every `mu` is split.
pub fn rewrite_within(
    limit: usize,
    database: &Database,
    query: &Query,
    kind: u32,
    node: u32,
) -> Result<Query, Refusal> {
    database.form()?;
    if query.count as usize > limit {
        return refuse(2, 0);
    }
    let checked = check(query, database.schema())?;
    apply_within(limit, &checked, query, kind, node)
}

/// One step on a checked query: the rule's lines in its split. Entries past the new count stay as given.
pub fn apply(checked: &Checked, query: &Query, kind: u32, node: u32) -> Result<Query, Refusal> {
    apply_within(query.most(), checked, query, kind, node)
}

/// The same with a node limit.
pub fn apply_within(limit: usize, checked: &Checked, query: &Query, kind: u32, node: u32) -> Result<Query, Refusal> {
    applied(stable, limit, checked, query, kind, node)
}

/// Whether columns of a fix are stable.
pub type Stability = fn(&Checked, &Term, &Columns) -> bool;

/// The same by any notion of stable columns.
pub fn apply_by(stable: Stability, checked: &Checked, query: &Query, kind: u32, node: u32) -> Result<Query, Refusal> {
    applied(stable, query.most(), checked, query, kind, node)
}

fn applied(
    stable: Stability,
    limit: usize,
    checked: &Checked,
    query: &Query,
    kind: u32,
    node: u32,
) -> Result<Query, Refusal> {
    let Some(named) = checked.root.at(node as usize) else {
        return refuse(12, 0);
    };
    let Some(rule) = matched(named, kind) else {
        return refuse(12, 0);
    };
    // A query in fewer entries has no more room than they are.
    rule.fits(limit.min(query.most()), checked)?;
    rule.test(stable, checked)?;
    let split = checked.lines();
    let written = rule.lines(&split, named.line);
    let lines = [&split[..named.first() - 1], &written, &split[named.node..]].concat();
    let mut result = query.clone();
    result.nodes[..lines.len()].copy_from_slice(&lines);
    result.count = lines.len() as u32;
    Ok(result)
}

/// What a kind matches: the fix and what stands over or beside it, or the line under a filter and what of it the filter goes to.
enum Rule<'a> {
    Filter { fix: &'a Term, columns: Columns },
    JoinLeft { fix: &'a Term, other: &'a Term },
    JoinRight { other: &'a Term, fix: &'a Term },
    Except { fix: &'a Term, other: &'a Term },
    Drop { fix: &'a Term, column: u8 },
    Merge { left: &'a Term, right: &'a Term },
    BothSides { union: &'a Term },
    LeftSide { join: &'a Term, columns: Columns },
    RightSide { join: &'a Term, columns: Columns },
    KeptSide { except: &'a Term },
    Exchange { lower: &'a Term },
}

/// No kind looks at a `last`.
fn matched(term: &Term, kind: u32) -> Option<Rule<'_>> {
    let fix_at = |operand: usize| term.operands.get(operand).filter(|found| found.is_fix());
    let over = |pairing: Pairing| term.operands.first().filter(|found| found.line == Node::Pair(pairing));
    let over_filter = || term.operands.first().filter(|found| matches!(found.line, Node::Filter(_)));
    match (kind, term.line) {
        (1, Node::Filter(condition)) => Some(Rule::Filter { fix: fix_at(0)?, columns: condition.columns() }),
        (2, Node::Pair(Pairing::Join)) => Some(Rule::JoinLeft { fix: fix_at(0)?, other: &term.operands[1] }),
        (3, Node::Pair(Pairing::Join)) => Some(Rule::JoinRight { other: &term.operands[0], fix: fix_at(1)? }),
        (4, Node::Pair(Pairing::Except)) => Some(Rule::Except { fix: fix_at(0)?, other: &term.operands[1] }),
        (5, Node::Drop(column)) => Some(Rule::Drop { fix: fix_at(0)?, column }),
        (6, Node::Pair(Pairing::Join)) => Some(Rule::Merge { left: fix_at(0)?, right: fix_at(1)? }),
        (7, Node::Filter(_)) => Some(Rule::BothSides { union: over(Pairing::Union)? }),
        (8, Node::Filter(by)) => Some(Rule::LeftSide { join: over(Pairing::Join)?, columns: by.columns() }),
        (9, Node::Filter(by)) => Some(Rule::RightSide { join: over(Pairing::Join)?, columns: by.columns() }),
        (10, Node::Filter(_)) => Some(Rule::KeptSide { except: over(Pairing::Except)? }),
        (11, Node::Filter(_)) => Some(Rule::Exchange { lower: over_filter()? }),
        _ => None,
    }
}

/// A filter, copy or drop on the path names one of the columns, or a closed operand beside the path has it.
fn used(checked: &Checked, fix: &Term, columns: &Columns) -> bool {
    let named = fix.path().iter().any(|term| !term.line.names().is_disjoint(columns));
    named || fix.beside().iter().any(|operand| !checked.columns(operand).is_disjoint(columns))
}

impl Rule<'_> {
    /// 2 without room for one node more in the split query, 22 where the side lacks a column of the filter.
    fn fits(&self, limit: usize, checked: &Checked) -> Result<(), Refusal> {
        let lacks = |join: &Term, side: usize, by: &Columns| !by.is_subset(checked.columns(&join.operands[side]));
        match self {
            Rule::BothSides { .. } if checked.root.node >= limit => refuse(2, 0),
            Rule::LeftSide { join, columns } if lacks(join, 0, columns) => refuse(22, 0),
            Rule::RightSide { join, columns } if lacks(join, 1, columns) => refuse(22, 0),
            _ => Ok(()),
        }
    }

    /// 13, 14, 15 in this order; nothing is asked of a filter that goes past another line than a fix.
    fn test(&self, stable: Stability, checked: &Checked) -> Result<(), Refusal> {
        let shared = |a: &Term, b: &Term| checked.columns(a) & checked.columns(b);
        let only = |a: &Term, b: &Term| checked.columns(a) - checked.columns(b);
        let (unstable, taken, open) = match self {
            Rule::Filter { fix, columns } => (!stable(checked, fix, columns), false, false),
            Rule::JoinLeft { fix, other } | Rule::JoinRight { fix, other } => {
                (!stable(checked, fix, &shared(fix, other)), used(checked, fix, &only(other, fix)), !other.closed())
            }
            Rule::Except { fix, other } => (!stable(checked, fix, &shared(fix, other)), false, !other.closed()),
            Rule::Drop { fix, column } => (false, used(checked, fix, &Columns::from([*column])), false),
            Rule::Merge { left, right } => {
                let both = shared(left, right);
                let unstable = !stable(checked, left, &both) || !stable(checked, right, &both);
                let taken = used(checked, right, &only(left, right)) || used(checked, left, &only(right, left));
                (unstable, taken, false)
            }
            _ => (false, false, false),
        };
        match (unstable, taken, open) {
            (true, _, _) => refuse(13, 0),
            (_, true, _) => refuse(14, 0),
            (_, _, true) => refuse(15, 0),
            _ => Ok(()),
        }
    }

    /// The lines in place of those that end at the named node, whose own line is `last`.
    fn lines(&self, query: &[Node], last: Node) -> Vec<Node> {
        let of = |term: &Term| query[term.first() - 1..term.node].to_vec();
        let side = |line: &Term, operand: usize| of(&line.operands[operand]);
        let last = vec![last];
        match self {
            Rule::Filter { fix, .. } | Rule::Drop { fix, .. } => {
                [of(fix.seed()), last, of(fix.step()), vec![fix.line]].concat()
            }
            Rule::JoinLeft { fix, other } | Rule::Except { fix, other } => {
                [of(fix.seed()), of(other), last, of(fix.step()), vec![fix.line]].concat()
            }
            Rule::JoinRight { other, fix } => {
                [of(other), of(fix.seed()), last, of(fix.step()), vec![fix.line]].concat()
            }
            Rule::Merge { left, right } => {
                let (Node::Fix(kept), Node::Fix(gone)) = (left.line, right.line) else {
                    unreachable!("a merge joins two fixes")
                };
                let renamed = |line: Node| if line == Node::Var(gone) { Node::Var(kept) } else { line };
                let right_step = of(right.step()).into_iter().map(renamed).collect();
                let union = vec![Node::Pair(Pairing::Union)];
                [of(left.seed()), of(right.seed()), last, of(left.step()), right_step, union, vec![left.line]].concat()
            }
            Rule::BothSides { union } => {
                [side(union, 0), last.clone(), side(union, 1), last, vec![union.line]].concat()
            }
            Rule::LeftSide { join: pair, .. } | Rule::KeptSide { except: pair } => {
                [side(pair, 0), last, side(pair, 1), vec![pair.line]].concat()
            }
            Rule::RightSide { join, .. } => [side(join, 0), side(join, 1), last, vec![join.line]].concat(),
            Rule::Exchange { lower } => [side(lower, 0), last, vec![lower.line]].concat(),
        }
    }
}
