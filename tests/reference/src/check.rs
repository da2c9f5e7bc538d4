//! Checking a query over the columns of a database: 2 and 1 of the value, 3 and 20 as typed, then the two passes over the
//! split query.

use crate::algebra::{Columns, Pairing};
use crate::split::split;
use crate::term::Term;
use crate::value::{refuse, Node, Query, Refusal};

/// A checked query: the tree of its split and the columns of each node, node 1 first.
#[derive(Clone, Debug, PartialEq, Eq)]
pub struct Checked {
    pub root: Term,
    columns: Vec<Columns>,
}

impl Checked {
    /// The lines of the split query.
    pub fn lines(&self) -> Vec<Node> {
        self.root.nodes().iter().map(|term| term.line).collect()
    }

    pub fn columns(&self, term: &Term) -> &Columns {
        &self.columns[term.node - 1]
    }
}

pub fn check(query: &Query, schema: &[Columns]) -> Result<Checked, Refusal> {
    query.form()?;
    let typed = Term::of(query.lines())?;
    let root = Term::of(&split(&typed)?)?;
    first_pass(&root)?;
    let columns = second_pass(&root, schema)?;
    Ok(Checked { root, columns })
}

/// 4 to 8: lowest node, then lowest number.
fn first_pass(root: &Term) -> Result<(), Refusal> {
    let all = root.nodes();
    for term in &all {
        let faults = match term.line {
            Node::Var(_) => vec![(4, fix_of(term, &all).is_none())],
            Node::Fix(v) => vec![
                (4, all.iter().any(|lower| lower.node < term.node && lower.line == Node::Fix(v))),
                (7, !term.closed()),
                (8, !term.step().nodes().iter().any(|inner| inner.line == Node::Var(v))),
            ],
            Node::Pair(pairing) => {
                let (left, right) = (term.operands[0].closed(), term.operands[1].closed());
                match pairing {
                    Pairing::Except => vec![(5, !right)],
                    Pairing::Join => vec![(6, !left && !right)],
                    Pairing::Union => vec![(8, left != right)],
                }
            }
            // Adding rows can remove its results.
            Node::Last(_) => vec![(5, !term.operands[0].closed())],
            _ => vec![],
        };
        if let Some((number, _)) = faults.iter().find(|(_, present)| *present) {
            return refuse(*number, term.node as u32);
        }
    }
    Ok(())
}

/// The fix in whose step a variable lies.
fn fix_of<'a>(var: &Term, all: &[&'a Term]) -> Option<&'a Term> {
    let Node::Var(v) = var.line else { return None };
    all.iter().find(|term| term.line == Node::Fix(v) && term.step().holds(var.node)).copied()
}

/// 9 and 10, lowest node. A seed stands before its variables, so each node's columns follow from lower ones.
fn second_pass(root: &Term, schema: &[Columns]) -> Result<Vec<Columns>, Refusal> {
    let all = root.nodes();
    let mut found: Vec<Columns> = Vec::new();
    for term in &all {
        let of = |operand: usize| &found[term.operands[operand].node - 1];
        let named = || term.line.names().is_subset(of(0));
        let columns = match term.line {
            Node::Table(t) => schema.get(usize::from(t)).cloned().ok_or(10),
            Node::Var(_) => {
                let fix = fix_of(term, &all).expect("the first pass found its fix");
                Ok(found[fix.seed().node - 1].clone())
            }
            Node::Fact(c, _) => Ok(Columns::from([c])),
            Node::Pair(Pairing::Join) => Ok(of(0) | of(1)),
            Node::Pair(Pairing::Except) => Ok(of(0).clone()),
            Node::Pair(Pairing::Union) | Node::Fix(_) if of(0) == of(1) => Ok(of(0).clone()),
            Node::Filter(_) | Node::Last(_) if named() => Ok(of(0).clone()),
            Node::Copy(a, b) if of(0).contains(&a) && !of(0).contains(&b) => Ok(of(0) | &Columns::from([b])),
            Node::Drop(a) if named() => Ok(of(0) - &Columns::from([a])),
            Node::Mu(_) => unreachable!("the query is split"),
            _ => Err(9),
        };
        match columns {
            Ok(columns) => found.push(columns),
            Err(number) => return refuse(number, term.node as u32),
        }
    }
    Ok(found)
}
