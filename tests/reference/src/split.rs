//! Recursion typed in one piece (change request U4): each `mu` becomes a fix of the closed branches and the open ones.

use crate::algebra::Pairing;
use crate::term::Term;
use crate::value::{refuse, Node, Refusal};

/// The lines of a typed query with every `mu` split; 20 at the lowest one that has no closed or no open branch.
pub fn split(typed: &Term) -> Result<Vec<Node>, Refusal> {
    Ok(fixed(typed)?.nodes().iter().map(|term| term.line).collect())
}

/// The tree with every `mu` split, inner ones before outer ones, which is node order. Its nodes keep their typed numbers.
fn fixed(typed: &Term) -> Result<Term, Refusal> {
    let mut operands = Vec::new();
    for operand in &typed.operands {
        operands.push(fixed(operand)?);
    }
    let Node::Mu(v) = typed.line else {
        return Ok(Term { operands, ..*typed });
    };
    let (closed, open): (Vec<Term>, Vec<Term>) = operands[0].branches().into_iter().cloned().partition(Term::closed);
    match (grouped(closed), grouped(open)) {
        (Some(seed), Some(step)) => Ok(Term { node: typed.node, line: Node::Fix(v), operands: vec![seed, step] }),
        _ => refuse(20, typed.node as u32),
    }
}

/// Branches united to the left, whatever was typed.
fn grouped(branches: Vec<Term>) -> Option<Term> {
    branches.into_iter().reduce(|left, right| Term {
        node: right.node,
        line: Node::Pair(Pairing::Union),
        operands: vec![left, right],
    })
}
