//! A query as a tree: operands, closed nodes, and the path of a fix.

use crate::algebra::Pairing;
use crate::value::{refuse, Node, Refusal};

/// The tree that ends at a node; nodes count from 1.
#[derive(Clone, Debug, PartialEq, Eq)]
pub struct Term {
    pub node: usize,
    pub line: Node,
    pub operands: Vec<Term>,
}

impl Term {
    /// Each line takes the latest nodes not yet taken. 3 at the first node without its operands, else at the last node if
    /// several are left.
    pub fn of(lines: &[Node]) -> Result<Term, Refusal> {
        let mut untaken: Vec<Term> = Vec::new();
        for (index, line) in lines.iter().enumerate() {
            let Some(rest) = untaken.len().checked_sub(line.arity()) else {
                return refuse(3, index as u32 + 1);
            };
            let operands = untaken.split_off(rest);
            untaken.push(Term { node: index + 1, line: *line, operands });
        }
        match untaken.pop() {
            Some(root) if untaken.is_empty() => Ok(root),
            _ => refuse(3, lines.len() as u32),
        }
    }

    /// All nodes of the tree, in node order.
    pub fn nodes(&self) -> Vec<&Term> {
        let mut all: Vec<&Term> = self.operands.iter().flat_map(Term::nodes).collect();
        all.push(self);
        all
    }

    pub fn holds(&self, node: usize) -> bool {
        self.first() <= node && node <= self.node
    }

    /// The tree that ends at a node of this one.
    pub fn at(&self, node: usize) -> Option<&Term> {
        if node == self.node {
            return Some(self);
        }
        self.operands.iter().find(|operand| operand.holds(node))?.at(node)
    }

    /// Two different nodes of which neither lies under the other, its line being another one of those that end there. A number that
    /// is no node has no line and none that end there.
    pub fn apart(&self, one: usize, other: usize) -> bool {
        let under = |lower: usize, upper: usize| self.at(upper).is_some_and(|term| term.holds(lower));
        one != other && !under(one, other) && !under(other, one)
    }

    /// The lowest node of the tree.
    pub fn first(&self) -> usize {
        self.operands.first().map_or(self.node, Term::first)
    }

    pub fn is_fix(&self) -> bool {
        matches!(self.line, Node::Fix(_))
    }

    pub fn is_mu(&self) -> bool {
        matches!(self.line, Node::Mu(_))
    }

    /// The branches of a body, left to right: it is cut at the unions that reach up to its root through unions only.
    pub fn branches(&self) -> Vec<&Term> {
        match self.line {
            Node::Pair(Pairing::Union) => self.operands.iter().flat_map(Term::branches).collect(),
            _ => vec![self],
        }
    }

    pub fn seed(&self) -> &Term {
        &self.operands[0]
    }

    pub fn step(&self) -> &Term {
        &self.operands[1]
    }

    /// Closed: each `var=V` in it lies in the step of a `fix=V` or in the body of a `mu=V` in it. A variable of a body keeps its
    /// branch open, so it lies in the step once the `mu` is split.
    pub fn closed(&self) -> bool {
        self.free() == 0
    }

    /// The variables that keep it open, one bit each.
    fn free(&self) -> u32 {
        match self.line {
            Node::Var(v) => 1 << v,
            Node::Fix(v) => self.seed().free() | self.step().free() & !(1 << v),
            Node::Mu(v) => self.operands[0].free() & !(1 << v),
            _ => self.operands.iter().fold(0, |all, operand| all | operand.free()),
        }
    }

    /// The path of a fix: the open nodes of its step outside any fix within that step.
    pub fn path(&self) -> Vec<&Term> {
        let step = self.step().nodes();
        let outside = |node: usize| !step.iter().any(|inner| inner.is_fix() && inner.holds(node));
        step.iter().filter(|term| !term.closed() && outside(term.node)).copied().collect()
    }

    /// The closed operands beside the path of a fix, in node order.
    pub fn beside(&self) -> Vec<&Term> {
        let mut operands: Vec<&Term> = self.path().into_iter().flat_map(|term| &term.operands).collect();
        operands.retain(|operand| operand.closed());
        operands.sort_by_key(|operand| operand.node);
        operands
    }
}
