//! Stability by origin (change request U5): the column of the variable that a column on a path comes from.

use crate::algebra::{Columns, Pairing};
use crate::check::Checked;
use crate::term::Term;
use crate::value::Node;
use std::collections::BTreeMap;

/// The columns that have an origin, each with it.
pub type Origins = BTreeMap<u8, u8>;

/// The origins of the columns of a node on a path.
pub fn origins(checked: &Checked, term: &Term) -> Origins {
    let of = |operand: usize| origins(checked, &term.operands[operand]);
    match term.line {
        // For the variable it is the column itself.
        Node::Var(_) => checked.columns(term).iter().map(|column| (*column, *column)).collect(),
        // A copy passes it on; a column without one has none to pass.
        Node::Copy(a, b) => {
            let mut all = of(0);
            if let Some(origin) = all.get(&a).copied() {
                all.insert(b, origin);
            }
            all
        }
        // A drop removes it.
        Node::Drop(a) => {
            let mut all = of(0);
            all.remove(&a);
            all
        }
        // A column that only the closed operand brings has none; a shared one keeps the open side's.
        Node::Pair(Pairing::Join) => of(usize::from(term.operands[0].closed())),
        // A union keeps an origin only where both sides agree.
        Node::Pair(Pairing::Union) => {
            let right = of(1);
            of(0).into_iter().filter(|(column, origin)| right.get(column) == Some(origin)).collect()
        }
        // These keep rows as they are: `same` gives no origin either.
        Node::Filter(_) | Node::Pair(Pairing::Except) => of(0),
        Node::Table(_) | Node::Fact(..) | Node::Last(_) | Node::Fix(_) | Node::Mu(_) => {
            unreachable!("a closed node is on no path")
        }
    }
}

/// Stable: the step's result has each of the columns with itself as origin.
pub fn stable(checked: &Checked, fix: &Term, columns: &Columns) -> bool {
    let found = origins(checked, fix.step());
    columns.iter().all(|column| found.get(column) == Some(column))
}
