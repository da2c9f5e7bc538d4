//! Random queries with filters over ordinary lines, unions, joins, excepts and other filters, at closed and at open nodes.

use super::{Maker, Piece, Random};
use crate::algebra::{Columns, Pairing};
use crate::value::{Node, Query, NODES};

/// The size that a query begins with.
const SIZE: usize = 4;

/// A query that is checked over the schema and has such filters.
pub fn query(random: &mut Random, schema: &[Columns], capacity: usize) -> Query {
    loop {
        let mut maker = Maker::new(random, schema);
        let mut piece = maker.filtered(SIZE);
        while maker.random.once_in(3) {
            piece = maker.around(piece);
        }
        if piece.lines.len() <= capacity {
            return Query::new(&piece.lines, capacity);
        }
    }
}

/// Such a query of at most so many nodes as typed, whose split has exactly so many.
pub fn query_of(random: &mut Random, schema: &[Columns], typed: usize, split: usize) -> Query {
    loop {
        let mut maker = Maker::new(random, schema);
        let mut piece = maker.filtered(SIZE);
        while piece.nodes_once_split() < split {
            // Each recursion may be a `mu`, of which there is room for few.
            piece = if maker.random.once_in(6) { maker.filter_over(piece, None) } else { maker.above(piece) };
        }
        if piece.nodes_once_split() == split && piece.lines.len() <= typed {
            return Query::new(&piece.lines, NODES);
        }
    }
}

impl Piece {
    /// Each `mu` has one node fewer once it is split.
    fn nodes_once_split(&self) -> usize {
        self.lines.iter().filter(|line| !matches!(line, Node::Mu(_))).count()
    }
}

impl Maker<'_> {
    /// Filters over ordinary lines of a closed piece or of the step of a recursion.
    pub(super) fn filtered(&mut self, size: usize) -> Piece {
        let open = self.random.once_in(2);
        let Some(variable) = self.variable().filter(|_| open) else {
            let mut piece = self.closed(size);
            for _ in 0..1 + self.random.below(3) {
                piece = self.filter_over(piece, None);
            }
            return piece;
        };
        let seed = self.closed(size / 2);
        let columns = seed.columns.clone();
        let mut step = Piece::leaf(Node::Var(variable), columns.clone());
        for _ in 0..1 + self.random.below(3) {
            step = self.filter_over(step, Some((variable, &columns)));
        }
        let step = self.adapt(step, &columns);
        self.recursion(seed, step, variable)
    }

    /// An ordinary line over a piece and a filter over that. An open piece has its variable beside it, and the columns of that.
    fn filter_over(&mut self, piece: Piece, open: Option<(u8, &Columns)>) -> Piece {
        let piece = match self.random.below(4) {
            0 => {
                let side = match open {
                    Some((variable, whole)) => {
                        let side = Piece::leaf(Node::Var(variable), whole.clone());
                        self.walk(side, variable, whole)
                    }
                    None => self.closed(3),
                };
                let side = self.adapt(side, &piece.columns);
                match self.random.below(2) {
                    0 => piece.pair(Pairing::Union, side),
                    _ => side.pair(Pairing::Union, piece),
                }
            }
            1 => {
                let other = if self.random.once_in(3) { self.fix(2) } else { self.other(&piece.columns) };
                self.joined(piece, other)
            }
            2 => {
                let other = self.other(&piece.columns);
                piece.pair(Pairing::Except, other)
            }
            _ => self.filter(piece),
        };
        self.filter(piece)
    }

    /// A filter over a piece that has a column.
    fn filter(&mut self, piece: Piece) -> Piece {
        match self.condition(&piece.columns) {
            Some(condition) => piece.filter(condition),
            None => piece,
        }
    }
}
