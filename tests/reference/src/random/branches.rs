//! Random queries of two branches, and steps at two nodes of which neither lies under the other.

use super::{likely, split_lines, Maker, Piece, Random, OPEN, REDEXES};
use crate::algebra::{Columns, Pairing};
use crate::check::{check, Checked};
use crate::rewrite::apply;
use crate::term::Term;
use crate::value::{Node, Query, Refusal, NODES};

/// A kind and a node.
pub type Step = (u32, u32);

/// The redexes that branches have; that of kind 6 is accepted the least often.
const SORTS: [usize; 8] = [0, 1, 2, 3, 4, 5, 5, OPEN];
/// Pieces that are tried for one that its kind accepts.
const TRIES: usize = 8;
/// The size that a recursion on a branch is made of.
const SIZE: usize = 3;
/// The most steps of a list.
const LONGEST: usize = 4;

/// A query that is checked over the schema, most often with an accepted step on each of two branches.
pub fn query(random: &mut Random, schema: &[Columns], capacity: usize) -> Query {
    loop {
        let mut maker = Maker::new(random, schema);
        let [one, mut other] = [0; 2].map(|_| SORTS[maker.random.below(SORTS.len())]);
        if maker.random.once_in(4) {
            other = one;
        }
        let [left, right] = [one, other].map(|sort| maker.rewritable(sort, capacity / 2));
        let mut piece = maker.forked(left, right);
        while maker.random.once_in(4) {
            piece = maker.around(piece);
        }
        if piece.lines.len() <= capacity {
            return Query::new(&piece.lines, capacity);
        }
    }
}

impl Maker<'_> {
    /// What a kind of rewrite looks at, most often one of at most so many lines that it accepts. As often as not there is over it
    /// what another kind looks at.
    fn rewritable(&mut self, sort: usize, lines: usize) -> Piece {
        let taken = self.taken.len();
        let mut tries = if self.random.once_in(4) { 1 } else { TRIES };
        let piece = loop {
            let fix = self.fix(SIZE);
            let piece = self.redex_over(fix, sort, SIZE);
            let accepted = || sort == OPEN || self.accepts(sort as u32 + 1, &piece);
            if tries == 1 || piece.lines.len() <= lines && accepted() {
                break piece;
            }
            self.taken.truncate(taken);
            tries -= 1;
        };
        if self.random.once_in(2) {
            let sort = self.random.below(REDEXES);
            self.redex_over(piece, sort, SIZE)
        } else {
            piece
        }
    }

    fn accepts(&self, kind: u32, piece: &Piece) -> bool {
        let query = Query::new(&piece.lines, piece.lines.len());
        let root = |checked: Checked| apply(&checked, &query, kind, checked.root.node as u32);
        check(&query, self.schema).and_then(root).is_ok()
    }

    /// Two closed pieces as the sides of a pair, as a seed and an operand beside the path, or as two such operands.
    fn forked(&mut self, left: Piece, right: Piece) -> Piece {
        match self.random.below(6) {
            0 => {
                let right = self.adapt(right, &left.columns);
                left.pair(Pairing::Union, right)
            }
            1 => left.pair(Pairing::Join, right),
            2 => left.pair(Pairing::Except, right),
            3 => {
                let seed = self.leaf();
                self.around_operands(seed, vec![left, right])
            }
            4 => {
                // The join of a fix and the variable is an open node that kinds 2 and 3 look at.
                let fix = self.fix(SIZE);
                self.around_operands(left, vec![fix])
            }
            _ => self.around_operands(left, vec![right]),
        }
    }

    /// A recursion with closed operands beside its path.
    fn around_operands(&mut self, seed: Piece, operands: Vec<Piece>) -> Piece {
        let Some(variable) = self.variable() else {
            return operands.into_iter().fold(seed, |left, right| left.pair(Pairing::Join, right));
        };
        let mut step = Piece::leaf(Node::Var(variable), seed.columns.clone());
        for operand in operands {
            step = match self.random.below(3) {
                0 => step.pair(Pairing::Except, operand),
                _ => self.joined(step, operand),
            };
        }
        let step = self.adapt(step, &seed.columns);
        self.recursion(seed, step, variable)
    }
}

/// The steps of kinds 1 to 6, which are those that commute, at lines that they look at.
pub fn commuting(lines: &[Node]) -> Vec<Step> {
    likely(lines).into_iter().filter(|(kind, _)| *kind <= 6).collect()
}

/// Such steps on a checked query by reply: accepted, 13 to 15, 12.
fn by_reply(checked: &Checked, query: &Query) -> [Vec<Step>; 3] {
    let mut found: [Vec<Step>; 3] = Default::default();
    for (kind, node) in commuting(&checked.lines()) {
        let reply = match apply(checked, query, kind, node) {
            Ok(_) => 0,
            Err(Refusal { number: 12, .. }) => 2,
            Err(_) => 1,
        };
        found[reply].push((kind, node));
    }
    found
}

/// One of these steps that fits, more often an accepted one, or one of any kind at a number up to one past the nodes.
fn picked(random: &mut Random, steps: &[Vec<Step>; 3], nodes: usize, fits: impl Fn(usize) -> bool) -> Step {
    let first = [0, 0, 0, 0, 0, 1, 2, 3][random.below(8)];
    let fitting = |steps: &Vec<Step>| random.pick(steps.iter().copied().filter(|(_, node)| fits(*node as usize)));
    let found = steps[first..].iter().find_map(fitting);
    found.unwrap_or_else(|| {
        let node = random.pick((0..=nodes + 1).filter(|node| fits(*node)));
        (1 + random.below(6) as u32, node.expect("a number fits") as u32)
    })
}

/// Two steps at two nodes of which neither lies under the other, often such as are accepted, now and then at numbers that are no node.
/// Those of a query that isn't split are at two numbers.
pub fn pair(random: &mut Random, schema: &[Columns], query: &Query) -> [Step; 2] {
    let lines = split_lines(query).unwrap_or_default();
    let root = Term::of(&lines).ok();
    let nodes = root.as_ref().map_or(NODES.min(query.count as usize), |root| root.node);
    let steps = match check(query, schema) {
        Ok(checked) => by_reply(&checked, query),
        Err(_) => [Vec::new(), Vec::new(), commuting(&lines)],
    };
    let one = picked(random, &steps, nodes, |_| true);
    let at = one.1 as usize;
    let apart = |node: usize| root.as_ref().map_or(node != at, |root| root.apart(at, node));
    [one, picked(random, &steps, nodes, apart)]
}

/// Two lists of steps on a checked query, each at and under one of two nodes of which neither lies under the other. Many are
/// accepted after those before them. None if no line has two operands.
pub fn lists(random: &mut Random, schema: &[Columns], query: &Query, checked: &Checked) -> Option<[Vec<Step>; 2]> {
    let [accepted, ..] = by_reply(checked, query);
    let holds = |branch: &Term| accepted.iter().any(|(_, node)| branch.holds(*node as usize));
    let mut forks = checked.root.nodes();
    forks.retain(|term| term.operands.len() == 2);
    let on_both = forks.iter().copied().filter(|fork| fork.operands.iter().all(holds));
    let fork = random.pick(on_both).or(random.pick(forks))?;
    Some([0, 1].map(|side| {
        let branch = &fork.operands[side];
        let branch = if random.once_in(6) { random.pick(branch.nodes()) } else { None }.unwrap_or(branch);
        list(random, schema, query, branch)
    }))
}

/// A list of steps at and under a node. None changes how many lines end there.
fn list(random: &mut Random, schema: &[Columns], query: &Query, branch: &Term) -> Vec<Step> {
    let mut held = query.clone();
    let mut steps = Vec::new();
    for _ in 0..1 + random.below(LONGEST) {
        let Ok(checked) = check(&held, schema) else { break };
        let step = picked(random, &by_reply(&checked, &held), branch.node, |node| branch.holds(node));
        held = apply(&checked, &held, step.0, step.1).unwrap_or(held);
        steps.push(step);
    }
    steps
}

/// Two lists by turns, each step with the list that it is of.
pub fn turns(random: &mut Random, lists: &[Vec<Step>; 2]) -> Vec<(usize, Step)> {
    let mut left = lists.each_ref().map(|list| list.iter().copied());
    let mut turns = Vec::new();
    while left.iter().any(|steps| steps.len() > 0) {
        let side = random.below(2);
        turns.extend(left[side].next().map(|step| (side, step)));
    }
    turns
}
