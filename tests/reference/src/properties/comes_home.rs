//! Stability by origin: what an origin says of a step's rows, what document 01's own condition accepted before, and that users of
//! different accepted steps see one answer.

use super::{ensure, every_rewrite, input, outcome, told, Coverage, Verdict, MOST};
use crate::algebra::{Columns, Pairing, Relation, Row};
use crate::check::{check, Checked};
use crate::meaning::{meaning, meaning_of, meaning_on_path};
use crate::origins::{origins, stable};
use crate::plan::{execute, plan};
use crate::random::{self, Random};
use crate::rewrite::{apply, apply_by, rewrite, KINDS};
use crate::selfcheck::{shown, Outcome};
use crate::term::Term;
use crate::text::print_query;
use crate::value::{refuse, Database, Node, Query};

/// Document 01's condition: no `drop` on the path names one of the columns.
fn undropped(_: &Checked, fix: &Term, columns: &Columns) -> bool {
    !fix.path().iter().any(|term| matches!(term.line, Node::Drop(column) if columns.contains(&column)))
}

/// A step on a checked query is accepted, and by document 01's condition it is refused with 13.
pub fn by_origin_alone(database: &Database, query: &Query, kind: u32, node: u32) -> bool {
    check(query, database.schema()).is_ok_and(|checked| alone(&checked, query, kind, node))
}

fn alone(checked: &Checked, query: &Query, kind: u32, node: u32) -> bool {
    let before = || apply_by(undropped, checked, query, kind, node);
    apply(checked, query, kind, node).is_ok() && before() == refuse(13, 0)
}

/// Where a column on a path comes from.
#[derive(Clone, Copy, Debug, PartialEq, Eq)]
enum Source {
    Variable(u8),
    /// A closed operand alone, as it is or by way of copies.
    Operand,
    Copied,
    /// The sides of a union have it from different places, one of them from the variable.
    Sides,
}

/// Followed from a node down to the variable, the other way round than origins are found.
fn source(checked: &Checked, term: &Term, column: u8) -> Source {
    let of = |operand: usize, column: u8| source(checked, &term.operands[operand], column);
    match term.line {
        Node::Var(_) => Source::Variable(column),
        Node::Copy(a, b) if b == column => match of(0, a) {
            Source::Operand => Source::Copied,
            other => other,
        },
        Node::Pair(Pairing::Join) => {
            let open = usize::from(term.operands[0].closed());
            if checked.columns(&term.operands[open]).contains(&column) {
                of(open, column)
            } else {
                Source::Operand
            }
        }
        Node::Pair(Pairing::Union) => match (of(0, column), of(1, column)) {
            (left, right) if left == right => left,
            (Source::Variable(_), _) | (_, Source::Variable(_)) => Source::Sides,
            (left, _) => left,
        },
        _ => of(0, column),
    }
}

/// Why a column that a step asks for isn't stable, as far as a count of it is wanted.
pub const CAUSES: [&str; 4] = ["sides disagree", "brought by an operand", "exchanged", "copy without origin"];

/// The causes of a step on a checked query that is refused with 13.
pub fn causes(database: &Database, query: &Query, kind: u32, node: u32) -> [bool; CAUSES.len()] {
    check(query, database.schema()).map_or([false; CAUSES.len()], |checked| causes_in(&checked, kind, node))
}

fn causes_in(checked: &Checked, kind: u32, node: u32) -> [bool; CAUSES.len()] {
    let mut found = [false; CAUSES.len()];
    for (fix, columns) in asked(checked, kind, node) {
        for column in columns {
            match source(checked, fix.step(), column) {
                Source::Sides => found[0] = true,
                Source::Operand => found[1] = true,
                Source::Variable(other) if other != column => {
                    found[2] |= source(checked, fix.step(), other) == Source::Variable(column);
                }
                Source::Variable(_) => {}
                Source::Copied => found[3] = true,
            }
        }
    }
    found
}

/// The columns that a step asks to be stable, each set with its fix; the kind matches the node.
fn asked(checked: &Checked, kind: u32, node: u32) -> Vec<(&Term, Columns)> {
    let all = checked.root.nodes();
    let named = all[node as usize - 1];
    let shared = || checked.columns(&named.operands[0]) & checked.columns(&named.operands[1]);
    match kind {
        1 => vec![(&named.operands[0], named.line.names())],
        2 | 4 => vec![(&named.operands[0], shared())],
        3 => vec![(&named.operands[1], shared())],
        6 => named.operands.iter().map(|fix| (fix, shared())).collect(),
        _ => Vec::new(),
    }
}

/// What steps with columns that come home have met. A column comes home if it is stable though a `drop` on the path names it.
#[derive(Default)]
pub struct Met {
    /// Values that come home, and those of them that the row has not in every column.
    values: [u32; 2],
    /// Fixes with a column that comes home, and steps that document 01's condition accepts too.
    fixes: u32,
    before: u32,
    /// Accepted by origin alone: by kind, those over rows that the step has added, and those of kind 6 that need it of both fixes;
    /// 13 by cause.
    kinds: [u32; 7],
    grown: [u32; 7],
    both: u32,
    causes: [u32; CAUSES.len()],
    /// Lists with a step that is accepted by origin alone.
    lists: u32,
    /// Pairs of lists that end in two queries, those with such a step in one list and in both.
    pairs: [u32; 3],
}

impl Met {
    pub fn outcomes(&self) -> Vec<Outcome> {
        let listed: Vec<String> =
            CAUSES.iter().zip(self.causes).map(|(cause, times)| format!("{cause} {times}")).collect();
        let all_but_5 = |kinds: &[u32; 7]| [1, 2, 3, 4, 6].iter().all(|kind| kinds[*kind] > 0) && kinds[5] == 0;
        vec![
            outcome(
                "columns come home with their values",
                self.values.iter().chain([&self.fixes, &self.before]).all(|times| *times > 0),
                format!(
                    "{} fixes, {} values, {} of them unlike another column's; {} steps accepted by document 01's condition",
                    self.fixes, self.values[0], self.values[1], self.before
                ),
            ),
            outcome(
                "every kind that asks for stable columns is accepted by origin alone",
                all_but_5(&self.kinds) && all_but_5(&self.grown) && self.both > 0,
                format!(
                    "{:?}, over rows that the step added {:?}, in both fixes {}",
                    &self.kinds[1..],
                    &self.grown[1..],
                    self.both
                ),
            ),
            outcome("13 has every cause", self.causes.iter().all(|times| *times > 0), listed.join(", ")),
            outcome(
                "lists have steps accepted by origin alone",
                self.lists > 0 && self.pairs.iter().all(|times| *times > 0),
                format!(
                    "{} lists; {} pairs that end in two queries, {} with such a step, {} in both lists",
                    self.lists, self.pairs[0], self.pairs[1], self.pairs[2]
                ),
            ),
        ]
    }

    /// An accepted step on a checked query over these tables.
    pub fn accepted(&mut self, checked: &Checked, query: &Query, kind: u32, node: u32, tables: &[Relation]) {
        if !alone(checked, query, kind, node) {
            return;
        }
        let mut homes = asked(checked, kind, node);
        homes.retain(|(fix, columns)| !undropped(checked, fix, columns));
        self.kinds[kind as usize] += 1;
        self.grown[kind as usize] += u32::from(homes.iter().any(|(fix, _)| adds_rows(fix, tables)));
        self.both += u32::from(homes.len() == 2);
    }

    /// A step that is refused with 13.
    pub fn refused(&mut self, checked: &Checked, kind: u32, node: u32) {
        for (times, met) in self.causes.iter_mut().zip(causes_in(checked, kind, node)) {
            *times += u32::from(met);
        }
    }

    pub fn list(&mut self, by_origin_alone: bool) {
        self.lists += u32::from(by_origin_alone);
    }

    /// Columns that came home to a row.
    fn home(&mut self, row: &Row, columns: &Columns) {
        for column in columns {
            let another = row.iter().any(|(other, value)| other != column && *value != row[column]);
            self.values[0] += 1;
            self.values[1] += u32::from(another);
        }
    }
}

fn fixes(checked: &Checked) -> Vec<&Term> {
    checked.root.nodes().into_iter().filter(|term| term.is_fix()).collect()
}

fn home(checked: &Checked, fix: &Term) -> Columns {
    let alone = |column: &u8| Columns::from([*column]);
    let comes = |column: &u8| stable(checked, fix, &alone(column)) && !undropped(checked, fix, &alone(column));
    checked.columns(fix).iter().copied().filter(comes).collect()
}

/// Inputs that are tried for one with a column that comes home.
const TRIES: usize = 6;

/// A checked query; most have a fix with a column that comes home, many of these with a step that adds rows.
fn homing(random: &mut Random, capacity: usize) -> Result<(Database, Query, Checked), String> {
    let mut found = input(random, capacity)?;
    for _ in 1..TRIES {
        let (database, _, checked) = &found;
        let homes: Vec<&Term> = fixes(checked).into_iter().filter(|fix| !home(checked, fix).is_empty()).collect();
        if homes.iter().any(|fix| adds_rows(fix, &database.relations())) {
            break;
        }
        let other = input(random, capacity)?;
        if homes.is_empty() || random.once_in(2) {
            found = other;
        }
    }
    Ok(found)
}

fn adds_rows(fix: &Term, tables: &[Relation]) -> bool {
    meaning(fix, tables, MOST) != meaning(fix.seed(), tables, MOST)
}

/// Single rows that a variable is given: some that it holds, some with any values.
fn single_rows(random: &mut Random, checked: &Checked, fix: &Term, tables: &[Relation]) -> Vec<Row> {
    let held: Vec<Row> = meaning(fix, tables, MOST).into_iter().flatten().collect();
    let mut rows: Vec<Row> = (0..3).filter_map(|_| random.pick(held.iter().cloned())).collect();
    rows.extend((0..3).map(|_| checked.columns(fix).iter().map(|c| (*c, random.below(6) as u32)).collect()));
    rows
}

/// The variable being bound to one row, each row of a node on the path has in a column with an origin what that row has at the
/// origin. Followed from the node downwards, a column has the same origin.
pub fn values(random: &mut Random, coverage: &mut Coverage) -> Verdict {
    let (database, query, checked) = homing(random, 40)?;
    let tables = database.relations();
    let mut tested = false;
    for fix in fixes(&checked) {
        let Node::Fix(variable) = fix.line else { continue };
        let rows = single_rows(random, &checked, fix, &tables);
        for term in fix.path() {
            let found = origins(&checked, term);
            for column in checked.columns(term) {
                let followed = match source(&checked, term, *column) {
                    Source::Variable(origin) => Some(origin),
                    _ => None,
                };
                let same = found.get(column).copied() == followed;
                ensure(same, &format!("column {column} of node {}", term.node), &query, &database)?;
            }
            for row in &rows {
                let one = Relation::from([row.clone()]);
                let Some(given) = meaning_on_path(term, variable, &one, &tables, MOST) else { continue };
                let kept = |given: &Row| found.iter().all(|(column, origin)| given[column] == row[origin]);
                let told = || format!("node {} of the variable's {row:?} has {given:?}", term.node);
                ensure(given.iter().all(kept), &told(), &query, &database)?;
                tested |= !given.is_empty();
                if term.node == fix.step().node && !given.is_empty() {
                    coverage.comes_home.home(row, &home(&checked, fix));
                }
            }
        }
        coverage.comes_home.fixes += u32::from(!home(&checked, fix).is_empty());
    }
    Ok(tested)
}

/// A column of the variable that no `drop` on the path names is stable. What document 01's condition accepts is accepted with
/// the same query, and no other refusal than 13 has moved.
pub fn beside_document_01(random: &mut Random, coverage: &mut Coverage) -> Verdict {
    let (database, query, checked) = homing(random, 40)?;
    for fix in fixes(&checked) {
        for column in checked.columns(fix) {
            let column = Columns::from([*column]);
            let kept = !undropped(&checked, fix, &column) || stable(&checked, fix, &column);
            ensure(kept, &format!("{column:?} of node {} isn't stable", fix.node), &query, &database)?;
        }
    }
    for (kind, node) in random::likely(&checked.lines()) {
        let before = apply_by(undropped, &checked, &query, kind, node);
        let now = apply(&checked, &query, kind, node);
        let moved = before == refuse(13, 0) && now != refuse(12, 0);
        ensure(now == before || moved, &format!("step={kind},{node}: {before:?}, {now:?}"), &query, &database)?;
        coverage.comes_home.before += u32::from(before.is_ok());
    }
    Ok(fixes(&checked).iter().any(|fix| !home(&checked, fix).is_empty()))
}

pub fn rewrites(random: &mut Random, coverage: &mut Coverage) -> Verdict {
    let (database, query, checked) = homing(random, 40)?;
    every_rewrite(coverage, &database, &query, &checked)
}

/// The most steps of a list.
const LONGEST: usize = 4;

/// Steps that are accepted one after another, with a random one between now and then, each over another database with the same
/// columns; whether one of them was accepted by origin alone.
fn rearranged(random: &mut Random, database: &Database, first: &Query) -> Result<(Query, bool), String> {
    let (mut held, mut by_origin) = (first.clone(), false);
    for _ in 0..random.below(LONGEST + 1) {
        let other = random::with_columns_of(random, database);
        let checked = check(&held, other.schema()).map_err(|refusal| format!("{refusal:?}{}", told(&held, &other)))?;
        let mut accepted = random::likely(&checked.lines());
        accepted.retain(|(kind, node)| apply(&checked, &held, *kind, *node).is_ok());
        let step = match random.pick(accepted) {
            Some(step) if !random.once_in(6) => step,
            _ => (random.below(KINDS + 2) as u32, random.below(held.count as usize + 2) as u32),
        };
        by_origin |= alone(&checked, &held, step.0, step.1);
        held = rewrite(&other, &held, step.0, step.1).unwrap_or(held);
    }
    Ok((held, by_origin))
}

/// Two lists of steps from one query: what they leave answers alike, and as the first query means.
pub fn two_lists(random: &mut Random, coverage: &mut Coverage) -> Verdict {
    let (database, first, _) = homing(random, 40)?;
    let (left, left_alone) = rearranged(random, &database, &first)?;
    let (right, right_alone) = rearranged(random, &database, &first)?;
    let last = random::with_columns_of(random, &database);
    let tables = last.relations();
    let answer = |query: &Query| {
        let checked = check(query, last.schema()).map_err(|refusal| format!("{refusal:?}{}", told(query, &last)))?;
        let ran = execute(&plan(&checked.root), &tables, MOST, u32::MAX).ok();
        let columns = checked.columns(&checked.root).clone();
        Ok::<_, String>(ran.map(|machine| (columns, machine.registers[checked.root.node - 1].clone())))
    };
    let (Some(on_left), Some(on_right)) = (answer(&left)?, answer(&right)?) else {
        return Ok(false);
    };
    let told = || format!("another answer of\n{}and\n{}", shown(&print_query(&left)), shown(&print_query(&right)));
    ensure(on_left == on_right, &told(), &first, &last)?;
    if let Some(rows) = meaning_of(&first, &tables, MOST) {
        ensure(on_left.1 == rows, &told(), &first, &last)?;
    }
    if left.lines() != right.lines() && !on_left.1.is_empty() {
        let [all, one, both] = &mut coverage.comes_home.pairs;
        *all += 1;
        *one += u32::from(left_alone || right_alone);
        *both += u32::from(left_alone && right_alone);
    }
    Ok(left.lines() != right.lines())
}
