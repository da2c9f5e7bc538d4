//! Two editors on two branches: steps at two nodes of which neither lies under the other, in both orders, and lists of such steps by
//! turns.

use super::desk_and_panel::{damaged, too_long, Rewriting};
use super::last_issues::has_last;
use super::one_piece::has_mu;
use super::{by_construction, ensure, fill_past, input, outcome, told, Coverage, Verdict};
use crate::algebra::Pairing;
use crate::check::{check, Checked};
use crate::panel;
use crate::random::branches::{self, Step};
use crate::random::{self, Random};
use crate::rewrite::{apply, rewrite};
use crate::selfcheck::Outcome;
use crate::term::Term;
use crate::value::{self, Database, Node, Query, Refusal};

/// Steps of a query that are at any node, beside those at lines that a kind looks at.
const ANY: usize = 4;
/// The numbers that a step on a checked query gets are 12 to 15.
const NUMBERS: usize = 4;
/// Entries of a query.
const CAPACITY: usize = 40;
/// Damaged inputs to one that is not.
const DAMAGED: usize = 2;

type Reply = Result<Query, Refusal>;

/// What steps on two branches have met.
#[derive(Default)]
pub struct Met {
    /// Both accepted, by the kind at the lower node and that at the higher.
    kinds: [[u32; 7]; 7],
    /// The branches of these meet at a union, a join, an except and a fix, and at an open node.
    meet: [u32; 5],
    /// These in a query with a `last`, with a `mu`, and with one of the nodes another line as typed.
    last: u32,
    mu: [u32; 2],
    /// Accepted by kind beside 12 to 15; beside these at an open node, and on the path of the fix whose seed is rewritten.
    beside: [[u32; NUMBERS]; 7],
    open: [u32; NUMBERS],
    of_seed: [u32; NUMBERS],
    /// Accepted beside a number that is no node.
    no_node: u32,
    /// Both refused, by number.
    refused: [[u32; NUMBERS]; NUMBERS],
    /// One node under the other: replies that change from refused to accepted, from accepted to refused and to another number, and
    /// two ends.
    under: [u32; 4],
    /// At desk and panel: both accepted, one of them and none on a checked query; what a refused one gets by number.
    places: [[u32; 3]; 2],
    numbers: [[u32; value::NUMBERS + 1]; 2],
    /// Steps that the panel takes only after one at the desk, which has another limit.
    limits: u32,
    /// Lists with accepted steps on both sides, of these at the panel too, with several on both, with a refused step, and with one that
    /// is accepted only after others of its list.
    lists: [u32; 5],
}

impl Met {
    pub fn outcomes(&self) -> Vec<Outcome> {
        let all = |counts: &[u32]| counts.iter().all(|times| *times > 0);
        let kinds = self.kinds[1..].iter().all(|kinds| all(&kinds[1..]));
        let beside = self.beside[1..].iter().all(|numbers| all(numbers));
        let met = all(&self.mu) && all(&self.meet) && self.last > 0;
        let open = all(&self.open) && all(&self.of_seed) && self.no_node > 0;
        let numbers = |at: usize| (1..=11).chain([20]).all(|number| self.numbers[at][number] > 0);
        vec![
            outcome(
                "steps of each two kinds are accepted on two branches",
                kinds && met,
                format!(
                    "by kinds {:?}, meeting at a union, join, except and fix and at an open node {:?}, with a last {}, with a mu and at moved \
                    lines {:?}",
                    self.kinds[1..].iter().map(|kinds| &kinds[1..]).collect::<Vec<_>>(),
                    self.meet,
                    self.last,
                    self.mu
                ),
            ),
            outcome(
                "each kind is accepted beside each refusal, and any two refusals meet",
                beside && open && self.refused.iter().all(|numbers| all(numbers)),
                format!(
                    "beside 12 to 15 by kind {:?}, these at open nodes {:?}, under the fix of the rewritten seed {:?}, at no node {}; both \
                    refused {:?}",
                    &self.beside[1..],
                    self.open,
                    self.of_seed,
                    self.no_node,
                    self.refused
                ),
            ),
            outcome(
                "steps at two nodes of which one lies under the other differ",
                all(&self.under),
                format!("refused to accepted, accepted to refused, another number, two ends {:?}", self.under),
            ),
            outcome(
                "steps on two branches are met at desk and panel, with every refusal of a query or database",
                self.places.iter().all(|ends| all(ends)) && numbers(0) && numbers(1) && self.limits > 0,
                format!(
                    "both, one and none accepted {:?}, refused by number {:?}, taken by the panel after the desk alone {}",
                    self.places,
                    self.numbers.each_ref().map(|numbers| &numbers[1..]),
                    self.limits
                ),
            ),
            outcome(
                "lists on two branches have accepted steps on both",
                all(&self.lists),
                format!("accepted on both, at the panel too, several, a refused one, by others alone {:?}", self.lists),
            ),
        ]
    }

    /// Two steps on a checked query at nodes of which neither lies under the other, the lower one first.
    fn apart(&mut self, query: &Query, checked: &Checked, steps: [Step; 2], replies: [&Reply; 2]) {
        let [(left, lower), (right, higher)] = steps;
        match replies {
            [Ok(_), Ok(_)] => {
                self.kinds[left as usize][right as usize] += 1;
                self.both_accepted(query, checked, [lower, higher]);
            }
            [Ok(_), Err(refusal)] => self.one_accepted(checked, steps[0], higher, *refusal),
            [Err(refusal), Ok(_)] => self.one_accepted(checked, steps[1], lower, *refusal),
            [Err(one), Err(other)] => self.refused[number(one)][number(other)] += 1,
        }
    }

    fn both_accepted(&mut self, query: &Query, checked: &Checked, nodes: [u32; 2]) {
        let fork = meeting(&checked.root, nodes);
        let sort = match fork.line {
            Node::Pair(Pairing::Union) => 0,
            Node::Pair(Pairing::Join) => 1,
            Node::Pair(Pairing::Except) => 2,
            _ => 3,
        };
        self.meet[sort] += 1;
        self.meet[4] += u32::from(!fork.closed());
        self.last += u32::from(has_last(query));
        self.mu[0] += u32::from(has_mu(query));
        let line = |node: u32| checked.root.at(node as usize).map(|term| term.line);
        self.mu[1] += u32::from(nodes.iter().any(|node| line(*node) != Some(query.nodes[*node as usize - 1])));
    }

    fn one_accepted(&mut self, checked: &Checked, (kind, accepted): Step, node: u32, refusal: Refusal) {
        let number = number(&refusal);
        self.beside[kind as usize][number] += 1;
        let Some(term) = checked.root.at(node as usize) else {
            self.no_node += 1;
            return;
        };
        if !term.closed() {
            let fork = meeting(&checked.root, [accepted, node]);
            let of_seed = fork.is_fix() && fork.path().iter().any(|path| path.node == term.node);
            self.open[number] += 1;
            self.of_seed[number] += u32::from(of_seed && fork.seed().holds(accepted as usize));
        }
    }

    fn under(&mut self, before: &Reply, after: &Reply) {
        match (before, after) {
            (Err(_), Ok(_)) => self.under[0] += 1,
            (Ok(_), Err(_)) => self.under[1] += 1,
            (Err(before), Err(after)) => self.under[2] += u32::from(before != after),
            _ => {}
        }
    }
}

fn number(refusal: &Refusal) -> usize {
    refusal.number as usize - 12
}

/// The lowest node that both lie under.
fn meeting(root: &Term, nodes: [u32; 2]) -> &Term {
    let both = |term: &&Term| nodes.iter().all(|node| term.holds(*node as usize));
    root.operands.iter().find(both).map_or(root, |operand| meeting(operand, nodes))
}

/// A checked query, most often of two branches.
fn branching(random: &mut Random) -> Result<(Database, Query, Checked), String> {
    let (database, mut query, checked) = if random.once_in(6) {
        input(random, CAPACITY)?
    } else {
        let database = random::database(random);
        let query = branches::query(random, database.schema(), CAPACITY);
        by_construction(database, query)?
    };
    fill_past(random, &mut query);
    Ok((database, query, checked))
}

/// Steps of kinds 1 to 6 at lines that they look at and some others, by node. Some numbers are no node.
fn steps_of(random: &mut Random, checked: &Checked) -> Vec<Step> {
    let mut steps = branches::commuting(&checked.lines());
    steps.extend((0..ANY).map(|_| (1 + random.below(6) as u32, random.below(checked.root.node + 2) as u32)));
    steps.sort_by_key(|(_, node)| *node);
    steps
}

/// What steps reply on a query, and what they reply after each that is accepted.
struct Replies {
    before: Vec<Reply>,
    after: Vec<Option<Vec<Reply>>>,
}

impl Replies {
    fn of(database: &Database, query: &Query, checked: &Checked, steps: &[Step]) -> Result<Replies, Refusal> {
        let replies = |query: &Query, checked: &Checked| -> Vec<Reply> {
            steps.iter().map(|(kind, node)| apply(checked, query, *kind, *node)).collect()
        };
        let before = replies(query, checked);
        let mut after = Vec::new();
        for reply in &before {
            let left = reply.as_ref().ok();
            after.push(left.map(|left| Ok(replies(left, &check(left, database.schema())?))).transpose()?);
        }
        Ok(Replies { before, after })
    }

    /// After a refused step the query is as given.
    fn after(&self, first: usize, second: usize) -> &Reply {
        self.after[first].as_ref().map_or(&self.before[second], |replies| &replies[second])
    }

    /// What is held after both.
    fn end<'a>(&'a self, given: &'a Query, first: usize, second: usize) -> &'a Query {
        let left = self.after(first, second).as_ref().or(self.before[first].as_ref());
        left.unwrap_or(given)
    }
}

/// Whether two replies accept or refuse alike.
fn alike(one: &Reply, other: &Reply) -> bool {
    one.as_ref().err() == other.as_ref().err()
}

/// What one of two accepted steps leaves, with the lines that end at the other's node as that leaves them.
fn with_lines(left: &Query, other: &Query, node: &Term) -> Query {
    let mut both = left.clone();
    both.nodes[node.first() - 1..node.node].copy_from_slice(&other.nodes[node.first() - 1..node.node]);
    both
}

/// Any two of a query's steps at different nodes. Where neither node lies under the other, each replies after the other as before it
/// and both orders leave one query, the entries past its count included: the lines of each step where it was made alone.
pub fn pairs(random: &mut Random, coverage: &mut Coverage) -> Verdict {
    let (database, query, checked) = branching(random)?;
    let met = &mut coverage.two_branches;
    let steps = steps_of(random, &checked);
    let replies = Replies::of(&database, &query, &checked, &steps)
        .map_err(|refusal| format!("{refusal:?} after a step{}", told(&query, &database)))?;
    let mut tested = false;
    for (left, right) in (0..steps.len()).flat_map(|right| (0..right).map(move |left| (left, right))) {
        let [lower, higher] = [left, right].map(|step| steps[step].1 as usize);
        let orders = [(left, right), (right, left)];
        let [one, other] = orders.map(|(first, second)| replies.end(&query, first, second));
        if checked.root.apart(lower, higher) {
            let as_before = |&(first, second)| alike(replies.after(first, second), &replies.before[second]);
            if !orders.iter().all(as_before) || one != other {
                let [left, right] = [left, right].map(|step| (steps[step], &replies.before[step]));
                return Err(format!("{left:?} and {right:?} leave {one:?} or {other:?}{}", told(&query, &database)));
            }
            let both = [left, right].map(|step| &replies.before[step]);
            if let ([Ok(left), Ok(right)], Some(node)) = (both, checked.root.at(higher)) {
                ensure(*one == with_lines(left, right, node), "not the lines of both steps", &query, &database)?;
                tested = true;
            }
            met.apart(&query, &checked, [steps[left], steps[right]], both);
        } else if lower != higher {
            for (first, second) in orders {
                met.under(&replies.before[second], replies.after(first, second));
            }
            met.under[3] += u32::from(one != other);
        }
    }
    Ok(tested)
}

/// What steps leave, one after another, and whether each was accepted.
fn made(
    rewriting: Rewriting,
    database: &Database,
    query: &Query,
    steps: impl IntoIterator<Item = Step>,
) -> (Query, Vec<Result<(), Refusal>>) {
    let mut held = query.clone();
    let step = |(kind, node)| rewriting(database, &held, kind, node).map(|rewritten| held = rewritten);
    let replies = steps.into_iter().map(step).collect();
    (held, replies)
}

/// A query and a database off the form, with another count of nodes, with fewer tables or with edits.
fn harmed(random: &mut Random, database: &Database, query: &Query) -> (Database, Query) {
    let (mut off, mut harmed) = (database.clone(), query.clone());
    match random.below(10) {
        0 => harmed.count = if random.once_in(2) { 0 } else { query.nodes.len() as u32 + 1 },
        1 => off.tables = random.below(database.tables as usize + 1) as u32,
        _ => (off, harmed) = damaged(random, database, query),
    }
    (off, harmed)
}

/// Two steps in both orders at desk and panel, on queries and databases that are refused too.
pub fn anywhere(random: &mut Random, coverage: &mut Coverage) -> Verdict {
    let database = random::database(random);
    let mut query = branches::query(random, database.schema(), CAPACITY);
    fill_past(random, &mut query);
    in_both_orders(random, &mut coverage.two_branches, &database, &query)?;
    for _ in 0..DAMAGED {
        let (off, harmed) = harmed(random, &database, &query);
        in_both_orders(random, &mut coverage.two_branches, &off, &harmed)?;
    }
    Ok(true)
}

/// Each replies after the other as before it, and both orders leave one query. What refuses the query or the database refuses both,
/// and the query stays as given.
fn in_both_orders(random: &mut Random, met: &mut Met, database: &Database, query: &Query) -> Result<(), String> {
    let steps = branches::pair(random, database.schema(), query);
    let desk = database.form().and_then(|()| check(query, database.schema()));
    let places = [(rewrite as Rewriting, desk), (panel::rewrite, panel::check(database, query))];
    for (at, (rewriting, checked)) in places.into_iter().enumerate() {
        let one = made(rewriting, database, query, steps);
        let mut other = made(rewriting, database, query, steps.into_iter().rev());
        other.1.reverse();
        if one != other {
            return Err(format!("{steps:?} leave {one:?} or {other:?} at {at}: {query:?} {database:?}"));
        }
        match checked {
            Ok(_) => met.places[at][one.1.iter().filter(|reply| reply.is_err()).count()] += 1,
            Err(refusal) => {
                met.numbers[at][refusal.number as usize] += 1;
                if one != (query.clone(), vec![Err(refusal); 2]) {
                    return Err(format!("{steps:?} give {one:?}, not {refusal:?} at {at}: {query:?} {database:?}"));
                }
            }
        }
    }
    if too_long(query) {
        let [one, other] = steps;
        let left = rewrite(database, query, one.0, one.1);
        met.limits += u32::from(left.is_ok_and(|left| panel::rewrite(database, &left, other.0, other.1).is_ok()));
    }
    Ok(())
}

/// Two lists of steps, each at and under one of two nodes of which neither lies under the other, by turns at the desk and by others at
/// the panel. Each step replies as in its list alone, and both leave one query.
pub fn by_turns(random: &mut Random, coverage: &mut Coverage) -> Verdict {
    let (database, query, checked) = branching(random)?;
    let Some(lists) = branches::lists(random, database.schema(), &query, &checked) else {
        return Ok(false);
    };
    let alone = lists.each_ref().map(|list| made(rewrite, &database, &query, list.iter().copied()).1);
    let mut ends = Vec::new();
    let second: Rewriting = if too_long(&query) { rewrite } else { panel::rewrite };
    for rewriting in [rewrite, second] {
        let turns = branches::turns(random, &lists);
        let (end, replies) = made(rewriting, &database, &query, turns.iter().map(|(_, step)| *step));
        for (side, alone) in alone.iter().enumerate() {
            let own = turns.iter().zip(&replies).filter(|((of, _), _)| *of == side).map(|(_, reply)| reply);
            ensure(own.eq(alone), &format!("{turns:?} give {replies:?}, alone {alone:?}"), &query, &database)?;
        }
        ends.push(end);
    }
    ensure(ends[0] == ends[1], &format!("{lists:?} leave {ends:?}"), &query, &database)?;
    let met = &mut coverage.two_branches.lists;
    let accepted = alone.each_ref().map(|replies| replies.iter().filter(|reply| reply.is_ok()).count());
    if accepted.iter().all(|times| *times > 0) {
        let by_others = |(step, reply): (&Step, &Result<(), Refusal>)| {
            reply.is_ok() && apply(&checked, &query, step.0, step.1).is_err()
        };
        let replies = || alone.iter().flatten();
        met[0] += 1;
        met[1] += u32::from(!too_long(&query));
        met[2] += u32::from(accepted.iter().all(|times| *times > 1));
        met[3] += u32::from(replies().any(|reply| reply.is_err()));
        met[4] += u32::from(lists.iter().flatten().zip(replies()).any(by_others));
    }
    Ok(lists.iter().all(|list| !list.is_empty()))
}
