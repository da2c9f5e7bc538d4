//! Filters past the ordinary lines: kinds 7 to 11 on queries at and about the node limits, at the desk within several limits and at the
//! panel, and lists of all kinds, made at both, after which the engine's rows are those before them.

use crate::at::At;
use crate::call::Call;
use crate::inputs::{damaged, over};
use crate::slices::{flat_database, flat_query, query_of, Slices, DATABASE_ROOM, QUERY_ROOM, RUN_ROOM};
use crate::tally::Tally;
use crate::{compared, made};
use reference::check::{check, Checked};
use reference::plan::plan;
use reference::random::branches::Step;
use reference::random::{self, filters, Random};
use reference::rewrite::{apply, KINDS};
use reference::run::workspace_entries;
use reference::value::{Database, Query, Refusal, COLUMNS, NODES};

/// The first of the kinds that take a filter past an ordinary line, and how many there are.
const FIRST: u32 = 7;
const PAST: usize = KINDS + 1 - FIRST as usize;
/// Steps of a query that are taken of each of these kinds, and such of any of them, and of one past them, at any node.
const EACH: usize = 2;
const ANY: usize = 3;
/// The most steps of a list, and the row limit of the runs before and after it.
const LONGEST: usize = 6;
const ROWS: u32 = 48;

/// What filters past the ordinary lines have met, each at desk and panel.
#[derive(Default)]
pub struct Met {
    /// Accepted and refused with 12 by kind, 22 by kinds 8 and 9.
    accepted: [[u64; PAST]; 2],
    twelve: [[u64; PAST]; 2],
    lacking: [[u64; 2]; 2],
    /// Kind 7 with the most nodes that there can be: refused with 2, accepted with room for one node, such a query as typed having as many
    /// nodes as the limit, and 12 without room.
    most: [[u64; 4]; 2],
    /// The same at the desk within a lower limit.
    lower: [u64; 4],
    /// Refused for the query, for the database and for a short slice.
    refused: [[u64; 3]; 2],
    /// Lists by what was accepted: kinds of both sorts, kinds 7 at desk and panel; and those whose rows were compared.
    lists: [u64; 3],
}

impl Met {
    /// A step with its limit on a query that has so many nodes as typed and once split.
    fn meet(&mut self, at: At, (limit, typed, split): (usize, usize, usize), kind: u32, reply: Result<(), Refusal>) {
        let Some(sort) = kind.checked_sub(FIRST).map(|sort| sort as usize).filter(|sort| *sort < PAST) else {
            return;
        };
        match reply {
            Ok(()) => self.accepted[at as usize][sort] += 1,
            Err(Refusal { number: 12, .. }) => self.twelve[at as usize][sort] += 1,
            Err(Refusal { number: 22, .. }) => self.lacking[at as usize][sort - 1] += 1,
            Err(_) => {}
        }
        let room = match at {
            At::Desk if limit < NODES => &mut self.lower,
            _ => &mut self.most[at as usize],
        };
        if kind == FIRST && typed <= limit {
            let limit = limit.min(at.nodes());
            room[0] += u64::from(reply == Err(Refusal { number: 2, place: 0 }));
            room[1] += u64::from(reply.is_ok() && split + 1 == limit);
            room[2] += u64::from(reply.is_ok() && typed == limit);
            room[3] += u64::from(reply == Err(Refusal { number: 12, place: 0 }) && split == limit);
        }
    }

    /// A step on damaged slices.
    fn refused(&mut self, at: At, reply: Result<(), Refusal>) {
        let sort = match reply {
            Err(Refusal { number: 11, .. }) => 1,
            Err(Refusal { number: 17, .. }) => 2,
            Err(Refusal { number: 1..=10 | 20, .. }) => 0,
            _ => return,
        };
        self.refused[at as usize][sort] += 1;
    }

    pub fn print(&self) {
        for (at, name) in ["desk", "panel"].into_iter().enumerate() {
            let (accepted, twelve, lacking) = (self.accepted[at], self.twelve[at], self.lacking[at]);
            println!(
                "{name}, filters past lines: accepted by kind {accepted:?}, 12 by kind {twelve:?}, 22 {lacking:?}"
            );
            let (most, [query, database, short]) = (self.most[at], self.refused[at]);
            println!(
                "{name}, filters past lines: with the most nodes 2, the last node, as typed and 12 {most:?}, refused for the query {query}, for \
                the database {database}, for a short slice {short}"
            );
        }
        let (lower, lists) = (self.lower, self.lists);
        println!("desk, filters past lines: within a lower limit 2, the last node, as typed and 12 {lower:?}");
        println!("lists of all kinds: of both sorts, kinds 7 at desk and panel, rows compared {lists:?}");
    }

    pub fn all_met(&self) -> bool {
        let by_kind = self.accepted.iter().chain(&self.twelve).flatten().chain(self.lacking.iter().flatten());
        let room = self.most.iter().chain([&self.lower]).flatten();
        let others = self.refused.iter().flatten().chain(&self.lists);
        by_kind.chain(room).chain(others).all(|times| *times > 0)
    }
}

/// A query with filters over ordinary lines, often with as many nodes as there can be or one less.
fn input(random: &mut Random, at: At) -> (Database, Query) {
    let database = random::database(random);
    let often = if at.nodes() == NODES { 4 } else { 2 };
    let query = if random.once_in(often) {
        let split = at.nodes() - random.below(2);
        filters::query_of(random, database.schema(), at.nodes(), split)
    } else {
        filters::query(random, database.schema(), NODES)
    };
    (database, query)
}

pub fn cases(random: &mut Random, tally: &mut Tally) {
    for at in At::BOTH {
        let (database, query) = input(random, at);
        let checked = check(&query, database.schema()).expect("checked by construction");
        for step in steps(random, &checked) {
            one(random, tally, at, step, (&database, &query, &checked));
        }
        list(random, tally, at, &database, &query);
    }
}

/// Steps of these kinds at lines that they look at, and some at any.
fn steps(random: &mut Random, checked: &Checked) -> Vec<Step> {
    let likely = random::likely(&checked.lines());
    let mut steps = Vec::new();
    for kind in (0..EACH).flat_map(|_| FIRST..=KINDS as u32) {
        steps.extend(random.pick(likely.iter().copied().filter(|(of, _)| *of == kind)));
    }
    let any = |_| (FIRST + random.below(PAST + 1) as u32, random.below(checked.root.node + 2) as u32);
    steps.extend((0..ANY).map(any));
    steps
}

/// A step within each limit that makes a difference, and on damaged slices.
fn one(
    random: &mut Random,
    tally: &mut Tally,
    at: At,
    step: Step,
    (database, query, checked): (&Database, &Query, &Checked),
) {
    let (typed, split) = (query.lines().len(), checked.root.node);
    let limits = match at {
        At::Desk => vec![split, split + 1, typed, typed + 1, NODES, usize::MAX],
        At::Panel => vec![at.nodes()],
    };
    for limit in limits {
        let given = over(random, query, database);
        let ((reply, _), _) = made(tally, at.rewrite_within(limit, step), &given);
        tally.filters.meet(at, (limit, typed, split), step.0, reply);
    }
    let harmed = damaged(random, query, database);
    let ((reply, _), _) = made(tally, at.rewrite_within(NODES, step), &harmed);
    tally.filters.refused(at, reply);
}

/// A query and a database in slices with all their room.
pub fn roomy(random: &mut Random, database: &Database, query: &Query) -> Slices {
    Slices {
        query: [flat_query(query.lines()), random.fill(QUERY_ROOM)].concat(),
        database: [flat_database(database), random.fill(DATABASE_ROOM)].concat(),
        store: database.store.clone(),
        ..Slices::default()
    }
}

/// Steps of all kinds one after another, at the desk within limits that differ and at the panel. A refused one leaves the slices as they
/// were, an accepted one adds a node exactly if it is a kind 7, and a run after them gives the rows that one before them gives.
fn list(random: &mut Random, tally: &mut Tally, first: At, database: &Database, query: &Query) {
    let given = roomy(random, database, query);
    let mut left = given.clone();
    let mut accepted = [0; 2];
    let mut copied = [false; 2];
    for _ in 0..1 + random.below(LONGEST) {
        let Some((checked, step)) = next(random, database, &left) else { return };
        let at = if random.once_in(2) { first } else { At::BOTH[random.below(2)] };
        let limit = [checked.root.node, checked.root.node + 1, NODES, NODES][random.below(4)];
        let (_, (reply, slices)) = made(tally, at.rewrite_within(limit, step), &left);
        let count = checked.root.node as u32 + u32::from(step.0 == FIRST);
        let due = if reply.is_ok() { count } else { left.query[0] };
        tally.case(|| format!("{step:?} at {at:?} within {limit}: nodes of {left:?}"), &due, &slices.query[0]);
        if reply.is_ok() {
            accepted[usize::from(step.0 >= FIRST)] += 1;
            copied[at as usize] |= step.0 == FIRST;
        } else {
            tally.case(|| format!("{step:?} at {at:?} within {limit}, refused"), &left, &slices);
        }
        left = slices;
    }
    let met = &mut tally.filters.lists;
    met[0] += u64::from(accepted.iter().all(|times| *times > 0));
    met[1] += u64::from(copied.iter().all(|copied| *copied));
    if let (Some(before), Some(after)) = (rows(tally, database, &given), rows(tally, database, &left)) {
        tally.case(|| format!("rows before and after steps that leave {left:?} of {given:?}"), &before, &after);
        tally.filters.lists[2] += u64::from(given.query != left.query);
    }
}

/// The query in slices, checked, and a step that is often accepted at the desk, now and then another.
fn next(random: &mut Random, database: &Database, left: &Slices) -> Option<(Checked, Step)> {
    let held = query_of(&left.query, NODES);
    let checked = check(&held, database.schema()).ok()?;
    let mut likely = random::likely(&checked.lines());
    if !random.once_in(4) {
        likely.retain(|(kind, node)| apply(&checked, &held, *kind, *node).is_ok());
    }
    let any = (random.below(KINDS + 2) as u32, random.below(checked.root.node + 2) as u32);
    let step = random.pick(likely).unwrap_or(any);
    Some((checked, step))
}

/// The columns, the number and the entries of the rows that a run of the engine gives, if it finishes.
fn rows(tally: &mut Tally, database: &Database, held: &Slices) -> Option<(u32, u32, Vec<u32>)> {
    let checked = check(&query_of(&held.query, NODES), database.schema()).ok()?;
    let workspace = vec![1; workspace_entries(plan(&checked.root).registers, ROWS)];
    let answer = vec![1; COLUMNS * ROWS as usize];
    let given = Slices { workspace, answer, told: vec![1; RUN_ROOM], ..held.clone() };
    let left = compared(tally, Call::Run { limit: NODES, rows: ROWS as usize, budget: u32::MAX }, &given)?;
    let entries = COLUMNS * left.told[1] as usize;
    Some((left.told[0], left.told[1], left.answer[..entries].to_vec()))
}
