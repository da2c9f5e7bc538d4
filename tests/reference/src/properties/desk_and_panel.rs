//! The wall panel beside the desk, on queries of about 32 nodes and registers of about 64 rows.

use super::{ensure, outcome, told, Coverage, Verdict, MOST};
use crate::check::check;
use crate::damage;
use crate::meaning::meaning_of;
use crate::panel;
use crate::plan::plan;
use crate::random::{self, filters, Random};
use crate::rewrite::{rewrite, KINDS};
use crate::run::{run, workspace_entries, Answer};
use crate::selfcheck::{shown, Outcome};
use crate::text::{print_query, read_query};
use crate::value::{refuse, slots_of, Database, Node, Query, Refusal, COLUMNS, NODES, NUMBERS};

/// Damaged inputs to one that is not.
const DAMAGED: usize = 4;

/// What desk and panel have met.
#[derive(Default)]
pub struct Met {
    /// Steps that the panel accepted by kind, and its refusals by number.
    kinds: [u32; KINDS + 1],
    numbers: [u32; NUMBERS + 1],
    /// Texts and checked values with one node too many for the panel alone.
    one_more: [u32; 2],
    /// Runs that both finished, that 18 ended at the panel alone, at the desk alone; and those after steps that both finished.
    runs: [u32; 3],
    runs_after_steps: u32,
    /// Lists of steps by which a query of the panel outgrows it at the desk.
    outgrown: u32,
    /// The most registers of a run at the panel.
    registers: usize,
}

impl Met {
    pub fn refused(&mut self, refusal: Refusal) {
        self.numbers[refusal.number as usize] += 1;
    }

    /// Everything was met, of the numbers all but 16.
    pub fn outcome(&self) -> Outcome {
        let (kinds, numbers) = (&self.kinds[1..], &self.numbers[1..]);
        let counts = [&self.one_more[..], &self.runs, &[self.runs_after_steps, self.outgrown]].concat();
        let registers = self.registers;
        let seen = format!(
            "accepted by kind {kinds:?}, refused by number {numbers:?}, one node too many {:?}, both finished or one {:?}, \
            after steps {}, outgrown at the desk {}, at most {registers} registers",
            self.one_more, self.runs, self.runs_after_steps, self.outgrown
        );
        let given = (1..).zip(numbers).all(|(number, times)| (*times > 0) == (number != 16));
        let full = kinds.iter().chain(&counts).all(|times| *times > 0);
        let met = given && full && workspace_entries(registers, panel::ROW_LIMIT) == panel::WORKSPACE;
        outcome("the panel accepts every kind, gives every number but 16 and needs its workspace", met, seen)
    }
}

/// A number up to two below or above.
pub fn about(random: &mut Random, number: usize) -> usize {
    number - 2 + random.below(5)
}

/// A database and a checked query, half of them near a limit of the panel.
pub fn input(random: &mut Random) -> (Database, Query) {
    if random.once_in(4) {
        let rows = about(random, panel::ROW_LIMIT as usize);
        return random::query_of_rows(random, rows as u32);
    }
    let database = random::database(random);
    let nodes = about(random, panel::NODES);
    let query = match random.below(6) {
        0 => random::query_of(random, database.schema(), nodes),
        1 => random::query_of_fixes(random, database.schema(), nodes),
        2 => filters::query_of(random, database.schema(), NODES, nodes),
        _ => random::query(random, database.schema(), NODES),
    };
    (database, query)
}

pub fn too_long(query: &Query) -> bool {
    query.count as usize > panel::NODES
}

pub fn texts(random: &mut Random, coverage: &mut Coverage) -> Verdict {
    let lines: Vec<Node> = (0..about(random, panel::NODES)).map(|_| random::node(random)).collect();
    let mut text = print_query(&Query::new(&lines, lines.len()));
    if random.once_in(3) {
        text = damage::text(random, &text);
    }
    let due = match read_query(&text, NODES) {
        Ok(query) if too_long(&query) => {
            coverage.panel.one_more[0] += u32::from(query.count as usize == panel::NODES + 1);
            refuse(2, 2)
        }
        read => read.map(|query| query.lines().to_vec()),
    };
    let read = panel::read(&text).map(|query| query.lines().to_vec());
    if let Err(refusal) = read {
        coverage.panel.refused(refusal);
    }
    if read == due {
        Ok(true)
    } else {
        Err(format!("read as {read:?}:\n{}", shown(&text)))
    }
}

/// The panel's reply by the desk's.
pub fn due<T>(query: &Query, desk: Result<T, Refusal>) -> Result<T, Refusal> {
    match desk {
        Err(Refusal { number: 11, .. }) => desk,
        _ if too_long(query) => refuse(2, 0),
        _ => desk,
    }
}

/// The same of a step, which may leave one node too many.
fn due_of_step(query: &Query, desk: Result<Query, Refusal>) -> Result<Query, Refusal> {
    match due(query, desk)? {
        left if too_long(&left) => refuse(2, 0),
        left => Ok(left),
    }
}

pub fn replies(random: &mut Random, coverage: &mut Coverage) -> Verdict {
    let (database, query) = input(random);
    one_reply(random, coverage, &database, &query)?;
    for _ in 0..DAMAGED {
        let (off, harmed) = damaged(random, &database, &query);
        one_reply(random, coverage, &off, &harmed)?;
    }
    Ok(true)
}

/// A database off the form, a query off the form, one with a `mu` that gets 20, or one with edits.
pub fn damaged(random: &mut Random, database: &Database, query: &Query) -> (Database, Query) {
    let (mut off, mut harmed) = (database.clone(), query.clone());
    match random.below(8) {
        0 => (off, _) = damage::database(random, database),
        1 => harmed.nodes[random.below(query.count as usize)] = Node::Drop(COLUMNS as u8),
        2 => harmed = damage::spoilt(random, query).map_or(query.clone(), |spoilt| spoilt.query),
        _ => harmed = damage::query(random, query),
    }
    (off, harmed)
}

/// The check, the plan and some steps.
fn one_reply(random: &mut Random, coverage: &mut Coverage, database: &Database, query: &Query) -> Result<(), String> {
    let met = &mut coverage.panel;
    let told = |what: &str| format!("{what}: {query:?} {database:?}");
    let checked = database.form().and_then(|()| check(query, database.schema()));
    met.one_more[1] += u32::from(checked.is_ok() && query.count as usize == panel::NODES + 1);
    let desk = due(query, checked);
    if let Err(refusal) = desk {
        met.refused(refusal);
    }
    if panel::check(database, query) != desk {
        return Err(told("checked"));
    }
    if panel::compile(database, query) != desk.map(|checked| plan(&checked.root)) {
        return Err(told("compiled"));
    }
    for (kind, node) in [0; 2].map(|_| random::steps(random, query)).concat() {
        let desk = due_of_step(query, rewrite(database, query, kind, node));
        if panel::rewrite(database, query, kind, node) != desk {
            return Err(told(&format!("step={kind},{node}")));
        }
        match desk {
            Ok(_) => met.kinds[kind as usize] += 1,
            Err(refusal) => met.refused(refusal),
        }
    }
    Ok(())
}

/// A step, and the database that it gets.
type Step = (Database, u32, u32);
pub type Rewriting = fn(&Database, &Query, u32, u32) -> Result<Query, Refusal>;

/// What is held after steps, each made at the desk or at the panel.
fn held(first: &Query, steps: &[Step], mut place: impl FnMut() -> Rewriting) -> Query {
    let step = |held: Query, (database, kind, node): &Step| place()(database, &held, *kind, *node).unwrap_or(held);
    steps.iter().fold(first.clone(), step)
}

pub fn lists_of_rewrites(random: &mut Random, coverage: &mut Coverage) -> Verdict {
    let (database, first) = input(random);
    if too_long(&first) {
        return Ok(false);
    }
    let lines = check(&first, database.schema()).map_or(Vec::new(), |checked| checked.lines());
    // Where there are any, one that adds a node.
    let adding = random.pick(random::likely(&lines).into_iter().filter(|(kind, _)| *kind == 7));
    let mut steps: Vec<Step> = Vec::new();
    for (kind, node) in adding.into_iter().chain([0; 3].map(|_| random::steps(random, &first)).concat()) {
        steps.push((random::with_columns_of(random, &database), kind, node));
    }
    let at_desk = held(&first, &steps, || rewrite);
    let last = held(&first, &steps, || panel::rewrite);
    ensure(!too_long(&last), "too long for the panel", &first, &database)?;
    // No step takes a node away but the first that splits, so the desk's queries were all as short as its last.
    if too_long(&at_desk) {
        coverage.panel.outgrown += 1;
    } else {
        ensure(last == at_desk, "another query at the panel", &first, &database)?;
        let mixed = held(&first, &steps, || if random.once_in(2) { rewrite } else { panel::rewrite });
        ensure(mixed == last, "another query by turns", &first, &database)?;
    }
    let database = random::with_columns_of(random, &database);
    let before = desk_run(&database, &first, MOST as u32, u32::MAX);
    let after = (desk_run(&database, &last, MOST as u32, u32::MAX), panel_run(&database, &last, u32::MAX));
    let (Ok(before), (Ok(desk), Ok(panel)), true) = (before, after, last != first) else {
        return Ok(false);
    };
    ensure(desk == panel, "another answer at the panel", &last, &database)?;
    let same = (before.0.columns, before.1) == (panel.0.columns, panel.1);
    ensure(same, &format!("another answer as\n{}", shown(&print_query(&last))), &first, &database)?;
    coverage.panel.runs_after_steps += 1;
    Ok(true)
}

/// What a run tells, and the entries of its rows.
type Finished = (Answer, Vec<u32>);

fn finished(answer: Answer, mut slots: Vec<u32>) -> Finished {
    slots.truncate(COLUMNS * answer.rows as usize);
    (answer, slots)
}

/// With the workspace and the answer slice that are enough for such a query: a `mu` becomes a fix, which has one node fewer and
/// one register more.
fn desk_run(database: &Database, query: &Query, row_limit: u32, budget: u32) -> Result<Finished, Refusal> {
    let fixes = query.lines().iter().filter(|line| matches!(line, Node::Fix(_))).count();
    let mut workspace = vec![7; workspace_entries(query.count as usize + fixes, row_limit)];
    let mut slots = vec![7; COLUMNS * row_limit as usize];
    run(database, query, row_limit, budget, &mut workspace, &mut slots).map(|answer| finished(answer, slots))
}

/// With the workspace and the answer slice that are enough for every query.
fn panel_run(database: &Database, query: &Query, budget: u32) -> Result<Finished, Refusal> {
    let mut workspace = vec![7; panel::WORKSPACE];
    let mut slots = vec![7; COLUMNS * panel::ROW_LIMIT as usize];
    panel::run(database, query, budget, &mut workspace, &mut slots).map(|answer| finished(answer, slots))
}

pub fn runs(random: &mut Random, coverage: &mut Coverage) -> Verdict {
    let (database, query) = input(random);
    let row_limit = [24, about(random, panel::ROW_LIMIT as usize) as u32, MOST as u32][random.below(3)];
    let [for_desk, for_panel] = [0, 1].map(|_| if random.once_in(6) { random.below(200) as u32 } else { u32::MAX });
    let desk = desk_run(&database, &query, row_limit, for_desk);
    let panel = panel_run(&database, &query, for_panel);
    if let Err(refusal) = panel {
        coverage.panel.refused(refusal);
        let known = if too_long(&query) { refusal.number == 2 } else { matches!(refusal.number, 18 | 19) };
        ensure(known && refusal.place == 0, &format!("{refusal:?} at the panel"), &query, &database)?;
    }
    let [both, at_panel, at_desk] = &mut coverage.panel.runs;
    match (desk, panel) {
        (Ok(desk), Ok(panel)) => {
            *both += 1;
            ensure(desk == panel, "another answer at the panel", &query, &database)?;
            if let Some(rows) = meaning_of(&query, &database.relations(), MOST) {
                ensure(slots_of(&rows) == panel.1, "not the meaning", &query, &database)?;
            }
            Ok(true)
        }
        (Ok(_), Err(Refusal { number: 18, .. })) => {
            *at_panel += 1;
            ensure(row_limit > panel::ROW_LIMIT, "18 at the panel alone", &query, &database)?;
            Ok(true)
        }
        (Err(Refusal { number: 18, .. }), Ok(_)) => {
            *at_desk += 1;
            ensure(row_limit < panel::ROW_LIMIT, "18 at the desk alone", &query, &database)?;
            Ok(true)
        }
        _ => Ok(false),
    }
}

/// The panel's row limit is exact, and so is the desk's beside it.
pub fn row_limits(random: &mut Random, _: &mut Coverage) -> Verdict {
    let rows = about(random, panel::ROW_LIMIT as usize) as u32;
    let (database, query) = random::query_of_rows(random, rows);
    let desk = desk_run(&database, &query, rows, u32::MAX);
    ensure(desk.is_ok(), &format!("{rows} rows at the desk: {desk:?}"), &query, &database)?;
    let passed = refuse(18, 0);
    ensure(desk_run(&database, &query, rows - 1, u32::MAX) == passed, "fewer rows", &query, &database)?;
    let due = if rows > panel::ROW_LIMIT { passed } else { desk };
    ensure(panel_run(&database, &query, u32::MAX) == due, &format!("{rows} rows"), &query, &database)?;
    Ok(true)
}

/// What a run needs is never more than the panel's workspace, and one entry less is refused.
pub fn workspaces(random: &mut Random, coverage: &mut Coverage) -> Verdict {
    let database = random::database(random);
    let nodes = panel::NODES - random.below(3);
    let query = random::query_of_fixes(random, database.schema(), nodes);
    let registers = match panel::compile(&database, &query) {
        Ok(plan) => plan.registers,
        Err(refusal) => return Err(format!("{refusal:?}{}", told(&query, &database))),
    };
    coverage.panel.registers = coverage.panel.registers.max(registers);
    let needed = workspace_entries(registers, panel::ROW_LIMIT);
    ensure(needed <= panel::WORKSPACE, "more than the workspace", &query, &database)?;
    let run = |entries: usize| {
        let (mut workspace, mut slots) = (vec![7; entries], vec![7; COLUMNS * panel::ROW_LIMIT as usize]);
        let reply = panel::run(&database, &query, u32::MAX, &mut workspace, &mut slots);
        (reply, workspace, slots)
    };
    let (reply, workspace, slots) = run(panel::WORKSPACE);
    let ended = matches!(reply, Ok(_) | Err(Refusal { number: 18, place: 0 }));
    ensure(ended, &format!("{reply:?}"), &query, &database)?;
    ensure(workspace == vec![0; panel::WORKSPACE], "the workspace is not cleared", &query, &database)?;
    ensure(run(needed) == (reply, vec![0; needed], slots), "another run with less", &query, &database)?;
    let short = Refusal { number: 17, place: 0 };
    let untouched = (Err(short), vec![7; needed - 1], vec![7; COLUMNS * panel::ROW_LIMIT as usize]);
    ensure(run(needed - 1) == untouched, "one entry less", &query, &database)?;
    coverage.panel.refused(short);
    Ok(true)
}
