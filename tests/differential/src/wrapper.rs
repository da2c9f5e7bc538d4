//! The same through the safe wrapper of bindings/rust, whose slices always have their room.

use crate::at::At;
use crate::inputs::{for_panel, shortest_texts};
use crate::paths::texts_of_paths;
use crate::slices::operand_columns;
use crate::tally::Tally;
use capeshard::{Allowance, Answer, Line, Op, Operands, PlanLine, Table};
use reference::algebra::{Columns, Condition, Pairing};
use reference::allowance::allowance;
use reference::check::{check, Checked};
use reference::damage;
use reference::panel;
use reference::paths::read_path;
use reference::pauses::{self, Pause};
use reference::plan::{self, plan, Operation};
use reference::random::branches::{self, Step};
use reference::random::{self, filters, Random};
use reference::rewrite::rewrite;
use reference::run::{self, run, workspace_entries};
use reference::text::{print_database, print_query, read_database, read_query};
use reference::value::{refuse, Database, Node, Query, Refusal, COLUMNS, NODES, TABLE_ROWS};

fn line_of(node: &Node) -> Line {
    match *node {
        Node::Table(t) => Line::Table(t.into()),
        Node::Var(v) => Line::Var(v.into()),
        Node::Fact(c, w) => Line::Fact(c.into(), w),
        Node::Pair(Pairing::Union) => Line::Union,
        Node::Pair(Pairing::Join) => Line::Join,
        Node::Pair(Pairing::Except) => Line::Except,
        Node::Filter(Condition::Eq(c, w)) => Line::Eq(c.into(), w),
        Node::Filter(Condition::Ne(c, w)) => Line::Ne(c.into(), w),
        Node::Filter(Condition::Max(c, w)) => Line::Max(c.into(), w),
        Node::Filter(Condition::Same(c, d)) => Line::Same(c.into(), d.into()),
        Node::Copy(a, b) => Line::Copy(a.into(), b.into()),
        Node::Drop(a) => Line::Drop(a.into()),
        Node::Fix(v) => Line::Fix(v.into()),
        Node::Mu(v) => Line::Mu(v.into()),
        Node::Last(c) => Line::Last(c.into()),
    }
}

fn lines_of(query: &Query) -> Vec<Line> {
    query.lines().iter().map(line_of).collect()
}

fn plan_line_of(line: &plan::Line, checked: &Checked) -> PlanLine {
    let source = |index: usize| line.sources[index] as u32;
    let operands = || {
        let columns = operand_columns(line, checked).expect("a pair");
        let [left_columns, right_columns] = columns.map(|columns| columns.iter().map(|c| usize::from(*c)).collect());
        Operands { left: source(0), right: source(1), left_columns, right_columns }
    };
    let path = line.path as u32;
    let op = match line.operation {
        Operation::Table(t) => Op::Table { table: t.into() },
        Operation::Fact(c, value) => Op::Fact { column: c.into(), value },
        Operation::Pair(Pairing::Union) => Op::Union(operands()),
        Operation::Pair(Pairing::Join) => Op::Join(operands()),
        Operation::Pair(Pairing::Except) => Op::Except(operands()),
        Operation::Filter(Condition::Eq(c, value)) => Op::Eq { from: source(0), column: c.into(), value },
        Operation::Filter(Condition::Ne(c, value)) => Op::Ne { from: source(0), column: c.into(), value },
        Operation::Filter(Condition::Max(c, value)) => Op::Max { from: source(0), column: c.into(), value },
        Operation::Filter(Condition::Same(c, d)) => Op::Same { from: source(0), column: c.into(), other: d.into() },
        Operation::Copy(a, b) => Op::Copy { from: source(0), column: a.into(), new: b.into() },
        Operation::Drop(a) => Op::Drop { from: source(0), column: a.into() },
        Operation::Last(c) => Op::Last { from: source(0), column: c.into() },
        Operation::Start { delta } => Op::Start { delta: delta as u32, from: source(0), path },
        Operation::Again { delta } => Op::Again { delta: delta as u32, from: source(0), path },
    };
    PlanLine { to: line.destination as u32, op }
}

fn plan_of(checked: &Checked) -> Vec<PlanLine> {
    plan(&checked.root).lines.iter().map(|line| plan_line_of(line, checked)).collect()
}

fn given(refusal: capeshard::Refusal) -> Refusal {
    Refusal { number: refusal.number, place: refusal.place }
}

/// The tables of a database whose store has all their rows.
fn tables_of(database: &Database) -> Vec<Table> {
    let mut rows = database.store.chunks(COLUMNS);
    let table = |(columns, count): (&Columns, &u32)| {
        let columns: Vec<usize> = columns.iter().map(|column| usize::from(*column)).collect();
        let values = |row: &[u32]| columns.iter().map(|column| row[*column]).collect();
        let rows = rows.by_ref().take(*count as usize).map(values).collect();
        Table { columns, rows }
    };
    database.columns.iter().zip(&database.rows).map(table).collect()
}

/// Two rows of the store exchanged, which puts 11 into most databases with a row.
fn exchanged(random: &mut Random, database: &Database) -> Database {
    let mut exchanged = database.clone();
    let widest = (0..database.tables as usize).max_by_key(|table| database.rows[*table]);
    if let Some(table) = widest.filter(|table| database.rows[*table] > 1) {
        let before: u32 = database.rows[..table].iter().sum();
        let row = before as usize + random.below(database.rows[table] as usize - 1);
        exchanged.store[COLUMNS * row..COLUMNS * (row + 2)].rotate_left(COLUMNS);
    }
    exchanged
}

fn answer_of(told: run::Answer, slots: &[u32]) -> Answer {
    let columns: Vec<usize> = told.columns.iter().map(|column| usize::from(*column)).collect();
    let values = |row: &[u32]| columns.iter().map(|column| row[*column]).collect();
    let rows = slots.chunks(COLUMNS).take(told.rows as usize).map(values).collect();
    Answer { columns, rows, ran: told.ran }
}

fn desk_run(database: &Database, query: &Query, rows: usize, budget: u32) -> Result<Answer, Refusal> {
    let registers = check(query, database.schema()).map_or(0, |checked| plan(&checked.root).registers);
    let room = if rows <= TABLE_ROWS as usize { rows } else { 0 };
    let mut workspace = vec![0; workspace_entries(registers, room as u32)];
    let mut slots = vec![0; COLUMNS * room];
    let told = run(database, query, rows as u32, budget, &mut workspace, &mut slots)?;
    Ok(answer_of(told, &slots))
}

fn panel_run(database: &Database, query: &Query, budget: u32) -> Result<Answer, Refusal> {
    let mut workspace = vec![0; panel::WORKSPACE];
    let mut slots = vec![0; COLUMNS * panel::ROW_LIMIT as usize];
    let told = panel::run(database, query, budget, &mut workspace, &mut slots)?;
    Ok(answer_of(told, &slots))
}

fn checked(at: At, database: &Database, query: &Query) -> Result<Checked, Refusal> {
    match at {
        At::Desk => database.form().and_then(|()| check(query, database.schema())),
        At::Panel => panel::check(database, query),
    }
}

fn product_of(at: At, database: &Database, query: &Query, rows: usize) -> Result<Allowance, Refusal> {
    let found = match at {
        At::Desk => allowance(database, query, rows as u32)?,
        At::Panel => panel::allowance(database, query)?,
    };
    Ok(Allowance { plan: plan_of(&checked(at, database, query)?), budget: found.budget })
}

fn shown(text: &[u8]) -> String {
    String::from_utf8_lossy(text).into_owned()
}

pub fn cases(random: &mut Random, tally: &mut Tally) {
    let (mut database, mut query) = if random.once_in(3) {
        for_panel(random)
    } else {
        let database = random::database(random);
        let query = random::query(random, database.schema(), NODES);
        (database, query)
    };
    match random.below(6) {
        0 | 1 => query = damage::query(random, &query),
        2 => query = damage::spoilt(random, &query).map_or(query, |spoilt| spoilt.query),
        _ => {}
    }
    texts(random, tally, print_query(&query), print_database(&database));
    if random.once_in(6) {
        database = exchanged(random, &database);
    }
    values(random, tally, &database, query.clone());
    for query in filtered(random, tally, &database, &query) {
        values(random, tally, &database, query);
    }
    if random.once_in(3) {
        paths(random, tally);
    }
    two_branches(random, tally);
    past_lines(random, tally);
}

/// Steps of a query with filters over ordinary lines.
const STEPS: usize = 5;
/// Row limit of the run that tells what a query's columns hold.
const MOST: usize = 40;

/// A query that answers and has room for a line, under each filter with a value and a `last`. Half of the values are the column's own,
/// so that most filters keep some rows and stop others.
fn filtered(random: &mut Random, tally: &mut Tally, database: &Database, query: &Query) -> Vec<Query> {
    let Ok(answer) = desk_run(database, query, MOST, u32::MAX) else {
        return Vec::new();
    };
    let Some(at) = random.pick(0..answer.columns.len()).filter(|_| query.lines().len() < NODES) else {
        return Vec::new();
    };
    let column = answer.columns[at] as u8;
    let values: Vec<u32> = answer.rows.iter().map(|row| row[at]).collect();
    let own = if random.once_in(2) { random.pick(values.clone()) } else { None };
    let value = own.unwrap_or([0, 1, 4, u32::MAX][random.below(4)]);
    tally.unknown += u64::from(values.contains(&0));
    let filters = [Condition::Eq(column, value), Condition::Ne(column, value), Condition::Max(column, value)];
    let lines = filters.map(Node::Filter).into_iter().chain([Node::Last(column)]);
    lines.map(|line| Query::new(&[query.lines(), &[line]].concat(), NODES)).collect()
}

fn texts(random: &mut Random, tally: &mut Tally, mut sheet: Vec<u8>, mut book: Vec<u8>) {
    if random.once_in(2) {
        sheet = damage::text(random, &sheet);
        book = damage::text(random, &book);
    }
    reads(tally, &sheet, &book);
}

/// Zero bytes and each byte alone, as a sheet and as a book.
pub fn shortest(tally: &mut Tally) {
    shortest_texts().iter().for_each(|text| reads(tally, text, text));
}

fn reads(tally: &mut Tally, sheet: &[u8], book: &[u8]) {
    for at in At::BOTH {
        let (expected, found) = match at {
            At::Desk => (read_query(sheet, NODES), capeshard::Query::read(sheet)),
            At::Panel => (panel::read(sheet), capeshard::panel::read(sheet)),
        };
        let expected = expected.map(|query| lines_of(&query));
        let found = found.map(|query| query.lines()).map_err(given);
        tally.case(|| format!("{at:?}: read {:?}", shown(sheet)), &expected, &found);
    }
    let store = vec![0; COLUMNS * book.len()];
    let expected = read_database(book, &store).map(|_| ());
    let found = capeshard::Database::read(book).map(|_| ()).map_err(given);
    tally.case(|| format!("Database::read {:?}", shown(book)), &expected, &found);
}

/// Paths through desk and panel, and one of their queries as any other.
fn paths(random: &mut Random, tally: &mut Tally) {
    let mut database = random::paths::database(random);
    if random.once_in(6) {
        database = exchanged(random, &database);
    }
    let stored = capeshard::Database::of(&tables_of(&database)).expect("the tables have a place");
    let at = At::BOTH[random.below(2)];
    let mut accepted = Vec::new();
    for text in texts_of_paths(random, at, database.schema()) {
        let (expected, found) = match at {
            At::Desk => (read_path(&text, &database, NODES), capeshard::Query::read_path(&text, &stored)),
            At::Panel => (panel::read_path(&text, &database), capeshard::panel::read_path(&text, &stored)),
        };
        let lines = expected.as_ref().map(lines_of).map_err(|refusal| *refusal);
        let found = found.map(|query| query.lines()).map_err(given);
        tally.case(|| format!("{at:?}: read the path {:?} over {database:?}", shown(&text)), &lines, &found);
        accepted.extend(expected);
    }
    if let Some(query) = random.pick(accepted) {
        values(random, tally, &database, query);
    }
}

/// One query through desk and panel; each step is made at one of them. Half of the databases without tables are read from zero
/// bytes.
fn values(random: &mut Random, tally: &mut Tally, database: &Database, mut query: Query) {
    let empty = database.tables == 0 && random.once_in(2);
    let stored = if empty {
        capeshard::Database::read(b"").expect("zero bytes are a book")
    } else {
        capeshard::Database::of(&tables_of(database)).expect("the tables have a place")
    };
    let mut held = capeshard::Query::of(&lines_of(&query)).expect("the lines have a place");
    let told = |query: &Query| format!("{:?} over {database:?}", shown(&print_query(query)));
    for at in At::BOTH {
        let expected = checked(at, database, &query).map(|_| ());
        let found = match at {
            At::Desk => held.check(&stored),
            At::Panel => capeshard::panel::check(&held, &stored),
        };
        tally.case(|| format!("{at:?}: check {}", told(&query)), &expected, &found.map_err(given));
    }
    for made in random::steps(random, &query) {
        let at = At::BOTH[random.below(2)];
        step(tally, at, made, (database, &mut query), (&stored, &mut held));
    }
    for at in At::BOTH {
        let expected = checked(at, database, &query).map(|checked| plan_of(&checked));
        let found = match at {
            At::Desk => held.compile(&stored),
            At::Panel => capeshard::panel::compile(&held, &stored),
        };
        tally.case(|| format!("{at:?}: compile {}", told(&query)), &expected, &found.map_err(given));
    }
    let rows = [1 + random.below(12), 24, 40, random.below(5), 4096 + random.below(3)][random.below(5)];
    for at in At::BOTH {
        let finished = runs(random, tally, at, rows, (database, &query), (&stored, &held));
        tally.empty += u64::from(empty && finished);
        if rows <= TABLE_ROWS as usize && (rows <= MOST || random.once_in(8)) {
            put_aside(random, tally, at, rows, (database, &query), (&stored, &held));
        }
    }
}

/// A step at desk or panel; what the wrapper refuses it with.
fn step(
    tally: &mut Tally,
    at: At,
    (kind, node): Step,
    (database, query): (&Database, &mut Query),
    (stored, held): (&capeshard::Database, &mut capeshard::Query),
) -> Option<Refusal> {
    let before = query.clone();
    let told = || format!("{at:?}: rewrite {kind},{node} of {:?} over {database:?}", shown(&print_query(&before)));
    let (expected, found) = match at {
        At::Desk => (rewrite(database, query, kind, node), held.rewrite(stored, kind, node)),
        At::Panel => (panel::rewrite(database, query, kind, node), capeshard::panel::rewrite(held, stored, kind, node)),
    };
    let (expected, found) = (expected.map(|rewritten| *query = rewritten), found.map_err(given));
    tally.case(told, &(expected, lines_of(query)), &(found, held.lines()));
    found.err()
}

/// Two steps on two branches at desk or panel, in both orders: the same replies and one query, the entries past its count included.
fn two_branches(random: &mut Random, tally: &mut Tally) {
    let mut database = random::database(random);
    let at = At::BOTH[random.below(2)];
    let query = branches::query(random, database.schema(), panel::NODES + 8);
    let [one, other] = branches::pair(random, database.schema(), &query);
    if random.once_in(8) {
        database = exchanged(random, &database);
    }
    let stored = capeshard::Database::of(&tables_of(&database)).expect("the tables have a place");
    let lines = lines_of(&query);
    let mut made = |steps: [Step; 2]| {
        let (mut query, mut held) = (query.clone(), capeshard::Query::of(&lines).expect("the lines have a place"));
        let replies = steps.map(|made| step(tally, at, made, (&database, &mut query), (&stored, &mut held)));
        (replies, held)
    };
    let (ends, (mut swapped, held)) = (made([one, other]), made([other, one]));
    swapped.reverse();
    tally.case(|| format!("{at:?}: {one:?} and {other:?} in both orders of {lines:?}"), &ends, &(swapped, held));
}

/// Steps of all kinds, each at desk or panel, on a query with filters over ordinary lines. Half of these have as many nodes as the panel
/// or the desk takes, or one less.
fn past_lines(random: &mut Random, tally: &mut Tally) {
    let database = random::database(random);
    let most = At::BOTH[usize::from(!random.once_in(4))].nodes();
    let split = most - random.below(2);
    let mut query = match random.below(2) {
        0 => filters::query_of(random, database.schema(), most, split),
        _ => filters::query(random, database.schema(), NODES),
    };
    let stored = capeshard::Database::of(&tables_of(&database)).expect("the tables have a place");
    let mut held = capeshard::Query::of(&lines_of(&query)).expect("the lines have a place");
    for _ in 0..STEPS {
        let lines = check(&query, database.schema()).map_or(Vec::new(), |checked| checked.lines());
        let at = At::BOTH[random.below(2)];
        if let Some(made) = random.pick(random::likely(&lines)) {
            step(tally, at, made, (&database, &mut query), (&stored, &mut held));
        }
    }
}

/// The product at desk or panel, a run that often has it as its budget, and one with one line less than that runs. Whether the
/// first run finishes.
fn runs(
    random: &mut Random,
    tally: &mut Tally,
    at: At,
    rows: usize,
    (database, query): (&Database, &Query),
    (stored, held): (&capeshard::Database, &capeshard::Query),
) -> bool {
    let told =
        |what: String| format!("{at:?}, {rows} rows: {what} of {:?} over {database:?}", shown(&print_query(query)));
    let expected = product_of(at, database, query, rows);
    let found = match at {
        At::Desk => held.allowance(stored, rows),
        At::Panel => capeshard::panel::allowance(held, stored),
    };
    tally.case(|| told("product".to_string()), &expected, &found.map_err(given));
    let product = expected.map_or(u32::MAX, |expected| expected.budget);
    let budget = [random.below(30) as u32, product, product, u32::MAX][random.below(4)];
    let expected = match at {
        At::Desk => desk_run(database, query, rows, budget),
        At::Panel => panel_run(database, query, budget),
    };
    let run = |budget: u32| match at {
        At::Desk => held.run(stored, rows, budget).map_err(given),
        At::Panel => capeshard::panel::run(held, stored, budget).map_err(given),
    };
    let (found, spent) = (run(budget), refuse(19, 0));
    tally.case(|| told(format!("run {budget}")), &expected, &found);
    if budget >= product {
        tally.case(|| told(format!("19 with {budget}, the product being {product},")), &false, &(found == spent));
    }
    if let Ok(answer) = found {
        let less = answer.ran - 1;
        tally.case(|| told(format!("run {less}, one line less,")), &spent, &run(less));
    }
    expected.is_ok()
}

/// How a run that can be put aside stops: with an answer, or at a pause, which has its next line, its lines run and its workspace.
#[derive(Clone, Debug, PartialEq)]
enum Stopped {
    Finished(Answer),
    Paused(Pause, Vec<u32>),
}

fn stopped(progress: &Result<capeshard::Progress, capeshard::Refusal>) -> Result<Stopped, Refusal> {
    match progress {
        Ok(capeshard::Progress::Finished(answer)) => Ok(Stopped::Finished(answer.clone())),
        Ok(capeshard::Progress::Paused(pause)) => {
            Ok(Stopped::Paused(Pause { next: pause.next(), ran: pause.ran() }, pause.workspace().to_vec()))
        }
        Err(refusal) => Err(given(*refusal)),
    }
}

/// The same by the reference, in a workspace of its own: begun, or gone on with.
fn stops(
    (at, rows): (At, usize),
    (database, query): (&Database, &Query),
    budget: u32,
    pause: Option<Pause>,
    mut workspace: Vec<u32>,
) -> Result<Stopped, Refusal> {
    let mut slots = vec![0; COLUMNS * rows];
    let (space, answer) = (&mut workspace[..], &mut slots[..]);
    let progress = match (at, pause) {
        (At::Desk, None) => pauses::begin(database, query, rows as u32, budget, space, answer)?,
        (At::Desk, Some(pause)) => pauses::resume(database, query, rows as u32, budget, pause, space, answer)?,
        (At::Panel, None) => panel::begin(database, query, budget, space, answer)?,
        (At::Panel, Some(pause)) => panel::resume(database, query, budget, pause, space, answer)?,
    };
    Ok(match progress {
        pauses::Progress::Finished(told) => Stopped::Finished(answer_of(told, &slots)),
        pauses::Progress::Paused(pause) => Stopped::Paused(pause, workspace),
    })
}

/// A run that is put aside and gone on with some times, at the other place too where the row limit is the panel's; now and then in another
/// workspace.
fn put_aside(
    random: &mut Random,
    tally: &mut Tally,
    at: At,
    rows: usize,
    (database, query): (&Database, &Query),
    (stored, held): (&capeshard::Database, &capeshard::Query),
) {
    let told = |at, rows, what: String| {
        format!("{at:?}, {rows} rows: {what} of {:?} over {database:?}", shown(&print_query(query)))
    };
    let rows = if let At::Panel = at { panel::ROW_LIMIT as usize } else { rows };
    let fixes = query.lines().iter().filter(|line| matches!(line, Node::Fix(_))).count();
    let (entries, budget) = match at {
        At::Desk => (workspace_entries(query.lines().len() + fixes, rows as u32), random.below(20) as u32),
        At::Panel => (panel::WORKSPACE, random.below(20) as u32),
    };
    let mut progress = match at {
        At::Desk => held.begin(stored, rows, budget),
        At::Panel => capeshard::panel::begin(held, stored, budget),
    };
    let expected = stops((at, rows), (database, query), budget, None, vec![0; entries]);
    tally.case(|| told(at, rows, format!("begin {budget}")), &expected, &stopped(&progress));
    for _ in 0..3 {
        let Ok(capeshard::Progress::Paused(mut pause)) = progress else { return };
        if random.once_in(6) {
            let mut workspace = pause.workspace().to_vec();
            let at = random.below(workspace.len());
            workspace[at] = random.below(3) as u32;
            pause = capeshard::Pause::of(held, stored, rows, (pause.next(), pause.ran()), workspace);
        }
        let at = At::BOTH[random.below(2)];
        let moved = match at {
            At::Desk => Some(pause.clone().at_desk()),
            At::Panel => pause.clone().at_panel(),
        };
        tally.case(
            || told(at, rows, "a pause at the other place".to_string()),
            &(rows == panel::ROW_LIMIT as usize || matches!(at, At::Desk)),
            &moved.is_some(),
        );
        let Some(pause) = moved else { return };
        let further = [random.below(20) as u32, 0, pause.most(), pause.most().wrapping_add(1)][random.below(4)];
        let (was, workspace) = (Pause { next: pause.next(), ran: pause.ran() }, pause.workspace().to_vec());
        let expected = stops((at, rows), (database, query), further, Some(was), workspace);
        progress = pause.resume(further);
        tally.case(|| told(at, rows, format!("resume {further} from {was:?}")), &expected, &stopped(&progress));
    }
}
