//! The calls of one seed, on inputs of the reference's generators.

use crate::at::At;
use crate::call::Call;
use crate::slices::{flat_database, flat_query, Slices, DATABASE_ROOM, LINE, PLAN_ROOM, QUERY_ROOM, RUN_ROOM, TABLE};
use reference::algebra::{Columns, Pairing, Relation};
use reference::check::check;
use reference::damage;
use reference::panel;
use reference::plan::{execute, plan};
use reference::random::{self, Random};
use reference::rewrite::{apply, rewrite, KINDS};
use reference::run::workspace_entries;
use reference::text::{print_database, print_query};
use reference::value::{refuse, Database, Node, Query, COLUMNS, NODES, TABLES, TABLE_ROWS, VARIABLES};

pub type Input = (Call, Slices);

/// Steps a query that are taken of those that fit.
const FITTING: usize = 8;
/// Row limit and budget of the run that tells what others need.
pub const FREE: (usize, u32) = (400, 4000);

impl At {
    fn read_query(self, random: &mut Random, nodes: usize) -> Call {
        match self {
            At::Desk => Call::ReadQuery { limit: limit(random, nodes) },
            At::Panel => Call::PanelReadQuery,
        }
    }

    pub fn check(self, random: &mut Random, nodes: usize) -> Call {
        match self {
            At::Desk => Call::Check { limit: limit(random, nodes) },
            At::Panel => Call::PanelCheck,
        }
    }

    fn rewrite(self, random: &mut Random, nodes: usize, step: (u32, u32)) -> Call {
        let limit = self.limit(random, nodes);
        self.rewrite_within(limit, step)
    }

    /// A node limit of the desk; the panel has its own.
    pub fn limit(self, random: &mut Random, nodes: usize) -> usize {
        match self {
            At::Desk => limit(random, nodes),
            At::Panel => self.nodes(),
        }
    }

    /// A step with this node limit.
    pub fn rewrite_within(self, limit: usize, (kind, node): (u32, u32)) -> Call {
        match self {
            At::Desk => Call::Rewrite { limit, kind, node },
            At::Panel => Call::PanelRewrite { kind, node },
        }
    }

    fn compile(self, random: &mut Random, nodes: usize) -> Call {
        match self {
            At::Desk => Call::Compile { limit: limit(random, nodes) },
            At::Panel => Call::PanelCompile,
        }
    }
}

pub fn inputs(random: &mut Random) -> Vec<Input> {
    let (database, query) = for_desk(random);
    let mut found = database_texts(random, &database);
    found.extend(queries(random, At::Desk, &query, &database));
    let (database, query) = for_panel(random);
    found.extend(queries(random, At::Panel, &query, &database));
    found
}

fn queries(random: &mut Random, at: At, query: &Query, database: &Database) -> Vec<Input> {
    let mut found = query_texts(random, at, query);
    found.extend(checks(random, at, query, database));
    found.extend(rewrites(random, at, query, database));
    found.extend(runs(random, at, query, database));
    found.extend(compiles(random, at, query, database));
    found
}

pub fn for_desk(random: &mut Random) -> (Database, Query) {
    let mut database = random::database(random);
    if random.once_in(8) {
        database = denser(random, &database);
    }
    let query =
        if random.once_in(6) { joined(random, &database) } else { random::query(random, database.schema(), NODES) };
    (database, query)
}

/// A database and a checked query, half of them at a limit of the panel: 31 to 34 nodes, a register of 63 to 66 rows or
/// tables of so many.
pub fn for_panel(random: &mut Random) -> (Database, Query) {
    let rows = panel::ROW_LIMIT - 1 + random.below(4) as u32;
    let (mut database, query) = random::query_of_rows(random, rows);
    if random.once_in(4) {
        return (database, query);
    }
    if !random.once_in(8) {
        database = random::database(random);
    }
    let nodes = panel::NODES - 1 + random.below(4);
    let query = match random.below(4) {
        0 => random::query_of(random, database.schema(), nodes),
        1 => random::query_of_fixes(random, database.schema(), nodes),
        _ => random::query(random, database.schema(), NODES),
    };
    (database, query)
}

/// Several checked queries joined, their fixes numbered apart as long as there are numbers.
fn joined(random: &mut Random, database: &Database) -> Query {
    let mut lines: Vec<Node> = Vec::new();
    let mut fixes = 0;
    for _ in 0..2 + random.below(9) {
        let mut part = random::query(random, database.schema(), NODES).lines().to_vec();
        let own: Vec<u8> = part
            .iter()
            .filter_map(|line| if let Node::Fix(v) | Node::Mu(v) = line { Some(*v) } else { None })
            .collect();
        let renamed = |v: u8| match own.iter().position(|own| *own == v) {
            Some(rank) => (fixes + rank) as u8 % VARIABLES,
            None => v,
        };
        for line in &mut part {
            *line = match *line {
                Node::Fix(v) => Node::Fix(renamed(v)),
                Node::Mu(v) => Node::Mu(renamed(v)),
                Node::Var(v) => Node::Var(renamed(v)),
                other => other,
            };
        }
        let within = fixes + own.len() <= usize::from(VARIABLES) || random.once_in(8);
        if lines.len() + part.len() < NODES && within {
            let first = lines.is_empty();
            fixes += own.len();
            lines.extend(part);
            if !first {
                lines.push(Node::Pair(if random.once_in(3) { Pairing::Except } else { Pairing::Join }));
            }
        }
    }
    if lines.is_empty() {
        lines.push(random::node(random));
    }
    Query::new(&lines, NODES)
}

/// A database with the same columns and more rows, few of whose values differ: fixes take more rounds.
fn denser(random: &mut Random, database: &Database) -> Database {
    let values = 3 + random.below(20);
    let row =
        |random: &mut Random, columns: &Columns| columns.iter().map(|c| (*c, random.below(values) as u32)).collect();
    let tables: Vec<(Columns, Relation)> = database
        .schema()
        .iter()
        .map(|columns| (columns.clone(), (0..random.below(40)).map(|_| row(random, columns)).collect()))
        .collect();
    Database::stored(&tables, 0)
}

/// A database with many tables and columns, now and then more than there can be.
fn large(random: &mut Random) -> Database {
    let count = if random.once_in(2) { TABLES as usize + random.below(2) } else { random.below(6) };
    let long = random.once_in(40).then(|| random.below(count.max(1)));
    let tables: Vec<(Columns, Relation)> = (0..count)
        .map(|table| {
            let columns: Columns = (0..1 + random.below(12)).map(|_| random.below(COLUMNS) as u8).collect();
            let rows = random.below(12);
            let mut relation: Relation =
                (0..rows).map(|_| columns.iter().map(|c| (*c, random.next() >> random.below(32))).collect()).collect();
            if long == Some(table) {
                let rows = TABLE_ROWS + u32::from(random.once_in(4));
                relation = (0..rows).map(|row| columns.iter().map(|c| (*c, row)).collect()).collect();
            }
            (columns, relation)
        })
        .collect();
    Database::stored(&tables, 0)
}

/// A lent slice of so many entries or a few more or, seldom, less, with anything behind what it begins with.
pub fn lent(random: &mut Random, begins: &[u32], room: usize) -> Vec<u32> {
    let length = match random.below(40) {
        0 => room - 1,
        1 => random.below(room),
        2..=9 => room + random.below(9),
        _ => room,
    };
    let mut slice = begins.to_vec();
    slice.resize(slice.len().min(length), 0);
    slice.extend(random.fill(length - slice.len()));
    slice
}

pub fn limit(random: &mut Random, nodes: usize) -> usize {
    match random.below(24) {
        0 => nodes,
        1 => nodes.saturating_sub(1),
        2 => random.below(NODES),
        3 => [0, NODES + 1, usize::MAX][random.below(3)],
        _ => NODES,
    }
}

fn query_texts(random: &mut Random, at: At, query: &Query) -> Vec<Input> {
    let printed = print_query(query);
    let count = if random.once_in(8) { at.nodes() - 1 + random.below(4) } else { random.below(30) };
    let lines: Vec<Node> = (0..count).map(|_| random::node(random)).collect();
    let any = print_query(&Query::new(&lines, count));
    let once = damage::text(random, &printed);
    let twice = damage::text(random, &once);
    let harmed = damage::text(random, &any);
    let bytes = random.fill(2).into_iter().flat_map(u32::to_le_bytes).take(random.below(9)).collect();
    [printed, any, once, twice, harmed, bytes]
        .into_iter()
        .map(|text| {
            let nodes = if random.once_in(2) { count } else { query.count as usize };
            let query = lent(random, &[], QUERY_ROOM);
            (at.read_query(random, nodes), Slices { text, query, ..Slices::default() })
        })
        .collect()
}

fn database_texts(random: &mut Random, database: &Database) -> Vec<Input> {
    let printed = print_database(database);
    let large = large(random);
    let many = print_database(&large);
    let once = damage::text(random, &printed);
    let twice = damage::text(random, &once);
    let harmed = damage::text(random, &many);
    let entries = |database: &Database| COLUMNS * database.rows.iter().sum::<u32>() as usize;
    let (few, more) = (entries(database), entries(&large));
    [(printed, few), (once, few), (twice, few), (many, more), (harmed, more)]
        .into_iter()
        .map(|(text, needed)| {
            let length = match random.below(8) {
                0 => needed.saturating_sub(1),
                1 => random.below(needed + 1),
                2 => needed,
                _ => needed + random.below(30),
            };
            let database = lent(random, &[], DATABASE_ROOM);
            (Call::ReadDatabase, Slices { text, database, store: random.fill(length), ..Slices::default() })
        })
        .collect()
}

/// Zero bytes, and each byte alone.
pub fn shortest_texts() -> Vec<Vec<u8>> {
    std::iter::once(Vec::new()).chain((0..=u8::MAX).map(|byte| vec![byte])).collect()
}

/// These as books, over stores of no, some and many entries and with too short a database, and as sheets.
pub fn shortest(random: &mut Random) -> Vec<Input> {
    let mut found = Vec::new();
    for text in shortest_texts() {
        for (room, entries) in [(DATABASE_ROOM, 0), (DATABASE_ROOM, 1), (DATABASE_ROOM, 40), (DATABASE_ROOM - 1, 8)] {
            let (database, store) = (random.fill(room), random.fill(entries));
            found.push((Call::ReadDatabase, Slices { text: text.clone(), database, store, ..Slices::default() }));
        }
        for at in At::BOTH {
            let query = random.fill(QUERY_ROOM);
            found.push((at.read_query(random, 1), Slices { text: text.clone(), query, ..Slices::default() }));
        }
    }
    found
}

pub fn over(random: &mut Random, query: &Query, database: &Database) -> Slices {
    Slices {
        query: lent(random, &flat_query(query.lines()), QUERY_ROOM),
        database: lent(random, &flat_database(database), DATABASE_ROOM),
        store: database.store.clone(),
        ..Slices::default()
    }
}

/// Puts numbers at and past the ends of ranges into the first entries of a slice.
pub fn harm(random: &mut Random, slice: &mut [u32], used: usize) {
    const NUMBERS: [u32; 19] = [0, 1, 2, 5, 7, 8, 13, 14, 15, 16, 17, 32, 33, 128, 129, 255, 256, 1 << 31, u32::MAX];
    for _ in 0..1 + random.below(3) {
        let at = if random.once_in(8) { 0 } else { random.below(used.min(slice.len()).max(1)) };
        if let Some(entry) = slice.get_mut(at) {
            *entry = if random.once_in(6) { random.next() } else { NUMBERS[random.below(NUMBERS.len())] };
        }
    }
}

/// Slices with something off the form, in one of the ways that there are or in several.
pub fn damaged(random: &mut Random, query: &Query, database: &Database) -> Slices {
    let ways = 1 + random.below(15);
    let way = |bit: usize| ways >> bit & 1 == 1;
    let query = if way(0) { harmed(random, query) } else { query.clone() };
    let database = if way(1) { damage::database(random, database).0 } else { database.clone() };
    let mut slices = over(random, &query, &database);
    if way(2) {
        harm(random, &mut slices.query, 1 + LINE * query.count as usize);
    }
    if way(3) {
        harm(random, &mut slices.database, 1 + TABLE * database.tables.min(TABLES) as usize);
        if random.once_in(3) {
            let used = slices.store.len();
            harm(random, &mut slices.store, used);
        }
    }
    slices
}

/// A query with edits, or with a `mu` that gets 20.
fn harmed(random: &mut Random, query: &Query) -> Query {
    let spoilt = if random.once_in(3) { damage::spoilt(random, query) } else { None };
    spoilt.map_or_else(|| damage::query(random, query), |spoilt| spoilt.query)
}

fn checks(random: &mut Random, at: At, query: &Query, database: &Database) -> Vec<Input> {
    let nodes = query.count as usize;
    let lines: Vec<Node> = (0..1 + random.below(12)).map(|_| random::node(random)).collect();
    let any = Query::new(&lines, NODES);
    let once = harmed(random, query);
    let twice = damage::query(random, &once);
    let mut found: Vec<Slices> = [query, &any, &once, &twice].map(|query| over(random, query, database)).into();
    found.extend((0..4).map(|_| damaged(random, query, database)));
    let large = large(random);
    found.push(over(random, query, &large));
    found.into_iter().map(|slices| (at.check(random, nodes), slices)).collect()
}

/// Steps one after another, each over another database with the same columns, and some on damaged slices.
fn rewrites(random: &mut Random, at: At, query: &Query, database: &Database) -> Vec<Input> {
    let mut found = Vec::new();
    let mut held = query.clone();
    let nodes = query.count as usize;
    for _ in 0..3 {
        for (kind, node) in random::steps(random, &held) {
            let other = random::with_columns_of(random, database);
            found.push((at.rewrite(random, nodes, (kind, node)), over(random, &held, &other)));
            if let Ok(rewritten) = rewrite(&other, &held, kind, node) {
                held = rewritten;
            }
        }
    }
    for step in fitting(random, query, database) {
        found.push((at.rewrite(random, nodes, step), over(random, query, database)));
    }
    for step in random::steps(random, &held) {
        found.push((at.rewrite(random, nodes, step), damaged(random, &held, database)));
    }
    found
}

/// Some of the kinds and nodes that fit, so that 2, 13 to 15, 22 or acceptance follow.
fn fitting(random: &mut Random, query: &Query, database: &Database) -> Vec<(u32, u32)> {
    let Ok(checked) = check(query, database.schema()) else {
        return Vec::new();
    };
    let every = (1..=query.count).flat_map(|node| (1..=KINDS as u32).map(move |kind| (kind, node)));
    let fits = |&(kind, node): &(u32, u32)| apply(&checked, query, kind, node) != refuse(12, 0);
    let mut fitting: Vec<(u32, u32)> = every.filter(fits).collect();
    while fitting.len() > FITTING {
        fitting.swap_remove(random.below(fitting.len()));
    }
    fitting
}

/// Plans of the query as given, with steps and with edits; most slices have the room, some one entry less.
fn compiles(random: &mut Random, at: At, query: &Query, database: &Database) -> Vec<Input> {
    let mut found = vec![over(random, query, database)];
    for _ in 0..3 {
        let query = again(random, query, database);
        found.push(over(random, &query, database));
    }
    found.push(damaged(random, query, database));
    let compile = |slices: Slices| {
        let call = at.compile(random, slices.query.first().map_or(0, |count| *count as usize));
        let plan = lent(random, &[], PLAN_ROOM);
        (call, Slices { plan, ..slices })
    };
    found.into_iter().map(compile).collect()
}

fn runs(random: &mut Random, at: At, query: &Query, database: &Database) -> Vec<Input> {
    let mut found = Vec::new();
    for round in 0..6 {
        let query = if round == 0 { query.clone() } else { again(random, query, database) };
        let slices = if random.once_in(8) { damaged(random, &query, database) } else { over(random, &query, database) };
        found.push(run(random, at, &query, database, slices));
    }
    found
}

/// The query with steps, or with edits that often leave it checked.
pub fn again(random: &mut Random, query: &Query, database: &Database) -> Query {
    if random.once_in(3) {
        return harmed(random, query);
    }
    let steps = random::steps(random, query);
    steps.into_iter().fold(query.clone(), |held, (kind, node)| rewrite(database, &held, kind, node).unwrap_or(held))
}

/// Row limit, budget and slices at, below and above what the run needs.
pub fn run(random: &mut Random, at: At, query: &Query, database: &Database, slices: Slices) -> Input {
    let plan = check(query, database.schema()).ok().map(|checked| plan(&checked.root));
    let free = plan.as_ref().and_then(|plan| execute(plan, &database.relations(), FREE.0, FREE.1).ok());
    let (peak, ran) = free.as_ref().map_or((6, 20), |free| (free.peak, free.ran));
    let rows = match at {
        At::Desk => row_limit(random, peak),
        At::Panel => panel::ROW_LIMIT as usize,
    };
    let budget = match random.below(8) {
        0 => ran,
        1 => ran.saturating_sub(1),
        2 => random.below(ran as usize + 1) as u32,
        _ => u32::MAX,
    };
    let registers = plan.as_ref().map_or(4, |plan| plan.registers);
    let room = if rows <= TABLE_ROWS as usize { workspace_entries(registers, rows as u32) } else { 0 };
    let workspace = match (random.below(10), at) {
        (0, _) => room.saturating_sub(1),
        (1, _) => random.below(room + 1),
        (2, _) => room + random.below(40),
        (3, At::Panel) => panel::WORKSPACE,
        _ => room,
    };
    let answered = plan.zip(free).map_or(20, |(plan, free)| COLUMNS * free.registers[plan.result].len());
    let answer = match random.below(8) {
        0 => answered.saturating_sub(1),
        1 => random.below(answered + 1),
        2 => answered,
        _ => answered + random.below(100),
    };
    let (workspace, answer) = (random.fill(workspace), random.fill(answer));
    let call = match at {
        At::Desk => Call::Run { limit: limit(random, query.count as usize), rows, budget },
        At::Panel => Call::PanelRun { budget },
    };
    let told = lent(random, &[], RUN_ROOM);
    (call, Slices { workspace, answer, told, ..slices })
}

fn row_limit(random: &mut Random, peak: usize) -> usize {
    match random.below(16) {
        0 => [0, TABLE_ROWS as usize + 1, u32::MAX as usize, usize::MAX, 1 << 61][random.below(5)],
        1 => random.next() as usize,
        2..=4 => peak,
        5 => peak.saturating_sub(1),
        6 => random.below(peak + 1),
        7 if random.once_in(8) => TABLE_ROWS as usize,
        _ => peak + 1 + random.below(20),
    }
}
