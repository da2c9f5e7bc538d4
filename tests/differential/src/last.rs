//! The commentary that replaces another: each kind at a `last`, a `last` over any node, flat lines at and past its code, and tables
//! of 4,096 rows.

use crate::at::At;
use crate::call::Call;
use crate::compared;
use crate::inputs::{for_desk, for_panel, over, run, FREE};
use crate::slices::{
    database_of, flat_database, query_of, Slices, DATABASE_ROOM, LAST, PLAN_ROOM, QUERY_ROOM, RUN_ROOM,
};
use crate::tally::{Tally, CALLS};
use bench::engines::{Engine, Reference};
use bench::workloads::Workload;
use reference::algebra::{Columns, Relation};
use reference::check::check;
use reference::plan::{execute, plan, Line, Operation};
use reference::random::Random;
use reference::rewrite::KINDS;
use reference::run::workspace_entries;
use reference::split::split;
use reference::term::Term;
use reference::value::{Database, Node, Query, Refusal, COLUMNS, NODES, TABLE_ROWS};

/// The calls that meet no `last`: those that read a path or a database.
const WITHOUT: [usize; 3] = [1, 2, 11];

/// What queries with a `last` have met, all but the first at desk and panel.
#[derive(Default)]
pub struct Met {
    /// Accepted calls in the header's order.
    accepted: [u64; CALLS],
    /// Refusals at a `last`: 1, 5, 9, and 12 by kind.
    numbers: [[u64; 3]; 2],
    twelve: [[u64; KINDS + 1]; 2],
    /// Accepted rewrites by kind.
    kinds: [[u64; KINDS + 1]; 2],
    /// Finished runs in which one dropped rows, and those in which it did so by the first, a middle or the highest column of several
    /// or by the only one.
    dropped: [u64; 2],
    columns: [[u64; 4]; 2],
}

impl Met {
    /// A call on a query with a `last`, or one that read it.
    pub fn meet(&mut self, at: usize, sort: usize, call: Call, reply: Result<(), Refusal>, given: &Slices) {
        match (reply, call) {
            (Ok(()), Call::Rewrite { kind, .. } | Call::PanelRewrite { kind, .. }) => {
                self.kinds[at][kind as usize] += 1;
            }
            (Ok(()), Call::Run { .. } | Call::PanelRun { .. }) => self.meet_run(at, given),
            (Err(Refusal { number: 12, .. }), Call::Rewrite { kind, node, .. } | Call::PanelRewrite { kind, node }) => {
                if let (true, Some(times)) = (is_last(given, node), self.twelve[at].get_mut(kind as usize)) {
                    *times += 1;
                }
            }
            (Err(Refusal { number: 1, place }), _) => {
                self.numbers[at][0] += u64::from(given.query[3 * place as usize - 2] == LAST);
            }
            (Err(Refusal { number: number @ (5 | 9), place }), _) => {
                self.numbers[at][if number == 5 { 1 } else { 2 }] += u64::from(is_last(given, place));
            }
            _ => {}
        }
        self.accepted[sort] += u64::from(reply.is_ok());
    }

    fn meet_run(&mut self, at: usize, given: &Slices) {
        let found = dropping(&database_of(&given.database, &given.store), &query_of(&given.query, NODES));
        self.dropped[at] += u64::from(!found.is_empty());
        for place in found {
            self.columns[at][place] += 1;
        }
    }

    pub fn print(&self) {
        println!("with a last: accepted by call {:?}", self.accepted);
        for (at, name) in ["desk", "panel"].into_iter().enumerate() {
            let (kinds, twelve, numbers) = (&self.kinds[at][1..], &self.twelve[at][1..], &self.numbers[at]);
            let (dropped, columns) = (self.dropped[at], &self.columns[at]);
            println!(
                "{name}, with a last: rewrites by kind {kinds:?}, at it 1, 5 and 9 {numbers:?}, 12 by kind {twelve:?}"
            );
            println!(
                "{name}, finished runs in which a last dropped rows: {dropped}, by the first, a middle, the highest and the only \
                column {columns:?}"
            );
        }
    }

    /// Every call but those that read a path or a database was accepted and every kind; every kind got 12 at a `last`; 1, 5 and 9 were
    /// given there; runs finished in which one dropped rows by each sort of column. All at desk and panel.
    pub fn all_met(&self) -> bool {
        let accepted =
            self.accepted.iter().enumerate().filter(|(sort, _)| !WITHOUT.contains(sort)).map(|(_, times)| times);
        let kinds = self.kinds.iter().chain(&self.twelve).flat_map(|kinds| &kinds[1..]);
        let others = self.numbers.iter().flatten().chain(&self.dropped).chain(self.columns.iter().flatten());
        accepted.chain(kinds).chain(others).all(|times| *times > 0)
    }
}

/// Whether a node of the split query in a slice is a `last`.
fn is_last(given: &Slices, node: u32) -> bool {
    let query = query_of(&given.query, NODES);
    let lines = Term::of(query.lines()).and_then(|typed| split(&typed)).unwrap_or_default();
    (node as usize).checked_sub(1).is_some_and(|at| matches!(lines.get(at), Some(Node::Last(_))))
}

/// Each `last` of a checked query that drops rows: by the first, a middle or the highest column of several, or by the only one.
fn dropping(database: &Database, query: &Query) -> Vec<usize> {
    let Ok(checked) = check(query, database.schema()) else {
        return Vec::new();
    };
    let plan = plan(&checked.root);
    let Ok(machine) = execute(&plan, &database.relations(), FREE.0, FREE.1) else {
        return Vec::new();
    };
    let place = |line: &Line| {
        let Operation::Last(column) = line.operation else { return None };
        let (before, after) = (&machine.registers[line.sources[0]], &machine.registers[line.destination]);
        let columns: Vec<u8> = before.first()?.keys().copied().collect();
        (before != after).then(|| match columns.iter().position(|c| *c == column) {
            _ if columns.len() == 1 => 3,
            Some(0) => 0,
            Some(at) if at + 1 == columns.len() => 2,
            _ => 1,
        })
    };
    plan.lines.iter().filter_map(place).collect()
}

/// A `last` over a random node of a query as typed, which may be open or lack the column.
fn put(random: &mut Random, query: &Query) -> Query {
    let mut lines = query.lines().to_vec();
    let columns = if random.once_in(4) { COLUMNS } else { 4 };
    lines.insert(1 + random.below(lines.len()), Node::Last(random.below(columns) as u8));
    Query::new(&lines, lines.len())
}

/// Queries of the desk's inputs or of the panel's with a `last` more: the check, a run, and each kind at each `last`.
pub fn cases(random: &mut Random, tally: &mut Tally) {
    for at in At::BOTH {
        let (database, query) = match at {
            At::Desk => for_desk(random),
            At::Panel => for_panel(random),
        };
        if query.lines().len() == NODES {
            continue;
        }
        let query = put(random, &query);
        let slices = over(random, &query, &database);
        compared(tally, at.check(random, query.lines().len()), &slices);
        let (call, given) = run(random, at, &query, &database, slices.clone());
        compared(tally, call, &given);
        let kinds = |node| (1..=KINDS as u32).map(move |kind| (kind, node));
        for step in lasts(&query, &database).into_iter().flat_map(kinds) {
            compared(tally, at.rewrite_within(NODES, step), &slices);
        }
    }
}

/// The nodes of a checked query that are a `last`.
fn lasts(query: &Query, database: &Database) -> Vec<u32> {
    let lines = check(query, database.schema()).map_or(Vec::new(), |checked| checked.lines());
    (1..).zip(lines).filter(|(_, line)| matches!(line, Node::Last(_))).map(|(node, _)| node).collect()
}

/// A second line of each code up to some past the highest, over a table with every column, with numbers at and past the ends of
/// ranges.
pub fn flat_lines(tally: &mut Tally) {
    const FAR: [u32; 5] = [128, 255, 256, 1 << 31, u32::MAX];
    let rows: Relation =
        [[1; COLUMNS], [2; COLUMNS], [1, 1, 1, 1, 1, 1, 1, 2]].iter().map(|row| (0..).zip(*row).collect()).collect();
    let database = Database::stored(&[((0..COLUMNS as u8).collect(), rows)], 0);
    let random = &mut Random::new(1);
    let blank = Slices {
        query: random.fill(QUERY_ROOM),
        database: [flat_database(&database), random.fill(DATABASE_ROOM)].concat(),
        store: database.store.clone(),
        plan: random.fill(PLAN_ROOM),
        workspace: random.fill(workspace_entries(3, 64)),
        answer: random.fill(COLUMNS * 64),
        told: random.fill(RUN_ROOM),
        ..Slices::default()
    };
    for code in (0..=20).chain(FAR) {
        for (a, b) in (0..=17).chain(FAR).flat_map(|a| [0, 1, 7, 8, u32::MAX].map(|b| (a, b))) {
            let mut given = blank.clone();
            given.query[..7].copy_from_slice(&[2, 1, 0, 0, code, a, b]);
            for call in [
                Call::Check { limit: NODES },
                Call::Compile { limit: NODES },
                At::Desk.rewrite_within(NODES, (1, 2)),
                Call::Run { limit: NODES, rows: 64, budget: 9 },
                Call::PanelCheck,
                Call::PanelCompile,
                At::Panel.rewrite_within(NODES, (1, 2)),
                Call::PanelRun { budget: 9 },
            ] {
                compared(tally, call, &given);
            }
        }
    }
}

/// Works, languages and issues, as many of each as there is room for: 16 rows of each two columns agree.
fn recordings() -> (Columns, Relation) {
    let columns = [0, 3, 7];
    let row = |row: u32| columns.into_iter().zip([row / 256, row / 16 % 16, row % 16]).collect();
    (Columns::from(columns), (0..TABLE_ROWS).map(row).collect())
}

/// No two rows agree in two columns.
fn apart() -> (Columns, Relation) {
    let columns = [1, 4, 6];
    let row = |row: u32| columns.into_iter().zip([row % 64, row / 64, row]).collect();
    (Columns::from(columns), (0..TABLE_ROWS).map(row).collect())
}

fn workload(lines: &str) -> Workload {
    let single = |row: u32| [(5, row)].into_iter().collect();
    let chain = |place: u32| [(0, place), (1, place + 1)].into_iter().collect();
    Workload {
        name: lines.to_string(),
        lines: lines.to_string(),
        steps: &[],
        tables: vec![
            recordings(),
            apart(),
            (Columns::from([5]), (0..TABLE_ROWS).map(single).collect()),
            (Columns::from([0, 1]), (1..=90).map(chain).collect()),
        ],
        sql: String::new(),
        limit: TABLE_ROWS,
        indexes: &[],
        recursive: false,
    }
}

/// Each column of 4,096 rows: where rows agree, where none do and where it is the only one; and over 4,095 rows of a recursion.
pub fn measured(tally: &mut Tally) {
    let reach = "table=3 var=1 copy=1,2 drop=1 table=3 copy=0,2 drop=0 pair=join drop=2 fix=1";
    let lines = [
        "table=0 last=0".to_string(),
        "table=0 last=3".to_string(),
        "table=0 last=7".to_string(),
        "table=0 last=7 last=3 last=0".to_string(),
        "table=1 last=1".to_string(),
        "table=1 last=4".to_string(),
        "table=1 last=6".to_string(),
        "table=2 last=5".to_string(),
        format!("{reach} last=0"),
        format!("{reach} last=1"),
    ];
    let mut kept = Vec::new();
    for lines in lines {
        let workload = workload(&lines);
        let (mut engine, mut reference) = (Engine::new(&workload), Reference::new(&workload));
        engine.run();
        reference.run();
        kept.push(reference.found().rows.len());
        tally.case(|| workload.name, &reference.found(), &engine.found());
    }
    println!("rows of up to {TABLE_ROWS} that a last kept: {kept:?}");
}
