//! The engine and the reference, each with its own reading of one workload and slices that it keeps.

use crate::workloads::Workload;
use capeshard::{calls, COLUMNS, NODES};
use reference::algebra::{Columns, Relation, Row};
use reference::check::check;
use reference::pauses::{put, register_columns};
use reference::plan::{plan, Machine, Operation, Plan};
use reference::rewrite::rewrite;
use reference::run::workspace_entries;
use reference::text::{print_database, read_database, read_query};
use reference::value::{Database, Query, TABLE_ROWS};

/// The rows that an answer slice has room for.
pub const ROWS: u32 = TABLE_ROWS;
const BUDGET: u32 = u32::MAX;

/// What a run gives: its rows, ascending, and the lines run.
#[derive(Debug, PartialEq, Eq)]
pub struct Found {
    pub rows: Vec<[u32; COLUMNS]>,
    pub ran: u32,
}

pub fn rows_of(slots: &[u32]) -> Vec<[u32; COLUMNS]> {
    slots.chunks(COLUMNS).map(|row| row.try_into().expect("a row")).collect()
}

fn sheet(workload: &Workload) -> Vec<u8> {
    let lines: Vec<&str> = workload.lines.split_whitespace().collect();
    format!("guide=1\nnodes={}\n{}\n", lines.len(), lines.join("\n")).into_bytes()
}

/// The engine through its calls over flat slices. The workspace is lent again to every run.
pub struct Engine {
    query: Vec<u32>,
    database: Vec<u32>,
    store: Vec<u32>,
    workspace: Vec<u32>,
    answer: Vec<u32>,
    told: [u32; 3],
    pause: [u32; 2],
    limit: u32,
}

/// A call that begins a run or goes on with it.
type Part = unsafe extern "C" fn(
    *const u32,
    usize,
    *const u32,
    usize,
    *const u32,
    usize,
    usize,
    usize,
    u32,
    *mut u32,
    usize,
    *mut u32,
    usize,
    *mut u32,
    usize,
    *mut u32,
    usize,
) -> u64;

/// What a part of a run replies where its lines are spent.
const SPENT: u64 = 19 << 32;

impl Engine {
    pub fn new(workload: &Workload) -> Engine {
        let (sheet, book) = (sheet(workload), print_database(&workload.database()));
        let mut engine = Engine {
            query: vec![0; 1 + 3 * NODES],
            database: vec![0; 1 + 2 * 16],
            store: vec![0; workload.database().store.len()],
            workspace: Vec::new(),
            answer: vec![0; COLUMNS * ROWS as usize],
            told: [0; 3],
            pause: [0; 2],
            limit: workload.limit,
        };
        let Engine { query, database, store, .. } = &mut engine;
        // SAFETY: each pointer and length is that of one slice, and the written ones are borrowed here alone.
        unsafe {
            let (text, to) = ((sheet.as_ptr(), sheet.len()), (query.as_mut_ptr(), query.len()));
            assert_eq!(calls::capeshard_read_query(text.0, text.1, NODES, to.0, to.1), 0);
            let (text, to) = ((book.as_ptr(), book.len()), (database.as_mut_ptr(), database.len()));
            let rows = (store.as_mut_ptr(), store.len());
            assert_eq!(calls::capeshard_read_database(text.0, text.1, to.0, to.1, rows.0, rows.1), 0);
            for &(kind, node) in workload.steps {
                let (query, database) = ((query.as_mut_ptr(), query.len()), (database.as_ptr(), database.len()));
                let rows = (store.as_ptr(), store.len());
                let status = calls::capeshard_rewrite(
                    query.0, query.1, database.0, database.1, rows.0, rows.1, NODES, kind, node,
                );
                assert_eq!(status, 0, "{}", workload.name);
            }
        }
        let nodes = engine.query[0] as usize;
        let fixes = engine.query[1..].chunks(3).take(nodes).filter(|line| line[0] == 13).count();
        engine.workspace = vec![0; workspace_entries(nodes + fixes, workload.limit)];
        engine
    }

    /// One run, checking and compiling included.
    pub fn run(&mut self) {
        // SAFETY: each pointer and length is that of one slice, and the written ones are borrowed here alone.
        let status = unsafe {
            calls::capeshard_run(
                self.query.as_ptr(),
                self.query.len(),
                self.database.as_ptr(),
                self.database.len(),
                self.store.as_ptr(),
                self.store.len(),
                NODES,
                self.limit as usize,
                BUDGET,
                self.workspace.as_mut_ptr(),
                self.workspace.len(),
                self.answer.as_mut_ptr(),
                self.answer.len(),
                self.told.as_mut_ptr(),
                self.told.len(),
            )
        };
        assert_eq!(status, 0);
    }

    fn part(&mut self, call: Part, lines: u32) -> u64 {
        // SAFETY: each pointer and length is that of one slice, and the written ones are borrowed here alone.
        unsafe {
            call(
                self.query.as_ptr(),
                self.query.len(),
                self.database.as_ptr(),
                self.database.len(),
                self.store.as_ptr(),
                self.store.len(),
                NODES,
                self.limit as usize,
                lines,
                self.workspace.as_mut_ptr(),
                self.workspace.len(),
                self.answer.as_mut_ptr(),
                self.answer.len(),
                self.told.as_mut_ptr(),
                self.told.len(),
                self.pause.as_mut_ptr(),
                self.pause.len(),
            )
        }
    }

    /// One run that is put aside each time so many lines are run, and gone on with; how often.
    pub fn run_in_parts(&mut self, lines: u32) -> u32 {
        let mut pauses = 0;
        let mut status = self.part(calls::capeshard_begin, lines);
        while status == SPENT {
            pauses += 1;
            status = self.part(calls::capeshard_resume, lines);
        }
        assert_eq!(status, 0);
        pauses
    }

    /// Puts a run aside after so many lines.
    pub fn put_aside(&mut self, lines: u32) {
        assert_eq!(self.part(calls::capeshard_begin, lines), SPENT);
    }

    /// Holds another pause, at the plan's first line.
    pub fn hold(&mut self, workspace: Vec<u32>) {
        (self.workspace, self.pause) = (workspace, [1, 0]);
    }

    /// Tests the pause and goes on with no line more, which leaves it as it is.
    pub fn test(&mut self) {
        assert_eq!(self.part(calls::capeshard_resume, 0), SPENT);
    }

    /// The entries of the workspace.
    pub fn entries(&self) -> usize {
        self.workspace.len()
    }

    /// The answer's columns, as bits.
    pub fn columns(&self) -> u32 {
        self.told[0]
    }

    pub fn found(&self) -> Found {
        let entries = COLUMNS * self.told[1] as usize;
        Found { rows: rows_of(&self.answer[..entries]), ran: self.told[2] }
    }
}

/// The reference: its run with the plain plan interpreter, over slices of the same lengths.
pub struct Reference {
    query: Query,
    database: Database,
    workspace: Vec<u32>,
    answer: Vec<u32>,
    told: Option<(u32, u32)>,
    limit: u32,
}

impl Reference {
    pub fn new(workload: &Workload) -> Reference {
        let query = read_query(&sheet(workload), NODES).expect("a sheet");
        let book = print_database(&workload.database());
        let database = read_database(&book, &vec![0; workload.database().store.len()]).expect("a book");
        let step =
            |held: Query, &(kind, node): &(u32, u32)| rewrite(&database, &held, kind, node).expect("an accepted step");
        let query = workload.steps.iter().fold(query, step);
        let registers = plan_of(&query, &database).registers;
        let limit = workload.limit;
        let workspace = vec![0; workspace_entries(registers, limit)];
        let answer = vec![0; COLUMNS * ROWS as usize];
        Reference { query, database, workspace, answer, told: None, limit }
    }

    /// One run, checking and compiling included.
    pub fn run(&mut self) {
        let told =
            reference::run::run(&self.database, &self.query, self.limit, BUDGET, &mut self.workspace, &mut self.answer);
        self.told = Some(told.map(|told| (told.rows, told.ran)).expect("a finished run"));
    }

    pub fn found(&self) -> Found {
        let (rows, ran) = self.told.expect("a run");
        Found { rows: rows_of(&self.answer[..COLUMNS * rows as usize]), ran }
    }

    /// A workspace with as many rows in each register as it has room for.
    pub fn full(&self) -> Vec<u32> {
        let checked = check(&self.query, self.database.schema()).expect("a checked query");
        let row = |columns: &Columns, value: u32| columns.iter().map(|column| (*column, value)).collect::<Row>();
        let rows = |columns: &Columns| (0..self.limit).map(|value| row(columns, value)).collect::<Relation>();
        let registers: Vec<Relation> =
            register_columns(&checked).into_iter().map(|columns| columns.map_or(Relation::new(), rows)).collect();
        let mut workspace = vec![0; workspace_entries(registers.len(), self.limit)];
        put(&registers, self.limit, &mut workspace);
        workspace
    }

    /// The rows that the run's lines touch: at each line run the rows of every register or table that it reads, and of every
    /// register that it writes, as they are after it. Again reads the step and total and writes newest and total.
    pub fn touched(&self) -> u64 {
        let plan = plan_of(&self.query, &self.database);
        let tables = self.database.relations();
        let mut machine = Machine::new(&plan);
        let mut touched = 0;
        while !machine.finished(&plan) {
            let line = &plan.lines[machine.position];
            let of = |machine: &Machine, register: usize| machine.registers[register].len();
            touched += line.sources.iter().map(|source| of(&machine, *source)).sum::<usize>();
            touched += match line.operation {
                Operation::Table(table) => Relation::len(&tables[usize::from(table)]),
                Operation::Again { .. } => of(&machine, line.destination),
                _ => 0,
            };
            machine.step(&plan, &tables, self.limit as usize, BUDGET).expect("a finished run");
            touched += of(&machine, line.destination);
            if let Operation::Start { delta } | Operation::Again { delta } = line.operation {
                touched += of(&machine, delta);
            }
        }
        touched as u64
    }
}

fn plan_of(query: &Query, database: &Database) -> Plan {
    plan(&check(query, database.schema()).expect("a checked query").root)
}
