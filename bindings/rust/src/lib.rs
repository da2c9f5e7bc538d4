//! Capeshard for Rust: queries, databases, rewriting, compiling, running and going on with a run, by the calls of `include/capeshard.h`. Nothing here decides anything: each method
//! lends slices of the right length to one call, whose result and slices are proved to be those of the definitions.

pub mod panel;
mod pauses;

pub use pauses::{Pause, Progress};

/// The columns that there can be, and so the entries of a stored row.
pub const COLUMNS: usize = 8;
/// The most nodes of a query.
pub const NODES: usize = 128;
/// The most tables of a database.
pub const TABLES: usize = 16;
/// The most bytes of a path.
pub const PATH_BYTES: usize = 128;
/// The highest row limit of a run.
pub const ROWS: usize = 4096;

const LINE_ENTRIES: usize = 3;
const QUERY_ROOM: usize = 1 + LINE_ENTRIES * NODES;
const TABLE_ENTRIES: usize = 2;
const DATABASE_ROOM: usize = 1 + TABLE_ENTRIES * TABLES;
const RUN_ROOM: usize = 3;
const SLOT_ENTRIES: usize = 7;
const PLAN_ROOM: usize = 1 + SLOT_ENTRIES * NODES;
const ALLOWANCE_ROOM: usize = 1;
const PAUSE_ROOM: usize = 2;

/// The calls themselves, over slices of any length and content. What each asks and does stands in `include/capeshard.h`.
pub mod calls {
    extern "C" {
        pub fn capeshard_read_query(
            text: *const u8,
            text_len: usize,
            limit: usize,
            query: *mut u32,
            query_len: usize,
        ) -> u64;
        pub fn capeshard_read_path(
            path: *const u8,
            path_len: usize,
            database: *const u32,
            database_len: usize,
            store: *const u32,
            store_len: usize,
            limit: usize,
            query: *mut u32,
            query_len: usize,
        ) -> u64;
        pub fn capeshard_read_database(
            text: *const u8,
            text_len: usize,
            database: *mut u32,
            database_len: usize,
            store: *mut u32,
            store_len: usize,
        ) -> u64;
        pub fn capeshard_check(
            query: *const u32,
            query_len: usize,
            database: *const u32,
            database_len: usize,
            store: *const u32,
            store_len: usize,
            limit: usize,
        ) -> u64;
        pub fn capeshard_rewrite(
            query: *mut u32,
            query_len: usize,
            database: *const u32,
            database_len: usize,
            store: *const u32,
            store_len: usize,
            limit: usize,
            kind: u32,
            node: u32,
        ) -> u64;
        pub fn capeshard_compile(
            query: *const u32,
            query_len: usize,
            database: *const u32,
            database_len: usize,
            store: *const u32,
            store_len: usize,
            limit: usize,
            plan: *mut u32,
            plan_len: usize,
        ) -> u64;
        pub fn capeshard_allowance(
            query: *const u32,
            query_len: usize,
            database: *const u32,
            database_len: usize,
            store: *const u32,
            store_len: usize,
            limit: usize,
            rows: usize,
            plan: *mut u32,
            plan_len: usize,
            allowance: *mut u32,
            allowance_len: usize,
        ) -> u64;
        pub fn capeshard_run(
            query: *const u32,
            query_len: usize,
            database: *const u32,
            database_len: usize,
            store: *const u32,
            store_len: usize,
            limit: usize,
            rows: usize,
            budget: u32,
            workspace: *mut u32,
            workspace_len: usize,
            answer: *mut u32,
            answer_len: usize,
            told: *mut u32,
            told_len: usize,
        ) -> u64;
        pub fn capeshard_begin(
            query: *const u32,
            query_len: usize,
            database: *const u32,
            database_len: usize,
            store: *const u32,
            store_len: usize,
            limit: usize,
            rows: usize,
            budget: u32,
            workspace: *mut u32,
            workspace_len: usize,
            answer: *mut u32,
            answer_len: usize,
            told: *mut u32,
            told_len: usize,
            pause: *mut u32,
            pause_len: usize,
        ) -> u64;
        pub fn capeshard_resume(
            query: *const u32,
            query_len: usize,
            database: *const u32,
            database_len: usize,
            store: *const u32,
            store_len: usize,
            limit: usize,
            rows: usize,
            budget: u32,
            workspace: *mut u32,
            workspace_len: usize,
            answer: *mut u32,
            answer_len: usize,
            told: *mut u32,
            told_len: usize,
            pause: *mut u32,
            pause_len: usize,
        ) -> u64;
        pub fn capeshard_panel_read_query(text: *const u8, text_len: usize, query: *mut u32, query_len: usize) -> u64;
        pub fn capeshard_panel_read_path(
            path: *const u8,
            path_len: usize,
            database: *const u32,
            database_len: usize,
            store: *const u32,
            store_len: usize,
            query: *mut u32,
            query_len: usize,
        ) -> u64;
        pub fn capeshard_panel_check(
            query: *const u32,
            query_len: usize,
            database: *const u32,
            database_len: usize,
            store: *const u32,
            store_len: usize,
        ) -> u64;
        pub fn capeshard_panel_rewrite(
            query: *mut u32,
            query_len: usize,
            database: *const u32,
            database_len: usize,
            store: *const u32,
            store_len: usize,
            kind: u32,
            node: u32,
        ) -> u64;
        pub fn capeshard_panel_compile(
            query: *const u32,
            query_len: usize,
            database: *const u32,
            database_len: usize,
            store: *const u32,
            store_len: usize,
            plan: *mut u32,
            plan_len: usize,
        ) -> u64;
        pub fn capeshard_panel_allowance(
            query: *const u32,
            query_len: usize,
            database: *const u32,
            database_len: usize,
            store: *const u32,
            store_len: usize,
            plan: *mut u32,
            plan_len: usize,
            allowance: *mut u32,
            allowance_len: usize,
        ) -> u64;
        pub fn capeshard_panel_run(
            query: *const u32,
            query_len: usize,
            database: *const u32,
            database_len: usize,
            store: *const u32,
            store_len: usize,
            budget: u32,
            workspace: *mut u32,
            workspace_len: usize,
            answer: *mut u32,
            answer_len: usize,
            told: *mut u32,
            told_len: usize,
        ) -> u64;
        pub fn capeshard_panel_begin(
            query: *const u32,
            query_len: usize,
            database: *const u32,
            database_len: usize,
            store: *const u32,
            store_len: usize,
            budget: u32,
            workspace: *mut u32,
            workspace_len: usize,
            answer: *mut u32,
            answer_len: usize,
            told: *mut u32,
            told_len: usize,
            pause: *mut u32,
            pause_len: usize,
        ) -> u64;
        pub fn capeshard_panel_resume(
            query: *const u32,
            query_len: usize,
            database: *const u32,
            database_len: usize,
            store: *const u32,
            store_len: usize,
            budget: u32,
            workspace: *mut u32,
            workspace_len: usize,
            answer: *mut u32,
            answer_len: usize,
            told: *mut u32,
            told_len: usize,
            pause: *mut u32,
            pause_len: usize,
        ) -> u64;
    }
}

/// Why a call refused: the number of documents 01 and 02, and the line, node, table or byte at fault, or 0.
#[derive(Clone, Copy, Debug, PartialEq, Eq)]
pub struct Refusal {
    pub number: u32,
    pub place: u32,
}

fn reply(status: u64) -> Result<(), Refusal> {
    if status == 0 {
        Ok(())
    } else {
        Err(Refusal { number: (status >> 32) as u32, place: status as u32 })
    }
}

/// A node line, by the words of document 01's table of lines.
#[derive(Clone, Copy, Debug, PartialEq, Eq)]
pub enum Line {
    Table(u32),
    Var(u32),
    Fact(u32, u32),
    Union,
    Join,
    Except,
    Eq(u32, u32),
    Ne(u32, u32),
    /// A row whose column holds 0 passes no `max`, whatever the bound.
    Max(u32, u32),
    Same(u32, u32),
    Copy(u32, u32),
    Drop(u32),
    Fix(u32),
    /// Recursion typed in one piece: its one operand is split into the seed and the step of a fix.
    Mu(u32),
    /// Keeps a row exactly if no other row agrees with it in every other column and holds more in this one. An open operand is refused (5).
    Last(u32),
}

const FIX: u32 = 13;
const START: u32 = 14;
const MU: u32 = 15;
const LAST: u32 = 16;

impl Line {
    fn flat(self) -> [u32; LINE_ENTRIES] {
        match self {
            Line::Table(t) => [1, t, 0],
            Line::Var(v) => [2, v, 0],
            Line::Fact(c, w) => [3, c, w],
            Line::Union => [4, 0, 0],
            Line::Join => [5, 0, 0],
            Line::Except => [6, 0, 0],
            Line::Eq(c, w) => [7, c, w],
            Line::Ne(c, w) => [8, c, w],
            Line::Max(c, w) => [9, c, w],
            Line::Same(c, d) => [10, c, d],
            Line::Copy(a, b) => [11, a, b],
            Line::Drop(a) => [12, a, 0],
            Line::Fix(v) => [FIX, v, 0],
            Line::Mu(v) => [MU, v, 0],
            Line::Last(c) => [LAST, c, 0],
        }
    }

    fn of(entries: &[u32]) -> Line {
        let (a, b) = (entries[1], entries[2]);
        match entries[0] {
            1 => Line::Table(a),
            2 => Line::Var(a),
            3 => Line::Fact(a, b),
            4 => Line::Union,
            5 => Line::Join,
            6 => Line::Except,
            7 => Line::Eq(a, b),
            8 => Line::Ne(a, b),
            9 => Line::Max(a, b),
            10 => Line::Same(a, b),
            11 => Line::Copy(a, b),
            12 => Line::Drop(a),
            FIX => Line::Fix(a),
            MU => Line::Mu(a),
            LAST => Line::Last(a),
            code => unreachable!("no line has the code {code}"),
        }
    }
}

/// A plan line: the register that it writes and what it does. Registers count from 0, one a node, then one more a fix.
#[derive(Clone, Debug, PartialEq, Eq)]
pub struct PlanLine {
    pub to: u32,
    pub op: Op,
}

/// What a plan line does. `from` and the operands of a pair are registers.
#[derive(Clone, Debug, PartialEq, Eq)]
pub enum Op {
    Table {
        table: u32,
    },
    Fact {
        column: u32,
        value: u32,
    },
    Union(Operands),
    Join(Operands),
    Except(Operands),
    Eq {
        from: u32,
        column: u32,
        value: u32,
    },
    Ne {
        from: u32,
        column: u32,
        value: u32,
    },
    Max {
        from: u32,
        column: u32,
        value: u32,
    },
    Same {
        from: u32,
        column: u32,
        other: u32,
    },
    Copy {
        from: u32,
        column: u32,
        new: u32,
    },
    Drop {
        from: u32,
        column: u32,
    },
    Last {
        from: u32,
        column: u32,
    },
    /// A fix's start: its newest rows' register, the seed's, and how many lines the path has.
    Start {
        delta: u32,
        from: u32,
        path: u32,
    },
    /// A fix's own line: its newest rows' register, the step's, and how many lines the path has.
    Again {
        delta: u32,
        from: u32,
        path: u32,
    },
}

/// The registers of a pair's operands, and their columns.
#[derive(Clone, Debug, PartialEq, Eq)]
pub struct Operands {
    pub left: u32,
    pub right: u32,
    pub left_columns: Vec<usize>,
    pub right_columns: Vec<usize>,
}

impl PlanLine {
    fn of(entries: &[u32]) -> PlanLine {
        let (a, b, c) = (entries[2], entries[3], entries[4]);
        let operands = || Operands {
            left: a,
            right: b,
            left_columns: columns_of(entries[5]),
            right_columns: columns_of(entries[6]),
        };
        let op = match entries[0] {
            1 => Op::Table { table: a },
            3 => Op::Fact { column: a, value: b },
            4 => Op::Union(operands()),
            5 => Op::Join(operands()),
            6 => Op::Except(operands()),
            7 => Op::Eq { from: a, column: b, value: c },
            8 => Op::Ne { from: a, column: b, value: c },
            9 => Op::Max { from: a, column: b, value: c },
            10 => Op::Same { from: a, column: b, other: c },
            11 => Op::Copy { from: a, column: b, new: c },
            12 => Op::Drop { from: a, column: b },
            FIX => Op::Again { delta: a, from: b, path: c },
            START => Op::Start { delta: a, from: b, path: c },
            LAST => Op::Last { from: a, column: b },
            code => unreachable!("no plan line has the code {code}"),
        };
        PlanLine { to: entries[1], op }
    }

    /// The lines of a plan in the flat form.
    fn all(plan: &[u32]) -> Vec<PlanLine> {
        plan[1..].chunks(SLOT_ENTRIES).take(plan[0] as usize).map(PlanLine::of).collect()
    }
}

/// A plan, and a budget with which none of its runs is refused with 19: its number of lines times the row limit.
#[derive(Clone, Debug, PartialEq, Eq)]
pub struct Allowance {
    pub plan: Vec<PlanLine>,
    pub budget: u32,
}

/// The columns whose bits are set.
fn columns_of(bits: u32) -> Vec<usize> {
    (0..COLUMNS).filter(|column| bits >> column & 1 == 1).collect()
}

/// A table: its columns, ascending, and its rows, ascending, with a value a column.
#[derive(Clone, Debug, PartialEq, Eq)]
pub struct Table {
    pub columns: Vec<usize>,
    pub rows: Vec<Vec<u32>>,
}

/// A database: its tables in the flat form, and their rows.
#[derive(Clone, Debug, PartialEq, Eq)]
pub struct Database {
    flat: [u32; DATABASE_ROOM],
    store: Vec<u32>,
}

impl Database {
    /// Reads a book's text (11). A text of 0 bytes is a book without tables.
    pub fn read(text: &[u8]) -> Result<Database, Refusal> {
        // A row takes a line of its own, so there is room for every row.
        let lines = text.iter().filter(|byte| **byte == b'\n').count();
        let mut database = Database { flat: [0; DATABASE_ROOM], store: vec![0; COLUMNS * lines] };
        // SAFETY: each pointer and length is that of one slice, and the written ones are borrowed here alone.
        reply(unsafe {
            calls::capeshard_read_database(
                text.as_ptr(),
                text.len(),
                database.flat.as_mut_ptr(),
                database.flat.len(),
                database.store.as_mut_ptr(),
                database.store.len(),
            )
        })?;
        Ok(database)
    }

    /// The database of some tables; the calls refuse what is off the form (11). A value without a column, a column that there cannot be and a table
    /// past the last that there can be have no place in it: then there is none.
    pub fn of(tables: &[Table]) -> Option<Database> {
        let mut database = Database { flat: [0; DATABASE_ROOM], store: Vec::new() };
        if TABLES < tables.len() {
            return None;
        }
        database.flat[0] = tables.len() as u32;
        for (table, entries) in tables.iter().zip(database.flat[1..].chunks_mut(TABLE_ENTRIES)) {
            for &column in &table.columns {
                entries[0] |= 1u32.checked_shl(u32::try_from(column).ok()?).filter(|_| column < COLUMNS)?;
            }
            entries[1] = u32::try_from(table.rows.len()).ok()?;
            for row in &table.rows {
                if row.len() != table.columns.len() {
                    return None;
                }
                let mut slots = [0; COLUMNS];
                for (&column, &value) in table.columns.iter().zip(row) {
                    slots[column] = value;
                }
                database.store.extend(slots);
            }
        }
        Some(database)
    }
}

/// A row limit over the highest is refused before any workspace or answer is asked for.
fn room_for(rows: usize) -> usize {
    if rows <= ROWS {
        rows
    } else {
        0
    }
}

/// A query: its lines in the flat form.
#[derive(Clone, Debug, PartialEq, Eq)]
pub struct Query {
    flat: [u32; QUERY_ROOM],
}

/// What a finished run tells: the answer's columns, its rows with a value a column, and the lines run.
#[derive(Clone, Debug, PartialEq, Eq)]
pub struct Answer {
    pub columns: Vec<usize>,
    pub rows: Vec<Vec<u32>>,
    pub ran: u32,
}

impl Answer {
    fn of(answer: &[u32], told: [u32; RUN_ROOM]) -> Answer {
        let [columns, rows, ran] = told;
        let columns = columns_of(columns);
        let values = |row: &[u32]| columns.iter().map(|&column| row[column]).collect();
        let rows = answer.chunks(COLUMNS).take(rows as usize).map(values).collect();
        Answer { columns, rows, ran }
    }
}

impl Query {
    fn blank() -> Query {
        Query { flat: [0; QUERY_ROOM] }
    }

    /// Reads a sheet's text (1, 2).
    pub fn read(text: &[u8]) -> Result<Query, Refusal> {
        let mut query = Query::blank();
        // SAFETY: each pointer and length is that of one slice, and the written one is borrowed here alone.
        reply(unsafe {
            calls::capeshard_read_query(text.as_ptr(), text.len(), NODES, query.flat.as_mut_ptr(), query.flat.len())
        })?;
        Ok(query)
    }

    /// Reads a SPARQL 1.1 property path over a database (21 with the byte, 11, then 10 or 9 by the first such name, then 2). The query means the pairs that
    /// the path links, from column 0 to column 1, and passes the check over that database.
    pub fn read_path(path: &[u8], database: &Database) -> Result<Query, Refusal> {
        let mut query = Query::blank();
        // SAFETY: each pointer and length is that of one slice, and the written one is borrowed here alone.
        reply(unsafe {
            calls::capeshard_read_path(
                path.as_ptr(),
                path.len(),
                database.flat.as_ptr(),
                database.flat.len(),
                database.store.as_ptr(),
                database.store.len(),
                NODES,
                query.flat.as_mut_ptr(),
                query.flat.len(),
            )
        })?;
        Ok(query)
    }

    /// The query of some lines, if there is room for them.
    pub fn of(lines: &[Line]) -> Option<Query> {
        if NODES < lines.len() {
            return None;
        }
        let mut query = Query::blank();
        query.flat[0] = lines.len() as u32;
        for (line, entries) in lines.iter().zip(query.flat[1..].chunks_mut(LINE_ENTRIES)) {
            entries.copy_from_slice(&line.flat());
        }
        Some(query)
    }

    fn entries(&self) -> impl Iterator<Item = &[u32]> {
        self.flat[1..].chunks(LINE_ENTRIES).take(self.flat[0] as usize)
    }

    /// The lines, in node order.
    pub fn lines(&self) -> Vec<Line> {
        self.entries().map(Line::of).collect()
    }

    /// Checks the query over a database (11, then 2, 1, 3, 20, 4 to 10). From 4 on places count in the query with each `mu` split.
    pub fn check(&self, database: &Database) -> Result<(), Refusal> {
        // SAFETY: each pointer and length is that of one slice, and nothing is written.
        reply(unsafe {
            calls::capeshard_check(
                self.flat.as_ptr(),
                self.flat.len(),
                database.flat.as_ptr(),
                database.flat.len(),
                database.store.as_ptr(),
                database.store.len(),
                NODES,
            )
        })
    }

    /// Rewrites the query by a kind at a node, nodes counting from 1 in the query with each `mu` split (as the check, then 12 to 15; of kinds 7 to 11 12, then
    /// 2 or 22). Accepted, no `mu` is left in it; a refusal leaves it as it was. A column that must be stable (13) is one that the step's result has with itself
    /// as origin.
    pub fn rewrite(&mut self, database: &Database, kind: u32, node: u32) -> Result<(), Refusal> {
        // SAFETY: each pointer and length is that of one slice, and the written one is borrowed here alone.
        reply(unsafe {
            calls::capeshard_rewrite(
                self.flat.as_mut_ptr(),
                self.flat.len(),
                database.flat.as_ptr(),
                database.flat.len(),
                database.store.as_ptr(),
                database.store.len(),
                NODES,
                kind,
                node,
            )
        })
    }

    /// Compiles the query (as the check): its plan, line for line.
    pub fn compile(&self, database: &Database) -> Result<Vec<PlanLine>, Refusal> {
        let mut plan = [0; PLAN_ROOM];
        // SAFETY: each pointer and length is that of one slice, and the written one is borrowed here alone.
        reply(unsafe {
            calls::capeshard_compile(
                self.flat.as_ptr(),
                self.flat.len(),
                database.flat.as_ptr(),
                database.flat.len(),
                database.store.as_ptr(),
                database.store.len(),
                NODES,
                plan.as_mut_ptr(),
                plan.len(),
            )
        })?;
        Ok(PlanLine::all(&plan))
    }

    /// How large an allowance is enough for runs with so many rows a register (as the check, then 16): a run with this budget or more never gets 19.
    pub fn allowance(&self, database: &Database, rows: usize) -> Result<Allowance, Refusal> {
        let mut plan = [0; PLAN_ROOM];
        let mut budget = [0; ALLOWANCE_ROOM];
        // SAFETY: each pointer and length is that of one slice, and the written ones are borrowed here alone.
        reply(unsafe {
            calls::capeshard_allowance(
                self.flat.as_ptr(),
                self.flat.len(),
                database.flat.as_ptr(),
                database.flat.len(),
                database.store.as_ptr(),
                database.store.len(),
                NODES,
                rows,
                plan.as_mut_ptr(),
                plan.len(),
                budget.as_mut_ptr(),
                budget.len(),
            )
        })?;
        Ok(Allowance { plan: PlanLine::all(&plan), budget: budget[0] })
    }

    /// What a run with so many rows a register needs.
    fn workspace(&self, rows: usize) -> Vec<u32> {
        // A `mu` is one node more and one fix fewer than what it is split into, so the sum is the split query's.
        let registers = self.entries().count() + self.entries().filter(|line| line[0] == FIX).count();
        vec![0; registers * (1 + COLUMNS * room_for(rows))]
    }

    /// Runs the query (as the check, then 16, 18, 19): at most so many rows a register, at most so many plan lines.
    pub fn run(&self, database: &Database, rows: usize, budget: u32) -> Result<Answer, Refusal> {
        let mut workspace = self.workspace(rows);
        let mut answer = vec![0; COLUMNS * room_for(rows)];
        let mut told = [0; RUN_ROOM];
        // SAFETY: each pointer and length is that of one slice, and the written ones are borrowed here alone.
        reply(unsafe {
            calls::capeshard_run(
                self.flat.as_ptr(),
                self.flat.len(),
                database.flat.as_ptr(),
                database.flat.len(),
                database.store.as_ptr(),
                database.store.len(),
                NODES,
                rows,
                budget,
                workspace.as_mut_ptr(),
                workspace.len(),
                answer.as_mut_ptr(),
                answer.len(),
                told.as_mut_ptr(),
                told.len(),
            )
        })?;
        Ok(Answer::of(&answer, told))
    }
}
