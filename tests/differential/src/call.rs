//! A call of include/capeshard.h, made of the engine and worked out by the reference.

use crate::slices::{
    bits_of, database_of, flat_database, flat_plan, flat_query, over, query_of, Slices, ALLOWANCE_ROOM, DATABASE_ROOM,
    PAUSE_ROOM, PLAN_ROOM, QUERY_ROOM, RUN_ROOM,
};
use capeshard::calls;
use reference::allowance::{allowance, Allowance};
use reference::check::{check, Checked};
use reference::panel;
use reference::paths::read_path;
use reference::pauses::{begin, resume, Pause, Progress};
use reference::rewrite::rewrite;
use reference::run::{run, Answer};
use reference::text::{read_database, read_query};
use reference::value::{refuse, Database, Query, Refusal, NODES};

#[derive(Clone, Copy, Debug)]
pub enum Call {
    ReadQuery { limit: usize },
    ReadPath { limit: usize },
    ReadDatabase,
    Check { limit: usize },
    Rewrite { limit: usize, kind: u32, node: u32 },
    Compile { limit: usize },
    Allowance { limit: usize, rows: usize },
    Run { limit: usize, rows: usize, budget: u32 },
    Begin { limit: usize, rows: usize, budget: u32 },
    Resume { limit: usize, rows: usize, budget: u32 },
    PanelReadQuery,
    PanelReadPath,
    PanelCheck,
    PanelRewrite { kind: u32, node: u32 },
    PanelCompile,
    PanelAllowance,
    PanelRun { budget: u32 },
    PanelBegin { budget: u32 },
    PanelResume { budget: u32 },
}

/// Entries on both sides of each lent slice, which no call may touch.
const GUARD: usize = 4;
const MARK: u32 = 0xa5a5_5a5a;

fn guarded(slice: &[u32]) -> Vec<u32> {
    [&[MARK; GUARD], slice, &[MARK; GUARD]].concat()
}

impl Call {
    /// What the engine replies; the slices hold what it left. A broken guard shows as a slice that has grown.
    pub fn by_engine(self, lent: &mut Slices) -> Result<(), Refusal> {
        let text = lent.text.clone();
        let slices = [
            &mut lent.query,
            &mut lent.database,
            &mut lent.store,
            &mut lent.plan,
            &mut lent.allowance,
            &mut lent.workspace,
            &mut lent.answer,
            &mut lent.told,
            &mut lent.pause,
        ];
        let mut held = slices.each_ref().map(|slice| guarded(slice));
        let [query, database, store, plan, allowance, workspace, answer, told, pause] = held.each_mut().map(|slice| {
            let length = slice.len() - 2 * GUARD;
            (slice[GUARD..].as_mut_ptr(), length)
        });
        // SAFETY: each pointer and length is that of one slice that nobody else has.
        let status = unsafe {
            match self {
                Call::ReadQuery { limit } => {
                    calls::capeshard_read_query(text.as_ptr(), text.len(), limit, query.0, query.1)
                }
                Call::ReadPath { limit } => calls::capeshard_read_path(
                    text.as_ptr(),
                    text.len(),
                    database.0,
                    database.1,
                    store.0,
                    store.1,
                    limit,
                    query.0,
                    query.1,
                ),
                Call::ReadDatabase => {
                    calls::capeshard_read_database(text.as_ptr(), text.len(), database.0, database.1, store.0, store.1)
                }
                Call::Check { limit } => {
                    calls::capeshard_check(query.0, query.1, database.0, database.1, store.0, store.1, limit)
                }
                Call::Rewrite { limit, kind, node } => calls::capeshard_rewrite(
                    query.0, query.1, database.0, database.1, store.0, store.1, limit, kind, node,
                ),
                Call::Compile { limit } => calls::capeshard_compile(
                    query.0, query.1, database.0, database.1, store.0, store.1, limit, plan.0, plan.1,
                ),
                Call::Allowance { limit, rows } => calls::capeshard_allowance(
                    query.0,
                    query.1,
                    database.0,
                    database.1,
                    store.0,
                    store.1,
                    limit,
                    rows,
                    plan.0,
                    plan.1,
                    allowance.0,
                    allowance.1,
                ),
                Call::Run { limit, rows, budget } => calls::capeshard_run(
                    query.0,
                    query.1,
                    database.0,
                    database.1,
                    store.0,
                    store.1,
                    limit,
                    rows,
                    budget,
                    workspace.0,
                    workspace.1,
                    answer.0,
                    answer.1,
                    told.0,
                    told.1,
                ),
                Call::Begin { limit, rows, budget } => calls::capeshard_begin(
                    query.0,
                    query.1,
                    database.0,
                    database.1,
                    store.0,
                    store.1,
                    limit,
                    rows,
                    budget,
                    workspace.0,
                    workspace.1,
                    answer.0,
                    answer.1,
                    told.0,
                    told.1,
                    pause.0,
                    pause.1,
                ),
                Call::Resume { limit, rows, budget } => calls::capeshard_resume(
                    query.0,
                    query.1,
                    database.0,
                    database.1,
                    store.0,
                    store.1,
                    limit,
                    rows,
                    budget,
                    workspace.0,
                    workspace.1,
                    answer.0,
                    answer.1,
                    told.0,
                    told.1,
                    pause.0,
                    pause.1,
                ),
                Call::PanelReadQuery => calls::capeshard_panel_read_query(text.as_ptr(), text.len(), query.0, query.1),
                Call::PanelReadPath => calls::capeshard_panel_read_path(
                    text.as_ptr(),
                    text.len(),
                    database.0,
                    database.1,
                    store.0,
                    store.1,
                    query.0,
                    query.1,
                ),
                Call::PanelCheck => {
                    calls::capeshard_panel_check(query.0, query.1, database.0, database.1, store.0, store.1)
                }
                Call::PanelRewrite { kind, node } => calls::capeshard_panel_rewrite(
                    query.0, query.1, database.0, database.1, store.0, store.1, kind, node,
                ),
                Call::PanelCompile => calls::capeshard_panel_compile(
                    query.0, query.1, database.0, database.1, store.0, store.1, plan.0, plan.1,
                ),
                Call::PanelAllowance => calls::capeshard_panel_allowance(
                    query.0,
                    query.1,
                    database.0,
                    database.1,
                    store.0,
                    store.1,
                    plan.0,
                    plan.1,
                    allowance.0,
                    allowance.1,
                ),
                Call::PanelRun { budget } => calls::capeshard_panel_run(
                    query.0,
                    query.1,
                    database.0,
                    database.1,
                    store.0,
                    store.1,
                    budget,
                    workspace.0,
                    workspace.1,
                    answer.0,
                    answer.1,
                    told.0,
                    told.1,
                ),
                Call::PanelBegin { budget } => calls::capeshard_panel_begin(
                    query.0,
                    query.1,
                    database.0,
                    database.1,
                    store.0,
                    store.1,
                    budget,
                    workspace.0,
                    workspace.1,
                    answer.0,
                    answer.1,
                    told.0,
                    told.1,
                    pause.0,
                    pause.1,
                ),
                Call::PanelResume { budget } => calls::capeshard_panel_resume(
                    query.0,
                    query.1,
                    database.0,
                    database.1,
                    store.0,
                    store.1,
                    budget,
                    workspace.0,
                    workspace.1,
                    answer.0,
                    answer.1,
                    told.0,
                    told.1,
                    pause.0,
                    pause.1,
                ),
            }
        };
        for (slice, held) in slices.into_iter().zip(held) {
            let inner = held[GUARD..held.len() - GUARD].to_vec();
            *slice = if guarded(&inner) == held { inner } else { held };
        }
        match status {
            0 => Ok(()),
            _ => refuse((status >> 32) as u32, status as u32),
        }
    }

    /// A flat slice is below its room.
    fn short(self, lent: &Slices) -> bool {
        let query = lent.query.len() < QUERY_ROOM;
        let either = query || lent.database.len() < DATABASE_ROOM;
        let plan = lent.plan.len() < PLAN_ROOM;
        match self {
            Call::ReadQuery { .. } | Call::PanelReadQuery => query,
            Call::ReadPath { .. } | Call::PanelReadPath => either,
            Call::ReadDatabase => lent.database.len() < DATABASE_ROOM,
            Call::Check { .. } | Call::Rewrite { .. } | Call::PanelCheck | Call::PanelRewrite { .. } => either,
            Call::Compile { .. } | Call::PanelCompile => either || plan,
            Call::Allowance { .. } | Call::PanelAllowance => either || plan || lent.allowance.len() < ALLOWANCE_ROOM,
            Call::Run { .. } | Call::PanelRun { .. } => either || lent.told.len() < RUN_ROOM,
            Call::Begin { .. } | Call::Resume { .. } | Call::PanelBegin { .. } | Call::PanelResume { .. } => {
                either || lent.told.len() < RUN_ROOM || lent.pause.len() < PAUSE_ROOM
            }
        }
    }

    /// What the reference replies, and what the slices are to hold then.
    pub fn by_reference(self, lent: &mut Slices) -> Result<(), Refusal> {
        if self.short(lent) {
            return refuse(17, 0);
        }
        match self {
            Call::ReadQuery { limit } => put_query(read_query(&lent.text, limit.min(NODES))?, lent),
            Call::ReadPath { limit } => {
                let database = database_of(&lent.database, &lent.store);
                put_query(read_path(&lent.text, &database, limit.min(NODES))?, lent);
            }
            Call::ReadDatabase => {
                let database = read_database(&lent.text, &lent.store)?;
                over(&flat_database(&database), &mut lent.database);
                lent.store = database.store;
            }
            Call::Check { limit } => {
                let (database, query) = given(lent, limit);
                database.form()?;
                check(&query, database.schema())?;
            }
            Call::Rewrite { limit, kind, node } => {
                let (database, query) = given(lent, limit);
                put_query(rewrite(&database, &query, kind, node)?, lent);
            }
            Call::Compile { limit } => {
                let (database, query) = given(lent, limit);
                database.form()?;
                over(&flat_plan(&check(&query, database.schema())?), &mut lent.plan);
            }
            Call::Allowance { limit, rows } => {
                let (database, query) = given(lent, limit);
                let found = allowance(&database, &query, row_limit_of(rows))?;
                put_allowance(check(&query, database.schema())?, found, lent);
            }
            Call::Run { limit, rows, budget } => {
                let (database, query) = given(lent, limit);
                let rows = row_limit_of(rows);
                put_told(run(&database, &query, rows, budget, &mut lent.workspace, &mut lent.answer)?, lent);
            }
            Call::Begin { limit, rows, budget } => {
                let (database, query) = given(lent, limit);
                let rows = row_limit_of(rows);
                let progress = begin(&database, &query, rows, budget, &mut lent.workspace, &mut lent.answer)?;
                return put_progress(progress, lent);
            }
            Call::Resume { limit, rows, budget } => {
                let (database, query) = given(lent, limit);
                let (rows, pause) = (row_limit_of(rows), pause_of(&lent.pause));
                let progress = resume(&database, &query, rows, budget, pause, &mut lent.workspace, &mut lent.answer)?;
                return put_progress(progress, lent);
            }
            Call::PanelReadQuery => put_query(panel::read(&lent.text)?, lent),
            Call::PanelReadPath => {
                let database = database_of(&lent.database, &lent.store);
                put_query(panel::read_path(&lent.text, &database)?, lent);
            }
            Call::PanelCheck => {
                let (database, query) = given(lent, NODES);
                panel::check(&database, &query)?;
            }
            Call::PanelRewrite { kind, node } => {
                let (database, query) = given(lent, NODES);
                put_query(panel::rewrite(&database, &query, kind, node)?, lent);
            }
            Call::PanelCompile => {
                let (database, query) = given(lent, NODES);
                over(&flat_plan(&panel::check(&database, &query)?), &mut lent.plan);
            }
            Call::PanelAllowance => {
                let (database, query) = given(lent, NODES);
                let found = panel::allowance(&database, &query)?;
                put_allowance(panel::check(&database, &query)?, found, lent);
            }
            Call::PanelRun { budget } => {
                let (database, query) = given(lent, NODES);
                put_told(panel::run(&database, &query, budget, &mut lent.workspace, &mut lent.answer)?, lent);
            }
            Call::PanelBegin { budget } => {
                let (database, query) = given(lent, NODES);
                let progress = panel::begin(&database, &query, budget, &mut lent.workspace, &mut lent.answer)?;
                return put_progress(progress, lent);
            }
            Call::PanelResume { budget } => {
                let (database, query) = given(lent, NODES);
                let pause = pause_of(&lent.pause);
                let progress = panel::resume(&database, &query, budget, pause, &mut lent.workspace, &mut lent.answer)?;
                return put_progress(progress, lent);
            }
        }
        Ok(())
    }
}

/// The database and the query in slices with room for them; `limit` is the highest node count taken.
fn given(lent: &Slices, limit: usize) -> (Database, Query) {
    (database_of(&lent.database, &lent.store), query_of(&lent.query, limit))
}

/// A row limit that the reference's number cannot hold is as much too high as its highest.
fn row_limit_of(rows: usize) -> u32 {
    u32::try_from(rows).unwrap_or(u32::MAX)
}

fn put_query(query: Query, lent: &mut Slices) {
    over(&flat_query(query.lines()), &mut lent.query);
}

fn put_allowance(checked: Checked, found: Allowance, lent: &mut Slices) {
    over(&flat_plan(&checked), &mut lent.plan);
    over(&[found.budget], &mut lent.allowance);
}

fn put_told(told: Answer, lent: &mut Slices) {
    over(&[bits_of(&told.columns), told.rows, told.ran], &mut lent.told);
}

fn pause_of(pause: &[u32]) -> Pause {
    Pause { next: pause[0], ran: pause[1] }
}

/// A pause is answered as 19.
fn put_progress(progress: Progress, lent: &mut Slices) -> Result<(), Refusal> {
    match progress {
        Progress::Finished(told) => {
            put_told(told, lent);
            Ok(())
        }
        Progress::Paused(pause) => {
            over(&[pause.next, pause.ran], &mut lent.pause);
            refuse(19, 0)
        }
    }
}
