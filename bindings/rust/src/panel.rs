//! The wall panel: the desk's queries with less memory. Its functions take at most [`NODES`] nodes, fewer than those of [`Query`], and the row limit is
//! [`ROWS`]. A query of at most [`NODES`] nodes serves both, whichever rewrote it; where both finish a run, their answers are the same.

use crate::pauses::{Place, Run};
use crate::{
    calls, reply, Allowance, Answer, Database, PlanLine, Progress, Query, Refusal, ALLOWANCE_ROOM, COLUMNS, PLAN_ROOM,
    RUN_ROOM,
};

/// The most nodes of a query.
pub const NODES: usize = 32;
/// The row limit of a run.
pub const ROWS: usize = 64;
/// The entries of workspace that are enough for every query. A fix has its own line and its var's, and one line is neither.
pub const WORKSPACE: usize = (NODES + (NODES - 1) / 2) * (1 + COLUMNS * ROWS);

/// Reads a sheet's text (1, 2).
pub fn read(text: &[u8]) -> Result<Query, Refusal> {
    let mut query = Query::blank();
    // SAFETY: each pointer and length is that of one slice, and the written one is borrowed here alone.
    reply(unsafe {
        calls::capeshard_panel_read_query(text.as_ptr(), text.len(), query.flat.as_mut_ptr(), query.flat.len())
    })?;
    Ok(query)
}

/// Reads a SPARQL 1.1 property path over a database (21 with the byte, 11, then 10 or 9 by the first such name, then 2).
pub fn read_path(path: &[u8], database: &Database) -> Result<Query, Refusal> {
    let mut query = Query::blank();
    // SAFETY: each pointer and length is that of one slice, and the written one is borrowed here alone.
    reply(unsafe {
        calls::capeshard_panel_read_path(
            path.as_ptr(),
            path.len(),
            database.flat.as_ptr(),
            database.flat.len(),
            database.store.as_ptr(),
            database.store.len(),
            query.flat.as_mut_ptr(),
            query.flat.len(),
        )
    })?;
    Ok(query)
}

/// Checks a query over a database (11, then 2, 1, 3, 20, 4 to 10).
pub fn check(query: &Query, database: &Database) -> Result<(), Refusal> {
    // SAFETY: each pointer and length is that of one slice, and nothing is written.
    reply(unsafe {
        calls::capeshard_panel_check(
            query.flat.as_ptr(),
            query.flat.len(),
            database.flat.as_ptr(),
            database.flat.len(),
            database.store.as_ptr(),
            database.store.len(),
        )
    })
}

/// Rewrites a query by a kind at a node, nodes counting from 1 (as the check, then 12 to 15; of kinds 7 to 11 12,
/// then 2 or 22); a refusal leaves it as it was.
pub fn rewrite(query: &mut Query, database: &Database, kind: u32, node: u32) -> Result<(), Refusal> {
    // SAFETY: each pointer and length is that of one slice, and the written one is borrowed here alone.
    reply(unsafe {
        calls::capeshard_panel_rewrite(
            query.flat.as_mut_ptr(),
            query.flat.len(),
            database.flat.as_ptr(),
            database.flat.len(),
            database.store.as_ptr(),
            database.store.len(),
            kind,
            node,
        )
    })
}

/// Compiles a query (as the check): its plan, line for line.
pub fn compile(query: &Query, database: &Database) -> Result<Vec<PlanLine>, Refusal> {
    let mut plan = [0; PLAN_ROOM];
    // SAFETY: each pointer and length is that of one slice, and the written one is borrowed here alone.
    reply(unsafe {
        calls::capeshard_panel_compile(
            query.flat.as_ptr(),
            query.flat.len(),
            database.flat.as_ptr(),
            database.flat.len(),
            database.store.as_ptr(),
            database.store.len(),
            plan.as_mut_ptr(),
            plan.len(),
        )
    })?;
    Ok(PlanLine::all(&plan))
}

/// How large an allowance is enough (as the check): a run with this budget or more never gets 19.
pub fn allowance(query: &Query, database: &Database) -> Result<Allowance, Refusal> {
    let mut plan = [0; PLAN_ROOM];
    let mut budget = [0; ALLOWANCE_ROOM];
    // SAFETY: each pointer and length is that of one slice, and the written ones are borrowed here alone.
    reply(unsafe {
        calls::capeshard_panel_allowance(
            query.flat.as_ptr(),
            query.flat.len(),
            database.flat.as_ptr(),
            database.flat.len(),
            database.store.as_ptr(),
            database.store.len(),
            plan.as_mut_ptr(),
            plan.len(),
            budget.as_mut_ptr(),
            budget.len(),
        )
    })?;
    Ok(Allowance { plan: PlanLine::all(&plan), budget: budget[0] })
}

/// Runs a query (as the check, then 18, 19): at most [`ROWS`] rows a register, at most so many plan lines.
pub fn run(query: &Query, database: &Database, budget: u32) -> Result<Answer, Refusal> {
    let mut workspace = vec![0; WORKSPACE];
    let mut answer = [0; COLUMNS * ROWS];
    let mut told = [0; RUN_ROOM];
    // SAFETY: each pointer and length is that of one slice, and the written ones are borrowed here alone.
    reply(unsafe {
        calls::capeshard_panel_run(
            query.flat.as_ptr(),
            query.flat.len(),
            database.flat.as_ptr(),
            database.flat.len(),
            database.store.as_ptr(),
            database.store.len(),
            budget,
            workspace.as_mut_ptr(),
            workspace.len(),
            answer.as_mut_ptr(),
            answer.len(),
            told.as_mut_ptr(),
            told.len(),
        )
    })?;
    Ok(Answer::of(&answer, told))
}

/// Runs a query as [`run`] does, but where the budget is spent (19) the run is put aside. The desk goes on with it too.
pub fn begin<'a>(query: &'a Query, database: &'a Database, budget: u32) -> Result<Progress<'a>, Refusal> {
    Run { query, database, place: Place::Panel }.begin(vec![0; WORKSPACE], budget)
}
