//! The wall panel of change request U1: the desk's questions with at most 32 nodes and the row limit 64. It takes no row
//! limit, so 16 never arises.

use crate::allowance::{self, Allowance};
use crate::check::{self, Checked};
use crate::paths;
use crate::pauses::{self, Pause, Progress};
use crate::plan::{plan, Plan};
use crate::rewrite;
use crate::run::{self, workspace_entries, Answer};
use crate::text::read_query;
use crate::value::{refuse, Database, Query, Refusal};

pub const NODES: usize = 32;
pub const ROW_LIMIT: u32 = 64;
/// The most fixes of a checked query: each has its own line and one of its variable, and the first line is neither.
pub const FIXES: usize = (NODES - 1) / 2;
/// The entries of workspace that are enough for every run.
pub const WORKSPACE: usize = workspace_entries(NODES + FIXES, ROW_LIMIT);

/// 1 at the first bad line, then 2 at line 2.
pub fn read(text: &[u8]) -> Result<Query, Refusal> {
    read_query(text, NODES)
}

/// 21, then 11, then 10 or 9, then 2.
pub fn read_path(text: &[u8], database: &Database) -> Result<Query, Refusal> {
    paths::read_path(text, database, NODES)
}

/// 11, then 2 with place 0.
fn fits(database: &Database, query: &Query) -> Result<(), Refusal> {
    database.form()?;
    if query.count as usize > NODES {
        return refuse(2, 0);
    }
    Ok(())
}

pub fn check(database: &Database, query: &Query) -> Result<Checked, Refusal> {
    fits(database, query)?;
    check::check(query, database.schema())
}

pub fn rewrite(database: &Database, query: &Query, kind: u32, node: u32) -> Result<Query, Refusal> {
    rewrite::rewrite_within(NODES, database, query, kind, node)
}

pub fn compile(database: &Database, query: &Query) -> Result<Plan, Refusal> {
    check(database, query).map(|checked| plan(&checked.root))
}

/// 11, then 2, then the sheet's other numbers: what a run tests before 17.
pub fn allowance(database: &Database, query: &Query) -> Result<Allowance, Refusal> {
    fits(database, query)?;
    allowance::allowance(database, query, ROW_LIMIT)
}

pub fn run(
    database: &Database,
    query: &Query,
    budget: u32,
    workspace: &mut [u32],
    answer: &mut [u32],
) -> Result<Answer, Refusal> {
    fits(database, query)?;
    run::run(database, query, ROW_LIMIT, budget, workspace, answer)
}

pub fn begin(
    database: &Database,
    query: &Query,
    budget: u32,
    workspace: &mut [u32],
    answer: &mut [u32],
) -> Result<Progress, Refusal> {
    fits(database, query)?;
    pauses::begin(database, query, ROW_LIMIT, budget, workspace, answer)
}

pub fn resume(
    database: &Database,
    query: &Query,
    further: u32,
    pause: Pause,
    workspace: &mut [u32],
    answer: &mut [u32],
) -> Result<Progress, Refusal> {
    fits(database, query)?;
    pauses::resume(database, query, ROW_LIMIT, further, pause, workspace, answer)
}
