//! The run entry: the order of its tests, and what the lent slices hold at exit.

use crate::algebra::Columns;
use crate::check::{check, Checked};
use crate::plan::{execute, plan, Machine, Plan};
use crate::value::{refuse, slots_of, Database, Query, Refusal, COLUMNS, TABLE_ROWS};

/// A finished run; its rows are the first 8 × `rows` entries of the answer slice.
#[derive(Clone, Debug, PartialEq, Eq)]
pub struct Answer {
    pub columns: Columns,
    pub rows: u32,
    pub ran: u32,
}

/// The entries that a run of a plan with so many registers needs: a count and the rows of each.
pub const fn workspace_entries(registers: usize, row_limit: u32) -> usize {
    registers * (1 + COLUMNS * row_limit as usize)
}

/// What a run tests before 17: 11, then 2, 1, 3, 20, 4 to 10, then 16.
pub fn admitted(database: &Database, query: &Query, row_limit: u32) -> Result<Checked, Refusal> {
    database.form()?;
    let checked = check(query, database.schema())?;
    if row_limit == 0 || row_limit > TABLE_ROWS {
        return refuse(16, 0);
    }
    Ok(checked)
}

/// What is tested before a run begins: what comes before 17, then the workspace (17).
pub fn begun(
    database: &Database,
    query: &Query,
    row_limit: u32,
    workspace: &[u32],
) -> Result<(Checked, Plan), Refusal> {
    let checked = admitted(database, query, row_limit)?;
    let plan = plan(&checked.root);
    if workspace.len() < workspace_entries(plan.registers, row_limit) {
        return refuse(17, 0);
    }
    Ok((checked, plan))
}

/// What a plan that was run to its end tells; the answer slice (17) takes 8 entries a row, and only acceptance writes it.
pub fn told(checked: &Checked, plan: &Plan, machine: &Machine, answer: &mut [u32]) -> Result<Answer, Refusal> {
    let rows = &machine.registers[plan.result];
    let slots = slots_of(rows);
    if answer.len() < slots.len() {
        return refuse(17, 0);
    }
    answer[..slots.len()].copy_from_slice(&slots);
    Ok(Answer { columns: checked.columns(&checked.root).clone(), rows: rows.len() as u32, ran: machine.ran })
}

/// Tests what comes before a run, then runs and tests the answer slice. A run that began leaves the whole workspace zeros, any other
/// leaves it alone.
pub fn run(
    database: &Database,
    query: &Query,
    row_limit: u32,
    budget: u32,
    workspace: &mut [u32],
    answer: &mut [u32],
) -> Result<Answer, Refusal> {
    let (checked, plan) = begun(database, query, row_limit, workspace)?;
    workspace.fill(0);
    let machine = execute(&plan, &database.relations(), row_limit as usize, budget)?;
    told(&checked, &plan, &machine, answer)
}
