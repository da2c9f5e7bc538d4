//! How large an allowance is enough (change request U8): the plan's number of lines times the row limit. No run exceeds that
//! product, however it ends, so a budget of it or more is never refused with 19.

use crate::plan::{plan, Plan};
use crate::run::admitted;
use crate::value::{Database, Query, Refusal};

/// A plan, and beside it the product for one row limit.
#[derive(Clone, Debug, PartialEq, Eq)]
pub struct Allowance {
    pub plan: Plan,
    pub budget: u32,
}

/// Tests what a run tests before 17. Nothing is run, and no workspace is lent.
pub fn allowance(database: &Database, query: &Query, row_limit: u32) -> Result<Allowance, Refusal> {
    let plan = plan(&admitted(database, query, row_limit)?.root);
    // At most 128 lines times 4,096 rows.
    let budget = plan.lines.len() as u32 * row_limit;
    Ok(Allowance { plan, budget })
}
