//! How large an allowance is enough: the product beside the plan, the lines that runs have run however they ended, and what is
//! refused before the product.

use super::at::At;
use super::desk_and_panel::{about, due, input, too_long};
use super::{ensure, outcome, told, Coverage, Verdict, MOST};
use crate::allowance::{allowance, Allowance};
use crate::check::check;
use crate::damage;
use crate::panel;
use crate::plan::{execute, plan, run_lines};
use crate::random::{self, Random};
use crate::run::run;
use crate::selfcheck::Outcome;
use crate::value::{refuse, Database, Node, Query, Refusal, COLUMNS, NODES, NUMBERS, TABLE_ROWS};

/// Damaged inputs to one that is not.
const DAMAGED: usize = 4;
/// The most filters on a path of the panel's nodes.
const PANEL_FILTERS: usize = panel::NODES - 10;

impl At {
    fn allowance(self, database: &Database, query: &Query) -> Result<Allowance, Refusal> {
        match self {
            At::Desk(row_limit) => allowance(database, query, row_limit),
            At::Panel => panel::allowance(database, query),
        }
    }

    /// The lines run, with so many entries of workspace and an answer slice for as many rows as there can be.
    fn run(self, database: &Database, query: &Query, budget: u32, entries: usize) -> Result<u32, Refusal> {
        let (mut workspace, mut slots) =
            (vec![7; entries], vec![7; COLUMNS * self.row_limit().min(TABLE_ROWS) as usize]);
        let answer = match self {
            At::Desk(row_limit) => run(database, query, row_limit, budget, &mut workspace, &mut slots),
            At::Panel => panel::run(database, query, budget, &mut workspace, &mut slots),
        };
        answer.map(|answer| answer.ran)
    }
}

/// What products have met, each at desk and panel.
#[derive(Default)]
pub struct Met {
    /// Runs that finished, that 18 ended and that 19 ended; of the first two those with the product as their budget.
    ends: [[u32; 3]; 2],
    with_product: [[u32; 2]; 2],
    /// Finished runs, the row limit being 2 or more, of more than half of the product and of more than four fifths of it. The
    /// lines run and the product of the nearest.
    near: [[u32; 2]; 2],
    nearest: [(u32, u32); 2],
    /// Runs of the whole product, the row limit being 1: without a fix and with one.
    whole: [u32; 2],
    /// Refusals by number.
    numbers: [[u32; NUMBERS + 1]; 2],
}

impl Met {
    fn run(&mut self, at: At, product: u32, (budget, ran): (u32, u32), end: Result<(), Refusal>) {
        let sort = match end {
            Ok(()) => 0,
            Err(Refusal { number: 18, .. }) => 1,
            Err(_) => 2,
        };
        self.ends[at.index()][sort] += 1;
        if budget == product && sort < 2 {
            self.with_product[at.index()][sort] += 1;
        }
        if sort == 0 && at.row_limit() > 1 {
            self.near[at.index()][0] += u32::from(2 * ran > product);
            self.near[at.index()][1] += u32::from(5 * ran > 4 * product);
            let (nearest, of) = &mut self.nearest[at.index()];
            if u64::from(ran) * u64::from(*of) >= u64::from(*nearest) * u64::from(product) {
                (*nearest, *of) = (ran, product);
            }
        }
    }

    pub fn outcomes(&self) -> Vec<Outcome> {
        let counts = [self.ends.concat(), self.with_product.concat(), self.near.concat(), self.whole.to_vec()].concat();
        let near = format!(
            "finished, 18 and 19 {:?}, with the product {:?}, over a half and over four fifths of it {:?}, nearest {:?}, the whole of \
            it without and with a fix {:?}",
            self.ends, self.with_product, self.near, self.nearest, self.whole
        );
        let numbers = self.numbers.each_ref().map(|numbers| &numbers[1..]);
        let due = |at: usize, number| matches!(number, 1..=11 | 20) || number == 16 && at == 0;
        let given = |at: usize| (1..).zip(numbers[at]).all(|(number, times)| (*times > 0) == due(at, number));
        vec![
            outcome("runs of every end are near the product", counts.iter().all(|times| *times > 0), near),
            outcome(
                "the product is refused with 1 to 11 and 20, at the desk with 16, and with nothing else",
                given(0) && given(1),
                format!("by number {numbers:?}"),
            ),
        ]
    }
}

/// The plan's lines by the lines of a query: one a node but `var`, and a start a fix. Once a `mu` is split there is one node
/// fewer and one fix more, so the count is the same.
fn counted(lines: &[Node]) -> u32 {
    let of = |sort: fn(&Node) -> bool| lines.iter().filter(|line| sort(line)).count();
    let (vars, fixes) = (of(|line| matches!(line, Node::Var(_))), of(|line| matches!(line, Node::Fix(_))));
    (lines.len() - vars + fixes) as u32
}

/// The product is the count of lines times the row limit, beside the plan, and counts the same as typed and split.
pub fn products(random: &mut Random, _: &mut Coverage) -> Verdict {
    let (database, query) = input(random);
    let Ok(checked) = check(&query, database.schema()) else {
        return Err(format!("refused by construction{}", told(&query, &database)));
    };
    let (plan, lines) = (plan(&checked.root), counted(query.lines()));
    ensure(counted(&checked.lines()) == lines, "the split has other lines", &query, &database)?;
    ensure(plan.lines.len() == lines as usize, "the plan has other lines", &query, &database)?;
    let product = |row_limit: u32| Ok(Allowance { plan: plan.clone(), budget: lines * row_limit });
    for row_limit in [1, 1 + random.below(TABLE_ROWS as usize) as u32, TABLE_ROWS] {
        let found = allowance(&database, &query, row_limit);
        ensure(found == product(row_limit), &format!("L = {row_limit}: {found:?}"), &query, &database)?;
    }
    let found = panel::allowance(&database, &query);
    ensure(found == due(&query, product(64)), &format!("at the panel: {found:?}"), &query, &database)?;
    Ok(true)
}

/// However a run ends, it has run no more lines than the product, and a budget of the product or more is not refused with 19.
pub fn lines_run(random: &mut Random, coverage: &mut Coverage) -> Verdict {
    let (database, mut query) = recursion(random);
    if random.once_in(6) {
        query = damage::query(random, &query);
    }
    let Ok(checked) = check(&query, database.schema()) else {
        return Ok(false);
    };
    let free = execute(&plan(&checked.root), &database.relations(), MOST, u32::MAX);
    let row_limit = row_limit(random, free.ok().map(|free| free.peak));
    bounded(random, &mut coverage.allowance, At::Desk(row_limit), &database, &query)?;
    if !too_long(&query) {
        bounded(random, &mut coverage.allowance, At::Panel, &database, &query)?;
    }
    Ok(true)
}

/// Some of the inputs of desk and panel, and recursions along a chain with many filters on their path.
pub fn recursion(random: &mut Random) -> (Database, Query) {
    match random.below(24) {
        0..=2 => {
            let (rows, filters) = (1 + random.below(12), random.below(NODES - 10));
            random::query_of_rounds(random, rows as u32, filters)
        }
        3 => {
            let (rows, filters) = (about(random, panel::ROW_LIMIT as usize), random.below(PANEL_FILTERS + 1));
            random::query_of_rounds(random, rows as u32, filters)
        }
        _ => input(random),
    }
}

/// Most often what a run needs, often one row or less than it needs. A run that needs few rows is no longer with many.
pub fn row_limit(random: &mut Random, peak: Option<usize>) -> u32 {
    let found = match (random.below(8), peak) {
        (0, _) => 1,
        (1, Some(peak)) => peak.saturating_sub(1),
        (2, Some(peak)) => 1 + random.below(peak + 1),
        (3, Some(peak)) if random.once_in(8) => peak + random.below(TABLE_ROWS as usize - peak),
        (3, Some(peak)) => peak + random.below(40),
        (_, Some(peak)) => peak,
        (_, None) => 1 + random.below(MOST),
    };
    found.max(1) as u32
}

/// Runs with budgets at and beside the lines that the plan runs and the product.
fn bounded(random: &mut Random, met: &mut Met, at: At, database: &Database, query: &Query) -> Result<(), String> {
    let holds = |holds: bool, why: &str| ensure(holds, &format!("{at:?}: {why}"), query, database);
    let Ok(Allowance { plan, budget: product }) = at.allowance(database, query) else {
        return Err(format!("{at:?}: no product{}", told(query, database)));
    };
    let tables = database.relations();
    let lines = |budget: u32| run_lines(&plan, &tables, at.row_limit() as usize, budget);
    let (free, end) = lines(u32::MAX);
    // The line that passes the row limit isn't run, but needs a budget that reaches it.
    let needed = free.ran + u32::from(end.is_err());
    let small = random.below(20) as u32;
    for budget in [0, small, needed - 1, needed, product - 1, product, product + 1, u32::MAX] {
        let (machine, found) = if budget == u32::MAX { (free.clone(), end) } else { lines(budget) };
        holds(machine.ran <= product, &format!("{} lines run, the product is {product}", machine.ran))?;
        holds(budget < product || found != refuse(19, 0), &format!("19 with {budget}, the product is {product}"))?;
        let due = if budget < needed { (budget, refuse(19, 0)) } else { (free.ran, end) };
        holds((machine.ran, found) == due, &format!("{found:?} after {} lines with {budget}", machine.ran))?;
        holds(budget < needed || machine == free, &format!("another end with {budget}"))?;
        met.run(at, product, (budget, machine.ran), found);
    }
    let fixes = query.lines().iter().filter(|line| matches!(line, Node::Fix(_) | Node::Mu(_))).count();
    if at.row_limit() == 1 && free.ran == product {
        met.whole[usize::from(fixes > 0)] += 1;
    }
    let run = |budget: u32| at.run(database, query, budget, at.entries(plan.registers));
    holds(run(product) == end.map(|()| free.ran), "another run with the product")?;
    holds(end.is_err() || run(free.ran - 1) == refuse(19, 0), "no 19 with one line less than it runs")
}

/// The product is refused exactly where a run is refused before 17, and with the same number and place.
pub fn refusals(random: &mut Random, coverage: &mut Coverage) -> Verdict {
    let (database, query) = input(random);
    known(random, &mut coverage.allowance, &database, &query)?;
    for _ in 0..DAMAGED {
        let (mut off, mut harmed) = (database.clone(), query.clone());
        match random.below(8) {
            0 => (off, _) = damage::database(random, &database),
            1 => harmed = damage::spoilt(random, &query).map_or(query.clone(), |spoilt| spoilt.query),
            2 => {}
            _ => harmed = damage::query(random, &query),
        }
        let row_limit = match random.below(12) {
            0 => 0,
            1 => [TABLE_ROWS + 1, u32::MAX, random.next().max(TABLE_ROWS + 1)][random.below(3)],
            2 if random.once_in(20) => TABLE_ROWS,
            _ => 1 + random.below(40) as u32,
        };
        for at in [At::Desk(row_limit), At::Panel] {
            as_a_run(&mut coverage.allowance, at, &off, &harmed)?;
        }
    }
    Ok(true)
}

/// Refusals whose number and place follow from what was put in: 11 before the sheet's numbers, these before 16.
fn known(random: &mut Random, met: &mut Met, database: &Database, query: &Query) -> Result<(), String> {
    let (off, table) = damage::database(random, database);
    let (mut bad, mut miscounted) = (query.clone(), query.clone());
    let node = random.below(query.count as usize);
    bad.nodes[node] = Node::Drop(COLUMNS as u8);
    miscounted.count = if random.once_in(2) { 0 } else { NODES as u32 + 1 };
    let outside = [0, TABLE_ROWS + 1, u32::MAX][random.below(3)];
    for (database, query, row_limit, number, place) in [
        (&off, query, 1, 11, table),
        (&off, &bad, outside, 11, table),
        (database, &miscounted, outside, 2, 0),
        (database, &bad, 1, 1, node as u32 + 1),
        (database, &bad, outside, 1, node as u32 + 1),
        (database, query, outside, 16, 0),
    ] {
        let expected = Refusal { number, place };
        let wrong = |at: &str| format!("{at}: not {expected:?} with L = {row_limit}: {query:?} {database:?}");
        for at in [At::Desk(row_limit), At::Panel] {
            as_a_run(met, at, database, query)?;
        }
        if allowance(database, query, row_limit).err() != Some(expected) {
            return Err(wrong("desk"));
        }
        if number != 16 && panel::allowance(database, query).err() != due::<()>(query, Err(expected)).err() {
            return Err(wrong("panel"));
        }
    }
    Ok(())
}

/// A run that may run no line gives 19 once it begins, one without a workspace 17. Both come behind what the product tests, which
/// asks for no workspace.
fn as_a_run(met: &mut Met, at: At, database: &Database, query: &Query) -> Result<(), String> {
    let product = at.allowance(database, query).map(|_| ());
    if let Err(refusal) = product {
        met.numbers[at.index()][refusal.number as usize] += 1;
    }
    // Each node may be a fix.
    let registers = 2 * NODES.min(query.count as usize);
    for (number, entries) in [(19, at.entries(registers)), (17, 0)] {
        let found = at.run(database, query, 0, entries);
        if found != product.and_then(|()| refuse(number, 0)) {
            return Err(format!("{at:?}: {product:?}, but {found:?} of a run: {query:?} {database:?}"));
        }
    }
    Ok(())
}
