//! A long question put aside (change request U12): a second way of running answers 19 with a pause, and a pause is gone on with.

use crate::algebra::{Columns, Relation};
use crate::check::Checked;
use crate::plan::{go_on, Machine, Plan};
use crate::run::{begun, told, workspace_entries, Answer};
use crate::value::{refuse, row_of, slots_of, Database, Node, Query, Refusal, COLUMNS};

/// The next plan line, counted from 1, and the lines run. The registers stand in the workspace.
#[derive(Clone, Copy, Debug, PartialEq, Eq)]
pub struct Pause {
    pub next: u32,
    pub ran: u32,
}

/// How a run that isn't refused stops; a pause is answered as 19.
#[derive(Clone, Debug, PartialEq, Eq)]
pub enum Progress {
    Finished(Answer),
    Paused(Pause),
}

/// Begins as the ordinary run does. Where the budget is spent the workspace has the registers in place and zeros elsewhere;
/// otherwise a run that began leaves it zeros.
pub fn begin(
    database: &Database,
    query: &Query,
    row_limit: u32,
    budget: u32,
    workspace: &mut [u32],
    answer: &mut [u32],
) -> Result<Progress, Refusal> {
    let (checked, plan) = begun(database, query, row_limit, workspace)?;
    let first = Machine::new(&plan);
    proceed((&checked, &plan), first, (database, row_limit, budget), workspace, answer)
}

/// Tests what a run tests before it begins, then the pause (23), and goes on. `further` is what may be run besides the pause's
/// lines. A refusal of these tests leaves the workspace alone.
pub fn resume(
    database: &Database,
    query: &Query,
    row_limit: u32,
    further: u32,
    pause: Pause,
    workspace: &mut [u32],
    answer: &mut [u32],
) -> Result<Progress, Refusal> {
    let (checked, plan) = begun(database, query, row_limit, workspace)?;
    if !faults(&checked, &plan, row_limit, further, pause, workspace).is_empty() {
        return refuse(23, 0);
    }
    let paused = Machine {
        registers: held(&checked, row_limit, workspace),
        position: pause.next as usize - 1,
        ran: pause.ran,
        peak: 0,
    };
    proceed((&checked, &plan), paused, (database, row_limit, pause.ran + further), workspace, answer)
}

/// Goes on from a state; the budget is that of all lines run.
fn proceed(
    (checked, plan): (&Checked, &Plan),
    machine: Machine,
    (database, row_limit, budget): (&Database, u32, u32),
    workspace: &mut [u32],
    answer: &mut [u32],
) -> Result<Progress, Refusal> {
    let (machine, end) = go_on(machine, plan, &database.relations(), row_limit as usize, budget);
    workspace.fill(0);
    if end == refuse(19, 0) {
        put(&machine.registers, row_limit, workspace);
        return Ok(Progress::Paused(Pause { next: machine.position as u32 + 1, ran: machine.ran }));
    }
    end?;
    told(checked, plan, &machine, answer).map(Progress::Finished)
}

/// The entries of one register: a count, then so many rows.
fn stretch(row_limit: u32) -> usize {
    workspace_entries(1, row_limit)
}

/// Registers in place, in a workspace of zeros.
pub fn put(registers: &[Relation], row_limit: u32, workspace: &mut [u32]) {
    for (register, stretch) in registers.iter().zip(workspace.chunks_mut(stretch(row_limit))) {
        let slots = slots_of(register);
        stretch[0] = register.len() as u32;
        stretch[1..=slots.len()].copy_from_slice(&slots);
    }
}

/// The columns that each register may fill, one a node, then one more a fix; a `var`'s is to be zero.
pub fn register_columns(checked: &Checked) -> Vec<Option<&Columns>> {
    let nodes = checked.root.nodes();
    let of_node = nodes.iter().map(|term| match term.line {
        Node::Var(_) => None,
        _ => Some(checked.columns(term)),
    });
    let of_fixes = nodes.iter().filter(|term| term.is_fix()).map(|term| Some(checked.columns(term)));
    of_node.chain(of_fixes).collect()
}

/// What the registers of a workspace without faults hold.
fn held(checked: &Checked, row_limit: u32, workspace: &[u32]) -> Vec<Relation> {
    let registers = register_columns(checked).into_iter().zip(workspace.chunks(stretch(row_limit)));
    let rows = |(columns, stretch): (Option<&Columns>, &[u32])| {
        let slots = &stretch[1..=COLUMNS * stretch[0] as usize];
        slots.chunks(COLUMNS).flat_map(|slots| columns.map(|columns| row_of(slots, columns))).collect()
    };
    registers.map(rows).collect()
}

/// What 23 is given for.
#[derive(Clone, Copy, Debug, PartialEq, Eq, PartialOrd, Ord)]
pub enum Fault {
    /// The next line isn't in the plan.
    Next,
    /// A register has more rows than the row limit, rows that do not ascend, or a slot filled outside its line's columns.
    Full,
    Order,
    Outside,
    /// A `var`'s register isn't zero.
    Variable,
    /// An entry behind a register's rows, or behind the last register, is filled.
    Stray,
    /// The lines run and the further ones pass the most that there can be.
    Ceiling,
}

/// Every fault of a pause once, in the order above; the workspace has room for the registers.
pub fn faults(
    checked: &Checked,
    plan: &Plan,
    row_limit: u32,
    further: u32,
    pause: Pause,
    workspace: &[u32],
) -> Vec<Fault> {
    let mut found = Vec::new();
    if !(1..=plan.lines.len() as u32).contains(&pause.next) {
        found.push(Fault::Next);
    }
    if pause.ran.checked_add(further).is_none() {
        found.push(Fault::Ceiling);
    }
    let (registers, behind) = workspace.split_at(workspace_entries(plan.registers, row_limit));
    for (columns, stretch) in register_columns(checked).into_iter().zip(registers.chunks(stretch(row_limit))) {
        match columns {
            Some(columns) => found.extend(faults_of(columns, row_limit, stretch)),
            None if filled(stretch) => found.push(Fault::Variable),
            None => {}
        }
    }
    if filled(behind) {
        found.push(Fault::Stray);
    }
    found.sort();
    found.dedup();
    found
}

fn faults_of(columns: &Columns, row_limit: u32, stretch: &[u32]) -> Vec<Fault> {
    let (count, slots) = (stretch[0], &stretch[1..]);
    if count > row_limit {
        return vec![Fault::Full];
    }
    let (rows, rest) = slots.split_at(COLUMNS * count as usize);
    let rows: Vec<&[u32]> = rows.chunks(COLUMNS).collect();
    let outside = |row: &&[u32]| (0..COLUMNS).any(|c| row[c] != 0 && !columns.contains(&(c as u8)));
    let tests = [
        (Fault::Order, rows.windows(2).any(|pair| pair[0] >= pair[1])),
        (Fault::Outside, rows.iter().any(outside)),
        (Fault::Stray, filled(rest)),
    ];
    tests.into_iter().filter(|(_, met)| *met).map(|(fault, _)| fault).collect()
}

fn filled(entries: &[u32]) -> bool {
    entries.iter().any(|entry| *entry != 0)
}
