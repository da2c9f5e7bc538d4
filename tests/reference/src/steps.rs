//! What the program `steps` prints: the sheet that comes back after each step, behind the refusal of a refused one, then the plan. The form is said
//! at the top of crates/steps/src/main.rt.

use crate::algebra::{Columns, Condition, Pairing};
use crate::check::{check, Checked};
use crate::plan::{plan, Line, Operation};
use crate::rewrite::rewrite;
use crate::text::{commas, print_query, print_refusal, read_database, read_query, read_step, Lines};
use crate::value::{refuse, Database, Query, Refusal, COLUMNS, NODES, TABLE_ROWS};

/// The store has room for one table of as many rows as a table can have.
const STORE: usize = COLUMNS * TABLE_ROWS as usize;

pub fn steps(database: &[u8], query: &[u8], steps: &[u8]) -> Vec<u8> {
    let read = read_database(database, &[0; STORE]).and_then(|database| Ok((database, read_query(query, NODES)?)));
    match read {
        Ok((database, query)) => printed(&database, query, steps),
        Err(refusal) => print_refusal(refusal),
    }
}

fn printed(database: &Database, mut held: Query, steps: &[u8]) -> Vec<u8> {
    let mut text = Vec::new();
    let mut lines = Lines::new(steps);
    while !lines.at_end() {
        // A last line that is not ended is off the form, and nothing follows it.
        let line = lines.next_line();
        match step(database, &held, line) {
            Ok(query) => held = query,
            Err(refusal) => text.extend(print_refusal(refusal)),
        }
        text.extend(print_query(&held));
        if line.is_none() {
            break;
        }
    }
    text.extend(compiled(database, &held).unwrap_or_else(print_refusal));
    text
}

fn step(database: &Database, held: &Query, line: Option<&[u8]>) -> Result<Query, Refusal> {
    match line.and_then(read_step) {
        Some((kind, node)) => rewrite(database, held, kind, node),
        None => refuse(12, 0),
    }
}

fn compiled(database: &Database, query: &Query) -> Result<Vec<u8>, Refusal> {
    database.form()?;
    let checked = check(query, database.schema())?;
    let lines = plan(&checked.root).lines;
    let mut text = format!("plan={}\n", lines.len());
    for (number, line) in lines.iter().enumerate() {
        text += &format!("{number} {}\n", print_line(&checked, line));
    }
    Ok(text.into_bytes())
}

fn print_line(checked: &Checked, line: &Line) -> String {
    let to = line.destination;
    let from = || line.sources[0];
    match line.operation {
        Operation::Table(t) => format!("table to={to} table={t}"),
        Operation::Fact(c, w) => format!("fact to={to} column={c} value={w}"),
        Operation::Pair(pairing) => {
            let word = match pairing {
                Pairing::Union => "union",
                Pairing::Join => "join",
                Pairing::Except => "except",
            };
            let (left, right) = (line.sources[0], line.sources[1]);
            let (columns, with) = operand_columns(checked, to);
            format!("{word} to={to} left={left} right={right} columns={} with={}", commas(columns), commas(with))
        }
        Operation::Filter(Condition::Eq(c, w)) => format!("eq to={to} from={} column={c} value={w}", from()),
        Operation::Filter(Condition::Ne(c, w)) => format!("ne to={to} from={} column={c} value={w}", from()),
        Operation::Filter(Condition::Max(c, w)) => format!("max to={to} from={} column={c} value={w}", from()),
        Operation::Filter(Condition::Same(c, d)) => format!("same to={to} from={} column={c} other={d}", from()),
        Operation::Last(c) => format!("last to={to} from={} column={c}", from()),
        Operation::Copy(a, b) => format!("copy to={to} from={} column={a} new={b}", from()),
        Operation::Drop(a) => format!("drop to={to} from={} column={a}", from()),
        Operation::Start { delta } => format!("start total={to} newest={delta} from={} path={}", from(), line.path),
        Operation::Again { delta } => format!("again total={to} newest={delta} from={} path={}", from(), line.path),
    }
}

/// The columns of the operands of the pair that writes a register.
fn operand_columns(checked: &Checked, register: usize) -> (&Columns, &Columns) {
    let pair = checked.root.at(register + 1).expect("each node has its register");
    (checked.columns(&pair.operands[0]), checked.columns(&pair.operands[1]))
}
