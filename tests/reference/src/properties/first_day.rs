//! Books of zero bytes, and the texts that are nearest to them.

use super::{ensure, outcome, prints, told, Coverage, Verdict, MOST};
use crate::answer::{answer, NODES};
use crate::check::check;
use crate::meaning::meaning_of;
use crate::random::{self, Random};
use crate::selfcheck::{shown, Outcome};
use crate::text::{print_query, print_steps, read_database, read_query, NO_TABLES};
use crate::value::{refuse, Database, Node, Refusal};

/// What sheets over a book of zero bytes have met.
#[derive(Default)]
pub struct Met {
    answered: u32,
    stepped: u32,
    refused: u32,
}

impl Met {
    pub fn outcome(&self) -> Outcome {
        let Met { answered, stepped, refused } = *self;
        let seen = format!("{answered} answers, {stepped} of them after steps, {refused} refusals with 10");
        let met = answered > 0 && stepped > 0 && refused > 0;
        outcome("sheets met books of zero bytes", met, seen)
    }
}

/// Zero bytes are a book without tables and write nothing to the store. Each byte alone is 11 at line 1, and a sheet of zero
/// bytes 1 at line 1.
pub fn shortest_texts(random: &mut Random, _: &mut Coverage) -> Verdict {
    let entries = random.below(40);
    let store = random.fill(entries);
    let none = Database { store: store.clone(), ..Database::stored(&[], 0) };
    for text in [b"", NO_TABLES] {
        let read = read_database(text, &store);
        if read != Ok(none.clone()) {
            return Err(format!("{:?} is read as {read:?}", shown(text)));
        }
    }
    let refused = |byte: &u8| read_database(&[*byte], &store) == refuse(11, 1);
    if let Some(byte) = (0..=u8::MAX).find(|byte| !refused(byte)) {
        return Err(format!("byte {byte} alone is read as {:?}", read_database(&[byte], &store)));
    }
    match read_query(b"", NODES) {
        Err(Refusal { number: 1, place: 1 }) => Ok(true),
        other => Err(format!("a sheet of zero bytes is read as {other:?}")),
    }
}

/// Over a book of zero bytes a sheet that names a table gets 10 at the lowest such node of its split; any other one gives its
/// meaning.
pub fn first_days(random: &mut Random, coverage: &mut Coverage) -> Verdict {
    let none = Database::stored(&[], 0);
    let database = if random.once_in(2) { none.clone() } else { random::database(random) };
    let query = random::query(random, database.schema(), NODES);
    let steps = if random.once_in(2) { Vec::new() } else { random::steps(random, &query) };
    let printed = shown(&answer(&print_query(&query), b"", &print_steps(&steps)));
    let wrong = |due: &str| format!("printed\n{printed}and not {due} after {steps:?}");
    let Ok(split) = check(&query, database.schema()).map(|checked| checked.lines()) else {
        return Err(format!("not checked over its own book{}", told(&query, &database)));
    };
    if let Some(index) = split.iter().position(|line| matches!(line, Node::Table(_))) {
        let due = format!("refused=10,{}\n", index + 1);
        ensure(printed == due, &wrong(&due), &query, &none)?;
        coverage.first_day.refused += 1;
        return Ok(true);
    }
    let Ok(checked) = check(&query, &[]) else {
        return Err(wrong("checked"));
    };
    let (Some(rows), false) = (meaning_of(&query, &[], MOST), printed.starts_with("refused=")) else {
        let known = ["2", "12", "13", "14", "15", "18", "22"].map(|number| format!("refused={number},0\n"));
        ensure(known.contains(&printed), &wrong("one of 2, 12 to 15, 18 and 22"), &query, &none)?;
        return Ok(false);
    };
    ensure(prints(&printed, &checked, &rows), &wrong("the meaning"), &query, &none)?;
    coverage.first_day.answered += 1;
    coverage.first_day.stepped += u32::from(!steps.is_empty());
    Ok(true)
}
