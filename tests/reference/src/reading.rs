//! What is read of a text: the text printed back, or the refusal.

use crate::check::check;
use crate::text::{print_database, print_query, print_refusal, print_steps, read_database, read_query, read_step};
use crate::value::{refuse, Refusal, COLUMNS, NODES, TABLE_ROWS};

/// The store has room for one table of as many rows as a table can have.
const STORE: usize = COLUMNS * TABLE_ROWS as usize;

/// A line of a steps file, a database or a query. With a database beside it the query is checked too.
pub fn reading(query: Option<&[u8]>, database: Option<&[u8]>, step: Option<&[u8]>) -> Vec<u8> {
    let printed = match step {
        Some(line) => read_step(line).map_or_else(|| refuse(12, 0), |step| Ok(print_steps(&[step]))),
        None => texts(query, database),
    };
    printed.unwrap_or_else(print_refusal)
}

fn texts(query: Option<&[u8]>, database: Option<&[u8]>) -> Result<Vec<u8>, Refusal> {
    let database = database.map(|text| read_database(text, &[0; STORE])).transpose()?;
    let query = query.map(|text| read_query(text, NODES)).transpose()?;
    match (&query, &database) {
        (Some(query), Some(database)) => check(query, database.schema()).map(|_| print_query(query)),
        (Some(query), None) => Ok(print_query(query)),
        (None, Some(database)) => Ok(print_database(database)),
        (None, None) => Ok(Vec::new()),
    }
}
