//! The program `answer`: three texts in, one text out.

use crate::check::check;
use crate::rewrite::rewrite;
use crate::run::{run, workspace_entries};
use crate::text::{print_answer, print_refusal, read_database, read_query, read_step, Lines};
use crate::value::{refuse, Refusal, COLUMNS};

pub const NODES: usize = 24;
pub const ROW_LIMIT: u32 = 24;
pub const BUDGET: u32 = 1_000_000;
pub const STORED_ROWS: usize = 384;
pub const FILE_BYTES: usize = 8192;

pub fn answer(sheet: &[u8], book: &[u8], steps: &[u8]) -> Vec<u8> {
    staged(sheet, book, steps).unwrap_or_else(print_refusal)
}

fn staged(sheet: &[u8], book: &[u8], steps: &[u8]) -> Result<Vec<u8>, Refusal> {
    if [sheet, book, steps].iter().any(|file| file.len() > FILE_BYTES) {
        return refuse(17, 0);
    }
    let database = read_database(book, &[0; COLUMNS * STORED_ROWS])?;
    let mut query = read_query(sheet, NODES)?;
    check(&query, database.schema())?;
    let mut lines = Lines::new(steps);
    while !lines.at_end() {
        match lines.next_line().and_then(read_step) {
            Some((kind, node)) => query = rewrite(&database, &query, kind, node)?,
            None => return refuse(12, 0),
        }
    }
    // A query has at most as many fixes as nodes.
    let mut workspace = vec![0; workspace_entries(2 * NODES, ROW_LIMIT)];
    let mut slots = [0; COLUMNS * ROW_LIMIT as usize];
    let finished = run(&database, &query, ROW_LIMIT, BUDGET, &mut workspace, &mut slots)?;
    Ok(print_answer(&finished, &slots))
}
