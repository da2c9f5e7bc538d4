//! The program `path`: a path and a book in, the sheet's text out.

use crate::answer::{FILE_BYTES, STORED_ROWS};
use crate::paths::{sheet_over, tree};
use crate::text::{print_query, print_refusal, read_database};
use crate::value::{refuse, Refusal, COLUMNS, NODES};

pub fn path(path: &[u8], book: &[u8]) -> Vec<u8> {
    staged(path, book).unwrap_or_else(print_refusal)
}

/// 21 before anything is said of the book.
fn staged(path: &[u8], book: &[u8]) -> Result<Vec<u8>, Refusal> {
    let path = tree(path)?;
    if book.len() > FILE_BYTES {
        return refuse(17, 0);
    }
    let database = read_database(book, &[0; COLUMNS * STORED_ROWS])?;
    Ok(print_query(&sheet_over(&path, database.schema(), NODES)?))
}
