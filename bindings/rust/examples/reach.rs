//! Document 01's Reach through the wrapper: reads the sheet and the book, runs, and prints as the program `answer` does.
use capeshard::{Answer, Database, Query, Refusal};

const SHEET: &[u8] =
    b"guide=1\nnodes=10\ntable=0\nvar=1\ncopy=1,2\ndrop=1\ntable=0\ncopy=0,2\ndrop=0\npair=join\ndrop=2\nfix=1\n";
const BOOK: &[u8] = b"guide=1\ntables=1\ncols=0,1\nrows=2\nrow=1,2\nrow=2,3\n";

fn reach() -> Result<Answer, Refusal> {
    let database = Database::read(BOOK)?;
    Query::read(SHEET)?.run(&database, 24, 1_000_000)
}

fn listed<T: ToString>(values: &[T]) -> String {
    values.iter().map(T::to_string).collect::<Vec<_>>().join(",")
}

fn main() {
    match reach() {
        Ok(answer) => {
            println!("guide=1\ncols={}\nrows={}", listed(&answer.columns), answer.rows.len());
            answer.rows.iter().for_each(|row| println!("row={}", listed(row)));
            println!("ran={}", answer.ran);
        }
        Err(refusal) => println!("refused={},{}", refusal.number, refusal.place),
    }
}
