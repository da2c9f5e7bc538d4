//! Document 01's Reach put aside after every fourth plan line and gone on with, at the desk and at the panel by turns, and prints as the program
//! `answer` does.
use capeshard::{panel, Answer, Database, Progress, Query, Refusal};

const SHEET: &[u8] =
    b"guide=1\nnodes=10\ntable=0\nvar=1\ncopy=1,2\ndrop=1\ntable=0\ncopy=0,2\ndrop=0\npair=join\ndrop=2\nfix=1\n";
const BOOK: &[u8] = b"guide=1\ntables=1\ncols=0,1\nrows=2\nrow=1,2\nrow=2,3\n";
const LINES: u32 = 4;

fn reach() -> Result<Answer, Refusal> {
    let (query, database) = (Query::read(SHEET)?, Database::read(BOOK)?);
    let mut progress = query.begin(&database, panel::ROWS, LINES)?;
    let mut at_panel = false;
    loop {
        let pause = match progress {
            Progress::Finished(answer) => return Ok(answer),
            Progress::Paused(pause) => pause,
        };
        eprintln!("put aside after {} lines, the next is {}", pause.ran(), pause.next());
        at_panel = !at_panel;
        let pause = if at_panel { pause.at_panel().expect("the panel's row limit") } else { pause.at_desk() };
        progress = pause.resume(LINES)?;
    }
}

fn listed<T: ToString>(values: &[T]) -> String {
    values.iter().map(T::to_string).collect::<Vec<_>>().join(",")
}

fn main() {
    match reach() {
        Ok(answer) => {
            println!("guide=1\ncols={}\nrows={}", listed(&answer.columns), answer.rows.len());
            answer.rows.iter().for_each(|row| println!("row={}", listed(row)));
            println!("ran={}", answer.ran);
        }
        Err(refusal) => println!("refused={},{}", refusal.number, refusal.place),
    }
}
