//! How large an allowance is enough: the product of Reach, runs near their product and of the whole of it, and its refusals.

use super::{doors, reach_and, run_of, table, REACH};
use crate::allowance::{allowance, Allowance};
use crate::panel;
use crate::plan::run_lines;
use crate::run::run;
use crate::text::nodes;
use crate::value::{refuse, Database, Query, Refusal, COLUMNS};

pub fn examples() -> Vec<(&'static str, bool)> {
    [reach(), near(), whole(), refusals()].concat()
}

/// The plan's number of lines and the product.
fn told(found: Result<Allowance, Refusal>) -> Result<(usize, u32), Refusal> {
    found.map(|found| (found.plan.lines.len(), found.budget))
}

/// The lines run and the number of the refusal, if the run is refused.
fn ended(database: &Database, query: &Query, row_limit: u32, budget: u32) -> Option<(u32, Option<u32>)> {
    let plan = allowance(database, query, row_limit).ok()?.plan;
    let (machine, end) = run_lines(&plan, &database.relations(), row_limit as usize, budget);
    Some((machine.ran, end.err().map(|refusal| refusal.number)))
}

fn reach() -> Vec<(&'static str, bool)> {
    let (database, reach) = (doors(&[[1, 2], [2, 3]]), reach_and(""));
    let one_piece = Query::new(&nodes(&REACH.replace("fix=1", "pair=union mu=1")), 128);
    let ended = |row_limit, budget| ended(&database, &reach, row_limit, budget);
    vec![
        ("the product of Reach, ten lines", told(allowance(&database, &reach, 24)) == Ok((10, 240))),
        ("the product of Reach on the panel", told(panel::allowance(&database, &reach)) == Ok((10, 640))),
        ("the product of Reach in one piece", allowance(&database, &one_piece, 24) == allowance(&database, &reach, 24)),
        ("the product of Reach over the empty table", told(allowance(&doors(&[]), &reach, 24)) == Ok((10, 240))),
        ("the product of Reach, L = 3", told(allowance(&database, &reach, 3)) == Ok((10, 30))),
        ("Reach runs half of the product, L = 3", ended(3, 30) == Some((15, None))),
        ("the product of Reach, L = 2", told(allowance(&database, &reach, 2)) == Ok((10, 20))),
        // The row that the first round adds is one too many: five lines up to start, four of the path.
        ("18 before the tenth line of Reach, L = 2", ended(2, 20) == Some((9, Some(18)))),
        ("18 with ten lines of Reach, L = 2", ended(2, 10) == Some((9, Some(18)))),
        ("19 with nine lines of Reach, L = 2", ended(2, 9) == Some((9, Some(19)))),
    ]
}

/// A recursion along a chain of 64 rooms that adds one a round, with so many filters on its path. Five lines run once, the four
/// of the hop, the filters and again in each of 64 rounds.
fn rounds(filters: usize) -> (Database, Query) {
    let chain: Vec<[u32; 2]> = (1..64).map(|room| [room - 1, room]).collect();
    let hop = "var=0 copy=1,2 drop=1 table=0 copy=0,2 drop=0 pair=join drop=2";
    let lines = format!("fact=1,0 {hop} {} fix=0", "ne=1,64 ".repeat(filters));
    (Database::stored(&[table([0, 1], &chain)], 0), Query::new(&nodes(&lines), 128))
}

fn near() -> Vec<(&'static str, bool)> {
    let desk = |filters, due: (usize, u32), ran: u32| {
        let (database, query) = rounds(filters);
        let with = |budget| run_of(&database, &query, 64, budget).map(|(_, ran)| ran);
        told(allowance(&database, &query, 64)) == Ok(due) && with(due.1) == Ok(ran) && with(ran - 1) == Err(19)
    };
    let panel = |filters, due: (usize, u32), ran: u32| {
        let (database, query) = rounds(filters);
        let with = |budget| {
            let (mut workspace, mut slots) = (vec![1; panel::WORKSPACE], [9; COLUMNS * panel::ROW_LIMIT as usize]);
            panel::run(&database, &query, budget, &mut workspace, &mut slots).map(|told| told.ran)
        };
        told(panel::allowance(&database, &query)) == Ok(due) && with(due.1) == Ok(ran) && with(ran - 1) == refuse(19, 0)
    };
    // Columns exchanged by way of a third: two rows in two rounds, and only the seed's line and start run once.
    let exchange = Query::new(&nodes("table=0 var=1 copy=0,2 drop=0 copy=1,0 drop=1 copy=2,1 drop=2 fix=1"), 128);
    let door = doors(&[[1, 2]]);
    vec![
        ("a chain runs 325 lines of 640", desk(0, (10, 640), 5 + 5 * 64)),
        ("a chain under 118 filters runs 96 in 100 of the product", desk(118, (128, 8192), 7877)),
        ("a chain under 22 filters runs 84 in 100 of the product on the panel", panel(22, (32, 2048), 1733)),
        ("an exchange runs 16 lines of 18, L = 2", told(allowance(&door, &exchange, 2)) == Ok((9, 18))),
        ("an exchange has two rounds", run_of(&door, &exchange, 2, 16) == Ok((vec![1, 2, 2, 1], 16))),
    ]
}

/// With L = 1 a run that finishes and skips no path runs each line once.
fn whole() -> Vec<(&'static str, bool)> {
    let database = doors(&[[1, 2]]);
    let runs = |lines: &str, due: u32| {
        let query = Query::new(&nodes(lines), 128);
        let with = |budget| ended(&database, &query, 1, budget);
        told(allowance(&database, &query, 1)) == Ok((due as usize, due))
            && with(due) == Some((due, None))
            && with(due - 1) == Some((due - 1, Some(19)))
    };
    vec![
        ("one line runs the whole product, L = 1", runs("fact=0,1", 1)),
        ("filters run the whole product, L = 1", runs("table=0 eq=0,1 ne=1,1 max=0,1 drop=0", 5)),
        ("pairs run the whole product, L = 1", runs("table=0 fact=0,1 pair=join table=0 pair=union", 5)),
        ("a fix runs the whole product, L = 1", runs("table=0 var=0 eq=0,1 fix=0", 4)),
        ("a fix without a path runs the whole product, L = 1", runs("table=0 var=0 fix=0", 3)),
        ("two fixes run the whole product, L = 1", runs("table=0 var=0 fix=0 var=1 eq=0,1 fix=1", 6)),
    ]
}

fn refusals() -> Vec<(&'static str, bool)> {
    let (database, reach) = (doors(&[[1, 2], [2, 3]]), reach_and(""));
    let mut short = database.clone();
    short.store.clear();
    let gives = |database: &Database, query: &Query, row_limit, number, place| {
        told(allowance(database, query, row_limit)) == refuse(number, place)
    };
    let (dropped, long) = (reach_and("drop=5"), reach_and(&"max=0,9 ".repeat(23)));
    let most = reach_and(&"max=0,9 ".repeat(118));
    let lacking = run(&database, &reach, 24, 240, &mut [], &mut []) == refuse(17, 0);
    vec![
        ("no product for L = 0", gives(&database, &reach, 0, 16, 0)),
        ("no product for L = 4097", gives(&database, &reach, 4097, 16, 0)),
        ("no product for the highest L that there is", gives(&database, &reach, u32::MAX, 16, 0)),
        ("the highest product", told(allowance(&database, &most, 4096)) == Ok((128, 524_288))),
        ("9 before 16", gives(&database, &dropped, 0, 9, 11)),
        ("11 before 9", gives(&short, &dropped, 0, 11, 0)),
        ("11 and 9 on the panel", told(panel::allowance(&short, &dropped)) == refuse(11, 0)),
        ("9 on the panel", told(panel::allowance(&database, &dropped)) == refuse(9, 11)),
        ("33 nodes have no product on the panel", told(panel::allowance(&database, &long)) == refuse(2, 0)),
        ("33 nodes have one at the desk", told(allowance(&database, &long, 64)) == Ok((33, 33 * 64))),
        ("a product where a run lacks its workspace", lacking && allowance(&database, &reach, 24).is_ok()),
    ]
}
