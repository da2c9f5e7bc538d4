//! Property paths: exact trees and sheets, the place of 21, and the refusals in their order.

use super::{doors, run_of, table, REACH};
use crate::paths::{read_path, Path};
use crate::text::nodes;
use crate::value::{refuse, Database, Query, COLUMNS, NODES};
use crate::{fronts, panel};

pub fn examples() -> Vec<(&'static str, bool)> {
    [trees(), exact_sheets(), links(), places(), lengths(), order(), limits()].concat()
}

fn same_tree(one: &str, other: &str) -> bool {
    let [one, other] = [one, other].map(|text| Path::read(text.as_bytes()));
    one.is_some() && one == other
}

fn trees() -> Vec<(&'static str, bool)> {
    let differ = |one: &str, other: &str| !same_tree(one, other);
    vec![
        ("alternatives group to the left", same_tree("0|1|2", "(0|1)|2") && differ("0|1|2", "0|(1|2)")),
        ("sequences group to the left", same_tree("0/1/2", "(0/1)/2") && differ("0/1/2", "0/(1/2)")),
        ("a sequence binds tighter than an alternative", same_tree("0|1/2|3", "0|(1/2)|3")),
        ("an inverse binds tighter than a sequence", same_tree("^0/1", "(^0)/1") && differ("^0/1", "^(0/1)")),
        ("a plus binds tighter than an inverse", same_tree("^0+", "^(0+)") && differ("^0+", "(^0)+")),
        ("a plus binds tighter than a sequence", same_tree("0/1+", "0/(1+)") && differ("0/1+", "(0/1)+")),
        ("needless parentheses mean nothing", same_tree("((0))|((1/(2)))", "0|1/2")),
    ]
}

/// Tables 0, 1 and 2 have the columns 0 and 1, table 3 has 0 and 3, table 4 has 0, 1 and 2.
fn book() -> Database {
    let mut wide = table([0, 1], &[]);
    wide.0.insert(2);
    let tables = [
        table([0, 1], &[[1, 2], [2, 3]]),
        table([0, 1], &[[3, 4], [4, 3]]),
        table([0, 1], &[]),
        table([0, 3], &[[1, 4]]),
        wide,
    ];
    Database::stored(&tables, 0)
}

fn exact_sheets() -> Vec<(&'static str, bool)> {
    let becomes =
        |text: &str, lines: &str| read_path(text.as_bytes(), &book(), NODES) == Ok(Query::new(&nodes(lines), NODES));
    let onward = "copy=1,2 drop=1";
    let joined = "copy=0,2 drop=0 pair=join drop=2";
    let exchanged = "copy=0,2 drop=0 copy=1,0 drop=1 copy=2,1 drop=2";
    let plus = format!("table=0 var=0 {onward} table=0 {joined} fix=0");
    let again = format!("table=0 var=1 {onward} table=0 {joined} fix=1");
    vec![
        ("a name", becomes("2", "table=2")),
        ("an alternative", becomes("0|1", "table=0 table=1 pair=union")),
        ("three alternatives", becomes("0|1|2", "table=0 table=1 pair=union table=2 pair=union")),
        ("alternatives in parentheses", becomes("0|(1|2)", "table=0 table=1 table=2 pair=union pair=union")),
        ("a sequence", becomes("0/1", &format!("table=0 {onward} table=1 {joined}"))),
        ("three in sequence", {
            becomes("0/1/2", &format!("table=0 {onward} table=1 {joined} {onward} table=2 {joined}"))
        }),
        ("an inverse", becomes("^1", &format!("table=1 {exchanged}"))),
        ("an inverse of an inverse", becomes("^(^1)", &format!("table=1 {exchanged} {exchanged}"))),
        ("a plus", becomes("0+", &plus)),
        ("a plus is Reach", becomes("0+", &REACH.replace("var=1", "var=0").replace("fix=1", "fix=0"))),
        ("an inverse of a plus", becomes("^0+", &format!("{plus} {exchanged}"))),
        ("a plus of an inverse", {
            let operand = format!("table=0 {exchanged}");
            becomes("(^0)+", &format!("{operand} var=0 {onward} {operand} {joined} fix=0"))
        }),
        ("a plus of a sequence", {
            let operand = format!("table=0 {onward} table=1 {joined}");
            becomes("(0/1)+", &format!("{operand} var=0 {onward} {operand} {joined} fix=0"))
        }),
        ("two pluses", becomes("0+|0+", &format!("{plus} {again} pair=union"))),
        ("a plus of a plus", becomes("(0+)+", &format!("{plus} var=2 {onward} {again} {joined} fix=2"))),
        ("a plus behind a plus of a plus", {
            let last = format!("table=1 var=3 {onward} table=1 {joined} fix=3");
            becomes("(0+)+|1+", &format!("{plus} var=2 {onward} {again} {joined} fix=2 {last} pair=union"))
        }),
    ]
}

fn links() -> Vec<(&'static str, bool)> {
    let found = |text: &str| -> Option<Vec<u32>> {
        let links = Path::read(text.as_bytes())?.links(&book().relations());
        Some(links.into_iter().flat_map(|(from, to)| [from, to]).collect())
    };
    let answered = |text: &str| {
        let query = read_path(text.as_bytes(), &book(), NODES).ok()?;
        Some(run_of(&book(), &query, 24, 1000).ok()?.0)
    };
    let are = |text: &str, due: &[u32]| found(text).as_deref() == Some(due) && answered(text).as_deref() == Some(due);
    vec![
        ("what a name links", are("0", &[1, 2, 2, 3])),
        ("what an alternative links", are("0|1", &[1, 2, 2, 3, 3, 4, 4, 3])),
        ("what a sequence links", are("0/1", &[2, 4])),
        ("what an inverse links", are("^0", &[2, 1, 3, 2])),
        ("what a plus links", are("0+", &[1, 2, 1, 3, 2, 3])),
        ("a plus goes round a cycle", are("1+", &[3, 3, 3, 4, 4, 3, 4, 4])),
        ("a plus links nothing to itself otherwise", are("2+", &[])),
        ("an inverse of a sequence", are("^(0/1)", &[4, 2])),
        ("a sequence of inverses", are("^1/^0", &[4, 2])),
        ("a plus of a sequence", are("(0/^0)+", &[1, 1, 2, 2])),
    ]
}

fn places() -> Vec<(&'static str, bool)> {
    let at = |text: &str, place: u32| {
        fronts::place(text.as_bytes()) == Some(place) && read_path(text.as_bytes(), &book(), NODES) == refuse(21, place)
    };
    vec![
        ("21 of nothing", at("", 1)),
        ("21 at a byte that begins no path", ["|", "/", "+", ")", "a", " ", "\n", "-"].iter().all(|text| at(text, 1))),
        ("21 after two pluses", at("0++", 3)),
        ("21 after two carets", at("^^0", 2)),
        ("21 at a caret behind a name", at("0^", 2)),
        ("21 at names over 15", at("16", 2) && at("19|", 2) && at("100", 3) && at("150", 3) && at("20", 2)),
        ("21 at leading zeros", at("01", 2) && at("00", 2)),
        ("21 after the end", at("^", 2) && at("0|", 3) && at("0/", 3) && at("(", 2) && at("(0", 3) && at("((0)", 5)),
        (
            "21 at what is missing between",
            at("0||1", 3) && at("0//1", 3) && at("0|/1", 3) && at("()", 2) && at("(|", 2),
        ),
        ("21 at a parenthesis too many", at("0)", 2) && at("(0))", 4)),
        ("21 at a name behind a parenthesis", at("(0)1", 4) && at("0(", 2)),
        ("21 at other signs of the standard", at("0*", 2) && at("0?", 2) && at("!0", 1) && at("0+1", 3)),
        ("21 at blanks and line ends", at("0 |1", 2) && at("0| 1", 3) && at("0\n", 2)),
    ]
}

/// Alternatives of table 0 in so many bytes, an odd number.
fn alternatives(bytes: usize) -> String {
    format!("0{}", "|0".repeat((bytes - 1) / 2))
}

fn lengths() -> Vec<(&'static str, bool)> {
    let place = |text: String| fronts::place(text.as_bytes());
    vec![
        ("127 bytes", place(alternatives(127)).is_none()),
        ("128 bytes", place(format!("1{}", alternatives(127))).is_none()),
        ("128 bytes and no name at the end", place(format!("{}|16", alternatives(125))) == Some(128)),
        ("128 bytes and unfinished", place(format!("{}|", alternatives(127))) == Some(129)),
        ("129 bytes", place(alternatives(129)) == Some(129)),
        ("129 bytes with the last one off the grammar", place(format!("1{}*", alternatives(127))) == Some(129)),
        ("130 bytes", place(format!("{}|", alternatives(129))) == Some(129)),
        ("as many bytes as a file has", place("(".repeat(8192)) == Some(129)),
        ("129 bytes with an earlier bad one", place(format!("{}*|0|", alternatives(125))) == Some(126)),
    ]
}

fn order() -> Vec<(&'static str, bool)> {
    let gives = |text: &str, database: &Database, limit: usize, number: u32, place: u32| {
        read_path(text.as_bytes(), database, limit) == refuse(number, place)
    };
    let book = book();
    let mut off = book.clone();
    off.store[COLUMNS + 7] = 1;
    vec![
        ("21 before 11", gives("9|", &off, 0, 21, 3)),
        ("11 before 10", gives("9", &off, 0, 11, 0)),
        ("10", gives("5", &book, NODES, 10, 0)),
        ("9 of other columns", gives("3", &book, NODES, 9, 0)),
        ("9 of one column more", gives("4", &book, NODES, 9, 0)),
        ("10 before 9", gives("0|5/3", &book, NODES, 10, 0)),
        ("9 before 10", gives("0|3/5", &book, NODES, 9, 0)),
        ("10 before 2", gives("0/5", &book, 7, 10, 0)),
        ("9 before 2", gives("0/3", &book, 7, 9, 0)),
        ("2", gives("0/1", &book, 7, 2, 0)),
        ("10 over no tables", gives("0", &Database::stored(&[], 0), NODES, 10, 0)),
    ]
}

fn limits() -> Vec<(&'static str, bool)> {
    let database = doors(&[]);
    let read = |text: &str, limit: usize| read_path(text.as_bytes(), &database, limit).map(|query| query.count);
    let at_panel = |text: &str| panel::read_path(text.as_bytes(), &database).map(|query| query.count);
    // 8 lines of the sequence, then 2 for each alternative.
    let even = |nodes: usize| format!("0/0{}", "|0".repeat((nodes - 8) / 2));
    // 7 lines of the inverse, then the same.
    let odd = |nodes: usize| format!("^0{}", "|0".repeat((nodes - 7) / 2));
    let pluses = |count: usize| format!("{}0+{}", "(".repeat(count - 1), ")+".repeat(count - 1));
    let deepest = pluses(43);
    // 9 times the power less 8, then 7 of the sequence and 2 of the alternative.
    let past = |power: usize| format!("{}/0|0", pluses(power));
    vec![
        ("128 nodes", read(&even(128), 128) == Ok(128)),
        ("129 nodes", read(&odd(129), 128) == refuse(2, 0)),
        ("32 nodes at the panel", at_panel(&even(32)) == Ok(32)),
        ("33 nodes at the panel", at_panel(&odd(33)) == refuse(2, 0)),
        ("one node and a limit of none", read("0", 0) == refuse(2, 0)),
        ("one node past a power of 2", [8, 16, 32].iter().all(|power| read(&past(*power), 128) == refuse(2, 0))),
        ("128 bytes of pluses", deepest.len() == 128 && read(&deepest, 128) == refuse(2, 0)),
        ("more nodes than 2^40", Path::read(deepest.as_bytes()).is_some_and(|path| path.nodes() == 9 * (1 << 43) - 8)),
    ]
}
