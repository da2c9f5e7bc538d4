//! Columns that come home: exact origins for each sentence of the request, and what a step then replies.

use super::{doors, REACH};
use crate::check::check;
use crate::origins::{origins, Origins};
use crate::rewrite::rewrite;
use crate::text::nodes;
use crate::value::{refuse, Query, Refusal};

pub fn examples() -> Vec<(&'static str, bool)> {
    [exact_origins(), steps()].concat()
}

/// 0 and 1 exchanged by way of 2.
const EXCHANGE: &str = "copy=0,2 drop=0 copy=1,0 drop=1 copy=2,1 drop=2";
/// The step of a fix in which 0 comes home.
const HOME: &str = "var=1 copy=0,2 drop=0 copy=2,0 drop=2";

/// The origins at the last line of `path`, behind which `rest` gives a step the seed's columns again.
fn origins_at(path: &str, rest: &str) -> Origins {
    let query = Query::new(&nodes(&format!("table=0 {path} {rest} fix=1")), 128);
    let checked = check(&query, doors(&[]).schema()).expect("a checked query");
    let (all, last) = (checked.root.nodes(), 1 + nodes(path).len());
    let found = all.iter().find(|term| term.node == last).expect("a line of the path");
    origins(&checked, found)
}

fn exact_origins() -> Vec<(&'static str, bool)> {
    let are = |path: &str, rest: &str, due: &[(u8, u8)]| origins_at(path, rest) == due.iter().copied().collect();
    let own = [(0, 0), (1, 1)];
    let away = "var=1 copy=0,2 drop=0";
    let back = "copy=2,0 drop=2";
    vec![
        ("for the variable it is the column itself", are("var=1", "", &own)),
        ("a copy passes it on", are("var=1 copy=0,2", "drop=2", &[(0, 0), (1, 1), (2, 0)])),
        ("a drop removes it", are(away, back, &[(1, 1), (2, 0)])),
        ("a column that only a closed operand brings has none", are("var=1 fact=2,7 pair=join", "drop=2", &own)),
        ("nor one that an operand on the left brings", are("fact=2,7 var=1 pair=join", "drop=2", &own)),
        ("nor a copy of it", are("var=1 drop=0 fact=2,7 pair=join copy=2,0", "drop=2", &[(1, 1)])),
        ("a shared column keeps it", are(&format!("{away} fact=2,7 pair=join"), back, &[(1, 1), (2, 0)])),
        ("with the operand on the left too", are(&format!("fact=2,7 {away} pair=join"), back, &[(1, 1), (2, 0)])),
        ("a union keeps it where both sides agree", are(&format!("var=1 {HOME} pair=union"), "", &own)),
        ("only there", are(&format!("var=1 var=1 {EXCHANGE} pair=union"), "", &[])),
        ("not where one side has none", are("var=1 var=1 drop=0 fact=0,7 pair=join pair=union", "", &[(1, 1)])),
        ("each side of an exchange has the other's", are(&format!("var=1 {EXCHANGE}"), "", &[(0, 1), (1, 0)])),
        ("filters change nothing", are("var=1 eq=0,1 ne=0,2 max=1,3 same=0,1", "", &own)),
        ("same gives none", are("var=1 fact=2,7 pair=join same=0,2", "drop=2", &own)),
        ("except changes nothing", are("var=1 table=1 pair=except", "", &own)),
        ("a fix beside the path drops nothing", are("var=1 table=0 var=2 drop=0 copy=1,0 fix=2 pair=join", "", &own)),
    ]
}

fn steps() -> Vec<(&'static str, bool)> {
    let step = |before: &str, kind: u32, node: u32| -> Result<Query, Refusal> {
        rewrite(&doors(&[]), &Query::new(&nodes(before), 128), kind, node)
    };
    let becomes =
        |before: &str, kind, node, after: &str| step(before, kind, node) == Ok(Query::new(&nodes(after), 128));
    let gives = |before: &str, kind, node, number| step(before, kind, node) == refuse(number, 0);
    let fix = format!("table=0 {HOME} fix=1");
    let inner = "table=0 var=1 drop=0 fact=0,7 pair=join fix=1";
    vec![
        (
            "a column that comes home is stable",
            becomes(&format!("{fix} eq=0,1"), 1, 8, &format!("table=0 eq=0,1 {HOME} fix=1")),
        ),
        (
            "a column with another one's value is not",
            gives(&format!("table=0 var=1 {EXCHANGE} fix=1 eq=0,1"), 1, 10, 13),
        ),
        ("nor one that the result has from elsewhere", gives(&format!("{REACH} same=1,1"), 1, 11, 13)),
        ("it is used all the same", gives(&format!("{fix} drop=0"), 5, 8, 14)),
        ("and so is the working column", gives(&format!("{fix} fact=0,7 copy=0,2 pair=join"), 2, 10, 14)),
        (
            "kind 6 asks both fixes",
            gives(&format!("{fix} table=0 var=2 drop=0 fact=0,7 pair=join fix=2 pair=join"), 6, 14, 13)
                && gives(&format!("{inner} table=0 var=2 copy=0,2 drop=0 copy=2,0 drop=2 fix=2 pair=join"), 6, 14, 13),
        ),
    ]
}
