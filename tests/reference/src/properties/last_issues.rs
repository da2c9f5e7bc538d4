//! The commentary that replaces another: what a `last` keeps, counted a second way, rows that replace others, a `last` over any
//! node, and steps at it and elsewhere.

use super::{ensure, input, outcome, told, Coverage, Verdict, MOST};
use crate::algebra::{drop, Columns, Pairing, Relation, Row};
use crate::check::{check, Checked};
use crate::meaning::{meaning, meaning_of};
use crate::plan::{execute, plan, Operation};
use crate::random::{self, Random};
use crate::rewrite::{apply, KINDS};
use crate::selfcheck::Outcome;
use crate::split::split;
use crate::term::Term;
use crate::value::{refuse, Database, Node, Query, Refusal, COLUMNS};
use std::collections::{BTreeMap, BTreeSet};

/// Places of a `last` in a query as typed that have to be met.
const PLACES: [(&str, fn(&Term) -> bool); 12] = [
    ("over a table", |term| over(term, |below| matches!(below.line, Node::Table(_)))),
    ("over a fix", |term| over(term, Term::is_fix)),
    ("over a mu", |term| over(term, Term::is_mu)),
    ("over a union", |term| over(term, |below| below.line == Node::Pair(Pairing::Union))),
    ("over a last", |term| over(term, is_last)),
    ("under a filter", |term| matches!(term.line, Node::Filter(_)) && is_last(&term.operands[0])),
    ("under a copy or drop", |term| matches!(term.line, Node::Copy(..) | Node::Drop(_)) && is_last(&term.operands[0])),
    ("under a pair", |term| matches!(term.line, Node::Pair(_)) && term.operands.iter().any(is_last)),
    ("in a seed", |term| term.is_fix() && within(term.seed())),
    ("beside a path", |term| term.is_fix() && term.beside().into_iter().any(within)),
    ("in a closed branch", |term| of_branches(term, true)),
    ("in an open branch", |term| of_branches(term, false)),
];

fn is_last(term: &Term) -> bool {
    matches!(term.line, Node::Last(_))
}

fn over(term: &Term, sort: fn(&Term) -> bool) -> bool {
    is_last(term) && sort(&term.operands[0])
}

fn within(term: &Term) -> bool {
    term.nodes().into_iter().any(is_last)
}

fn of_branches(term: &Term, closed: bool) -> bool {
    term.is_mu() && term.operands[0].branches().into_iter().any(|branch| branch.closed() == closed && within(branch))
}

pub fn has_last(query: &Query) -> bool {
    query.lines().iter().any(|line| matches!(line, Node::Last(_)))
}

/// What queries with a `last` have met.
#[derive(Default)]
pub struct Met {
    places: [u32; PLACES.len()],
    /// Of a `last`: rows dropped by the first, a middle and the highest column of several, and in one column; several rows of
    /// which all are kept; no row; the value 0 kept and dropped.
    dropped: [u32; 4],
    all_kept: u32,
    empty: u32,
    unknown: [u32; 2],
    /// Rows of a query and of a table that a greater one replaced.
    replaced: [u32; 2],
    /// A `last` that is put over a node: 5, 8 at a lower node, 20, 9, taken, and of these the meaning is another one.
    put: [u32; 6],
    /// 5 and 9 at another node than as typed.
    moved: [u32; 2],
    /// 12 at a `last` by kind; accepted steps by kind, those of them where one drops rows, and lists of two or more.
    twelve: [u32; KINDS + 1],
    kinds: [u32; KINDS + 1],
    dropping: [u32; KINDS + 1],
    lists: u32,
}

impl Met {
    pub fn outcomes(&self) -> Vec<Outcome> {
        let listed: Vec<String> =
            PLACES.iter().zip(self.places).map(|((name, _), times)| format!("{name} {times}")).collect();
        let all = |counts: &[u32]| counts.iter().all(|times| *times > 0);
        let rows = [&self.dropped[..], &self.unknown, &self.replaced, &[self.all_kept, self.empty]].concat();
        let steps = [&self.twelve[1..], &self.kinds[1..], &self.dropping[1..], &[self.lists]].concat();
        vec![
            outcome("a last stands in every place", all(&self.places), listed.join(", ")),
            outcome(
                "a last drops rows by every column and keeps others",
                all(&rows),
                format!(
                    "dropped by the first, a middle, the highest and the only column {:?}, all kept {}, none there {}, 0 kept and \
                    dropped {:?}, replaced in a query and in a table {:?}",
                    self.dropped, self.all_kept, self.empty, self.unknown, self.replaced
                ),
            ),
            outcome(
                "a last over any node is refused in every way and taken",
                all(&self.put) && all(&self.moved),
                format!("5, 8 before it, 20, 9, taken, with other rows {:?}, 5 and 9 at moved lines {:?}", self.put, self.moved),
            ),
            outcome(
                "every kind gets 12 at a last and is accepted elsewhere",
                all(&steps),
                format!(
                    "12 by kind {:?}, accepted {:?}, where rows are dropped {:?}, lists {}",
                    &self.twelve[1..],
                    &self.kinds[1..],
                    &self.dropping[1..],
                    self.lists
                ),
            ),
        ]
    }

    fn kept(&mut self, column: u8, before: &Relation, after: &Relation) {
        let Some(columns) = before.first().map(|row| row.keys().copied().collect::<Vec<_>>()) else {
            self.empty += 1;
            return;
        };
        let place = match columns.iter().position(|c| *c == column) {
            _ if columns.len() == 1 => 3,
            Some(0) => 0,
            Some(at) if at + 1 == columns.len() => 2,
            _ => 1,
        };
        let dropped = before - after;
        let unknown = |rows: &Relation| u32::from(rows.iter().any(|row| row[&column] == 0));
        self.dropped[place] += u32::from(!dropped.is_empty());
        self.all_kept += u32::from(dropped.is_empty() && before.len() > 1);
        self.unknown[0] += unknown(after);
        self.unknown[1] += unknown(&dropped);
    }
}

/// A checked query; most have a `last`.
fn issued(random: &mut Random, capacity: usize) -> Result<(Database, Query, Checked), String> {
    for _ in 0..3 {
        let found = input(random, capacity)?;
        if has_last(&found.1) {
            return Ok(found);
        }
    }
    input(random, capacity)
}

/// What is kept a second way: for each row without the column the greatest that stands there.
fn greatest(relation: &Relation, column: u8) -> Relation {
    let mut found: BTreeMap<Row, BTreeSet<u32>> = BTreeMap::new();
    for row in relation {
        let others = row.iter().filter(|(c, _)| **c != column).map(|(c, value)| (*c, *value)).collect();
        found.entry(others).or_default().insert(row[&column]);
    }
    let whole = |(mut row, values): (Row, BTreeSet<u32>)| {
        row.extend(values.last().map(|value| (column, *value)));
        row
    };
    found.into_iter().map(whole).collect()
}

/// Each `last` of a checked query with the rows below it and its own, as far as they are few.
fn kept_by(query: &Query, tables: &[Relation]) -> Vec<(u8, Relation, Relation)> {
    let root = Term::of(query.lines()).expect("a checked query");
    let found = |term: &&Term| match term.line {
        Node::Last(c) => Some((c, meaning(&term.operands[0], tables, MOST)?, meaning(term, tables, MOST)?)),
        _ => None,
    };
    root.nodes().iter().filter_map(found).collect()
}

fn drops_rows(query: &Query, tables: &[Relation]) -> bool {
    kept_by(query, tables).iter().any(|(_, before, after)| before != after)
}

/// A query with lines more.
fn and(query: &Query, more: &[Node]) -> Query {
    let lines = [query.lines(), more].concat();
    Query::new(&lines, lines.len())
}

/// Every `last` of a query, and one above it.
pub fn kept(random: &mut Random, coverage: &mut Coverage) -> Verdict {
    let (database, query, checked) = issued(random, 40)?;
    let tables = database.relations();
    meet_places(&mut coverage.last_issues, &query);
    for (column, before, after) in kept_by(&query, &tables) {
        let same = after == greatest(&before, column);
        ensure(same, &format!("last={column} of {before:?} is {after:?}"), &query, &database)?;
        coverage.last_issues.kept(column, &before, &after);
    }
    let column = random.pick(checked.columns(&checked.root).iter().copied());
    let (Some(column), Some(rows)) = (column, meaning_of(&query, &tables, MOST)) else {
        return Ok(has_last(&query));
    };
    let (once, twice) = (and(&query, &[Node::Last(column)]), and(&query, &[Node::Last(column); 2]));
    let Ok(after) = check(&once, database.schema()) else {
        return Err(format!("last={column} is not checked: {query:?}"));
    };
    let same_columns = after.columns(&after.root) == checked.columns(&checked.root);
    ensure(same_columns, "other columns", &once, &database)?;
    let found = meaning_of(&once, &tables, MOST).expect("no more rows than without it");
    ensure(found == greatest(&rows, column), "not the greatest rows", &once, &database)?;
    ensure(found.is_subset(&rows), "a row that was not there", &once, &database)?;
    let (others, others_before) = (drop(&found, column), drop(&rows, column));
    ensure(others == others_before, "a row has none that is kept in its place", &once, &database)?;
    ensure(others.len() == found.len(), "two rows agree in every other column", &once, &database)?;
    ensure(meaning_of(&twice, &tables, MOST).as_ref() == Some(&found), "others a second time", &twice, &database)?;
    coverage.last_issues.kept(column, &rows, &found);
    runs_one_line_more(&database, &checked, &after, &found, &once)?;
    Ok(true)
}

/// The plan has one line more, the last one, and its run gives these rows.
fn runs_one_line_more(
    database: &Database,
    before: &Checked,
    after: &Checked,
    rows: &Relation,
    query: &Query,
) -> Result<(), String> {
    let (short, long, tables) = (plan(&before.root), plan(&after.root), database.relations());
    let own = long.lines.last().expect("a line");
    let one_more = long.lines.len() == short.lines.len() + 1
        && matches!(own.operation, Operation::Last(_))
        && own.sources == [before.root.node - 1]
        && own.destination == before.root.node;
    ensure(one_more, "not one plan line more", query, database)?;
    if let Ok(ran) = execute(&short, &tables, MOST, u32::MAX) {
        let found = execute(&long, &tables, MOST, u32::MAX);
        let same = found.is_ok_and(|found| found.registers[long.result] == *rows && found.ran == ran.ran + 1);
        ensure(same, "another run", query, database)?;
    }
    Ok(())
}

fn meet_places(met: &mut Met, query: &Query) {
    let root = Term::of(query.lines()).expect("a checked query");
    for (times, (_, place)) in met.places.iter_mut().zip(PLACES) {
        *times += root.nodes().iter().filter(|term| place(term)).count() as u32;
    }
}

/// One row by a fact a column, joined.
fn facts(row: &Row) -> Vec<Node> {
    let fact = |(at, (column, value)): (usize, (&u8, &u32))| {
        let join = (at > 0).then_some(Node::Pair(Pairing::Join));
        [Some(Node::Fact(*column, *value)), join].into_iter().flatten()
    };
    row.iter().enumerate().flat_map(fact).collect()
}

/// A row that is kept, with another value in the column.
fn with(row: &Row, column: u8, value: u32) -> Row {
    row.iter().map(|(c, held)| (*c, if *c == column { value } else { *held })).collect()
}

/// A greater row that is added takes the place of one that was kept, a lesser one changes nothing: under a query and in a table.
pub fn replaced(random: &mut Random, coverage: &mut Coverage) -> Verdict {
    let (database, query, checked) = input(random, 40)?;
    let met = &mut coverage.last_issues.replaced;
    let tested = replaced_in(random, &database, &query, checked.columns(&checked.root), &mut met[0], |row| {
        let more = [facts(row), vec![Node::Pair(Pairing::Union)]].concat();
        (database.clone(), and(&query, &more))
    })?;
    let Some(table) = random.pick((0..database.tables as usize).filter(|table| database.rows[*table] > 0)) else {
        return Ok(tested);
    };
    let query = Query::new(&[Node::Table(table as u8)], 2);
    let columns = &database.schema()[table];
    let in_table = replaced_in(random, &database, &query, columns, &mut met[1], |row| {
        let mut tables: Vec<_> = database.schema().iter().cloned().zip(database.relations()).collect();
        tables[table].1.insert(row.clone());
        (Database::stored(&tables, 0), query.clone())
    })?;
    Ok(tested || in_table)
}

/// `adding` gives the database and the query with a row more.
fn replaced_in(
    random: &mut Random,
    database: &Database,
    query: &Query,
    columns: &Columns,
    met: &mut u32,
    adding: impl Fn(&Row) -> (Database, Query),
) -> Verdict {
    let Some(column) = random.pick(columns.iter().copied()) else {
        return Ok(false);
    };
    let kept = |(database, query): (Database, Query)| {
        let asked = and(&query, &[Node::Last(column)]);
        check(&asked, database.schema()).map_err(|refusal| format!("{refusal:?} of {asked:?}"))?;
        Ok::<_, String>(meaning_of(&asked, &database.relations(), MOST))
    };
    let before = kept((database.clone(), query.clone()))?;
    let Some((before, row)) = before.and_then(|rows| Some((rows.clone(), random.pick(rows)?))) else {
        return Ok(false);
    };
    let held = row[&column];
    let rest = &before - &Relation::from([row.clone()]);
    if let Some(more) = held.checked_add(1 + random.below(3) as u32) {
        let greater = with(&row, column, more);
        let Some(found) = kept(adding(&greater))? else { return Ok(false) };
        let due = &rest | &Relation::from([greater]);
        ensure(found == due, &format!("{row:?} is not replaced by {more}"), query, database)?;
        *met += 1;
    }
    if held > 0 {
        let less = with(&row, column, random.below(held as usize) as u32);
        let Some(found) = kept(adding(&less))? else { return Ok(false) };
        ensure(found == before, &format!("{less:?} changes something"), query, database)?;
    }
    Ok(true)
}

/// In node order the first fault of lines that are split: 5 at a `last` with an open operand, 8 at a union with one open side.
fn first_fault(lines: &[Node]) -> Option<Refusal> {
    let mut untaken: Vec<BTreeSet<u8>> = Vec::new();
    for (line, place) in lines.iter().zip(1..) {
        let operands = untaken.split_off(untaken.len() - line.arity());
        let open = operands.iter().filter(|free| !free.is_empty()).count();
        match line {
            Node::Last(_) if open == 1 => return Some(Refusal { number: 5, place }),
            Node::Pair(Pairing::Union) if open == 1 => return Some(Refusal { number: 8, place }),
            _ => {}
        }
        untaken.push(match line {
            Node::Var(v) => BTreeSet::from([*v]),
            // A fix of a checked query is closed.
            Node::Fix(_) => BTreeSet::new(),
            _ => operands.into_iter().flatten().collect(),
        });
    }
    None
}

/// A `last` put over any node of a checked query as typed. It gets 5 where the node is open, 8 where it covers the cut of a `mu` and
/// leaves a union with one open side, 20 where it leaves one sort of branch, 9 where the node lacks the column.
pub fn put_anywhere(random: &mut Random, coverage: &mut Coverage) -> Verdict {
    let (database, query, _) = input(random, 40)?;
    let met = &mut coverage.last_issues;
    let at = random.below(query.count as usize);
    let columns = if random.once_in(4) { COLUMNS } else { 4 };
    let column = random.below(columns) as u8;
    let mut lines = query.lines().to_vec();
    lines.insert(at + 1, Node::Last(column));
    let put = Query::new(&lines, lines.len());
    let found = check(&put, database.schema());
    let told = format!("last={column} as node {}: {:?}", at + 2, found.as_ref().err());
    let due = match split(&Term::of(&lines).map_err(|refusal| format!("{refusal:?}"))?) {
        Ok(split) => first_fault(&split),
        Err(unsplit) => Some(unsplit),
    };
    match (due, found) {
        (Some(due), found) => {
            ensure(found == Err(due), &format!("{told}, not {due:?}"), &put, &database)?;
            met.put[[5, 8, 20].iter().position(|number| *number == due.number).expect("one of these")] += 1;
            met.moved[0] += u32::from(due.number == 5 && due.place as usize != at + 2);
        }
        (None, Err(refusal)) => {
            ensure(lacks_column(&put, &database, column, refusal), &told, &put, &database)?;
            met.put[3] += 1;
            met.moved[1] += u32::from(refusal.place as usize != at + 2);
        }
        (None, Ok(checked)) => {
            taken(&put, &database, &checked)?;
            let rows = |query: &Query| meaning_of(query, &database.relations(), MOST);
            met.put[4] += 1;
            met.put[5] += u32::from(rows(&query) != rows(&put));
        }
    }
    Ok(true)
}

/// 9 at a `last` by that column, whose operand lacks it; without that line the query is checked.
fn lacks_column(query: &Query, database: &Database, column: u8, refusal: Refusal) -> bool {
    let split = Term::of(query.lines()).and_then(|typed| split(&typed)).expect("the query is split");
    let at = refusal.place as usize - 1;
    let without = [&split[..at], &split[at + 1..]].concat();
    let rest = check(&Query::new(&without, without.len()), database.schema());
    let has = |rest: Checked| rest.columns(rest.root.nodes()[at - 1]).contains(&column);
    refusal.number == 9 && split[at] == Node::Last(column) && rest.is_ok_and(|rest| !has(rest))
}

/// Each `last` of a checked query has its column and keeps the greatest rows, and the run gives the meaning.
fn taken(query: &Query, database: &Database, checked: &Checked) -> Result<(), String> {
    let tables = database.relations();
    let has = |term: &&Term| !is_last(term) || term.line.names().is_subset(checked.columns(&term.operands[0]));
    ensure(checked.root.nodes().iter().all(has), "a column is missing", query, database)?;
    for (column, before, after) in kept_by(query, &tables) {
        let same = after == greatest(&before, column);
        ensure(same, &format!("last={column} of {before:?} is {after:?}"), query, database)?;
    }
    let ran = execute(&plan(&checked.root), &tables, MOST, u32::MAX);
    match (meaning_of(query, &tables, MOST), ran) {
        (Some(rows), Ok(ran)) => ensure(ran.registers[checked.root.node - 1] == rows, "another run", query, database),
        _ => Ok(()),
    }
}

/// The most steps of a list.
const LONGEST: usize = 3;
/// Kinds that there are not.
const NO_KINDS: [u32; 3] = [0, KINDS as u32 + 1, u32::MAX];

/// Each kind gets 12 at each `last`. A step that is accepted elsewhere, and a list of such, keeps every `last` and the rows, also over
/// another database with the same columns.
pub fn steps(random: &mut Random, coverage: &mut Coverage) -> Verdict {
    let (database, query, checked) = issued(random, 40)?;
    let met = &mut coverage.last_issues;
    for term in checked.root.nodes().into_iter().filter(|term| is_last(term)) {
        for kind in (1..=KINDS as u32).chain(NO_KINDS) {
            let found = apply(&checked, &query, kind, term.node as u32);
            ensure(found == refuse(12, 0), &format!("step={kind},{}: {found:?}", term.node), &query, &database)?;
            if let Some(times) = met.twelve.get_mut(kind as usize) {
                *times += 1;
            }
        }
    }
    let both = [database.clone(), random::with_columns_of(random, &database)];
    let drops = drops_rows(&query, &database.relations());
    for (kind, node) in random::likely(&checked.lines()) {
        if let Ok(rewritten) = apply(&checked, &query, kind, node) {
            keeps(&query, &rewritten, &both, &format!("step={kind},{node}"))?;
            met.kinds[kind as usize] += u32::from(has_last(&query));
            met.dropping[kind as usize] += u32::from(drops);
        }
    }
    let (mut held, mut accepted) = (query.clone(), 0);
    while accepted < LONGEST {
        let checked =
            check(&held, database.schema()).map_err(|refusal| format!("{refusal:?}{}", told(&held, &database)))?;
        let next = |(kind, node): (u32, u32)| apply(&checked, &held, kind, node).ok();
        let Some(rewritten) = random.pick(random::likely(&checked.lines()).into_iter().filter_map(next)) else {
            break;
        };
        held = rewritten;
        accepted += 1;
    }
    keeps(&query, &held, &both, "a list")?;
    met.lists += u32::from(has_last(&query) && accepted > 1);
    Ok(has_last(&query))
}

/// The query that steps leave is checked and has the same `last` lines, and the same rows over each database.
fn keeps(query: &Query, left: &Query, databases: &[Database], step: &str) -> Result<(), String> {
    for database in databases {
        let checked = check(left, database.schema()).is_ok();
        ensure(checked, &format!("{step}: not checked any more"), query, database)?;
        ensure(lasts(left) == lasts(query), &format!("{step}: another last"), query, database)?;
        let rows = |query: &Query| meaning_of(query, &database.relations(), MOST);
        if let (Some(before), Some(after)) = (rows(query), rows(left)) {
            ensure(before == after, &format!("{step}: other rows"), query, database)?;
        }
    }
    Ok(())
}

/// The columns of its `last` lines, ascending.
fn lasts(query: &Query) -> Vec<u8> {
    let column = |line: &Node| if let Node::Last(c) = line { Some(*c) } else { None };
    let mut columns: Vec<u8> = query.lines().iter().filter_map(column).collect();
    columns.sort();
    columns
}
