//! Filters past the ordinary lines: what kinds 7 to 11 reply and write by the lines alone, the rows of the node before and after, room at
//! each node limit, and lists in which kinds and limits mix.

use self::Part::{Filter, Left, Right, Under};
use super::desk_and_panel::damaged;
use super::{by_construction, ensure, fill_past, input, outcome, told, Coverage, Verdict, MOST};
use crate::algebra::{Condition, Pairing, Relation};
use crate::answer::{self, answer};
use crate::check::{check, Checked};
use crate::meaning::{meaning, meaning_of, meaning_on_path};
use crate::panel;
use crate::plan::{execute, plan};
use crate::random::{self, filters, Random};
use crate::rewrite::{apply_within, rewrite, rewrite_within, KINDS};
use crate::selfcheck::{shown, Outcome};
use crate::term::Term;
use crate::text::{print_database, print_query, print_steps};
use crate::value::{refuse, Database, Node, Query, Refusal, NODES};

/// Parts of the lines that end at a filter: those of the operands of the line under it, that line and the filter's own. A filter under
/// it has its operand on the left.
#[derive(Clone, Copy)]
enum Part {
    Left,
    Right,
    Under,
    Filter,
}

/// The first kind that takes a filter past an ordinary line.
const FIRST: u32 = 7;
/// What each kind from that one on writes.
const WRITTEN: [&[Part]; 5] = [
    &[Left, Filter, Right, Filter, Under],
    &[Left, Filter, Right, Under],
    &[Left, Right, Filter, Under],
    &[Left, Filter, Right, Under],
    &[Left, Filter, Under],
];

/// Node limits: `answer`, panel and desk.
const LIMITS: [usize; 3] = [answer::NODES, panel::NODES, NODES];
/// Entries of a query that is no longer than this.
const CAPACITY: usize = 40;
/// The most steps of a list.
const LONGEST: usize = 8;

/// What filters past the ordinary lines have met; arrays of five are by kind.
#[derive(Default)]
pub struct Met {
    /// Accepted by filter: eq, ne, max, same; at an open node; of a query with a `mu`, and at another line than as typed.
    accepted: [[u32; 4]; 5],
    open: [u32; 5],
    mu: [u32; 5],
    moved: [u32; 5],
    /// Compared rows of the node of which the filter drops some and keeps some, at closed and at open nodes.
    rows: [[u32; 2]; 5],
    /// 12 at a `last`, over a `last`, over another line that is not the kind's, at no filter, at no node.
    twelve: [[u32; 5]; 5],
    /// 22 of kinds 8 and 9: of a filter by one column, of a `same` with both columns missing or one of them.
    lacking: [[u32; 3]; 2],
    /// By node limit: 2, accepted with one node less, accepted where the query as typed has as many nodes as the limit, and 12 on a query
    /// without room.
    full: [u32; 3],
    last_room: [u32; 3],
    as_typed: [u32; 3],
    twelve_first: [u32; 3],
    /// What refuses a query or database, given to these kinds.
    earlier: u32,
    /// Lists: with accepted kinds of both sorts, with 2 for a limit and the same kind accepted later, and with two kinds 7.
    lists: [u32; 3],
}

impl Met {
    pub fn outcomes(&self) -> Vec<Outcome> {
        let all = |counts: &[u32]| counts.iter().all(|times| *times > 0);
        let each = |counts: &[[u32; 5]]| counts.iter().all(|counts| all(counts));
        let room = [self.full, self.last_room, self.as_typed, self.twelve_first].concat();
        vec![
            outcome(
                "every filter goes past every line, at closed and open nodes",
                all(&self.accepted.concat()) && each(&[self.open, self.mu, self.moved]) && all(&self.rows.concat()),
                format!(
                    "by kind eq, ne, max and same {:?}, at open nodes {:?}, with a mu {:?}, at moved lines {:?}, rows dropped and kept at \
                    closed and open nodes {:?}",
                    self.accepted, self.open, self.mu, self.moved, self.rows
                ),
            ),
            outcome(
                "filters past lines get 12 and 22 for every cause, and what comes before",
                each(&self.twelve) && all(&self.lacking.concat()) && self.earlier > 0,
                format!(
                    "12 by kind at a last, over one, over another line, at no filter, at no node {:?}, 22 of one column, both and one of \
                    two {:?}, earlier {}",
                    self.twelve, self.lacking, self.earlier
                ),
            ),
            outcome(
                "every node limit is met by kind 7",
                all(&room),
                format!(
                    "answer, panel and desk: 2 {:?}, the last node {:?}, as many as typed {:?}, 12 before 2 {:?}",
                    self.full, self.last_room, self.as_typed, self.twelve_first
                ),
            ),
            outcome(
                "lists mix the kinds and the limits",
                all(&self.lists),
                format!("both sorts, 2 and then accepted, two kinds 7 {:?}", self.lists),
            ),
        ]
    }

    fn accepted(&mut self, query: &Query, lines: &[Node], term: &Term, kind: u32) {
        let at = (kind - FIRST) as usize;
        let sort = match term.line {
            Node::Filter(Condition::Eq(..)) => 0,
            Node::Filter(Condition::Ne(..)) => 1,
            Node::Filter(Condition::Max(..)) => 2,
            _ => 3,
        };
        self.accepted[at][sort] += 1;
        self.open[at] += u32::from(!term.closed());
        self.mu[at] += u32::from(query.lines().len() > lines.len());
        self.moved[at] += u32::from(query.nodes[term.node - 1] != term.line);
    }

    /// 12 or 22 of a checked query.
    fn refused(&mut self, checked: &Checked, kind: u32, node: u32, number: u32) {
        let at = (kind - FIRST) as usize;
        let Some(term) = checked.root.at(node as usize) else {
            self.twelve[at][4] += 1;
            return;
        };
        match (number, term.line) {
            (22, _) => {
                let named = term.line.names();
                let missing = &named - checked.columns(&term.operands[0].operands[at - 1]);
                let sort = if named.len() == 1 { 0 } else { 3 - missing.len() };
                self.lacking[at - 1][sort] += 1;
            }
            (_, Node::Last(_)) => self.twelve[at][0] += 1,
            (_, Node::Filter(_)) if is_last(&term.operands[0]) => self.twelve[at][1] += 1,
            (_, Node::Filter(_)) => self.twelve[at][2] += 1,
            _ => self.twelve[at][3] += 1,
        }
    }
}

fn is_last(term: &Term) -> bool {
    matches!(term.line, Node::Last(_))
}

/// The first of the lines that end at one, by numbers of operands alone.
fn first(lines: &[Node], last: usize) -> usize {
    let (mut at, mut missing) = (last, lines[last].arity());
    while missing > 0 {
        at -= 1;
        missing = missing - 1 + lines[at].arity();
    }
    at
}

/// What a step of kinds 7 to 11 on these checked lines gives: the lines that it leaves, or its refusal.
fn due(limit: usize, checked: &Checked, lines: &[Node], kind: u32, node: u32) -> Result<Vec<Node>, Refusal> {
    let last = (node as usize).wrapping_sub(1);
    let under = lines.get(last.wrapping_sub(1));
    let (Some(filter @ Node::Filter(_)), Some(under)) = (lines.get(last), under) else {
        return refuse(12, 0);
    };
    let fits = match kind {
        7 => *under == Node::Pair(Pairing::Union),
        8 | 9 => *under == Node::Pair(Pairing::Join),
        10 => *under == Node::Pair(Pairing::Except),
        _ => kind == 11 && matches!(under, Node::Filter(_)),
    };
    if !fits {
        return refuse(12, 0);
    }
    let left = first(lines, last);
    let right = if under.arity() == 2 { first(lines, last - 2) } else { last - 1 };
    let has = |node: usize| checked.root.at(node).is_some_and(|side| filter.names().is_subset(checked.columns(side)));
    match kind {
        7 if lines.len() >= limit => return refuse(2, 0),
        8 if !has(right) => return refuse(22, 0),
        9 if !has(last - 1) => return refuse(22, 0),
        _ => {}
    }
    let part = |part: &Part| match part {
        Left => &lines[left..right],
        Right => &lines[right..last - 1],
        Under => &lines[last - 1..last],
        Filter => &lines[last..=last],
    };
    let written: Vec<&[Node]> = WRITTEN[(kind - FIRST) as usize].iter().map(part).collect();
    Ok([&lines[..left], &written.concat(), &lines[last + 1..]].concat())
}

/// A checked query, most often with filters over ordinary lines, and anything past its count.
fn filtered(random: &mut Random) -> Result<(Database, Query, Checked), String> {
    let (database, mut query, checked) = if random.once_in(4) {
        input(random, CAPACITY)?
    } else {
        let database = random::database(random);
        let query = filters::query(random, database.schema(), CAPACITY);
        by_construction(database, query)?
    };
    fill_past(random, &mut query);
    Ok((database, query, checked))
}

/// Each kind at each node, with room, with none and with room for one more: the reply and the lines that are left by the patterns, the
/// entries past them as given. What is left is checked, with the columns and rows of the whole and of the node.
pub fn steps(random: &mut Random, coverage: &mut Coverage) -> Verdict {
    let (database, query, checked) = filtered(random)?;
    let lines = checked.lines();
    let mut tested = false;
    for (node, kind) in (0..=query.count + 1).flat_map(|node| (FIRST..=KINDS as u32).map(move |kind| (node, kind))) {
        let step = format!("step={kind},{node}");
        for limit in [lines.len(), CAPACITY.min(lines.len() + 1), CAPACITY] {
            let due = due(limit, &checked, &lines, kind, node);
            let found = apply_within(limit, &checked, &query, kind, node).map(|left| left.lines().to_vec());
            let told = || format!("{step} within {limit}: {found:?}, not {due:?}");
            ensure(found == due, &told(), &query, &database)?;
        }
        match apply_within(CAPACITY, &checked, &query, kind, node) {
            Ok(left) => {
                coverage.ordinary_lines.accepted(&query, &lines, checked.root.at(node as usize).expect("a node"), kind);
                keeps_rows(random, &mut coverage.ordinary_lines, (&database, &query, &checked), &left, (kind, node))
                    .map_err(|why| format!("{step}: {why}{}", told(&query, &database)))?;
                tested = true;
            }
            Err(Refusal { number: number @ (12 | 22), .. }) => {
                coverage.ordinary_lines.refused(&checked, kind, node, number);
            }
            Err(_) => {}
        }
    }
    Ok(tested)
}

/// The same columns, and the same rows of the whole and of the node over two databases.
fn keeps_rows(
    random: &mut Random,
    met: &mut Met,
    (database, query, checked): (&Database, &Query, &Checked),
    left: &Query,
    (kind, node): (u32, u32),
) -> Result<(), String> {
    let after = check(left, database.schema()).map_err(|refusal| format!("{refusal:?} of what is left"))?;
    let count = checked.root.node + usize::from(kind == 7);
    if left.lines().len() != count || left.nodes[count..] != query.nodes[count..] {
        return Err("another count or other entries past it".to_string());
    }
    if after.columns(&after.root) != checked.columns(&checked.root) {
        return Err("other columns".to_string());
    }
    let named = checked.root.at(node as usize).expect("a node");
    let in_place = after.root.at(node as usize + usize::from(kind == 7)).ok_or("no such node any more")?;
    for database in [database.clone(), random::with_columns_of(random, database)] {
        let tables = database.relations();
        let whole = |query: &Query| meaning_of(query, &tables, MOST);
        if let (Some(before), Some(after)) = (whole(query), whole(left)) {
            same_rows("the whole", &before, &after)?;
        }
        let rows = rows_at(random, checked, named, &tables);
        let under = rows(&named.operands[0]);
        if let (Some(under), Some(before), Some(after)) = (under, rows(named), rows(in_place)) {
            same_rows("the node", &before, &after)?;
            let some = before != under && !before.is_empty();
            met.rows[(kind - FIRST) as usize][usize::from(!named.closed())] += u32::from(some);
        }
    }
    Ok(())
}

fn same_rows(of: &str, before: &Relation, after: &Relation) -> Result<(), String> {
    if before == after {
        Ok(())
    } else {
        Err(format!("{of} has {after:?} instead of {before:?}"))
    }
}

/// What gives the rows of a node, of those under it and of those in its place: on a path over any rows of the variable.
fn rows_at<'a>(
    random: &mut Random,
    checked: &Checked,
    node: &Term,
    tables: &'a [Relation],
) -> impl Fn(&Term) -> Option<Relation> + 'a {
    let on_path = |fix: &&&Term| fix.is_fix() && fix.path().iter().any(|term| term.node == node.node);
    let variable = checked.root.nodes().iter().find(on_path).map(|fix| {
        let Node::Fix(variable) = fix.line else { unreachable!("a fix") };
        (variable, random::relation(random, checked.columns(fix)))
    });
    move |term| match &variable {
        Some((variable, rows)) => meaning_on_path(term, *variable, rows, tables, MOST),
        None => meaning(term, tables, MOST),
    }
}

/// A query of as many nodes as a limit allows once it is split, or of one less, with the call that has the limit: what each kind replies,
/// and what comes before where the query or the database is refused.
pub fn limits(random: &mut Random, coverage: &mut Coverage) -> Verdict {
    let at = [0, 0, 1, 1, 2][random.below(5)];
    let limit = LIMITS[at];
    let database = random::database(random);
    let split = limit - random.below(2);
    let query = filters::query_of(random, database.schema(), limit, split);
    let (database, query, checked) = by_construction(database, query)?;
    let (lines, met) = (checked.lines(), &mut coverage.ordinary_lines);
    let mut tried = random::likely(&lines);
    tried.retain(|(kind, _)| *kind >= FIRST);
    tried.push((FIRST, random.below(limit + 2) as u32));
    for (kind, node) in tried {
        let due = due(limit, &checked, &lines, kind, node);
        let reply = match at {
            0 => answered(&database, &query, kind, node)?,
            1 => panel::rewrite(&database, &query, kind, node),
            _ => rewrite(&database, &query, kind, node),
        };
        let found = reply.map(|left| left.lines().to_vec());
        ensure(found == due, &format!("step={kind},{node} within {limit}: {found:?}"), &query, &database)?;
        if kind == 7 {
            met.full[at] += u32::from(due == refuse(2, 0));
            met.twelve_first[at] += u32::from(due == refuse(12, 0) && split == limit);
            met.last_room[at] += u32::from(due.is_ok());
            met.as_typed[at] += u32::from(due.is_ok() && query.lines().len() == limit);
        }
        let (off, harmed) = damaged(random, &database, &query);
        let taken = if harmed.count as usize > limit { refuse(2, 0) } else { check(&harmed, off.schema()) };
        if let Err(refusal) = off.form().and(taken) {
            let found = rewrite_within(limit, &off, &harmed, kind, node);
            let told = || format!("step={kind},{node}: {found:?}, not {refusal:?}: {harmed:?} {off:?}");
            if found != Err(refusal) {
                return Err(told());
            }
            met.earlier += 1;
        }
    }
    Ok(true)
}

/// The query that a step leaves in `answer`, which prints what it prints of that query without steps.
fn answered(database: &Database, query: &Query, kind: u32, node: u32) -> Result<Result<Query, Refusal>, String> {
    let (sheet, book, steps) = (print_query(query), print_database(database), print_steps(&[(kind, node)]));
    let reply = rewrite_within(answer::NODES, database, query, kind, node);
    let due = match &reply {
        Ok(left) => answer(&print_query(left), &book, b""),
        Err(Refusal { number, place }) => format!("refused={number},{place}\n").into_bytes(),
    };
    let printed = answer(&sheet, &book, &steps);
    ensure(printed == due, &format!("step={kind},{node}: {}", shown(&printed)), query, database)?;
    Ok(reply)
}

/// Steps of all kinds one after another, each within another limit and over another database with the same columns. Kind 7 adds a node
/// and no other does; what is left means and answers what the first query means.
pub fn lists(random: &mut Random, coverage: &mut Coverage) -> Verdict {
    let (database, first, _) = filtered(random)?;
    let mut held = first.clone();
    let mut accepted = [0; KINDS + 1];
    let (mut full, mut later) = (false, false);
    for _ in 0..1 + random.below(LONGEST) {
        let other = random::with_columns_of(random, &database);
        let checked = check(&held, other.schema()).map_err(|refusal| format!("{refusal:?}{}", told(&held, &other)))?;
        let (kind, node) = next(random, &checked, &held);
        let limit = [checked.root.node, held.lines().len(), CAPACITY, CAPACITY][random.below(4)];
        match rewrite_within(limit, &other, &held, kind, node) {
            Ok(left) => {
                let count = checked.root.node + usize::from(kind == 7);
                ensure(left.lines().len() == count, &format!("step={kind},{node}: another count"), &held, &other)?;
                accepted[kind as usize] += 1;
                later |= full && kind == 7;
                held = left;
            }
            Err(refusal) => {
                // A query over the limit is refused whatever the kind.
                full |= kind == 7 && refusal.number == 2 && held.lines().len() <= limit;
                coverage.refused(refusal);
            }
        }
    }
    let last = random::with_columns_of(random, &database);
    let tables = last.relations();
    let after = check(&held, last.schema()).map_err(|refusal| format!("{refusal:?}{}", told(&held, &last)))?;
    let rows = |query: &Query| meaning_of(query, &tables, MOST);
    let ran = execute(&plan(&after.root), &tables, MOST, u32::MAX);
    let (Some(before), Some(after_steps), Ok(ran)) = (rows(&first), rows(&held), ran) else {
        return Ok(false);
    };
    let same = before == after_steps && before == ran.registers[after.root.node - 1];
    ensure(same, &format!("another answer as\n{}", shown(&print_query(&held))), &first, &last)?;
    let [early, new] =
        [&accepted[1..FIRST as usize], &accepted[FIRST as usize..]].map(|kinds| kinds.iter().sum::<u32>());
    let met = &mut coverage.ordinary_lines.lists;
    met[0] += u32::from(early > 0 && new > 0);
    met[1] += u32::from(later);
    met[2] += u32::from(accepted[7] > 1);
    Ok(early > 0 && new > 0)
}

/// A step that is accepted where there is room, now and then another.
fn next(random: &mut Random, checked: &Checked, held: &Query) -> (u32, u32) {
    let mut likely = random::likely(&checked.lines());
    if !random.once_in(4) {
        likely.retain(|(kind, node)| apply_within(CAPACITY, checked, held, *kind, *node).is_ok());
    }
    let any = (random.below(KINDS + 2) as u32, random.below(checked.root.node + 2) as u32);
    random.pick(likely).unwrap_or(any)
}
