//! Recursions typed in one piece: the split of a query, 20, and what a query with a `mu` replies beside its split.

use super::{ensure, fill_past, input, outcome, told, Coverage, Verdict, MOST};
use crate::algebra::Pairing;
use crate::check::{check, Checked};
use crate::damage;
use crate::meaning::{meaning, meaning_of};
use crate::panel;
use crate::plan::{execute, plan};
use crate::random::{self, Random};
use crate::rewrite::{apply, rewrite, KINDS};
use crate::run::{run, workspace_entries};
use crate::selfcheck::Outcome;
use crate::split::split;
use crate::term::Term;
use crate::text::{print_query, read_query};
use crate::value::{refuse, slots_of, Database, Node, Query, Refusal, COLUMNS, NODES};
use std::collections::BTreeSet;

/// Forms of a `mu` that have to be met.
const FORMS: [(&str, fn(&Term) -> bool); 10] = [
    ("several closed branches", |mu| of_closedness(mu, true).len() > 1),
    ("several open branches", |mu| of_closedness(mu, false).len() > 1),
    ("an open branch first", |mu| mu.operands[0].branches().first().is_some_and(|first| !first.closed())),
    ("a closed branch last", |mu| mu.operands[0].branches().last().is_some_and(|last| last.closed())),
    ("an open branch between closed ones", |mu| {
        let closed: Vec<bool> = mu.operands[0].branches().iter().map(|branch| branch.closed()).collect();
        closed.windows(3).any(|three| three == [true, false, true])
    }),
    ("branches grouped to the right", |mu| mu.operands[0].operands.get(1).is_some_and(is_union)),
    ("a union that is no cut", |mu| {
        let cuts = mu.operands[0].branches().len() - 1;
        mu.operands[0].nodes().iter().filter(|term| is_union(term)).count() > cuts
    }),
    ("a mu within a closed branch", |mu| of_closedness(mu, true).iter().any(|branch| within(branch, Term::is_mu))),
    ("a mu beside the path", |mu| of_closedness(mu, false).iter().any(|branch| within(branch, Term::is_mu))),
    ("a fix within", |mu| within(&mu.operands[0], Term::is_fix)),
];

/// Places of a `mu` that have to be met.
const PLACES: [(&str, fn(&Term) -> bool); 4] = [
    ("joined to a fix", |term| pairs(term, Term::is_mu, Term::is_fix) || pairs(term, Term::is_fix, Term::is_mu)),
    ("joined to a mu", |term| pairs(term, Term::is_mu, Term::is_mu)),
    ("in the step of a fix", |term| term.is_fix() && within(term.step(), Term::is_mu)),
    ("in the seed of a fix", |term| term.is_fix() && within(term.seed(), Term::is_mu)),
];

fn is_union(term: &Term) -> bool {
    term.line == Node::Pair(Pairing::Union)
}

fn of_closedness(mu: &Term, closed: bool) -> Vec<&Term> {
    mu.operands[0].branches().into_iter().filter(|branch| branch.closed() == closed).collect()
}

fn within(term: &Term, sought: fn(&Term) -> bool) -> bool {
    term.nodes().into_iter().any(sought)
}

fn pairs(term: &Term, left: fn(&Term) -> bool, right: fn(&Term) -> bool) -> bool {
    term.line == Node::Pair(Pairing::Join) && left(&term.operands[0]) && right(&term.operands[1])
}

/// What queries with a `mu` have met.
#[derive(Default)]
pub struct Met {
    queries: u32,
    forms: [u32; FORMS.len()],
    places: [u32; PLACES.len()],
    /// 20 by cause, at the lowest of several, and at one within another that would get it too.
    spoilt: [u32; 3],
    several: u32,
    nested: u32,
    /// Refusals of damaged queries by number, and those of 4 to 10 at a node that is another line as typed.
    numbers: [u32; 21],
    moved: [u32; 21],
    /// Accepted steps by kind, those at a node that is another line as typed, and those that split a `mu` elsewhere.
    kinds: [u32; KINDS + 1],
    kinds_moved: u32,
    elsewhere: u32,
    /// Answers with rows, and queries too long for a limit that their split is within: of a text, of a value and at the panel.
    answers: u32,
    too_long: [u32; 3],
}

impl Met {
    pub fn outcomes(&self) -> Vec<Outcome> {
        let forms = FORMS.iter().map(|(name, _)| name).chain(PLACES.iter().map(|(name, _)| name));
        let counts = self.forms.iter().chain(&self.places);
        let listed: Vec<String> = forms.zip(counts.clone()).map(|(name, times)| format!("{name} {times}")).collect();
        let (numbers, moved, kinds) = (&self.numbers[3..], &self.moved[4..=10], &self.kinds[1..]);
        let given = (3..=10).chain([20]).all(|number| self.numbers[number] > 0);
        let stepped = kinds.iter().chain([&self.kinds_moved, &self.elsewhere]).all(|times| *times > 0);
        let spoilt = self.spoilt.iter().chain([&self.several, &self.nested]).all(|times| *times > 0);
        vec![
            outcome(
                "queries with a mu have every form",
                self.answers > 0 && counts.clone().all(|times| *times > 0),
                format!("{} queries, {} answers with rows, {}", self.queries, self.answers, listed.join(", ")),
            ),
            outcome(
                "20 has every cause and place",
                spoilt,
                format!("by cause {:?}, lowest of several {}, inner one {}", self.spoilt, self.several, self.nested),
            ),
            outcome(
                "queries with a mu get 3 to 10 and 20, 4 to 10 at moved lines too",
                given && moved.iter().all(|times| *times > 0),
                format!("refused by number from 3 on {numbers:?}, from 4 on at moved lines {moved:?}"),
            ),
            outcome(
                "queries with a mu are rewritten by every kind",
                stepped,
                format!("{kinds:?}, at moved lines {}, elsewhere {}", self.kinds_moved, self.elsewhere),
            ),
            outcome(
                "queries too long as typed were met",
                self.too_long.iter().all(|times| *times > 0),
                format!("{:?}", self.too_long),
            ),
        ]
    }
}

fn mus(lines: &[Node]) -> usize {
    lines.iter().filter(|line| matches!(line, Node::Mu(_))).count()
}

pub fn has_mu(query: &Query) -> bool {
    mus(query.lines()) > 0
}

/// A checked query; most have a `mu`.
fn typed(random: &mut Random, capacity: usize) -> Result<(Database, Query, Checked), String> {
    for _ in 0..3 {
        let found = input(random, capacity)?;
        if has_mu(&found.1) {
            return Ok(found);
        }
    }
    input(random, capacity)
}

/// The split of a query as a query of its own.
fn apart(query: &Query, lines: &[Node]) -> Query {
    Query::new(lines, query.nodes.len())
}

/// Lines whose split is known, and the variables that keep them open.
#[derive(Clone, Default)]
struct Part {
    lines: Vec<Node>,
    free: BTreeSet<u8>,
}

impl Part {
    fn followed(mut self, other: Part) -> Part {
        self.lines.extend(other.lines);
        self.free.extend(other.free);
        self
    }

    fn then(mut self, line: Node) -> Part {
        self.lines.push(line);
        self
    }

    fn without(mut self, variable: u8) -> Part {
        self.free.remove(&variable);
        self
    }

    /// One more branch of a seed or of a step.
    fn united(self, branch: Part) -> Part {
        let first = self.lines.is_empty();
        let both = self.followed(branch);
        if first {
            both
        } else {
            both.then(Node::Pair(Pairing::Union))
        }
    }
}

/// The split a second way, over the lines in their order: each node not yet taken with its branches, should a `mu` follow.
/// Otherwise the lowest `mu` without one kind of branch. The lines make a tree.
fn split_in_order(lines: &[Node]) -> Result<Vec<Node>, u32> {
    let mut untaken: Vec<(Part, Vec<Part>)> = Vec::new();
    for (line, node) in lines.iter().zip(1..) {
        let operands = untaken.split_off(untaken.len() - line.arity());
        let wholes = || operands.iter().map(|(whole, _)| whole.clone());
        let all = || wholes().fold(Part::default(), Part::followed);
        let whole = match *line {
            Node::Var(v) => Part { lines: vec![*line], free: BTreeSet::from([v]) },
            Node::Fix(v) => {
                let [seed, step] = [0, 1].map(|operand| operands[operand].0.clone());
                seed.followed(step.without(v)).then(*line)
            }
            Node::Mu(v) => {
                let [mut seed, mut step] = [Part::default(), Part::default()];
                for branch in &operands[0].1 {
                    let side = if branch.free.is_empty() { &mut seed } else { &mut step };
                    *side = std::mem::take(side).united(branch.clone());
                }
                if seed.lines.is_empty() || step.lines.is_empty() {
                    return Err(node);
                }
                seed.followed(step.without(v)).then(Node::Fix(v))
            }
            _ => all().then(*line),
        };
        let branches = match line {
            Node::Pair(Pairing::Union) => operands.iter().flat_map(|(_, branches)| branches.clone()).collect(),
            _ => vec![whole.clone()],
        };
        untaken.push((whole, branches));
    }
    Ok(untaken.remove(0).0.lines)
}

pub fn splits(random: &mut Random, coverage: &mut Coverage) -> Verdict {
    let (database, query, checked) = typed(random, 40)?;
    let (lines, count) = (checked.lines(), mus(query.lines()));
    ensure(split_in_order(query.lines()) == Ok(lines.clone()), "another split in order", &query, &database)?;
    ensure(lines.len() + count == query.count as usize, "not one node fewer for each mu", &query, &database)?;
    ensure(mus(&lines) == 0, "a mu in the split", &query, &database)?;
    ensure(count > 0 || lines == query.lines(), "another split without a mu", &query, &database)?;
    let again = check(&apart(&query, &lines), database.schema());
    ensure(again == Ok(checked), "another check of the split", &query, &database)?;
    meet_forms(&mut coverage.one_piece, &query);
    Ok(count > 0)
}

fn meet_forms(met: &mut Met, query: &Query) {
    let root = Term::of(query.lines()).expect("a checked query");
    let all = root.nodes();
    met.queries += u32::from(has_mu(query));
    for (times, (_, form)) in met.forms.iter_mut().zip(FORMS) {
        *times += all.iter().filter(|term| term.is_mu() && form(term)).count() as u32;
    }
    for (times, (_, place)) in met.places.iter_mut().zip(PLACES) {
        *times += all.iter().filter(|term| place(term)).count() as u32;
    }
}

/// Over databases with the same columns, too.
pub fn meanings(random: &mut Random, coverage: &mut Coverage) -> Verdict {
    let (first, query, checked) = typed(random, 40)?;
    let plan = plan(&checked.root);
    let mut tested = false;
    for _ in 0..2 {
        let database = random::with_columns_of(random, &first);
        let tables = database.relations();
        let Some(rows) = meaning_of(&query, &tables, MOST) else {
            continue;
        };
        if let Some(of_split) = meaning(&checked.root, &tables, MOST) {
            ensure(of_split == rows, "another meaning of the split", &query, &database)?;
        }
        let mut workspace = vec![7; workspace_entries(plan.registers, MOST as u32)];
        let mut slots = vec![7; COLUMNS * MOST];
        let ran = run(&database, &query, MOST as u32, u32::MAX, &mut workspace, &mut slots);
        if let Ok(ran) = ran {
            let same = slots[..COLUMNS * ran.rows as usize] == slots_of(&rows) && ran.rows as usize == rows.len();
            ensure(same, "another answer of the run", &query, &database)?;
            let free = execute(&plan, &tables, MOST, u32::MAX).map(|machine| machine.ran);
            ensure(free == Ok(ran.ran), "other lines run than those of the split's plan", &query, &database)?;
            coverage.one_piece.answers += u32::from(has_mu(&query) && !rows.is_empty());
            tested = has_mu(&query);
        }
    }
    Ok(tested)
}

/// Check, step and run at desk and panel give one refusal and touch nothing.
fn every_call_refuses(database: &Database, query: &Query, refusal: Refusal) -> Result<(), String> {
    let due = Err(refusal);
    let (mut workspace, mut slots) = ([7; 40], [9; COLUMNS]);
    let desk = [
        check(query, database.schema()).map(|_| ()),
        rewrite(database, query, 1, query.count).map(|_| ()),
        run(database, query, 4, u32::MAX, &mut workspace, &mut slots).map(|_| ()),
    ];
    let at_panel = [
        panel::check(database, query).map(|_| ()),
        panel::compile(database, query).map(|_| ()),
        panel::rewrite(database, query, 1, query.count).map(|_| ()),
        panel::run(database, query, u32::MAX, &mut workspace, &mut slots).map(|_| ()),
    ];
    let at_panel_due = if query.count as usize > panel::NODES { refuse(2, 0) } else { due };
    let untouched = workspace == [7; 40] && slots == [9; COLUMNS];
    let told = |replies: &[Result<(), Refusal>]| format!("{replies:?}, not {refusal:?}");
    ensure(desk.iter().all(|reply| *reply == due), &told(&desk), query, database)?;
    ensure(at_panel.iter().all(|reply| *reply == at_panel_due), &told(&at_panel), query, database)?;
    ensure(untouched, "a refusal wrote", query, database)
}

pub fn unsplit(random: &mut Random, coverage: &mut Coverage) -> Verdict {
    let (database, query, _) = typed(random, 60)?;
    let Some(spoilt) = damage::spoilt(random, &query) else {
        return Ok(false);
    };
    let (cause, place) = spoilt.at[0];
    let refusal = Refusal { number: 20, place };
    every_call_refuses(&database, &spoilt.query, refusal)?;
    coverage.refused(refusal);
    let met = &mut coverage.one_piece;
    met.spoilt[cause as usize] += 1;
    met.several += u32::from(spoilt.at.len() > 1);
    let root = Term::of(spoilt.query.lines()).expect("a tree");
    let around = |node: &u32| root.at(*node as usize).is_some_and(|term| term.holds(place as usize));
    met.nested += u32::from(spoilt.at[1..].iter().any(|(_, node)| around(node)));
    in_order(&database, &spoilt.query, place)?;
    Ok(true)
}

/// 20 comes after 1 and 3, and before 4 at a lower node and 10 at a higher one.
fn in_order(database: &Database, query: &Query, place: u32) -> Result<(), String> {
    let lines = query.lines();
    let of = |parts: &[&[Node]]| Query::new(&parts.concat(), NODES);
    let join = Node::Pair(Pairing::Join);
    let var = of(&[&[Node::Var(0)], lines, &[join]]);
    every_call_refuses(database, &var, Refusal { number: 20, place: place + 1 })?;
    let table = of(&[lines, &[Node::Table(15), join]]);
    every_call_refuses(database, &table, Refusal { number: 20, place })?;
    let several_roots = of(&[lines, &[Node::Table(0)]]);
    every_call_refuses(database, &several_roots, Refusal { number: 3, place: query.count + 1 })?;
    let off_the_form = of(&[lines, &[Node::Mu(16)]]);
    every_call_refuses(database, &off_the_form, Refusal { number: 1, place: query.count + 1 })
}

/// The lowest `mu` with no closed or no open branch, each looked at on its own.
fn lowest_unsplit(root: &Term) -> Option<u32> {
    let fails =
        |term: &&&Term| term.is_mu() && [true, false].iter().any(|closed| of_closedness(term, *closed).is_empty());
    root.nodes().iter().filter(fails).map(|term| term.node as u32).min()
}

pub fn damaged(random: &mut Random, coverage: &mut Coverage) -> Verdict {
    let (database, query, _) = typed(random, 40)?;
    let query = damage::query(random, &query);
    let found = check(&query, database.schema());
    let told = |what: &str| format!("{what}: {found:?}{}", told(&query, &database));
    let Ok(root) = Term::of(query.lines()) else {
        coverage.one_piece.numbers[3] += u32::from(has_mu(&query));
        return if matches!(found, Err(Refusal { number: 3, .. })) { Ok(has_mu(&query)) } else { Err(told("3")) };
    };
    let due = match (split_in_order(query.lines()), lowest_unsplit(&root)) {
        (Err(place), Some(lowest)) if place == lowest => refuse(20, place),
        (Ok(lines), None) if split(&root) == Ok(lines.clone()) => {
            let of_split = check(&apart(&query, &lines), database.schema());
            let moved =
                |refusal: &Refusal| lines[refusal.place as usize - 1] != query.nodes[refusal.place as usize - 1];
            if let Some(refusal) = of_split.as_ref().err().filter(|refusal| moved(refusal)) {
                coverage.one_piece.moved[refusal.number as usize] += 1;
            }
            of_split
        }
        other => return Err(told(&format!("two splits differ: {other:?}"))),
    };
    if found != due {
        return Err(told(&format!("not {due:?}")));
    }
    if let (Err(refusal), true) = (&found, has_mu(&query)) {
        coverage.one_piece.numbers[refusal.number as usize] += 1;
    }
    Ok(has_mu(&query))
}

pub fn rewrites(random: &mut Random, coverage: &mut Coverage) -> Verdict {
    let (database, mut query, checked) = typed(random, 40)?;
    let lines = checked.lines();
    fill_past(random, &mut query);
    let of_split = apart(&query, &lines);
    let checked_split = check(&of_split, database.schema()).map_err(|refusal| format!("{refusal:?}"))?;
    for node in 0..=query.count + 1 {
        for kind in 1..=KINDS as u32 {
            let (found, due) = (apply(&checked, &query, kind, node), apply(&checked_split, &of_split, kind, node));
            let step = format!("step={kind},{node}");
            let Ok(rewritten) = found else {
                ensure(found == due, &format!("{step}: {found:?}"), &query, &database)?;
                continue;
            };
            let same = due.is_ok_and(|due| due.lines() == rewritten.lines());
            ensure(same, &format!("{step}: another query"), &query, &database)?;
            ensure(!has_mu(&rewritten), &format!("{step}: a mu is left"), &query, &database)?;
            let past = lines.len() + usize::from(kind == 7);
            ensure(rewritten.count as usize == past, &format!("{step}: another count"), &query, &database)?;
            let kept = rewritten.nodes[past..] == query.nodes[past..];
            ensure(kept, &format!("{step}: other entries past the count"), &query, &database)?;
            meet_step(&mut coverage.one_piece, &query, &lines, kind, node);
        }
    }
    Ok(has_mu(&query))
}

fn meet_step(met: &mut Met, query: &Query, split: &[Node], kind: u32, node: u32) {
    let at = node as usize - 1;
    let root = Term::of(query.lines()).expect("a checked query");
    met.kinds[kind as usize] += u32::from(has_mu(query));
    met.kinds_moved += u32::from(split[at] != query.nodes[at]);
    // No line has moved below the node, and a `mu` stands behind it.
    let before = split[..=at] == query.nodes[..=at] && root.at(at + 1).is_some_and(|term| !within(term, Term::is_mu));
    met.elsewhere += u32::from(before && has_mu(query));
}

/// A text, a value and the panel take as many lines as typed.
pub fn limits(random: &mut Random, coverage: &mut Coverage) -> Verdict {
    let (database, query, checked) = typed(random, 40)?;
    let count = query.count as usize;
    let (text, met) = (print_query(&query), &mut coverage.one_piece);
    let within = u32::from(checked.root.node < count);
    let read = |limit: usize| read_query(&text, limit).map(|read| read.lines().to_vec());
    ensure(read(count) == Ok(query.lines().to_vec()), "the text is not read", &query, &database)?;
    ensure(read(count - 1) == refuse(2, 2), "a limit one lower for the text", &query, &database)?;
    met.too_long[0] += within;
    let lower = Query { nodes: query.nodes[..count - 1].to_vec(), count: query.count };
    ensure(check(&lower, database.schema()) == refuse(2, 0), "a limit one lower", &query, &database)?;
    met.too_long[1] += within;
    let nodes = panel::NODES + random.below(3);
    let long = random::query_of(random, database.schema(), nodes);
    let desk = check(&long, database.schema());
    ensure(desk.is_ok(), "not checked", &long, &database)?;
    let due = if nodes > panel::NODES { refuse(2, 0) } else { desk.clone() };
    ensure(panel::check(&database, &long) == due, "the panel's limit", &long, &database)?;
    met.too_long[2] += u32::from(due.is_err() && desk.is_ok_and(|checked| checked.root.node <= panel::NODES));
    Ok(has_mu(&query))
}
