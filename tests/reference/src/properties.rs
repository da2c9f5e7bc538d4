//! Properties of random inputs. Each seed gives one input; a property that fails names its seed.

mod allowance;
mod at;
mod bytes;
pub mod comes_home;
mod desk_and_panel;
mod first_day;
mod last_issues;
mod one_piece;
mod ordinary_lines;
mod paths;
mod pauses;
mod two_branches;

use crate::algebra::{Condition, Relation};
use crate::answer::{answer, FILE_BYTES};
use crate::check::{check, Checked};
use crate::damage;
use crate::meaning::meaning_of;
use crate::plan::{execute, plan, Line, Machine, Operation};
use crate::random::{self, Random};
use crate::rewrite::{apply, rewrite, KINDS};
use crate::run::{run, workspace_entries, Answer};
use crate::selfcheck::{shown, Outcome};
use crate::text::{print_answer, print_database, print_query, print_steps, read_database, read_query, NO_TABLES};
use crate::value::{slots_of, Database, Node, Query, Refusal, COLUMNS, NUMBERS};

/// What random inputs have met: accepted rewrites by kind, refusals by number, filters over rows with a 0 in their column and
/// those of them that were pushed into a recursion, and what bytes of lines, books of zero bytes, desk and panel, recursions typed
/// in one piece, columns that come home, property paths, products, last issues, two branches, filters past ordinary lines and pauses
/// have.
#[derive(Default)]
pub struct Coverage {
    pub kinds: [u32; KINDS + 1],
    pub numbers: [u32; NUMBERS + 1],
    pub unknown: [u32; 2],
    pub bytes: bytes::Met,
    pub first_day: first_day::Met,
    pub panel: desk_and_panel::Met,
    pub one_piece: one_piece::Met,
    pub comes_home: comes_home::Met,
    pub paths: paths::Met,
    pub allowance: allowance::Met,
    pub last_issues: last_issues::Met,
    pub two_branches: two_branches::Met,
    pub ordinary_lines: ordinary_lines::Met,
    pub pauses: pauses::Met,
}

impl Coverage {
    fn refused(&mut self, refusal: Refusal) {
        self.numbers[refusal.number as usize] += 1;
    }

    /// Each kind was accepted and each number given; filters met 0, also in a recursion; what bytes of lines and books of zero
    /// bytes met, the panel's share of it, and that of recursions typed in one piece, of columns that come home, of property paths,
    /// of products, of last issues, of two branches, of filters past ordinary lines and of pauses.
    pub fn outcomes(&self) -> Vec<Outcome> {
        let seen = format!("accepted by kind {:?}, refused by number {:?}", &self.kinds[1..], &self.numbers[1..]);
        let full = self.kinds[1..].iter().chain(&self.numbers[1..]).all(|times| *times > 0);
        let all = outcome("every kind is accepted and every number given", full, seen);
        let seen = format!("{} filters over a 0, {} of them pushed in", self.unknown[0], self.unknown[1]);
        let met = self.unknown.iter().all(|times| *times > 0);
        let unknown = outcome("filters meet unknown values", met, seen);
        let single = vec![all, unknown, self.bytes.outcome(), self.first_day.outcome(), self.panel.outcome()];
        let of_requests = [self.one_piece.outcomes(), self.comes_home.outcomes(), self.paths.outcomes()].concat();
        let later = [self.allowance.outcomes(), self.last_issues.outcomes(), self.two_branches.outcomes()].concat();
        [single, of_requests, later, self.ordinary_lines.outcomes(), self.pauses.outcomes()].concat()
    }
}

/// Whether what has to be met was, and what was seen.
fn outcome(name: &str, met: bool, seen: String) -> Outcome {
    (name.to_string(), if met { Ok(seen) } else { Err(seen) })
}

/// `Ok(false)`: the input says nothing about the property.
type Verdict = Result<bool, String>;
type Property = fn(&mut Random, &mut Coverage) -> Verdict;

const PROPERTIES: [(&str, Property); 58] = [
    ("a printed query is read back", queries_are_read_back),
    ("a printed database is read back", databases_are_read_back),
    ("a query's refusal names its first bad line", first_bad_line_of_a_query),
    ("a database's refusal names its first bad line", first_bad_line_of_a_database),
    ("each byte at each place of a line is refused off the forms, and only there", bytes::lines),
    ("zero bytes are a book and no sheet, one byte is no book", first_day::shortest_texts),
    ("a book of zero bytes is one without tables", first_day::first_days),
    ("values off the form are refused at their place", values_off_the_form),
    ("a damaged query is refused or gives the meaning", damaged_queries),
    ("a plan has its lines in order", plans),
    ("a finished run gives the meaning", runs_give_the_meaning),
    ("budget and row limit are exact", limits_are_exact),
    ("lent slices hold what they should", lent_slices),
    ("a filter keeps the rows that compare so, 0 passing no max", filters),
    ("an accepted rewrite keeps meaning and columns", rewrites),
    ("a list of rewrites keeps the meaning", lists_of_rewrites),
    ("answer prints the meaning", answers),
    ("the panel reads texts as the desk up to 32 nodes", desk_and_panel::texts),
    ("the panel replies as the desk up to 32 nodes", desk_and_panel::replies),
    ("steps made at desk and panel give one query as long as the panel takes it", desk_and_panel::lists_of_rewrites),
    ("desk and panel give one answer", desk_and_panel::runs),
    ("the panel's row limit is exact", desk_and_panel::row_limits),
    ("the panel's workspace is enough", desk_and_panel::workspaces),
    ("a split has a fix for each mu and one node fewer", one_piece::splits),
    ("a mu means the least fixpoint of its body, and so do its split and the run", one_piece::meanings),
    ("20 names the lowest mu that isn't split, before 4", one_piece::unsplit),
    ("4 to 10 of a damaged mu query are those of its split", one_piece::damaged),
    ("a step on a mu query is one on its split, entries past the count staying", one_piece::rewrites),
    ("node limits count lines as typed", one_piece::limits),
    ("a row has in a column what the variable's row has at its origin", comes_home::values),
    ("what document 01 calls stable is stable, and its steps are accepted", comes_home::beside_document_01),
    ("a rewrite above columns that come home keeps meaning and columns", comes_home::rewrites),
    ("two lists of rewrites leave one answer", comes_home::two_lists),
    ("a printed path is read back, with needless parentheses too", paths::printed),
    ("21 names the first byte at which a text begins no path", paths::places),
    ("a path has at most 128 bytes", paths::lengths),
    ("a path's sheet is checked and means what the path links", paths::sheets),
    ("a path's refusals come in order at desk and panel", paths::refusals),
    ("a path's nodes are counted without being written", paths::limits),
    ("path prints the sheet or the first refusal", paths::programs),
    ("the product is the plan's number of lines, by the count of nodes, times the row limit", allowance::products),
    ("no run exceeds the product, and a budget of it is never spent", allowance::lines_run),
    ("the product is refused exactly where a run is before 17", allowance::refusals),
    ("a last keeps of rows that agree in every other column the greatest, and so does its run", last_issues::kept),
    ("a greater row replaces one that a last kept, a lesser one changes nothing", last_issues::replaced),
    ("a last over an open node gets 5, over a node without its column 9", last_issues::put_anywhere),
    ("every kind gets 12 at a last, and accepted steps elsewhere keep it and the rows", last_issues::steps),
    ("two steps on two branches reply and end alike in both orders", two_branches::pairs),
    ("so they do at desk and panel, and what refuses a query or database refuses both", two_branches::anywhere),
    ("two lists on two branches reply as alone and end alike by any turns", two_branches::by_turns),
    ("a filter goes past a line by its pattern, or is refused, and keeps the node's rows", ordinary_lines::steps),
    ("a kind 7 finds room for its node exactly below the limit of answer, panel and desk", ordinary_lines::limits),
    ("a list of all kinds within any limits adds a node a kind 7 and keeps the meaning", ordinary_lines::lists),
    (
        "a run in any parts ends as one run with all their lines, and leaves the registers in place between",
        pauses::parts,
    ),
    ("a run is gone on with from every place, and no line more gives the same pause", pauses::places),
    ("a pause with one thing wrong gets 23 after all that a run tests, and nothing changes", pauses::damaged),
    ("a pause from elsewhere goes on as the plan does from its registers", pauses::elsewhere),
    ("a run that can be gone on with is refused as the ordinary one and pauses where that gets 19", pauses::refusals),
];

/// One test a property, each on the seeds from `seed` on.
pub fn properties(seed: u64, count: u64, coverage: &mut Coverage) -> Vec<Outcome> {
    let mut outcomes = Vec::new();
    for (name, property) in PROPERTIES {
        let mut met = 0;
        let broken =
            (seed..seed.saturating_add(count)).find_map(|seed| match property(&mut Random::new(seed), coverage) {
                Ok(tested) => {
                    met += u64::from(tested);
                    None
                }
                Err(why) => Some(format!("seed {seed}: {why}")),
            });
        let result = match broken {
            Some(why) => Err(why),
            None => Ok(format!("{met} of {count} inputs")),
        };
        outcomes.push((name.to_string(), result));
    }
    outcomes
}

/// Relations larger than this are not evaluated in a test.
const MOST: usize = 300;

fn told(query: &Query, database: &Database) -> String {
    format!("\n{}{}", shown(&print_query(query)), shown(&print_database(database)))
}

fn ensure(holds: bool, why: &str, query: &Query, database: &Database) -> Result<(), String> {
    if holds {
        Ok(())
    } else {
        Err(format!("{why}{}", told(query, database)))
    }
}

/// A database and a query that must pass the check.
fn input(random: &mut Random, capacity: usize) -> Result<(Database, Query, Checked), String> {
    let database = random::database(random);
    let query = random::query(random, database.schema(), capacity);
    by_construction(database, query)
}

fn by_construction(database: Database, query: Query) -> Result<(Database, Query, Checked), String> {
    match check(&query, database.schema()) {
        Ok(checked) => Ok((database, query, checked)),
        Err(refusal) => Err(format!("refused by construction: {refusal:?}{}", told(&query, &database))),
    }
}

/// Past the count stands what the query was given with: any lines.
fn fill_past(random: &mut Random, query: &mut Query) {
    let count = query.count as usize;
    query.nodes[count..].fill_with(|| random::node(random));
}

fn queries_are_read_back(random: &mut Random, _: &mut Coverage) -> Verdict {
    let lines: Vec<Node> = (0..1 + random.below(40)).map(|_| random::node(random)).collect();
    let query = Query::new(&lines, lines.len() + random.below(3));
    let text = print_query(&query);
    match read_query(&text, query.nodes.len()) {
        Ok(read) if read == query => {}
        other => return Err(format!("read as {other:?}:\n{}", shown(&text))),
    }
    match read_query(&text, lines.len() - 1) {
        Err(Refusal { number: 2, place: 2 }) => Ok(true),
        other => Err(format!("a limit one lower gives {other:?}:\n{}", shown(&text))),
    }
}

fn databases_are_read_back(random: &mut Random, _: &mut Coverage) -> Verdict {
    let database = random::database(random);
    let text = print_database(&database);
    let stored = COLUMNS * database.rows.iter().sum::<u32>() as usize;
    let mut lent = random.fill(database.store.len());
    lent[stored..].copy_from_slice(&database.store[stored..]);
    match read_database(&text, &lent) {
        Ok(read) if read == database && print_database(&read) == text => {}
        other => return Err(format!("read as {other:?}:\n{}", shown(&text))),
    }
    if stored > 0 && read_database(&text, &lent[..stored - 1]) != Err(Refusal { number: 17, place: 0 }) {
        return Err(format!("a short store is not refused with 17:\n{}", shown(&text)));
    }
    Ok(true)
}

/// What is read is printed the same. A line refused with `number` follows lines that are good alone, and what comes after it
/// makes no difference.
fn first_bad_line(
    text: &[u8],
    number: u32,
    random: &mut Random,
    coverage: &mut Coverage,
    read: impl Fn(&[u8]) -> Result<Vec<u8>, Refusal>,
) -> Verdict {
    let refusal = match read(text) {
        Ok(printed) if printed == text => return Ok(true),
        Ok(printed) => return Err(format!("printed as\n{}read from\n{}", shown(&printed), shown(text))),
        Err(refusal) => refusal,
    };
    coverage.refused(refusal);
    if refusal.number != number {
        return Ok(false);
    }
    let lines: Vec<&[u8]> = text.split_inclusive(|byte| *byte == b'\n').collect();
    let place = refusal.place as usize;
    if place == 0 || place > lines.len() + 1 {
        return Err(format!("{refusal:?} of\n{}", shown(text)));
    }
    let head = lines[..place - 1].concat();
    match read(&head) {
        Err(other) if other.number == number && other != refusal => {
            return Err(format!("{refusal:?}, but {other:?} of the lines before it:\n{}", shown(text)));
        }
        _ => {}
    }
    if lines.get(place - 1).is_some_and(|line| line.ends_with(b"\n")) {
        let mut other = lines[..place].concat();
        other.extend(damage::text(random, &lines[place..].concat()));
        if read(&other) != Err(refusal) {
            return Err(format!("{refusal:?}, but not with another ending:\n{}", shown(text)));
        }
    }
    Ok(true)
}

fn first_bad_line_of_a_query(random: &mut Random, coverage: &mut Coverage) -> Verdict {
    let (_, query, _) = input(random, 40)?;
    let text = damage::text(random, &print_query(&query));
    first_bad_line(&text, 1, random, coverage, |text| read_query(text, 40).map(|query| print_query(&query)))
}

fn first_bad_line_of_a_database(random: &mut Random, coverage: &mut Coverage) -> Verdict {
    let text = print_database(&random::database(random));
    let text = damage::text(random, &text);
    let store = vec![0; COLUMNS * random.below(40)];
    let read = |text: &[u8]| read_database(text, &store).map(|read| print_database(&read));
    if text.is_empty() {
        // The second way to write no tables is the one text that isn't printed the same.
        return if read(&text).as_deref() == Ok(NO_TABLES) { Ok(true) } else { Err(format!("{:?}", read(&text))) };
    }
    first_bad_line(&text, 11, random, coverage, read)
}

fn values_off_the_form(random: &mut Random, coverage: &mut Coverage) -> Verdict {
    let (database, query, _) = input(random, 40)?;
    let mut bad = query.clone();
    let node = random.below(query.count as usize);
    bad.nodes[node] = match random.below(9) {
        0 => Node::Table(16),
        1 => Node::Var(16 + random.below(200) as u8),
        2 => Node::Fix(255),
        3 => Node::Fact(8, 0),
        4 => Node::Filter(Condition::Same(0, 8)),
        5 => Node::Copy(0, 9),
        6 => Node::Mu(16 + random.below(200) as u8),
        7 => Node::Last(8 + random.below(200) as u8),
        _ => Node::Drop(8),
    };
    // A later line off the form changes nothing.
    let later = node + random.below(query.nodes.len() - node);
    if later > node {
        bad.nodes[later] = Node::Drop(9);
    }
    let mut short = query.clone();
    short.count = if random.once_in(2) { 0 } else { query.nodes.len() as u32 + 1 };
    let (off, place) = damage::database(random, &database);
    for (database, query, number, place) in [
        (&database, &bad, 1, node as u32 + 1),
        (&database, &short, 2, 0),
        (&off, &query, 11, place),
        (&off, &bad, 11, place),
        (&off, &short, 11, place),
    ] {
        let expected = Refusal { number, place };
        coverage.refused(expected);
        let ran = run(database, query, 0, 0, &mut [], &mut []);
        let rewritten = rewrite(database, query, 0, 0);
        if ran != Err(expected) || rewritten != Err(expected) {
            return Err(format!("{ran:?} and {rewritten:?}, not {expected:?}: {query:?} {database:?}"));
        }
    }
    Ok(true)
}

fn damaged_queries(random: &mut Random, coverage: &mut Coverage) -> Verdict {
    let (database, query, _) = input(random, 40)?;
    let query = damage::query(random, &query);
    let checked = match check(&query, database.schema()) {
        Ok(checked) => checked,
        Err(refusal) => {
            coverage.refused(refusal);
            let known = matches!(refusal.number, 3..=10 | 20) && (1..=query.count).contains(&refusal.place);
            ensure(known, &format!("{refusal:?}"), &query, &database)?;
            return Ok(true);
        }
    };
    let tables = database.relations();
    let Some(rows) = meaning_of(&query, &tables, MOST) else {
        return Ok(false);
    };
    let columns = checked.columns(&checked.root);
    ensure(rows.iter().all(|row| row.keys().eq(columns)), "a row with other columns", &query, &database)?;
    if let Ok(machine) = execute(&plan(&checked.root), &tables, MOST, u32::MAX) {
        ensure(machine.registers[checked.root.node - 1] == rows, "not the meaning", &query, &database)?;
    }
    Ok(true)
}

fn plans(random: &mut Random, _: &mut Coverage) -> Verdict {
    let (database, query, checked) = input(random, 64)?;
    let plan = plan(&checked.root);
    let lines = checked.lines();
    let nodes = lines.len();
    let fixes = checked.root.nodes().iter().filter(|term| term.is_fix()).count();
    let is_start = |line: &Line| matches!(line.operation, Operation::Start { .. });
    let mut own: Vec<usize> = plan.lines.iter().filter(|line| !is_start(line)).map(|line| line.destination).collect();
    own.sort();
    let due: Vec<usize> = (0..nodes).filter(|node| !matches!(lines[*node], Node::Var(_))).collect();
    ensure(own == due, "not one line a node", &query, &database)?;
    ensure(plan.lines.len() == due.len() + fixes, "not one start a fix", &query, &database)?;
    ensure(plan.registers == nodes + fixes, "not one register a node and a fix", &query, &database)?;
    let mut written = vec![false; plan.registers];
    for (index, line) in plan.lines.iter().enumerate() {
        ensure(line.sources.iter().all(|source| written[*source]), "read before it is written", &query, &database)?;
        written[line.destination] = true;
        match line.operation {
            Operation::Start { delta } => {
                written[delta] = true;
                let again = plan.lines.get(index + line.path + 1);
                let closes = again.is_some_and(|again| {
                    again.operation == Operation::Again { delta }
                        && again.destination == line.destination
                        && again.path == line.path
                });
                ensure(closes, "no again for a start", &query, &database)?;
                let path = &plan.lines[index + 1..index + line.path + 1];
                ensure(
                    path.windows(2).all(|pair| pair[0].destination < pair[1].destination),
                    "path",
                    &query,
                    &database,
                )?;
                // Only path lines read a delta, and only their own.
                let reads = path.iter().flat_map(|line| &line.sources).filter(|source| **source >= nodes);
                ensure(reads.into_iter().all(|source| *source == delta), "another delta", &query, &database)?;
            }
            Operation::Again { .. } => {}
            _ => ensure(line.path == 0, "a path without a loop", &query, &database)?,
        }
    }
    Ok(true)
}

fn runs_give_the_meaning(random: &mut Random, coverage: &mut Coverage) -> Verdict {
    let (database, query, checked) = input(random, 64)?;
    let row_limit = [4, 12, 24, 40][random.below(4)];
    let mut workspace = vec![7; workspace_entries(2 * query.nodes.len(), row_limit)];
    let mut slots = vec![0; COLUMNS * row_limit as usize];
    let finished = match run(&database, &query, row_limit, u32::MAX, &mut workspace, &mut slots) {
        Ok(finished) => finished,
        Err(refusal) => {
            coverage.refused(refusal);
            ensure(refusal == Refusal { number: 18, place: 0 }, &format!("{refusal:?}"), &query, &database)?;
            return Ok(false);
        }
    };
    let Some(rows) = meaning_of(&query, &database.relations(), MOST) else {
        return Ok(false);
    };
    let same = finished.rows as usize == rows.len()
        && &finished.columns == checked.columns(&checked.root)
        && rows.iter().all(|row| row.keys().eq(&finished.columns))
        && slots[..COLUMNS * rows.len()] == slots_of(&rows);
    ensure(same, "not the meaning", &query, &database)?;
    let written: Vec<&[u32]> = slots.chunks(COLUMNS).take(rows.len()).collect();
    ensure(written.windows(2).all(|pair| pair[0] < pair[1]), "rows don't ascend", &query, &database)?;
    Ok(true)
}

fn limits_are_exact(random: &mut Random, coverage: &mut Coverage) -> Verdict {
    let (database, query, checked) = input(random, 40)?;
    let (plan, tables) = (plan(&checked.root), database.relations());
    let Ok(free) = execute(&plan, &tables, 40, u32::MAX) else {
        return Ok(false);
    };
    let peak = free.peak.max(1);
    let exact = execute(&plan, &tables, peak, free.ran);
    ensure(exact.as_ref() == Ok(&free), "limits just met change the run", &query, &database)?;
    let spent = Err(Refusal { number: 19, place: 0 });
    let passed = Err(Refusal { number: 18, place: 0 });
    let less = execute(&plan, &tables, peak, random.below(free.ran as usize) as u32);
    ensure(less == spent, "a smaller budget is not refused with 19", &query, &database)?;
    coverage.numbers[19] += 1;
    if peak > 1 {
        let limit = 1 + random.below(peak - 1);
        ensure(
            execute(&plan, &tables, limit, u32::MAX) == passed,
            "a smaller limit is not refused with 18",
            &query,
            &database,
        )?;
        coverage.numbers[18] += 1;
        // The line that passes the limit gives 18 if the budget reaches it, else 19.
        let mut machine = Machine::new(&plan);
        while machine.step(&plan, &tables, limit, u32::MAX).is_ok() {}
        let order = execute(&plan, &tables, limit, machine.ran) == spent
            && execute(&plan, &tables, limit, machine.ran + 1) == passed;
        ensure(order, "18 and 19 in another order", &query, &database)?;
    }
    Ok(true)
}

fn lent_slices(random: &mut Random, coverage: &mut Coverage) -> Verdict {
    let (mut database, mut query, _) = input(random, 24)?;
    if random.once_in(8) {
        query = damage::query(random, &query);
    }
    if random.once_in(8) {
        (database, _) = damage::database(random, &database);
    }
    let row_limit = match random.below(12) {
        0 => 0,
        1 => 4097,
        2 => random.next(),
        3 if random.once_in(20) => 4096,
        _ => 1 + random.below(30) as u32,
    };
    let budget = if random.once_in(3) { random.below(20) as u32 } else { u32::MAX };
    let registers = check(&query, database.schema()).map_or(0, |checked| plan(&checked.root).registers);
    let needed = workspace_entries(registers, row_limit.min(4097));
    let lent = match random.below(6) {
        0 => needed.saturating_sub(1),
        1 => needed + random.below(50),
        _ => needed,
    };
    let before = random.fill(lent.min(1 << 20));
    let enough = before.len() >= needed;
    let length = random.below(COLUMNS * 20);
    let slots_before = random.fill(length);
    let (mut workspace, mut slots) = (before.clone(), slots_before.clone());
    let result = run(&database, &query, row_limit, budget, &mut workspace, &mut slots);
    let (began, written) = match &result {
        Ok(finished) => (true, COLUMNS * finished.rows as usize),
        Err(refusal) => {
            coverage.refused(*refusal);
            (matches!(refusal.number, 18 | 19) || refusal.number == 17 && enough, 0)
        }
    };
    if slots[written..] != slots_before[written..] {
        return Err(format!("{result:?} wrote past the rows{query:?} {database:?}"));
    }
    let kept = if began { workspace.iter().all(|entry| *entry == 0) } else { workspace == before };
    if !kept || workspace.len() != before.len() {
        return Err(format!("{result:?} left another workspace: {query:?} {database:?}"));
    }
    Ok(true)
}

/// Each filter with a value above a query, and pushed in by kind 1 where that is accepted.
fn filters(random: &mut Random, coverage: &mut Coverage) -> Verdict {
    let (database, query, checked) = input(random, 40)?;
    let tables = database.relations();
    let column = random.pick(checked.columns(&checked.root).iter().copied());
    let (Some(rows), Some(column)) = (meaning_of(&query, &tables, MOST), column) else {
        return Ok(false);
    };
    let values = rows.iter().map(|row| row[&column]);
    let unknown = values.clone().any(|value| value == 0);
    let bound = random.pick(values.chain([0, 1, u32::MAX])).expect("a value");
    let filters: [(Condition, fn(u32, u32) -> bool); 3] = [
        (Condition::Eq(column, bound), |value, bound| value == bound),
        (Condition::Ne(column, bound), |value, bound| value != bound),
        (Condition::Max(column, bound), |value, bound| value != 0 && value <= bound),
    ];
    for (condition, passes) in filters {
        let lines = [query.lines(), &[Node::Filter(condition)]].concat();
        let filtered = Query::new(&lines, lines.len());
        let due: Relation = rows.iter().filter(|row| passes(row[&column], bound)).cloned().collect();
        let mut sheets = vec![filtered.clone()];
        let last = checked.root.node as u32 + 1;
        sheets.extend(rewrite(&database, &filtered, 1, last));
        coverage.unknown[0] += u32::from(unknown);
        coverage.unknown[1] += u32::from(unknown && sheets.len() == 2);
        for sheet in sheets {
            ensure(check(&sheet, database.schema()).is_ok(), "not checked", &sheet, &database)?;
            let kept = meaning_of(&sheet, &tables, MOST);
            ensure(kept.as_ref() == Some(&due), "other rows", &sheet, &database)?;
        }
    }
    Ok(true)
}

fn rewrites(random: &mut Random, coverage: &mut Coverage) -> Verdict {
    let (database, query, checked) = input(random, 40)?;
    every_rewrite(coverage, &database, &query, &checked)
}

/// Every kind at every node.
fn every_rewrite(coverage: &mut Coverage, database: &Database, query: &Query, checked: &Checked) -> Verdict {
    let tables = database.relations();
    let before = meaning_of(query, &tables, MOST);
    let split = checked.root.node;
    for node in 0..=query.count + 1 {
        for kind in 0..=KINDS as u32 + 1 {
            let rewritten = match apply(checked, query, kind, node) {
                Ok(rewritten) => rewritten,
                Err(refusal) => {
                    coverage.refused(refusal);
                    let known = matches!(refusal.number, 2 | 12..=15 | 22) && refusal.place == 0;
                    ensure(known, &format!("{refusal:?}"), query, database)?;
                    if refusal.number == 13 {
                        coverage.comes_home.refused(checked, kind, node);
                    }
                    continue;
                }
            };
            coverage.kinds[kind as usize] += 1;
            coverage.comes_home.accepted(checked, query, kind, node, &tables);
            let step = format!("step={kind},{node}");
            let Ok(after) = check(&rewritten, database.schema()) else {
                return Err(format!("{step}: not checked any more{}", told(query, database)));
            };
            let columns = after.columns(&after.root) == checked.columns(&checked.root);
            ensure(columns, &format!("{step}: other columns"), query, database)?;
            let count = split + usize::from(kind == 7);
            let kept = rewritten.count as usize == count && rewritten.nodes[count..] == query.nodes[count..];
            ensure(kept, &format!("{step}: another count or other entries past it"), query, database)?;
            if let (Some(before), Some(after)) = (&before, meaning_of(&rewritten, &tables, MOST)) {
                ensure(*before == after, &format!("{step}: another meaning"), query, database)?;
            }
        }
    }
    Ok(before.is_some())
}

/// Each step and the run get another database with the same columns.
fn lists_of_rewrites(random: &mut Random, coverage: &mut Coverage) -> Verdict {
    let (database, first, _) = input(random, 40)?;
    let mut held = first.clone();
    let (mut accepted, mut by_origin_alone) = (0, false);
    for (kind, node) in random::steps(random, &first).into_iter().chain(random::steps(random, &first)) {
        let other = random::with_columns_of(random, &database);
        match rewrite(&other, &held, kind, node) {
            Ok(rewritten) => {
                by_origin_alone |= comes_home::by_origin_alone(&other, &held, kind, node);
                held = rewritten;
                accepted += 1;
            }
            Err(refusal) => coverage.refused(refusal),
        }
    }
    let last = random::with_columns_of(random, &database);
    let Ok(after) = check(&held, last.schema()) else {
        return Err(format!("not checked any more{}", told(&first, &last)));
    };
    let Ok(machine) = execute(&plan(&after.root), &last.relations(), 40, u32::MAX) else {
        return Ok(false);
    };
    let Some(rows) = meaning_of(&first, &last.relations(), MOST) else {
        return Ok(false);
    };
    let same = machine.registers[after.root.node - 1] == rows;
    ensure(same, &format!("another meaning as\n{}", shown(&print_query(&held))), &first, &last)?;
    coverage.comes_home.list(by_origin_alone);
    Ok(accepted > 0)
}

fn answers(random: &mut Random, coverage: &mut Coverage) -> Verdict {
    let (database, query, checked) = input(random, 26)?;
    let (mut sheet, mut book) = (print_query(&query), print_database(&database));
    let mut steps = print_steps(&random::steps(random, &query));
    let damaged = random.once_in(3);
    if damaged {
        let text = [&mut sheet, &mut book, &mut steps].into_iter().nth(random.below(3)).expect("one of three");
        if random.once_in(30) {
            text.resize(FILE_BYTES + random.below(2), b'\n');
        } else {
            *text = damage::text(random, text);
        }
    }
    let printed = shown(&answer(&sheet, &book, &steps));
    let told = || format!("printed\n{printed}of\n{}{}{}", shown(&sheet), shown(&book), shown(&steps));
    if let Some(refusal) = printed.strip_prefix("refused=") {
        let parts: Vec<u32> = refusal.trim_end().split(',').flat_map(str::parse).collect();
        let [number, place] = parts[..] else {
            return Err(told());
        };
        coverage.refused(Refusal { number, place });
        let few = query.count <= 24;
        let known = damaged
            || matches!(number, 2 | 12..=15 | 18 | 22) && few && place == 0
            || (number, place, few) == (2, 2, false);
        return if known { Ok(true) } else { Err(told()) };
    }
    if damaged {
        return Ok(true);
    }
    let Some(rows) = meaning_of(&query, &database.relations(), MOST) else {
        return Ok(false);
    };
    if prints(&printed, &checked, &rows) {
        Ok(true)
    } else {
        Err(told())
    }
}

/// Whether a text is that of an answer with these rows, whatever the lines run.
fn prints(printed: &str, checked: &Checked, rows: &Relation) -> bool {
    let ran = printed.lines().last().and_then(|line| line.strip_prefix("ran=")).and_then(|ran| ran.parse().ok());
    let columns = checked.columns(&checked.root).clone();
    let expected = Answer { columns, rows: rows.len() as u32, ran: ran.unwrap_or(0) };
    ran.is_some() && printed.as_bytes() == print_answer(&expected, &slots_of(rows))
}
