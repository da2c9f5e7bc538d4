//! A long question put aside: runs in parts beside one run, pauses that are refused with 23 and what comes before it, and pauses
//! from elsewhere beside the plan's lines.

use super::allowance::{recursion, row_limit};
use super::at::At;
use super::desk_and_panel::{damaged as damaged_input, too_long};
use super::{ensure, outcome, told, Coverage, Verdict, MOST};
use crate::algebra::{Columns, Relation};
use crate::check::{check, Checked};
use crate::damage;
use crate::damage::pauses::{Held, Registers, HARMS};
use crate::panel;
use crate::pauses::{self, faults, Pause, Progress};
use crate::plan::{execute, go_on, plan, run_lines, Line, Machine, Operation, Plan};
use crate::random::{self, Random};
use crate::run::{run, workspace_entries, Answer};
use crate::selfcheck::Outcome;
use crate::value::{refuse, slots_of, Database, Node, Query, Refusal, COLUMNS, TABLE_ROWS};

/// The most places of a run at which it is broken off once.
const PLACES: usize = 6;
/// The most lines of a run that is gone on with part by part.
const LONGEST: u32 = 90;
/// Rows that are put into a register of a pause from elsewhere.
const ROWS: usize = 12;

/// What pauses have met, each at desk and panel.
#[derive(Default)]
pub struct Met {
    /// Runs in parts by their end: finished, 18, 17 for the answer slice; those of three parts or more; and the ordinary runs beside them
    /// by theirs and 19.
    ends: [[u32; 3]; 2],
    several: [u32; 2],
    ordinary: [[u32; 4]; 2],
    /// Pauses before the first line, a start, a path's line, an again and any other; in a later round; of a query with a `mu`; parts of no line.
    places: [[u32; 5]; 2],
    later: [u32; 2],
    mus: [u32; 2],
    none: [u32; 2],
    /// Parts that a run went on with from the other place.
    carried: [u32; 2],
    /// 23 by what was wrong, and pauses whose lines run and further ones come to the ceiling.
    harms: [[u32; HARMS.len()]; 2],
    ceiling: [u32; 2],
    /// Before 23: 11, a sheet's number, 16 and 17.
    before: [[u32; 4]; 2],
    /// Pauses from elsewhere by their end: finished, 18, paused; and such with newest rows that are not in total.
    elsewhere: [[u32; 3]; 2],
    no_run: [u32; 2],
}

impl Met {
    pub fn outcomes(&self) -> Vec<Outcome> {
        let met = |counts: Vec<u32>| counts.into_iter().all(|times| times > 0);
        let runs = [self.ends.concat(), self.ordinary.concat(), self.several.to_vec(), self.carried.to_vec()].concat();
        let pauses = [self.places.concat(), self.later.to_vec(), self.mus.to_vec(), self.none.to_vec()].concat();
        let [desk, panel] = self.before;
        let before = desk.into_iter().chain([panel[0], panel[1], panel[3]]).all(|times| times > 0) && panel[2] == 0;
        let elsewhere = [self.elsewhere.concat(), self.no_run.to_vec()].concat();
        vec![
            outcome(
                "runs are broken off everywhere and gone on with to every end",
                met(runs) && met(pauses),
                format!(
                    "finished, 18 and 17 {:?}, in three parts or more {:?}, the ordinary run with 19 too {:?}, from one place to the other {:?}; \
                    pauses before the first line, a start, a path's line, an again, another {:?}, in a later round {:?}, with a mu {:?}, \
                    parts of no line {:?}",
                    self.ends, self.several, self.ordinary, self.carried, self.places, self.later, self.mus, self.none
                ),
            ),
            outcome(
                "23 has every cause, and what comes before it comes first",
                met(self.harms.concat()) && met(self.ceiling.to_vec()) && before,
                format!(
                    "by cause {HARMS:?} {:?}, at the ceiling {:?}, before it 11, the sheet's, 16 and 17 {:?}",
                    self.harms, self.ceiling, self.before
                ),
            ),
            outcome(
                "pauses from elsewhere are gone on with to every end",
                met(elsewhere),
                format!("finished, 18 and paused {:?}, in no run's state {:?}", self.elsewhere, self.no_run),
            ),
        ]
    }

    fn paused(&mut self, at: At, plan: &Plan, query: &Query, pause: Pause) {
        let place = match pause.next as usize - 1 {
            0 => 0,
            next => match plan.lines[next].operation {
                Operation::Start { .. } => 1,
                Operation::Again { .. } => 3,
                _ if on_a_path(plan, next) => 2,
                _ => 4,
            },
        };
        self.places[at.index()][place] += 1;
        self.later[at.index()] += u32::from(pause.ran as usize >= plan.lines.len());
        self.mus[at.index()] += u32::from(query.lines().iter().any(|line| matches!(line, Node::Mu(_))));
    }
}

fn on_a_path(plan: &Plan, position: usize) -> bool {
    let within = |(start, line): (usize, &Line)| {
        matches!(line.operation, Operation::Start { .. }) && (start + 1..=start + line.path).contains(&position)
    };
    plan.lines.iter().enumerate().any(within)
}

/// The slices that are lent to a run.
#[derive(Clone, Debug, PartialEq, Eq)]
struct Lent {
    workspace: Vec<u32>,
    answer: Vec<u32>,
}

impl Lent {
    /// With anything in them.
    fn any(random: &mut Random, workspace: usize, answer: usize) -> Lent {
        Lent { workspace: random.fill(workspace), answer: random.fill(answer) }
    }
}

impl At {
    fn ordinary(self, database: &Database, query: &Query, budget: u32, lent: &mut Lent) -> Result<Answer, Refusal> {
        let Lent { workspace, answer } = lent;
        match self {
            At::Desk(row_limit) => run(database, query, row_limit, budget, workspace, answer),
            At::Panel => panel::run(database, query, budget, workspace, answer),
        }
    }

    fn begin(self, database: &Database, query: &Query, budget: u32, lent: &mut Lent) -> Result<Progress, Refusal> {
        let Lent { workspace, answer } = lent;
        match self {
            At::Desk(row_limit) => pauses::begin(database, query, row_limit, budget, workspace, answer),
            At::Panel => panel::begin(database, query, budget, workspace, answer),
        }
    }

    fn resume(
        self,
        database: &Database,
        query: &Query,
        further: u32,
        pause: Pause,
        lent: &mut Lent,
    ) -> Result<Progress, Refusal> {
        let Lent { workspace, answer } = lent;
        match self {
            At::Desk(row_limit) => pauses::resume(database, query, row_limit, further, pause, workspace, answer),
            At::Panel => panel::resume(database, query, further, pause, workspace, answer),
        }
    }
}

/// The workspace of a pause: a count and the rows of each register, then zeros up to its end, and behind the last.
fn in_place(registers: &[Relation], row_limit: u32, entries: usize) -> Vec<u32> {
    let mut workspace: Vec<u32> = Vec::new();
    for (rank, register) in (1..).zip(registers) {
        workspace.push(register.len() as u32);
        workspace.extend(slots_of(register));
        workspace.resize(workspace_entries(rank, row_limit), 0);
    }
    workspace.resize(entries, 0);
    workspace
}

/// A checked query with what its runs need.
struct Asked {
    at: At,
    database: Database,
    query: Query,
    checked: Checked,
    plan: Plan,
    tables: Vec<Relation>,
}

impl Asked {
    fn holds(&self, holds: bool, why: &str) -> Result<(), String> {
        ensure(holds, &format!("{:?}: {why}", self.at), &self.query, &self.database)
    }

    fn lines(&self, budget: u32) -> (Machine, Result<(), Refusal>) {
        run_lines(&self.plan, &self.tables, self.at.row_limit() as usize, budget)
    }

    fn further(&self, machine: Machine, budget: u32) -> (Machine, Result<(), Refusal>) {
        go_on(machine, &self.plan, &self.tables, self.at.row_limit() as usize, budget)
    }

    /// The registers that the state between two lines has, in a workspace of so many entries.
    fn placed(&self, machine: &Machine, entries: usize) -> Vec<u32> {
        in_place(&machine.registers, self.at.row_limit(), entries)
    }

    fn entries(&self, random: &mut Random) -> usize {
        workspace_entries(self.plan.registers, self.at.row_limit()) + random.below(3) * random.below(20)
    }

    fn faults(&self, held: &Held) -> Vec<pauses::Fault> {
        faults(&self.checked, &self.plan, self.at.row_limit(), held.further, held.pause, &held.workspace)
    }

    fn resume(&self, held: &Held, lent: &mut Lent) -> Result<Progress, Refusal> {
        self.at.resume(&self.database, &self.query, held.further, held.pause, lent)
    }
}

/// A recursion or any other query, at the desk with a row limit near what it needs or at the panel.
fn asked(random: &mut Random) -> Result<Asked, String> {
    let (database, query) = recursion(random);
    let Ok(checked) = check(&query, database.schema()) else {
        return Err(format!("refused by construction{}", told(&query, &database)));
    };
    let (plan, tables) = (plan(&checked.root), database.relations());
    let at = if too_long(&query) || random.once_in(2) {
        let free = execute(&plan, &tables, MOST, u32::MAX);
        // A long workspace is compared often.
        let most = if random.once_in(80) { TABLE_ROWS } else { panel::ROW_LIMIT };
        At::Desk(row_limit(random, free.ok().map(|free| free.peak)).min(most))
    } else {
        At::Panel
    };
    Ok(Asked { at, database, query, checked, plan, tables })
}

/// Each part leaves what a run of all lines so far leaves, and the last one ends as that does.
pub fn parts(random: &mut Random, coverage: &mut Coverage) -> Verdict {
    let asked = asked(random)?;
    in_parts(random, &mut coverage.pauses, &asked)?;
    Ok(true)
}

fn in_parts(random: &mut Random, met: &mut Met, asked: &Asked) -> Result<(), String> {
    let (whole, _) = asked.lines(LONGEST);
    let rows = whole.registers[asked.plan.result].len();
    let room = if random.once_in(4) { (COLUMNS * rows).saturating_sub(1) } else { COLUMNS * rows + random.below(20) };
    let entries = asked.entries(random);
    let given = Lent::any(random, entries, room);
    let (mut lent, mut pause, mut machine) = (given.clone(), None, Machine::new(&asked.plan));
    let (mut sum, mut count, mut last) = (0, 0, asked.at);
    let parts = random::pauses::parts(random, whole.ran, LONGEST);
    let mut reply = refuse(19, 0);
    for part in parts.iter().copied() {
        // A pause of the panel is one of the desk with its row limit, and the other way round.
        let at = match asked.at {
            At::Panel if random.once_in(2) => At::Desk(panel::ROW_LIMIT),
            at => at,
        };
        met.carried[at.index()] += u32::from(pause.is_some() && at.index() != last.index());
        last = at;
        reply = match pause {
            None => at.begin(&asked.database, &asked.query, part, &mut lent),
            Some(pause) => at.resume(&asked.database, &asked.query, part, pause, &mut lent),
        };
        (sum, count) = (sum + part, count + 1);
        met.none[at.index()] += u32::from(part == 0);
        let Ok(Progress::Paused(found)) = reply else {
            break;
        };
        (machine, _) = asked.further(machine, sum);
        let due = Pause { next: machine.position as u32 + 1, ran: sum };
        asked.holds(found == due && machine.ran == sum, &format!("{found:?} after {sum} lines"))?;
        let left = Lent { workspace: asked.placed(&machine, given.workspace.len()), answer: given.answer.clone() };
        asked.holds(lent == left, &format!("other slices after {sum} lines"))?;
        met.paused(at, &asked.plan, &asked.query, found);
        if random.once_in(8) {
            let mut once = given.clone();
            let one = asked.at.begin(&asked.database, &asked.query, sum, &mut once);
            asked.holds((&one, &once) == (&reply, &lent), &format!("one run with {sum} lines"))?;
        }
        pause = Some(found);
    }
    let (mut once, mut plain) = (given.clone(), given.clone());
    let one = asked.at.begin(&asked.database, &asked.query, sum, &mut once);
    asked.holds((&one, &once) == (&reply, &lent), &format!("{reply:?} in {count} parts, {one:?} in one"))?;
    let ordinary = asked.at.ordinary(&asked.database, &asked.query, sum, &mut plain);
    let due = match &reply {
        Ok(Progress::Finished(answer)) => Ok(answer.clone()),
        Ok(Progress::Paused(_)) => refuse(19, 0),
        Err(refusal) => Err(*refusal),
    };
    asked.holds(ordinary == due, &format!("{reply:?}, but {ordinary:?} of the ordinary run"))?;
    asked.holds(
        plain == Lent { workspace: vec![0; given.workspace.len()], answer: once.answer },
        "the ordinary run's slices",
    )?;
    let (_, end) = asked.lines(sum);
    let sort = match (&reply, end) {
        (Ok(Progress::Finished(_)), Ok(())) => 0,
        (Err(Refusal { number: 18, .. }), Err(Refusal { number: 18, .. })) => 1,
        (Err(Refusal { number: 17, .. }), Ok(())) => 2,
        (Ok(Progress::Paused(_)), Err(Refusal { number: 19, .. })) => 3,
        _ => return asked.holds(false, &format!("{reply:?}, but {end:?} of the lines")),
    };
    met.ordinary[asked.at.index()][sort] += 1;
    if sort < 3 && count > 1 {
        asked.holds(lent.workspace == vec![0; given.workspace.len()], "the workspace is not cleared")?;
        met.ends[asked.at.index()][sort] += 1;
        met.several[asked.at.index()] += u32::from(count > 2);
    }
    Ok(())
}

/// Broken off once at each place and gone on with to the end or, by few lines, to another pause; nothing more gives the same pause back.
pub fn places(random: &mut Random, coverage: &mut Coverage) -> Verdict {
    let asked = asked(random)?;
    let (whole, end) = asked.lines(LONGEST);
    let entries = asked.entries(random);
    let given = Lent::any(random, entries, COLUMNS * whole.registers[asked.plan.result].len());
    let every = 1 + whole.ran as usize / PLACES;
    for first in (random.below(every) as u32..whole.ran + u32::from(end.is_err())).step_by(every) {
        let mut lent = given.clone();
        let reply = asked.at.begin(&asked.database, &asked.query, first, &mut lent);
        let Ok(Progress::Paused(pause)) = reply else {
            return asked.holds(false, &format!("{reply:?} with {first} lines")).map(|()| false);
        };
        coverage.pauses.paused(asked.at, &asked.plan, &asked.query, pause);
        let mut same = lent.clone();
        let nothing = asked.at.resume(&asked.database, &asked.query, 0, pause, &mut same);
        asked.holds((&nothing, &same) == (&reply, &lent), &format!("{nothing:?} with no line more"))?;
        // A run that is longer than what is tested of it is not gone on with to its end.
        let more = [LONGEST - first, random.below(20) as u32][random.below(2)];
        let mut once = given.clone();
        let reply = asked.at.resume(&asked.database, &asked.query, more, pause, &mut lent);
        let one = asked.at.begin(&asked.database, &asked.query, first + more, &mut once);
        asked.holds((&reply, &lent) == (&one, &once), &format!("{reply:?} with {first} and {more}, {one:?} in one"))?;
    }
    Ok(true)
}

/// A pause of a run at any place of it, or one from elsewhere.
fn paused(random: &mut Random, asked: &Asked) -> Held {
    let row_limit = asked.at.row_limit();
    let (whole, end) = asked.lines(LONGEST);
    let lines = whole.ran as usize + usize::from(end.is_err());
    if random.once_in(3) {
        return random::pauses::elsewhere(random, &asked.checked, asked.plan.lines.len(), row_limit, ROWS);
    }
    let (machine, _) = asked.lines(random.below(lines) as u32);
    let entries = asked.entries(random);
    let pause = Pause { next: machine.position as u32 + 1, ran: machine.ran };
    Held { pause, further: random.below(30) as u32, workspace: asked.placed(&machine, entries) }
}

/// One thing wrong gives 23 and changes nothing; what a run tests before it begins comes before that.
pub fn damaged(random: &mut Random, coverage: &mut Coverage) -> Verdict {
    let asked = asked(random)?;
    let row_limit = asked.at.row_limit();
    let held = paused(random, &asked);
    asked.holds(asked.faults(&held).is_empty(), &format!("{:?} of {held:?}", asked.faults(&held)))?;
    let registers = Registers::new(&asked.checked, asked.plan.lines.len(), row_limit);
    let rows = random.below(4);
    let answer = random.fill(COLUMNS * rows);
    for (sort, harm) in HARMS.into_iter().enumerate() {
        let Some(harmed) = registers.harmed(random, harm, &held) else {
            continue;
        };
        let due = vec![harm.fault()];
        asked.holds(asked.faults(&harmed) == due, &format!("{harm:?}: {:?}", asked.faults(&harmed)))?;
        let given = Lent { workspace: harmed.workspace.clone(), answer: answer.clone() };
        let mut lent = given.clone();
        let reply = asked.resume(&harmed, &mut lent);
        asked.holds(reply == refuse(23, 0) && lent == given, &format!("{harm:?}: {reply:?}"))?;
        coverage.pauses.harms[asked.at.index()][sort] += 1;
        match asked.at {
            At::Desk(_) => coverage.refused(Refusal { number: 23, place: 0 }),
            At::Panel => coverage.panel.refused(Refusal { number: 23, place: 0 }),
        }
        if random.once_in(3) {
            before(random, &mut coverage.pauses, &asked, &harmed)?;
        }
    }
    at_the_ceiling(random, &mut coverage.pauses, &asked, &held)?;
    Ok(true)
}

/// A pause with something wrong: the book, the sheet, the row limit and the workspace are refused first, and nothing changes.
fn before(random: &mut Random, met: &mut Met, asked: &Asked, harmed: &Held) -> Result<(), String> {
    let (off, _) = damage::database(random, &asked.database);
    let (_, bad) = damaged_input(random, &asked.database, &asked.query);
    let outside = [0, TABLE_ROWS + 1, u32::MAX][random.below(3)];
    let at_limit = |row_limit| if let At::Desk(_) = asked.at { At::Desk(row_limit) } else { At::Panel };
    let needed = workspace_entries(asked.plan.registers, asked.at.row_limit());
    for (sort, database, query, at, entries) in [
        (0, &off, &bad, at_limit(outside), 0),
        (1, &asked.database, &bad, at_limit(outside), 0),
        (2, &asked.database, &asked.query, at_limit(outside), 0),
        (3, &asked.database, &asked.query, asked.at, random.below(needed)),
        (3, &asked.database, &asked.query, asked.at, needed - 1),
    ] {
        let given = Lent { workspace: harmed.workspace[..entries].to_vec(), answer: Vec::new() };
        // A run of no line is refused with the same, or gives 19 once it begins.
        let due = at.ordinary(database, query, 0, &mut given.clone());
        let known = match (sort, &due) {
            (_, Err(Refusal { number: 11, .. })) => 0,
            (_, Err(Refusal { number: 16, .. })) => 2,
            (_, Err(Refusal { number: 17, .. })) => 3,
            _ => 1,
        };
        let mut lent = given.clone();
        let reply = at.resume(database, query, harmed.further, harmed.pause, &mut lent);
        let same = reply.as_ref().err() == due.as_ref().err() && lent == given;
        if !same {
            return Err(format!("{at:?}: {reply:?}, but {due:?} of a run: {query:?} {database:?}"));
        }
        met.before[asked.at.index()][known] += 1;
    }
    Ok(())
}

/// Lines run and further ones that come to the ceiling and not over it pass the test, and the lines run carry on.
fn at_the_ceiling(random: &mut Random, met: &mut Met, asked: &Asked, held: &Held) -> Result<(), String> {
    let further = [0, 1, random.below(40) as u32, u32::MAX][random.below(4)];
    let pause = Pause { ran: u32::MAX - further, ..held.pause };
    let mut lent = Lent { workspace: held.workspace.clone(), answer: vec![0; COLUMNS * asked.at.row_limit() as usize] };
    let mut other = lent.clone();
    let reply = asked.at.resume(&asked.database, &asked.query, further, pause, &mut lent);
    let lower = asked.at.resume(&asked.database, &asked.query, further, Pause { ran: 0, ..pause }, &mut other);
    let lifted = lower.map(|progress| match progress {
        Progress::Finished(answer) => Progress::Finished(Answer { ran: pause.ran + answer.ran, ..answer }),
        Progress::Paused(left) => Progress::Paused(Pause { ran: pause.ran + left.ran, ..left }),
    });
    met.ceiling[asked.at.index()] += 1;
    asked.holds((&reply, &lent) == (&lifted, &other), &format!("{reply:?}, but {lifted:?} by fewer lines"))
}

/// A pause from elsewhere goes on as the plan's lines do from its registers, in one part or two.
pub fn elsewhere(random: &mut Random, coverage: &mut Coverage) -> Verdict {
    let asked = asked(random)?;
    let (row_limit, lines) = (asked.at.row_limit(), asked.plan.lines.len());
    let held = random::pauses::elsewhere(random, &asked.checked, lines, row_limit, ROWS);
    asked.holds(asked.faults(&held).is_empty(), &format!("{:?} of {held:?}", asked.faults(&held)))?;
    let registers = read(&asked, &held.workspace);
    let state = Machine { registers, position: held.pause.next as usize - 1, ran: held.pause.ran, peak: 0 };
    asked.holds(asked.placed(&state, held.workspace.len()) == held.workspace, "other registers")?;
    let new = |line: &Line| match line.operation {
        Operation::Start { delta } => !state.registers[delta].is_subset(&state.registers[line.destination]),
        _ => false,
    };
    let no_run = asked.plan.lines.iter().any(new);
    let (machine, end) = asked.further(state, held.pause.ran + held.further);
    let answer = random.fill(COLUMNS * row_limit as usize);
    let given = Lent { workspace: held.workspace.clone(), answer };
    let mut lent = given.clone();
    let reply = asked.resume(&held, &mut lent);
    let (sort, due) = match end {
        Ok(()) => (0, vec![0; given.workspace.len()]),
        Err(Refusal { number: 18, .. }) => (1, vec![0; given.workspace.len()]),
        Err(_) => (2, asked.placed(&machine, given.workspace.len())),
    };
    let known = match &reply {
        Ok(Progress::Finished(answer)) => {
            let slots = slots_of(&machine.registers[asked.plan.result]);
            sort == 0 && answer.ran == machine.ran && lent.answer[..slots.len()] == slots
        }
        Ok(Progress::Paused(pause)) => {
            sort == 2 && (pause.next as usize, pause.ran) == (machine.position + 1, machine.ran)
        }
        Err(refusal) => sort == 1 && end == Err(*refusal),
    };
    asked.holds(known && lent.workspace == due, &format!("{reply:?}, but {end:?} of the lines from {held:?}"))?;
    asked.holds(machine.registers.iter().all(|rows| rows.len() <= row_limit as usize), "more rows than L")?;
    let first = random.below(held.further.min(30) as usize + 1) as u32;
    let mut by_two = given.clone();
    let mut second = asked.resume(&Held { further: first, ..held.clone() }, &mut by_two);
    if let Ok(Progress::Paused(pause)) = second {
        let rest = Held { pause, further: held.further - first, ..held.clone() };
        second = asked.resume(&rest, &mut by_two);
    }
    asked.holds((&second, &by_two) == (&reply, &lent), &format!("{second:?} in two parts, {reply:?} in one"))?;
    coverage.pauses.elsewhere[asked.at.index()][sort] += 1;
    coverage.pauses.no_run[asked.at.index()] += u32::from(no_run);
    Ok(true)
}

/// The registers of a workspace, by their columns.
fn read(asked: &Asked, workspace: &[u32]) -> Vec<Relation> {
    let stretches = workspace.chunks(workspace_entries(1, asked.at.row_limit()));
    let columns = pauses::register_columns(&asked.checked);
    let rows = |(stretch, columns): (&[u32], &Option<&Columns>)| {
        let rows = stretch[1..].chunks(COLUMNS).take(stretch[0] as usize);
        let values = |row: &[u32]| columns.iter().copied().flatten().map(|c| (*c, row[usize::from(*c)])).collect();
        rows.map(values).collect()
    };
    stretches.zip(&columns).map(rows).collect()
}

/// Over inputs of any sort a run that can be gone on with is refused as the ordinary one, and where that gives 19 it pauses.
pub fn refusals(random: &mut Random, coverage: &mut Coverage) -> Verdict {
    let (mut database, mut query) = recursion(random);
    if !random.once_in(3) {
        (database, query) = damaged_input(random, &database, &query);
    }
    let row_limit = [1 + random.below(30) as u32, 0, TABLE_ROWS + 1][[0, 0, 0, 0, 1, 2][random.below(6)]];
    for at in [At::Desk(row_limit), At::Panel] {
        let registers = check(&query, database.schema()).map_or(1, |checked| plan(&checked.root).registers);
        let needed = workspace_entries(registers, at.row_limit().min(TABLE_ROWS));
        let entries = [needed, needed, needed + 5, needed - 1][random.below(4)];
        let (rows, budget) = (random.below(20), random.below(60) as u32);
        let given = Lent::any(random, entries, COLUMNS * rows);
        let (mut lent, mut plain) = (given.clone(), given.clone());
        let reply = at.begin(&database, &query, budget, &mut lent);
        let ordinary = at.ordinary(&database, &query, budget, &mut plain);
        let known = match &reply {
            Ok(Progress::Paused(pause)) => {
                lent.workspace = vec![0; entries];
                ordinary == refuse(19, 0) && pause.ran == budget
            }
            Ok(Progress::Finished(answer)) => ordinary.as_ref() == Ok(answer),
            Err(refusal) => ordinary.as_ref() == Err(refusal),
        };
        if !known || lent != plain {
            return Err(format!("{at:?}: {reply:?}, but {ordinary:?} of the ordinary run: {query:?} {database:?}"));
        }
        if let Err(refusal) = ordinary {
            match at {
                At::Desk(_) => coverage.refused(refusal),
                At::Panel => coverage.panel.refused(refusal),
            }
        }
    }
    Ok(true)
}
