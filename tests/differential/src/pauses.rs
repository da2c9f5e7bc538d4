//! A long question put aside: runs in parts, at every line, at random ones and between desk and panel, beside one run; pauses with one
//! thing wrong, with one entry changed and from elsewhere; and pauses that are gone on with over another sheet, book or row limit.

use crate::at::At;
use crate::call::Call;
use crate::filters::roomy;
use crate::inputs::{self, again, damaged, for_desk, for_panel, lent, limit, FREE};
use crate::slices::{flat_database, flat_query, over, Slices, DATABASE_ROOM, PAUSE_ROOM, QUERY_ROOM, RUN_ROOM};
use crate::tally::Tally;
use crate::{compared, made};
use reference::algebra::Condition;
use reference::check::{check, Checked};
use reference::damage::pauses::{Held, Registers, HARMS};
use reference::panel;
use reference::pauses::{faults, Pause};
use reference::plan::{plan, run_lines, Operation, Plan};
use reference::random::{self, Random};
use reference::run::workspace_entries;
use reference::value::{refuse, Database, Node, Query, Refusal, COLUMNS, NODES, NUMBERS, TABLE_ROWS};

/// About the most parts of a run.
const PARTS: u32 = 12;
/// Runs of at most so many lines are broken off once at each of them, one in so many.
const SHORT: u32 = 24;
const EACH_LINE: usize = 12;
/// Of a pause: things that are made wrong, each of them before and after the database, the sheet, the row limit and the workspace are too,
/// and entries that are changed.
const WRONG: usize = 3;
const CHANGED: usize = 3;
/// Rows that are put into a register of a pause from elsewhere.
const ROWS: usize = 16;

/// What pauses have met, all but the last at desk and panel.
#[derive(Default)]
pub struct Met {
    /// Refusals of both calls by number, and those with 17 for one slice alone: query, database, told or pause.
    begun: [[u64; NUMBERS + 1]; 2],
    resumed: [[u64; NUMBERS + 1]; 2],
    short: [[[u64; 4]; 2]; 2],
    /// Runs in parts by their end: finished, 18, 17 for the answer slice; those of three parts or more, and those that were broken off at each
    /// line.
    ends: [[u64; 3]; 2],
    several: [u64; 2],
    each_line: [u64; 2],
    /// Pauses before the first line, a start, a path's line, an again and any other; in a later round; of a query with a `mu`; parts of no line;
    /// parts that come from the other place.
    places: [[u64; 5]; 2],
    later: [u64; 2],
    mus: [u64; 2],
    none: [u64; 2],
    carried: [u64; 2],
    /// 23 by what is wrong, and lines that come to the ceiling.
    harms: [[u64; HARMS.len()]; 2],
    ceiling: [u64; 2],
    /// With something wrong in the pause too: 11, a sheet's number, 16 and 17 for the workspace.
    before: [[u64; 4]; 2],
    /// Pauses with one entry changed, and such from elsewhere: refused with 23 (the former alone), finished, 18, paused.
    changed: [[u64; 4]; 2],
    elsewhere: [[u64; 4]; 2],
    /// Pauses over another sheet, book and row limit: refused with 23, which no book is a cause of, and gone on with.
    others: [[u64; 2]; 3],
}

/// How a call on a pause from elsewhere ends: refused with 23, finished, 18 or paused.
fn end(reply: Result<(), Refusal>) -> Option<usize> {
    match reply {
        Err(Refusal { number: 23, .. }) => Some(0),
        Ok(()) => Some(1),
        Err(Refusal { number: 18, .. }) => Some(2),
        Err(Refusal { number: 19, .. }) => Some(3),
        Err(_) => None,
    }
}

const SPENT: Result<(), Refusal> = Err(Refusal { number: 19, place: 0 });

impl Met {
    pub fn begun(&mut self, at: usize, reply: Result<(), Refusal>, given: &Slices) {
        if let Err(refusal) = reply {
            self.begun[at][refusal.number as usize] += 1;
            self.meet_short(0, at, given);
        }
    }

    pub fn resumed(&mut self, at: usize, reply: Result<(), Refusal>, given: &Slices) {
        if let Err(refusal) = reply {
            self.resumed[at][refusal.number as usize] += 1;
            self.meet_short(1, at, given);
        }
    }

    fn meet_short(&mut self, call: usize, at: usize, given: &Slices) {
        let rooms = [QUERY_ROOM, DATABASE_ROOM, RUN_ROOM, PAUSE_ROOM];
        let lengths = [&given.query, &given.database, &given.told, &given.pause].map(Vec::len);
        let short: Vec<usize> = (0..rooms.len()).filter(|slice| lengths[*slice] < rooms[*slice]).collect();
        if let [slice] = short[..] {
            self.short[call][at][slice] += 1;
        }
    }

    fn paused(&mut self, at: At, asked: &Asked, pause: &[u32]) {
        let (at, plan) = (at as usize, &asked.plan);
        let next = pause[0] as usize - 1;
        let loops = plan.lines.iter().enumerate().filter(|(_, line)| matches!(line.operation, Operation::Start { .. }));
        let on_a_path = loops.into_iter().any(|(start, line)| (start + 1..=start + line.path).contains(&next));
        let place = match plan.lines[next].operation {
            _ if next == 0 => 0,
            Operation::Start { .. } => 1,
            Operation::Again { .. } => 3,
            _ if on_a_path => 2,
            _ => 4,
        };
        self.places[at][place] += 1;
        self.later[at] += u64::from(pause[1] as usize >= plan.lines.len());
        self.mus[at] += u64::from(asked.query.lines().iter().any(|line| matches!(line, Node::Mu(_))));
    }

    pub fn print(&self) {
        for (at, name) in ["desk", "panel"].into_iter().enumerate() {
            let (begun, resumed) = (&self.begun[at][1..], &self.resumed[at][1..]);
            println!(
                "{name}, runs that can be put aside: refused by number when begun {begun:?}, when resumed {resumed:?}"
            );
            let ([finished, passed, answer], several, each_line) =
                (self.ends[at], self.several[at], self.each_line[at]);
            let (carried, none) = (self.carried[at], self.none[at]);
            println!(
                "{name}, runs in parts: {finished} finished, {passed} with 18, {answer} with 17 for the answer, {several} in three parts or more, \
                {each_line} at each line, {carried} from the other place, {none} parts of no line"
            );
            let (places, later, mus) = (self.places[at], self.later[at], self.mus[at]);
            println!(
                "{name}, pauses before the first line, a start, a path's line, an again and another {places:?}, in a later round {later}, with a \
                mu {mus}"
            );
            let (harms, ceiling, before) = (self.harms[at], self.ceiling[at], self.before[at]);
            println!("{name}, 23 by what is wrong {HARMS:?} {harms:?}, at the ceiling {ceiling}, before it 11, 1 to 20, 16 and 17 {before:?}");
            let (changed, elsewhere) = (self.changed[at], self.elsewhere[at]);
            println!(
                "{name}, 23, finished, 18 and paused: of pauses with one entry changed {changed:?}, from elsewhere {elsewhere:?}"
            );
        }
        let (short, [sheet, book, rows]) = (self.short, self.others);
        println!(
            "pauses: 17 for one slice alone when begun and resumed {short:?}, over another sheet 23 and gone on with {sheet:?}, book {book:?}, row \
            limit {rows:?}"
        );
    }

    /// Everything at desk and panel but 16, which the panel never gives, and 23 by no call that begins.
    pub fn all_met(&self) -> bool {
        let numbers = [1, 2, 3, 9, 11, 17, 18, 19, 20];
        let given = |times: &[[u64; NUMBERS + 1]; 2]| {
            let at_both = times.iter().all(|of| numbers.iter().all(|number| of[*number] > 0));
            let at_one = [4, 5, 10].iter().all(|number| times[0][*number] + times[1][*number] > 0);
            let no_other = times.iter().all(|of| [12, 13, 14, 15, 21, 22].iter().all(|number| of[*number] == 0));
            at_both && at_one && no_other && times[0][16] > 0 && times[1][16] == 0
        };
        let tested = self.resumed.iter().all(|of| of[23] > 0) && self.begun.iter().all(|of| of[23] == 0);
        let short = self.short.iter().flatten().flatten();
        let runs = self.ends.iter().flatten().chain(&self.several).chain(&self.each_line).chain(&self.carried);
        let pauses = self.places.iter().flatten().chain(&self.later).chain(&self.mus).chain(&self.none);
        let wrong = self.harms.iter().flatten().chain(&self.ceiling).chain(self.changed.iter().flatten());
        let [sheet, [never, book], rows] = &self.others;
        let others = sheet.iter().chain([book]).chain(rows);
        let elsewhere = self.elsewhere.iter().flat_map(|ends| &ends[1..]).chain(others);
        let [desk, panel] = &self.before;
        let before = desk.iter().chain([&panel[0], &panel[1], &panel[3]]);
        let all = short.chain(runs).chain(pauses).chain(wrong).chain(elsewhere).chain(before).all(|times| *times > 0);
        let none = [panel[2], *never, self.elsewhere[0][0], self.elsewhere[1][0]].iter().all(|times| *times == 0);
        all && given(&self.begun) && given(&self.resumed) && tested && none
    }
}

impl At {
    fn begin(self, limit: usize, rows: usize, budget: u32) -> Call {
        match self {
            At::Desk => Call::Begin { limit, rows, budget },
            At::Panel => Call::PanelBegin { budget },
        }
    }

    fn resume(self, limit: usize, rows: usize, budget: u32) -> Call {
        match self {
            At::Desk => Call::Resume { limit, rows, budget },
            At::Panel => Call::PanelResume { budget },
        }
    }

    fn run(self, limit: usize, rows: usize, budget: u32) -> Call {
        match self {
            At::Desk => Call::Run { limit, rows, budget },
            At::Panel => Call::PanelRun { budget },
        }
    }
}

/// A checked query with what its runs need: the row limit, the lines that it runs, the line that is refused included, and the rows that it
/// answers with.
struct Asked {
    at: At,
    database: Database,
    query: Query,
    checked: Checked,
    plan: Plan,
    rows: usize,
    lines: u32,
    answered: usize,
}

impl Asked {
    fn new(random: &mut Random, at: At) -> Option<Asked> {
        let (database, query) = input(random, at);
        let checked = check(&query, database.schema()).ok()?;
        let plan = plan(&checked.root);
        let tables = database.relations();
        let (free, _) = run_lines(&plan, &tables, FREE.0, FREE.1);
        let rows = match at {
            At::Desk => row_limit(random, free.peak.max(1)),
            At::Panel => panel::ROW_LIMIT as usize,
        };
        let (machine, end) = run_lines(&plan, &tables, rows, FREE.1);
        let (lines, answered) = (machine.ran + u32::from(end.is_err()), machine.registers[plan.result].len());
        Some(Asked { at, database, query, checked, plan, rows, lines, answered })
    }

    /// Slices with anything in what a run writes, and room for all of it, now and then for no answer.
    fn lent(&self, random: &mut Random) -> Slices {
        let spare = if random.once_in(3) { random.below(30) } else { 0 };
        let entries = workspace_entries(self.plan.registers, self.rows as u32) + spare;
        let room = COLUMNS * self.answered;
        let room = if random.once_in(4) { room.saturating_sub(1) } else { room + random.below(20) };
        let (told, pause) = (RUN_ROOM + random.below(2), PAUSE_ROOM + random.below(2));
        Slices {
            workspace: random.fill(entries),
            answer: random.fill(room),
            told: random.fill(told),
            pause: random.fill(pause),
            ..roomy(random, &self.database, &self.query)
        }
    }

    /// A pause of the panel is one of the desk with its row limit, and such a one of the desk is the panel's if it takes the query.
    fn place(&self, random: &mut Random) -> At {
        let both = self.rows == panel::ROW_LIMIT as usize && self.query.lines().len() <= panel::NODES;
        if both {
            At::BOTH[random.below(2)]
        } else {
            self.at
        }
    }

    fn faults(&self, held: &Held) -> usize {
        faults(&self.checked, &self.plan, self.rows as u32, held.further, held.pause, &held.workspace).len()
    }
}

/// A recursion along a chain, or any of the desk's inputs or of the panel's.
fn input(random: &mut Random, at: At) -> (Database, Query) {
    if random.once_in(3) {
        let (rows, filters) = (1 + random.below(9) as u32, random.below(6));
        return random::query_of_rounds(random, rows, filters);
    }
    match at {
        At::Desk => for_desk(random),
        At::Panel => for_panel(random),
    }
}

/// At, below and above what a run needs; the panel's now and then, and seldom the highest.
fn row_limit(random: &mut Random, peak: usize) -> usize {
    match random.below(12) {
        0 => peak.saturating_sub(1).max(1),
        1 => 1 + random.below(peak),
        2 | 3 => panel::ROW_LIMIT as usize,
        4 if random.once_in(80) => TABLE_ROWS as usize,
        5 => peak + 1 + random.below(20),
        _ => peak,
    }
}

pub fn cases(random: &mut Random, tally: &mut Tally) {
    for at in At::BOTH {
        let Some(asked) = Asked::new(random, at) else { continue };
        parts(random, tally, &asked);
        // Longer ones were refused with 2.
        if asked.query.lines().len() > at.nodes() {
            continue;
        }
        if asked.lines <= SHORT && random.once_in(EACH_LINE) {
            each_line(random, tally, &asked);
        }
        let Some((slices, held)) = paused(random, tally, &asked) else { continue };
        wrong(random, tally, &asked, &slices, &held);
        changed(random, tally, &asked, &slices, &held);
        elsewhere(random, tally, &asked, &slices);
        if random.once_in(2) {
            others(random, tally, &asked, &slices, &held);
        }
        if random.once_in(2) {
            any(random, tally, &asked);
        }
    }
}

/// A run in parts, each in what the one before it left, beside one run with all their lines and beside the ordinary one.
fn parts(random: &mut Random, tally: &mut Tally, asked: &Asked) {
    let given = asked.lent(random);
    let (mut left, mut last) = (given.clone(), SPENT);
    let (mut sum, mut count, mut before) = (0, 0, asked.at);
    for part in random::pauses::parts(random, asked.lines, PARTS) {
        let at = asked.place(random);
        let call = match count {
            0 => at.begin(NODES, asked.rows, part),
            _ => at.resume(NODES, asked.rows, part),
        };
        tally.pauses.carried[at as usize] += u64::from(count > 0 && at as usize != before as usize);
        tally.pauses.none[at as usize] += u64::from(part == 0);
        (sum, count, before) = (sum + part, count + 1, at);
        (_, (last, left)) = made(tally, call, &left);
        if last != SPENT {
            break;
        }
        tally.pauses.paused(at, asked, &left.pause);
    }
    let sort = match last {
        Ok(()) => 0,
        Err(Refusal { number: 18, .. }) => 1,
        Err(Refusal { number: 17, .. }) => 2,
        SPENT => 3,
        // Too long for the panel.
        _ => return,
    };
    one_run(tally, asked, sum, &given, (last, &left));
    if sort < 3 && count > 1 {
        tally.pauses.ends[asked.at as usize][sort] += 1;
        tally.pauses.several[asked.at as usize] += u64::from(count > 2);
    }
}

/// What parts with so many lines in all ended with is what one run ends with, and the ordinary run but for its cleared workspace.
fn one_run(tally: &mut Tally, asked: &Asked, sum: u32, given: &Slices, (last, left): (Result<(), Refusal>, &Slices)) {
    let told = |what: &str| format!("{:?}, {} rows: {what} with {sum} lines of {given:?}", asked.at, asked.rows);
    let (_, (reply, once)) = made(tally, asked.at.begin(NODES, asked.rows, sum), given);
    let of = |reply, slices: &Slices| (reply, slices.workspace.clone(), slices.answer.clone(), slices.told.clone());
    tally.case(|| told("one run and parts"), &of(reply, &once), &of(last, left));
    if last == SPENT {
        tally.case(|| told("the pause of one run and of parts"), &once.pause, &left.pause);
    }
    let (_, (reply, plain)) = made(tally, asked.at.run(NODES, asked.rows, sum), given);
    let cleared = Slices { workspace: vec![0; given.workspace.len()], ..left.clone() };
    tally.case(|| told("the ordinary run and parts"), &of(reply, &plain), &of(last, &cleared));
}

/// A run that is broken off once at each of its lines.
fn each_line(random: &mut Random, tally: &mut Tally, asked: &Asked) {
    for first in 0..asked.lines {
        let given = asked.lent(random);
        let (_, (reply, left)) = made(tally, asked.at.begin(NODES, asked.rows, first), &given);
        tally.case(|| format!("19 with {first} lines of {:?}", asked.query), &SPENT, &reply);
        if reply != SPENT {
            return;
        }
        tally.pauses.paused(asked.at, asked, &left.pause);
        let at = asked.place(random);
        let more = [asked.lines - first, random.below(asked.lines as usize) as u32, u32::MAX - first][random.below(3)];
        let (_, (last, left)) = made(tally, at.resume(NODES, asked.rows, more), &left);
        one_run(tally, asked, first + more, &given, (last, &left));
    }
    tally.pauses.each_line[asked.at as usize] += 1;
}

/// A pause that the engine gave at a random line, and the slices that it left.
fn paused(random: &mut Random, tally: &mut Tally, asked: &Asked) -> Option<(Slices, Held)> {
    let given = asked.lent(random);
    let first = random.below(asked.lines as usize) as u32;
    let (_, (reply, left)) = made(tally, asked.at.begin(NODES, asked.rows, first), &given);
    if reply != SPENT {
        return None;
    }
    let further = if random.once_in(3) { u32::MAX - first } else { random.below(40) as u32 };
    let pause = Pause { next: left.pause[0], ran: left.pause[1] };
    let held = Held { pause, further, workspace: left.workspace.clone() };
    Some((left, held))
}

/// Slices with another pause.
fn with(slices: &Slices, held: &Held) -> Slices {
    let mut slices = Slices { workspace: held.workspace.clone(), ..slices.clone() };
    if slices.pause.len() >= PAUSE_ROOM {
        over(&[held.pause.next, held.pause.ran], &mut slices.pause);
    }
    slices
}

/// A pause with one thing wrong, with that and what is tested before it, and with lines that come to the ceiling.
fn wrong(random: &mut Random, tally: &mut Tally, asked: &Asked, slices: &Slices, held: &Held) {
    let registers = Registers::new(&asked.checked, asked.plan.lines.len(), asked.rows as u32);
    for _ in 0..WRONG {
        let sort = random.below(HARMS.len());
        let Some(harmed) = registers.harmed(random, HARMS[sort], held) else { continue };
        let call = asked.place(random).resume(NODES, asked.rows, harmed.further);
        let (_, (reply, _)) = made(tally, call, &with(slices, &harmed));
        tally.pauses.harms[asked.at as usize][sort] += u64::from(reply == refuse(23, 0));
        if random.once_in(2) {
            before(random, tally, asked, slices, &harmed);
        }
    }
    if random.once_in(2) {
        let further = [0, 1, random.below(60) as u32, u32::MAX][random.below(4)];
        let most = Held { pause: Pause { ran: u32::MAX - further, ..held.pause }, further, ..held.clone() };
        let (_, (reply, _)) = made(tally, asked.at.resume(NODES, asked.rows, further), &with(slices, &most));
        tally.pauses.ceiling[asked.at as usize] += u64::from(reply != refuse(23, 0));
    }
}

/// What comes before 23: a damaged query or database, a row limit outside its range, a workspace that lacks an entry or more, or several
/// of these.
fn before(random: &mut Random, tally: &mut Tally, asked: &Asked, slices: &Slices, harmed: &Held) {
    let ways = 1 + random.below(7);
    let mut given = with(slices, harmed);
    if ways & 1 == 1 {
        let off = damaged(random, &asked.query, &asked.database);
        given = Slices { query: off.query, database: off.database, store: off.store, ..given };
    }
    let rows = match ways >> 1 & 1 {
        1 => [0, TABLE_ROWS as usize + 1, u32::MAX as usize, usize::MAX, 1 << 32][random.below(5)],
        _ => asked.rows,
    };
    if ways >> 2 & 1 == 1 {
        let needed = workspace_entries(asked.plan.registers, asked.rows as u32);
        let entries = [needed - 1, random.below(needed)][random.below(2)];
        given.workspace.truncate(entries);
    }
    let (_, (reply, _)) = made(tally, asked.at.resume(NODES, rows, harmed.further), &given);
    let sort = match reply {
        Err(Refusal { number: 11, .. }) => 0,
        Err(Refusal { number: 1..=10 | 20, .. }) => 1,
        Err(Refusal { number: 16, .. }) => 2,
        Err(Refusal { number: 17, .. }) => 3,
        _ => return,
    };
    tally.pauses.before[asked.at as usize][sort] += 1;
}

/// A pause with one entry changed, gone on with until it ends if it passes the test.
fn changed(random: &mut Random, tally: &mut Tally, asked: &Asked, slices: &Slices, held: &Held) {
    let registers = Registers::new(&asked.checked, asked.plan.lines.len(), asked.rows as u32);
    for _ in 0..CHANGED {
        let changed = registers.changed(random, held);
        let met = gone_on(random, tally, asked, slices, &changed);
        if let Some(sort) = met.filter(|_| changed.workspace != held.workspace) {
            tally.pauses.changed[asked.at as usize][sort] += 1;
        }
    }
}

/// A pause with any rows in its registers.
fn elsewhere(random: &mut Random, tally: &mut Tally, asked: &Asked, slices: &Slices) {
    let lines = asked.plan.lines.len();
    let held = random::pauses::elsewhere(random, &asked.checked, lines, asked.rows as u32, ROWS);
    if let Some(sort) = gone_on(random, tally, asked, slices, &held) {
        tally.pauses.elsewhere[asked.at as usize][sort] += 1;
    }
}

/// Goes on with a pause, and once more with that which it leaves: how the first part ends.
fn gone_on(random: &mut Random, tally: &mut Tally, asked: &Asked, slices: &Slices, held: &Held) -> Option<usize> {
    let given = Slices { answer: vec![7; COLUMNS * asked.rows], ..with(slices, held) };
    let (_, (reply, left)) = made(tally, asked.place(random).resume(NODES, asked.rows, held.further), &given);
    tally.case(
        || format!("23 exactly where there is a fault: {held:?} of {:?}", asked.query),
        &(asked.faults(held) > 0),
        &(reply == refuse(23, 0)),
    );
    if reply == SPENT {
        let more = random.below(60) as u32;
        compared(tally, asked.place(random).resume(NODES, asked.rows, more), &left);
    }
    end(reply)
}

/// A pause over a sheet with other lines, a book with other rows and another row limit.
fn others(random: &mut Random, tally: &mut Tally, asked: &Asked, slices: &Slices, held: &Held) {
    let (mut given, mut rows) = (with(slices, held), asked.rows);
    let sort = random.below(3);
    match sort {
        0 => {
            let other = if random.once_in(2) {
                again(random, &asked.query, &asked.database)
            } else {
                turned(random, &asked.query)
            };
            if other == asked.query {
                return;
            }
            over(&flat_query(other.lines()), &mut given.query);
            // Registers in other places, unless there are as many.
            let registers = check(&other, asked.database.schema()).map_or(0, |checked| plan(&checked.root).registers);
            let entries = workspace_entries(registers, rows as u32).max(given.workspace.len());
            given.workspace.resize(entries, 0);
        }
        1 => {
            let other = random::with_columns_of(random, &asked.database);
            over(&flat_database(&other), &mut given.database);
            given.store = other.store;
        }
        _ => {
            rows = (rows + 1 - 2 * random.below(2)).clamp(1, TABLE_ROWS as usize);
            given.workspace.resize(workspace_entries(asked.plan.registers, rows as u32).max(given.workspace.len()), 0);
        }
    }
    // The panel takes no other row limit.
    let at = if sort == 2 { At::Desk } else { asked.at };
    let (_, (reply, _)) = made(tally, at.resume(NODES, rows, held.further), &given);
    if let Some(end) = end(reply) {
        tally.pauses.others[sort][usize::from(end > 0)] += 1;
    }
}

/// The query with another filter in place of one, if it has any.
fn turned(random: &mut Random, query: &Query) -> Query {
    let mut lines = query.lines().to_vec();
    let filters = lines.iter().enumerate().filter_map(|(line, node)| match node {
        Node::Filter(condition) => Some((line, *condition.columns().first()?)),
        _ => None,
    });
    if let Some((line, column)) = random.pick(filters) {
        let value = random.below(5) as u32;
        let others = [Condition::Eq(column, value), Condition::Ne(column, value), Condition::Max(column, value)];
        lines[line] = Node::Filter(others[random.below(others.len())]);
    }
    Query::new(&lines, NODES)
}

/// Both calls over slices of any sort: damaged or not, below their room, with row limits, node limits, allowances and pauses of any sort.
fn any(random: &mut Random, tally: &mut Tally, asked: &Asked) {
    for begins in [true, false] {
        let slices = match random.below(3) {
            0 => inputs::over(random, &asked.query, &asked.database),
            _ => damaged(random, &asked.query, &asked.database),
        };
        let rows = match random.below(6) {
            0 => [0, TABLE_ROWS as usize + 1, usize::MAX][random.below(3)],
            _ => asked.rows,
        };
        let needed = workspace_entries(asked.plan.registers, asked.rows as u32);
        let entries = [needed, needed, needed + 7, needed - 1][random.below(4)];
        let pause = [1 + random.below(asked.plan.lines.len()) as u32, random.below(20) as u32];
        let given = Slices {
            workspace: if begins { random.fill(entries) } else { vec![0; entries] },
            answer: random.fill(COLUMNS * asked.answered),
            told: lent(random, &[], RUN_ROOM),
            pause: lent(random, &pause, PAUSE_ROOM),
            ..slices
        };
        let (limit, budget) = (limit(random, asked.query.lines().len()), random.below(60) as u32);
        let call = if begins { asked.at.begin(limit, rows, budget) } else { asked.at.resume(limit, rows, budget) };
        compared(tally, call, &given);
    }
}
