//! How large an allowance is enough: products over books, and of an accepted one the runs with it and with one line less than
//! they run.

use crate::at::At;
use crate::call::Call;
use crate::compared;
use crate::inputs::{again, damaged, for_desk, for_panel, lent, limit, over, FREE};
use crate::replied;
use crate::slices::{database_of, query_of, Slices, ALLOWANCE_ROOM, DATABASE_ROOM, PLAN_ROOM, QUERY_ROOM, RUN_ROOM};
use crate::tally::Tally;
use reference::check::check;
use reference::panel;
use reference::plan::{execute, plan, Machine};
use reference::random::{self, Random};
use reference::run::workspace_entries;
use reference::value::{refuse, Database, Query, Refusal, COLUMNS, NODES, NUMBERS, TABLE_ROWS};

/// Products that are asked for of a query and what it becomes, and of damaged slices.
const ASKED: usize = 2;
const DAMAGED: usize = 2;

/// What products have met, each at desk and panel.
#[derive(Default)]
pub struct Met {
    /// Refusals by number, and those with 17 for one slice alone: query, database, plan or allowance.
    numbers: [[u64; NUMBERS + 1]; 2],
    short: [[u64; 4]; 2],
    /// Accepted ones at the desk with the row limits 1, 64 and 4,096.
    limits: [u64; 3],
    /// Runs with the product that finished and that 18 ended, and those of one line less.
    ends: [[u64; 2]; 2],
    less: [u64; 2],
    /// Finished runs of more than half of the product, the row limit being 2 or more, and those of the whole of it, which are the
    /// desk's alone. The lines run and the product of the nearest.
    near: [u64; 2],
    whole: u64,
    nearest: [(u32, u32); 2],
}

impl Met {
    pub fn meet(&mut self, at: usize, call: Call, reply: Result<(), Refusal>, given: &Slices) {
        match (reply, call) {
            (Err(refusal), _) => {
                self.numbers[at][refusal.number as usize] += 1;
                if let [slice] = short(given)[..] {
                    self.short[at][slice] += 1;
                }
            }
            (Ok(()), Call::Allowance { rows, .. }) => {
                let limits = [1, panel::ROW_LIMIT as usize, TABLE_ROWS as usize];
                self.limits.iter_mut().zip(limits).for_each(|(times, limit)| *times += u64::from(rows == limit));
            }
            _ => {}
        }
    }

    /// A finished run with the product.
    fn finished(&mut self, at: At, rows: usize, ran: u32, product: u32) {
        self.ends[at as usize][0] += 1;
        self.whole += u64::from(ran == product);
        if rows > 1 {
            self.near[at as usize] += u64::from(2 * ran > product);
            let (nearest, of) = &mut self.nearest[at as usize];
            if u64::from(ran) * u64::from(*of) >= u64::from(*nearest) * u64::from(product) {
                (*nearest, *of) = (ran, product);
            }
        }
    }

    pub fn print(&self) {
        for (at, name) in ["desk", "panel"].into_iter().enumerate() {
            let (numbers, short) = (&self.numbers[at][1..], self.short[at]);
            println!("{name}, products: refused by number {numbers:?}, 17 for one slice alone {short:?}");
            let ([finished, passed], less, near) = (self.ends[at], self.less[at], self.near[at]);
            let (ran, product) = self.nearest[at];
            println!(
                "{name}, runs with the product: {finished} finished, {passed} with 18, {less} with one line less, {near} over a half of \
                it, {ran} lines of {product}"
            );
        }
        let ([one, panels, most], whole) = (self.limits, self.whole);
        println!("desk, products: with L = 1, 64 and 4096 {one}, {panels} and {most}, {whole} runs of the whole");
    }

    /// 1, 2, 3, 9, 11, 17 and 20 at desk and panel, 16 at the desk, 4 to 10 at one or the other, and no other number; every slice
    /// short, every row limit and every end of a run, also near the product.
    pub fn all_met(&self) -> bool {
        let [desk, panel] = &self.numbers;
        let at_both = [1, 2, 3, 9, 11, 17, 20].iter().all(|number| desk[*number] > 0 && panel[*number] > 0);
        let at_one = (4..=10).all(|number| desk[number] + panel[number] > 0) && desk[16] > 0;
        let no_other = [12, 13, 14, 15, 18, 19, 21, 22, 23].iter().all(|number| desk[*number] + panel[*number] == 0);
        let counts = [self.short.concat(), self.ends.concat(), self.limits.to_vec(), self.less.to_vec()].concat();
        let runs = counts.into_iter().chain(self.near).chain([self.whole]).all(|times| times > 0);
        at_both && at_one && no_other && panel[16] == 0 && runs
    }
}

/// The slices of a call that are below their room, in the order of the header.
fn short(given: &Slices) -> Vec<usize> {
    let rooms = [QUERY_ROOM, DATABASE_ROOM, PLAN_ROOM, ALLOWANCE_ROOM];
    let lengths = [&given.query, &given.database, &given.plan, &given.allowance].map(Vec::len);
    (0..rooms.len()).filter(|slice| lengths[*slice] < rooms[*slice]).collect()
}

/// A database and a query of the desk's inputs or of the panel's, or a recursion that comes near its product.
fn input(random: &mut Random, at: At) -> (Database, Query) {
    if random.once_in(6) {
        let filters = random.below(at.nodes() - 10);
        let rows = if random.once_in(4) { panel::ROW_LIMIT } else { 1 + random.below(12) as u32 };
        return random::query_of_rounds(random, rows, filters);
    }
    match at {
        At::Desk => for_desk(random),
        At::Panel => for_panel(random),
    }
}

pub fn cases(random: &mut Random, tally: &mut Tally) {
    for at in At::BOTH {
        let (database, query) = input(random, at);
        for asked in 0..ASKED {
            let query = if asked == 0 { query.clone() } else { again(random, &query, &database) };
            let free = free_run(&query, &database);
            let slices = over(random, &query, &database);
            let (call, given) = asking(random, at, free.as_ref(), slices);
            if let Ok(left) = replied(tally, call, &given) {
                runs(random, tally, call, free.is_some(), left);
            }
        }
        for _ in 0..DAMAGED {
            let slices = damaged(random, &query, &database);
            let (call, given) = asking(random, at, None, slices);
            compared(tally, call, &given);
        }
    }
}

/// A run with few rows, if it finishes.
fn free_run(query: &Query, database: &Database) -> Option<Machine> {
    let plan = plan(&check(query, database.schema()).ok()?.root);
    execute(&plan, &database.relations(), FREE.0, FREE.1).ok()
}

/// The call, with row limits at, below and above what a run needs and what there can be.
fn asking(random: &mut Random, at: At, free: Option<&Machine>, slices: Slices) -> (Call, Slices) {
    let nodes = slices.query.first().map_or(0, |count| *count as usize);
    let call = match at {
        At::Desk => Call::Allowance { limit: limit(random, nodes), rows: row_limit(random, free) },
        At::Panel => Call::PanelAllowance,
    };
    let (plan, allowance) = (lent(random, &[], PLAN_ROOM), lent(random, &[], ALLOWANCE_ROOM));
    (call, Slices { plan, allowance, ..slices })
}

fn row_limit(random: &mut Random, free: Option<&Machine>) -> usize {
    let (most, peak) = (TABLE_ROWS as usize, free.map_or(6, |free| free.peak.max(1)));
    match random.below(16) {
        // The last ones are those that a number of 32 bits takes for lower ones.
        0 => [0, most + 1, u32::MAX as usize, usize::MAX, 1 << 32, (1 << 32) + 1 + random.below(40)][random.below(6)],
        1 => 1,
        2 => panel::ROW_LIMIT as usize,
        3 => most,
        4 => 1 + random.below(most),
        5 => (peak - 1).max(1),
        6..=9 => peak,
        _ => 1 + random.below(peak + 20),
    }
}

/// The runs of an accepted call, `free` telling whether they need few rows. Of those with a high row limit only some, as the
/// workspace is long.
fn runs(random: &mut Random, tally: &mut Tally, call: Call, free: bool, left: Slices) {
    let product = left.allowance[0];
    let (at, rows, limit) = match call {
        Call::Allowance { limit, rows } => (At::Desk, rows, limit),
        _ => (At::Panel, panel::ROW_LIMIT as usize, NODES),
    };
    if rows > FREE.0 && !(free && random.once_in(40)) {
        return;
    }
    let run = |budget| match at {
        At::Desk => Call::Run { limit, rows, budget },
        At::Panel => Call::PanelRun { budget },
    };
    let given = to_run(rows, left);
    let ended = replied(tally, run(product), &given).map(|finished| finished.told[2]);
    let told = |what: &str| format!("{call:?}, then {what}: of {given:?}");
    tally.case(|| told("19 with the product"), &false, &(ended == refuse(19, 0)));
    tally.allowance.ends[at as usize][1] += u64::from(ended == refuse(18, 0));
    let Ok(ran) = ended else {
        return;
    };
    tally.case(|| told("more lines run than the product"), &false, &(ran > product));
    tally.allowance.finished(at, rows, ran, product);
    let less = replied(tally, run(ran - 1), &given).map(|_| ());
    tally.case(|| told("one line less than it ran"), &refuse(19, 0), &less);
    tally.allowance.less[at as usize] += 1;
}

/// The slices of a call with what its runs need besides.
fn to_run(rows: usize, left: Slices) -> Slices {
    let database = database_of(&left.database, &left.store);
    let registers =
        check(&query_of(&left.query, NODES), database.schema()).map_or(0, |checked| plan(&checked.root).registers);
    let workspace = vec![7; workspace_entries(registers, rows as u32)];
    Slices { workspace, answer: vec![7; COLUMNS * rows], told: vec![7; RUN_ROOM], ..left }
}
