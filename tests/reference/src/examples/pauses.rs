//! A long question put aside: Reach broken off before each of its lines, its registers in place, damaged pauses, and pauses from
//! elsewhere.

use super::{doors, reach_and, table, values};
use crate::panel;
use crate::pauses::{begin, resume, Pause, Progress};
use crate::run::workspace_entries;
use crate::value::{Database, Query, COLUMNS};

pub fn examples() -> Vec<(&'static str, bool)> {
    [parts(), in_place(), ends(), refused(), elsewhere(), at_the_panel()].concat()
}

const ROWS: u32 = 3;
/// Reach has ten nodes and a fix.
const ENTRIES: usize = workspace_entries(11, ROWS);

/// A pause, or the rows and the lines run.
#[derive(Clone, Debug, PartialEq)]
enum End {
    Pause(u32, u32),
    Rows(Vec<u32>, u32),
    Refused(u32),
}

/// The slices of Reach's runs, with the row limit 3 and room for its rows.
#[derive(Clone)]
struct Reach {
    row_limit: u32,
    database: Database,
    query: Query,
    workspace: Vec<u32>,
    answer: Vec<u32>,
}

impl Reach {
    fn new() -> Reach {
        let (database, query) = (doors(&[[1, 2], [2, 3]]), reach_and(""));
        Reach { row_limit: ROWS, database, query, workspace: vec![7; ENTRIES], answer: vec![9; COLUMNS * 3] }
    }

    fn begin(&mut self, budget: u32) -> End {
        let Reach { row_limit, database, query, workspace, answer } = self;
        let end = begin(database, query, *row_limit, budget, workspace, answer);
        self.ended(end.map_err(|refusal| refusal.number))
    }

    fn resume(&mut self, next: u32, ran: u32, further: u32) -> End {
        let Reach { row_limit, database, query, workspace, answer } = self;
        let end = resume(database, query, *row_limit, further, Pause { next, ran }, workspace, answer);
        self.ended(end.map_err(|refusal| refusal.number))
    }

    fn ended(&self, end: Result<Progress, u32>) -> End {
        match end {
            Ok(Progress::Finished(told)) => {
                let (rows, ran) = values(&told, &self.answer);
                End::Rows(rows, ran)
            }
            Ok(Progress::Paused(pause)) => End::Pause(pause.next, pause.ran),
            Err(number) => End::Refused(number),
        }
    }

    /// Put aside after so many lines.
    fn after(lines: u32) -> Reach {
        let mut reach = Reach::new();
        reach.begin(lines);
        reach
    }

    fn cleared(&self) -> bool {
        self.workspace.iter().all(|entry| *entry == 0)
    }
}

fn all(ran: u32) -> End {
    End::Rows(vec![1, 2, 1, 3, 2, 3], ran)
}

/// The next line after so many: five up to start, then two rounds of the four of the path and again.
fn next_after(lines: u32) -> u32 {
    if lines < 10 {
        lines + 1
    } else {
        lines - 4
    }
}

fn parts() -> Vec<(&'static str, bool)> {
    let once = |lines: u32| {
        let mut reach = Reach::new();
        reach.begin(lines) == End::Pause(next_after(lines), lines)
            && reach.resume(next_after(lines), lines, 15 - lines) == all(15)
            && reach.cleared()
    };
    let by_one = || {
        let mut reach = Reach::new();
        let mut end = reach.begin(0);
        for lines in 0..15 {
            if end != End::Pause(next_after(lines), lines) {
                return false;
            }
            end = reach.resume(next_after(lines), lines, 1);
        }
        end == all(15) && reach.cleared()
    };
    let nothing = || {
        let mut reach = Reach::after(14);
        let before = reach.workspace.clone();
        reach.resume(10, 14, 0) == End::Pause(10, 14) && reach.workspace == before
    };
    vec![
        ("Reach put aside once, anywhere", (0..15).all(once)),
        ("Reach line by line", by_one()),
        ("Reach, 14 lines and none", nothing()),
        ("Reach, 14 lines and one", Reach::after(14).resume(10, 14, 1) == all(15)),
        ("Reach, 14 lines and many", Reach::after(14).resume(10, 14, u32::MAX - 14) == all(15)),
        ("Reach, 15 lines", Reach::new().begin(15) == all(15)),
    ]
}

/// After twelve lines the second round has copied and dropped what the first one found.
fn in_place() -> Vec<(&'static str, bool)> {
    let registers: [&[[u32; 3]]; 11] = [
        &[[1, 2, 0], [2, 3, 0]],
        &[],
        &[[1, 3, 3]],
        &[[1, 0, 3]],
        &[[1, 2, 0], [2, 3, 0]],
        &[[1, 2, 1], [2, 3, 2]],
        &[[0, 2, 1], [0, 3, 2]],
        &[[1, 3, 2]],
        &[[1, 3, 0]],
        &[[1, 2, 0], [1, 3, 0], [2, 3, 0]],
        &[[1, 3, 0]],
    ];
    let mut due = Vec::new();
    for rows in registers {
        due.push(rows.len() as u32);
        for row in rows {
            due.extend([row, &[0; 5][..]].concat());
        }
        due.extend(vec![0; COLUMNS * (3 - rows.len())]);
    }
    let longer = || {
        let mut reach = Reach { workspace: vec![7; ENTRIES + 9], ..Reach::new() };
        reach.begin(12) == End::Pause(8, 12) && reach.workspace == [&due[..], &[0; 9]].concat()
    };
    vec![
        ("the registers of Reach after twelve lines", Reach::after(12).workspace == due),
        ("zeros behind the last register", longer()),
        ("no register of Reach before its first line", Reach::after(0).cleared()),
        ("a pause writes no answer", Reach::after(12).answer == [9; COLUMNS * 3]),
    ]
}

fn ends() -> Vec<(&'static str, bool)> {
    let full = |first: u32| {
        let mut reach = Reach { row_limit: 2, ..Reach::new() };
        let paused = reach.begin(first) == End::Pause(next_after(first), first);
        paused && reach.resume(next_after(first), first, 100) == End::Refused(18) && reach.cleared()
    };
    let short = || {
        let mut reach = Reach { answer: vec![9; 23], ..Reach::new() };
        let paused = reach.begin(7) == End::Pause(8, 7);
        paused && reach.resume(8, 7, 8) == End::Refused(17) && reach.cleared() && reach.answer == [9; 23]
    };
    // Start passes beyond again, to the filter.
    let empty = || {
        let mut reach = Reach { database: doors(&[]), query: reach_and("eq=0,1"), ..Reach::new() };
        reach.workspace = vec![7; workspace_entries(12, ROWS)];
        reach.begin(5) == End::Pause(11, 5) && reach.resume(11, 5, 1) == End::Rows(vec![], 6)
    };
    vec![
        ("18 after a pause, L = 2", (0..10).all(full)),
        ("18 before a pause, L = 2", Reach { row_limit: 2, ..Reach::new() }.begin(10) == End::Refused(18)),
        ("an answer slice lacking one entry after a pause", short()),
        ("a pause behind a recursion of no rows", empty()),
    ]
}

fn refused() -> Vec<(&'static str, bool)> {
    let stretch = workspace_entries(1, ROWS);
    // After twelve lines; the fourth register holds 1, 0, 3.
    let with = |change: &dyn Fn(&mut Vec<u32>)| {
        let mut reach = Reach::after(12);
        change(&mut reach.workspace);
        let before = reach.workspace.clone();
        let end = reach.resume(8, 12, 100);
        (end, reach.workspace == before && reach.answer == [9; COLUMNS * 3])
    };
    let bad = |change: &dyn Fn(&mut Vec<u32>)| with(change) == (End::Refused(23), true);
    let entry = |register: usize, at: usize, value: u32| {
        bad(&|workspace: &mut Vec<u32>| workspace[stretch * register + at] = value)
    };
    let at = |next: u32, ran: u32, further: u32| Reach::after(12).resume(next, ran, further);
    let before = |change: &dyn Fn(&mut Reach)| {
        let mut reach = Reach::after(12);
        change(&mut reach);
        let before = reach.workspace.clone();
        let end = reach.resume(0, 12, u32::MAX);
        (end, reach.workspace == before)
    };
    vec![
        ("line 0", at(0, 12, 1) == End::Refused(23)),
        ("line 11 of ten", at(11, 12, 1) == End::Refused(23)),
        ("line 10 of ten", at(10, 12, 0) == End::Pause(10, 12)),
        ("lines over the ceiling", at(8, u32::MAX - 4, 5) == End::Refused(23)),
        ("lines at the ceiling", at(8, u32::MAX - 5, 5) == all(u32::MAX - 2)),
        ("no line more at the ceiling", at(8, u32::MAX, 0) == End::Pause(8, u32::MAX)),
        ("nothing wrong", with(&|_| ()).0 == all(15)),
        ("a count over L", entry(9, 0, 4)),
        ("a count of 32 bits", entry(9, 0, u32::MAX)),
        ("a count less, its row left", entry(9, 0, 2)),
        ("a count more, no ascending row", entry(9, 1 + COLUMNS, 3)),
        ("equal rows", entry(9, 2 + COLUMNS, 2)),
        ("a slot outside the line's columns", entry(3, 2, 1)),
        ("a slot outside a delta's columns", entry(10, 3, 1)),
        ("a row of a var", bad(&|workspace| workspace[stretch..stretch + 3].copy_from_slice(&[1, 1, 3]))),
        ("an empty row of a var", entry(1, 0, 1)),
        ("a slot of a var", entry(1, 1, 1)),
        ("an entry behind the rows", entry(2, 1 + COLUMNS, 1)),
        ("the last entry of a register", entry(10, stretch - 1, 1)),
        ("the last entry of the slice", bad(&|workspace| workspace.extend([0, 0, 1]))),
        ("zeros behind the last register", with(&|workspace| workspace.extend([0, 0, 0])).0 == all(15)),
        ("17 before 23", before(&|reach| reach.workspace.truncate(ENTRIES - 1)) == (End::Refused(17), true)),
        ("16 before 23", before(&|reach| reach.row_limit = 0) == (End::Refused(16), true)),
        ("9 before 23", before(&|reach| reach.query = reach_and("drop=5")) == (End::Refused(9), true)),
        ("11 before 23", before(&|reach| reach.database.store.clear()) == (End::Refused(11), true)),
        ("another row limit moves the registers", before(&|reach| reach.row_limit = 2) == (End::Refused(23), true)),
    ]
}

/// Pauses that no run of Reach gives.
fn elsewhere() -> Vec<(&'static str, bool)> {
    let stretch = workspace_entries(1, ROWS);
    let of = |registers: &[(usize, [u32; 3])]| {
        let mut reach = Reach { workspace: vec![0; ENTRIES], ..Reach::new() };
        for (register, row) in registers {
            reach.workspace[stretch * register] = 1;
            reach.workspace[stretch * register + 1..stretch * register + 4].copy_from_slice(row);
        }
        reach
    };
    vec![
        ("again over nothing", of(&[]).resume(10, 0, 9) == End::Rows(vec![], 1)),
        // What is in newest and not in total is never in the answer; what it leads to is.
        ("newest rows that total lacks", {
            of(&[(6, [0, 8, 7]), (10, [5, 7, 0])]).resume(6, 40, 9) == End::Pause(10, 49)
                && of(&[(6, [0, 8, 7]), (10, [5, 7, 0])]).resume(6, 40, 99) == End::Rows(vec![5, 8], 50)
        }),
        ("a total that no seed gives", of(&[(9, [4, 4, 0])]).resume(10, 3, 1) == End::Rows(vec![4, 4], 4)),
        ("from the first line on", of(&[(9, [4, 4, 0])]).resume(1, 0, 15) == all(15)),
    ]
}

/// A pause goes from the panel to the desk with the row limit 64, and back.
fn at_the_panel() -> Vec<(&'static str, bool)> {
    let chain: Vec<[u32; 2]> = (0..10).map(|room| [room, room + 1]).collect();
    let (database, query) = (Database::stored(&[table([0, 1], &chain)], 0), reach_and(""));
    let longer = reach_and(&"max=0,9 ".repeat(23));
    let from = |first: u32| {
        let (mut workspace, mut answer) = (vec![5; panel::WORKSPACE], vec![9; COLUMNS * 64]);
        let (w, a) = (&mut workspace, &mut answer);
        let Ok(Progress::Paused(pause)) = panel::begin(&database, &query, first, w, a) else { return false };
        let Ok(Progress::Paused(pause)) = resume(&database, &query, 64, 3, pause, w, a) else { return false };
        let Ok(Progress::Finished(told)) = panel::resume(&database, &query, 1000, pause, w, a) else { return false };
        let once = panel::run(&database, &query, 1000, &mut vec![0; panel::WORKSPACE], &mut vec![0; COLUMNS * 64]);
        workspace.iter().all(|entry| *entry == 0) && Ok(told) == once
    };
    let refused = |query: &Query| {
        let pause = Pause { next: 0, ran: 0 };
        panel::resume(&database, query, 1, pause, &mut vec![0; panel::WORKSPACE], &mut []).map_err(|r| r.number)
    };
    vec![
        ("Reach from panel to desk and back", (0..40).all(from)),
        ("23 at the panel", refused(&query) == Err(23)),
        ("2 before 23 at the panel", refused(&longer) == Err(2)),
    ]
}
