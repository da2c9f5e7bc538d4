//! What is measured: a query by its lines, the steps that rewrite it, its tables, and the same question in SQL.

use reference::algebra::{Columns, Relation, Row};
use reference::random::Random;
use reference::value::{Database, TABLE_ROWS};

pub struct Workload {
    pub name: String,
    /// The lines of the sheet, as document 01 writes them.
    pub lines: String,
    /// The kinds and nodes that the engine rewrites the query by, one after another, before it is run.
    pub steps: &'static [(u32, u32)],
    pub tables: Vec<(Columns, Relation)>,
    /// Tables are t0, t1, ..., their columns c0 to c7. The result's columns ascend.
    pub sql: String,
    /// The row limit of the run.
    pub limit: u32,
    /// SQLite's indexes where it has some.
    pub indexes: &'static [&'static str],
    pub recursive: bool,
}

impl Workload {
    pub fn database(&self) -> Database {
        Database::stored(&self.tables, 0)
    }

    /// The workload over other tables.
    fn over(self, name: &str, tables: Vec<(Columns, Relation)>) -> Workload {
        Workload { name: format!("{}, {name}", self.name), tables, ..self }
    }
}

/// Column 0 to column 1 along the edges: document 01's Reach without its seed.
const STEP: &str = "var=1 copy=1,2 drop=1 table=0 copy=0,2 drop=0 pair=join drop=2";
const RIGHT_STEP: &str = "var=2 copy=3,2 drop=3 table=1 copy=0,2 drop=0 pair=join drop=2";
const SQL_REACH: &str =
    "WITH RECURSIVE r(c0, c1) AS (SELECT c0, c1 FROM t0 UNION SELECT r.c0, t0.c1 FROM r JOIN t0 ON t0.c0 = r.c1)";

fn closure() -> Workload {
    Workload {
        name: "closure".to_string(),
        lines: format!("table=0 {STEP} fix=1"),
        steps: &[],
        tables: Vec::new(),
        sql: format!("{SQL_REACH} SELECT c0, c1 FROM r"),
        limit: TABLE_ROWS,
        indexes: &["t0(c0, c1)"],
        recursive: true,
    }
}

/// The closure from one place on: the filter outside the recursion.
fn filtered(from: u32) -> Workload {
    let outside = closure();
    Workload {
        name: "closure, filter outside".to_string(),
        lines: format!("{} eq=0,{from}", outside.lines),
        sql: format!("{} WHERE c0 = {from}", outside.sql),
        ..outside
    }
}

/// The same with the filter pushed in by kind 1.
fn pushed(from: u32) -> Workload {
    let seed = format!("SELECT c0, c1 FROM t0 WHERE c0 = {from} UNION");
    Workload {
        name: "closure, filter pushed in by kind 1".to_string(),
        steps: &[(1, 11)],
        sql: format!("{} SELECT c0, c1 FROM r", SQL_REACH.replace("SELECT c0, c1 FROM t0 UNION", &seed)),
        ..filtered(from)
    }
}

/// The same with a row limit, and so a workspace, nearer to what it needs.
fn within(limit: u32, asked: Workload) -> Workload {
    Workload { name: format!("{}, L = {limit}", asked.name), limit, ..asked }
}

fn two_closures() -> Workload {
    Workload {
        name: "join of two closures".to_string(),
        lines: format!("table=0 {STEP} fix=1 table=1 {RIGHT_STEP} fix=2 pair=join"),
        steps: &[],
        tables: Vec::new(),
        sql: format!(
            "{SQL_REACH}, s(c0, c3) AS (SELECT c0, c3 FROM t1 UNION SELECT s.c0, t1.c3 FROM s JOIN t1 ON t1.c0 = s.c3) \
             SELECT r.c0, r.c1, s.c3 FROM r JOIN s ON s.c0 = r.c0"
        ),
        limit: TABLE_ROWS,
        indexes: &["t0(c0, c1)", "t1(c0, c3)"],
        recursive: true,
    }
}

fn merged_closures() -> Workload {
    Workload {
        name: "join of two closures, merged by kind 6".to_string(),
        steps: &[(6, 21)],
        sql: "WITH RECURSIVE r(c0, c1, c3) AS (SELECT t0.c0, t0.c1, t1.c3 FROM t0 JOIN t1 ON t1.c0 = t0.c0 \
              UNION SELECT r.c0, t0.c1, r.c3 FROM r JOIN t0 ON t0.c0 = r.c1 \
              UNION SELECT r.c0, r.c1, t1.c3 FROM r JOIN t1 ON t1.c0 = r.c3) SELECT c0, c1, c3 FROM r"
            .to_string(),
        ..two_closures()
    }
}

const SQL_OTHER_REACH: &str =
    "s(c0, c1) AS (SELECT c0, c1 FROM t2 UNION SELECT s.c0, t2.c1 FROM s JOIN t2 ON t2.c0 = s.c1)";

/// Places of table 1 that are reached along table 0, and all that are reached along table 2, from one place on: the filter over the union
/// of a join and a closure.
fn two_ways(from: u32) -> Workload {
    let other_step = STEP.replace("var=1", "var=2").replace("table=0", "table=2");
    Workload {
        name: "union of two closures, filter outside".to_string(),
        lines: format!("table=0 {STEP} fix=1 table=1 pair=join table=2 {other_step} fix=2 pair=union eq=0,{from}"),
        steps: &[],
        tables: Vec::new(),
        sql: format!(
            "{SQL_REACH}, {SQL_OTHER_REACH} SELECT c0, c1 FROM (SELECT r.c0, r.c1 FROM r JOIN t1 ON t1.c1 = r.c1 UNION \
             SELECT c0, c1 FROM s) WHERE c0 = {from}"
        ),
        limit: TABLE_ROWS,
        indexes: &["t0(c0, c1)", "t1(c1)", "t2(c0, c1)"],
        recursive: true,
    }
}

/// The same with the filter copied to both sides, moved past the join and pushed into both recursions.
fn two_ways_pushed(from: u32) -> Workload {
    let seed = |table: &str| format!("SELECT c0, c1 FROM {table} WHERE c0 = {from} UNION");
    let pushed = |sql: &str, table: &str| sql.replace(&format!("SELECT c0, c1 FROM {table} UNION"), &seed(table));
    let (reach, other) = (pushed(SQL_REACH, "t0"), pushed(SQL_OTHER_REACH, "t2"));
    Workload {
        name: "union of two closures, filter pushed in by kinds 7, 8, 1 and 1".to_string(),
        steps: &[(7, 24), (8, 13), (1, 11), (1, 24)],
        sql: format!("{reach}, {other} SELECT r.c0, r.c1 FROM r JOIN t1 ON t1.c1 = r.c1 UNION SELECT c0, c1 FROM s"),
        ..two_ways(from)
    }
}

/// Steps that do not end at a place of table 1.
fn except_inside() -> Workload {
    Workload {
        name: "except inside a recursion".to_string(),
        lines: format!("table=0 {STEP} table=1 pair=except fix=1"),
        steps: &[],
        tables: Vec::new(),
        sql: "WITH RECURSIVE r(c0, c1) AS (SELECT c0, c1 FROM t0 UNION SELECT r.c0, t0.c1 FROM r JOIN t0 ON t0.c0 = r.c1 \
              WHERE NOT EXISTS (SELECT 1 FROM t1 WHERE t1.c1 = t0.c1)) SELECT c0, c1 FROM r"
            .to_string(),
        limit: TABLE_ROWS,
        indexes: &["t0(c0, c1)", "t1(c1)"],
        recursive: true,
    }
}

/// Reach with five further columns that ride along; the step's join has all eight.
fn wide_closure() -> Workload {
    Workload {
        name: "closure of wide rows".to_string(),
        lines: format!("table=0 {} fix=1", STEP.replace("table=0", "table=1")),
        steps: &[],
        tables: Vec::new(),
        sql: "WITH RECURSIVE r(c0, c1, c3, c4, c5, c6, c7) AS (SELECT c0, c1, c3, c4, c5, c6, c7 FROM t0 \
              UNION SELECT r.c0, t1.c1, r.c3, r.c4, r.c5, r.c6, r.c7 FROM r JOIN t1 ON t1.c0 = r.c1) \
              SELECT c0, c1, c3, c4, c5, c6, c7 FROM r"
            .to_string(),
        limit: TABLE_ROWS,
        indexes: &["t1(c0, c1)"],
        recursive: true,
    }
}

/// `max=4,1850`: a work without a year has 0 there and passes no `max`.
const EARLY: &str = "c4 <> 0 AND c4 <= 1850";
const SQL_TOUR: &str = "WITH RECURSIVE r(c0, c1, c4) AS (SELECT c0, c1, c4 FROM t0 \
                        UNION SELECT r.c0, t1.c1, r.c4 FROM r JOIN t1 ON t1.c0 = r.c1)";

/// What is reached from early works; their year rides along in column 4.
fn early_works() -> Workload {
    Workload {
        name: "period tour, max outside".to_string(),
        lines: format!("table=0 {} fix=1 max=4,1850", STEP.replace("table=0", "table=1")),
        steps: &[],
        tables: Vec::new(),
        sql: format!("{SQL_TOUR} SELECT c0, c1, c4 FROM r WHERE {EARLY}"),
        limit: TABLE_ROWS,
        indexes: &["t1(c0, c1)"],
        recursive: true,
    }
}

/// The same with the filter pushed in by kind 1.
fn early_works_pushed() -> Workload {
    Workload {
        name: "period tour, max pushed in by kind 1".to_string(),
        steps: &[(1, 11)],
        sql: format!("{} SELECT c0, c1, c4 FROM r", SQL_TOUR.replace("FROM t0", &format!("FROM t0 WHERE {EARLY}"))),
        ..early_works()
    }
}

fn wide_join() -> Workload {
    Workload {
        name: "join of wide rows".to_string(),
        lines: "table=0 table=1 pair=join".to_string(),
        steps: &[],
        tables: Vec::new(),
        sql: "SELECT t0.c0, t0.c1, t0.c2, t0.c3, t0.c4, t1.c5, t1.c6, t1.c7 FROM t0 JOIN t1 ON t1.c4 = t0.c4"
            .to_string(),
        limit: TABLE_ROWS,
        indexes: &["t1(c4, c5, c6, c7)"],
        recursive: false,
    }
}

fn product() -> Workload {
    Workload {
        name: "cross product".to_string(),
        lines: "table=0 table=1 pair=join".to_string(),
        steps: &[],
        tables: Vec::new(),
        sql: "SELECT t0.c0, t1.c1 FROM t0, t1".to_string(),
        limit: TABLE_ROWS,
        indexes: &[],
        recursive: false,
    }
}

type Edges = Vec<(u32, u32)>;

fn edges(columns: [u8; 2], edges: Edges) -> (Columns, Relation) {
    let row = |(from, to): (u32, u32)| Row::from([(columns[0], from), (columns[1], to)]);
    (Columns::from(columns), edges.into_iter().map(row).collect())
}

/// Places 1 to `length` + 1, each with a door to the next.
fn chain(length: u32) -> Edges {
    (1..=length).map(|place| (place, place + 1)).collect()
}

/// So many different doors between so many places.
fn random_graph(seed: u64, places: usize, doors: usize) -> Edges {
    let random = &mut Random::new(seed);
    let mut found = std::collections::BTreeSet::new();
    while found.len() < doors {
        let mut place = || 1 + random.below(places) as u32;
        found.insert((place(), place()));
    }
    found.into_iter().collect()
}

/// A door to the right and one downwards from each place of a grid.
fn grid(width: u32, height: u32) -> Edges {
    let place = |x: u32, y: u32| 1 + x + width * y;
    let right = (0..height).flat_map(|y| (1..width).map(move |x| (place(x - 1, y), place(x, y))));
    let down = (1..height).flat_map(|y| (0..width).map(move |x| (place(x, y - 1), place(x, y))));
    right.chain(down).collect()
}

/// A table of one column.
fn list(column: u8, values: impl Iterator<Item = u32>) -> (Columns, Relation) {
    (Columns::from([column]), values.map(|value| Row::from([(column, value)])).collect())
}

/// A table whose rows are worked out from their numbers.
fn table(columns: &[u8], rows: u32, value: impl Fn(u32, u8) -> u32) -> (Columns, Relation) {
    let row = |number| columns.iter().map(|column| (*column, value(number, *column))).collect();
    (columns.iter().copied().collect(), (0..rows).map(row).collect())
}

/// Chains of the picture, up to 4,095 rows: their lengths, and the filter outside and pushed in.
pub fn chains() -> Vec<(u32, [Workload; 2])> {
    let along = |length: u32, asked: Workload| asked.over("chain", vec![edges([0, 1], chain(length))]);
    (1..=10)
        .map(|tenth| 9 * tenth)
        .map(|length| (length, [filtered(1), pushed(1)].map(|asked| along(length, asked))))
        .collect()
}

/// The closure from the first places on along 250 edges, within a row limit of 256: from one place, 5 or 10 at once, each of which leads to 250
/// of them or to its part. The fewer rounds there are, the longer is each.
pub fn longest() -> Vec<Workload> {
    let from = |places: u32| {
        let seed = format!("SELECT c0, c1 FROM t0 WHERE c0 <= {places} UNION");
        let along = (1..=250).map(|place| (place, place + places)).collect();
        let asked = Workload {
            name: format!("closure from {places} on, filter pushed in by kind 1"),
            lines: format!("{} max=0,{places}", closure().lines),
            sql: format!("{} SELECT c0, c1 FROM r", SQL_REACH.replace("SELECT c0, c1 FROM t0 UNION", &seed)),
            ..pushed(1)
        };
        within(256, asked).over("250 edges", vec![edges([0, 1], along)])
    };
    [1, 5, 10].map(from).into()
}

/// The same question within each of the row limits from 256 on, each twice the one before.
pub fn doubling() -> Vec<Workload> {
    let limits = (0..).map(|power| 256 << power).take_while(|limit| *limit <= TABLE_ROWS);
    limits.map(|limit| within(limit, pushed(1)).over("chain of 90 edges", vec![edges([0, 1], chain(90))])).collect()
}

pub fn workloads() -> Vec<Workload> {
    let graphs = [
        ("chain of 90 edges".to_string(), chain(90)),
        ("random graph of 40 places and 60 edges".to_string(), random_graph(1, 40, 60)),
        ("random graph of 60 places and 90 edges".to_string(), random_graph(2, 60, 90)),
        ("random graph of 64 places and 112 edges".to_string(), random_graph(3, 64, 112)),
        ("grid of 10 by 11".to_string(), grid(10, 11)),
    ];
    let mut found = Vec::new();
    for (name, doors) in graphs {
        let from = doors[0].0;
        for workload in [closure(), filtered(from), pushed(from), within(256, pushed(from))] {
            found.push(workload.over(&name, vec![edges([0, 1], doors.clone())]));
        }
    }
    for workload in [two_closures(), merged_closures()] {
        found.push(workload.over("chains of 22 edges", vec![edges([0, 1], chain(22)), edges([0, 3], chain(22))]));
    }
    let open = list(1, (1..=91).filter(|place| place % 3 == 0));
    for workload in [two_ways(1), two_ways_pushed(1)] {
        let tables = vec![edges([0, 1], chain(90)), open.clone(), edges([0, 1], chain(60))];
        found.push(workload.over("chains of 90 and 60 edges, 30 places open", tables));
    }
    let shut = list(1, (1..=110).filter(|place| place % 13 == 0));
    found.push(except_inside().over("grid of 10 by 11, 8 places shut", vec![edges([0, 1], grid(10, 11)), shut]));
    let tours = table(&[0, 1, 3, 4, 5, 6, 7], 60, |tour, column| match column {
        0 | 1 => tour + 1,
        _ => (tour + 1) * u32::from(column) % 17,
    });
    found.push(wide_closure().over("60 rows of 7 columns, chain of 90 edges", vec![tours, edges([0, 1], chain(90))]));
    // Every third work is undated; half of the dated ones are early.
    let years = |work: u32| if work % 3 == 0 { 0 } else { 1850 - 30 + work };
    let works = table(&[0, 1, 4], 60, |work, column| if column == 4 { years(work) } else { work + 1 });
    for workload in [early_works(), early_works_pushed()] {
        found.push(workload.over("60 works, chain of 90 edges", vec![works.clone(), edges([0, 1], chain(90))]));
    }
    // 16 groups of 16 rows on both sides.
    let grouped = |row: u32, column: u8| if column == 4 { row / 16 } else { row * (1 + u32::from(column)) };
    let sides = vec![table(&[0, 1, 2, 3, 4], 256, grouped), table(&[4, 5, 6, 7], 256, grouped)];
    found.push(wide_join().over("256 rows and 256 to 8 columns", sides));
    found.push(product().over("64 rows and 64", vec![list(0, 1..=64), list(1, 1..=64)]));
    found
}
