//! Random inputs from fixed seeds: databases, queries that are checked by construction, steps, two branches, filters over ordinary
//! lines, property paths, pauses.

pub mod branches;
pub mod filters;
pub mod paths;
pub mod pauses;

use crate::algebra::{Columns, Condition, Pairing, Relation, Row};
use crate::rewrite::KINDS;
use crate::split::split;
use crate::term::Term;
use crate::text::nodes;
use crate::value::{Database, Node, Query, COLUMNS, NODES, TABLES, VARIABLES};
use std::ops::Range;

/// A xorshift generator.
pub struct Random(u64);

impl Random {
    pub fn new(seed: u64) -> Random {
        let mixed = (seed ^ 0x2545_f491_4f6c_dd1d).wrapping_mul(0x9e37_79b9_7f4a_7c15);
        let mut random = Random(mixed.max(1));
        for _ in 0..8 {
            random.next();
        }
        random
    }

    pub fn next(&mut self) -> u32 {
        self.0 ^= self.0 << 13;
        self.0 ^= self.0 >> 7;
        self.0 ^= self.0 << 17;
        (self.0.wrapping_mul(0x2545_f491_4f6c_dd1d) >> 32) as u32
    }

    pub fn below(&mut self, bound: usize) -> usize {
        self.next() as usize % bound
    }

    /// True once in so many times.
    pub fn once_in(&mut self, times: usize) -> bool {
        self.below(times) == 0
    }

    pub fn pick<T: Clone>(&mut self, from: impl IntoIterator<Item = T>) -> Option<T> {
        let all: Vec<T> = from.into_iter().collect();
        (!all.is_empty()).then(|| all[self.below(all.len())].clone())
    }

    pub fn fill(&mut self, entries: usize) -> Vec<u32> {
        (0..entries).map(|_| self.next()).collect()
    }

    /// A cell value: few different ones, so that rows meet.
    fn cell(&mut self, values: usize) -> u32 {
        match self.below(60) {
            0 => u32::MAX,
            1 => u32::MAX - 1,
            _ => self.below(values) as u32,
        }
    }
}

pub fn relation(random: &mut Random, columns: &Columns) -> Relation {
    let (rows, values) = if random.once_in(80) { (random.below(40), 12) } else { (random.below(7), 5) };
    (0..rows).map(|_| columns.iter().map(|c| (*c, random.cell(values))).collect()).collect()
}

fn stored(random: &mut Random, schema: &[Columns]) -> Database {
    let tables: Vec<_> = schema.iter().map(|columns| (columns.clone(), relation(random, columns))).collect();
    let spare = random.below(20);
    let mut database = Database::stored(&tables, 0);
    database.store.extend(random.fill(spare));
    database
}

pub fn database(random: &mut Random) -> Database {
    let mut schema = Vec::new();
    if random.once_in(3) {
        // Two tables that share a column.
        schema = vec![Columns::from([0, 1]), Columns::from([0, 3])];
    }
    for _ in 0..[0, 1, 1, 1, 2, 3][random.below(6)] {
        schema.push(match random.below(8) {
            0..=3 => Columns::from([0, 1]),
            4 => Columns::from([0, 3]),
            5 => Columns::from([random.below(4) as u8]),
            6 => (0..3).map(|_| random.below(4) as u8).collect(),
            _ => (0..4).map(|_| random.below(COLUMNS) as u8).collect(),
        });
    }
    stored(random, &schema)
}

/// Another database with the same columns.
pub fn with_columns_of(random: &mut Random, database: &Database) -> Database {
    stored(random, database.schema())
}

/// A query that is checked over the schema.
pub fn query(random: &mut Random, schema: &[Columns], capacity: usize) -> Query {
    let mut size = 2 + random.below(8);
    loop {
        let mut maker = Maker::new(random, schema);
        let mut piece = maker.first(size);
        while maker.random.once_in(3) {
            piece = maker.around(piece);
        }
        if piece.lines.len() <= capacity {
            return Query::new(&piece.lines, capacity);
        }
        size = size.saturating_sub(1);
    }
}

/// A checked query of exactly so many nodes.
pub fn query_of(random: &mut Random, schema: &[Columns], nodes: usize) -> Query {
    loop {
        let mut maker = Maker::new(random, schema);
        let mut piece = maker.first(4);
        while piece.lines.len() < nodes {
            piece = maker.around(piece);
        }
        if piece.lines.len() == nodes {
            return Query::new(&piece.lines, NODES);
        }
    }
}

/// A checked query of at most so many nodes, most of them variables and fixes: each fix is the seed of another.
pub fn query_of_fixes(random: &mut Random, schema: &[Columns], nodes: usize) -> Query {
    let mut maker = Maker::new(random, schema);
    let mut piece = maker.leaf();
    loop {
        let variable = if maker.random.once_in(8) { None } else { maker.variable() };
        let next = match variable {
            Some(variable) => {
                let step = Piece::leaf(Node::Var(variable), piece.columns.clone());
                match maker.random.below(24) {
                    0 => piece.clone().pair(Pairing::Union, step).mu(variable),
                    1 => step.pair(Pairing::Union, piece.clone()).mu(variable),
                    _ => piece.clone().fix(step, variable),
                }
            }
            None => maker.around(piece.clone()),
        };
        if next.lines.len() > nodes {
            return Query::new(&piece.lines, NODES);
        }
        piece = next;
    }
}

/// The most branches of a `mu` that are made one by one; each may be a union of others.
const BRANCHES: usize = 6;

/// What kinds of rewrites look at: a redex for each of the six, in their order, and one for 2 and 3 with an open operand.
const REDEXES: usize = 7;
const OPEN: usize = 6;

/// A database and a checked query whose largest register holds exactly so many rows, nine or more: those of a table, a
/// union, a join or a fix. The lines above it add none.
pub fn query_of_rows(random: &mut Random, rows: u32) -> (Database, Query) {
    let (tables, lines, columns) = match random.below(4) {
        0 => (vec![single(0..rows)], "table=0".to_string(), Columns::from([0])),
        1 => {
            let split = random.below(rows as usize + 1) as u32;
            (vec![single(0..split), single(split..rows)], "table=0 table=1 pair=union".to_string(), Columns::from([0]))
        }
        2 => {
            // Of the left rows, `many` fit `wide` right rows each, the others one each.
            let wide = 1 + random.below(8) as u32;
            let many = rows / wide;
            let left = (0..many).map(|value| [value, 0]).chain((many * wide..rows).map(|value| [value, 1]));
            let right = (0..wide).map(|value| [0, value]).chain([[1, 0]]);
            let tables = vec![double([0, 1], left), double([1, 2], right)];
            (tables, "table=0 table=1 pair=join".to_string(), Columns::from([0, 1, 2]))
        }
        _ => {
            let (chain, lines) = along_a_chain(random, rows, "");
            (vec![chain], lines, Columns::from([1]))
        }
    };
    let database = Database::stored(&tables, 0);
    let mut maker = Maker::new(random, database.schema());
    let mut piece = Piece { lines: nodes(&lines), columns };
    while maker.random.once_in(2) {
        piece = maker.above(piece);
    }
    let query = Query::new(&piece.lines, NODES);
    (database, query)
}

/// A database and a checked query whose recursion adds one row a round until it holds exactly so many, with so many filters on
/// its path and ten or eleven nodes besides. A run with that row limit comes the nearer to the plan's number of lines times it the
/// more filters there are.
pub fn query_of_rounds(random: &mut Random, rows: u32, filters: usize) -> (Database, Query) {
    // The step's values are 1 to rows - 1: each filter keeps them.
    let kept = [format!("ne=1,{rows}"), format!("max=1,{rows}"), "same=1,1".to_string()];
    let filters: Vec<&str> = (0..filters).map(|_| kept[random.below(kept.len())].as_str()).collect();
    let (chain, lines) = along_a_chain(random, rows, &filters.join(" "));
    (Database::stored(&[chain], 0), Query::new(&nodes(&lines), NODES))
}

/// A chain of so many nodes, and a recursion from 0 on along it whose path ends with these lines.
fn along_a_chain(random: &mut Random, rows: u32, last: &str) -> ((Columns, Relation), String) {
    let chain = double([0, 1], (1..rows).map(|value| [value - 1, value]));
    let (first, next) = ("fact=1,0", format!("var=0 copy=1,2 drop=1 table=0 copy=0,2 drop=0 pair=join drop=2 {last}"));
    let lines = match random.below(3) {
        0 => format!("{first} {next} pair=union mu=0"),
        1 => format!("{next} {first} pair=union mu=0"),
        _ => format!("{first} {next} fix=0"),
    };
    (chain, lines)
}

fn single(values: Range<u32>) -> (Columns, Relation) {
    (Columns::from([0]), values.map(|value| Row::from([(0, value)])).collect())
}

fn double(columns: [u8; 2], rows: impl Iterator<Item = [u32; 2]>) -> (Columns, Relation) {
    (Columns::from(columns), rows.map(|row| columns.into_iter().zip(row).collect()).collect())
}

/// Lines and the columns of their last node.
#[derive(Clone)]
struct Piece {
    lines: Vec<Node>,
    columns: Columns,
}

impl Piece {
    fn leaf(line: Node, columns: Columns) -> Piece {
        Piece { lines: vec![line], columns }
    }

    fn filter(mut self, condition: Condition) -> Piece {
        self.lines.push(Node::Filter(condition));
        self
    }

    /// The piece is closed.
    fn last(mut self, column: u8) -> Piece {
        self.lines.push(Node::Last(column));
        self
    }

    fn is_closed(&self) -> bool {
        Term::of(&self.lines).is_ok_and(|term| term.closed())
    }

    fn copy(mut self, from: u8, to: u8) -> Piece {
        self.lines.push(Node::Copy(from, to));
        self.columns.insert(to);
        self
    }

    fn drop(mut self, column: u8) -> Piece {
        self.lines.push(Node::Drop(column));
        self.columns.remove(&column);
        self
    }

    fn pair(mut self, pairing: Pairing, right: Piece) -> Piece {
        self.lines.extend(right.lines);
        self.lines.push(Node::Pair(pairing));
        if pairing == Pairing::Join {
            self.columns.extend(right.columns);
        }
        self
    }

    fn fix(mut self, step: Piece, variable: u8) -> Piece {
        self.lines.extend(step.lines);
        self.lines.push(Node::Fix(variable));
        self
    }

    fn mu(mut self, variable: u8) -> Piece {
        self.lines.push(Node::Mu(variable));
        self
    }
}

struct Maker<'a> {
    random: &'a mut Random,
    schema: &'a [Columns],
    taken: Vec<u8>,
}

impl<'a> Maker<'a> {
    fn new(random: &'a mut Random, schema: &'a [Columns]) -> Maker<'a> {
        Maker { random, schema, taken: Vec::new() }
    }

    /// Something that often is what a kind of rewrite looks at.
    fn first(&mut self, size: usize) -> Piece {
        match self.random.below(8) {
            0 | 1 => self.closed(size),
            2 => self.filtered(size),
            _ => self.redex(size),
        }
    }

    /// Lines above or beside a piece; none if nothing can stand above it.
    fn around(&mut self, piece: Piece) -> Piece {
        if self.random.once_in(3) {
            self.beside(piece)
        } else {
            self.above(piece)
        }
    }

    fn absent(&mut self, columns: &Columns) -> Option<u8> {
        // Low columns more often than high ones.
        let last = if self.random.once_in(4) { COLUMNS as u8 } else { 5 };
        self.random.pick((0..last).filter(|c| !columns.contains(c)))
    }

    fn variable(&mut self) -> Option<u8> {
        let found = self.random.pick((0..VARIABLES).filter(|v| !self.taken.contains(v)))?;
        self.taken.push(found);
        Some(found)
    }

    fn fact(&mut self, column: u8) -> Piece {
        Piece::leaf(Node::Fact(column, self.random.cell(5)), Columns::from([column]))
    }

    /// A table, now and then its last issues alone.
    fn table(&mut self, table: usize) -> Piece {
        let piece = Piece::leaf(Node::Table(table as u8), self.schema[table].clone());
        match self.random.pick(piece.columns.iter().copied()) {
            Some(column) if self.random.once_in(12) => piece.last(column),
            _ => piece,
        }
    }

    /// The last issues of a closed piece by one of its columns, or by a further one that gives each row several.
    fn last(&mut self, piece: Piece) -> Piece {
        let column = self.random.pick(piece.columns.iter().copied());
        match (column, self.absent(&piece.columns)) {
            (_, Some(issue)) if self.random.once_in(3) => {
                let first = self.fact(issue);
                let issues = first.pair(Pairing::Union, self.fact(issue));
                self.joined(piece, issues).last(issue)
            }
            (Some(column), _) => piece.last(column),
            _ => piece,
        }
    }

    fn leaf(&mut self) -> Piece {
        match self.random.pick(0..self.schema.len()) {
            Some(table) if !self.random.once_in(4) => self.table(table),
            _ => {
                let column = self.random.below(4) as u8;
                self.fact(column)
            }
        }
    }

    fn condition(&mut self, columns: &Columns) -> Option<Condition> {
        let column = self.random.pick(columns.iter().copied())?;
        let value = self.random.cell(5);
        Some(match self.random.below(4) {
            0 => Condition::Eq(column, value),
            1 => Condition::Ne(column, value),
            2 => Condition::Max(column, value),
            _ => Condition::Same(column, self.random.pick(columns.iter().copied())?),
        })
    }

    /// A filter, copy, rename or drop above a piece, above a closed one now and then a `last`.
    fn above(&mut self, piece: Piece) -> Piece {
        let column = self.random.pick(piece.columns.iter().copied());
        let absent = self.absent(&piece.columns);
        match (self.random.below(6), column, absent) {
            (5, Some(column), _) if piece.is_closed() => piece.last(column),
            (0, Some(from), Some(to)) => piece.copy(from, to),
            (1, Some(from), Some(to)) => piece.copy(from, to).drop(from),
            (2, Some(column), _) => piece.drop(column),
            _ => match self.condition(&piece.columns) {
                Some(condition) => piece.filter(condition),
                None => piece,
            },
        }
    }

    /// A pair of a piece and something closed.
    fn beside(&mut self, piece: Piece) -> Piece {
        let other = self.other(&piece.columns);
        match self.random.below(4) {
            0 => other.pair(Pairing::Join, piece),
            1 => piece.pair(Pairing::Join, other),
            2 => piece.pair(Pairing::Except, other),
            _ => {
                let other = self.adapt(other, &piece.columns);
                piece.pair(Pairing::Union, other)
            }
        }
    }

    /// A closed piece that often shares a column with given ones.
    fn other(&mut self, columns: &Columns) -> Piece {
        match (self.random.below(6), self.random.pick(columns.iter().copied())) {
            (0..=2, Some(column)) => self.fact(column),
            (3, _) => {
                let column = self.random.below(COLUMNS) as u8;
                self.fact(column)
            }
            (4, _) => self.closed(4),
            _ if self.random.once_in(6) => {
                let piece = self.leaf();
                self.last(piece)
            }
            _ => self.closed(1),
        }
    }

    fn closed(&mut self, size: usize) -> Piece {
        if size <= 1 {
            return self.leaf();
        }
        match self.random.below(10) {
            0 => self.leaf(),
            1 if self.random.once_in(2) => {
                let piece = self.closed(size - 1);
                self.last(piece)
            }
            1..=3 => {
                let piece = self.closed(size - 1);
                self.above(piece)
            }
            4..=6 => {
                let piece = self.closed(size / 2);
                self.beside(piece)
            }
            _ => self.fix(size),
        }
    }

    fn fix(&mut self, size: usize) -> Piece {
        let Some(variable) = self.variable() else {
            return self.leaf();
        };
        if self.random.once_in(3) {
            return self.homing(variable, size);
        }
        if !self.random.once_in(3) {
            if let Some(reach) = self.reach(variable) {
                return reach;
            }
        }
        let seed = self.closed(size / 3);
        let mut step = Piece::leaf(Node::Var(variable), seed.columns.clone());
        for _ in 0..self.random.below(4) {
            step = self.walk(step, variable, &seed.columns);
        }
        let step = self.adapt(step, &seed.columns);
        self.recursion(seed, step, variable)
    }

    /// A fix, or as often the same and more typed in one piece.
    fn recursion(&mut self, seed: Piece, step: Piece, variable: u8) -> Piece {
        if self.random.once_in(2) {
            return seed.fix(step, variable);
        }
        let columns = seed.columns.clone();
        let mut branches = vec![seed, step];
        while branches.len() < BRANCHES && self.random.once_in(2) {
            let branch = self.branch(variable, &columns);
            branches.push(self.adapt(branch, &columns));
        }
        for at in 1..branches.len() {
            branches.swap(at, self.random.below(at + 1));
        }
        self.united(branches).mu(variable)
    }

    /// A closed branch or an open one.
    fn branch(&mut self, variable: u8, columns: &Columns) -> Piece {
        if self.random.once_in(2) {
            return self.other(columns);
        }
        let branch = Piece::leaf(Node::Var(variable), columns.clone());
        match self.random.below(3) {
            0 => branch,
            1 => self.walk(branch, variable, columns),
            _ => {
                // A union under another line is no cut.
                let more = Piece::leaf(Node::Var(variable), columns.clone());
                let union = branch.pair(Pairing::Union, more);
                self.above(union)
            }
        }
    }

    /// Pieces united in their order, in any grouping.
    fn united(&mut self, mut pieces: Vec<Piece>) -> Piece {
        while pieces.len() > 1 {
            let at = self.random.below(pieces.len() - 1);
            let right = pieces.remove(at + 1);
            pieces[at] = pieces[at].clone().pair(Pairing::Union, right);
        }
        pieces.remove(0)
    }

    /// A recursion like Reach over a table of two columns or more: a hop from one column to another, with a filter, a
    /// further branch or a passing column now and then.
    fn reach(&mut self, variable: u8) -> Option<Piece> {
        let schema = self.schema;
        let table = self.random.pick((0..schema.len()).filter(|t| schema[*t].len() >= 2))?;
        let mut seed = self.table(table);
        let lowest = *seed.columns.first()?;
        let from = if self.random.once_in(3) { self.random.pick(seed.columns.clone())? } else { lowest };
        let to = self.random.pick(seed.columns.iter().copied().filter(|c| *c != from))?;
        if self.random.once_in(3) {
            let passing = self.absent(&seed.columns)?;
            let fact = self.fact(passing);
            seed = seed.pair(Pairing::Join, fact);
        }
        let middle = self.absent(&seed.columns)?;
        let mut step = Piece::leaf(Node::Var(variable), seed.columns.clone()).copy(to, middle).drop(to);
        let hop = self.table(table).copy(from, middle).drop(from);
        step = self.joined(step, hop).drop(middle);
        if self.random.once_in(3) {
            step = self.walk(step, variable, &seed.columns);
            step = self.adapt(step, &seed.columns);
        }
        Some(self.recursion(seed, step, variable))
    }

    /// A recursion on whose path columns leave their names and come home, or others take their place.
    fn homing(&mut self, variable: u8, size: usize) -> Piece {
        let seed = match self.random.pick((0..self.schema.len()).filter(|t| self.schema[*t].len() >= 2)) {
            Some(table) if !self.random.once_in(4) => self.table(table),
            _ => self.closed(size / 3),
        };
        let columns = seed.columns.clone();
        let mut step = self.journey(variable, &columns);
        if self.random.once_in(3) {
            // The sides agree on some origins and seldom on all.
            let side = self.journey(variable, &columns);
            step = match self.random.below(2) {
                0 => step.pair(Pairing::Union, side),
                _ => side.pair(Pairing::Union, step),
            };
            if self.random.once_in(3) {
                step = self.trip(step);
                step = self.adapt(step, &columns);
            }
        }
        self.recursion(seed, step, variable)
    }

    /// Trips of the columns of a variable, seldom none.
    fn journey(&mut self, variable: u8, columns: &Columns) -> Piece {
        let mut path = Piece::leaf(Node::Var(variable), columns.clone());
        for _ in 0..[0, 1, 1, 1, 1, 2][self.random.below(6)] {
            path = self.trip(path);
        }
        self.adapt(path, columns)
    }

    /// A column is copied to a working column, dropped and copied back. Now and then it is exchanged with another by way of the
    /// working column, brought by an operand, or a copy of a column that an operand brings.
    fn trip(&mut self, path: Piece) -> Piece {
        let column = self.random.pick(path.columns.iter().copied());
        let (Some(column), Some(working)) = (column, self.absent(&path.columns)) else {
            return path;
        };
        let other = self.random.pick(path.columns.iter().copied().filter(|c| *c != column));
        match (self.random.below(12), other) {
            (0, _) => {
                let operand = self.having(column);
                self.joined(path.drop(column), operand)
            }
            (1, _) => {
                let operand = self.having(working);
                self.joined(path, operand).drop(column).copy(working, column).drop(working)
            }
            (2..=3, Some(other)) => {
                let exchanged = path.copy(column, working).drop(column).copy(other, column).drop(other);
                exchanged.copy(working, other).drop(working)
            }
            _ => {
                let mut path = path.copy(column, working).drop(column);
                if !self.random.once_in(4) {
                    path = self.hop(path, working);
                }
                for _ in 0..[0, 0, 1, 1, 2][self.random.below(5)] {
                    path = self.meanwhile(path, working);
                }
                // An operand may have brought the column back.
                if !path.columns.contains(&column) {
                    path = path.copy(working, column);
                }
                path.drop(working)
            }
        }
    }

    /// One more operator on a path, which keeps the working column.
    fn meanwhile(&mut self, path: Piece, working: u8) -> Piece {
        match self.random.below(8) {
            0 => match self.condition(&path.columns) {
                Some(condition) => path.filter(condition),
                None => path,
            },
            1 => match self.absent(&path.columns) {
                Some(further) => path.copy(working, further),
                None => path,
            },
            2 => {
                let operand = self.having(working);
                self.joined(path, operand)
            }
            3 => {
                let operand = if self.random.once_in(2) { self.fix(3) } else { self.other(&path.columns) };
                self.joined(path, operand)
            }
            4 => {
                let operand = self.other(&path.columns);
                path.pair(Pairing::Except, operand)
            }
            _ => self.hop(path, working),
        }
    }

    /// A hop as in Reach over two columns of a table, of which the path has the second.
    fn hop(&mut self, path: Piece, working: u8) -> Piece {
        let tables = (0..self.schema.len()).filter(|t| self.schema[*t].len() >= 2);
        let Some(hop) = self.random.pick(tables).map(|table| self.table(table)) else {
            return path;
        };
        let to = self.random.pick(hop.columns.iter().copied().filter(|c| path.columns.contains(c) && *c != working));
        let from = self.random.pick(hop.columns.iter().copied().filter(|c| Some(*c) != to));
        let middle = self.absent(&(&path.columns | &hop.columns));
        let (Some(to), Some(from), Some(middle)) = (to, from, middle) else {
            return path;
        };
        let mut hop = hop.copy(from, middle).drop(from);
        if !self.random.once_in(4) {
            hop = self.adapt(hop, &Columns::from([middle, to]));
        }
        self.joined(path.copy(to, middle).drop(to), hop).drop(middle)
    }

    /// A closed piece that has a column.
    fn having(&mut self, column: u8) -> Piece {
        let piece = self.leaf();
        match self.random.pick(piece.columns.iter().copied()) {
            Some(_) if piece.columns.contains(&column) => piece,
            Some(from) if !self.random.once_in(3) => piece.copy(from, column).drop(from),
            _ => self.fact(column),
        }
    }

    /// A path joined to a closed piece on either side.
    fn joined(&mut self, path: Piece, operand: Piece) -> Piece {
        match self.random.below(2) {
            0 => path.pair(Pairing::Join, operand),
            _ => operand.pair(Pairing::Join, path),
        }
    }

    /// A recursion over some of a fix's columns, on whose path they come home by way of columns that the fix doesn't have.
    fn homing_beside(&mut self, fix: &Columns) -> Option<Piece> {
        let variable = self.variable()?;
        let shared: Columns = fix.iter().copied().filter(|_| !self.random.once_in(3)).collect();
        let seed = self.closed(2);
        let seed = self.adapt(seed, &shared);
        let mut step = Piece::leaf(Node::Var(variable), shared.clone());
        for _ in 0..1 + self.random.below(2) {
            let (column, working) = (self.random.pick(shared.clone())?, self.absent(fix)?);
            step = step.copy(column, working).drop(column);
            if self.random.once_in(2) {
                step = step.filter(self.condition(&Columns::from([working]))?);
            }
            step = step.copy(working, column).drop(working);
        }
        Some(self.recursion(seed, step, variable))
    }

    /// A recursion like Reach that shares one column with a fix, which comes home, and has no other that the fix has.
    fn reach_beside(&mut self, fix: &Columns) -> Option<Piece> {
        let schema = self.schema;
        let table =
            self.random.pick((0..schema.len()).filter(|t| schema[*t].len() >= 2 && !schema[*t].is_disjoint(fix)))?;
        let shared = self.random.pick(&schema[table] & fix)?;
        let to = self.random.pick(schema[table].iter().copied().filter(|c| *c != shared))?;
        let mut taken = fix | &schema[table];
        let mut free = || {
            let found = self.random.pick((0..COLUMNS as u8).filter(|c| !taken.contains(c)))?;
            taken.insert(found);
            Some(found)
        };
        let (own, middle, working) = (free()?, free()?, free()?);
        let variable = self.variable()?;
        let hop = self.table(table).copy(to, own);
        let seed = self.adapt(hop.clone(), &Columns::from([shared, own]));
        let hop = self.adapt(hop.copy(shared, middle), &Columns::from([middle, own]));
        let step = Piece::leaf(Node::Var(variable), seed.columns.clone());
        let step = step.copy(shared, working).drop(shared).copy(own, middle).drop(own);
        let step = self.joined(step, hop).drop(middle).copy(working, shared).drop(working);
        Some(self.recursion(seed, step, variable))
    }

    /// One more operator on a path whose variable has the columns `whole`.
    fn walk(&mut self, path: Piece, variable: u8, whole: &Columns) -> Piece {
        match self.random.below(6) {
            0..=2 => self.above(path),
            3 => {
                let mut branch = Piece::leaf(Node::Var(variable), whole.clone());
                if !self.random.once_in(3) {
                    branch = self.walk(branch, variable, whole);
                }
                let branch = self.adapt(branch, &path.columns);
                path.pair(Pairing::Union, branch)
            }
            _ => {
                let other = if self.random.once_in(5) { self.fix(3) } else { self.other(&path.columns) };
                match self.random.below(3) {
                    0 => other.pair(Pairing::Join, path),
                    1 => path.pair(Pairing::Join, other),
                    _ => path.pair(Pairing::Except, other),
                }
            }
        }
    }

    /// Gives a piece exactly the wanted columns.
    fn adapt(&mut self, mut piece: Piece, wanted: &Columns) -> Piece {
        for column in wanted - &piece.columns {
            piece = match self.random.pick(&piece.columns - wanted).or(self.random.pick(piece.columns.clone())) {
                Some(from) => piece.copy(from, column),
                None => {
                    let fact = self.fact(column);
                    piece.pair(Pairing::Join, fact)
                }
            };
        }
        for column in &piece.columns - wanted {
            piece = piece.drop(column);
        }
        piece
    }

    /// Something that a kind of rewrite looks at.
    fn redex(&mut self, size: usize) -> Piece {
        let fix = self.fix(size);
        let sort = self.random.below(REDEXES);
        self.redex_over(fix, sort, size)
    }

    /// What a kind looks at, over or beside a fix.
    fn redex_over(&mut self, fix: Piece, sort: usize, size: usize) -> Piece {
        match sort {
            // Kind 1 takes no `last` for a filter.
            0 if self.random.once_in(4) => self.last(fix),
            0 => match self.condition(&fix.columns) {
                Some(condition) => fix.filter(condition),
                None => fix,
            },
            1 => {
                let other = self.other(&fix.columns);
                fix.pair(Pairing::Join, other)
            }
            2 => {
                let other = self.other(&fix.columns);
                other.pair(Pairing::Join, fix)
            }
            3 => {
                let other = self.other(&fix.columns);
                fix.pair(Pairing::Except, other)
            }
            4 => match self.random.pick(fix.columns.clone()) {
                Some(column) => fix.drop(column),
                None => fix,
            },
            5 => {
                let beside = match self.random.below(6) {
                    0 | 1 => self.homing_beside(&fix.columns),
                    2 => self.reach_beside(&fix.columns),
                    _ => None,
                };
                let right = beside.unwrap_or_else(|| self.fix(size));
                self.joined(fix, right)
            }
            _ => {
                // In the step of an outer fix: the fix joined to the outer variable, which has some of its columns.
                let Some(variable) = self.variable() else {
                    return fix;
                };
                let columns: Columns = fix.columns.iter().copied().filter(|_| self.random.once_in(2)).collect();
                let seed = self.closed(size / 3);
                let seed = self.adapt(seed, &columns);
                let outer = Piece::leaf(Node::Var(variable), columns.clone());
                let step = self.joined(outer, fix);
                let step = self.adapt(step, &columns);
                self.recursion(seed, step, variable)
            }
        }
    }
}

/// Any line of a query's form.
pub fn node(random: &mut Random) -> Node {
    let (a, b) = (random.below(COLUMNS) as u8, random.below(COLUMNS) as u8);
    let variable = random.below(usize::from(VARIABLES)) as u8;
    let value = if random.once_in(2) { random.next() } else { random.cell(5) };
    match random.below(15) {
        0 => Node::Table(random.below(TABLES as usize) as u8),
        1 => Node::Var(variable),
        2 => Node::Fix(variable),
        3 => Node::Fact(a, value),
        4 => Node::Pair(Pairing::Union),
        5 => Node::Pair(Pairing::Join),
        6 => Node::Pair(Pairing::Except),
        7 => Node::Filter(Condition::Eq(a, value)),
        8 => Node::Filter(Condition::Ne(a, value)),
        9 => Node::Filter(Condition::Max(a, value)),
        10 => Node::Filter(Condition::Same(a, b)),
        11 => Node::Copy(a, b),
        12 => Node::Mu(variable),
        13 => Node::Last(a),
        _ => Node::Drop(a),
    }
}

/// The kinds that look at a line of a split query and at the one under it, each with the line's node. Those at filters are taken at
/// each `last` too, and kind 1 whatever stands under it.
pub fn likely(lines: &[Node]) -> Vec<(u32, u32)> {
    let kinds = |line: &Node, under: Option<&Node>| match (line, under) {
        (Node::Filter(_) | Node::Last(_), Some(Node::Pair(Pairing::Union))) => &[1, 7][..],
        (Node::Filter(_) | Node::Last(_), Some(Node::Pair(Pairing::Join))) => &[1, 8, 9],
        (Node::Filter(_) | Node::Last(_), Some(Node::Pair(Pairing::Except))) => &[1, 10],
        (Node::Filter(_) | Node::Last(_), Some(Node::Filter(_) | Node::Last(_))) => &[1, 11],
        (Node::Filter(_) | Node::Last(_), _) => &[1],
        (Node::Pair(Pairing::Join), _) => &[2, 3, 6],
        (Node::Pair(Pairing::Except), _) => &[4],
        (Node::Drop(_), _) => &[5],
        _ => &[],
    };
    // The operand of a line that has one ends with the line before it.
    let under = std::iter::once(None).chain(lines.iter().map(Some));
    let at = |((line, under), node)| kinds(line, under).iter().map(move |kind| (*kind, node));
    lines.iter().zip(under).zip(1..).flat_map(at).collect()
}

/// A list of steps, most of them at lines of the split query that a kind looks at, some at such lines as typed.
pub fn steps(random: &mut Random, query: &Query) -> Vec<(u32, u32)> {
    let split = if random.once_in(6) { None } else { split_lines(query) };
    let likely = likely(split.as_deref().unwrap_or(query.lines()));
    (0..random.below(5))
        .map(|_| match random.pick(likely.iter().copied()) {
            Some(step) if !random.once_in(6) => step,
            _ if random.once_in(6) => (random.next(), random.next()),
            _ => (random.below(KINDS + 2) as u32, random.below(query.count as usize + 2) as u32),
        })
        .collect()
}

/// The lines of the split query, if it is split.
fn split_lines(query: &Query) -> Option<Vec<Node>> {
    query.form().ok()?;
    split(&Term::of(query.lines()).ok()?).ok()
}
