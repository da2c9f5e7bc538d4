//! Queries and stored databases handed in as values, and the form they must have.

use crate::algebra::{Columns, Condition, Pairing, Relation, Row};

pub const COLUMNS: usize = 8;
pub const TABLES: u32 = 16;
pub const VARIABLES: u8 = 16;
pub const NODES: usize = 128;
pub const TABLE_ROWS: u32 = 4096;

/// The highest number given to editors.
pub const NUMBERS: usize = 23;

/// A number given to editors and its place.
#[derive(Clone, Copy, Debug, PartialEq, Eq)]
pub struct Refusal {
    pub number: u32,
    pub place: u32,
}

pub fn refuse<T>(number: u32, place: u32) -> Result<T, Refusal> {
    Err(Refusal { number, place })
}

#[derive(Clone, Copy, Debug, PartialEq, Eq)]
pub enum Node {
    Table(u8),
    Var(u8),
    Fact(u8, u32),
    Pair(Pairing),
    Filter(Condition),
    Copy(u8, u8),
    Drop(u8),
    Fix(u8),
    /// A recursion typed in one piece: its operand is the body.
    Mu(u8),
    /// Of the rows that agree in every other column the one that holds the most there.
    Last(u8),
}

impl Node {
    pub fn arity(&self) -> usize {
        match self {
            Node::Table(_) | Node::Var(_) | Node::Fact(..) => 0,
            Node::Filter(_) | Node::Last(_) | Node::Copy(..) | Node::Drop(_) | Node::Mu(_) => 1,
            Node::Pair(_) | Node::Fix(_) => 2,
        }
    }

    /// The columns that the line names.
    pub fn names(&self) -> Columns {
        match *self {
            Node::Table(_) | Node::Var(_) | Node::Pair(_) | Node::Fix(_) | Node::Mu(_) => Columns::new(),
            Node::Fact(c, _) | Node::Drop(c) | Node::Last(c) => Columns::from([c]),
            Node::Filter(condition) => condition.columns(),
            Node::Copy(a, b) => Columns::from([a, b]),
        }
    }

    fn on_the_form(&self) -> bool {
        let number = match *self {
            Node::Table(number) => u32::from(number) < TABLES,
            Node::Var(number) | Node::Fix(number) | Node::Mu(number) => number < VARIABLES,
            _ => true,
        };
        number && self.names().iter().all(|c| usize::from(*c) < COLUMNS)
    }
}

/// `count` lines at the front of as many entries as the query may have.
#[derive(Clone, Debug, PartialEq, Eq)]
pub struct Query {
    pub nodes: Vec<Node>,
    pub count: u32,
}

impl Query {
    pub fn new(lines: &[Node], capacity: usize) -> Query {
        let mut nodes = lines.to_vec();
        nodes.resize(capacity, Node::Table(0));
        Query { nodes, count: lines.len() as u32 }
    }

    pub fn lines(&self) -> &[Node] {
        &self.nodes[..self.count as usize]
    }

    /// The most nodes that it may have.
    pub fn most(&self) -> usize {
        self.nodes.len().min(NODES)
    }

    /// 2 with place 0, then 1 with the lowest node off the form.
    pub fn form(&self) -> Result<(), Refusal> {
        if self.count == 0 || self.count as usize > self.most() {
            return refuse(2, 0);
        }
        match self.lines().iter().position(|node| !node.on_the_form()) {
            Some(index) => refuse(1, index as u32 + 1),
            None => Ok(()),
        }
    }
}

/// Table after table from the store's start, 8 entries a row. Columns and rows past the table count mean nothing.
#[derive(Clone, Debug, PartialEq, Eq)]
pub struct Database {
    pub tables: u32,
    pub columns: Vec<Columns>,
    pub rows: Vec<u32>,
    pub store: Vec<u32>,
}

impl Database {
    /// 11 with 16 for the table count, else with the lowest table that is off the form.
    pub fn form(&self) -> Result<(), Refusal> {
        if self.tables > TABLES {
            return refuse(11, TABLES);
        }
        for table in 0..self.tables as usize {
            if !self.table_form(table) {
                return refuse(11, table as u32);
            }
        }
        Ok(())
    }

    /// Whether a table is on the form, those before it being so.
    fn table_form(&self, table: usize) -> bool {
        let (Some(columns), Some(&rows)) = (self.columns.get(table), self.rows.get(table)) else {
            return false;
        };
        if columns.is_empty() || columns.iter().any(|c| usize::from(*c) >= COLUMNS) || rows > TABLE_ROWS {
            return false;
        }
        let start = self.start(table);
        let Some(entries) = self.store.get(start..start + COLUMNS * rows as usize) else {
            return false;
        };
        let slots: Vec<&[u32]> = entries.chunks(COLUMNS).collect();
        let clean = |row: &&[u32]| (0..COLUMNS).all(|c| columns.contains(&(c as u8)) || row[c] == 0);
        slots.iter().all(clean) && slots.windows(2).all(|pair| pair[0] < pair[1])
    }

    fn start(&self, table: usize) -> usize {
        self.rows[..table].iter().map(|rows| COLUMNS * *rows as usize).sum()
    }

    /// The column sets of the tables.
    pub fn schema(&self) -> &[Columns] {
        &self.columns[..self.columns.len().min(self.tables as usize)]
    }

    /// The tables as relations; the database is on the form.
    pub fn relations(&self) -> Vec<Relation> {
        (0..self.tables as usize)
            .map(|table| {
                let start = self.start(table);
                let entries = &self.store[start..start + COLUMNS * self.rows[table] as usize];
                entries.chunks(COLUMNS).map(|slots| row_of(slots, &self.columns[table])).collect()
            })
            .collect()
    }

    /// The stored form of relations, in a store with `spare` entries more than they need.
    pub fn stored(tables: &[(Columns, Relation)], spare: usize) -> Database {
        let mut store: Vec<u32> = tables.iter().flat_map(|(_, relation)| slots_of(relation)).collect();
        store.resize(store.len() + spare, 0);
        Database {
            tables: tables.len() as u32,
            columns: tables.iter().map(|(columns, _)| columns.clone()).collect(),
            rows: tables.iter().map(|(_, relation)| relation.len() as u32).collect(),
            store,
        }
    }
}

pub fn row_of(slots: &[u32], columns: &Columns) -> Row {
    columns.iter().map(|c| (*c, slots[usize::from(*c)])).collect()
}

/// 8 slots a row, ascending, absent slots 0.
pub fn slots_of(relation: &Relation) -> Vec<u32> {
    let mut rows: Vec<[u32; COLUMNS]> = relation
        .iter()
        .map(|row| {
            let mut slots = [0; COLUMNS];
            for (column, value) in row {
                slots[usize::from(*column)] = *value;
            }
            slots
        })
        .collect();
    rows.sort();
    rows.concat()
}
