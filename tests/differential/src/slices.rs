//! The slices that a call is lent, and the values that stand in them by the layout of include/capeshard.h.

use reference::algebra::{Columns, Condition, Pairing};
use reference::check::Checked;
use reference::plan::{plan, Line, Operation};
use reference::value::{Database, Node, Query, NODES, TABLES};

pub const LINE: usize = 3;
/// The code of a `mu`. No query has a line of the code before it, which is that of a plan's start.
const MU: u32 = 15;
/// The code of a `last`, in queries and in plans.
pub const LAST: u32 = 16;
pub const QUERY_ROOM: usize = 1 + LINE * NODES;
pub const TABLE: usize = 2;
pub const DATABASE_ROOM: usize = 1 + TABLE * TABLES as usize;
pub const RUN_ROOM: usize = 3;
pub const SLOT: usize = 7;
pub const PLAN_ROOM: usize = 1 + SLOT * NODES;
pub const ALLOWANCE_ROOM: usize = 1;
pub const PAUSE_ROOM: usize = 2;

/// Whatever a call takes; what it does not take stays empty.
#[derive(Clone, Debug, Default, PartialEq, Eq)]
pub struct Slices {
    pub text: Vec<u8>,
    pub query: Vec<u32>,
    pub database: Vec<u32>,
    pub store: Vec<u32>,
    pub plan: Vec<u32>,
    pub allowance: Vec<u32>,
    pub workspace: Vec<u32>,
    pub answer: Vec<u32>,
    pub told: Vec<u32>,
    pub pause: Vec<u32>,
}

fn line_of(node: &Node) -> [u32; LINE] {
    let two = |code, a: u8, b: u32| [code, u32::from(a), b];
    match *node {
        Node::Table(t) => two(1, t, 0),
        Node::Var(v) => two(2, v, 0),
        Node::Fact(c, w) => two(3, c, w),
        Node::Pair(Pairing::Union) => [4, 0, 0],
        Node::Pair(Pairing::Join) => [5, 0, 0],
        Node::Pair(Pairing::Except) => [6, 0, 0],
        Node::Filter(Condition::Eq(c, w)) => two(7, c, w),
        Node::Filter(Condition::Ne(c, w)) => two(8, c, w),
        Node::Filter(Condition::Max(c, w)) => two(9, c, w),
        Node::Filter(Condition::Same(c, d)) => two(10, c, u32::from(d)),
        Node::Copy(a, b) => two(11, a, u32::from(b)),
        Node::Drop(a) => two(12, a, 0),
        Node::Fix(v) => two(13, v, 0),
        Node::Mu(v) => two(MU, v, 0),
        Node::Last(c) => two(LAST, c, 0),
    }
}

/// The reference keeps these numbers in a byte: any higher one is as far off the form as the highest byte.
fn byte(number: u32) -> u8 {
    number.min(u32::from(u8::MAX)) as u8
}

fn node_of(line: &[u32]) -> Node {
    let (a, b) = (byte(line[1]), line[2]);
    match line[0] {
        1 => Node::Table(a),
        2 => Node::Var(a),
        3 => Node::Fact(a, b),
        4 => Node::Pair(Pairing::Union),
        5 => Node::Pair(Pairing::Join),
        6 => Node::Pair(Pairing::Except),
        7 => Node::Filter(Condition::Eq(a, b)),
        8 => Node::Filter(Condition::Ne(a, b)),
        9 => Node::Filter(Condition::Max(a, b)),
        10 => Node::Filter(Condition::Same(a, byte(b))),
        11 => Node::Copy(a, byte(b)),
        12 => Node::Drop(a),
        13 => Node::Fix(a),
        MU => Node::Mu(a),
        LAST => Node::Last(a),
        // Another code is a line off the form.
        _ => Node::Table(u8::MAX),
    }
}

pub fn flat_query(lines: &[Node]) -> Vec<u32> {
    let mut flat = vec![lines.len() as u32];
    flat.extend(lines.iter().flat_map(line_of));
    flat
}

/// The query in a slice with room for it; `limit` is the highest node count taken.
pub fn query_of(flat: &[u32], limit: usize) -> Query {
    Query { nodes: flat[1..QUERY_ROOM].chunks(LINE).take(limit).map(node_of).collect(), count: flat[0] }
}

/// Whether a query in a slice with room for it has a line of a code.
fn has(code: u32, flat: &[u32]) -> bool {
    let lines = || flat[1..].chunks_exact(LINE);
    flat.first().is_some_and(|count| lines().take(*count as usize).any(|line| line[0] == code))
}

pub fn has_mu(flat: &[u32]) -> bool {
    has(MU, flat)
}

pub fn has_last(flat: &[u32]) -> bool {
    has(LAST, flat)
}

pub fn bits_of(columns: &Columns) -> u32 {
    columns.iter().map(|column| 1 << column).sum()
}

pub fn flat_database(database: &Database) -> Vec<u32> {
    let mut flat = vec![database.tables];
    for (columns, rows) in database.columns.iter().zip(&database.rows) {
        flat.extend([bits_of(columns), *rows]);
    }
    flat
}

/// The database in a slice with room for it.
pub fn database_of(flat: &[u32], store: &[u32]) -> Database {
    let columns = |bits: u32| (0..u32::BITS as u8).filter(|column| bits >> column & 1 == 1).collect();
    let tables = || flat[1..DATABASE_ROOM].chunks(TABLE);
    Database {
        tables: flat[0],
        columns: tables().map(|table| columns(table[0])).collect(),
        rows: tables().map(|table| table[1]).collect(),
        store: store.to_vec(),
    }
}

/// A plan line: a code, the register that it writes, three numbers, and the columns of a pair's operands.
fn slot_of(line: &Line, checked: &Checked) -> [u32; SLOT] {
    let source = |index: usize| line.sources[index] as u32;
    let filter = |code, c: u8, w: u32| [code, source(0), c.into(), w];
    let pair = |code| [code, source(0), source(1), 0];
    let of_fix = |code, delta: usize| [code, delta as u32, source(0), line.path as u32];
    let [code, a, b, c] = match line.operation {
        Operation::Table(t) => [1, t.into(), 0, 0],
        Operation::Fact(c, w) => [3, c.into(), w, 0],
        Operation::Pair(Pairing::Union) => pair(4),
        Operation::Pair(Pairing::Join) => pair(5),
        Operation::Pair(Pairing::Except) => pair(6),
        Operation::Filter(Condition::Eq(c, w)) => filter(7, c, w),
        Operation::Filter(Condition::Ne(c, w)) => filter(8, c, w),
        Operation::Filter(Condition::Max(c, w)) => filter(9, c, w),
        Operation::Filter(Condition::Same(c, d)) => filter(10, c, d.into()),
        Operation::Copy(a, b) => filter(11, a, b.into()),
        Operation::Drop(a) => filter(12, a, 0),
        Operation::Last(c) => filter(LAST, c, 0),
        Operation::Again { delta } => of_fix(13, delta),
        Operation::Start { delta } => of_fix(14, delta),
    };
    let [left, right] = operand_columns(line, checked).map_or([0, 0], |columns| columns.map(bits_of));
    [code, line.destination as u32, a, b, c, left, right]
}

/// The columns of a pair's operands.
pub fn operand_columns<'a>(line: &Line, checked: &'a Checked) -> Option<[&'a Columns; 2]> {
    if !matches!(line.operation, Operation::Pair(_)) {
        return None;
    }
    let term = checked.root.at(line.destination + 1)?;
    Some([0, 1].map(|operand| checked.columns(&term.operands[operand])))
}

pub fn flat_plan(checked: &Checked) -> Vec<u32> {
    let lines = plan(&checked.root).lines;
    let mut flat = vec![lines.len() as u32];
    flat.extend(lines.iter().flat_map(|line| slot_of(line, checked)));
    flat
}

/// Entries written from a slice's start on.
pub fn over(entries: &[u32], slice: &mut [u32]) {
    slice[..entries.len()].copy_from_slice(entries);
}
