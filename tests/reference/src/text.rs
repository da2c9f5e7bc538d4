//! Reading and printing: query, database and steps texts, answers and refusals.

use crate::algebra::{Columns, Condition, Pairing, Relation};
use crate::run::Answer;
use crate::value::{refuse, slots_of, Database, Node, Query, Refusal, COLUMNS, TABLES, TABLE_ROWS, VARIABLES};

/// The lines of a text, each ended by byte 10. `number` is that of the line last asked for.
pub struct Lines<'a> {
    rest: &'a [u8],
    pub number: u32,
}

impl<'a> Lines<'a> {
    pub fn new(text: &'a [u8]) -> Lines<'a> {
        Lines { rest: text, number: 0 }
    }

    /// `None` if the line is missing or lacks its byte 10.
    pub fn next_line(&mut self) -> Option<&'a [u8]> {
        self.number += 1;
        let end = self.rest.iter().position(|byte| *byte == b'\n')?;
        let line = &self.rest[..end];
        self.rest = &self.rest[end + 1..];
        Some(line)
    }

    pub fn at_end(&self) -> bool {
        self.rest.is_empty()
    }

    /// The next line through a reader of its form; the refusal of that line otherwise.
    fn due<T>(&mut self, number: u32, form: impl FnOnce(&'a [u8]) -> Option<T>) -> Result<T, Refusal> {
        match self.next_line().and_then(form) {
            Some(found) => Ok(found),
            None => refuse(number, self.number),
        }
    }

    /// Nothing after the last line.
    fn end(&self, number: u32) -> Result<(), Refusal> {
        if self.at_end() {
            Ok(())
        } else {
            refuse(number, self.number + 1)
        }
    }
}

/// A decimal number without leading zeros, at most `most`.
pub fn number(digits: &[u8], most: u32) -> Option<u32> {
    let canonical = digits == b"0" || digits.first().is_some_and(|first| *first != b'0');
    if !canonical || digits.len() > 10 || !digits.iter().all(u8::is_ascii_digit) {
        return None;
    }
    let value = digits.iter().fold(0u64, |value, digit| 10 * value + u64::from(digit - b'0'));
    u32::try_from(value).ok().filter(|value| *value <= most)
}

fn header(line: &[u8]) -> Option<()> {
    (line == b"guide=1").then_some(())
}

/// What stands after the key and its equals sign.
fn value<'a>(line: &'a [u8], key: &str) -> Option<&'a [u8]> {
    line.strip_prefix(key.as_bytes())?.strip_prefix(b"=")
}

fn keyed(line: &[u8], key: &str, most: u32) -> Option<u32> {
    number(value(line, key)?, most)
}

/// Numbers with commas between.
fn list(digits: &[u8], most: u32) -> Option<Vec<u32>> {
    digits.split(|byte| *byte == b',').map(|part| number(part, most)).collect()
}

pub fn read_node(line: &[u8]) -> Option<Node> {
    let equals = line.iter().position(|byte| *byte == b'=')?;
    let (key, value) = (&line[..equals], &line[equals + 1..]);
    let one = |most: u32| number(value, most).map(|found| found as u8);
    let two = |most: u32| {
        let comma = value.iter().position(|byte| *byte == b',')?;
        Some((number(&value[..comma], COLUMNS as u32 - 1)? as u8, number(&value[comma + 1..], most)?))
    };
    let column = COLUMNS as u32 - 1;
    let variable = u32::from(VARIABLES) - 1;
    match key {
        b"table" => one(TABLES - 1).map(Node::Table),
        b"var" => one(variable).map(Node::Var),
        b"fix" => one(variable).map(Node::Fix),
        b"mu" => one(variable).map(Node::Mu),
        b"drop" => one(column).map(Node::Drop),
        b"last" => one(column).map(Node::Last),
        b"fact" => two(u32::MAX).map(|(c, w)| Node::Fact(c, w)),
        b"eq" => two(u32::MAX).map(|(c, w)| Node::Filter(Condition::Eq(c, w))),
        b"ne" => two(u32::MAX).map(|(c, w)| Node::Filter(Condition::Ne(c, w))),
        b"max" => two(u32::MAX).map(|(c, w)| Node::Filter(Condition::Max(c, w))),
        b"same" => two(column).map(|(c, d)| Node::Filter(Condition::Same(c, d as u8))),
        b"copy" => two(column).map(|(a, b)| Node::Copy(a, b as u8)),
        b"pair" => match value {
            b"union" => Some(Node::Pair(Pairing::Union)),
            b"join" => Some(Node::Pair(Pairing::Join)),
            b"except" => Some(Node::Pair(Pairing::Except)),
            _ => None,
        },
        _ => None,
    }
}

/// Lines on the form, with blanks between.
pub fn nodes(lines: &str) -> Vec<Node> {
    let read = |line| read_node(str::as_bytes(line)).expect("a line on the form");
    lines.split_whitespace().map(read).collect()
}

/// 1 at the first bad line, then 2 at line 2.
pub fn read_query(text: &[u8], limit: usize) -> Result<Query, Refusal> {
    let mut lines = Lines::new(text);
    lines.due(1, header)?;
    let count = lines.due(1, |line| keyed(line, "nodes", u32::MAX))?;
    let mut nodes = Vec::new();
    for _ in 0..count {
        let node = lines.due(1, read_node)?;
        if nodes.len() < limit {
            nodes.push(node);
        }
    }
    lines.end(1)?;
    if count == 0 || count as usize > limit {
        return refuse(2, 2);
    }
    Ok(Query::new(&nodes, limit))
}

/// What a book of zero bytes means.
pub const NO_TABLES: &[u8] = b"guide=1\ntables=0\n";

/// 11 at the first bad line, then 17 if the store is short. The result's store is the one given, with the rows written
/// from its start.
pub fn read_database(text: &[u8], store: &[u32]) -> Result<Database, Refusal> {
    let mut lines = Lines::new(if text.is_empty() { NO_TABLES } else { text });
    lines.due(11, header)?;
    let tables = lines.due(11, |line| keyed(line, "tables", TABLES))?;
    let mut read = Vec::new();
    for _ in 0..tables {
        let columns: Vec<u8> = lines.due(11, |line| {
            let columns = list(value(line, "cols")?, COLUMNS as u32 - 1)?;
            let ascending = columns.windows(2).all(|pair| pair[0] < pair[1]);
            ascending.then(|| columns.iter().map(|c| *c as u8).collect())
        })?;
        let rows = lines.due(11, |line| keyed(line, "rows", TABLE_ROWS))?;
        let mut relation = Relation::new();
        let mut above: Option<Vec<u32>> = None;
        for _ in 0..rows {
            let values = lines.due(11, |line| {
                let values = list(value(line, "row")?, u32::MAX)?;
                let ascends = above.as_ref().map_or(true, |above| *above < values);
                (values.len() == columns.len() && ascends).then_some(values)
            })?;
            relation.insert(columns.iter().copied().zip(values.iter().copied()).collect());
            above = Some(values);
        }
        read.push((Columns::from_iter(columns), relation));
    }
    lines.end(11)?;
    let mut database = Database::stored(&read, 0);
    if store.len() < database.store.len() {
        return refuse(17, 0);
    }
    database.store.extend(&store[database.store.len()..]);
    Ok(database)
}

/// `step=kind,node`, both any number.
pub fn read_step(line: &[u8]) -> Option<(u32, u32)> {
    match list(value(line, "step")?, u32::MAX)?[..] {
        [kind, node] => Some((kind, node)),
        _ => None,
    }
}

pub fn commas<T: ToString>(numbers: impl IntoIterator<Item = T>) -> String {
    numbers.into_iter().map(|number| number.to_string()).collect::<Vec<_>>().join(",")
}

pub fn print_node(node: &Node) -> String {
    match *node {
        Node::Table(t) => format!("table={t}"),
        Node::Var(v) => format!("var={v}"),
        Node::Fact(c, w) => format!("fact={c},{w}"),
        Node::Pair(Pairing::Union) => "pair=union".to_string(),
        Node::Pair(Pairing::Join) => "pair=join".to_string(),
        Node::Pair(Pairing::Except) => "pair=except".to_string(),
        Node::Filter(Condition::Eq(c, w)) => format!("eq={c},{w}"),
        Node::Filter(Condition::Ne(c, w)) => format!("ne={c},{w}"),
        Node::Filter(Condition::Max(c, w)) => format!("max={c},{w}"),
        Node::Filter(Condition::Same(c, d)) => format!("same={c},{d}"),
        Node::Copy(a, b) => format!("copy={a},{b}"),
        Node::Drop(a) => format!("drop={a}"),
        Node::Last(c) => format!("last={c}"),
        Node::Fix(v) => format!("fix={v}"),
        Node::Mu(v) => format!("mu={v}"),
    }
}

pub fn print_query(query: &Query) -> Vec<u8> {
    let mut text = format!("guide=1\nnodes={}\n", query.count);
    for node in query.lines() {
        text += &format!("{}\n", print_node(node));
    }
    text.into_bytes()
}

/// The lines `cols=`, `rows=` and `row=` of a relation given as slots.
fn print_rows(columns: &Columns, rows: u32, slots: &[u32]) -> String {
    let mut text = format!("cols={}\nrows={rows}\n", commas(columns));
    for row in slots.chunks(COLUMNS).take(rows as usize) {
        text += &format!("row={}\n", commas(columns.iter().map(|c| row[usize::from(*c)])));
    }
    text
}

pub fn print_database(database: &Database) -> Vec<u8> {
    let mut text = format!("guide=1\ntables={}\n", database.tables);
    for (columns, relation) in database.schema().iter().zip(database.relations()) {
        text += &print_rows(columns, relation.len() as u32, &slots_of(&relation));
    }
    text.into_bytes()
}

pub fn print_steps(steps: &[(u32, u32)]) -> Vec<u8> {
    steps.iter().flat_map(|(kind, node)| format!("step={kind},{node}\n").into_bytes()).collect()
}

pub fn print_answer(answer: &Answer, slots: &[u32]) -> Vec<u8> {
    let rows = print_rows(&answer.columns, answer.rows, slots);
    format!("guide=1\n{rows}ran={}\n", answer.ran).into_bytes()
}

pub fn print_refusal(refusal: Refusal) -> Vec<u8> {
    format!("refused={},{}\n", refusal.number, refusal.place).into_bytes()
}
