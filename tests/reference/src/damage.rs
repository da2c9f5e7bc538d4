//! Damaged inputs: queries, texts, paths and stored databases with a few edits, and pauses.

pub mod pauses;

use crate::algebra::{Condition, Pairing};
use crate::random::{self, Random};
use crate::split::split;
use crate::term::Term;
use crate::value::{Database, Node, Query, COLUMNS, TABLES, VARIABLES};

/// A query with one to three lines changed, swapped, taken out or put in.
pub fn query(random: &mut Random, query: &Query) -> Query {
    let mut lines = query.lines().to_vec();
    for _ in 0..1 + random.below(3) {
        let at = random.below(lines.len());
        match random.below(9) {
            0 => lines[at] = random::node(random),
            1 => {
                let to = random.below(lines.len());
                lines.swap(at, to);
            }
            2 if lines.len() > 1 => {
                lines.remove(at);
            }
            3 if lines.len() < query.nodes.len() => lines.insert(at, random::node(random)),
            4 => {
                // Another line of the same query in its place: variables and fixes meet more often.
                lines[at] = lines[random.below(lines.len())];
            }
            5 => retyped(&mut lines, at, query.nodes.len()),
            6 => bound(random, &mut lines, at),
            7 if lines.len() < query.nodes.len() => {
                // Over any node, an open one too, and with a column that it may lack.
                lines.insert(at + 1, Node::Last(random.below(4) as u8));
            }
            _ => {
                lines[at] = match lines[at] {
                    Node::Drop(_) => Node::Drop(random.below(4) as u8),
                    Node::Last(_) => Node::Last(random.below(4) as u8),
                    Node::Copy(a, _) => Node::Copy(a, random.below(4) as u8),
                    Node::Table(_) => Node::Table(random.below(5) as u8),
                    Node::Pair(_) => Node::Pair([Pairing::Union, Pairing::Join, Pairing::Except][random.below(3)]),
                    Node::Mu(_) => Node::Mu(random.below(usize::from(VARIABLES)) as u8),
                    other => other,
                }
            }
        }
    }
    Query::new(&lines, query.nodes.len())
}

/// A variable of a fix or a `mu` in place of the first leaf from a line on.
fn bound(random: &mut Random, lines: &mut [Node], at: usize) {
    let numbers = lines.iter().filter_map(|line| match line {
        Node::Fix(v) | Node::Mu(v) => Some(*v),
        _ => None,
    });
    let leaf = (at..lines.len()).find(|at| lines[*at].arity() == 0);
    if let (Some(variable), Some(leaf)) = (random.pick(numbers), leaf) {
        lines[leaf] = Node::Var(variable);
    }
}

/// The first fix from a line on typed in one piece, or a `mu` over a union typed as a fix.
fn retyped(lines: &mut Vec<Node>, at: usize, capacity: usize) {
    let Some(at) = (at..lines.len()).find(|at| matches!(lines[*at], Node::Fix(_) | Node::Mu(_))) else {
        return;
    };
    match lines[at] {
        Node::Fix(v) if lines.len() < capacity => {
            lines.splice(at..=at, [Node::Pair(Pairing::Union), Node::Mu(v)]);
        }
        Node::Mu(v) if at > 0 && lines[at - 1] == Node::Pair(Pairing::Union) => {
            lines.splice(at - 1..=at, [Node::Fix(v)]);
        }
        _ => {}
    }
}

/// Why a `mu` gets 20.
#[derive(Clone, Copy, Debug, PartialEq, Eq)]
pub enum Spoiling {
    NoClosed,
    NoOpen,
    /// A line between its unions and the `mu`, so that they are no cuts.
    Covered,
}

/// A query with some `mu` of which each alone would get 20: cause and node, lowest first.
#[derive(Clone, Debug)]
pub struct Spoilt {
    pub query: Query,
    pub at: Vec<(Spoiling, u32)>,
}

/// Each `mu` of a query that is split spoilt or left; `None` if all are left or there is no room.
pub fn spoilt(random: &mut Random, query: &Query) -> Option<Spoilt> {
    query.form().ok()?;
    let typed = Term::of(query.lines()).ok()?;
    split(&typed).ok()?;
    let mut spoiler = Spoiler { random, lines: Vec::new(), at: Vec::new() };
    spoiler.write(&typed);
    let Spoiler { lines, at, .. } = spoiler;
    let fits = lines.len() <= query.nodes.len();
    (fits && !at.is_empty()).then(|| Spoilt { query: Query::new(&lines, query.nodes.len()), at })
}

struct Spoiler<'a> {
    random: &'a mut Random,
    lines: Vec<Node>,
    at: Vec<(Spoiling, u32)>,
}

impl Spoiler<'_> {
    fn write(&mut self, term: &Term) {
        let spoiling = match term.line {
            Node::Mu(_) if self.random.once_in(2) => Some(self.spoiling()),
            _ => None,
        };
        match spoiling {
            None => term.operands.iter().for_each(|operand| self.write(operand)),
            Some(Spoiling::Covered) => {
                self.write(&term.operands[0]);
                let column = self.random.below(COLUMNS) as u8;
                let filter = Node::Filter(Condition::Ne(column, 9));
                let above = [Node::Drop(column), Node::Copy(column, 7), Node::Last(column), filter];
                self.lines.push(above[self.random.below(above.len())]);
            }
            Some(left) => self.write_branches(&term.operands[0], left == Spoiling::NoOpen),
        }
        self.lines.push(term.line);
        self.at.extend(spoiling.map(|why| (why, self.lines.len() as u32)));
    }

    fn spoiling(&mut self) -> Spoiling {
        [Spoiling::NoClosed, Spoiling::NoOpen, Spoiling::Covered][self.random.below(3)]
    }

    /// The closed branches of a body, or the open ones, united to the left or to the right.
    fn write_branches(&mut self, body: &Term, closed: bool) {
        let branches: Vec<&Term> = body.branches().into_iter().filter(|branch| branch.closed() == closed).collect();
        let to_the_left = self.random.once_in(2);
        for (index, branch) in branches.iter().enumerate() {
            self.write(branch);
            if to_the_left && index > 0 {
                self.lines.push(Node::Pair(Pairing::Union));
            }
        }
        if !to_the_left {
            self.lines.extend(vec![Node::Pair(Pairing::Union); branches.len() - 1]);
        }
    }
}

/// A text with one or two edits of bytes, numbers or lines.
pub fn text(random: &mut Random, text: &[u8]) -> Vec<u8> {
    const NUMBERS: [&str; 9] = ["", "00", "01", "7", "8", "15", "16", "4294967295", "4294967296"];
    const BYTES: &[u8] = b"0123456789,=\n\n\r -+aeilmrstux\0\x80";
    let mut text = text.to_vec();
    for _ in 0..1 + random.below(2) {
        let at = random.below(text.len() + 1);
        let byte = BYTES[random.below(BYTES.len())];
        let mut lines: Vec<Vec<u8>> = text.split_inclusive(|byte| *byte == b'\n').map(<[u8]>::to_vec).collect();
        let line = random.below(lines.len().max(1));
        match random.below(13) {
            0 => text.insert(at, byte),
            1 if at < text.len() => {
                text.remove(at);
            }
            2 if at < text.len() => text[at] = byte,
            3 => text.truncate(at),
            4 => text.push(byte),
            5 if !lines.is_empty() => {
                lines.insert(line, lines[line].clone());
                text = lines.concat();
            }
            6 if !lines.is_empty() => {
                lines.remove(line);
                text = lines.concat();
            }
            7 if !lines.is_empty() => {
                let to = random.below(lines.len());
                lines.swap(line, to);
                text = lines.concat();
            }
            8 => {
                // Another digit in place of one.
                if let Some(digit) = random.pick((0..text.len()).filter(|i| text[*i].is_ascii_digit())) {
                    text[digit] = b'0' + random.below(10) as u8;
                }
            }
            9 | 10 => {
                // Another number for all that a line says.
                if let Some(equals) = lines.get(line).and_then(|line| line.iter().position(|byte| *byte == b'=')) {
                    lines[line].truncate(equals + 1);
                    lines[line].extend([NUMBERS[random.below(NUMBERS.len())].as_bytes(), b"\n"].concat());
                    text = lines.concat();
                }
            }
            _ => {
                // Another number in place of one.
                if let Some(digit) = random.pick((0..text.len()).filter(|i| text[*i].is_ascii_digit())) {
                    let number = NUMBERS[random.below(NUMBERS.len())].as_bytes();
                    text.splice(digit..digit + 1, number.iter().copied());
                }
            }
        }
    }
    text
}

/// A path's text with one or two edits of bytes or names.
pub fn path(random: &mut Random, text: &[u8]) -> Vec<u8> {
    const NAMES: [&str; 9] = ["", "00", "01", "9", "10", "15", "16", "100", "99"];
    const BYTES: &[u8] = b"0123456789||//^^++(()) \n*?!a\0\x80";
    let mut text = text.to_vec();
    for _ in 0..1 + random.below(2) {
        let at = random.below(text.len() + 1);
        let byte = BYTES[random.below(BYTES.len())];
        match random.below(8) {
            0 => text.insert(at, byte),
            1 if at < text.len() => {
                text.remove(at);
            }
            2 if at < text.len() => text[at] = byte,
            3 => text.truncate(at),
            4 => text.push(byte),
            5 if at < text.len() => text.insert(at, text[at]),
            6 if at + 1 < text.len() => text.swap(at, at + 1),
            _ => {
                if let Some(digit) = random.pick((0..text.len()).filter(|i| text[*i].is_ascii_digit())) {
                    let name = NAMES[random.below(NAMES.len())].as_bytes();
                    text.splice(digit..digit + 1, name.iter().copied());
                }
            }
        }
    }
    text
}

/// A database value with something off its form, and the place of its refusal.
pub fn database(random: &mut Random, database: &Database) -> (Database, u32) {
    let mut damaged = database.clone();
    if database.tables == 0 || random.once_in(8) {
        damaged.tables = TABLES + 1 + random.next() % 3;
        return (damaged, TABLES);
    }
    let table = random.below(database.tables as usize);
    let rows = database.rows[table] as usize;
    let start: usize = database.rows[..table].iter().map(|rows| COLUMNS * *rows as usize).sum();
    let absent = (0..COLUMNS as u8).filter(|c| !database.columns[table].contains(c));
    match (random.below(6), random.pick(absent)) {
        (0, _) if rows > 0 => damaged.store.truncate(start + COLUMNS * rows - 1 - random.below(COLUMNS)),
        (1, Some(column)) if rows > 0 => {
            damaged.store[start + COLUMNS * random.below(rows) + usize::from(column)] = 1 + random.next() % 9;
        }
        (2, _) if rows > 1 => {
            let row = start + COLUMNS * random.below(rows - 1);
            damaged.store.copy_within(row..row + COLUMNS, row + COLUMNS);
        }
        (3, _) if rows > 1 => {
            let row = start + COLUMNS * random.below(rows - 1);
            let above = damaged.store[row..row + COLUMNS].to_vec();
            damaged.store.copy_within(row + COLUMNS..row + 2 * COLUMNS, row);
            damaged.store[row + COLUMNS..row + 2 * COLUMNS].copy_from_slice(&above);
        }
        (4, _) => damaged.rows[table] = [4097, u32::MAX][random.below(2)],
        _ => damaged.columns[table].clear(),
    }
    (damaged, table as u32)
}
