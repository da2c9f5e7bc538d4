//! Property paths (change request U6): their tree, its reader, the sheet and what a path links. The links are worked out from
//! the tree by sets of pairs, never through the sheet.

use crate::algebra::{Columns, Pairing, Relation};
use crate::fronts;
use crate::text::number;
use crate::value::{refuse, Database, Node, Query, Refusal, TABLES};
use std::collections::BTreeSet;

#[derive(Clone, Debug, PartialEq, Eq)]
pub enum Path {
    Name(u8),
    Alternative(Box<Path>, Box<Path>),
    Sequence(Box<Path>, Box<Path>),
    Inverse(Box<Path>),
    Plus(Box<Path>),
}

impl Path {
    /// The tree of a text of any length; `None` if it is off the grammar.
    pub fn read(text: &[u8]) -> Option<Path> {
        let mut reader = Reader { rest: text };
        reader.alternative().filter(|_| reader.rest.is_empty())
    }

    /// The path and all its parts, those on the left first.
    pub fn parts(&self) -> Vec<&Path> {
        let below = match self {
            Path::Name(_) => Vec::new(),
            Path::Alternative(left, right) | Path::Sequence(left, right) => [left.parts(), right.parts()].concat(),
            Path::Inverse(operand) | Path::Plus(operand) => operand.parts(),
        };
        [vec![self], below].concat()
    }

    /// The names in the order of the text.
    pub fn names(&self) -> Vec<u8> {
        let name = |part: &Path| if let Path::Name(table) = part { Some(*table) } else { None };
        self.parts().into_iter().filter_map(name).collect()
    }

    /// The lines of the sheet, none of them written. A plus names its operand twice, so 128 bytes can mean more lines than 32
    /// bits count.
    pub fn nodes(&self) -> u128 {
        match self {
            Path::Name(_) => 1,
            Path::Alternative(left, right) => left.nodes() + right.nodes() + 1,
            Path::Sequence(left, right) => left.nodes() + right.nodes() + 6,
            Path::Inverse(operand) => operand.nodes() + 6,
            Path::Plus(operand) => 2 * operand.nodes() + 8,
        }
    }

    /// The sheet's lines. The path has few enough nodes.
    pub fn sheet(&self) -> Vec<Node> {
        let mut writer = Writer { lines: Vec::new(), fixes: 0 };
        writer.write(self);
        writer.lines
    }

    /// The pairs that the path links over these tables, which have the columns 0 and 1 where it names them.
    pub fn links(&self, tables: &[Relation]) -> Links {
        match self {
            Path::Name(table) => tables[usize::from(*table)].iter().map(|row| (row[&0], row[&1])).collect(),
            Path::Alternative(left, right) => &left.links(tables) | &right.links(tables),
            Path::Sequence(left, right) => composed(&left.links(tables), &right.links(tables)),
            Path::Inverse(operand) => operand.links(tables).into_iter().map(|(from, to)| (to, from)).collect(),
            Path::Plus(operand) => repeated(&operand.links(tables)),
        }
    }
}

/// Recursive descent, a function for each rule of the grammar.
struct Reader<'a> {
    rest: &'a [u8],
}

impl Reader<'_> {
    /// Takes the byte if it is next.
    fn takes(&mut self, byte: u8) -> bool {
        let next = self.rest.first() == Some(&byte);
        self.rest = &self.rest[usize::from(next)..];
        next
    }

    fn alternative(&mut self) -> Option<Path> {
        let mut path = self.sequence()?;
        while self.takes(b'|') {
            path = Path::Alternative(Box::new(path), Box::new(self.sequence()?));
        }
        Some(path)
    }

    fn sequence(&mut self) -> Option<Path> {
        let mut path = self.elt_or_inverse()?;
        while self.takes(b'/') {
            path = Path::Sequence(Box::new(path), Box::new(self.elt_or_inverse()?));
        }
        Some(path)
    }

    fn elt_or_inverse(&mut self) -> Option<Path> {
        if self.takes(b'^') {
            Some(Path::Inverse(Box::new(self.elt()?)))
        } else {
            self.elt()
        }
    }

    fn elt(&mut self) -> Option<Path> {
        let primary = self.primary()?;
        Some(if self.takes(b'+') { Path::Plus(Box::new(primary)) } else { primary })
    }

    fn primary(&mut self) -> Option<Path> {
        if !self.takes(b'(') {
            return self.name();
        }
        let inner = self.alternative()?;
        self.takes(b')').then_some(inner)
    }

    fn name(&mut self) -> Option<Path> {
        let digits = self.rest.iter().take_while(|byte| byte.is_ascii_digit()).count();
        let (name, rest) = self.rest.split_at(digits);
        self.rest = rest;
        number(name, TABLES - 1).map(|table| Path::Name(table as u8))
    }
}

struct Writer {
    lines: Vec<Node>,
    /// Fix lines so far.
    fixes: u8,
}

impl Writer {
    fn write(&mut self, path: &Path) {
        match path {
            Path::Name(table) => self.lines.push(Node::Table(*table)),
            Path::Alternative(left, right) => {
                self.write(left);
                self.write(right);
                self.lines.push(Node::Pair(Pairing::Union));
            }
            Path::Sequence(left, right) => {
                self.write(left);
                self.joined(right);
            }
            Path::Inverse(operand) => {
                self.write(operand);
                self.renamed(0, 2);
                self.renamed(1, 0);
                self.renamed(2, 1);
            }
            Path::Plus(operand) => {
                self.write(operand);
                // The fixes of the operand's second copy end before this one and count first.
                let var = self.lines.len();
                self.lines.push(Node::Var(0));
                self.joined(operand);
                self.lines[var] = Node::Var(self.fixes);
                self.lines.push(Node::Fix(self.fixes));
                self.fixes += 1;
            }
        }
    }

    /// What is written last, and another path behind it.
    fn joined(&mut self, right: &Path) {
        self.renamed(1, 2);
        self.write(right);
        self.renamed(0, 2);
        self.lines.extend([Node::Pair(Pairing::Join), Node::Drop(2)]);
    }

    fn renamed(&mut self, from: u8, to: u8) {
        self.lines.extend([Node::Copy(from, to), Node::Drop(from)]);
    }
}

/// Pairs of values, from column 0 to column 1.
pub type Links = BTreeSet<(u32, u32)>;

fn composed(left: &Links, right: &Links) -> Links {
    let onward = |&(from, middle): &(u32, u32)| {
        right.iter().filter(move |link| link.0 == middle).map(move |link| (from, link.1)).collect::<Vec<_>>()
    };
    left.iter().flat_map(onward).collect()
}

/// One or more times: once, twice and so on, until so many times link nothing more.
fn repeated(once: &Links) -> Links {
    let (mut whole, mut times) = (Links::new(), once.clone());
    while !times.is_subset(&whole) {
        whole.extend(&times);
        times = composed(&times, once);
    }
    whole
}

/// 21 or the tree.
pub fn tree(text: &[u8]) -> Result<Path, Refusal> {
    match fronts::place(text) {
        Some(place) => refuse(21, place),
        None => Ok(Path::read(text).expect("reader and recogniser take the same texts")),
    }
}

/// 10 or 9 by the first bad name, then 2; each with place 0.
pub fn sheet_over(path: &Path, schema: &[Columns], limit: usize) -> Result<Query, Refusal> {
    for name in path.names() {
        match schema.get(usize::from(name)) {
            None => return refuse(10, 0),
            Some(columns) if *columns != Columns::from([0, 1]) => return refuse(9, 0),
            Some(_) => {}
        }
    }
    if path.nodes() > limit as u128 {
        return refuse(2, 0);
    }
    Ok(Query::new(&path.sheet(), limit))
}

/// 21, then 11, then 10 or 9, then 2.
pub fn read_path(text: &[u8], database: &Database, limit: usize) -> Result<Query, Refusal> {
    let path = tree(text)?;
    database.form()?;
    sheet_over(&path, database.schema(), limit)
}
