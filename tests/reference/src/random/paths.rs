//! Random property paths: trees, their texts with and without needless parentheses, and texts of an exact length.

use super::{stored, Random};
use crate::algebra::Columns;
use crate::fronts::BYTES;
use crate::paths::Path;
use crate::value::{Database, TABLES};

/// A database most of whose tables have the columns 0 and 1 only.
pub fn database(random: &mut Random) -> Database {
    const OTHERS: [&[u8]; 6] = [&[0], &[1], &[0, 2], &[1, 2], &[0, 1, 2], &[0, 1, 7]];
    let tables = match random.below(12) {
        0 => 0,
        1 => TABLES as usize,
        _ => 1 + random.below(4),
    };
    let mut schema = vec![Columns::from([0, 1]); tables];
    for columns in &mut schema {
        if random.once_in(6) {
            *columns = OTHERS[random.below(OTHERS.len())].iter().copied().collect();
        }
    }
    stored(random, &schema)
}

/// The tables with the columns 0 and 1 only.
pub fn linking(schema: &[Columns]) -> Vec<u8> {
    (0..schema.len()).filter(|table| schema[*table] == Columns::from([0, 1])).map(|table| table as u8).collect()
}

/// Names of which most are tables with the columns 0 and 1 only.
pub fn names(random: &mut Random, schema: &[Columns]) -> Vec<u8> {
    let linking = linking(schema);
    if linking.is_empty() || random.once_in(8) {
        return (0..TABLES as u8).collect();
    }
    let last = TABLES as usize - 1;
    let others = [random.below(TABLES as usize), random.below(schema.len() + 1).min(last)].map(|table| table as u8);
    [&linking.repeat(4)[..], &others].concat()
}

/// A path of so many signs over these names.
pub fn path(random: &mut Random, names: &[u8], signs: usize) -> Path {
    let Some(rest) = signs.checked_sub(1) else {
        return Path::Name(random.pick(names.iter().copied()).unwrap_or(0));
    };
    let (sign, left) = (random.below(6), random.below(signs));
    let mut of = |signs: usize| Box::new(path(random, names, signs));
    match sign {
        0 | 1 => Path::Alternative(of(left), of(rest - left)),
        2 | 3 => Path::Sequence(of(left), of(rest - left)),
        4 => Path::Inverse(of(rest)),
        _ => Path::Plus(of(rest)),
    }
}

/// A path of at most so many nodes.
pub fn path_within(random: &mut Random, names: &[u8], nodes: u128) -> Path {
    loop {
        let signs = random.below(10);
        let found = path(random, names, signs);
        if found.nodes() <= nodes {
            return found;
        }
    }
}

/// A path of exactly so many nodes, ten or more, in at most 128 bytes.
pub fn path_of(random: &mut Random, names: &[u8], nodes: u128) -> Path {
    loop {
        let mut found = path_within(random, names, nodes);
        while found.nodes() < nodes && fewest(&found).len() <= BYTES {
            found = larger(random, names, found, nodes);
        }
        if found.nodes() == nodes && fewest(&found).len() <= BYTES {
            return found;
        }
    }
}

/// A path with one sign more, a plus if there are enough nodes left for it.
fn larger(random: &mut Random, names: &[u8], part: Path, nodes: u128) -> Path {
    let left = nodes - part.nodes();
    let (part, name) = (Box::new(part), Box::new(path(random, names, 0)));
    match random.below(5) {
        0 if left >= part.nodes() + 8 => Path::Plus(part),
        1 if left >= 6 => Path::Inverse(part),
        2 if left >= 7 => Path::Sequence(part, name),
        3 if left >= 7 => Path::Sequence(name, part),
        4 => Path::Alternative(name, part),
        _ => Path::Alternative(part, name),
    }
}

/// As many pluses, each around the one before.
pub fn nested(name: u8, pluses: usize) -> Path {
    (0..pluses).fold(Path::Name(name), |operand, _| Path::Plus(Box::new(operand)))
}

/// A path of few nodes more than a multiple of a power of 2, from the 8th to the 40th: too narrow a count takes it for a short one.
pub fn past_a_power(random: &mut Random, name: u8) -> Path {
    let of = |part| (Box::new(part), Box::new(Path::Name(name)));
    // 9 times the power less 8 nodes, then 7 more and 2 more.
    let (part, one) = of(nested(name, 8 + random.below(33)));
    let (part, other) = of(Path::Sequence(part, one));
    Path::Alternative(part, other)
}

/// The text with as few parentheses as there can be.
pub fn fewest(path: &Path) -> Vec<u8> {
    printed(path, Level::Alternative, &mut || 0).into_bytes()
}

/// The text with needless parentheses here and there.
pub fn needless(random: &mut Random, path: &Path) -> Vec<u8> {
    let often = 1 + random.below(6);
    let mut pairs = || (0..2).take_while(|_| random.once_in(often)).count();
    printed(path, Level::Alternative, &mut pairs).into_bytes()
}

/// The text in as many pairs of parentheses as there is room for in so many bytes.
pub fn padded(path: &Path, bytes: usize) -> Vec<u8> {
    let text = fewest(path);
    let pairs = bytes.saturating_sub(text.len()) / 2;
    [&b"(".repeat(pairs)[..], &text, &b")".repeat(pairs)].concat()
}

/// The rules of the grammar from the loosest on: which a part may stand for without parentheses.
#[derive(Clone, Copy, PartialEq, Eq, PartialOrd, Ord)]
enum Level {
    Alternative,
    Sequence,
    EltOrInverse,
    Elt,
    Primary,
}

/// A part where a rule is due, in parentheses if it needs them and in some more pairs.
fn printed(path: &Path, due: Level, more: &mut dyn FnMut() -> usize) -> String {
    let mut of = |path: &Path, due: Level| printed(path, due, more);
    let (level, text) = match path {
        Path::Name(table) => (Level::Primary, table.to_string()),
        Path::Alternative(left, right) => {
            (Level::Alternative, format!("{}|{}", of(left, Level::Alternative), of(right, Level::Sequence)))
        }
        Path::Sequence(left, right) => {
            (Level::Sequence, format!("{}/{}", of(left, Level::Sequence), of(right, Level::EltOrInverse)))
        }
        Path::Inverse(operand) => (Level::EltOrInverse, format!("^{}", of(operand, Level::Elt))),
        Path::Plus(operand) => (Level::Elt, format!("{}+", of(operand, Level::Primary))),
    };
    let pairs = usize::from(level < due) + more();
    format!("{}{text}{}", "(".repeat(pairs), ")".repeat(pairs))
}

/// A text of so many bytes, two or more, that begins a path: a whole one or an unfinished one.
pub fn text_of(random: &mut Random, length: usize, whole: bool) -> Vec<u8> {
    loop {
        let mut walk = Walk { text: Vec::new(), open: 0, due: Due::EltOrInverse };
        while walk.text.len() < length && walk.goes_on(random, if whole { length } else { usize::MAX }) {}
        if walk.text.len() == length && (walk.missing() == 0) == whole {
            return walk.text;
        }
    }
}

/// What may follow a text.
#[derive(Clone, Copy, PartialEq, Eq)]
enum Due {
    EltOrInverse,
    Elt,
    PlusOrSign,
    Sign,
}

/// A text that begins a path, with so many open parentheses.
#[derive(Clone)]
struct Walk {
    text: Vec<u8>,
    open: usize,
    due: Due,
}

impl Walk {
    /// The fewest bytes that make it a path.
    fn missing(&self) -> usize {
        self.open + usize::from(matches!(self.due, Due::EltOrInverse | Due::Elt))
    }

    fn then(&self, bytes: &[u8], due: Due) -> Walk {
        let open = match bytes {
            b"(" => self.open + 1,
            b")" => self.open - 1,
            _ => self.open,
        };
        Walk { text: [&self.text[..], bytes].concat(), open, due }
    }

    /// A name, a sign or a parenthesis more that leaves it able to be a path of so many bytes; false if there is none.
    fn goes_on(&mut self, random: &mut Random, length: usize) -> bool {
        let name = random.below(TABLES as usize).to_string();
        let mut next = match self.due {
            Due::EltOrInverse | Due::Elt => {
                vec![self.then(name.as_bytes(), Due::PlusOrSign), self.then(b"(", Due::EltOrInverse)]
            }
            Due::PlusOrSign | Due::Sign => vec![self.then(b"|", Due::EltOrInverse), self.then(b"/", Due::EltOrInverse)],
        };
        match self.due {
            Due::EltOrInverse => next.push(self.then(b"^", Due::Elt)),
            Due::PlusOrSign => next.push(self.then(b"+", Due::Sign)),
            Due::Elt | Due::Sign => {}
        }
        if self.open > 0 && matches!(self.due, Due::PlusOrSign | Due::Sign) {
            next.push(self.then(b")", Due::PlusOrSign));
        }
        next.retain(|walk| length.checked_sub(walk.text.len()).is_some_and(|rest| walk.missing() <= rest));
        match random.pick(next) {
            Some(walk) => {
                *self = walk;
                true
            }
            None => false,
        }
    }
}
