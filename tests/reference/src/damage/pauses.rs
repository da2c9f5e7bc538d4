//! Pauses with one thing wrong, for which 23 is given, and pauses with one entry changed, for which it may be.

use crate::algebra::Columns;
use crate::check::Checked;
use crate::pauses::{register_columns, Fault, Pause};
use crate::random::Random;
use crate::run::workspace_entries;
use crate::value::COLUMNS;

/// A pause, the further allowance that it is gone on with, and its workspace.
#[derive(Clone, Debug, PartialEq, Eq)]
pub struct Held {
    pub pause: Pause,
    pub further: u32,
    pub workspace: Vec<u32>,
}

#[derive(Clone, Copy, Debug, PartialEq, Eq)]
pub enum Harm {
    LineZero,
    LinePast,
    OverLimit,
    Descending,
    Equal,
    Outside,
    OutsideInDelta,
    Variable,
    BehindRows,
    BehindLast,
    Ceiling,
}

pub const HARMS: [Harm; 11] = [
    Harm::LineZero,
    Harm::LinePast,
    Harm::OverLimit,
    Harm::Descending,
    Harm::Equal,
    Harm::Outside,
    Harm::OutsideInDelta,
    Harm::Variable,
    Harm::BehindRows,
    Harm::BehindLast,
    Harm::Ceiling,
];

impl Harm {
    pub fn fault(self) -> Fault {
        match self {
            Harm::LineZero | Harm::LinePast => Fault::Next,
            Harm::OverLimit => Fault::Full,
            Harm::Descending | Harm::Equal => Fault::Order,
            Harm::Outside | Harm::OutsideInDelta => Fault::Outside,
            Harm::Variable => Fault::Variable,
            Harm::BehindRows | Harm::BehindLast => Fault::Stray,
            Harm::Ceiling => Fault::Ceiling,
        }
    }
}

/// The registers of a query's workspace: the columns that each may fill, and where their entries stand.
pub struct Registers<'a> {
    columns: Vec<Option<&'a Columns>>,
    nodes: usize,
    lines: u32,
    row_limit: u32,
}

impl<'a> Registers<'a> {
    pub fn new(checked: &'a Checked, lines: usize, row_limit: u32) -> Registers<'a> {
        let columns = register_columns(checked);
        Registers { columns, nodes: checked.root.node, lines: lines as u32, row_limit }
    }

    fn start(&self, register: usize) -> usize {
        workspace_entries(register, self.row_limit)
    }

    fn row(&self, register: usize, row: u32) -> usize {
        self.start(register) + 1 + COLUMNS * row as usize
    }

    /// A register with columns for which something holds, given its rows.
    fn pick(
        &self,
        random: &mut Random,
        held: &Held,
        fits: impl Fn(usize, &Columns, u32) -> bool,
    ) -> Option<(usize, &'a Columns)> {
        let all = self.columns.iter().enumerate().filter_map(|(register, columns)| Some((register, (*columns)?)));
        random.pick(all.filter(|(register, columns)| fits(*register, columns, held.workspace[self.start(*register)])))
    }

    /// One thing wrong with a pause that has no fault, if there is a place for it.
    pub fn harmed(&self, random: &mut Random, harm: Harm, given: &Held) -> Option<Held> {
        let mut held = given.clone();
        match harm {
            Harm::LineZero => held.pause.next = 0,
            Harm::LinePast => {
                let past = [1, 1, 2, random.next().max(1)][random.below(4)];
                held.pause.next = self.lines.saturating_add(past);
            }
            Harm::OverLimit => {
                let (register, _) = self.pick(random, &held, |_, _, _| true)?;
                // Eight of the last ones are few entries in a number of 32 bits.
                let more =
                    [self.row_limit + 1, self.row_limit + 1, self.row_limit + 2, u32::MAX, 1 << 29, (7 << 29) + 1];
                held.workspace[self.start(register)] = more[random.below(more.len())];
            }
            Harm::Descending => self.descend(random, &mut held)?,
            Harm::Equal => self.repeat(random, &mut held)?,
            Harm::Outside => self.fill_outside(random, &mut held, |register| register < self.nodes)?,
            Harm::OutsideInDelta => self.fill_outside(random, &mut held, |register| register >= self.nodes)?,
            Harm::Variable => {
                let variables = (0..self.nodes).filter(|register| self.columns[*register].is_none());
                let start = self.start(random.pick(variables)?);
                let at = [0, 1, 1 + random.below(COLUMNS), self.start(1) - 1][random.below(4)];
                held.workspace[start + at] = 1;
                if at > 0 && random.once_in(2) {
                    held.workspace[start] = 1;
                }
            }
            Harm::BehindRows => {
                let (register, _) = self.pick(random, &held, |_, _, rows| rows < self.row_limit)?;
                let behind = self.row(register, held.workspace[self.start(register)])..self.start(register + 1);
                let at = [behind.start, behind.end - 1, behind.start + random.below(behind.len())][random.below(3)];
                held.workspace[at] = filling(random);
            }
            Harm::BehindLast => {
                let needed = self.start(self.columns.len());
                if held.workspace.len() == needed {
                    held.workspace.resize(needed + 1 + random.below(20), 0);
                }
                let last = held.workspace.len() - 1;
                let at = [last, last, needed, needed + random.below(last + 1 - needed)][random.below(4)];
                held.workspace[at] = filling(random);
            }
            Harm::Ceiling => {
                held.further = [1, 1 + random.below(40) as u32, u32::MAX, random.next().max(1)][random.below(4)];
                // Each sum is over the ceiling, the first by one.
                let least = u32::MAX - held.further + 1;
                held.pause.ran =
                    [least, least, u32::MAX, least + random.below(held.further as usize) as u32][random.below(4)];
            }
        }
        Some(held)
    }

    /// Two rows that follow each other, the second greater; they are put into a register if none has two.
    fn two_rows(&self, random: &mut Random, held: &mut Held) -> Option<usize> {
        if let Some((register, _)) = self.pick(random, held, |_, _, rows| rows > 1) {
            let rows = held.workspace[self.start(register)];
            return Some(self.row(register, random.below(rows as usize - 1) as u32));
        }
        let wide = |_, columns: &Columns, _| !columns.is_empty() && self.row_limit > 1;
        let (register, columns) = self.pick(random, held, wide)?;
        let column = random.pick(columns.iter().copied())?;
        let row = self.row(register, 0);
        held.workspace[self.start(register)] = 2;
        held.workspace[row..row + COLUMNS].fill(0);
        held.workspace[row + COLUMNS + usize::from(column)] = filling(random);
        Some(row)
    }

    fn descend(&self, random: &mut Random, held: &mut Held) -> Option<()> {
        let row = self.two_rows(random, held)?;
        held.workspace[row..row + 2 * COLUMNS].rotate_left(COLUMNS);
        Some(())
    }

    /// The second of two rows is the first again; a row without columns may be repeated too.
    fn repeat(&self, random: &mut Random, held: &mut Held) -> Option<()> {
        let narrow = |_, columns: &Columns, _| columns.is_empty() && self.row_limit > 1;
        if let (true, Some((register, _))) = (random.once_in(2), self.pick(random, held, narrow)) {
            held.workspace[self.start(register)] = 2;
            return Some(());
        }
        let row = self.two_rows(random, held)?;
        held.workspace.copy_within(row..row + COLUMNS, row + COLUMNS);
        Some(())
    }

    /// A slot outside a register's columns, in its last row: the rows still ascend.
    fn fill_outside(&self, random: &mut Random, held: &mut Held, of: impl Fn(usize) -> bool) -> Option<()> {
        let narrow = |register, columns: &Columns| of(register) && columns.len() < COLUMNS;
        let with_rows = self.pick(random, held, |register, columns, rows| narrow(register, columns) && rows > 0);
        let (register, columns) = match with_rows {
            Some(found) => found,
            None => self.pick(random, held, |register, columns, _| narrow(register, columns))?,
        };
        let start = self.start(register);
        let rows = held.workspace[start].max(1);
        let absent = random.pick((0..COLUMNS as u8).filter(|column| !columns.contains(column)))?;
        held.workspace[start] = rows;
        held.workspace[self.row(register, rows - 1) + usize::from(absent)] = filling(random);
        Some(())
    }

    /// One entry changed, often in a count or among held rows, to a number that may well be there.
    pub fn changed(&self, random: &mut Random, given: &Held) -> Held {
        let mut held = given.clone();
        let register = random.below(self.columns.len());
        let (start, rows) = (self.start(register), held.workspace[self.start(register)]);
        let within = self.row(register, rows.min(self.row_limit)) - start;
        let at = match random.below(8) {
            0 => random.below(held.workspace.len()),
            1 => start + random.below(self.start(1)),
            2 => start,
            _ => start + random.below(within),
        };
        let before = held.workspace[at];
        let beside =
            held.workspace[[at.saturating_sub(COLUMNS), (at + COLUMNS).min(held.workspace.len() - 1)][random.below(2)]];
        held.workspace[at] = match random.below(8) {
            0 => 0,
            1 => 1,
            2 => before.wrapping_sub(1),
            3 => beside,
            4 => beside.wrapping_add(1),
            5 => random.below(6) as u32,
            6 => [self.row_limit, self.row_limit + 1, u32::MAX, random.next()][random.below(4)],
            _ => before.wrapping_add(1),
        };
        held
    }
}

/// Something that isn't zero.
fn filling(random: &mut Random) -> u32 {
    [1, 1 + random.below(9) as u32, 1 << random.below(32), u32::MAX][random.below(4)]
}
