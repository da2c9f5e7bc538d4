//! The two places where queries are asked.

use crate::panel;
use crate::run::workspace_entries;
use crate::value::TABLE_ROWS;

/// The desk with a row limit, or the panel with its own.
#[derive(Clone, Copy, Debug)]
pub enum At {
    Desk(u32),
    Panel,
}

impl At {
    pub fn index(self) -> usize {
        usize::from(matches!(self, At::Panel))
    }

    pub fn row_limit(self) -> u32 {
        match self {
            At::Desk(row_limit) => row_limit,
            At::Panel => panel::ROW_LIMIT,
        }
    }

    /// The entries of workspace that are enough for so many registers.
    pub fn entries(self, registers: usize) -> usize {
        match self {
            At::Desk(row_limit) if row_limit <= TABLE_ROWS => workspace_entries(registers, row_limit),
            At::Desk(_) => 0,
            At::Panel => panel::WORKSPACE,
        }
    }
}
