//! The two places where queries are asked.

use reference::panel;
use reference::value::NODES;

#[derive(Clone, Copy, Debug)]
pub enum At {
    Desk,
    Panel,
}

impl At {
    pub const BOTH: [At; 2] = [At::Desk, At::Panel];

    /// The most nodes taken.
    pub fn nodes(self) -> usize {
        match self {
            At::Desk => NODES,
            At::Panel => panel::NODES,
        }
    }
}
