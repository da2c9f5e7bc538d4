//! Random pauses from elsewhere, and allowances that break a run off.

use super::{relation, Random};
use crate::algebra::{Columns, Relation, Row};
use crate::check::Checked;
use crate::damage::pauses::Held;
use crate::pauses::{put, register_columns, Pause};
use crate::run::workspace_entries;

/// A pause at any line of a plan, whose registers hold any rows of their columns. At most `most` rows are put into one unless all
/// that it has room for are.
pub fn elsewhere(random: &mut Random, checked: &Checked, lines: usize, row_limit: u32, most: usize) -> Held {
    let columns = register_columns(checked);
    let registers: Vec<Relation> =
        columns.iter().map(|columns| columns.map_or(Relation::new(), |of| rows(random, of, row_limit, most))).collect();
    let spare = if random.once_in(3) { random.below(30) } else { 0 };
    let mut workspace = vec![0; workspace_entries(registers.len(), row_limit) + spare];
    put(&registers, row_limit, &mut workspace);
    let ran = [random.below(30) as u32, random.next(), u32::MAX - random.below(60) as u32][random.below(3)];
    let pause = Pause { next: 1 + random.below(lines) as u32, ran };
    Held { pause, further: allowance(random, ran), workspace }
}

/// A further allowance of few lines, or of as many as there can be.
fn allowance(random: &mut Random, ran: u32) -> u32 {
    let most = u32::MAX - ran;
    if random.once_in(3) {
        most
    } else {
        most.min(random.below(40) as u32)
    }
}

fn rows(random: &mut Random, columns: &Columns, row_limit: u32, most: usize) -> Relation {
    let row_limit = row_limit as usize;
    if random.once_in(8) && row_limit <= most && !columns.is_empty() {
        // As many as there is room for.
        let row = |value: usize| columns.iter().map(|column| (*column, value as u32)).collect::<Row>();
        return (0..row_limit).map(row).collect();
    }
    let all = if random.once_in(4) { Relation::new() } else { relation(random, columns) };
    all.into_iter().take(row_limit.min(most)).collect()
}

/// Allowances that are more than so many lines in all: line by line, or few or many at a time, now and then none. There are not many
/// more parts than `most`.
pub fn parts(random: &mut Random, lines: u32, most: u32) -> Vec<u32> {
    let longest = [1, 3, 1 + lines / 4, 1 + lines][random.below(4)].max(2 * lines / most);
    let mut parts = Vec::new();
    let mut sum = 0;
    while sum <= lines {
        let part = if random.once_in(8) { 0 } else { 1 + random.below(longest as usize) as u32 };
        sum += part;
        parts.push(part);
    }
    parts
}
