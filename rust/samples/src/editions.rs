//! Tables and sheets of either edition: those of edition 2 are made from those of edition 1.

use crate::Random;
use reference::{Table, judge};

/// The largest deadline that 28 allows.
pub const LONGEST_DEADLINE: u32 = 1_600_000;

/// A table of edition 1, or the same with deadlines, which is of edition 2; about half of each.
pub fn either(random: &mut Random, table: Table) -> Table {
    if random.once_in(2) { table } else { with_deadlines(random, table) }
}

/// The table in edition 2, with deadlines that 28 allows: beside the bounds, where it has any, at
/// the ends of their range, or anywhere in it.
pub fn with_deadlines(random: &mut Random, mut table: Table) -> Table {
    let plan = judge(&table.bytes()).ok();
    let bound = |k| u32::try_from(plan.as_ref()?.bound(k)).ok();
    for (k, task) in table.tasks.iter_mut().enumerate() {
        let middle = bound(k).unwrap_or(task.separation);
        let any = random.between(1, LONGEST_DEADLINE);
        let near = random.between(1, middle.saturating_mul(2).clamp(1, LONGEST_DEADLINE));
        task.deadline = match random.index(8) {
            0 => 1,
            1 => LONGEST_DEADLINE,
            2 => middle.saturating_sub(1),
            3 => middle,
            4 => middle.saturating_add(1),
            5 | 6 => near,
            _ => any,
        };
        task.deadline = task.deadline.clamp(1, LONGEST_DEADLINE);
    }
    table.edition = 2;
    table
}
