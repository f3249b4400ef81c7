//! Tables to be converted from one edition to the other, and the editions wanted of them.

use crate::editions::LONGEST_DEADLINE;
use crate::faulty_tables::{change_task, with_faults};
use crate::log_tables::accepted;
use crate::offering_tables::with_offer;
use crate::{Random, Shape, any_tight, brisk, few, long, mixed, one_more, steep};
use reference::{Table, Task, judge};

/// An accepted table that can be converted: of edition 1 with no offset 0, or of edition 2 with
/// each offset as deadline, about half of each. Some offer slack.
pub fn convertible(random: &mut Random) -> Table {
    accepted(random, |random| {
        let make = random.pick(&[mixed, long, steep, any_tight, any_brisk]);
        let table = make(random);
        let table = without_zero_offsets(random, table);
        let table = offering_or_not(random, table);
        dated_or_not(random, table)
    })
}

fn any_brisk(random: &mut Random) -> Table {
    let shape = Shape::any(random);
    brisk(random, shape)
}

/// The same with one to three loops that meet 29 or 30, by which it may meet 12 or 13 before them;
/// in some, deadline and offset are both 0, which 28 meets and 30 does not.
pub fn inconvertible(random: &mut Random) -> Table {
    let table = convertible(random);
    with_29_or_30(random, table)
}

/// A table with few loops: most meet 31, alone or with 29 or 30 after it. Or the same with one loop
/// more than cores, for which many meet 29 or 30 or can be converted.
pub fn few_convertible(random: &mut Random) -> Table {
    let make = random.pick(&[few, few, few, one_more]);
    let table = make(random);
    let table = without_zero_offsets(random, table);
    let table = dated_or_not(random, table);
    if random.once_in(2) { with_29_or_30(random, table) } else { table }
}

/// The table with one to three loops changed so that they meet 29 or 30.
fn with_29_or_30(random: &mut Random, mut table: Table) -> Table {
    let zeros = random.once_in(16);
    let change = if table.edition == 1 || zeros { zero_offset } else { other_deadline };
    for _ in 0..random.between(1, 3) {
        change_task(random, &mut table, change);
    }
    table
}

/// A table that could be converted or meets 29 or 30, with faults that are met before them.
pub fn faulty_convertible(random: &mut Random) -> Table {
    let make = random.pick(&[convertible, inconvertible]);
    let table = make(random);
    with_faults(random, table)
}

/// The table with an offset of 1 or more where it had 0. In edition 2 its deadlines stay.
pub fn without_zero_offsets(random: &mut Random, mut table: Table) -> Table {
    for task in table.tasks.iter_mut().filter(|task| task.offset == 0) {
        let any = random.between(1, task.separation);
        // Where there is room for it, a number whose low byte is 0.
        let round = (any & !0xff).max(1);
        task.offset = random.pick(&[1, any, round, task.separation]);
    }
    table
}

/// The edition wanted of a table's bytes: mostly the other one, often their own, and often one that
/// there is not.
pub fn wanted_edition(random: &mut Random, table: &[u8]) -> u32 {
    let own = table.first().map_or(0, |&edition| u32::from(edition));
    match random.index(16) {
        0..=11 if own == 1 => 2,
        0..=11 if own == 2 => 1,
        0..=11 => random.pick(&[1, 2]),
        12 => own,
        _ => unknown_edition(random),
    }
}

/// Beside 1 and 2, or one that a narrower number would take for one of them, or any.
fn unknown_edition(random: &mut Random) -> u32 {
    let high = random.between(1, 255) << random.pick(&[8, 16, 24]);
    let any = random.bits() as u32;
    random.pick(&[0, 3, 255, 256, 257, 258, u32::MAX, high + 1, high + 2, any])
}

/// Without slack, with the slack found, or with slack on either side of compliance.
fn offering_or_not(random: &mut Random, mut table: Table) -> Table {
    table.slack = vec![];
    match random.index(4) {
        0 => with_offer(random, table),
        1 => {
            let plan = judge(&table.bytes());
            table.slack = plan.map_or(vec![], |plan| plan.slack);
            table
        }
        _ => table,
    }
}

/// Of edition 2 with each offset as deadline, or of edition 1.
fn dated_or_not(random: &mut Random, mut table: Table) -> Table {
    table.edition = random.pick(&[1, 2]);
    for task in &mut table.tasks {
        task.deadline = if table.edition == 2 { task.offset } else { 0 };
    }
    table
}

/// In edition 1 the deadline is not written.
fn zero_offset(_: &mut Random, task: &mut Task) {
    (task.offset, task.deadline) = (0, 0);
}

/// A deadline that 28 allows and that is, mostly, another than the offset: beside it, one bit away
/// from it, at an end of the range, or anywhere in it.
fn other_deadline(random: &mut Random, task: &mut Task) {
    let any = random.between(1, LONGEST_DEADLINE);
    let near = task.offset ^ 1 << random.index(20);
    let choices =
        [task.offset.saturating_sub(1), task.offset + 1, near, near, 1, LONGEST_DEADLINE, any];
    task.deadline = random.pick(&choices).clamp(1, LONGEST_DEADLINE);
}
