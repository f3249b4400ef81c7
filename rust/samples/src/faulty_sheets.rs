//! Wish sheets with entries or counts that some refusal names, and with slack.

use crate::faulty_tables::{
    bad_deadline, change_cores, change_label, change_task, change_tasks, outside,
    with_bad_deadlines,
};
use crate::{Random, any_sheet, roomy_sheet, tight_sheet};
use reference::{Table, Task};

/// A sheet with one to three faults, each met by one of 3 to 7, 26, 9, 10 and 11 and, in edition 2,
/// 28; which of them comes first is for the call to say. Some have no solution either.
pub fn faulty_sheet(random: &mut Random) -> Table {
    let make = random.pick(&[roomy_sheet, any_sheet, tight_sheet]);
    let mut sheet = make(random);
    for _ in 0..random.between(1, 3) {
        add_fault(random, &mut sheet);
    }
    sheet
}

/// A sheet of edition 2 with deadlines that 28 refuses, and in many a wish that 26 refuses before
/// it, an H that 9 refuses after it, or both.
pub fn sheet_with_bad_deadlines(random: &mut Random) -> Table {
    let make = random.pick(&[roomy_sheet, any_sheet, tight_sheet]);
    let sheet = make(random);
    with_bad_deadlines(random, sheet, bad_wish, long_separation)
}

/// A sheet with slack, of as many entries as there are loops, of one, or of another number.
pub fn offering_sheet(random: &mut Random) -> Table {
    let make = random.pick(&[roomy_sheet, any_sheet, tight_sheet]);
    let mut sheet = make(random);
    add_slack(random, &mut sheet);
    sheet
}

fn add_fault(random: &mut Random, sheet: &mut Table) {
    match random.index(10) {
        0 => change_cores(random, sheet),
        1 => change_label(random, &mut sheet.labels),
        2 => change_tasks(random, sheet),
        3 => change_task(random, sheet, |random, task| {
            task.separation = outside(random, 100_000);
        }),
        4 => change_task(random, sheet, |random, task| {
            task.budget = outside(random, task.separation);
        }),
        5 | 6 => change_task(random, sheet, bad_wish),
        7 => change_task(random, sheet, long_separation),
        8 => change_task(random, sheet, bad_deadline),
        // The cores carry less, and the wish is in its range.
        _ => change_task(random, sheet, |_, task| {
            task.budget = task.separation;
            task.offset = task.offset.max(task.budget);
        }),
    }
    if random.once_in(5) {
        add_slack(random, sheet);
    }
}

/// A wish outside its range, mostly, or at an end of it.
fn bad_wish(random: &mut Random, task: &mut Task) {
    let most = task.separation.saturating_mul(16);
    let (below, above) = (task.budget.saturating_sub(1), most.saturating_add(1));
    task.offset = random.pick(&[0, below, above, u32::MAX, task.budget, most]);
}

/// H becomes a multiple of a large prime number, with a wish in its range.
fn long_separation(random: &mut Random, task: &mut Task) {
    task.separation = random.pick(&[99_991, 9_973, 997]);
    task.budget = random.between(1, task.separation);
    task.offset = random.between(task.budget, 16 * task.separation);
}

fn add_slack(random: &mut Random, sheet: &mut Table) {
    let tasks = sheet.tasks.len();
    let count = match random.index(5) {
        0 | 1 => tasks,
        2 => 1,
        3 => random.pick(&[tasks.saturating_sub(1), (tasks + 1).min(255), 255]),
        _ => random.between(1, 40) as usize,
    };
    let entry = random.pick(&[0, 1, 1000, u32::MAX]);
    sheet.slack = vec![entry; count];
}
