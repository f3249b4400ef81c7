//! Tables with one to three entries or counts that some refusal names.

use crate::editions::LONGEST_DEADLINE;
use crate::{Random, any_tight, mixed, offered, with_deadlines};
use reference::{Table, Task};

/// A table with some faults, each met by one of 3 to 12 and, in edition 2, 28; which of them comes
/// first is for the judgement to say.
pub fn faulty_table(random: &mut Random) -> Table {
    let make = random.pick(&[mixed, offered, any_tight]);
    let table = make(random);
    with_faults(random, table)
}

/// The table with one to three such faults.
pub fn with_faults(random: &mut Random, mut table: Table) -> Table {
    for _ in 0..random.between(1, 3) {
        add_fault(random, &mut table);
    }
    table
}

/// A table of edition 2 with deadlines that 28 refuses, and in many an offset that 8 refuses before
/// it, an H that 9 refuses after it, or both.
pub fn table_with_bad_deadlines(random: &mut Random) -> Table {
    let make = random.pick(&[mixed, offered, any_tight]);
    let table = make(random);
    with_bad_deadlines(random, table, bad_offset, long_separation)
}

/// The table in edition 2 with one to three deadlines that 28 refuses, and in many a fault of one
/// task that is met before 28, one that is met after it, or both.
pub fn with_bad_deadlines(random: &mut Random, table: Table, before: Fault, after: Fault) -> Table {
    let mut table = with_deadlines(random, table);
    for _ in 0..random.between(1, 3) {
        change_task(random, &mut table, bad_deadline);
    }
    for fault in [after, before] {
        if random.once_in(3) {
            change_task(random, &mut table, fault);
        }
    }
    table
}

/// A change of one task.
pub type Fault = fn(&mut Random, &mut Task);

fn add_fault(random: &mut Random, table: &mut Table) {
    match random.index(11) {
        0 => change_cores(random, table),
        1 => change_label(random, &mut table.labels),
        2 => change_tasks(random, table),
        3 => change_task(random, table, |random, task| {
            task.separation = outside(random, 100_000);
        }),
        4 => change_task(random, table, |random, task| {
            task.budget = outside(random, task.separation);
        }),
        5 => change_task(random, table, bad_offset),
        6 => change_task(random, table, long_separation),
        7 => change_task(random, table, |_, task| task.budget = task.separation),
        8 => change_slack_count(random, table),
        9 => change_task(random, table, bad_deadline),
        _ => change_slack(random, &mut table.slack),
    }
}

fn bad_offset(random: &mut Random, task: &mut Task) {
    task.offset = outside(random, task.separation);
}

/// A deadline outside its range, mostly. In edition 1 it is not written.
pub fn bad_deadline(random: &mut Random, task: &mut Task) {
    task.deadline = outside(random, LONGEST_DEADLINE);
}

/// H becomes a multiple of a large prime number, or of 100,000.
fn long_separation(random: &mut Random, task: &mut Task) {
    task.separation = random.pick(&[99_991, 9_973, 997, 100_000]);
    (task.budget, task.offset) = (1, 0);
}

pub fn change_cores(random: &mut Random, table: &mut Table) {
    let count = random.pick(&[0, 1, 2, 8, 9, 10, 255]);
    table.labels = (0..count).collect();
}

pub fn change_label(random: &mut Random, labels: &mut [u8]) {
    if labels.is_empty() {
        return;
    }
    let core = random.index(labels.len());
    let before = labels[core.saturating_sub(1)];
    labels[core] = match random.index(4) {
        0 => before,
        1 => before.saturating_sub(1),
        2 => 63,
        _ => random.pick(&[64, 65, 128, 255]),
    };
}

/// Another number of tasks. By as many as cores or fewer, but for none, only a sheet meets 5.
pub fn change_tasks(random: &mut Random, table: &mut Table) {
    // In edition 1 the deadline is not written.
    let any = Task { separation: 10, budget: 1, offset: 10, deadline: 10 };
    let count = match random.index(6) {
        0 => table.labels.len(),
        1 => random.index(table.labels.len() + 1),
        2 => 0,
        3 | 4 => 17,
        _ => random.between(1, 40) as usize,
    };
    table.tasks.resize(count, any);
}

pub fn change_task(random: &mut Random, table: &mut Table, change: Fault) {
    if !table.tasks.is_empty() {
        let task = random.index(table.tasks.len());
        change(random, &mut table.tasks[task]);
    }
}

/// A number that is 0, just above the limit, or far above it; and now and then the limit itself.
pub fn outside(random: &mut Random, limit: u32) -> u32 {
    match random.index(6) {
        0 | 1 => 0,
        2 | 3 => limit.saturating_add(1),
        4 => random.between(limit, u32::MAX),
        _ => random.pick(&[limit, u32::MAX]),
    }
}

fn change_slack_count(random: &mut Random, table: &mut Table) {
    let count = match random.index(4) {
        0 => (table.tasks.len() + 1).min(255),
        1 => table.tasks.len().saturating_sub(1),
        2 => 0,
        _ => random.between(1, 40) as usize,
    };
    table.slack.resize(count, 0);
}

fn change_slack(random: &mut Random, slack: &mut [u32]) {
    if !slack.is_empty() {
        let entry = random.index(slack.len());
        slack[entry] = random.pick(&[0, 1, 1000, u32::MAX, u32::MAX - 1, 1 << 31]);
    }
}
