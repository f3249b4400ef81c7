//! Tables that offer slack: at compliance, one below and one above it, zeros, and 2^32 − 1.

use crate::plain_tables::without_slack;
use crate::{Random, any_tight, either, long, mixed, steep};
use reference::{Analysis, Table, Task};

/// A table that offers slack on either side of compliance for some task.
pub fn offered(random: &mut Random) -> Table {
    let table = match random.index(6) {
        0 => flat(random),
        1 => steep(random),
        2 => long(random),
        3 => any_tight(random),
        _ => mixed(random),
    };
    with_offer(random, table)
}

/// The table with slack offered on either side of compliance for some task.
pub fn with_offer(random: &mut Random, mut table: Table) -> Table {
    let lowest = lowest_entries(random, &table.tasks);
    let mut slack = compliant(&table, lowest);
    change(random, &mut slack);
    table.slack = slack;
    table
}

/// Two cores, equal budgets and full offsets: zeros are compliant. In some, one budget or offset is
/// one lower, so that they are not.
fn flat(random: &mut Random) -> Table {
    let budget = random.between(1, 50);
    let count = random.between(3, 16) as usize;
    let mut tasks = Vec::new();
    for _ in 0..count {
        let separation = budget * random.pick(&[2, 3, 4, 8, 12, 16, 24]);
        tasks.push(Task::new(separation, budget, separation));
    }
    let task = random.index(count);
    match random.index(4) {
        0 => tasks[task].offset -= 1,
        1 if budget > 1 => tasks[task].budget -= 1,
        _ => {}
    }
    let table = without_slack(random, 2, tasks);
    either(random, table)
}

/// What each entry is to be at least, before the vector is raised to a compliant one.
fn lowest_entries(random: &mut Random, tasks: &[Task]) -> Vec<u32> {
    let mut entries = vec![0; tasks.len()];
    let chosen = random.index(tasks.len());
    match random.index(6) {
        0 => entries.fill(u32::MAX),
        1 => entries[chosen] = u32::MAX,
        2 => entries[chosen] = room(&tasks[chosen]) + random.between(0, 1),
        3 => {
            for (entry, task) in entries.iter_mut().zip(tasks) {
                *entry = random.between(0, room(task));
            }
        }
        _ => {}
    }
    entries
}

/// The largest slack with which the bound is still 16 × T.
fn room(task: &Task) -> u32 {
    16 * task.separation - task.offset - task.budget
}

/// The smallest compliant vector with these lowest entries; the entries themselves where H is
/// above its limit, since no slack is looked at then.
fn compliant(table: &Table, lowest: Vec<u32>) -> Vec<u32> {
    let Some(analysis) = Analysis::new(table.labels.len(), &table.tasks) else {
        return lowest;
    };
    let raised = analysis.raised_from(lowest.into_iter().map(u128::from).collect());
    raised.into_iter().map(|x| u32::try_from(x).expect("an entry is below 2^32")).collect()
}

/// One entry one lower or higher, or at an end of its range; or all zeros; or nothing changed.
fn change(random: &mut Random, slack: &mut [u32]) {
    let chosen = random.index(slack.len());
    match random.index(12) {
        0..=2 => slack[chosen] = slack[chosen].saturating_sub(1),
        3..=5 => slack[chosen] = slack[chosen].saturating_add(1),
        6 => slack[chosen] = u32::MAX,
        7 => slack[chosen] = 0,
        8 => slack.fill(0),
        _ => {}
    }
}
