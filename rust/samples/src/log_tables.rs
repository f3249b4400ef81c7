//! Tables to run logs on.

use crate::offering_tables::with_offer;
use crate::plain_tables::{loaded, offset, without_slack};
use crate::tight_tables::tight_with;
use crate::{Random, Shape, any_tight, either, long, mixed, offered, steep};
use reference::{Table, Task};

/// Separations that have a small H among themselves.
pub const SHORT: [[u32; 4]; 6] = [
    [1, 2, 3, 4],
    [2, 3, 4, 6],
    [4, 6, 8, 12],
    [10, 15, 20, 30],
    [12, 24, 36, 72],
    [17, 34, 51, 51],
];

/// An accepted table of any of the other kinds, with separations up to 100,000.
pub fn any_accepted(random: &mut Random) -> Table {
    let make = random.pick(&[mixed, long, steep, offered, any_tight, any_tight]);
    accepted(random, make)
}

/// An accepted table with separations of at most 240 ticks, so that much happens in a few hundred:
/// with shares of exactly m × H, with a random load, with slack offered, or with a task whose jobs
/// are held up by long ones.
pub fn short_accepted(random: &mut Random) -> Table {
    let make = random.pick(&[short_tight, short_tight, short_loaded, short_offered, held_up]);
    accepted(random, make)
}

/// The first table that a maker makes and the judgement accepts.
pub fn accepted(random: &mut Random, make: fn(&mut Random) -> Table) -> Table {
    loop {
        let table = make(random);
        if reference::judge(&table.bytes()).is_ok() {
            return table;
        }
    }
}

fn short_tight(random: &mut Random) -> Table {
    let shape = Shape::any(random);
    let separations = random.pick(&SHORT);
    let table = tight_with(random, shape, &separations);
    either(random, table)
}

fn short_loaded(random: &mut Random) -> Table {
    let shape = Shape::any(random);
    let separations = short_separations(random, shape.tasks);
    loaded(random, shape.cores, &separations)
}

/// Separations of at most 72 ticks.
pub fn short_separations(random: &mut Random, count: usize) -> Vec<u32> {
    let choices = random.pick(&SHORT);
    (0..count).map(|_| random.pick(&choices)).collect()
}

fn short_offered(random: &mut Random) -> Table {
    let make = random.pick(&[short_tight, short_loaded, held_up]);
    let table = make(random);
    with_offer(random, table)
}

/// As many tasks with long jobs and early priority points as there are cores, and one or two with
/// short separations: their jobs wait behind one another.
fn held_up(random: &mut Random) -> Table {
    let cores = random.between(2, 8) as usize;
    let separation = random.pick(&[24, 60, 240, 240]);
    // With a separation of 1 the bound of the short task is then near 16.
    let most = 14 * (cores as u32 - 1) / cores as u32 - random.between(0, 3);
    let least = random.pick(&[most / 2, most, most]);
    let mut tasks = Vec::new();
    for _ in 0..cores {
        let budget = random.between(least, most);
        tasks.push(Task::new(separation, budget, random.pick(&[0, 0, 1, 2])));
    }
    for _ in 0..random.pick(&[1, 1, 2]) {
        let separation = random.pick(&[1, 1, 2, 3]);
        let task = Task::new(separation, 1, offset(random, separation));
        tasks.insert(random.index(tasks.len() + 1), task);
    }
    let table = without_slack(random, cores, tasks);
    either(random, table)
}
