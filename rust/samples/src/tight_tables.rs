//! Tables whose shares add up to exactly m × H, and to a little more.

use crate::plain_tables::{composite, divisor, offset, without_slack};
use crate::{Random, Shape, either};
use reference::{Table, Task};

/// A table without slack, of any shape, whose shares add up to exactly m × H.
pub fn any_tight(random: &mut Random) -> Table {
    let shape = Shape::any(random);
    let table = tight(random, shape);
    either(random, table)
}

/// A table without slack of this shape whose shares add up to exactly m × H, in edition 1.
pub fn tight(random: &mut Random, shape: Shape) -> Table {
    let separations = separations(random);
    tight_with(random, shape, &separations)
}

/// The same with these separations for its groups.
///
/// Its tasks fall into groups of one separation each, and the budgets of a group add up to a whole
/// number of that separation: the group fills that many cores.
pub fn tight_with(random: &mut Random, shape: Shape, separations: &[u32]) -> Table {
    let mut tasks = Vec::new();
    let (mut cores, mut left) = (shape.cores, shape.tasks);
    for separation in separations.iter().cycle() {
        let (filled, members) = group(random, cores, left);
        let separation = long_enough(*separation, members);
        for budget in parts(random, filled as u32 * separation, members, separation) {
            tasks.push(Task::new(separation, budget, offset(random, separation)));
        }
        cores -= filled;
        left -= members;
        if cores == 0 {
            break;
        }
    }
    shuffle(random, &mut tasks);
    without_slack(random, shape.cores, tasks)
}

/// Separations for the groups: two with a product just below 1,000,000, or divisors of a number.
fn separations(random: &mut Random) -> Vec<u32> {
    if random.once_in(3) {
        let first = random.between(500, 1000);
        return vec![first, random.between(991_000, 1_000_000) / first];
    }
    let common = composite(random, 1_000_000);
    (0..4).map(|_| divisor(random, common)).collect()
}

/// A tight table with one budget one higher, so that the shares are more than m × H.
pub fn overfull(random: &mut Random) -> Table {
    let mut table = any_tight(random);
    let raisable: Vec<usize> = (0..table.tasks.len())
        .filter(|&i| table.tasks[i].budget < table.tasks[i].separation)
        .collect();
    let task = random.pick(&raisable);
    table.tasks[task].budget += 1;
    table
}

/// The next group: how many of the cores it fills, and with how many of the tasks that are left.
/// A group has no fewer tasks than cores, and the last one takes all.
fn group(random: &mut Random, cores: usize, left: usize) -> (usize, usize) {
    if cores == 1 || random.once_in(3) {
        return (cores, left);
    }
    let filled = random.between(1, cores as u32 - 1) as usize;
    let most = left - (cores - filled);
    (filled, random.between(filled as u32, most as u32) as usize)
}

/// A separation of at least the number of members, so that each can have a budget.
fn long_enough(separation: u32, members: usize) -> u32 {
    if separation < members as u32 { 16 } else { separation }
}

/// `total` in so many parts, each from 1 to `most`.
fn parts(random: &mut Random, total: u32, members: usize, most: u32) -> Vec<u32> {
    let mut left = total;
    let mut parts = Vec::new();
    for after in (0..members as u32).rev() {
        let low = left.saturating_sub(after * most).max(1);
        let high = (left - after).min(most);
        let even = left / (after + 1);
        let part = match random.index(3) {
            0 => even.clamp(low, high),
            _ => random.between(low, high),
        };
        parts.push(part);
        left -= part;
    }
    parts
}

fn shuffle(random: &mut Random, tasks: &mut [Task]) {
    for i in 1..tasks.len() {
        tasks.swap(i, random.index(i + 1));
    }
}
