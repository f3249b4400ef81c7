//! Tables of valid shape without slack: they pass 1 to 8, most of them 9 and 10 too.

use crate::{Random, either};
use reference::{Table, Task};

/// The factors of composite numbers, the small ones more often.
const FACTORS: [u32; 11] = [2, 3, 5, 2, 7, 3, 11, 2, 5, 13, 101];

/// Separations with an H of 1,000,000, one below and one above, and of 999,000 and 1,001,000.
const AT_LIMIT: [(u32, u32); 5] =
    [(8000, 15_625), (999, 1001), (101, 9901), (999, 1000), (1000, 1001)];

/// How many cores and tasks a table has.
#[derive(Clone, Copy)]
pub struct Shape {
    pub cores: usize,
    pub tasks: usize,
}

impl Shape {
    /// Any shape that 3 and, on a wish sheet, 5 allow: more tasks than cores.
    pub fn any(random: &mut Random) -> Shape {
        let cores = random.between(2, 8) as usize;
        let tasks = random.between(cores as u32 + 1, 16) as usize;
        Shape { cores, tasks }
    }

    /// No more tasks than cores: often one alone, or as many.
    pub fn few(random: &mut Random) -> Shape {
        let cores = random.between(2, 8) as usize;
        let any = random.between(1, cores as u32) as usize;
        Shape { cores, tasks: random.pick(&[1, any, any, cores]) }
    }
}

/// Tasks with a random load, often just below or above what the cores can carry.
pub fn mixed(random: &mut Random) -> Table {
    let shape = Shape::any(random);
    let separations = mixed_separations(random, shape.tasks);
    loaded(random, shape.cores, &separations)
}

/// The separations of some tables divide a common number and differ widely; those of others are
/// within a factor of six, so that most bounds are short enough.
pub fn mixed_separations(random: &mut Random, count: usize) -> Vec<u32> {
    let common = composite(random, 1_000_000);
    let base = random.between(1, 1_000_000 / 60);
    let alike = !random.once_in(4);
    (0..count)
        .map(|_| if alike { base * random.between(1, 6) } else { divisor(random, common) })
        .collect()
}

/// Tasks with a random load, and with an H near 1,000,000.
pub fn long(random: &mut Random) -> Table {
    let shape = Shape::any(random);
    let separations = long_separations(random, shape.tasks);
    loaded(random, shape.cores, &separations)
}

/// Separations whose H is near 1,000,000, on either side.
pub fn long_separations(random: &mut Random, count: usize) -> Vec<u32> {
    let (first, second) = if random.once_in(4) {
        random.pick(&AT_LIMIT)
    } else {
        let first = random.between(10, 1000);
        (first, random.between(999_000, 1_001_000) / first)
    };
    (0..count)
        .map(|_| match random.index(4) {
            0 => first,
            1 => second,
            2 => divisor(random, first),
            _ => divisor(random, second),
        })
        .collect()
}

/// One short task among long ones of nearly the same budget: its bound is near 16 times its
/// separation.
pub fn steep(random: &mut Random) -> Table {
    let cores = random.between(2, 4) as usize;
    let long = random.pick(&[50, 100, 120, 360, 1000, 10_000]);
    let spread = long / 20;
    let budget = random.between(1, long / 2);
    let mut tasks = Vec::new();
    for _ in 0..=cores {
        let budget = random.between(budget, budget + spread);
        let early = if random.once_in(3) { random.between(0, spread) } else { 0 };
        tasks.push(Task::new(long, budget, long - early));
    }
    let short = random.pick(&[1, 1, 2, long / 25, long / 10]).max(1);
    let place = random.index(tasks.len());
    tasks[place] = Task::new(short, random.between(1, short), random.between(0, short));
    let table = without_slack(random, cores, tasks);
    either(random, table)
}

/// These tasks on cores with any labels, in edition 1.
pub fn without_slack(random: &mut Random, cores: usize, tasks: Vec<Task>) -> Table {
    Table { edition: 1, labels: labels(random, cores), tasks, slack: vec![] }
}

/// Labels 0 to 63, strictly rising.
fn labels(random: &mut Random, cores: usize) -> Vec<u8> {
    let mut chosen = 0u64;
    while (chosen.count_ones() as usize) < cores {
        chosen |= 1 << random.index(64);
    }
    (0..64).filter(|label| chosen >> label & 1 == 1).collect()
}

/// An offset within its separation: none, all of it, or between.
pub fn offset(random: &mut Random, separation: u32) -> u32 {
    match random.index(4) {
        0 => separation,
        1 => 0,
        _ => random.between(0, separation),
    }
}

/// A number up to `limit` with many divisors.
pub fn composite(random: &mut Random, limit: u32) -> u32 {
    let limit = random.between(2, limit);
    let mut number = 1;
    loop {
        let factor = random.pick(&FACTORS);
        if number * factor > limit {
            return number;
        }
        number *= factor;
    }
}

/// A divisor of `number` that is at most 100,000. Its factors are taken out in a random order, so
/// that several divisors have the whole number as their least common multiple.
pub fn divisor(random: &mut Random, number: u32) -> u32 {
    let mut divisor = number;
    let start = random.index(FACTORS.len());
    for step in 0..FACTORS.len() {
        let factor = FACTORS[(start + step) % FACTORS.len()];
        while divisor.is_multiple_of(factor) && (divisor > 100_000 || random.once_in(3)) {
            divisor /= factor;
        }
    }
    if divisor > 100_000 { 1 } else { divisor }
}

/// Tasks with these separations whose budgets ask for a random part of the cores.
pub fn loaded(random: &mut Random, cores: usize, separations: &[u32]) -> Table {
    let weights: Vec<u64> = separations.iter().map(|_| 1 + random.bits() % 100).collect();
    let sum: u64 = weights.iter().sum();
    let percent = u64::from(random.between(10, 105));
    let tasks = separations.iter().zip(weights).map(|(&separation, weight)| {
        let most = u64::from(separation);
        let budget = most * cores as u64 * weight * percent / (100 * sum);
        let budget = budget.clamp(1, most) as u32;
        Task::new(separation, budget, offset(random, separation))
    });
    let tasks = tasks.collect();
    let table = without_slack(random, cores, tasks);
    either(random, table)
}
