//! Document 01's part "Compliant slack", and the names of document 02, §1.

use std::cmp::Reverse;

use records::Task;

/// "H is above 1,000,000" is refusal 9.
const LARGEST_HYPERPERIOD: u128 = 1_000_000;

/// The tasks of a table that passes 3 to 8, with m, H and the share of each.
pub struct Analysis<'a> {
    cores: u128,
    tasks: &'a [Task],
    hyperperiod: u128,
    shares: Vec<u128>,
}

impl<'a> Analysis<'a> {
    /// Nothing where H is above 1,000,000.
    pub fn new(cores: usize, tasks: &'a [Task]) -> Option<Analysis<'a>> {
        let cores = cores as u128;
        let hyperperiod = hyperperiod(tasks)?;
        let shares = tasks.iter().map(|task| share(task, hyperperiod)).collect();
        Some(Analysis { cores, tasks, hyperperiod, shares })
    }

    /// The same tasks with other offsets: neither H nor a share has any in it.
    pub fn with_offsets<'b>(&self, tasks: &'b [Task]) -> Analysis<'b> {
        let shares = self.shares.clone();
        Analysis { cores: self.cores, tasks, hyperperiod: self.hyperperiod, shares }
    }

    /// What 10 compares: all shares added up, and m × H.
    pub fn load_and_capacity(&self) -> (u128, u128) {
        (self.shares.iter().sum(), self.cores * self.hyperperiod)
    }

    /// H: "the least common multiple of all T".
    pub fn hyperperiod(&self) -> u128 {
        self.hyperperiod
    }

    /// "weight of loop i = share × (x + Y)".
    pub fn weight(&self, i: usize, slack: &[u128]) -> u128 {
        self.shares[i] * (slack[i] + wide(self.tasks[i].offset))
    }

    /// "surplus of loop i = share × (T − Y)".
    fn surplus(&self, i: usize) -> u128 {
        let task = &self.tasks[i];
        self.shares[i] * (wide(task.separation) - wide(task.offset))
    }

    /// The loops of the m − 1 largest weights, "largest first, equal weights by lower loop".
    pub fn counted(&self, slack: &[u128]) -> Vec<usize> {
        let mut loops: Vec<usize> = self.every_task().collect();
        loops.sort_by_key(|&i| (Reverse(self.weight(i, slack)), i));
        loops.truncate(self.cores as usize - 1);
        loops
    }

    /// "A = the sum of the m − 1 largest weights, plus all n surpluses".
    fn amount(&self, slack: &[u128]) -> u128 {
        let mut weights: Vec<u128> = self.every_task().map(|i| self.weight(i, slack)).collect();
        weights.sort();
        weights.reverse();
        let largest: u128 = weights[..self.cores as usize - 1].iter().sum();
        let surpluses: u128 = self.every_task().map(|i| self.surplus(i)).sum();
        largest + surpluses
    }

    /// The lowest loop k for which "m × H × x + H × C is at least A" does not hold, or nothing
    /// where the slack is compliant.
    pub fn lowest_failing(&self, slack: &[u128]) -> Option<usize> {
        let amount = self.amount(slack);
        let supply = |k: usize| {
            self.cores * self.hyperperiod * slack[k] + self.hyperperiod * wide(self.tasks[k].budget)
        };
        self.every_task().find(|&k| supply(k) < amount)
    }

    /// "starting at zeros, the vector is raised until nothing changes".
    pub fn found(&self) -> Vec<u128> {
        self.raised_from(vec![0; self.tasks.len()])
    }

    /// The vector raised until nothing changes: the compliant vector that is no smaller than
    /// `slack` at any loop and no larger at any loop than any other such.
    pub fn raised_from(&self, mut slack: Vec<u128>) -> Vec<u128> {
        loop {
            let raised = self.raised_once(&slack);
            if raised == slack {
                return slack;
            }
            slack = raised;
        }
    }

    /// Each entry raised to the smallest whole x for which "m × H × x + H × C is at least A".
    pub fn raised_once(&self, slack: &[u128]) -> Vec<u128> {
        let amount = self.amount(slack);
        let smallest = |k: usize| {
            let budget = self.hyperperiod * wide(self.tasks[k].budget);
            let missing = amount.saturating_sub(budget);
            missing.div_ceil(self.cores * self.hyperperiod)
        };
        self.every_task().map(|k| slack[k].max(smallest(k))).collect()
    }

    fn every_task(&self) -> std::ops::Range<usize> {
        0..self.tasks.len()
    }
}

/// "The share of a loop is C × H / T, a whole number."
fn share(task: &Task, hyperperiod: u128) -> u128 {
    let product = wide(task.budget) * hyperperiod;
    let separation = wide(task.separation);
    assert_eq!(product % separation, 0, "a share is a whole number");
    product / separation
}

/// "H is the least common multiple of all T." A multiple of more numbers is never smaller, so
/// once it is above 1,000,000 there is nothing more to know of it.
fn hyperperiod(tasks: &[Task]) -> Option<u128> {
    let mut multiple = 1;
    for task in tasks {
        multiple = least_common_multiple(multiple, wide(task.separation));
        if multiple > LARGEST_HYPERPERIOD {
            return None;
        }
    }
    Some(multiple)
}

fn least_common_multiple(a: u128, b: u128) -> u128 {
    a * b / greatest_common_divisor(a, b)
}

fn greatest_common_divisor(a: u128, b: u128) -> u128 {
    if b == 0 { a } else { greatest_common_divisor(b, a % b) }
}

/// A number of a table, in the width in which everything is worked out.
pub fn wide(number: u32) -> u128 {
    u128::from(number)
}
