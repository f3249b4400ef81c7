//! Refusals 3 to 13, 28 and 24, each tested over all entries before the next, and what an accepted
//! table gives: a plan, its bytes, the slack and bound that the C judgement writes, and the loops
//! that were counted.

use crate::slack::wide;
use crate::{Analysis, Table, is_few};
use records::{Refusal, Task};

/// "The plan keeps the table's entries, the slack, and whether it was offered or found; bounds are
/// always worked out from these." "the plan holds the edition", and "plans are the same only if
/// editions agree too".
#[derive(Clone, Debug, PartialEq, Eq)]
pub struct Plan {
    pub edition: u8,
    pub labels: Vec<u8>,
    pub tasks: Vec<Task>,
    pub slack: Vec<u32>,
    pub offered: bool,
}

impl Plan {
    /// "The *bound* of a loop is Y + x + C, counted from release." With few loops "its slack is 0
    /// and its bound is its budget".
    pub fn bound(&self, k: usize) -> u128 {
        let task = &self.tasks[k];
        if self.is_few() {
            return wide(task.budget);
        }
        wide(task.offset) + wide(self.slack[k]) + wide(task.budget)
    }

    /// "A judgement hands the names back beside the plan, by the weights at its slack, offered or
    /// found alike". With few loops it "names no loop".
    pub fn counted(&self) -> Vec<usize> {
        if self.is_few() {
            return Vec::new();
        }
        let slack: Vec<u128> = self.slack.iter().map(|&x| wide(x)).collect();
        let analysis = Analysis::new(self.labels.len(), &self.tasks);
        analysis.expect("9 is passed").counted(&slack)
    }

    /// "*Late* is x + C, counted from the priority point": the bound minus the offset. In edition 2
    /// "late is the larger of 0 and bound − D". With few loops it is "the larger of 0 and bound
    /// minus offset, or minus deadline in edition 2".
    pub fn late(&self, k: usize) -> u128 {
        let task = &self.tasks[k];
        let from = if self.edition == 2 { task.deadline } else { task.offset };
        self.bound(k).saturating_sub(wide(from))
    }

    /// Whether its loops are no more than its cores.
    pub fn is_few(&self) -> bool {
        is_few(self.labels.len(), self.tasks.len())
    }
}

/// The plan of a table's bytes, or which of 1 to 13 and 28 they meet.
pub fn judge(bytes: &[u8]) -> Result<Plan, Refusal> {
    let table = Table::read(bytes)?;
    // "Number 5 now meets 0 loops or more than 16".
    test_entries(&table, 1)?;
    // 8: "An offset is above its separation."
    test_each(8, &table.tasks, |_, task| task.offset <= task.separation)?;
    test_deadlines(&table)?;
    let plan = with_slack(table)?;
    // 13: "A bound is above 16 × T."
    test_each(13, &plan.tasks, |k, task| plan.bound(k) <= 16 * wide(task.separation))?;
    Ok(plan)
}

/// The C judgement: it "writes slack and bound for each loop, 4 bytes each, to a lent buffer;
/// bytes beyond stay", and answers n. On a refusal "nothing lent is written".
pub fn judge_into(bytes: &[u8], out: &mut [u8]) -> Result<usize, Refusal> {
    let plan = judge(bytes)?;
    let tasks = plan.tasks.len();
    // 24: "The buffer lent [..] to the C judgement is too short, tested after 3 to 13."
    if out.len() < 8 * tasks {
        return Err(Refusal::whole(24));
    }
    for k in 0..tasks {
        let bound = u32::try_from(plan.bound(k)).expect("13 keeps a bound to 16 × 100,000");
        out[8 * k..8 * k + 4].copy_from_slice(&plan.slack[k].to_le_bytes());
        out[8 * k + 4..8 * k + 8].copy_from_slice(&bound.to_le_bytes());
    }
    Ok(tasks)
}

/// The names of the loops that a judgement counted, one byte each, in a lent buffer; bytes beyond
/// stay. It answers how many, and on a refusal "nothing lent is written".
pub fn counted_into(bytes: &[u8], out: &mut [u8]) -> Result<usize, Refusal> {
    let counted = judge(bytes)?.counted();
    if out.len() < counted.len() {
        return Err(Refusal::whole(24));
    }
    for (place, &k) in out.iter_mut().zip(&counted) {
        *place = u8::try_from(k).expect("there are at most 16 loops");
    }
    Ok(counted.len())
}

/// The bytes of a plan: "The writer writes found slack as count 0" and "gives back the edition that
/// was read".
pub fn write(plan: &Plan) -> Vec<u8> {
    let table = Table {
        edition: plan.edition,
        labels: plan.labels.clone(),
        tasks: plan.tasks.clone(),
        slack: if plan.offered { plan.slack.clone() } else { Vec::new() },
    };
    table.bytes()
}

/// 3 to 7, which a wish sheet is tested by as well; by 5 loops are at least `fewest`.
pub fn test_entries(table: &Table, fewest: usize) -> Result<(), Refusal> {
    test_cores(table)?;
    test_tasks(table, fewest)
}

/// 3 and 4.
fn test_cores(table: &Table) -> Result<(), Refusal> {
    // 3: "Cores are not 2 to 8."
    if !(2..=8).contains(&table.labels.len()) {
        return Err(Refusal::whole(3));
    }
    // 4: "A core label is above 63 or not above the one before."
    test_each(4, &table.labels, |core, &label| {
        label <= 63 && (core == 0 || label > table.labels[core - 1])
    })
}

/// 5 to 7.
fn test_tasks(table: &Table, fewest: usize) -> Result<(), Refusal> {
    let tasks = &table.tasks;
    // 5: loops are fewer than these "or more than 16".
    if tasks.len() < fewest || tasks.len() > 16 {
        return Err(Refusal::whole(5));
    }
    // 6: "A separation is not 1 to 100,000."
    test_each(6, tasks, |_, task| (1..=100_000).contains(&task.separation))?;
    // 7: "A budget is not 1 to its separation."
    test_each(7, tasks, |_, task| (1..=task.separation).contains(&task.budget))
}

/// 28: "an edition 2 loop's D is not 1 to 1,600,000, tested after 8 (26 on a sheet)".
pub fn test_deadlines(table: &Table) -> Result<(), Refusal> {
    test_each(28, &table.tasks, |_, task| {
        table.edition != 2 || (1..=1_600_000).contains(&task.deadline)
    })
}

/// 9 and 10, which do not look at offsets: a wish sheet is tested by them as well.
pub fn test_shares(table: &Table) -> Result<Analysis<'_>, Refusal> {
    // 9: "H is above 1,000,000."
    let analysis = Analysis::new(table.labels.len(), &table.tasks).ok_or(Refusal::whole(9))?;
    // 10: "The shares add up to more than m × H."
    let (load, capacity) = analysis.load_and_capacity();
    if load > capacity {
        return Err(Refusal::whole(10));
    }
    Ok(analysis)
}

/// 9 to 12: the table with its slack, offered or found.
fn with_slack(table: Table) -> Result<Plan, Refusal> {
    let analysis = test_shares(&table)?;
    let few = is_few(table.labels.len(), table.tasks.len());
    // "Count 0 means that no slack is offered, and slack is then found. It doesn't mean zeros: an
    // offered 0 is a number and is tested."
    let offered = !table.slack.is_empty();
    // 11: "The slack count is neither 0 nor n." With few loops "offered slack [..] is refused 11".
    if offered && (few || table.slack.len() != table.tasks.len()) {
        return Err(Refusal::whole(11));
    }
    let slack = if offered {
        test_offer(&analysis, &table.slack)?
    } else if few {
        // "its slack is 0".
        vec![0; table.tasks.len()]
    } else {
        narrow(analysis.found())
    };
    Ok(Plan { edition: table.edition, labels: table.labels, tasks: table.tasks, slack, offered })
}

/// 12: "Offered slack isn't compliant (lowest loop k that fails)."
fn test_offer(analysis: &Analysis, offer: &[u32]) -> Result<Vec<u32>, Refusal> {
    let slack: Vec<u128> = offer.iter().map(|&x| wide(x)).collect();
    match analysis.lowest_failing(&slack) {
        Some(k) => Err(Refusal::at(12, k)),
        None => Ok(offer.to_vec()),
    }
}

/// Found slack in a table's width.
pub fn narrow(found: Vec<u128>) -> Vec<u32> {
    let entry = |x| u32::try_from(x).expect("found slack is far below 2^32");
    found.into_iter().map(entry).collect()
}

/// A refusal over all entries, with the lowest one that fails as its index.
pub fn test_each<T>(
    number: u32,
    entries: &[T],
    passes: impl Fn(usize, &T) -> bool,
) -> Result<(), Refusal> {
    match entries.iter().enumerate().find(|(index, entry)| !passes(*index, entry)) {
        Some((index, _)) => Err(Refusal::at(number, index)),
        None => Ok(()),
    }
}
