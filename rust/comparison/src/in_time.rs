//! Demand 3's three claims about a log run, tested of the answer's bytes: which entries are taken,
//! that each taken one finishes within its bound, and that all do exactly if the log keeps the
//! table.

use reference::{Entry, Log, Outcome, Plan};

/// The outcomes that a run's answer says, 8 bytes an entry.
pub fn read_outcomes(answer: &[u8]) -> Vec<Outcome> {
    answer.as_chunks().0.iter().map(read_outcome).collect()
}

fn read_outcome(bytes: &[u8; 8]) -> Outcome {
    let [a, b, c, d, e, f, g, h] = *bytes;
    let value = u32::from_le_bytes([e, f, g, h]);
    match u32::from_le_bytes([a, b, c, d]) {
        1 => Outcome::Finished(u64::from(value)),
        2 => Outcome::Refused(value),
        kind => panic!("an entry of kind {kind}"),
    }
}

/// Holds the three claims to a run that was not refused. Whether the log keeps the table.
pub fn check(plan: &Plan, log: &Log, outcomes: &[Outcome]) -> bool {
    assert_eq!(outcomes.len(), log.entries.len());
    let (mut largest, mut last) = (0, vec![None; plan.tasks.len()]);
    let mut all_in_time = true;
    for (entry, outcome) in log.entries.iter().zip(outcomes) {
        let expected = is_taken(plan, entry, largest, &last);
        let taken = matches!(outcome, Outcome::Finished(_));
        assert_eq!(taken, expected, "taken by the four conditions: {entry:?} of {log:?}");
        if let Outcome::Finished(finish) = outcome {
            last[usize::from(entry.task)] = Some(entry.tick);
            let most = most_ticks(plan, usize::from(entry.task));
            let took = u128::from(*finish) - u128::from(entry.tick);
            assert!(took <= most, "took {took} of {most} ticks: {entry:?} of {log:?}");
            let demand = u128::from(entry.demand);
            assert!(took >= demand, "too early: {entry:?} of {log:?}");
            // Each loop with work runs at every step, and has none left when it is released again.
            assert!(took == demand || !plan.is_few(), "waits: {entry:?} of {log:?}");
        }
        all_in_time &= taken;
        largest = largest.max(entry.tick);
    }
    let keeps = keeps_table(plan, log);
    assert_eq!(all_in_time, keeps, "all taken and in time if the log keeps the table: {log:?}");
    keeps
}

/// Within how many ticks a taken entry of a loop finishes: its bound or, where loops are no more
/// than cores, "the budget alone".
fn most_ticks(plan: &Plan, task: usize) -> u128 {
    if plan.is_few() { u128::from(plan.tasks[task].budget) } else { plan.bound(task) }
}

/// No earlier entry has a larger tick, the loop is in the table, its last taken release is at least
/// T ago, and the demand is 1 to C.
fn is_taken(plan: &Plan, entry: &Entry, largest: u32, last: &[Option<u32>]) -> bool {
    let Some(task) = plan.tasks.get(usize::from(entry.task)) else {
        return false;
    };
    let apart = |last: u32| entry.tick >= last && entry.tick - last >= task.separation;
    entry.tick >= largest
        && last[usize::from(entry.task)].is_none_or(apart)
        && (1..=task.budget).contains(&entry.demand)
}

/// Ticks never go back, every loop is in the table, any two entries of one loop are at least T
/// apart, and every demand is 1 to C.
fn keeps_table(plan: &Plan, log: &Log) -> bool {
    let mut ticks = vec![Vec::new(); plan.tasks.len()];
    for entry in &log.entries {
        match plan.tasks.get(usize::from(entry.task)) {
            Some(task) if (1..=task.budget).contains(&entry.demand) => {
                ticks[usize::from(entry.task)].push(entry.tick);
            }
            _ => return false,
        }
    }
    // Two neighbours among the sorted ticks are the closest.
    let apart = ticks.iter_mut().zip(&plan.tasks).all(|(ticks, task)| {
        ticks.sort();
        ticks.windows(2).all(|pair| pair[1] - pair[0] >= task.separation)
    });
    apart && log.entries.is_sorted_by_key(|entry| entry.tick)
}
