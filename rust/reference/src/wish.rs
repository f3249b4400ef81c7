//! Document 02, §3: offsets from wished responses. A wish sheet is "a table with the wished bound W
//! in the offset's place and slack count 0"; here the place keeps its name. By §5 it "may be of
//! either edition".

use crate::plan::{narrow, test_deadlines, test_each, test_entries, test_shares};
use crate::slack::wide;
use crate::{Analysis, Plan, Table};
use records::{Refusal, Task};

/// The plan of a wish sheet's bytes, its slack marked as found, or which of 1 to 7, 26, 28, 9, 10,
/// 11 and 27, in this order, they meet. "Numbers 8, 12 and 13 don't arise on a sheet".
pub fn wish(bytes: &[u8]) -> Result<Plan, Refusal> {
    let sheet = passed(bytes)?;
    // 27: "no solution exists, tested last".
    raised(&sheet).ok_or(Refusal::whole(27))
}

/// Offset, slack and bound of each loop of the plan, 4 bytes each, in a lent buffer; bytes beyond
/// stay. It answers n, and on a refusal "nothing lent is written".
pub fn wish_into(bytes: &[u8], out: &mut [u8]) -> Result<usize, Refusal> {
    let plan = wish(bytes)?;
    let tasks = plan.tasks.len();
    // 24: the buffer lent is too short, tested after all other numbers.
    if out.len() < 12 * tasks {
        return Err(Refusal::whole(24));
    }
    for (k, entry) in out.chunks_mut(12).take(tasks).enumerate() {
        let bound = u32::try_from(plan.bound(k)).expect("a bound is at most its wish");
        entry[..4].copy_from_slice(&plan.tasks[k].offset.to_le_bytes());
        entry[4..8].copy_from_slice(&plan.slack[k].to_le_bytes());
        entry[8..].copy_from_slice(&bound.to_le_bytes());
    }
    Ok(tasks)
}

/// The sheet of some bytes, if it meets no number before 27.
fn passed(bytes: &[u8]) -> Result<Table, Refusal> {
    let sheet = Table::read(bytes)?;
    // "wish sheets keep the old 5": "Loops are fewer than cores + 1 or more than 16."
    test_entries(&sheet, sheet.labels.len() + 1)?;
    // 26: "W is not C to 16 × T, tested where 8 was".
    test_each(26, &sheet.tasks, |_, task| {
        (wide(task.budget)..=16 * wide(task.separation)).contains(&wide(task.offset))
    })?;
    test_deadlines(&sheet)?;
    test_shares(&sheet)?;
    // 11: "11 meets any slack count but 0."
    if !sheet.slack.is_empty() {
        return Err(Refusal::whole(11));
    }
    Ok(sheet)
}

/// The solution with the least slack and the largest offsets, or nothing where there is none.
///
/// The slack is raised from zeros until nothing changes, as a judgement raises it, with the largest
/// offsets that the wishes leave it. Any solution has at least this slack: with more slack at some
/// loops, and smaller offsets, A is no smaller.
fn raised(sheet: &Table) -> Option<Plan> {
    let analysis = analysis(sheet);
    let mut slack = vec![0; sheet.tasks.len()];
    loop {
        let tasks = with_largest_offsets(sheet, &slack)?;
        let raised = analysis.with_offsets(&tasks).raised_once(&slack);
        if raised == slack {
            return Some(plan(sheet, tasks, slack));
        }
        slack = raised;
    }
}

/// The loops with the largest offsets for which "Y + x + C [is] at most W": the smaller of T and
/// W − C − x. Nothing where this is below 0 at some loop.
fn with_largest_offsets(sheet: &Table, slack: &[u128]) -> Option<Vec<Task>> {
    let with_offset = |(task, x): (&Task, &u128)| {
        let left = wide(task.offset).checked_sub(wide(task.budget) + x)?;
        let offset = left.min(wide(task.separation));
        Some(Task { offset: u32::try_from(offset).expect("an offset is at most T"), ..*task })
    };
    sheet.tasks.iter().zip(slack).map(with_offset).collect()
}

/// The same plan by trying, for tiny sheets that meet no number before 27; nothing where there is
/// no solution.
///
/// "Find whole offsets 0 to T and compliant whole slack with Y + x + C at most W for every loop":
/// so no slack of a solution is above W − C, and all up to it are tried with all offsets.
pub fn wish_by_trying(bytes: &[u8]) -> Option<Plan> {
    let sheet = passed(bytes).expect("the sheet meets no number before 27");
    let solutions = solutions(&sheet);
    let every_loop = 0..sheet.tasks.len();
    let least = |k: usize| solutions.iter().map(|(_, slack)| slack[k]).min();
    let largest = |k: usize| solutions.iter().map(|(offsets, _)| offsets[k]).max();
    // "The slack is the least and each offset the largest of all solutions."
    let slack: Vec<u128> = every_loop.clone().map(least).collect::<Option<_>>()?;
    let offsets: Vec<u128> = every_loop.map(largest).collect::<Option<_>>()?;
    let tasks = with_offsets(&sheet, &offsets);
    let solution = (offsets, slack);
    assert!(solutions.contains(&solution), "{solution:?} is no solution of {sheet:?}");
    Some(plan(&sheet, tasks, solution.1))
}

/// Every solution, as offsets and slack.
fn solutions(sheet: &Table) -> Vec<(Vec<u128>, Vec<u128>)> {
    let analysis = analysis(sheet);
    let slacks = vectors(sheet.tasks.iter().map(|task| task.offset - task.budget));
    let mut solutions = Vec::new();
    for offsets in vectors(sheet.tasks.iter().map(|task| task.separation)) {
        let tasks = with_offsets(sheet, &offsets);
        let analysis = analysis.with_offsets(&tasks);
        for slack in &slacks {
            if keeps_wishes(sheet, &offsets, slack) && analysis.lowest_failing(slack).is_none() {
                solutions.push((offsets.clone(), slack.clone()));
            }
        }
    }
    solutions
}

/// "Y + x + C at most W for every loop".
fn keeps_wishes(sheet: &Table, offsets: &[u128], slack: &[u128]) -> bool {
    let wishes = sheet.tasks.iter().zip(offsets).zip(slack);
    let mut kept = wishes.map(|((task, y), x)| y + x + wide(task.budget) <= wide(task.offset));
    kept.all(|kept| kept)
}

/// Every vector whose entries are from 0 to these numbers.
fn vectors(largest: impl Iterator<Item = u32>) -> Vec<Vec<u128>> {
    let longer = |vectors: Vec<Vec<u128>>, largest| {
        let with_each = |vector: Vec<u128>| {
            (0..=wide(largest)).map(move |entry| [&vector[..], &[entry]].concat())
        };
        vectors.into_iter().flat_map(with_each).collect()
    };
    largest.fold(vec![vec![]], longer)
}

/// The loops with these offsets in place of the wishes.
fn with_offsets(sheet: &Table, offsets: &[u128]) -> Vec<Task> {
    let offset = |y| u32::try_from(y).expect("an offset is at most T");
    let tasks = sheet.tasks.iter().zip(offsets);
    tasks.map(|(task, &y)| Task { offset: offset(y), ..*task }).collect()
}

/// H and the shares, which no wish is part of.
fn analysis(sheet: &Table) -> Analysis<'_> {
    Analysis::new(sheet.labels.len(), &sheet.tasks).expect("9 is passed")
}

/// "The plan found, with its slack left out, is accepted by the judge with the same slack": it is a
/// found one.
fn plan(sheet: &Table, tasks: Vec<Task>, slack: Vec<u128>) -> Plan {
    let (edition, labels) = (sheet.edition, sheet.labels.clone());
    Plan { edition, labels, tasks, slack: narrow(slack), offered: false }
}
