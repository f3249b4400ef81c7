//! Who ran in a log run, worked out again from its answer. A taken entry is its loop's oldest
//! unfinished job from its release, or from the finish of the one before it, to its own finish; and
//! between two such ticks the same jobs run. So the answer is held to the order in which they run
//! on logs that are too long to go through tick by tick, too.

use crate::ties::Ties;
use reference::{Head, Log, Outcome, Plan};

/// A taken entry.
struct Job {
    head: Head,
    demand: u64,
    /// From which tick it may run.
    from: u64,
    finish: u64,
    /// In how many ticks it has run.
    ran: u64,
}

/// Holds a run that was not refused to the order of its jobs: each of them has run for as many ticks
/// as it demands when it finishes, and not before. What their equal points show.
pub fn check_order(plan: &Plan, log: &Log, outcomes: &[Outcome]) -> Ties {
    let mut jobs = jobs(plan, log, outcomes);
    let mut ticks: Vec<u64> = jobs.iter().flat_map(|job| [job.from, job.finish]).collect();
    ticks.sort();
    ticks.dedup();
    jobs.sort_by_key(|job| job.from);
    let (cores, mut coming) = (plan.labels.len(), jobs.into_iter().peekable());
    let (mut pending, mut ties) = (Vec::<Job>::new(), Ties::default());
    for span in ticks.windows(2) {
        pending.retain(|job| job.finish > span[0]);
        while let Some(job) = coming.next_if(|job| job.from == span[0]) {
            pending.push(job);
        }
        pending.sort_by_key(|job| job.head);
        for job in pending.iter_mut().take(cores) {
            job.ran += span[1] - span[0];
        }
        for job in &pending {
            let (done, finishes) = (job.ran == job.demand, job.finish == span[1]);
            assert_eq!(done, finishes, "at {}: {:?} of {log:?}", span[1], job.head);
        }
        let heads: Vec<Head> = pending.iter().map(|job| job.head).collect();
        ties.look(&heads, cores);
    }
    ties
}

/// The taken entries.
fn jobs(plan: &Plan, log: &Log, outcomes: &[Outcome]) -> Vec<Job> {
    let (mut jobs, mut last) = (Vec::new(), vec![0; plan.tasks.len()]);
    for (entry, outcome) in log.entries.iter().zip(outcomes) {
        if let Outcome::Finished(finish) = *outcome {
            let (task, release) = (usize::from(entry.task), u64::from(entry.tick));
            let point = release + u64::from(plan.tasks[task].offset);
            let from = release.max(last[task]);
            assert!(from < finish, "{entry:?} of {log:?} does not run");
            last[task] = finish;
            let head = Head { point, release, task };
            jobs.push(Job { head, demand: u64::from(entry.demand), from, finish, ran: 0 });
        }
    }
    jobs
}
