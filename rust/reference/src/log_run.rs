//! Document 01's part "Release logs": a log run, tick by tick, on a machine of its own.
//!
//! When a release finishes is not asked of the machine: it is counted from the steps' answers, as
//! the document defines it. Ticks are 64 bits wide, and a sum that wraps stops the run.

use std::collections::VecDeque;

use crate::{Entry, Log, MOST_JOBS, Plan, judge};
use records::Refusal;

/// What the 8 bytes of an entry say.
#[derive(Clone, Copy, Debug, PartialEq, Eq)]
pub enum Outcome {
    /// "kind 1 and finish tick".
    Finished(u64),
    /// "or kind 2 and refusal number".
    Refused(u32),
}

/// The C log run: "For each entry 8 bytes are written [..]. Bytes beyond these stay. The call
/// returns how many were taken and how many refused." On a refusal "nothing lent is written".
pub fn run_log(table: &[u8], log: &[u8], out: &mut [u8]) -> Result<(usize, usize), Refusal> {
    // "A log run judges the table first." Then 14 and 15.
    let plan = judge(table)?;
    let log = Log::read(log)?;
    // 16: "The lent answer is shorter than 8 × count."
    if out.len() < 8 * log.entries.len() {
        return Err(Refusal::whole(16));
    }
    let outcomes = outcomes(&plan, &log);
    for (bytes, outcome) in out.chunks_mut(8).zip(&outcomes) {
        let (kind, value): (u32, u32) = match *outcome {
            Outcome::Finished(tick) => (1, u32::try_from(tick).expect("a finish tick fits")),
            Outcome::Refused(number) => (2, number),
        };
        bytes[..4].copy_from_slice(&kind.to_le_bytes());
        bytes[4..].copy_from_slice(&value.to_le_bytes());
    }
    let taken = outcomes.iter().filter(|outcome| matches!(outcome, Outcome::Finished(_))).count();
    Ok((taken, outcomes.len() - taken))
}

/// The outcome of each entry of a log that passes 14 and 15, on an accepted plan.
pub fn outcomes(plan: &Plan, log: &Log) -> Vec<Outcome> {
    let mut run = Run::open(plan);
    let mut refused = Vec::new();
    // "An entry's tick is below the largest tick before it, of taken and refused entries alike".
    let mut largest = 0;
    for (index, entry) in log.entries.iter().enumerate() {
        if entry.tick < largest {
            refused.push((index, 17));
            continue;
        }
        largest = entry.tick;
        if let Err(number) = run.hand(index, entry) {
            refused.push((index, number));
        }
    }
    // "After the last entry it steps until nothing is pending."
    while run.machine.pending() {
        run.step();
    }
    let finished = run.finished.into_iter().map(|(index, tick)| (index, Outcome::Finished(tick)));
    let refused = refused.into_iter().map(|(index, number)| (index, Outcome::Refused(number)));
    let mut outcomes: Vec<(usize, Outcome)> = finished.chain(refused).collect();
    outcomes.sort_by_key(|(index, _)| *index);
    assert_eq!(outcomes.len(), log.entries.len(), "every entry has an outcome");
    outcomes.into_iter().map(|(_, outcome)| outcome).collect()
}

/// A run since its opening: the machine, and what its answers have said so far.
struct Run<'a> {
    machine: Machine<'a>,
    steps: u64,
    /// In how many ticks the answers have named each task as running.
    named: Vec<u64>,
    /// The demands of each task's taken releases together.
    demanded: Vec<u64>,
    /// The taken releases of each task that have not finished: entry, and what `named` is to reach.
    taken: Vec<VecDeque<(usize, u64)>>,
    /// The entries whose releases have finished, with their finish ticks.
    finished: Vec<(usize, u64)>,
}

impl Run<'_> {
    /// "The engine is opened anew".
    fn open(plan: &Plan) -> Run<'_> {
        let tasks = plan.tasks.len();
        Run {
            machine: Machine::open(plan),
            steps: 0,
            named: vec![0; tasks],
            demanded: vec![0; tasks],
            taken: vec![VecDeque::new(); tasks],
            finished: Vec::new(),
        }
    }

    /// "stepped up to an entry's tick where that is later than its clock, and handed the release".
    fn hand(&mut self, index: usize, entry: &Entry) -> Result<(), u32> {
        while u64::from(entry.tick) > self.machine.clock {
            self.step();
        }
        self.machine.release(entry.task, entry.demand)?;
        let task = usize::from(entry.task);
        self.demanded[task] += u64::from(entry.demand);
        self.taken[task].push_back((index, self.demanded[task]));
        Ok(())
    }

    /// "The k-th taken release of a loop *finishes* with the first step by which the steps' answers
    /// since the opening have named that loop as running in as many ticks as its first k taken
    /// releases demand together. Its finish tick is the clock after that step".
    fn step(&mut self) {
        let answer = self.machine.step();
        self.steps += 1;
        assert_eq!(self.machine.clock, self.steps, "the clock is the number of steps");
        for task in answer.into_iter().flatten() {
            self.named[task] += 1;
            let oldest = self.taken[task].front().copied();
            if let Some((index, sum)) = oldest
                && sum == self.named[task]
            {
                self.taken[task].pop_front();
                self.finished.push((index, self.steps));
            }
        }
    }
}

struct Job {
    release: u64,
    remaining: u64,
}

/// The engine of document 01 as far as a log run needs it. It does not test its state for
/// soundness, as `release` and `step` do: a run would then judge the table in every tick.
struct Machine<'a> {
    plan: &'a Plan,
    clock: u64,
    /// The unfinished jobs of each task, oldest first.
    jobs: Vec<VecDeque<Job>>,
    /// The last taken release of each task.
    last: Vec<Option<u64>>,
}

impl Machine<'_> {
    /// "at tick 0 with nothing pending".
    fn open(plan: &Plan) -> Machine<'_> {
        let tasks = plan.tasks.len();
        let jobs = (0..tasks).map(|_| VecDeque::new()).collect();
        Machine { plan, clock: 0, jobs, last: vec![None; tasks] }
    }

    /// "A taken release adds one job, released at the clock, with its demand as remaining work".
    fn release(&mut self, task: u8, demand: u32) -> Result<(), u32> {
        let task = usize::from(task);
        // 20: "The loop isn't in the table."
        let entry = self.plan.tasks.get(task).ok_or(20u32)?;
        // 21: "The demand is not 1 to C."
        if !(1..=entry.budget).contains(&demand) {
            return Err(21);
        }
        // 22: "The loop's last taken release is less than T ticks ago."
        if self.last[task].is_some_and(|last| self.clock - last < u64::from(entry.separation)) {
            return Err(22);
        }
        // 23: "The loop already holds 16 jobs".
        if self.jobs[task].len() == MOST_JOBS {
            return Err(23);
        }
        self.jobs[task].push_back(Job { release: self.clock, remaining: u64::from(demand) });
        self.last[task] = Some(self.clock);
        Ok(())
    }

    /// "At each step the m of these with the earliest priority points run for one tick, all of them
    /// if fewer". "Among equal priority points the earlier release now runs first, and the lower
    /// loop only if these are equal too." "They take the cores in that order". The answer has the
    /// task that ran on each core.
    fn step(&mut self) -> Vec<Option<usize>> {
        let cores = self.plan.labels.len();
        // Point, release and task of each: they are compared in turn.
        let mut heads: Vec<(u64, u64, usize)> = Vec::new();
        for (task, jobs) in self.jobs.iter().enumerate() {
            // "Only the oldest unfinished job of each loop may run." "A job's priority point is its
            // release tick + Y."
            if let Some(&Job { release, .. }) = jobs.front() {
                let point = release + u64::from(self.plan.tasks[task].offset);
                heads.push((point, release, task));
            }
        }
        heads.sort();
        heads.truncate(cores);
        let mut answer = vec![None; cores];
        for (core, (_, _, task)) in heads.into_iter().enumerate() {
            answer[core] = Some(task);
            let oldest = &mut self.jobs[task][0];
            // "each tick it runs takes 1 off, and at 0 it is finished."
            oldest.remaining -= 1;
            if oldest.remaining == 0 {
                self.jobs[task].pop_front();
            }
        }
        // "Then the clock rises by 1."
        self.clock += 1;
        answer
    }

    fn pending(&self) -> bool {
        self.jobs.iter().any(|jobs| !jobs.is_empty())
    }
}
