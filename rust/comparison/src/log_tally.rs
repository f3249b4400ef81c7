//! What the compared logs met, so that a run can show that it was not empty.

use crate::counts::Counts;
use crate::ties::Ties;
use reference::{Entry, Log, Outcome, Plan, Refusal};

/// How many calls met each refusal number, how many entries did, and how many of either lay at an
/// edge, by a name that says which.
#[derive(Default)]
pub struct LogTally {
    logs: u64,
    calls: Counts<u32>,
    entries: Counts<u32>,
    named: Counts<&'static str>,
}

impl LogTally {
    /// All logs that were counted.
    pub fn logs(&self) -> u64 {
        self.logs
    }

    /// Calls that met this refusal number.
    pub fn calls(&self, number: u32) -> u64 {
        self.calls.of(&number)
    }

    /// Entries that met this refusal number.
    pub fn entries(&self, number: u32) -> u64 {
        self.entries.of(&number)
    }

    /// Calls or entries of this name.
    pub fn named(&self, name: &'static str) -> u64 {
        self.named.of(&name)
    }

    /// Adds what another part of the run has counted.
    pub fn add(&mut self, other: LogTally) {
        self.logs += other.logs;
        self.calls.add(other.calls);
        self.entries.add(other.entries);
        self.named.add(other.named);
    }

    pub fn print(&self) {
        println!("{} logs", self.logs);
        self.calls.print("calls refused ");
        self.entries.print("entries refused ");
        self.named.print("");
    }

    pub(crate) fn count_refused(&mut self, refusal: Refusal, log: &[u8], lent: usize) {
        let Refusal { number, index } = refusal;
        self.logs += 1;
        self.calls.count(number);
        let needed = 8 * (log.len().saturating_sub(2) / 9);
        match number {
            1..=13 | 28 => {
                self.named.count_if(Log::read(log).is_err(), "table refused, and the log too")
            }
            14 => self.named.count_if(log.len() < 2, "refused 14, count absent"),
            15 => {
                self.named.count_if(index > 0, "refused 15, index above 0");
                self.named.count_if(lent < needed, "refused 15, and the answer too short");
            }
            _ => {
                self.named.count_if(lent == 0, "refused 16, answer empty");
                self.named.count_if(lent + 1 == needed, "refused 16, answer one byte short");
            }
        }
    }

    pub(crate) fn count_buffer(&mut self, length: usize, needed: usize) {
        self.named.count_if(length == needed, "run, answer exactly long enough");
        self.named.count_if(length > needed, "run, answer longer");
    }

    pub(crate) fn count_run(&mut self, plan: &Plan, log: &Log, outcomes: &[Outcome], keeps: bool) {
        self.logs += 1;
        let entries = &log.entries;
        self.named.count_if(keeps, "run, log keeps the table");
        self.named.count_if(!keeps, "run, log does not keep the table");
        self.named.count_if(plan.offered, "run, slack offered");
        self.named.count_if(plan.edition == 1, "run, edition 1");
        self.named.count_if(plan.edition == 2, "run, edition 2");
        self.named.count_if(entries.is_empty(), "run, log empty");
        if plan.is_few() {
            self.count_few(plan, keeps);
        }
        let largest = entries.iter().map(|entry| entry.tick).max();
        self.named.count_if(largest == Some(1_000_000_000), "run, largest tick 1,000,000,000");
        self.named.count_if(largest >= Some(5_000), "run, largest tick from 5,000");
        self.named.count_if(entries.len() > 1_000, "run, more than 1,000 entries");
        let mut past = vec![Past::default(); plan.tasks.len()];
        let (mut before, mut end) = (None, 0);
        for (entry, outcome) in entries.iter().zip(outcomes) {
            let same = before == Some(entry.tick);
            self.named.count_if(same, "entry, at the tick of the one before");
            before = Some(entry.tick);
            match *outcome {
                Outcome::Refused(number) => self.count_refused_entry(plan, &past, entry, number),
                Outcome::Finished(finish) => {
                    let idle = u64::from(entry.tick) > end + 100_000;
                    self.named.count_if(idle, "taken, after 100,000 idle ticks");
                    end = end.max(finish);
                    self.count_taken(plan, &mut past, entry, finish);
                }
            }
        }
    }

    pub(crate) fn count_ties(&mut self, ties: &Ties) {
        self.named.count_if(ties.one_waits, "run, of two equal points one waits");
        self.named.count_if(
            ties.one_waits_by_release,
            "run, of two equal points the older runs, a lower loop waits",
        );
        self.named
            .count_if(ties.one_waits_by_loop, "run, of two equal points and releases one waits");
    }

    fn count_few(&mut self, plan: &Plan, keeps: bool) {
        let (cores, tasks) = (plan.labels.len(), plan.tasks.len());
        self.named.count("few loops, run");
        self.named.count_if(tasks == 1, "few loops, run, n = 1");
        self.named.count_if(1 < tasks && tasks < cores, "few loops, run, 1 < n < m");
        self.named.count_if(tasks == cores, "few loops, run, n = m");
        self.named.count_if(keeps, "few loops, run, log keeps the table");
        self.named.count_if(!keeps, "few loops, run, log does not keep the table");
    }

    fn count_refused_entry(&mut self, plan: &Plan, past: &[Past], entry: &Entry, number: u32) {
        self.entries.count(number);
        self.named.count_if(plan.is_few(), "few loops, entry refused");
        let task = usize::from(entry.task);
        match number {
            20 => self.named.count_if(task == plan.tasks.len(), "refused 20, first loop outside"),
            21 => {
                let budget = plan.tasks[task].budget;
                self.named.count_if(entry.demand == 0, "refused 21, demand 0");
                self.named.count_if(entry.demand == budget + 1, "refused 21, demand C + 1");
            }
            22 => {
                let last = past[task].last.expect("22 has a last taken release");
                let soon = entry.tick + 1 == last + plan.tasks[task].separation;
                self.named.count_if(soon, "refused 22, one tick too soon");
                self.named
                    .count_if(entry.tick == last, "refused 22, at the tick of the last taken");
            }
            _ => {}
        }
    }

    fn count_taken(&mut self, plan: &Plan, past: &mut [Past], entry: &Entry, finish: u64) {
        let place = usize::from(entry.task);
        let (task, past) = (&plan.tasks[place], &mut past[place]);
        self.named.count_if(true, "taken");
        let exactly = past.last.is_some_and(|last| entry.tick == last + task.separation);
        self.named.count_if(exactly, "taken, exactly T after the last taken");
        self.named.count_if(entry.demand == task.budget, "taken, demand C");
        self.named.count_if(entry.demand > 65_535, "taken, demand above 65,535");
        let took = u128::from(finish) - u128::from(entry.tick);
        self.named
            .count_if(took > u128::from(entry.demand), "taken, waits for a core or its own loop");
        let few = plan.is_few();
        self.named.count_if(few, "few loops, taken");
        let at_once = took == u128::from(entry.demand);
        self.named.count_if(few && at_once, "few loops, taken, finishes after its demand");
        self.named.count_if(few && took == plan.bound(place), "few loops, taken, takes its bound");
        let near = took + 2 >= plan.bound(place);
        self.named.count_if(near, "taken, finishes within 2 ticks of its bound");
        past.last = Some(entry.tick);
        past.unfinished.retain(|&finish| finish > u64::from(entry.tick));
        past.unfinished.push(finish);
        self.named
            .count_if(past.unfinished.len() >= 2, "taken, its loop then holds 2 jobs or more");
        self.named
            .count_if(past.unfinished.len() >= 8, "taken, its loop then holds 8 jobs or more");
    }
}

/// What a task's taken releases were so far.
#[derive(Clone, Default)]
struct Past {
    last: Option<u32>,
    /// The finish ticks of those that were not finished at the last taken release.
    unfinished: Vec<u64>,
}
