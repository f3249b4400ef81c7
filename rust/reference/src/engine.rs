//! Document 01's part "The engine": a release and a step, with refusals 18 to 23.

use crate::state::{Job, LAST_TICK, MOST_JOBS, State, broken, known, queue, set_queue};
use records::{Refusal, Report};

/// What a release answers, and the state that it hands back.
#[derive(Clone, Debug, PartialEq, Eq)]
pub struct Released {
    pub answer: Result<(), Refusal>,
    pub state: State,
}

/// What a step answers, and the state that it hands back.
#[derive(Clone, Debug, PartialEq, Eq)]
pub struct Stepped {
    pub answer: Result<(), Refusal>,
    pub state: State,
    /// "for each core which loop ran or that it was idle, and which loops finished, with finish
    /// tick minus release tick (0 for a loop that didn't)"
    pub report: Report,
}

/// Hands the engine a release. On a refusal "the state returned is the one handed in".
pub fn release(state: &State, task: usize, demand: u32) -> Released {
    let mut state = state.clone();
    let answer = test_release(&state, task, demand);
    if answer.is_ok() {
        // "A taken release adds one job, released at the clock, with its demand as remaining work"
        let mut jobs = queue(&state, task);
        jobs.push(Job { release: state.clock, remaining: demand });
        set_queue(&mut state, task, &jobs);
        state.released[task] = true;
        state.last[task] = state.clock;
    }
    Released { answer, state }
}

/// Steps the engine by one tick. "a refused step names every core idle and no loop finished".
pub fn step(state: &State) -> Stepped {
    let mut state = state.clone();
    let answer = test_step(&state);
    let mut report = Report::IDLE;
    if answer.is_ok() {
        let running = chosen(&state);
        // "Then the clock rises by 1. A job finishes at the clock value after its last tick."
        state.clock += 1;
        for (core, &task) in running.iter().enumerate() {
            // "They take the cores in that order, the earliest on the lowest label."
            report.runs[core] = task as u8;
            report.responses[task] = run(&mut state, task);
        }
    }
    Stepped { answer, state, report }
}

/// 18 and 19.
fn test_step(state: &State) -> Result<(), Refusal> {
    // 18: "The engine state isn't sound."
    if !broken(state).is_empty() {
        return Err(Refusal::whole(18));
    }
    // 19: "The clock stands at 4,000,000,000 (step and release)."
    if state.clock == LAST_TICK {
        return Err(Refusal::whole(19));
    }
    Ok(())
}

/// "a release [tests] 18 to 23".
fn test_release(state: &State, task: usize, demand: u32) -> Result<(), Refusal> {
    test_step(state)?;
    // 20: "The loop isn't in the table."
    if task >= state.count {
        return Err(Refusal::whole(20));
    }
    // 21: "The demand is not 1 to C."
    if !(1..=state.tasks[task].budget).contains(&demand) {
        return Err(Refusal::whole(21));
    }
    // 22: "The loop's last taken release is less than T ticks ago."
    if state.released[task] && state.clock - state.last[task] < state.tasks[task].separation {
        return Err(Refusal::whole(22));
    }
    // 23: "The loop already holds 16 jobs".
    if state.jobs[task] == MOST_JOBS {
        return Err(Refusal::whole(23));
    }
    Ok(())
}

/// The oldest unfinished job of a task, by what decides when it runs. Heads compare by their
/// fields in turn: "the m of these with the earliest priority points run" and, by document 02, §8,
/// "Among equal priority points the earlier release now runs first, and the lower loop only if
/// these are equal too."
#[derive(Clone, Copy, Debug, PartialEq, Eq, PartialOrd, Ord)]
pub struct Head {
    /// "A job's priority point is its release tick + Y."
    pub point: u64,
    pub release: u64,
    pub task: usize,
}

/// "Only the oldest unfinished job of each loop may run." In the order in which they go first.
pub fn heads(state: &State) -> Vec<Head> {
    let head = |task: usize| {
        let release = u64::from(queue(state, task).first()?.release);
        let point = release + u64::from(state.tasks[task].offset);
        Some(Head { point, release, task })
    };
    let mut heads: Vec<Head> = known(state).filter_map(head).collect();
    heads.sort();
    heads
}

/// "At each step the m of these […] run for one tick, all of them if fewer": the tasks that run, in
/// the order of their heads.
fn chosen(state: &State) -> Vec<usize> {
    heads(state).into_iter().take(state.cores).map(|head| head.task).collect()
}

/// "each tick it runs takes 1 off, and at 0 it is finished." The response of a job that finishes at
/// the clock, or 0.
fn run(state: &mut State, task: usize) -> u32 {
    let mut jobs = queue(state, task);
    jobs[0].remaining -= 1;
    let mut response = 0;
    if jobs[0].remaining == 0 {
        response = state.clock - jobs[0].release;
        jobs.remove(0);
    }
    set_queue(state, task, &jobs);
    response
}
