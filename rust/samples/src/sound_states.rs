//! Engine states that are sound: busy ones, ones with equal priority points, and ones near the
//! clock's end. Not all of them can be reached from an opening.

use crate::plain_tables::{offset, without_slack};
use crate::{Random, Shape, any_tight, either, mixed, offered, steep};
use reference::{Job, LAST_TICK, MOST_JOBS, Plan, State, Table, Task, judge, open, set_queue};

/// Separations whose least common multiple is 120.
const BRISK: [u32; 10] = [2, 3, 4, 5, 6, 8, 10, 12, 15, 20];

/// An accepted plan: one of short tasks, whose jobs finish within a few ticks, or of any of the
/// tables that the judgement is compared on.
pub fn accepted_plan(random: &mut Random) -> Plan {
    loop {
        let table = match random.index(8) {
            0 => mixed(random),
            1 => steep(random),
            2 => offered(random),
            3 => any_tight(random),
            _ => {
                let shape = Shape::any(random);
                let table = brisk(random, shape);
                either(random, table)
            }
        };
        if let Ok(plan) = judge(&table.bytes()) {
            return plan;
        }
    }
}

/// A table of short tasks, in edition 1; most are accepted.
pub fn brisk(random: &mut Random, shape: Shape) -> Table {
    let most = 1 + shape.cores as u32;
    let tasks = (0..shape.tasks).map(|_| {
        let separation = random.pick(&BRISK);
        let share = (separation * most / shape.tasks as u32).clamp(1, separation);
        let budget = random.between(1, share);
        Task::new(separation, budget, offset(random, separation))
    });
    let tasks = tasks.collect();
    without_slack(random, shape.cores, tasks)
}

/// A sound state of a plan, at any clock, each task with any number of jobs.
pub fn sound(random: &mut Random, plan: &Plan) -> State {
    let mut state = open(plan);
    state.clock = clock(random);
    let full = random.once_in(2);
    for task in 0..plan.tasks.len() {
        let jobs = match random.index(6) {
            0 => 0,
            1 => 1,
            2 => MOST_JOBS - 1,
            3 => MOST_JOBS,
            _ => random.index(MOST_JOBS + 1),
        };
        let newest = newest(random, state.clock, plan.tasks[task].separation);
        pend(random, &mut state, task, newest, if full { MOST_JOBS } else { jobs });
    }
    state
}

/// A sound state in which each task has a job and the priority points are equal or one apart. Of two
/// with equal points the one with the larger offset was released earlier.
pub fn tied(random: &mut Random, plan: &Plan) -> State {
    let mut state = open(plan);
    state.clock = random.between(300_000, LAST_TICK - 1);
    for task in 0..plan.tasks.len() {
        let release = state.clock - plan.tasks[task].offset - random.between(0, 1);
        pend(random, &mut state, task, Some(release), 1);
    }
    state
}

/// A sound state in which every task of the plan holds 16 jobs.
pub fn busy(random: &mut Random, plan: &Plan) -> State {
    pending(random, plan, MOST_JOBS, 0)
}

/// A sound state in which every task of the plan holds 15 jobs and can be released.
pub fn ready(random: &mut Random, plan: &Plan) -> State {
    pending(random, plan, MOST_JOBS - 1, 1)
}

/// A sound state in which every task holds so many jobs, its last release at least `ago` times its
/// separation before the clock.
fn pending(random: &mut Random, plan: &Plan, jobs: usize, ago: u32) -> State {
    let mut state = open(plan);
    let longest = plan.tasks.iter().map(|task| task.separation).max().expect("a plan has tasks");
    state.clock = random.between(40 * longest, LAST_TICK - 100_000);
    for (task, entry) in plan.tasks.iter().enumerate() {
        let newest = state.clock - ago * entry.separation - random.between(0, entry.separation);
        pend(random, &mut state, task, Some(newest), jobs);
    }
    state
}

/// A clock at or near either of its ends, or anywhere.
fn clock(random: &mut Random) -> u32 {
    match random.index(8) {
        0 => 0,
        1 => random.between(0, 2000),
        2 => LAST_TICK,
        3 => LAST_TICK - 1,
        4 => LAST_TICK - random.between(0, 20),
        _ => random.between(0, LAST_TICK),
    }
}

/// The last taken release: none, at the clock, just within or just past the separation, or some
/// time ago.
fn newest(random: &mut Random, clock: u32, separation: u32) -> Option<u32> {
    let ago = match random.index(8) {
        0 => return None,
        1 => 0,
        2 | 3 => separation,
        4 => separation - 1,
        _ => random.between(0, 3 * separation),
    };
    clock.checked_sub(ago)
}

/// The task's last taken release, with up to so many pending jobs before and at it, their releases
/// exactly or more than T apart.
fn pend(random: &mut Random, state: &mut State, task: usize, newest: Option<u32>, jobs: usize) {
    let Task { separation, budget, .. } = state.tasks[task];
    state.released[task] = newest.is_some();
    state.last[task] = newest.unwrap_or(0);
    let mut queue = Vec::new();
    let mut next = newest;
    while let Some(release) = next.filter(|_| queue.len() < jobs) {
        let remaining = match random.index(4) {
            0 => 1,
            1 => budget,
            _ => random.between(1, budget),
        };
        queue.push(Job { release, remaining });
        let gap = separation + if random.once_in(2) { 0 } else { random.between(0, separation) };
        next = release.checked_sub(gap);
    }
    queue.reverse();
    set_queue(state, task, &queue);
}
