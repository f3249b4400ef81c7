//! Engine states damaged in one clause of soundness, the others kept where that is possible.

use crate::Random;
use crate::editions::LONGEST_DEADLINE;
use reference::{LAST_TICK, MOST_JOBS, State, Task};

/// The largest count that a word has.
const LARGEST: usize = u32::MAX as usize;

type Damage = fn(&mut Random, &mut State);

const DAMAGES: [Damage; 24] = [
    edition,
    deadline_in_table,
    |random, state| state.tasks[outside(random, state)].deadline = deadline(random),
    |random, state| state.slack[in_table(random, state)] ^= 1,
    |_, state| state.offered ^= true,
    |random, state| {
        state.offered = true;
        state.slack[in_table(random, state)] ^= 1;
    },
    |random, state| {
        let core = random.index(state.cores.max(1));
        state.labels[core] = random.pick(&[0, 63, 64, 255]);
    },
    |random, state| state.cores = random.pick(&[0, 1, 2, 8, 9, LARGEST]),
    |random, state| state.count = random.pick(&[0, 2, state.cores, 15, 16, 17, LARGEST]),
    entry,
    unused_label,
    unused_task,
    unused_place,
    |random, state| state.jobs[outside(random, state)] = 1,
    |random, state| state.released[outside(random, state)] = true,
    |random, state| state.last[outside(random, state)] = 1,
    tick_without_release,
    |random, state| state.clock = random.pick(&[LAST_TICK + 1, u32::MAX]),
    |random, state| {
        state.jobs[in_table(random, state)] = random.pick(&[17, 18, 32, 256, LARGEST]);
    },
    too_close,
    work,
    |random, state| state.released[in_table(random, state)] ^= true,
    last_beside_newest,
    after_clock,
];

/// The state with one thing in it changed.
pub fn damaged_state(random: &mut Random, mut state: State) -> State {
    let damage = random.pick(&DAMAGES);
    damage(random, &mut state);
    state
}

fn in_table(random: &mut Random, state: &State) -> usize {
    random.index(state.count.clamp(1, 16))
}

/// A task that is not in the table, or the last one where all are.
fn outside(random: &mut Random, state: &State) -> usize {
    let first = state.count.min(15);
    first + random.index(16 - first)
}

/// A task with at least so many jobs, if one is found soon.
fn with_jobs(random: &mut Random, state: &State, jobs: usize) -> Option<usize> {
    let mut tries = (0..32).map(|_| in_table(random, state));
    tries.find(|&task| (jobs..=MOST_JOBS).contains(&state.jobs[task]))
}

/// Editions 1 and 2 exchanged, with the deadlines as they were; or no edition at all.
fn edition(random: &mut Random, state: &mut State) {
    let exchanged = 3 - state.edition;
    state.edition = random.pick(&[exchanged, exchanged, 0, 3, 255]);
}

/// Of one task of the table or, now and then, of each.
fn deadline_in_table(random: &mut Random, state: &mut State) {
    let deadline = deadline(random);
    if random.once_in(4) {
        let used = state.count.min(16);
        state.tasks[..used].iter_mut().for_each(|task| task.deadline = deadline);
    } else {
        state.tasks[in_table(random, state)].deadline = deadline;
    }
}

/// A deadline at either end of its range or beside it.
fn deadline(random: &mut Random) -> u32 {
    random.pick(&[0, 1, LONGEST_DEADLINE, LONGEST_DEADLINE + 1, u32::MAX])
}

/// A number of an entry at, just above or far above what it may be.
fn entry(random: &mut Random, state: &mut State) {
    let place = random.index(16);
    let Task { separation, budget, offset, .. } = state.tasks[place];
    let task = &mut state.tasks[place];
    match random.index(3) {
        0 => task.separation = random.pick(&[0, budget, 100_001, separation.saturating_add(1)]),
        1 => task.budget = random.pick(&[0, separation.saturating_add(1), u32::MAX]),
        _ => task.offset = random.pick(&[separation.saturating_add(1), offset ^ 1, u32::MAX]),
    }
}

fn unused_label(random: &mut Random, state: &mut State) {
    let first = state.cores.min(7);
    state.labels[first + random.index(8 - first)] = random.pick(&[1, 63, 255]);
}

fn unused_task(random: &mut Random, state: &mut State) {
    let task = outside(random, state);
    match random.index(4) {
        0 => state.tasks[task].separation = 1,
        1 => state.tasks[task].budget = 1,
        2 => state.tasks[task].offset = 1,
        _ => state.slack[task] = 1,
    }
}

fn unused_place(random: &mut Random, state: &mut State) {
    let task = random.index(16);
    let first = state.jobs[task].min(MOST_JOBS - 1);
    let place = MOST_JOBS * task + first + random.index(MOST_JOBS - first);
    if random.once_in(2) {
        state.remaining[place] = 1;
    } else {
        state.release[place] = 1;
    }
}

fn tick_without_release(random: &mut Random, state: &mut State) {
    let task = random.index(16);
    if state.jobs[task] == 0 {
        state.released[task] = false;
        state.last[task] = random.between(1, 1000).min(state.clock.max(1));
    }
}

/// Two releases one tick less than T apart.
fn too_close(random: &mut Random, state: &mut State) {
    if let Some(task) = with_jobs(random, state, 2) {
        let second = MOST_JOBS * task + 1;
        state.release[second - 1] = state.release[second] + 1 - state.tasks[task].separation;
    }
}

fn work(random: &mut Random, state: &mut State) {
    if let Some(task) = with_jobs(random, state, 1) {
        let place = MOST_JOBS * task + random.index(state.jobs[task]);
        state.remaining[place] = random.pick(&[0, state.tasks[task].budget + 1, u32::MAX]);
    }
}

fn last_beside_newest(random: &mut Random, state: &mut State) {
    if let Some(task) = with_jobs(random, state, 1) {
        let newest = state.last[task];
        state.last[task] = random.pick(&[newest.saturating_sub(1), newest + 1, 0]);
    }
}

/// A last taken release one tick after the clock, pending or not.
fn after_clock(random: &mut Random, state: &mut State) {
    let task = in_table(random, state);
    let tick = state.clock + 1;
    state.released[task] = true;
    state.last[task] = tick;
    if (1..=MOST_JOBS).contains(&state.jobs[task]) {
        state.release[MOST_JOBS * task + state.jobs[task] - 1] = tick;
    }
}
